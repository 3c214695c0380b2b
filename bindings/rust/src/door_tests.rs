//! The proved functions themselves: numbers that ask no call, every number of a state, states that no begin wrote.

use super::*;
use std::vec::Vec;

const MISUSE: u8 = 1;
const PLAIN: Memory = Memory::Lengths {
    address: 0,
    size: 0,
};

fn read() -> Fields {
    Fields {
        call: 7,
        flags: 1,
        value: 0x2101,
        sub: 0,
        memory: PLAIN,
        overall: 0,
        limit: NO_LIMIT,
        addressed: false,
        listens: 0,
    }
}

fn alfid() -> Fields {
    Fields {
        call: 5,
        value: 0,
        memory: Memory::Alfid(Alfid {
            address: 1,
            size: 1,
            address_width: 1,
            size_width: 1,
            wide: false,
        }),
        ..read()
    }
}

/// The result, and whether request and answer are as they were.
fn tried(fields: Fields, arguments: &[u8]) -> (u8, bool) {
    let (mut request, mut answer) = ([0xa5; 64], [77; number::COUNT]);
    let lent = Lent {
        request: &mut request,
        events: &[],
        replies: &[],
    };
    let result = match fields.memory {
        Memory::Lengths { address, size } => call(
            &fields,
            [address, size],
            fields.addressed,
            [50, 5000],
            arguments,
            lent,
            &mut answer,
        ),
        Memory::Alfid(alfid) => call_alfid(
            &fields,
            &alfid,
            fields.addressed,
            [50, 5000],
            arguments,
            lent,
            &mut answer,
        ),
    };
    let untouched = request == [0xa5; 64] && answer == [77; number::COUNT];
    (result, untouched)
}

/// The same of beginning the call.
fn begun(fields: Fields, arguments: &[u8]) -> (u8, bool) {
    let (mut request, mut state) = ([0xa5; 64], [77; STATE]);
    let result = match fields.memory {
        Memory::Lengths { address, size } => begin(
            &fields,
            [address, size],
            [50, 5000],
            arguments,
            &mut request,
            &mut state,
        ),
        Memory::Alfid(alfid) => begin_alfid(
            &fields,
            &alfid,
            [50, 5000],
            arguments,
            &mut request,
            &mut state,
        ),
    };
    (result, request == [0xa5; 64] && state == [77; STATE])
}

/// The same of both, which agree.
fn either(fields: Fields, arguments: &[u8]) -> (u8, bool) {
    let tried = tried(fields, arguments);
    assert_eq!(begun(fields, arguments), tried, "{fields:?}");
    tried
}

#[test]
fn numbers_that_ask_a_call() {
    assert_eq!(either(read(), &[]), (DONE, false));
    let write = Fields {
        call: 8,
        flags: 33,
        ..read()
    };
    assert_eq!(either(write, &[1, 2]), (DONE, false));
    let memory = Memory::Lengths {
        address: 2,
        size: 1,
    };
    let memory = Fields {
        call: 5,
        value: 0,
        memory,
        ..read()
    };
    assert_eq!(either(memory, &[0x20, 0, 4]), (DONE, false));
    let faults = Fields {
        call: 15,
        value: 255,
        ..read()
    };
    assert_eq!(either(faults, &[]), (DONE, false));
    for limit in [0, 1, 255, NO_LIMIT] {
        let limited = |fields| Fields { limit, ..fields };
        assert_eq!(either(limited(read()), &[]), (DONE, false), "{limit}");
        assert_eq!(either(limited(alfid()), &[]), (DONE, false), "{limit}");
    }
    for listens in [0, 1, 0x7e8, 65535] {
        let listening = |fields| Fields {
            addressed: true,
            listens,
            ..fields
        };
        assert_eq!(either(listening(read()), &[]), (DONE, false), "{listens}");
        assert_eq!(either(listening(alfid()), &[]), (DONE, false), "{listens}");
    }
}

#[test]
fn numbers_that_ask_none_touch_nothing() {
    let misuse = [
        (
            Fields {
                call: 16,
                value: 0,
                ..read()
            },
            &[][..],
        ),
        (
            Fields {
                call: 255,
                ..read()
            },
            &[],
        ),
        (
            Fields {
                flags: 64,
                ..read()
            },
            &[],
        ),
        (
            Fields {
                flags: 16,
                ..read()
            },
            &[],
        ),
        (
            Fields {
                flags: 32,
                ..read()
            },
            &[],
        ),
        (Fields { call: 8, ..read() }, &[]),
        (Fields { sub: 1, ..read() }, &[]),
        (
            Fields {
                overall: 1,
                ..read()
            },
            &[],
        ),
        (
            Fields {
                memory: Memory::Lengths {
                    address: 1,
                    size: 0,
                },
                ..read()
            },
            &[1],
        ),
        (
            Fields {
                call: 13,
                value: 256,
                ..read()
            },
            &[],
        ),
        (
            Fields {
                call: 15,
                value: 256,
                ..read()
            },
            &[],
        ),
        (
            Fields {
                call: 15,
                flags: 33,
                value: 8,
                ..read()
            },
            &[],
        ),
        (read(), &[1]),
        (
            Fields {
                call: 5,
                value: 0,
                memory: Memory::Lengths {
                    address: 2,
                    size: 2,
                },
                ..read()
            },
            &[1, 2, 3],
        ),
        (
            Fields {
                call: 5,
                value: 0,
                memory: Memory::Lengths {
                    address: 1,
                    size: 1,
                },
                ..read()
            },
            &[1, 2, 3],
        ),
        (
            Fields {
                memory: Memory::Alfid(Alfid {
                    address: 1,
                    size: 1,
                    address_width: 1,
                    size_width: 1,
                    wide: false,
                }),
                ..read()
            },
            &[],
        ),
    ];
    for (fields, arguments) in misuse {
        assert_eq!(either(fields, arguments), (MISUSE, true), "{fields:?}");
    }
    for limit in [256, 257, 32768, NO_LIMIT - 1] {
        for fields in [read(), alfid()] {
            let fields = Fields { limit, ..fields };
            assert_eq!(either(fields, &[]), (MISUSE, true), "{fields:?}");
        }
    }
    // An engine's events always have a source.
    for listens in [1, 255, 256, 0x7e8, 65535] {
        for fields in [read(), alfid()] {
            let fields = Fields { listens, ..fields };
            assert_eq!(tried(fields, &[]), (MISUSE, true), "{fields:?}");
            assert_eq!(begun(fields, &[]), (DONE, false), "{fields:?}");
        }
    }
}

/// Every number of a state: begun, behind a notice and a tick, and settled, where the first fifteen are the call's.
#[test]
fn every_number_of_a_state() {
    let fields = Fields {
        flags: 3 + 8,
        overall: 900,
        limit: 2,
        addressed: true,
        listens: 0x7e8,
        ..read()
    };
    let asked = [7, 11, 0x2101, 0, 900, 2, 0x7e8, 0, 0];
    let waiting = |deadline, read, notices, last| -> State {
        let head = [
            WAITING, 0, 0, 0, deadline, read, notices, 0, 0, 0, 0, 0, 50, 5000, 3, last, 0, read,
            notices,
        ];
        let numbers: Vec<u64> = head.into_iter().chain(asked).collect();
        numbers.try_into().expect("28 numbers")
    };
    let (mut request, mut state) = ([0; 64], [77; STATE]);
    let begun = begin(&fields, [0, 0], [50, 5000], &[], &mut request, &mut state);
    assert_eq!((begun, state), (DONE, waiting(50, 0, 0, 0)));

    let replies = [0x7f, 0x22, 0x78, 0x62, 0x21, 0x01, 0x03, 0xe8];
    let notice = event(
        &mut state,
        &request,
        Event::reply(20, 0, 3, 0x7e8),
        &replies,
    );
    assert_eq!((notice, state), (DONE, waiting(5020, 1, 1, 20)));
    assert_eq!(tick(&mut state, 30), DONE);
    assert_eq!(state, waiting(5020, 1, 1, 30));
    let late = event(
        &mut state,
        &request,
        Event::reply(897, 3, 5, 0x7e8),
        &replies,
    );

    let events = [
        0, 0, 0, 20, 0, 0, 0, 0, 0, 3, 7, 0xe8, 0, 0, 3, 0x81, 0, 0, 0, 3, 0, 5, 7, 0xe8,
    ];
    let mut answer = [77; number::COUNT];
    let lent = Lent {
        request: &mut [0; 64],
        events: &events,
        replies: &replies,
    };
    assert_eq!(
        call(&fields, [0, 0], true, [50, 5000], &[], lent, &mut answer),
        DONE
    );
    assert_eq!(answer[..5], [0, 0, 0, 0, 897]);
    let numbers: Vec<u64> = [&answer[..], &[897, 0, 0, 0], &asked].concat();
    assert_eq!((late, &state[..]), (DONE, &numbers[..]));
}

/// A small generator of numbers (SplitMix64).
fn next(seed: &mut u64) -> u64 {
    *seed = seed.wrapping_add(0x9e37_79b9_7f4a_7c15);
    let mut z = *seed;
    z = (z ^ (z >> 30)).wrapping_mul(0xbf58_476d_1ce4_e5b9);
    z = (z ^ (z >> 27)).wrapping_mul(0x94d0_49bb_1331_11eb);
    z ^ (z >> 31)
}

/// A number that a state may hold: small, at the edge of a width, or any.
fn some_number(seed: &mut u64) -> u64 {
    let any = next(seed);
    match any % 8 {
        0 => 0,
        1 => next(seed) % 16,
        2 => 511 + next(seed) % 3,
        3 => u64::MAX - next(seed) % 3,
        4 => (1 << (8 * (next(seed) % 8))) + next(seed) % 2,
        5 => next(seed) % 65536,
        _ => next(seed),
    }
}

/// A state that waits, as no `begin` wrote it: it is handed an event and a tick.
#[test]
fn states_that_never_came_from_begin() {
    let mut seed = 21;
    let mut results = std::collections::BTreeMap::new();
    let replies = [0x7f, 0x22, 0x78, 0x62, 0x21, 0x01, 0x41, 0x63];
    for round in 0..200_000 {
        let mut state: State = std::array::from_fn(|_| some_number(&mut seed));
        state[0] = if round % 8 == 0 { state[0] } else { WAITING };
        if round % 2 == 0 {
            state[19..].copy_from_slice(&[7, 1, 0x2101, 0, 0, 65535, 0, 0, 0]);
        }
        let any = next(&mut seed);
        let heard = Event {
            time: some_number(&mut seed) as u32,
            kind: (any % 5) as u16,
            offset: (any >> 8) as u16 % 9,
            length: (any >> 16) as u16 % 9,
            source: (any >> 32) as u16 % 2,
        };
        let request = &replies[..(any >> 40) as usize % 9];
        let (mut by_event, mut by_tick) = (state, state);
        let of_event = event(&mut by_event, request, heard, &replies);
        let of_tick = tick(&mut by_tick, some_number(&mut seed));
        for (result, after) in [(of_event, by_event), (of_tick, by_tick)] {
            *results.entry(result).or_insert(0) += 1;
            assert_eq!(result == 21, state[0] != WAITING, "{state:?}");
            match result {
                DONE => assert_eq!(after[19..], state[19..], "{state:?}"),
                _ => assert_eq!(after, state, "{result}"),
            }
        }
        assert!(matches!(of_tick, 0 | 1 | 20 | 21), "{of_tick}");
    }
    let seen: Vec<u8> = results.into_keys().collect();
    assert_eq!(seen, [0, 1, 10, 20, 21]);
}

/// A begun state with some of its numbers changed, so that they ask no call.
#[test]
fn a_state_that_asks_no_call() {
    let mut begun = [77; STATE];
    let result = begin(&read(), [0, 0], [50, 5000], &[], &mut [0; 64], &mut begun);
    assert_eq!(result, DONE);
    let changes: [&[(usize, u64)]; 10] = [
        &[(19, 16)],
        &[(19, 16), (21, 0)],
        &[(19, 255)],
        &[(19, 255), (21, 0)],
        &[(20, 64)],
        &[(20, 32)],
        &[(19, 8)],
        &[(22, 1)],
        &[(23, 1)],
        &[(19, 13), (21, 256)],
    ];
    for change in changes {
        let mut state = begun;
        for &(at, number) in change {
            state[at] = number;
        }
        let before = state;
        assert_eq!(tick(&mut state, 1), MISUSE, "{change:?}");
        let idle = event(&mut state, &[], Event::idle(1), &[]);
        assert_eq!((idle, state), (MISUSE, before), "{change:?}");
    }
    // A number wider than its field is read as the field would hold it.
    let mut wide = begun;
    wide[19] += 256;
    assert_eq!(tick(&mut wide, 1), DONE);
}
