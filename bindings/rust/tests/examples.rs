//! The ten examples of document 01 through the bindings, the requests of all calls, the list of faults, the limit of notices, several
//! controllers on one channel, and what the bindings add: enums, slices, a session.

mod events;

use bintrochis::{
    Answer, Asked, Call, Config, Memory, NegativeResponseCode, Outcome, ProtocolDeviation, Session,
    LONGEST_REQUEST,
};
use events::{AddressedEvents, Events};

const STRICT: Config = Config {
    strict: true,
    server_timing: true,
    suppressed: false,
    overall: None,
    notice_limit: None,
    listens: None,
    wide: false,
};
const LENIENT: Config = Config {
    strict: false,
    ..STRICT
};
const QUIET: Config = Config {
    suppressed: true,
    ..STRICT
};
const READ: Call<'static> = Call::ReadDataByIdentifier { identifier: 0xf190 };
const RESET: Call<'static> = Call::EcuReset { reset_type: 0x81 };
const FAULTS: Call<'static> = Call::ReadDTCInformationDTCByStatusMask { status_mask: 8 };

fn until(overall: u32) -> Config {
    Config {
        overall: Some(overall),
        ..STRICT
    }
}

/// What a call answers to replies at their times; P2 is 50 and P2* 5000.
fn told(call: Call<'_>, config: Config, said: &[(u32, &[u8])], check: impl FnOnce(Answer<'_, '_>)) {
    let mut events = Events::new();
    let mut replies = Vec::new();
    for &(time, reply) in said {
        events.reply(time, replies.len() as u16, reply.len() as u16);
        replies.extend_from_slice(reply);
    }
    let mut session = Session {
        p2: 50,
        p2_star: 5000,
    };
    let mut buffer = [0; LONGEST_REQUEST];
    check(Asked::new(&call, &config).answer(
        &mut session,
        &mut buffer,
        events.as_bytes(),
        &replies,
    ));
}

/// Outcome and finishing time.
fn gives(call: Call<'_>, config: Config, said: &[(u32, &[u8])], outcome: Outcome<'_>, time: u64) {
    told(call, config, said, |answer| {
        assert_eq!((answer.outcome, answer.time), (outcome, time))
    });
}

fn deviation(deviation: ProtocolDeviation) -> Outcome<'static> {
    Outcome::ProtocolDeviation(deviation)
}

fn length(minimum: u64, maximum: Option<u64>) -> Outcome<'static> {
    deviation(ProtocolDeviation::InvalidResponseLength { minimum, maximum })
}

#[test]
fn a_wait_notice_first() {
    let said = |time| {
        [
            (20, &[0x7f, 0x22, 0x78][..]),
            (time, &[0x62, 0xf1, 0x90, 0x41, 0x42][..]),
        ]
    };
    told(READ, STRICT, &said(900), |answer| {
        assert_eq!(answer.outcome, Outcome::PositiveResponse(&[0x41, 0x42]));
        assert_eq!((answer.time, answer.events, answer.notices), (900, 2, 1));
        assert_eq!(answer.reply, [0x62, 0xf1, 0x90, 0x41, 0x42]);
        assert_eq!(answer.request, [0x22, 0xf1, 0x90]);
    });
    gives(
        READ,
        STRICT,
        &said(5020),
        Outcome::PositiveResponse(&[0x41, 0x42]),
        5020,
    );
    gives(READ, STRICT, &said(5021), Outcome::Timeout, 5020);
    gives(
        READ,
        until(900),
        &said(900),
        Outcome::PositiveResponse(&[0x41, 0x42]),
        900,
    );
    gives(READ, until(899), &said(900), Outcome::Timeout, 899);
}

#[test]
fn silence() {
    gives(Call::TesterPresent, STRICT, &[], Outcome::Timeout, 50);
    gives(Call::TesterPresent, QUIET, &[], Outcome::Suppressed, 50);
}

#[test]
fn replies_to_a_suppressed_reset() {
    let positive = [(10, &[0x51, 0x01][..])];
    gives(
        RESET,
        STRICT,
        &positive,
        deviation(ProtocolDeviation::UnexpectedPositiveResponse),
        10,
    );
    gives(
        RESET,
        LENIENT,
        &positive,
        Outcome::PositiveResponse(&[]),
        50,
    );
    gives(
        RESET,
        STRICT,
        &[(10, &[0x7f, 0x11, 0x22])],
        Outcome::NegativeResponse(NegativeResponseCode::ConditionsNotCorrect),
        50,
    );
}

#[test]
fn a_notice_to_another_service() {
    let said = [(10, &[0x7f, 0x31, 0x78][..])];
    gives(
        READ,
        STRICT,
        &said,
        deviation(ProtocolDeviation::InvalidRequestServiceId),
        10,
    );
    gives(READ, LENIENT, &said, Outcome::Timeout, 5010);
}

#[test]
fn memory_of_no_bytes() {
    let memory = Memory::Bytes {
        address: &[0x20, 0x00],
        size: &[0x00],
    };
    let call = Call::ReadMemoryByAddress { memory };
    gives(call, STRICT, &[(10, &[0x63])], length(2, None), 10);
    gives(
        call,
        STRICT,
        &[(10, &[0x63, 0xaa])],
        deviation(ProtocolDeviation::InvalidMemoryRecordLength),
        10,
    );
}

#[test]
fn block_lengths() {
    let memory = Memory::Alfid {
        address: 0x2000,
        size: 0x1000,
        address_width: 2,
        size_width: 2,
    };
    let call = Call::RequestDownload {
        compression: 0,
        encryption: 0,
        memory,
    };
    told(call, STRICT, &[(10, &[0x74, 0x20, 0x0f, 0xfa])], |answer| {
        assert_eq!(answer.outcome, Outcome::PositiveResponse(&[0x0f, 0xfa]));
        assert_eq!(answer.block_length, 4090);
        assert_eq!(answer.request, [0x34, 0x00, 0x22, 0x20, 0x00, 0x10, 0x00]);
    });
    gives(
        call,
        STRICT,
        &[(10, &[0x74, 0x10, 0x02])],
        deviation(ProtocolDeviation::InvalidMaxNumberOfBlockLength),
        10,
    );
    gives(
        call,
        STRICT,
        &[(10, &[0x74, 0x90, 1, 0, 0, 0, 0, 0, 0, 0, 0])],
        Outcome::BlockLengthOverflow,
        10,
    );
}

#[test]
fn a_service_whose_positive_begins_with_7f() {
    let call = Call::Request {
        sid: 0x3f,
        sub_function: None,
        data: None,
    };
    gives(call, STRICT, &[(10, &[0x7f, 0x01])], length(3, Some(3)), 10);
}

#[test]
fn the_request_of_every_call() {
    let memory = Memory::Bytes {
        address: &[0x20, 0x00],
        size: &[0x04],
    };
    let data = Some(&[0xaa, 0xbb][..]);
    let calls: [(Call, &[u8]); 17] = [
        (
            Call::Request {
                sid: 0x85,
                sub_function: Some(2),
                data,
            },
            &[0x85, 0x02, 0xaa, 0xbb],
        ),
        (
            Call::Request {
                sid: 0x85,
                sub_function: None,
                data: None,
            },
            &[0x85],
        ),
        (
            Call::DiagnosticSessionControl { session_type: 3 },
            &[0x10, 0x03],
        ),
        (Call::EcuReset { reset_type: 1 }, &[0x11, 0x01]),
        (
            Call::SecurityAccess {
                access_type: 2,
                data,
            },
            &[0x27, 0x02, 0xaa, 0xbb],
        ),
        (Call::TesterPresent, &[0x3e, 0x00]),
        (
            Call::ReadMemoryByAddress { memory },
            &[0x23, 0x12, 0x20, 0x00, 0x04],
        ),
        (
            Call::WriteMemoryByAddress {
                memory,
                data: &[0xaa],
            },
            &[0x3d, 0x12, 0x20, 0x00, 0x04, 0xaa],
        ),
        (READ, &[0x22, 0xf1, 0x90]),
        (
            Call::WriteDataByIdentifier {
                identifier: 0xf190,
                data: &[],
            },
            &[0x2e, 0xf1, 0x90],
        ),
        (
            Call::ReadDTCInformationNumberOfDTCByStatusMask { status_mask: 9 },
            &[0x19, 0x01, 0x09],
        ),
        (
            Call::RoutineControl {
                control_type: 1,
                identifier: 0x0203,
                data,
            },
            &[0x31, 0x01, 0x02, 0x03, 0xaa, 0xbb],
        ),
        (
            Call::RequestDownload {
                compression: 1,
                encryption: 2,
                memory,
            },
            &[0x34, 0x12, 0x12, 0x20, 0x00, 0x04],
        ),
        (
            Call::RequestUpload {
                compression: 1,
                encryption: 2,
                memory,
            },
            &[0x35, 0x12, 0x12, 0x20, 0x00, 0x04],
        ),
        (
            Call::TransferData { counter: 0, data },
            &[0x36, 0x00, 0xaa, 0xbb],
        ),
        (Call::RequestTransferExit { data: None }, &[0x37]),
        (FAULTS, &[0x19, 0x02, 0x08]),
    ];
    for (call, request) in calls {
        told(call, STRICT, &[], |answer| {
            assert_eq!(answer.request, request, "{call:?}")
        });
    }
    told(Call::TesterPresent, QUIET, &[], |answer| {
        assert_eq!(answer.request, [0x3e, 0x80])
    });
    told(FAULTS, QUIET, &[], |answer| {
        assert_eq!(answer.request, [0x19, 0x82, 0x08])
    });
}

#[test]
fn the_list_of_faults() {
    // Two records, whole and without the last byte.
    let reply = [
        0x59, 0x02, 0xff, 0x12, 0x34, 0x56, 0x08, 0x12, 0x34, 0x57, 0x09,
    ];
    let one = [(10, &reply[..7])];
    let two = [(10, &reply[..])];
    let broken = [(10, &reply[..10])];
    for config in [STRICT, LENIENT] {
        let positive = |length: usize| Outcome::PositiveResponse(&reply[2..length]);
        gives(FAULTS, config, &[(10, &reply[..3])], positive(3), 10);
        gives(FAULTS, config, &one, positive(7), 10);
        gives(FAULTS, config, &two, positive(11), 10);
    }
    gives(FAULTS, STRICT, &broken, length(3, None), 10);
    let whole = Outcome::PositiveResponse(&reply[2..7]);
    gives(FAULTS, LENIENT, &broken, whole, 10);
    // Nothing behind the sub-function.
    let bare = [(10, &reply[..2])];
    gives(FAULTS, STRICT, &bare, length(3, None), 10);
    gives(FAULTS, LENIENT, &bare, Outcome::InvalidResponseLength, 10);
    gives(FAULTS, QUIET, &[], Outcome::Suppressed, 50);
    gives(
        FAULTS,
        QUIET,
        &one,
        deviation(ProtocolDeviation::UnexpectedPositiveResponse),
        10,
    );
}

/// A notice to `READ`.
const WAIT: &[u8] = &[0x7f, 0x22, 0x78];

/// The limit's outcome behind nothing but notices, with finishing time and both counts.
fn ends(time: u64, notices: usize) -> (Outcome<'static>, u64, usize, usize) {
    (Outcome::PendingLimit, time, notices, notices)
}

/// A call under a limit of notices gives outcome, finishing time, events read and notices.
fn limited(
    call: Call<'_>,
    config: Config,
    limit: u8,
    said: &[(u32, &[u8])],
    wanted: (Outcome<'_>, u64, usize, usize),
) {
    let config = Config {
        notice_limit: Some(limit),
        ..config
    };
    told(call, config, said, |answer| {
        assert_eq!(
            (answer.outcome, answer.time, answer.events, answer.notices),
            wanted,
            "{call:?} {config:?}"
        )
    });
}

#[test]
fn the_notice_behind_the_limit_ends_the_call() {
    let other = &[0x7f, 0x31, 0x78][..];
    for config in [STRICT, LENIENT] {
        limited(READ, config, 0, &[(10, WAIT)], ends(10, 1));
        limited(READ, config, 1, &[(10, WAIT), (20, WAIT)], ends(20, 2));
        // Past the deadline it is not read, and the bound P2 + K x P2* is met.
        let late = [(10, WAIT), (5011, WAIT)];
        limited(READ, config, 1, &late, (Outcome::Timeout, 5010, 1, 1));
        let silent = [(50, WAIT)];
        limited(READ, config, 1, &silent, (Outcome::Timeout, 5050, 1, 1));
    }
    // What is a notice: strict by its SID, lenient by its third byte.
    let wrong = deviation(ProtocolDeviation::InvalidRequestServiceId);
    limited(READ, STRICT, 0, &[(10, other)], (wrong, 10, 1, 0));
    limited(READ, LENIENT, 0, &[(10, other)], ends(10, 1));
    // No waiting until P2 under suppression.
    let reset = &[0x7f, 0x11, 0x78][..];
    limited(RESET, STRICT, 0, &[(10, reset)], ends(10, 1));
    // T cuts it.
    let cut = (Outcome::Timeout, 9, 0, 0);
    limited(READ, until(9), 0, &[(10, WAIT)], cut);
    limited(READ, until(10), 0, &[(10, WAIT)], ends(10, 1));
}

#[test]
fn a_limit_of_255_and_what_an_answer_behind_it_has() {
    let positive = &[0x62, 0xf1, 0x90, 0x41][..];
    let mut said: Vec<(u32, &[u8])> = (1..=255).map(|time| (time * 10, WAIT)).collect();
    said.push((2560, positive));
    let answered = (Outcome::PositiveResponse(&[0x41]), 2560, 256, 255);
    limited(READ, STRICT, 255, &said, answered);
    limited(READ, STRICT, 254, &said, ends(2550, 255));
    said.insert(255, (2555, WAIT));
    limited(READ, STRICT, 255, &said, ends(2555, 256));
    gives(READ, STRICT, &said, answered.0, 2560);

    let config = Config {
        notice_limit: Some(1),
        ..STRICT
    };
    told(READ, config, &[(5, WAIT), (6, WAIT)], |answer| {
        assert_eq!(answer.outcome, Outcome::PendingLimit);
        assert_eq!(answer.reply, WAIT);
        assert_eq!(answer.request, [0x22, 0xf1, 0x90]);
        assert_eq!(answer.block_length, 0);
    });
}

const HOIST: u16 = 0x7e8;
const TROLLEY: u16 = 0x7e9;
const COUNT: &[u8] = &[0x62, 0xf1, 0x90, 0x03, 0xe8];
const TROLLEYS: &[u8] = &[0x62, 0xf1, 0x90, 0x07, 0xd0];
const COUNTED: Outcome<'static> = Outcome::PositiveResponse(&[0x03, 0xe8]);

/// A call that listens to the hoist gives outcome, finishing time, events read and notices.
fn heard(
    call: Call<'_>,
    config: Config,
    said: &[(u32, u16, &[u8])],
    wanted: (Outcome<'_>, u64, usize, usize),
) {
    let config = Config {
        listens: Some(HOIST),
        ..config
    };
    let mut events = AddressedEvents::new();
    let mut replies = Vec::new();
    for &(time, source, reply) in said {
        events.reply(time, replies.len() as u16, reply.len() as u16, source);
        replies.extend_from_slice(reply);
    }
    let mut session = Session {
        p2: 50,
        p2_star: 5000,
    };
    let mut buffer = [0; LONGEST_REQUEST];
    let asked = Asked::new(&call, &config);
    let answer = asked.answer(&mut session, &mut buffer, events.as_bytes(), &replies);
    assert_eq!(
        (answer.outcome, answer.time, answer.events, answer.notices),
        wanted,
        "{call:?} {config:?} {said:x?}"
    );
}

#[test]
fn whatever_the_trolley_says_the_count_is_the_hoists() {
    let trolleys: [&[u8]; 7] = [
        TROLLEYS,
        WAIT,
        &[0x7f, 0x22, 0x31],
        &[0x7f],
        &[0x51, 0x01],
        &[],
        COUNT,
    ];
    for config in [STRICT, LENIENT, until(15)] {
        heard(READ, config, &[(15, HOIST, COUNT)], (COUNTED, 15, 1, 0));
        for trolley in trolleys {
            for source in [TROLLEY, 0, 1, 0xffff] {
                for time in [0, 8, 15] {
                    let said = [(time, source, trolley), (15, HOIST, COUNT)];
                    heard(READ, config, &said, (COUNTED, 15, 2, 0));
                }
                // Behind the hoist's it is not read.
                let said = [(15, HOIST, COUNT), (15, source, trolley)];
                heard(READ, config, &said, (COUNTED, 15, 1, 0));
            }
        }
    }
}

#[test]
fn a_foreign_reply_moves_no_deadline_and_breaks_no_silence() {
    let late = [(10, TROLLEY, WAIT), (51, HOIST, COUNT)];
    heard(READ, STRICT, &late, (Outcome::Timeout, 50, 1, 0));
    let waited = [(10, HOIST, WAIT), (20, TROLLEY, WAIT), (5011, HOIST, COUNT)];
    heard(READ, STRICT, &waited, (Outcome::Timeout, 5010, 2, 1));
    // Read up to the deadline, and up to T.
    let silent = (Outcome::Timeout, 50, 1, 0);
    heard(READ, STRICT, &[(50, TROLLEY, COUNT)], silent);
    let unread = (Outcome::Timeout, 50, 0, 0);
    heard(READ, STRICT, &[(51, TROLLEY, COUNT)], unread);
    let cut = [(20, TROLLEY, COUNT), (40, TROLLEY, COUNT)];
    heard(READ, until(30), &cut, (Outcome::Timeout, 30, 1, 0));
    // Under suppression.
    let positive: &[u8] = &[0x51, 0x01];
    let notice: &[u8] = &[0x7f, 0x11, 0x78];
    for trolley in [positive, notice] {
        for config in [STRICT, LENIENT] {
            let said = [(10, TROLLEY, trolley)];
            heard(RESET, config, &said, (Outcome::Suppressed, 50, 1, 0));
        }
    }
    // Under a limit of notices.
    let limited = Config {
        notice_limit: Some(0),
        ..STRICT
    };
    let said = [(10, TROLLEY, WAIT), (20, HOIST, COUNT)];
    heard(READ, limited, &said, (COUNTED, 20, 2, 0));
    let said = [(10, TROLLEY, WAIT), (20, HOIST, WAIT)];
    heard(READ, limited, &said, (Outcome::PendingLimit, 20, 2, 1));
}

#[test]
fn idle_end_and_error_concern_everyone() {
    let listening = Config {
        listens: Some(HOIST),
        ..STRICT
    };
    let asked = Asked::new(&READ, &listening);
    let gives = |events: &AddressedEvents, replies: &[u8], outcome: Outcome<'_>, read: usize| {
        let mut session = Session {
            p2: 50,
            p2_star: 5000,
        };
        let mut buffer = [0; 3];
        let answer = asked.answer(&mut session, &mut buffer, events.as_bytes(), replies);
        assert_eq!((answer.outcome, answer.events), (outcome, read));
    };
    let mut events = AddressedEvents::new();
    events.idle(7).reply(7, 0, 5, TROLLEY).error(8, 0x1234);
    gives(&events, COUNT, Outcome::Transport(0x1234), 3);
    let mut events = AddressedEvents::new();
    events.reply(7, 0, 5, TROLLEY).end(9);
    gives(&events, COUNT, Outcome::Disconnected, 2);
    // A foreign reply keeps the limits of a list: here it lies outside the reply bytes.
    let mut events = AddressedEvents::new();
    events.reply(7, 0, 5, HOIST).reply(8, 1, 5, TROLLEY);
    gives(&events, COUNT, Outcome::Refused(10), 0);
    // Another address than 0 on a kind other than a reply is refused, the one listened to also.
    for source in [[0x07, 0xe8], [0x07, 0xe9]] {
        for kind in 1..=3 {
            let event = [0, 0, 0, 9, 0, kind, 0, 0, 0, 0, source[0], source[1]];
            let mut session = Session {
                p2: 50,
                p2_star: 5000,
            };
            let outcome = asked.answer(&mut session, &mut [0; 3], &event, &[]).outcome;
            assert_eq!(outcome, Outcome::Refused(10));
        }
    }
}

#[test]
fn without_addresses_the_trolleys_count_stands_as_the_hoists() {
    let said = [(8, TROLLEYS), (15, COUNT)];
    let trolleys = Outcome::PositiveResponse(&[0x07, 0xd0]);
    gives(READ, STRICT, &said, trolleys, 8);
    let said = [(8, TROLLEY, TROLLEYS), (15, HOIST, COUNT)];
    heard(READ, STRICT, &said, (COUNTED, 15, 2, 0));
}

#[test]
fn refusals() {
    let refused = |call: Call<'_>, number| {
        told(call, STRICT, &[(10, &[0x7f])], |answer| {
            assert_eq!(
                (answer.outcome, answer.time),
                (Outcome::Refused(number), 0),
                "{call:?}"
            );
            assert_eq!(
                (answer.events, answer.notices, answer.request),
                (0, 0, &[][..])
            );
        });
    };
    let long = [1; 300];
    let bytes = |address, size| Memory::Bytes { address, size };
    let alfid = |address, address_width| Memory::Alfid {
        address,
        size: 1,
        address_width,
        size_width: 1,
    };
    refused(
        Call::SecurityAccess {
            access_type: 2,
            data: None,
        },
        1,
    );
    refused(
        Call::ReadMemoryByAddress {
            memory: bytes(&[], &[1]),
        },
        2,
    );
    refused(
        Call::ReadMemoryByAddress {
            memory: bytes(&long, &[]),
        },
        2,
    );
    refused(
        Call::ReadMemoryByAddress {
            memory: bytes(&[1], &long),
        },
        3,
    );
    refused(
        Call::RequestUpload {
            compression: 16,
            encryption: 16,
            memory: bytes(&[], &[]),
        },
        4,
    );
    refused(
        Call::RequestUpload {
            compression: 15,
            encryption: 16,
            memory: bytes(&[], &[]),
        },
        5,
    );
    refused(
        Call::ReadMemoryByAddress {
            memory: alfid(1, 9),
        },
        6,
    );
    refused(
        Call::ReadMemoryByAddress {
            memory: alfid(256, 1),
        },
        7,
    );
    refused(
        Call::WriteDataByIdentifier {
            identifier: 1,
            data: &[0; 4093],
        },
        8,
    );
    refused(
        Call::WriteDataByIdentifier {
            identifier: 1,
            data: &[0; 70_000],
        },
        8,
    );

    let mut session = Session {
        p2: 50,
        p2_star: 5000,
    };
    let asked = Asked::new(&READ, &STRICT);
    let outcome = asked.answer(&mut session, &mut [0; 2], &[], &[]).outcome;
    assert_eq!(outcome, Outcome::Refused(9));
    let mut falling = Events::new();
    falling.idle(2).idle(1);
    let outcome = asked
        .answer(&mut session, &mut [0; 3], falling.as_bytes(), &[])
        .outcome;
    assert_eq!(outcome, Outcome::Refused(10));
}

#[test]
fn other_events() {
    let mut session = Session {
        p2: 50,
        p2_star: 5000,
    };
    let asked = Asked::new(&READ, &STRICT);
    let mut events = Events::new();
    events.idle(7).error(8, 0x1234).end(9);
    let mut buffer = [0; 3];
    let answer = asked.answer(&mut session, &mut buffer, events.as_bytes(), &[]);
    assert_eq!(
        (answer.outcome, answer.time, answer.events),
        (Outcome::Transport(0x1234), 8, 2)
    );
    let mut events = Events::new();
    events.end(9);
    let answer = asked.answer(&mut session, &mut buffer, events.as_bytes(), &[]);
    assert_eq!(
        (answer.outcome, answer.time, answer.events),
        (Outcome::Disconnected, 9, 1)
    );
}

#[test]
fn the_session_is_set_by_call_1_alone() {
    let reply = [0x50, 0x03, 0x00, 0x19, 0x01, 0xf4];
    let mut events = Events::new();
    events.reply(10, 0, 6);
    let call = Call::DiagnosticSessionControl { session_type: 3 };
    let mut buffer = [0; 2];
    let old = Session {
        p2: 50,
        p2_star: 5000,
    };
    let mut session = old;
    let deaf = Config {
        server_timing: false,
        ..STRICT
    };
    Asked::new(&call, &deaf).answer(&mut session, &mut buffer, events.as_bytes(), &reply);
    assert_eq!(session, old);
    Asked::new(&call, &STRICT).answer(&mut session, &mut buffer, events.as_bytes(), &reply);
    assert_eq!(
        session,
        Session {
            p2: 25,
            p2_star: 5000
        }
    );
}

#[test]
fn a_negative_code_displays_as_its_name() {
    let pending = NegativeResponseCode::RequestCorrectlyReceivedResponsePending;
    assert_eq!(pending, NegativeResponseCode(0x78));
    assert_eq!(pending.number(), 20);
    assert_eq!(
        format!("{pending:>40}|"),
        " RequestCorrectlyReceivedResponsePending|"
    );
    let nameless = NegativeResponseCode(0x00);
    assert_eq!((nameless.number(), nameless.name()), (0, None));
    assert_eq!(nameless.to_string(), "0x00");
}

#[test]
fn widths_up_to_fifteen_under_the_wide_setting() {
    let call = Call::ReadMemoryByAddress {
        memory: Memory::Alfid {
            address: 1,
            size: 0x10,
            address_width: 9,
            size_width: 1,
        },
    };
    let answered = |config: &Config| {
        let mut buffer = [0; LONGEST_REQUEST];
        let mut session = Session {
            p2: 50,
            p2_star: 5000,
        };
        let answer = Asked::new(&call, config).answer(&mut session, &mut buffer, &[], &[]);
        (
            answer.outcome == Outcome::Refused(6),
            answer.request.to_vec(),
        )
    };
    let wide = Config {
        wide: true,
        ..STRICT
    };
    let request = vec![0x23, 0x19, 0, 0, 0, 0, 0, 0, 0, 0, 1, 0x10];
    assert_eq!(answered(&wide), (false, request));
    assert_eq!(answered(&STRICT), (true, vec![]));
}
