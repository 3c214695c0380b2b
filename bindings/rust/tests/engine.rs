//! The engine that is handed one event at a time, through the bindings: when it settles and with what, what it knows while it
//! waits, every refusal of a step and of a call, and that it answers as the whole list does.

mod events;

use bintrochis::{
    Asked, Call, Config, Engine, Event, Memory, Outcome, ProtocolDeviation, Session, StepRefusal,
    LONGEST_REQUEST,
};
use events::AddressedEvents;

const STRICT: Config = Config {
    strict: true,
    server_timing: true,
    suppressed: false,
    overall: None,
    notice_limit: None,
    listens: None,
    wide: false,
};
const READ: Call<'static> = Call::ReadDataByIdentifier { identifier: 0xf190 };
const RESET: Call<'static> = Call::EcuReset { reset_type: 0x81 };
const SESSION: Session = Session {
    p2: 50,
    p2_star: 5000,
};
const GOOD: &[u8] = &[0x62, 0xf1, 0x90, 0x41, 0x42];
const WAIT: &[u8] = &[0x7f, 0x22, 0x78];

fn until(overall: u32) -> Config {
    Config {
        overall: Some(overall),
        ..STRICT
    }
}

/// A reply that is all of the lent bytes, from address 0.
fn reply(time: u32, bytes: &[u8]) -> Event {
    Event::reply(time, 0, bytes.len() as u16, 0)
}

/// What a begun call does.
fn with(call: Call<'_>, config: Config, test: impl FnOnce(&mut Engine<'_>)) {
    let mut buffer = [0; LONGEST_REQUEST];
    test(&mut Asked::new(&call, &config).begin(SESSION, &mut buffer));
}

/// Outcome, finishing time, events and notices of a decision on a tick or an event without data.
fn told(engine: &Engine<'_>) -> (Outcome<'static>, u64, usize, usize) {
    let answer = engine
        .settled(&[])
        .expect("it has settled, without a reply");
    (answer.outcome, answer.time, answer.events, answer.notices)
}

/// A refused step: its refusal, and nothing of the engine has changed.
fn refused(engine: &mut Engine<'_>, event: Event, replies: &[u8], refusal: StepRefusal) {
    let before = engine.clone();
    assert_eq!(engine.event(event, replies), Err(refusal), "{event:?}");
    assert_eq!(*engine, before, "{event:?}");
}

#[test]
fn it_begins_with_the_request_and_waits_for_p2() {
    with(READ, STRICT, |engine| {
        assert_eq!(engine.request(), [0x22, 0xf1, 0x90]);
        assert_eq!((engine.deadline(), engine.last()), (Some(50), 0));
        assert_eq!((engine.events(), engine.notices()), (0, 0));
        assert_eq!(engine.session(), SESSION);
        assert!(!engine.is_settled());
        assert_eq!(engine.settled(GOOD), None);
    });
}

#[test]
fn a_tick_settles_past_the_deadline_and_not_at_it() {
    with(READ, STRICT, |engine| {
        assert_eq!(engine.tick(50), Ok(None));
        // What comes at the deadline is in time, behind a tick at that time too.
        let answer = engine.event(reply(50, GOOD), GOOD).unwrap().unwrap();
        assert_eq!(answer.outcome, Outcome::PositiveResponse(&[0x41, 0x42]));
        assert_eq!((answer.time, answer.events, answer.notices), (50, 1, 0));
        assert_eq!(answer.reply, GOOD);
        assert_eq!(answer.request, [0x22, 0xf1, 0x90]);
    });
    with(READ, STRICT, |engine| {
        let answer = engine.tick(51).unwrap().unwrap();
        assert_eq!((answer.outcome, answer.time), (Outcome::Timeout, 50));
        assert_eq!(told(engine), (Outcome::Timeout, 50, 0, 0));
        assert_eq!((engine.deadline(), engine.last()), (None, 51));
    });
    with(RESET, STRICT, |engine| {
        assert_eq!(engine.tick(u64::MAX).map(|x| x.is_some()), Ok(true));
        assert_eq!(told(engine), (Outcome::Suppressed, 50, 0, 0));
    });
}

#[test]
fn an_event_past_the_deadline_settles_as_a_tick_and_is_not_read() {
    with(READ, STRICT, |engine| {
        let answer = engine.event(reply(51, GOOD), GOOD).unwrap().unwrap();
        assert_eq!((answer.outcome, answer.time), (Outcome::Timeout, 50));
        assert_eq!((answer.events, answer.reply), (0, &[][..]));
        assert_eq!(engine.last(), 51);
    });
}

#[test]
fn a_late_reply_behind_a_notice() {
    with(READ, STRICT, |engine| {
        assert_eq!(engine.event(reply(20, WAIT), WAIT), Ok(None));
        assert_eq!(engine.deadline(), Some(5020));
        assert_eq!((engine.events(), engine.notices()), (1, 1));
        for now in (30..=4990).step_by(10) {
            assert_eq!(engine.tick(now), Ok(None));
        }
        // The lent bytes are this event's alone.
        let answer = engine.event(reply(5020, GOOD), GOOD).unwrap().unwrap();
        assert_eq!(answer.outcome, Outcome::PositiveResponse(&[0x41, 0x42]));
        assert_eq!((answer.time, answer.events, answer.notices), (5020, 2, 1));
    });
    // A deadline may pass 32 bits, and so may a tick.
    let asked = Asked::new(&READ, &STRICT);
    let slow = Session {
        p2: u32::MAX,
        p2_star: u32::MAX,
    };
    let mut buffer = [0; LONGEST_REQUEST];
    let mut engine = asked.begin(slow, &mut buffer);
    assert_eq!(engine.event(reply(u32::MAX, WAIT), WAIT), Ok(None));
    assert_eq!(engine.deadline(), Some(8_589_934_590));
    assert_eq!(engine.tick(8_589_934_590), Ok(None));
    assert_eq!(engine.tick(8_589_934_591).map(|x| x.is_some()), Ok(true));
    assert_eq!(told(&engine), (Outcome::Timeout, 8_589_934_590, 1, 1));
}

#[test]
fn the_overall_timeout_settles_at_once() {
    with(READ, until(30), |engine| {
        assert_eq!(engine.tick(30), Ok(None));
        assert_eq!(engine.tick(31).map(|x| x.is_some()), Ok(true));
        assert_eq!(told(engine), (Outcome::Timeout, 30, 0, 0));
    });
    with(READ, until(30), |engine| {
        assert_eq!(
            engine.event(reply(31, GOOD), GOOD).map(|x| x.is_some()),
            Ok(true)
        );
        assert_eq!(told(engine), (Outcome::Timeout, 30, 0, 0));
    });
    // T at the deadline: silence that was asked for stays that.
    with(RESET, until(50), |engine| {
        assert_eq!(engine.tick(51).map(|x| x.is_some()), Ok(true));
        assert_eq!(told(engine), (Outcome::Suppressed, 50, 0, 0));
    });
    // Under suppression a negative is decided when it comes, and would finish at P2, which is after T.
    with(RESET, until(30), |engine| {
        let negative = &[0x7f, 0x11, 0x22];
        assert_eq!(
            engine
                .event(reply(10, negative), negative)
                .map(|x| x.is_some()),
            Ok(true)
        );
        assert_eq!(told(engine), (Outcome::Timeout, 30, 1, 0));
    });
}

#[test]
fn a_reply_under_suppression_settles_at_once_and_finishes_at_p2() {
    with(RESET, STRICT, |engine| {
        let negative = &[0x7f, 0x11, 0x22];
        let answer = engine
            .event(reply(10, negative), negative)
            .unwrap()
            .unwrap();
        assert!(matches!(answer.outcome, Outcome::NegativeResponse(code) if code.0 == 0x22));
        assert_eq!((answer.time, answer.events), (50, 1));
        assert_eq!(engine.last(), 10);
        refused(engine, Event::idle(11), &[], StepRefusal::Settled);
    });
    with(
        RESET,
        Config {
            strict: false,
            ..STRICT
        },
        |engine| {
            let positive = &[0x51, 0x01];
            let answer = engine
                .event(reply(10, positive), positive)
                .unwrap()
                .unwrap();
            assert_eq!(
                (answer.outcome, answer.time),
                (Outcome::PositiveResponse(&[]), 50)
            );
        },
    );
}

#[test]
fn a_limit_of_notices_and_replies_of_others() {
    let config = Config {
        notice_limit: Some(1),
        listens: Some(0x7e8),
        ..STRICT
    };
    with(READ, config, |engine| {
        let from = |time, source| Event::reply(time, 0, 3, source);
        assert_eq!(engine.event(from(10, 0x7e9), WAIT), Ok(None));
        assert_eq!(
            (engine.deadline(), engine.events(), engine.notices()),
            (Some(50), 1, 0)
        );
        assert_eq!(engine.event(from(20, 0x7e8), WAIT), Ok(None));
        assert_eq!(engine.deadline(), Some(5020));
        let answer = engine.event(from(30, 0x7e8), WAIT).unwrap().unwrap();
        assert_eq!(answer.outcome, Outcome::PendingLimit);
        assert_eq!((answer.time, answer.events, answer.notices), (30, 3, 2));
        assert_eq!(answer.reply, WAIT);
    });
}

#[test]
fn going_back_is_refused_and_the_same_time_is_not() {
    with(READ, STRICT, |engine| {
        assert_eq!(engine.tick(20), Ok(None));
        refused(engine, reply(19, GOOD), GOOD, StepRefusal::GoingBack);
        let before = engine.clone();
        assert_eq!(engine.tick(19), Err(StepRefusal::GoingBack));
        assert_eq!(*engine, before);
        assert_eq!(engine.event(Event::idle(20), &[]), Ok(None));
        assert_eq!(engine.tick(20), Ok(None));
        // A refused step moves no clock.
        let unknown = Event {
            kind: 9,
            ..Event::idle(40)
        };
        refused(engine, unknown, &[], StepRefusal::BadEvent);
        assert_eq!(engine.event(Event::idle(30), &[]), Ok(None));
        assert_eq!((engine.last(), engine.events()), (30, 2));
    });
}

/// Every event that breaks a limit, at this time.
fn bad_events(time: u32) -> Vec<(Event, Vec<u8>)> {
    let kinds = [4, 9, 256, 65535].map(|kind| {
        let event = Event {
            kind,
            ..Event::idle(time)
        };
        (event, vec![])
    });
    let addressed = [Event::idle(time), Event::end(time), Event::error(time, 5)].map(|event| {
        let event = Event { source: 1, ..event };
        (event, vec![])
    });
    let outside = [
        (0, 6, 5),
        (1, 5, 5),
        (6, 0, 5),
        (65535, 65535, 5),
        (0, 4096, 5000),
    ];
    let outside = outside.map(|(offset, length, lent)| {
        let event = Event::reply(time, offset, length, 0);
        (event, vec![0x62; lent])
    });
    kinds.into_iter().chain(addressed).chain(outside).collect()
}

#[test]
fn the_order_of_refusals() {
    with(READ, STRICT, |engine| {
        assert_eq!(engine.tick(20), Ok(None));
        for time in [19, 20, 21, 51] {
            for (event, replies) in bad_events(time) {
                refused(engine, event, &replies, StepRefusal::BadEvent);
            }
        }
        assert_eq!(engine.tick(51).map(|x| x.is_some()), Ok(true));
        for time in [0, 50, 51, 52] {
            for (event, replies) in bad_events(time) {
                refused(engine, event, &replies, StepRefusal::Settled);
            }
            refused(engine, reply(time, GOOD), GOOD, StepRefusal::Settled);
            let before = engine.clone();
            assert_eq!(engine.tick(time.into()), Err(StepRefusal::Settled));
            assert_eq!(*engine, before);
        }
    });
    let numbers = [
        StepRefusal::Settled,
        StepRefusal::BadEvent,
        StepRefusal::GoingBack,
    ]
    .map(StepRefusal::number);
    assert_eq!(numbers, [21, 10, 20]);
    assert_eq!(
        StepRefusal::GoingBack.to_string(),
        "refusal 20: earlier than the last step"
    );
}

#[test]
fn the_513th_event_is_refused_and_ticks_go_on() {
    with(READ, STRICT, |engine| {
        for _ in 0..512 {
            assert_eq!(engine.event(Event::idle(7), &[]), Ok(None));
        }
        assert_eq!(engine.events(), 512);
        refused(engine, Event::idle(7), &[], StepRefusal::BadEvent);
        refused(engine, Event::idle(6), &[], StepRefusal::BadEvent);
        refused(engine, reply(51, GOOD), GOOD, StepRefusal::BadEvent);
        assert_eq!(engine.tick(50), Ok(None));
        assert_eq!(engine.tick(51).map(|x| x.is_some()), Ok(true));
        assert_eq!(told(engine), (Outcome::Timeout, 50, 512, 0));
    });
    with(READ, STRICT, |engine| {
        for _ in 0..511 {
            assert_eq!(engine.event(Event::idle(7), &[]), Ok(None));
        }
        let answer = engine.event(reply(7, GOOD), GOOD).unwrap().unwrap();
        assert_eq!((answer.events, answer.time), (512, 7));
    });
}

#[test]
fn the_end_an_error_and_a_deviation() {
    with(READ, STRICT, |engine| {
        assert_eq!(
            engine.event(Event::end(3), &[]).map(|x| x.is_some()),
            Ok(true)
        );
        assert_eq!(told(engine), (Outcome::Disconnected, 3, 1, 0));
    });
    with(READ, STRICT, |engine| {
        assert_eq!(
            engine
                .event(Event::error(3, 0xfffe), &[])
                .map(|x| x.is_some()),
            Ok(true)
        );
        assert_eq!(told(engine), (Outcome::Transport(0xfffe), 3, 1, 0));
    });
    with(READ, STRICT, |engine| {
        let other = &[0x62, 0xf1, 0x91, 0x41];
        let answer = engine.event(reply(3, other), other).unwrap().unwrap();
        let deviation = ProtocolDeviation::InvalidDataIdentifier;
        assert_eq!(answer.outcome, Outcome::ProtocolDeviation(deviation));
        assert_eq!(answer.reply, other);
    });
}

/// A reply that stands among other lent bytes: the decision's places are in these, and other bytes are not mistaken for them.
#[test]
fn places_are_in_the_bytes_of_the_settling_event() {
    with(READ, STRICT, |engine| {
        let lent = [&[0xaa; 7], GOOD, &[0xbb; 3]].concat();
        let answer = engine
            .event(Event::reply(3, 7, 5, 0), &lent)
            .unwrap()
            .unwrap();
        assert_eq!(
            (answer.outcome, answer.reply),
            (Outcome::PositiveResponse(&[0x41, 0x42]), GOOD)
        );
        assert_eq!(engine.settled(&lent), Some(answer));
        assert_eq!(engine.settled(&lent[..12]), Some(answer));
        assert_eq!(engine.settled(&lent[..11]), None);
        assert_eq!(engine.settled(&[]), None);
        assert!(engine.is_settled());
    });
}

/// Calls 5 and 6 compare a reply with the address and size that were sent, in both forms.
#[test]
fn echoes_are_compared_with_the_request() {
    let bytes = Memory::Bytes {
        address: &[0x20, 0x00],
        size: &[0x02],
    };
    let numbers = Memory::Alfid {
        address: 0x2000,
        size: 2,
        address_width: 2,
        size_width: 1,
    };
    for memory in [bytes, numbers] {
        let data = &[0xaa, 0xbb];
        let wrong = |memory, reply_bytes: &'static [u8]| {
            let mut outcome = None;
            with(memory, STRICT, |engine| {
                let answer = engine
                    .event(reply(3, reply_bytes), reply_bytes)
                    .unwrap()
                    .unwrap();
                outcome = Some((answer.outcome, answer.time));
            });
            outcome
        };
        let deviation = |deviation| Some((Outcome::ProtocolDeviation(deviation), 3));
        let read = Call::ReadMemoryByAddress { memory };
        let record = deviation(ProtocolDeviation::InvalidMemoryRecordLength);
        assert_eq!(
            wrong(read, &[0x63, 1, 2]),
            Some((Outcome::PositiveResponse(&[1, 2]), 3))
        );
        assert_eq!(wrong(read, &[0x63, 1, 2, 3]), record);
        let write = Call::WriteMemoryByAddress { memory, data };
        let good = Some((Outcome::PositiveResponse(&[0x12, 0x20, 0x00, 0x02]), 3));
        assert_eq!(wrong(write, &[0x7d, 0x12, 0x20, 0x00, 0x02]), good);
        let address = deviation(ProtocolDeviation::InvalidMemoryAddress);
        assert_eq!(wrong(write, &[0x7d, 0x12, 0x20, 0x01, 0x02]), address);
        let size = deviation(ProtocolDeviation::InvalidMemorySize);
        assert_eq!(wrong(write, &[0x7d, 0x12, 0x20, 0x00, 0x03]), size);
    }
}

#[test]
fn the_session_and_the_block_length_of_a_decision() {
    with(
        Call::DiagnosticSessionControl { session_type: 3 },
        STRICT,
        |engine| {
            let timing = &[0x50, 0x03, 0x00, 0x19, 0x01, 0xf4];
            assert_eq!(
                engine.event(reply(3, timing), timing).map(|x| x.is_some()),
                Ok(true)
            );
            let left = Session {
                p2: 25,
                p2_star: 5000,
            };
            assert_eq!(engine.session(), left);
        },
    );
    let memory = Memory::Bytes {
        address: &[0x20, 0x00],
        size: &[0x10],
    };
    let download = Call::RequestDownload {
        compression: 0,
        encryption: 0,
        memory,
    };
    with(download, STRICT, |engine| {
        let length = &[0x74, 0x20, 0x0f, 0xfa];
        let answer = engine.event(reply(3, length), length).unwrap().unwrap();
        assert_eq!(answer.block_length, 4090);
    });
}

/// "begin" refuses as the call does: the engine has settled with the refusal, sends nothing, and every step is 21.
#[test]
fn refused_calls() {
    let memory = |address: usize, size: usize| Memory::Bytes {
        address: &[0; 16][..address],
        size: &[0; 16][..size],
    };
    let alfid = |address, address_width| Memory::Alfid {
        address,
        size: 1,
        address_width,
        size_width: 1,
    };
    let load = |compression, encryption| Call::RequestUpload {
        compression,
        encryption,
        memory: memory(1, 1),
    };
    let security = Call::SecurityAccess {
        access_type: 2,
        data: None,
    };
    let read = |memory| Call::ReadMemoryByAddress { memory };
    let long = Call::WriteDataByIdentifier {
        identifier: 1,
        data: &[0; 4093],
    };
    let cases = [
        (security, LONGEST_REQUEST, 1),
        (read(memory(16, 1)), LONGEST_REQUEST, 2),
        (read(memory(1, 0)), LONGEST_REQUEST, 3),
        (load(16, 16), LONGEST_REQUEST, 4),
        (load(15, 16), LONGEST_REQUEST, 5),
        (read(alfid(1, 9)), LONGEST_REQUEST, 6),
        (read(alfid(256, 1)), LONGEST_REQUEST, 7),
        (long, LONGEST_REQUEST, 8),
        (READ, 2, 9),
        (READ, 0, 9),
    ];
    for (call, room, refusal) in cases {
        let mut buffer = vec![0xa5; room];
        let mut engine = Asked::new(&call, &STRICT).begin(SESSION, &mut buffer);
        assert_eq!(
            told(&engine),
            (Outcome::Refused(refusal), 0, 0, 0),
            "{call:?}"
        );
        assert_eq!((engine.request(), engine.deadline()), (&[][..], None));
        assert_eq!(engine.session(), SESSION);
        refused(&mut engine, Event::idle(0), &[], StepRefusal::Settled);
        assert_eq!(engine.tick(0), Err(StepRefusal::Settled));
        assert!(buffer.iter().all(|&byte| byte == 0xa5), "{call:?}");
    }
    with(READ, STRICT, |engine| assert_eq!(engine.request().len(), 3));
}

/// The same events, whole and one at a time with ticks between: one answer.
#[test]
fn one_at_a_time_is_the_whole_list() {
    let config = Config {
        listens: Some(0x7e8),
        ..STRICT
    };
    let said: [(u32, u16, &[u8]); 4] = [
        (10, 0x7e9, GOOD),
        (20, 0x7e8, WAIT),
        (60, 0x7e9, WAIT),
        (900, 0x7e8, GOOD),
    ];
    for count in 0..=said.len() {
        let mut events = AddressedEvents::new();
        let mut replies = Vec::new();
        for &(time, source, bytes) in &said[..count] {
            events.reply(time, replies.len() as u16, bytes.len() as u16, source);
            replies.extend_from_slice(bytes);
        }
        let asked = Asked::new(&READ, &config);
        let (mut one, mut other) = ([0; LONGEST_REQUEST], [0; LONGEST_REQUEST]);
        let mut session = SESSION;
        let whole = asked.answer(&mut session, &mut one, events.as_bytes(), &replies);
        let mut engine = asked.begin(SESSION, &mut other);
        let mut at = 0;
        for &(time, source, bytes) in &said[..count] {
            assert_eq!(engine.tick(u64::from(time) - 1), Ok(None));
            engine
                .event(Event::reply(time, at, bytes.len() as u16, source), &replies)
                .unwrap();
            at += bytes.len() as u16;
        }
        let _ = engine.tick(u64::MAX);
        assert_eq!(engine.settled(&replies), Some(whole), "{count} events");
        assert_eq!(engine.session(), session);
    }
}
