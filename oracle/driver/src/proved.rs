//! The proved library through its bindings for Rust, so that these are compared too: a case in, an observation out.

use crate::log;
use crate::model::{Call, Case, Data, Event, Memory, Observed, Outcome, Place, REPLY};
use crate::steps::{Run, Said, Step, Waits};
use bintrochis::{Answer, Asked, Config, Engine, Session};

/// What the request buffer holds before a call, so that a byte written behind the request shows.
const FILL: u8 = 0xa5;

/// A case in the form that the proved library takes. Making it is no part of a measurement.
pub struct Prepared<'c> {
    asked: Asked<'c>,
    session: Session,
    events: Vec<u8>,
    replies: Vec<u8>,
    /// The events once more, to be handed over one at a time.
    steps: Vec<bintrochis::Event>,
}

pub fn prepare(case: &Case) -> Prepared<'_> {
    let setting = &case.setting;
    let config = Config {
        strict: setting.strict,
        server_timing: setting.server_timing,
        suppressed: setting.quiet,
        overall: setting.overall,
        notice_limit: setting.limit,
        listens: setting.listens,
        wide: false,
    };
    Prepared {
        asked: Asked::new(&call_of(&case.call), &config),
        session: Session {
            p2: setting.p2,
            p2_star: setting.p2_star,
        },
        events: log::event_bytes(case),
        replies: case.replies.clone(),
        steps: case.events.iter().map(event_of).collect(),
    }
}

fn memory_of(memory: &Memory) -> bintrochis::Memory<'_> {
    match memory {
        Memory::Bytes { address, size } => bintrochis::Memory::Bytes { address, size },
        &Memory::Alfid {
            address,
            size,
            address_width,
            size_width,
        } => bintrochis::Memory::Alfid {
            address,
            size,
            address_width,
            size_width,
        },
    }
}

fn call_of(call: &Call) -> bintrochis::Call<'_> {
    use bintrochis::Call as Proved;
    match call {
        Call::Request { sid, sub, data } => Proved::Request {
            sid: *sid,
            sub_function: *sub,
            data: data.as_deref(),
        },
        Call::Session { sub } => Proved::DiagnosticSessionControl { session_type: *sub },
        Call::Reset { sub } => Proved::EcuReset { reset_type: *sub },
        Call::Security { sub, data } => Proved::SecurityAccess {
            access_type: *sub,
            data: data.as_deref(),
        },
        Call::TesterPresent => Proved::TesterPresent,
        Call::ReadMemory { memory } => Proved::ReadMemoryByAddress {
            memory: memory_of(memory),
        },
        Call::WriteMemory { memory, data } => Proved::WriteMemoryByAddress {
            memory: memory_of(memory),
            data,
        },
        Call::ReadIdentifier { id } => Proved::ReadDataByIdentifier { identifier: *id },
        Call::WriteIdentifier { id, data } => Proved::WriteDataByIdentifier {
            identifier: *id,
            data,
        },
        Call::FaultCount { mask } => {
            Proved::ReadDTCInformationNumberOfDTCByStatusMask { status_mask: *mask }
        }
        Call::Routine { sub, id, data } => Proved::RoutineControl {
            control_type: *sub,
            identifier: *id,
            data: data.as_deref(),
        },
        Call::Download {
            compression,
            encryption,
            memory,
        } => Proved::RequestDownload {
            compression: *compression,
            encryption: *encryption,
            memory: memory_of(memory),
        },
        Call::Upload {
            compression,
            encryption,
            memory,
        } => Proved::RequestUpload {
            compression: *compression,
            encryption: *encryption,
            memory: memory_of(memory),
        },
        Call::Transfer { counter, data } => Proved::TransferData {
            counter: *counter,
            data: data.as_deref(),
        },
        Call::TransferExit { data } => Proved::RequestTransferExit {
            data: data.as_deref(),
        },
        Call::FaultList { mask } => {
            Proved::ReadDTCInformationDTCByStatusMask { status_mask: *mask }
        }
    }
}

/// The call itself, with the session afterwards.
pub fn call<'q, 'r>(prepared: &'r Prepared<'_>, request: &'q mut [u8]) -> (Answer<'q, 'r>, Session) {
    let Prepared {
        asked,
        session,
        events,
        replies,
        ..
    } = prepared;
    let mut session = *session;
    let answer = asked.answer(&mut session, request, events, replies);
    (answer, session)
}

/// The call, begun.
pub fn begin<'q>(prepared: &Prepared<'_>, request: &'q mut [u8]) -> Engine<'q> {
    prepared.asked.begin(prepared.session, request)
}

/// The call begun, its events one at a time until it settles, and else a tick.
pub fn stepped<'q, 'r>(prepared: &'r Prepared<'_>, request: &'q mut [u8]) -> Option<Answer<'q, 'r>> {
    let mut engine = begin(prepared, request);
    for &event in &prepared.steps {
        if let Ok(Some(answer)) = engine.event(event, &prepared.replies) {
            return Some(answer);
        }
    }
    engine.tick(u64::MAX).ok()?
}

/// The whole call as an observation.
pub fn run(case: &Case) -> Observed {
    let mut buffer = [FILL; 4095];
    let prepared = prepare(case);
    let (answer, session) = call(&prepared, &mut buffer);
    let mut observed = observed(case, &answer, session, &prepared.replies);
    guard(&mut observed, &buffer);
    observed
}

/// What an answer shows, with the reply bytes that it has places in.
fn observed(case: &Case, answer: &Answer<'_, '_>, session: Session, replies: &[u8]) -> Observed {
    let (outcome, place) = outcome_of(answer, replies);
    let loading = matches!(case.call.number(), 11 | 12);
    let number = (loading && place.is_some()).then_some(answer.block_length);
    Observed {
        request: Some(answer.request.to_vec()),
        outcome,
        time: answer.time,
        events: answer.events,
        notices: answer.notices,
        number,
        timing: (session.p2.into(), session.p2_star.into()),
        place,
    }
}

/// Where an event's reply bytes begin, and the event with these: by turns all reply bytes are lent, and those of the reply alone.
fn lent(case: &Case, at: usize, event: Event) -> (usize, &[u8], bintrochis::Event) {
    let whole = event_of(&event);
    let from = event.offset as usize;
    match case.replies.get(from..from + event.length as usize) {
        Some(alone) if event.kind == REPLY && at % 2 == 1 => {
            let alone_event = bintrochis::Event { offset: 0, ..whole };
            (from, alone, alone_event)
        }
        _ => (0, &case.replies, whole),
    }
}

fn event_of(event: &Event) -> bintrochis::Event {
    let &Event {
        time,
        kind,
        offset,
        length,
        source,
    } = event;
    bintrochis::Event {
        time,
        kind,
        offset,
        length,
        source,
    }
}

fn said(engine: &Engine<'_>, refusal: u8) -> Said {
    let waits = engine.deadline().map(|deadline| Waits {
        deadline,
        events: engine.events(),
        notices: engine.notices(),
        last: engine.last(),
    });
    Said { refusal, waits }
}

/// The engine that is handed one event at a time.
pub fn step(case: &Case, steps: &[Step]) -> Run {
    let mut buffer = [FILL; 4095];
    let mut engine = begin(&prepare(case), &mut buffer);
    let mut run = Run {
        said: vec![said(&engine, 0)],
        decided: None,
        steady: true,
    };
    let begun = engine.settled(&[]);
    run.decided = begun.map(|answer| observed(case, &answer, engine.session(), &[]));
    for (at, &step) in steps.iter().enumerate() {
        let before = engine.clone();
        let (base, replies, result) = match step {
            Step::Tick(now) => (0, &[][..], engine.tick(now)),
            Step::Event(event) => {
                let (base, replies, event) = lent(case, at, event);
                (base, replies, engine.event(event, replies))
            }
        };
        let refusal = result.err().map_or(0, bintrochis::StepRefusal::number);
        run.said.push(said(&engine, refusal));
        run.steady &= refusal == 0 || engine == before;
        if let Ok(Some(answer)) = result {
            let mut decided = observed(case, &answer, engine.session(), replies);
            if let Some(place) = &mut decided.place {
                place.at += base;
            }
            run.steady &= run.decided.replace(decided).is_none();
        }
    }
    run.steady &= run.decided.is_some() == engine.is_settled();
    if let Some(decided) = &mut run.decided {
        guard(decided, &buffer);
    }
    run
}

/// The outcome, and the place of a positive's data.
fn outcome_of(answer: &Answer<'_, '_>, replies: &[u8]) -> (Outcome, Option<Place>) {
    use bintrochis::{Outcome as Proved, ProtocolDeviation};
    let outcome = match answer.outcome {
        Proved::PositiveResponse(data) => {
            let place = Place {
                at: data.as_ptr() as usize - replies.as_ptr() as usize,
                length: data.len(),
            };
            return (Outcome::Positive(Data::Bytes(data.to_vec())), Some(place));
        }
        Proved::Suppressed => Outcome::Suppressed,
        Proved::NegativeResponse(code) => Outcome::Negative(code.0),
        Proved::Timeout => Outcome::Timeout,
        Proved::Disconnected => Outcome::Disconnected,
        Proved::Transport(number) => Outcome::Transport(number),
        Proved::ProtocolDeviation(deviation) => Outcome::Deviation {
            number: deviation.number(),
            bounds: match deviation {
                ProtocolDeviation::InvalidResponseLength { minimum, maximum } => {
                    Some((minimum as usize, maximum.map(|most| most as usize)))
                }
                _ => None,
            },
            reply: answer.reply.to_vec(),
        },
        Proved::InvalidResponseLength => Outcome::Length,
        Proved::BlockLengthOverflow => Outcome::Overflow {
            reply: answer.reply.to_vec(),
        },
        Proved::Refused(number) => Outcome::Refused(number),
        Proved::PendingLimit => Outcome::PendingLimit {
            reply: answer.reply.to_vec(),
        },
    };
    (outcome, None)
}

/// Under a refusal there is no request. If a byte behind the request changed, the whole buffer stands for it, which equals none.
fn guard(observed: &mut Observed, buffer: &[u8]) {
    let length = observed.request.as_ref().map_or(0, Vec::len);
    if buffer[length..].iter().any(|&byte| byte != FILL) {
        observed.request = Some(buffer.to_vec());
    } else if matches!(observed.outcome, Outcome::Refused(_)) && length == 0 {
        observed.request = None;
    }
}
