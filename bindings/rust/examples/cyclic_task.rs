//! A control task that runs every 10 ms and cannot wait for a list of events. It asks hoist and trolley for their counts and keeps
//! an engine for each. In every cycle each engine gets one call: an event if one is there, else a tick. The hoist says wait, and its
//! count comes late, within the longer time. The trolley says nothing, and a tick past its deadline settles that; the hoist's
//! replies, which the channel brings to both, are passed over.

use bintrochis::{Answer, Asked, Call, Config, Engine, Event, Outcome, Session, StepRefusal};

const CYCLE: u64 = 10;
const HOIST: u16 = 0x7e8;
const TROLLEY: u16 = 0x7e9;

/// What the channel brings: at 23 ms 7F 22 78 from the hoist, and at 897 ms its count, 1,000.
const CHANNEL: [(u32, u16, &[u8]); 2] = [
    (23, HOIST, &[0x7f, 0x22, 0x78]),
    (897, HOIST, &[0x62, 0x21, 0x01, 0x03, 0xe8]),
];

/// What the task keeps for a controller.
struct Controller<'q> {
    name: &'static str,
    engine: Engine<'q>,
    /// Messages handed over.
    heard: usize,
}

fn begin<'q>(name: &'static str, address: u16, request: &'q mut [u8]) -> Controller<'q> {
    let call = Call::ReadDataByIdentifier { identifier: 0x2101 };
    let config = Config {
        listens: Some(address),
        ..Config::default()
    };
    let session = Session::default();
    let engine = Asked::new(&call, &config).begin(session, request);
    let bytes = engine.request().iter();
    let bytes: String = bytes.map(|byte| format!(" {byte:02x}")).collect();
    println!("{name}: send{bytes}, deadline {} ms", waits_until(&engine));
    Controller {
        name,
        engine,
        heard: 0,
    }
}

fn waits_until(engine: &Engine) -> u64 {
    engine.deadline().expect("it waits")
}

fn decided(answer: &Answer) -> String {
    let words = match answer.outcome {
        Outcome::PositiveResponse(&[high, low]) => {
            format!("count {}", u16::from_be_bytes([high, low]))
        }
        Outcome::Timeout => "timeout".to_string(),
        other => format!("{other:?}"),
    };
    let Answer {
        time,
        events,
        notices,
        ..
    } = answer;
    format!("{words} at {time} ms, events {events}, notices {notices}")
}

/// One cycle for one controller: a single call. A message has the time at which it came, which may be before this cycle; until
/// all messages are handed over no tick says a later time.
fn cycle(controller: &mut Controller, now: u64) -> Result<(), StepRefusal> {
    let Controller {
        name,
        engine,
        heard,
    } = controller;
    let deadline = waits_until(engine);
    let message = CHANNEL.get(*heard).filter(|m| u64::from(m.0) <= now);
    let (answer, by) = match message {
        Some(&(time, source, bytes)) => {
            *heard += 1;
            let event = Event::reply(time, 0, bytes.len() as u16, source);
            (engine.event(event, bytes)?, "an event")
        }
        None => (engine.tick(now)?, "a tick"),
    };
    if let Some(answer) = answer {
        println!("{name}, cycle {now}: settled by {by}, {}", decided(&answer));
    } else if waits_until(engine) != deadline {
        let deadline = waits_until(engine);
        println!("{name}, cycle {now}: told to wait, deadline {deadline} ms");
    } else if message.is_some() {
        println!("{name}, cycle {now}: passed over");
    }
    Ok(())
}

/// A step that is refused leaves the engine as it was.
fn refused(engine: &mut Engine, name: &str, now: u64) {
    let before = engine.clone();
    if let Err(refusal) = engine.tick(now) {
        let after = if *engine == before {
            "unchanged"
        } else {
            "CHANGED"
        };
        println!("{name}: refused, {}, state {after}", refusal.number());
    }
}

fn main() -> Result<(), StepRefusal> {
    // The state, without the request that an engine borrows.
    let state = std::mem::size_of::<Engine>() - std::mem::size_of::<&[u8]>();
    println!("a state has {state} bytes");
    let (mut hoists, mut trolleys) = ([0; 8], [0; 8]);
    let mut hoist = begin("hoist", HOIST, &mut hoists);
    let mut trolley = begin("trolley", TROLLEY, &mut trolleys);
    let mut now = 0;
    while !(hoist.engine.is_settled() && trolley.engine.is_settled()) {
        now += CYCLE;
        for controller in [&mut hoist, &mut trolley] {
            if !controller.engine.is_settled() {
                cycle(controller, now)?;
            }
        }
    }
    refused(&mut hoist.engine, "a tick behind the decision", u64::MAX);
    let mut trolley = begin("trolley", TROLLEY, &mut trolleys);
    trolley.engine.tick(20)?;
    refused(&mut trolley.engine, "19 ms behind 20 ms", 19);
    Ok(())
}
