//! The bindings for Rust as functions of C, for oracle/stack/stack.c to measure: a host's function that makes a call and takes from its answer
//! what it needs, one that begins a call and keeps its engine, one that hands over an event, one that says the time. All else lies in
//! statics, which are no part of the stack.
#![allow(static_mut_refs)] // one thread

#[path = "../../../../bindings/rust/tests/logs/mod.rs"]
mod logs;

use bintrochis::{Answer, Engine, Event, Outcome, LONGEST_REQUEST};
use logs::Recorded;

static mut TRIAL: Option<Recorded<'static>> = None;
static mut REQUEST: [u8; LONGEST_REQUEST] = [0; LONGEST_REQUEST];
static mut ENGINE: Option<Engine<'static>> = None;
static mut TOLD: (u64, &[u8]) = (0, &[]);

fn trial() -> Option<&'static mut Recorded<'static>> {
    unsafe { TRIAL.as_mut() }
}

fn engine() -> Option<&'static mut Engine<'static>> {
    unsafe { ENGINE.as_mut() }
}

/// What a host takes from an answer; it is written, though nobody reads it.
#[inline]
fn tell(answer: &Answer<'_, 'static>) {
    let data = match answer.outcome {
        Outcome::PositiveResponse(data) => data,
        _ => answer.reply,
    };
    unsafe { (&raw mut TOLD).write_volatile((answer.time, data)) };
}

/// The log of the calls that follow. Whether it asks one without an address and a size.
///
/// # Safety
/// It asks a call, and stays as it is until the next.
#[no_mangle]
pub unsafe extern "C" fn rust_takes(log: *const u8, length: usize) -> bool {
    let log = std::slice::from_raw_parts(log, length);
    TRIAL = Some(logs::recorded(log, None));
    !matches!(log[2], 5 | 6 | 11 | 12)
}

#[no_mangle]
pub extern "C" fn rust_answers() {
    let Some(trial) = trial() else { return };
    let (session, request) = (&mut trial.session, unsafe { &mut REQUEST });
    let answer = trial
        .asked
        .answer(session, request, trial.events, trial.replies);
    tell(&answer);
}

#[no_mangle]
pub extern "C" fn rust_begins() {
    let Some(trial) = trial() else { return };
    unsafe { ENGINE = Some(trial.asked.begin(trial.session, &mut REQUEST)) };
}

/// Hands over the first event, from address 0.
#[no_mangle]
pub extern "C" fn rust_hands_over() {
    let (Some(trial), Some(engine)) = (trial(), engine()) else {
        return;
    };
    let Some(bytes) = trial.events.first_chunk::<10>() else {
        return;
    };
    let [a, b, c, d, kind @ .., e, f, g, h] = *bytes;
    let event = Event {
        time: u32::from_be_bytes([a, b, c, d]),
        kind: u16::from_be_bytes(kind),
        offset: u16::from_be_bytes([e, f]),
        length: u16::from_be_bytes([g, h]),
        source: 0,
    };
    if let Ok(Some(answer)) = engine.event(event, trial.replies) {
        tell(&answer);
    }
}

#[no_mangle]
pub extern "C" fn rust_ticks() {
    let Some(engine) = engine() else { return };
    if let Ok(Some(answer)) = engine.tick(u64::MAX) {
        tell(&answer);
    }
}
