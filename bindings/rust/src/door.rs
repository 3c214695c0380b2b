//! The functions of the proved library, as `include/bintrochis.h` says them. The only unsafe code stands here.

use crate::engine::Event;

/// The numbers of an answer, by their places in it.
pub mod number {
    pub const OUTCOME: usize = 0;
    pub const DETAIL: usize = 1;
    pub const LEAST: usize = 2;
    pub const MOST: usize = 3;
    pub const TIME: usize = 4;
    pub const EVENTS: usize = 5;
    pub const NOTICES: usize = 6;
    pub const DATA_AT: usize = 7;
    pub const DATA_LENGTH: usize = 8;
    pub const REPLY_AT: usize = 9;
    pub const REPLY_LENGTH: usize = 10;
    pub const BLOCK_LENGTH: usize = 11;
    pub const P2: usize = 12;
    pub const P2_STAR: usize = 13;
    pub const REQUEST_LENGTH: usize = 14;
    pub const COUNT: usize = 15;
}

pub type Numbers = [u64; number::COUNT];

/// How many numbers a state has; the first are an answer's.
pub const STATE: usize = 28;

pub type State = [u64; STATE];

/// What stands for the outcome while an engine waits; the deadline then stands for the time.
pub const WAITING: u64 = 11;

/// Where the time of the last step stands.
pub const LAST: usize = 15;

/// What a function returns where the numbers ask a call.
pub const DONE: u8 = 0;
// A slice of the proved library is a pointer and a length, which has 64 bits on every processor, also where `usize` has 32.
#[rustfmt::skip]
extern "C" {
    fn bintrochis_version() -> u32;
    fn bintrochis_name_number(code: u8) -> u8;
    fn bintrochis_door_call(
        call: u8, flags: u8, value: u16, sub: u8, address_length: u8, size_length: u8,
        p2: u32, p2_star: u32, overall: u32, limit: u16, addressed: bool, listens: u16,
        arguments: *const u8, arguments_length: u64, request: *mut u8, request_length: u64,
        events: *const u8, events_length: u64, replies: *const u8, replies_length: u64, answer: *mut u64,
    ) -> u8;
    fn bintrochis_door_call_alfid(
        call: u8, flags: u8, value: u16, address: u64, size: u64, address_width: u64, size_width: u64, wide: bool,
        p2: u32, p2_star: u32, overall: u32, limit: u16, addressed: bool, listens: u16,
        data: *const u8, data_length: u64, request: *mut u8, request_length: u64,
        events: *const u8, events_length: u64, replies: *const u8, replies_length: u64, answer: *mut u64,
    ) -> u8;
    fn bintrochis_door_begin(
        call: u8, flags: u8, value: u16, sub: u8, address_length: u8, size_length: u8,
        p2: u32, p2_star: u32, overall: u32, limit: u16, listens: u16,
        arguments: *const u8, arguments_length: u64, request: *mut u8, request_length: u64, state: *mut u64,
    ) -> u8;
    fn bintrochis_door_begin_alfid(
        call: u8, flags: u8, value: u16, address: u64, size: u64, address_width: u64, size_width: u64, wide: bool,
        p2: u32, p2_star: u32, overall: u32, limit: u16, listens: u16,
        data: *const u8, data_length: u64, request: *mut u8, request_length: u64, state: *mut u64,
    ) -> u8;
    fn bintrochis_door_event(
        state: *mut u64, request: *const u8, request_length: u64,
        time: u32, kind: u16, offset: u16, length: u16, source: u16, replies: *const u8, replies_length: u64,
    ) -> u8;
    fn bintrochis_door_tick(state: *mut u64, now: u64) -> u8;
    fn bintrochis_door_line(log: *const u8, log_length: u64, line: *mut u8, line_length: u64) -> u64;
    fn bintrochis_door_block(data: *const u8, data_length: u64, block_length: u64, k: u64, block: *mut u64) -> u8;
    fn bintrochis_door_fault(mask: u8, records: *const u8, records_length: u64, k: u64) -> u64;
    fn bintrochis_door_respond(
        store: *mut u8, store_length: u64, request: *const u8, request_length: u64,
        reply: *mut u8, reply_length: u64, length: *mut u64,
    ) -> u8;
}

/// In place of a limit of notices: none.
pub const NO_LIMIT: u16 = 65535;

/// What stands in the fields of a log's header, and the limit of notices, which no log has.
#[derive(Debug, Clone, Copy, PartialEq, Eq)]
pub struct Fields {
    pub call: u8,
    pub flags: u8,
    pub value: u16,
    pub sub: u8,
    pub memory: Memory,
    pub overall: u32,
    pub limit: u16,
    /// Whether events have twelve bytes, as in version 2, and the address listened to.
    pub addressed: bool,
    pub listens: u16,
}

/// Lengths of address and size where these are bytes, or in the `alfid` form the numbers themselves.
#[derive(Debug, Clone, Copy, PartialEq, Eq)]
pub enum Memory {
    Lengths { address: u8, size: u8 },
    Alfid(Alfid),
}

/// Address and size as numbers.
#[derive(Debug, Clone, Copy, PartialEq, Eq)]
pub struct Alfid {
    pub address: u64,
    pub size: u64,
    pub address_width: usize,
    pub size_width: usize,
    pub wide: bool,
}

/// What a call is lent.
pub struct Lent<'l> {
    pub request: &'l mut [u8],
    pub events: &'l [u8],
    pub replies: &'l [u8],
}

/// A slice's length, as the library takes it.
fn len(slice: &[u8]) -> u64 {
    slice.len() as u64
}

/// The number of a negative code's name, or 0.
pub fn name_number(code: u8) -> u8 {
    // SAFETY: numbers alone go in and out.
    unsafe { bintrochis_name_number(code) }
}

/// One call over events that are `addressed` or not, whatever the fields say; with the lengths of address and size at the front of the
/// arguments. `Lent` has exclusive use of what is written to, so nothing overlaps.
#[inline]
#[rustfmt::skip]
pub fn call(
    fields: &Fields, [address, size]: [u8; 2], addressed: bool, [p2, p2_star]: [u32; 2], arguments: &[u8], lent: Lent<'_>,
    answer: &mut Numbers,
) -> u8 {
    let &Fields { call, flags, value, sub, overall, limit, listens, .. } = fields;
    let Lent { request, events, replies } = lent;
    // SAFETY: each pointer and length is that of a slice that lives through the call, and `answer` has as many numbers
    // as the library writes. The library is proved to touch nothing else, for all numbers.
    unsafe {
        bintrochis_door_call(
            call, flags, value, sub, address, size, p2, p2_star, overall, limit, addressed, listens,
            arguments.as_ptr(), len(arguments), request.as_mut_ptr(), len(request),
            events.as_ptr(), len(events), replies.as_ptr(), len(replies), answer.as_mut_ptr(),
        )
    }
}

/// The same in the `alfid` form.
#[rustfmt::skip]
pub fn call_alfid(
    fields: &Fields, alfid: &Alfid, addressed: bool, [p2, p2_star]: [u32; 2], data: &[u8], lent: Lent<'_>,
    answer: &mut Numbers,
) -> u8 {
    let &Fields { call, flags, value, overall, limit, listens, .. } = fields;
    let &Alfid { address, size, address_width, size_width, wide } = alfid;
    let Lent { request, events, replies } = lent;
    // SAFETY: as in `call`.
    unsafe {
        bintrochis_door_call_alfid(
            call, flags, value, address, size, address_width as u64, size_width as u64, wide,
            p2, p2_star, overall, limit, addressed, listens,
            data.as_ptr(), len(data), request.as_mut_ptr(), len(request),
            events.as_ptr(), len(events), replies.as_ptr(), len(replies), answer.as_mut_ptr(),
        )
    }
}

/// Begins a call. Its events will have sources, so `addressed` plays no part.
#[inline]
#[rustfmt::skip]
pub fn begin(
    fields: &Fields, [address, size]: [u8; 2], [p2, p2_star]: [u32; 2], arguments: &[u8], request: &mut [u8], state: &mut State,
) -> u8 {
    let &Fields { call, flags, value, sub, overall, limit, listens, .. } = fields;
    // SAFETY: as in `call`; `state` has as many numbers as the library writes.
    unsafe {
        bintrochis_door_begin(
            call, flags, value, sub, address, size, p2, p2_star, overall, limit, listens,
            arguments.as_ptr(), len(arguments), request.as_mut_ptr(), len(request), state.as_mut_ptr(),
        )
    }
}

/// The same in the `alfid` form.
#[rustfmt::skip]
pub fn begin_alfid(
    fields: &Fields, alfid: &Alfid, [p2, p2_star]: [u32; 2], data: &[u8], request: &mut [u8], state: &mut State,
) -> u8 {
    let &Fields { call, flags, value, overall, limit, listens, .. } = fields;
    let &Alfid { address, size, address_width, size_width, wide } = alfid;
    // SAFETY: as in `begin`.
    unsafe {
        bintrochis_door_begin_alfid(
            call, flags, value, address, size, address_width as u64, size_width as u64, wide,
            p2, p2_star, overall, limit, listens,
            data.as_ptr(), len(data), request.as_mut_ptr(), len(request), state.as_mut_ptr(),
        )
    }
}

/// One event.
#[rustfmt::skip]
pub fn event(state: &mut State, request: &[u8], event: Event, replies: &[u8]) -> u8 {
    let Event { time, kind, offset, length, source } = event;
    // SAFETY: as in `call`; of the state, whatever its numbers are, the library reads and writes these numbers alone.
    unsafe {
        bintrochis_door_event(
            state.as_mut_ptr(), request.as_ptr(), len(request),
            time, kind, offset, length, source, replies.as_ptr(), len(replies),
        )
    }
}

/// The time.
pub fn tick(state: &mut State, now: u64) -> u8 {
    // SAFETY: as in `event`.
    unsafe { bintrochis_door_tick(state.as_mut_ptr(), now) }
}

pub fn version() -> u32 {
    // SAFETY: a number alone comes out.
    unsafe { bintrochis_version() }
}

/// How long the line is that stands at the buffer's front; 0 where there is no room.
pub fn line(log: &[u8], line: &mut [u8]) -> usize {
    // SAFETY: as in `call`.
    let length =
        unsafe { bintrochis_door_line(log.as_ptr(), len(log), line.as_mut_ptr(), len(line)) };
    length as usize
}

/// Counter, place and length of block k, or the refusal.
pub fn block(data: &[u8], block_length: u64, k: u64) -> Result<[u64; 3], u8> {
    let mut block = [0; 3];
    // SAFETY: as in `call`; `block` has as many numbers as the library writes.
    match unsafe {
        bintrochis_door_block(
            data.as_ptr(),
            len(data),
            block_length,
            k,
            block.as_mut_ptr(),
        )
    } {
        DONE => Ok(block),
        refusal => Err(refusal),
    }
}

/// Where the first record that the mask selects begins.
pub fn first_fault(mask: u8, records: &[u8]) -> Option<usize> {
    // SAFETY: as in `call`.
    let at = unsafe { bintrochis_door_fault(mask, records.as_ptr(), len(records), 0) };
    (at != u64::MAX).then_some(at as usize)
}

/// How long the reply is that stands at the buffer's front, 0 for silence; or the refusal.
pub fn respond(store: &mut [u8], request: &[u8], reply: &mut [u8]) -> Result<usize, u8> {
    let mut length = 0;
    // SAFETY: as in `call`; `length` is the one number that the library writes.
    match unsafe {
        bintrochis_door_respond(
            store.as_mut_ptr(),
            len(store),
            request.as_ptr(),
            len(request),
            reply.as_mut_ptr(),
            len(reply),
            &mut length,
        )
    } {
        DONE => Ok(length as usize),
        refusal => Err(refusal),
    }
}

#[cfg(test)]
#[path = "door_tests.rs"]
mod tests;
