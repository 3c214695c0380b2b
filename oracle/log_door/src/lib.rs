//! The line of a log by the proved library, which the bindings link: its door itself, without the text that they make of it.

use bintrochis as _;

extern "C" {
    fn bintrochis_door_line(log: *const u8, log_length: u64, line: *mut u8, room: u64) -> u64;
}

/// Writes the line at the buffer's front and returns its length, or 0 where there is no room for it.
pub fn line(log: &[u8], line: &mut [u8]) -> usize {
    let (log_length, room) = (log.len() as u64, line.len() as u64);
    // SAFETY: each pointer has as many bytes behind it as its length says, and the two slices do not overlap.
    unsafe { bintrochis_door_line(log.as_ptr(), log_length, line.as_mut_ptr(), room) as usize }
}
