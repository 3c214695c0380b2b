//! Beside a call: the line of a log, the blocks of a download, and the reply of a controller on the bench.

use crate::{door, Refusal};

/// No line is longer, so a buffer of so many bytes takes each.
pub const LONGEST_LINE: usize = 8222;

/// The line that `udslog` prints of a log, without its newline; none where the buffer has no room for it.
///
/// ```
/// # use bintrochis::{line, LONGEST_LINE};
/// assert_eq!(line(b"no log", &mut [0; LONGEST_LINE]), Some("badlog 0 0 0 -"));
/// assert_eq!(line(b"no log", &mut [0; 14]), None);
/// ```
pub fn line<'l>(log: &[u8], buffer: &'l mut [u8]) -> Option<&'l str> {
    let length = door::line(log, buffer).checked_sub(1)?;
    core::str::from_utf8(&buffer[..length]).ok()
}

/// The blocks of a download, under the block length that call 11 returned: what each transfer carries, with its counter.
///
/// ```
/// # use bintrochis::{Blocks, Refusal};
/// let data = [0, 1, 2, 3, 4, 5, 6, 7, 8, 9];
/// let blocks: Vec<(u8, &[u8])> = Blocks::new(&data, 6)?.collect();
/// assert_eq!(blocks, [(1, &data[..4]), (2, &data[4..8]), (3, &data[8..])]);
/// assert_eq!(Blocks::new(&data, 2), Err(Refusal(11)));
/// # Ok::<(), Refusal>(())
/// ```
#[derive(Debug, Clone, PartialEq, Eq)]
pub struct Blocks<'d> {
    data: &'d [u8],
    block_length: u64,
    next: u64,
}

impl<'d> Blocks<'d> {
    /// Refusal 11 where the block length is below 3. Data of no bytes has no blocks.
    pub fn new(data: &'d [u8], block_length: u64) -> Result<Blocks<'d>, Refusal> {
        match door::block(data, block_length, 0) {
            Err(11) => Err(Refusal(11)),
            _ => Ok(Blocks {
                data,
                block_length,
                next: 0,
            }),
        }
    }
}

impl<'d> Iterator for Blocks<'d> {
    type Item = (u8, &'d [u8]);

    fn next(&mut self) -> Option<(u8, &'d [u8])> {
        let [counter, at, length] = door::block(self.data, self.block_length, self.next).ok()?;
        self.next += 1;
        let block = self.data.get(at as usize..)?.get(..length as usize)?;
        Some((counter as u8, block))
    }
}

/// The reply of a controller on the bench, whose store is as for `udsbench`: none is silence, which was asked for. Refusal 13 where the
/// buffer has no room; then the store is as it was.
///
/// ```
/// # use bintrochis::respond;
/// assert_eq!(respond(&mut [], &[0x3e, 0x00], &mut [0; 8]), Ok(Some(&[0x7e, 0x00][..])));
/// assert_eq!(respond(&mut [], &[0x3e, 0x80], &mut [0; 8]), Ok(None));
/// ```
pub fn respond<'r>(
    store: &mut [u8],
    request: &[u8],
    reply: &'r mut [u8],
) -> Result<Option<&'r [u8]>, Refusal> {
    match door::respond(store, request, reply).map_err(Refusal)? {
        0 => Ok(None),
        length => Ok(Some(&reply[..length])),
    }
}
