//! What was heard, gathered with its times.

use crate::Event;

#[cfg(feature = "alloc")]
use alloc::vec::Vec;

/// Bytes that are filled from the front: lent ones, or with the feature `alloc` ones that grow.
#[derive(Debug)]
enum Bytes<'b> {
    Lent(&'b mut [u8], usize),
    #[cfg(feature = "alloc")]
    Owned(Vec<u8>),
}

impl Bytes<'_> {
    /// Whether there was room.
    fn extend(&mut self, bytes: &[u8]) -> bool {
        match self {
            Bytes::Lent(room, length) => {
                let Some(place) = room.get_mut(*length..*length + bytes.len()) else {
                    return false;
                };
                place.copy_from_slice(bytes);
                *length += bytes.len();
            }
            #[cfg(feature = "alloc")]
            Bytes::Owned(grown) => grown.extend_from_slice(bytes),
        }
        true
    }

    fn as_slice(&self) -> &[u8] {
        match self {
            Bytes::Lent(room, length) => &room[..*length],
            #[cfg(feature = "alloc")]
            Bytes::Owned(grown) => grown,
        }
    }
}

/// What was heard after a request was sent: events in the order in which they came, each with its time in milliseconds since sending.
///
/// Twelve bytes are lent for each event, and as many as the replies have in all. Where there is no room, or where a reply would
/// begin behind byte 65,535, the recording is over-full: a call over it is refused with 10, like any list that breaks a limit.
#[derive(Debug)]
pub struct Recording<'b> {
    events: Bytes<'b>,
    replies: Bytes<'b>,
    over_full: bool,
}

/// An event of no known kind, which is refused with 10.
const NO_EVENT: [u8; 12] = [0xff; 12];

#[cfg(feature = "alloc")]
impl Default for Recording<'static> {
    fn default() -> Self {
        Recording::new()
    }
}

#[cfg(feature = "alloc")]
impl Recording<'static> {
    /// A recording that grows.
    ///
    /// ```
    /// # use bintrochis::Recording;
    /// let mut heard = Recording::new();
    /// heard.reply(20, &[0x7f, 0x22, 0x78]).idle(40);
    /// assert_eq!(heard.replies(), [0x7f, 0x22, 0x78]);
    /// ```
    pub fn new() -> Self {
        Recording {
            events: Bytes::Owned(Vec::new()),
            replies: Bytes::Owned(Vec::new()),
            over_full: false,
        }
    }
}

impl<'b> Recording<'b> {
    /// A recording in lent bytes.
    pub fn lent(events: &'b mut [u8], replies: &'b mut [u8]) -> Recording<'b> {
        Recording {
            events: Bytes::Lent(events, 0),
            replies: Bytes::Lent(replies, 0),
            over_full: false,
        }
    }

    fn push(&mut self, event: Event) -> &mut Recording<'b> {
        self.over_full |= !self.events.extend(&event.to_bytes());
        self
    }

    /// A reply from a controller that is alone on its channel.
    pub fn reply(&mut self, time: u32, bytes: &[u8]) -> &mut Recording<'b> {
        self.reply_from(0, time, bytes)
    }

    /// A reply from this address.
    pub fn reply_from(&mut self, source: u16, time: u32, bytes: &[u8]) -> &mut Recording<'b> {
        let offset = u16::try_from(self.replies.as_slice().len());
        let (Ok(offset), Ok(length)) = (offset, u16::try_from(bytes.len())) else {
            self.over_full = true;
            return self;
        };
        self.over_full |= !self.replies.extend(bytes);
        self.push(Event::reply(time, offset, length, source))
    }

    /// The channel was found idle.
    pub fn idle(&mut self, time: u32) -> &mut Recording<'b> {
        self.push(Event::idle(time))
    }

    /// The stream ended.
    pub fn end(&mut self, time: u32) -> &mut Recording<'b> {
        self.push(Event::end(time))
    }

    /// The transport failed, with an error of this number.
    pub fn error(&mut self, time: u32, number: u16) -> &mut Recording<'b> {
        self.push(Event::error(time, number))
    }

    /// The events, twelve bytes each.
    pub fn events(&self) -> &[u8] {
        if self.over_full {
            return &NO_EVENT;
        }
        self.events.as_slice()
    }

    /// The replies' bytes, one behind the other.
    pub fn replies(&self) -> &[u8] {
        self.replies.as_slice()
    }
}
