//! Lists of events whose places in the reply bytes are said by hand, so that they may also be wrong.
#![allow(dead_code)]

use bintrochis::Event;

/// Events of so many bytes each.
#[derive(Debug, Clone, Default, PartialEq, Eq)]
pub struct List<const BYTES: usize>(Vec<u8>);

/// As in a log of version 1: no addresses.
pub type Events = List<10>;

/// As in a log of version 2: the source address last.
pub type AddressedEvents = List<12>;

impl<const BYTES: usize> List<BYTES> {
    pub fn new() -> Self {
        List(Vec::new())
    }

    fn push(&mut self, event: Event) -> &mut Self {
        self.0.extend(&event.to_bytes()[..BYTES]);
        self
    }

    pub fn idle(&mut self, time: u32) -> &mut Self {
        self.push(Event::idle(time))
    }

    pub fn end(&mut self, time: u32) -> &mut Self {
        self.push(Event::end(time))
    }

    pub fn error(&mut self, time: u32, number: u16) -> &mut Self {
        self.push(Event::error(time, number))
    }

    pub fn as_bytes(&self) -> &[u8] {
        &self.0
    }
}

impl Events {
    pub fn reply(&mut self, time: u32, offset: u16, length: u16) -> &mut Self {
        self.push(Event::reply(time, offset, length, 0))
    }
}

impl AddressedEvents {
    pub fn reply(&mut self, time: u32, offset: u16, length: u16, source: u16) -> &mut Self {
        self.push(Event::reply(time, offset, length, source))
    }
}
