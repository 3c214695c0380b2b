//! The engine that is handed one event at a time, for a task that cannot wait for a list of events.

use core::error::Error;
use core::fmt;

use crate::door::{self, number};
use crate::{answer_of, no_such, Answer, Asked, Session, NO_MEMORY};

/// One event, with the fields that it has in a log of version 2. Where a controller is alone on its channel, sources are 0.
#[derive(Debug, Clone, Copy, PartialEq, Eq)]
pub struct Event {
    /// In milliseconds since sending.
    pub time: u32,
    /// 0 a reply, 1 idle, 2 end, 3 a transport error; no other is taken.
    pub kind: u16,
    /// Where a reply stands in the bytes that are lent with it; else 0.
    pub offset: u16,
    /// A reply's length, a transport error's number; else 0.
    pub length: u16,
    /// The address that a reply comes from; else 0.
    pub source: u16,
}

impl Event {
    /// A reply from this address: these bytes of those that are lent with it.
    pub fn reply(time: u32, offset: u16, length: u16, source: u16) -> Event {
        Event {
            time,
            kind: 0,
            offset,
            length,
            source,
        }
    }

    /// As it stands in a log of version 2; the first ten bytes are those of version 1, which has no source.
    pub fn to_bytes(self) -> [u8; 12] {
        let mut bytes = [0; 12];
        bytes[..4].copy_from_slice(&self.time.to_be_bytes());
        let fields = [self.kind, self.offset, self.length, self.source];
        for (at, field) in bytes[4..].chunks_exact_mut(2).zip(fields) {
            at.copy_from_slice(&field.to_be_bytes());
        }
        bytes
    }

    pub fn idle(time: u32) -> Event {
        Event {
            kind: 1,
            ..Event::reply(time, 0, 0, 0)
        }
    }

    pub fn end(time: u32) -> Event {
        Event {
            kind: 2,
            ..Event::reply(time, 0, 0, 0)
        }
    }

    pub fn error(time: u32, number: u16) -> Event {
        Event {
            kind: 3,
            ..Event::reply(time, 0, number, 0)
        }
    }
}

/// Why a step was refused. The engine is as it was, and goes on. Of several reasons the first of document 02's order 21, 10, 20.
#[derive(Debug, Clone, Copy, PartialEq, Eq)]
pub enum StepRefusal {
    /// A kind that there is not, a reply of more than 4,095 bytes or outside the bytes that were lent, a source on another kind
    /// than a reply, or an event behind 512 that were read.
    BadEvent,
    /// Earlier than the last step that was taken, be it an event or a tick.
    GoingBack,
    /// The engine has settled.
    Settled,
}

impl StepRefusal {
    /// Document 02's number.
    pub fn number(self) -> u8 {
        match self {
            StepRefusal::BadEvent => 10,
            StepRefusal::GoingBack => 20,
            StepRefusal::Settled => 21,
        }
    }
}

impl fmt::Display for StepRefusal {
    fn fmt(&self, f: &mut fmt::Formatter<'_>) -> fmt::Result {
        f.write_str(match self {
            StepRefusal::BadEvent => "refusal 10: the event breaks a limit",
            StepRefusal::GoingBack => "refusal 20: earlier than the last step",
            StepRefusal::Settled => "refusal 21: the engine has settled",
        })
    }
}

impl Error for StepRefusal {}

/// A call that was begun: it waits for events and ticks, or it has settled.
///
/// Its state is 28 numbers. It borrows the request, which is compared with what an echo says: the buffer is free again once the
/// engine is gone.
///
/// ```
/// # use bintrochis::{Asked, Call, Config, Event, Outcome, Session, LONGEST_REQUEST};
/// # let config = Config::default();
/// let asked = Asked::new(&Call::ReadDataByIdentifier { identifier: 0x2101 }, &config);
/// let mut buffer = [0; LONGEST_REQUEST];
/// let mut engine = asked.begin(Session { p2: 50, p2_star: 5000 }, &mut buffer);
/// assert_eq!(engine.request(), [0x22, 0x21, 0x01]);
/// assert_eq!(engine.tick(20), Ok(None));
/// let replies = [0x62, 0x21, 0x01, 0x03, 0xe8];
/// let answer = engine.event(Event::reply(30, 0, 5, 0), &replies)?.expect("it has settled");
/// assert_eq!(answer.outcome, Outcome::PositiveResponse(&[0x03, 0xe8]));
/// # Ok::<(), bintrochis::StepRefusal>(())
/// ```
///
/// While the engine is there the request cannot be overwritten:
///
/// ```compile_fail,E0506
/// # use bintrochis::{Asked, Call, Config, Session, LONGEST_REQUEST};
/// # let config = Config::default();
/// let mut buffer = [0; LONGEST_REQUEST];
/// let mut engine = Asked::new(&Call::TesterPresent, &config).begin(Session { p2: 50, p2_star: 5000 }, &mut buffer);
/// buffer[0] = 0;
/// assert_eq!(engine.tick(20), Ok(None));
/// ```
#[must_use]
#[derive(Debug, Clone, PartialEq, Eq)]
pub struct Engine<'q> {
    state: door::State,
    request: &'q [u8],
}

impl<'q> Engine<'q> {
    /// The bytes to send; none under a refusal.
    pub fn request(&self) -> &'q [u8] {
        self.request
    }

    /// Hands over one event with the reply bytes that it names a part of; these are lent for it alone. What was decided, if this
    /// step settled the call. Past the deadline or T an event settles it as a tick would, and is not read.
    #[inline]
    pub fn event<'r>(
        &mut self,
        event: Event,
        replies: &'r [u8],
    ) -> Result<Option<Answer<'q, 'r>>, StepRefusal> {
        taken(door::event(&mut self.state, self.request, event, replies))?;
        Ok(self.settled(replies))
    }

    /// Says the time, in milliseconds since sending. What was decided, if this step settled the call: past the deadline or T, not
    /// at it.
    #[inline]
    pub fn tick(&mut self, now: u64) -> Result<Option<Answer<'q, 'static>>, StepRefusal> {
        taken(door::tick(&mut self.state, now))?;
        Ok(self.settled(&[]))
    }

    pub fn is_settled(&self) -> bool {
        self.state[number::OUTCOME] != door::WAITING
    }

    /// What was decided, where `replies` are the bytes lent with the event that settled the call; a tick settles it without any.
    /// None while the engine waits. None also where `replies` end before the decision's places: these are other bytes.
    #[inline]
    pub fn settled<'r>(&self, replies: &'r [u8]) -> Option<Answer<'q, 'r>> {
        if !self.is_settled() {
            return None;
        }
        answer_of(self.state.first_chunk()?, self.request, replies)
    }

    /// The deadline, in milliseconds since sending, while the engine waits. What comes at the deadline is in time.
    pub fn deadline(&self) -> Option<u64> {
        (!self.is_settled()).then_some(self.state[number::TIME])
    }

    /// How many events were read so far, or by the decision, which under a timeout at T are those up to T.
    pub fn events(&self) -> usize {
        self.state[number::EVENTS] as usize
    }

    /// How many of these were wait notices.
    pub fn notices(&self) -> usize {
        self.state[number::NOTICES] as usize
    }

    /// The time of the last step that was taken; 0 before the first.
    pub fn last(&self) -> u64 {
        self.state[door::LAST]
    }

    /// The session's timing: as it was given, or once the engine has settled what the call leaves.
    pub fn session(&self) -> Session {
        Session {
            p2: self.state[number::P2] as u32,
            p2_star: self.state[number::P2_STAR] as u32,
        }
    }
}

fn taken(result: u8) -> Result<(), StepRefusal> {
    match result {
        door::DONE => Ok(()),
        10 => Err(StepRefusal::BadEvent),
        20 => Err(StepRefusal::GoingBack),
        21 => Err(StepRefusal::Settled),
        other => no_such("result of a step from what begin wrote", other.into()),
    }
}

impl Asked<'_> {
    /// Begins the call: writes the request into the lent buffer, to be sent, and waits from then on. A call that is refused
    /// has settled with its refusal, and the buffer is as it was.
    ///
    /// An engine's events always have a source: without [`Config::listens`](crate::Config::listens) it listens to 0.
    #[inline]
    pub fn begin<'q>(&self, session: Session, request: &'q mut [u8]) -> Engine<'q> {
        // the state is written where it stays
        let mut engine = Engine {
            state: [0; door::STATE],
            request: &[],
        };
        let (timing, state) = ([session.p2, session.p2_star], &mut engine.state);
        let result = match self.fields.memory {
            NO_MEMORY => {
                let (lengths, data) = ([0, 0], self.data);
                door::begin(&self.fields, lengths, timing, data, &mut *request, state)
            }
            _ => self.begin_on_memory(timing, &mut *request, state),
        };
        if result != door::DONE {
            no_such("result of what asks a call", result.into());
        }
        engine.request = &request[..engine.state[number::REQUEST_LENGTH] as usize];
        engine
    }

    /// With an address and a size; a frame of its own, as for a whole call.
    #[inline(never)]
    fn begin_on_memory(&self, timing: [u32; 2], request: &mut [u8], state: &mut door::State) -> u8 {
        match &self.fields.memory {
            door::Memory::Alfid(alfid) => {
                door::begin_alfid(&self.fields, alfid, timing, self.data, request, state)
            }
            &door::Memory::Lengths { address, size } => self.in_a_row(|arguments| {
                let lengths = [address, size];
                door::begin(&self.fields, lengths, timing, arguments, request, state)
            }),
        }
    }
}
