//! Bintrochis for Rust: a UDS client (ISO 14229-1) in which every call is proved.
//!
//! A call is judged from what was heard. [`Asked::request`] writes the bytes to send into a lent buffer, and [`Asked::hear`] judges a
//! [`Recording`] of what came back, each event with its time since sending. [`Client`] does both over a [`Transport`]: it sends, listens
//! until the call has settled, keeps the session, and comes back at the finishing time. [`Asked::begin`] is for a task that cannot wait:
//! its [`Engine`] is handed one event or the time in each cycle.
//!
//! ```
//! use bintrochis::{Asked, Call, Config, Recording, Session, LONGEST_REQUEST};
//!
//! let asked = Asked::new(&Call::ReadDataByIdentifier { identifier: 0x2101 }, &Config::default());
//! let mut buffer = [0; LONGEST_REQUEST];
//! assert_eq!(asked.request(&mut buffer)?, [0x22, 0x21, 0x01]);
//!
//! // At 20 ms the controller asks for patience, at 900 ms it tells the hoist's count.
//! let (mut events, mut replies) = ([0; 64], [0; 64]);
//! let mut heard = Recording::lent(&mut events, &mut replies);
//! heard.reply(20, &[0x7f, 0x22, 0x78]).reply(900, &[0x62, 0x21, 0x01, 0x03, 0xe8]);
//! let answer = asked.hear(&mut Session::default(), &mut buffer, &heard);
//! assert_eq!(answer.response()?.record()?.u16()?, 1000);
//! assert_eq!((answer.time, answer.notices), (900, 1));
//! # Ok::<(), bintrochis::Error>(())
//! ```
//!
//! There is no `std` here and no allocation; the feature `alloc` adds a [`Recording`] that grows. What this crate adds to the proved
//! library has no proof: `door.rs`, the only `unsafe` code, hands slices on as pointers and lengths, and the rest turns numbers into
//! enums and places into slices. It is tested (`tests/`), and it is short enough to be read.
#![no_std]
#![deny(unsafe_code)]

#[cfg(feature = "alloc")]
extern crate alloc;
#[cfg(test)]
extern crate std;

mod beside;
mod client;
#[allow(unsafe_code)]
mod door;
mod engine;
mod names;
mod recording;
mod response;
mod words;

use core::fmt;

pub use beside::{line, respond, Blocks, LONGEST_LINE};
pub use client::{Client, Failure, Heard, Transport};
pub use engine::{Engine, Event, StepRefusal};
pub use recording::Recording;
pub use response::{Fault, Faults, Record, Response};
pub use words::{Error, Refusal};

use door::{number, Fields, Lent, Numbers};

/// The example of the crate's README.md, run as a test.
#[cfg(doctest)]
#[doc = include_str!("../README.md")]
struct Readme;

/// The version of the proved library: 200 is 0.2.0.
pub fn version() -> u32 {
    door::version()
}

/// No request is longer, so a buffer of so many bytes takes each.
pub const LONGEST_REQUEST: usize = 4095;

/// No reply is longer.
pub const LONGEST_REPLY: usize = 4095;

/// The session record, in milliseconds. Call 1 sets it, if the server's timing is taken.
#[derive(Debug, Clone, Copy, PartialEq, Eq)]
pub struct Session {
    pub p2: u32,
    pub p2_star: u32,
}

impl Default for Session {
    /// The Rust's defaults.
    fn default() -> Session {
        Session {
            p2: 50,
            p2_star: 5000,
        }
    }
}

/// How a call is made.
#[derive(Debug, Clone, Copy, PartialEq, Eq)]
pub struct Config {
    pub strict: bool,
    pub server_timing: bool,
    /// The suppressed client calls: bit 7 of the sub-function is set.
    pub suppressed: bool,
    /// The overall timeout T, in milliseconds since sending; none if left out.
    pub overall: Option<u32>,
    /// How many notices (NRC 0x78) a call bears; the one after ends it with [`Outcome::PendingLimit`]. None if left out.
    pub notice_limit: Option<u8>,
    /// The address listened to on a channel that several controllers answer on: replies from other addresses are passed over. If left
    /// out, replies have no address.
    pub listens: Option<u16>,
    /// The `alfid` forms take widths of 1 to 15 bytes, padded with zeros on the left, and not only of 1 to 8.
    pub wide: bool,
}

impl Default for Config {
    /// The Rust's defaults: strict, and the server's timing is taken.
    fn default() -> Config {
        Config {
            strict: true,
            server_timing: true,
            suppressed: false,
            overall: None,
            notice_limit: None,
            listens: None,
            wide: false,
        }
    }
}

/// Address and size: bytes, or numbers with a width in bytes each.
#[derive(Debug, Clone, Copy, PartialEq, Eq)]
pub enum Memory<'a> {
    Bytes {
        address: &'a [u8],
        size: &'a [u8],
    },
    Alfid {
        address: u64,
        size: u64,
        address_width: usize,
        size_width: usize,
    },
}

/// The calls, under the names of the Rust's services; the last, which the Rust lacks, after its name for the number of faults. Data is
/// absent (`None`) or present, be it of no bytes; the two are not the same.
#[derive(Debug, Clone, Copy, PartialEq, Eq)]
pub enum Call<'a> {
    Request {
        sid: u8,
        sub_function: Option<u8>,
        data: Option<&'a [u8]>,
    },
    DiagnosticSessionControl {
        session_type: u8,
    },
    EcuReset {
        reset_type: u8,
    },
    SecurityAccess {
        access_type: u8,
        data: Option<&'a [u8]>,
    },
    TesterPresent,
    ReadMemoryByAddress {
        memory: Memory<'a>,
    },
    WriteMemoryByAddress {
        memory: Memory<'a>,
        data: &'a [u8],
    },
    ReadDataByIdentifier {
        identifier: u16,
    },
    WriteDataByIdentifier {
        identifier: u16,
        data: &'a [u8],
    },
    ReadDTCInformationNumberOfDTCByStatusMask {
        status_mask: u8,
    },
    RoutineControl {
        control_type: u8,
        identifier: u16,
        data: Option<&'a [u8]>,
    },
    RequestDownload {
        compression: u8,
        encryption: u8,
        memory: Memory<'a>,
    },
    RequestUpload {
        compression: u8,
        encryption: u8,
        memory: Memory<'a>,
    },
    TransferData {
        counter: u8,
        data: Option<&'a [u8]>,
    },
    RequestTransferExit {
        data: Option<&'a [u8]>,
    },
    /// The faults themselves: a positive hands out the availability mask, then records of three fault-code bytes and one status byte.
    ReadDTCInformationDTCByStatusMask {
        status_mask: u8,
    },
}

/// What a strict reply must not be, in the order of the Rust's enum.
#[derive(Debug, Clone, Copy, PartialEq, Eq)]
pub enum ProtocolDeviation {
    InvalidServiceId,
    InvalidRequestServiceId,
    InvalidSubFunction,
    UnexpectedPositiveResponse,
    InvalidDataIdentifier,
    InvalidRoutineIdentifier,
    InvalidBlockSequenceCounter,
    InvalidResponseLength { minimum: u64, maximum: Option<u64> },
    InvalidLengthFormat,
    InvalidLengthFormatIdentifier,
    InvalidMaxNumberOfBlockLength,
    InvalidAddressAndLengthFormatIdentifier,
    InvalidMemoryAddress,
    InvalidMemorySize,
    InvalidMemoryRecordLength,
}

/// A negative response code, as the controller sends it. It displays as its name, or as its byte if it has none.
#[derive(Debug, Clone, Copy, PartialEq, Eq, Hash)]
pub struct NegativeResponseCode(pub u8);

impl NegativeResponseCode {
    /// The number of its name in the order of the Rust's enum, from 1; 0 where it has none.
    pub fn number(self) -> u8 {
        door::name_number(self.0)
    }

    /// Its name, if it has one.
    pub fn name(self) -> Option<&'static str> {
        match self.number() {
            0 => None,
            number => Some(names::NAMES[usize::from(number)]),
        }
    }
}

impl fmt::Display for NegativeResponseCode {
    fn fmt(&self, f: &mut fmt::Formatter<'_>) -> fmt::Result {
        match self.name() {
            Some(name) => f.pad(name),
            None => write!(f, "{:#04x}", self.0),
        }
    }
}

/// How a call ended. Data is a part of the lent reply bytes.
#[derive(Debug, Clone, Copy, PartialEq, Eq)]
pub enum Outcome<'r> {
    PositiveResponse(&'r [u8]),
    /// Silence, which was asked for.
    Suppressed,
    NegativeResponse(NegativeResponseCode),
    Timeout,
    Disconnected,
    /// The number that the transport's error was given.
    Transport(u16),
    ProtocolDeviation(ProtocolDeviation),
    /// Lenient: a reply too short to read.
    InvalidResponseLength,
    BlockLengthOverflow,
    /// Nothing to send, by the refusal of this number.
    Refused(u8),
    /// The notice after as many as the limit bears.
    PendingLimit,
}

/// What a call answers.
#[derive(Debug, Clone, Copy, PartialEq, Eq)]
pub struct Answer<'q, 'r> {
    pub outcome: Outcome<'r>,
    /// The finishing time, in milliseconds since sending.
    pub time: u64,
    /// How many events were read, the one that settled the call and replies from other addresses included, and how many of these
    /// were wait notices.
    pub events: usize,
    pub notices: usize,
    /// The reply that settled the call; empty if none did.
    pub reply: &'r [u8],
    /// The block length of a download or an upload that was answered positive, and else 0.
    pub block_length: u64,
    /// The bytes that are sent; empty under a refusal.
    pub request: &'q [u8],
}

// Flags.
const STRICT: u8 = 1;
const SERVER_TIMING: u8 = 2;
const SUPPRESSED: u8 = 4;
const OVERALL: u8 = 8;
const SUB: u8 = 16;
const DATA: u8 = 32;

/// What a call without address and size has in their place.
const NO_MEMORY: door::Memory = door::Memory::Lengths {
    address: 0,
    size: 0,
};

/// A field of more bytes than this is refused as one of so many is, and its length may not fit the door's byte.
const TOO_LONG: usize = 16;

/// A call with its setting, in the form that the proved library takes.
#[derive(Debug, Clone, Copy, PartialEq, Eq)]
pub struct Asked<'a> {
    fields: Fields,
    address: &'a [u8],
    size: &'a [u8],
    data: &'a [u8],
}

impl<'a> Asked<'a> {
    pub fn new(call: &Call<'a>, config: &Config) -> Asked<'a> {
        let none = Memory::Bytes {
            address: &[],
            size: &[],
        };
        let methods =
            |compression: u8, encryption: u8| u16::from_be_bytes([compression, encryption]);
        // The call's number, `value`, `sub`, address and size, data.
        let (call, value, sub, memory, data) = match *call {
            Call::Request {
                sid,
                sub_function,
                data,
            } => (0, sid.into(), sub_function, none, data),
            Call::DiagnosticSessionControl { session_type } => {
                (1, 0, Some(session_type), none, None)
            }
            Call::EcuReset { reset_type } => (2, 0, Some(reset_type), none, None),
            Call::SecurityAccess { access_type, data } => (3, 0, Some(access_type), none, data),
            Call::TesterPresent => (4, 0, None, none, None),
            Call::ReadMemoryByAddress { memory } => (5, 0, None, memory, None),
            Call::WriteMemoryByAddress { memory, data } => (6, 0, None, memory, Some(data)),
            Call::ReadDataByIdentifier { identifier } => (7, identifier, None, none, None),
            Call::WriteDataByIdentifier { identifier, data } => {
                (8, identifier, None, none, Some(data))
            }
            Call::ReadDTCInformationNumberOfDTCByStatusMask { status_mask } => {
                (9, status_mask.into(), None, none, None)
            }
            Call::RoutineControl {
                control_type,
                identifier,
                data,
            } => (10, identifier, Some(control_type), none, data),
            Call::RequestDownload {
                compression,
                encryption,
                memory,
            } => (11, methods(compression, encryption), None, memory, None),
            Call::RequestUpload {
                compression,
                encryption,
                memory,
            } => (12, methods(compression, encryption), None, memory, None),
            Call::TransferData { counter, data } => (13, counter.into(), None, none, data),
            Call::RequestTransferExit { data } => (14, 0, None, none, data),
            Call::ReadDTCInformationDTCByStatusMask { status_mask } => {
                (15, status_mask.into(), None, none, None)
            }
        };
        let (memory, address, size) = match memory {
            Memory::Bytes { address, size } => {
                let address = &address[..address.len().min(TOO_LONG)];
                let size = &size[..size.len().min(TOO_LONG)];
                let lengths = door::Memory::Lengths {
                    address: address.len() as u8,
                    size: size.len() as u8,
                };
                (lengths, address, size)
            }
            Memory::Alfid {
                address,
                size,
                address_width,
                size_width,
            } => {
                let alfid = door::Alfid {
                    address,
                    size,
                    address_width,
                    size_width,
                    wide: config.wide,
                };
                (door::Memory::Alfid(alfid), &[][..], &[][..])
            }
        };
        let flags = [
            (STRICT, config.strict),
            (SERVER_TIMING, config.server_timing),
            (SUPPRESSED, config.suppressed),
            (OVERALL, config.overall.is_some()),
            (SUB, call == 0 && sub.is_some()),
            (DATA, data.is_some()),
        ];
        let fields = Fields {
            call,
            flags: flags
                .iter()
                .map(|&(weight, set)| weight * u8::from(set))
                .sum(),
            value,
            sub: sub.unwrap_or(0),
            memory,
            overall: config.overall.unwrap_or(0),
            limit: config.notice_limit.map_or(door::NO_LIMIT, u16::from),
            addressed: config.listens.is_some(),
            listens: config.listens.unwrap_or(0),
        };
        Asked {
            fields,
            address,
            size,
            data: data.unwrap_or_default(),
        }
    }

    /// Address, size and data as the library takes them, in a row.
    fn in_a_row<R>(&self, then: impl FnOnce(&[u8]) -> R) -> R {
        if self.data.is_empty() {
            return self.in_a_row_of::<{ 2 * TOO_LONG }, R>(then);
        }
        self.in_a_row_of::<{ 2 * TOO_LONG + LONGEST_REQUEST + 1 }, R>(then)
    }

    /// A request with so much data that it is cut here is refused with 8, cut or whole.
    #[inline(never)]
    fn in_a_row_of<const N: usize, R>(&self, then: impl FnOnce(&[u8]) -> R) -> R {
        let mut row = [0; N];
        let data = &self.data[..self.data.len().min(LONGEST_REQUEST + 1)];
        let mut length = 0;
        for part in [self.address, self.size, data] {
            row[length..length + part.len()].copy_from_slice(part);
            length += part.len();
        }
        then(&row[..length])
    }

    /// The bytes to send, which stand at the front of the lent buffer; or why there are none.
    pub fn request<'q>(&self, buffer: &'q mut [u8]) -> Result<&'q [u8], Error> {
        let answer = self.answer(&mut Session::default(), buffer, &[], &[]);
        match answer.outcome {
            Outcome::Refused(number) => Err(Error::Refused(Refusal(number))),
            _ => Ok(answer.request),
        }
    }

    /// The whole call over what was heard. [`Answer::response`] says it as a `Result`.
    ///
    /// A recording says where each reply comes from, 0 if it was not told; so without [`Config::listens`] 0 is listened to.
    #[inline]
    pub fn hear<'q, 'r>(
        &self,
        session: &mut Session,
        request: &'q mut [u8],
        heard: &'r Recording<'_>,
    ) -> Answer<'q, 'r> {
        let (events, replies) = (heard.events(), heard.replies());
        self.answered(true, session, request, events, replies)
    }

    /// The whole call over a list of events as bytes, a log's: ten for each, or where the call listens to an address twelve, as
    /// [`Event::to_bytes`] writes them. `replies` are the bytes that they name parts of.
    #[inline]
    pub fn answer<'q, 'r>(
        &self,
        session: &mut Session,
        request: &'q mut [u8],
        events: &[u8],
        replies: &'r [u8],
    ) -> Answer<'q, 'r> {
        self.answered(self.fields.addressed, session, request, events, replies)
    }

    /// The same, where events have a source or none.
    #[inline]
    fn answered<'q, 'r>(
        &self,
        addressed: bool,
        session: &mut Session,
        request: &'q mut [u8],
        events: &[u8],
        replies: &'r [u8],
    ) -> Answer<'q, 'r> {
        let mut numbers: Numbers = [0; number::COUNT];
        let timing = [session.p2, session.p2_star];
        let result = match self.fields.memory {
            NO_MEMORY => {
                let lent = Lent {
                    request: &mut *request,
                    events,
                    replies,
                };
                let (lengths, data) = ([0, 0], self.data);
                door::call(
                    &self.fields,
                    lengths,
                    addressed,
                    timing,
                    data,
                    lent,
                    &mut numbers,
                )
            }
            _ => self.call_on_memory(addressed, timing, request, events, replies, &mut numbers),
        };
        if result != door::DONE {
            no_such("result of what asks a call", result.into());
        }
        *session = Session {
            p2: numbers[number::P2] as u32,
            p2_star: numbers[number::P2_STAR] as u32,
        };
        let request = &request[..numbers[number::REQUEST_LENGTH] as usize];
        answer_of(&numbers, request, replies)
            .expect("the library is proved to name places in the reply bytes alone")
    }

    /// A call with an address and a size. It has a frame of its own, so that another call fits a small stack.
    #[inline(never)]
    fn call_on_memory(
        &self,
        addressed: bool,
        timing: [u32; 2],
        request: &mut [u8],
        events: &[u8],
        replies: &[u8],
        numbers: &mut Numbers,
    ) -> u8 {
        let lent = Lent {
            request,
            events,
            replies,
        };
        match &self.fields.memory {
            door::Memory::Alfid(alfid) => door::call_alfid(
                &self.fields,
                alfid,
                addressed,
                timing,
                self.data,
                lent,
                numbers,
            ),
            &door::Memory::Lengths { address, size } => self.in_a_row(|arguments| {
                let lengths = [address, size];
                door::call(
                    &self.fields,
                    lengths,
                    addressed,
                    timing,
                    arguments,
                    lent,
                    numbers,
                )
            }),
        }
    }
}

/// What the library is proved never to say. The words are put together in a frame of their own, so that no call has room for them on
/// its stack.
#[cold]
#[inline(never)]
fn no_such(what: &str, number: u64) -> ! {
    unreachable!("the library is proved to number no {what} {number}")
}

/// The answer that numbers say, with the bytes that were sent; none where the reply bytes end before its places.
#[inline(always)]
fn answer_of<'q, 'r>(
    numbers: &Numbers,
    request: &'q [u8],
    replies: &'r [u8],
) -> Option<Answer<'q, 'r>> {
    let n = |at: usize| numbers[at] as usize;
    let part = |at: usize, length: usize| replies.get(n(at)..)?.get(..n(length));
    Some(Answer {
        outcome: outcome(numbers, part(number::DATA_AT, number::DATA_LENGTH)?),
        time: numbers[number::TIME],
        events: n(number::EVENTS),
        notices: n(number::NOTICES),
        reply: part(number::REPLY_AT, number::REPLY_LENGTH)?,
        block_length: numbers[number::BLOCK_LENGTH],
        request,
    })
}

#[inline]
fn outcome<'r>(numbers: &Numbers, data: &'r [u8]) -> Outcome<'r> {
    let detail = numbers[number::DETAIL];
    match numbers[number::OUTCOME] {
        0 => Outcome::PositiveResponse(data),
        1 => Outcome::Suppressed,
        2 => Outcome::NegativeResponse(NegativeResponseCode(detail as u8)),
        3 => Outcome::Timeout,
        4 => Outcome::Disconnected,
        5 => Outcome::Transport(detail as u16),
        6 => Outcome::ProtocolDeviation(deviation(numbers)),
        7 => Outcome::InvalidResponseLength,
        8 => Outcome::BlockLengthOverflow,
        9 => Outcome::Refused(detail as u8),
        10 => Outcome::PendingLimit,
        other => no_such("outcome", other),
    }
}

#[inline]
fn deviation(numbers: &Numbers) -> ProtocolDeviation {
    match numbers[number::DETAIL] {
        1 => ProtocolDeviation::InvalidServiceId,
        2 => ProtocolDeviation::InvalidRequestServiceId,
        3 => ProtocolDeviation::InvalidSubFunction,
        4 => ProtocolDeviation::UnexpectedPositiveResponse,
        5 => ProtocolDeviation::InvalidDataIdentifier,
        6 => ProtocolDeviation::InvalidRoutineIdentifier,
        7 => ProtocolDeviation::InvalidBlockSequenceCounter,
        8 => ProtocolDeviation::InvalidResponseLength {
            minimum: numbers[number::LEAST],
            maximum: Some(numbers[number::MOST]).filter(|&most| most != u64::MAX),
        },
        9 => ProtocolDeviation::InvalidLengthFormat,
        10 => ProtocolDeviation::InvalidLengthFormatIdentifier,
        11 => ProtocolDeviation::InvalidMaxNumberOfBlockLength,
        12 => ProtocolDeviation::InvalidAddressAndLengthFormatIdentifier,
        13 => ProtocolDeviation::InvalidMemoryAddress,
        14 => ProtocolDeviation::InvalidMemorySize,
        15 => ProtocolDeviation::InvalidMemoryRecordLength,
        other => no_such("deviation", other),
    }
}

impl ProtocolDeviation {
    /// Document 01's number.
    pub fn number(self) -> u8 {
        match self {
            ProtocolDeviation::InvalidServiceId => 1,
            ProtocolDeviation::InvalidRequestServiceId => 2,
            ProtocolDeviation::InvalidSubFunction => 3,
            ProtocolDeviation::UnexpectedPositiveResponse => 4,
            ProtocolDeviation::InvalidDataIdentifier => 5,
            ProtocolDeviation::InvalidRoutineIdentifier => 6,
            ProtocolDeviation::InvalidBlockSequenceCounter => 7,
            ProtocolDeviation::InvalidResponseLength { .. } => 8,
            ProtocolDeviation::InvalidLengthFormat => 9,
            ProtocolDeviation::InvalidLengthFormatIdentifier => 10,
            ProtocolDeviation::InvalidMaxNumberOfBlockLength => 11,
            ProtocolDeviation::InvalidAddressAndLengthFormatIdentifier => 12,
            ProtocolDeviation::InvalidMemoryAddress => 13,
            ProtocolDeviation::InvalidMemorySize => 14,
            ProtocolDeviation::InvalidMemoryRecordLength => 15,
        }
    }
}
