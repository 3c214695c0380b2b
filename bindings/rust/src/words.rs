//! Errors, refusals and deviations in words that a technician understands.

use crate::{NegativeResponseCode, ProtocolDeviation};
use core::fmt;

/// Why a call did not go well.
#[derive(Debug, Clone, Copy, PartialEq, Eq)]
pub enum Error {
    /// The controller refused, with this code.
    Negative(NegativeResponseCode),
    /// Nothing came in time; the time at which waiting ended, in milliseconds since sending.
    Timeout(u64),
    Disconnected,
    /// The number that the transport's error was given.
    Transport(u16),
    /// Strict: a reply that breaks a rule.
    Deviation(ProtocolDeviation),
    /// Lenient: a reply too short to read.
    TooShort,
    BlockLengthOverflow,
    /// There is no answer: a request that cannot be made (refusals 1 to 9), or a list of events that breaks a limit (10).
    Refused(Refusal),
    /// The controller asked for patience once more than the limit bears; how often in all.
    PendingLimit(usize),
    /// Silence was asked for, so there is no record.
    NoRecord,
    /// A record of another length than what was to be read from it.
    RecordLength {
        wanted: usize,
        found: usize,
    },
}

impl core::error::Error for Error {}

impl fmt::Display for Error {
    fn fmt(&self, f: &mut fmt::Formatter<'_>) -> fmt::Result {
        match self {
            Error::Negative(code) => match code.name() {
                Some(name) => write!(f, "the controller refused: {name} (code {:02x})", code.0),
                None => write!(f, "the controller refused with code {:02x}", code.0),
            },
            Error::Timeout(time) => write!(f, "no answer in time: waiting ended at {time} ms"),
            Error::Disconnected => f.write_str("the connection ended before an answer came"),
            Error::Transport(number) => write!(f, "the transport failed with its error {number}"),
            Error::Deviation(deviation) => write!(
                f,
                "the reply breaks rule {}: {deviation}",
                deviation.number()
            ),
            Error::TooShort => f.write_str("the reply is too short to read"),
            Error::BlockLengthOverflow => f.write_str("the block length does not fit 64 bits"),
            Error::Refused(refusal) => {
                write!(f, "the call is refused: {refusal} (refusal {})", refusal.0)
            }
            Error::PendingLimit(notices) => {
                write!(
                    f,
                    "the controller asked to wait {notices} times, more than the limit"
                )
            }
            Error::NoRecord => {
                f.write_str("the controller was asked to be silent, so there is no record")
            }
            Error::RecordLength { wanted, found } => {
                write!(
                    f,
                    "the record has {found} bytes where {wanted} were to be read"
                )
            }
        }
    }
}

/// Why nothing was done, by its number; it displays in words.
#[derive(Debug, Clone, Copy, PartialEq, Eq)]
pub struct Refusal(pub u8);

impl fmt::Display for Refusal {
    fn fmt(&self, f: &mut fmt::Formatter<'_>) -> fmt::Result {
        f.write_str(match self.0 {
            1 => "a key is to be sent, and there is no data",
            2 => "the address has not 1 to 15 bytes",
            3 => "the size has not 1 to 15 bytes",
            4 => "the compression method is above 15",
            5 => "the encryption method is above 15",
            6 => "the width of address or size is out of range",
            7 => "address or size needs more bytes than its width",
            8 => "the request is longer than 4,095 bytes",
            9 => "the buffer is too short for the request",
            10 => "the list of events breaks a limit",
            11 => "the block length is below 3",
            12 => "there is no block of that number",
            13 => "the buffer is too short for the reply",
            20 => "earlier than the last step",
            21 => "the call has settled",
            other => return write!(f, "refusal {other}"),
        })
    }
}

impl core::error::Error for Refusal {}

impl fmt::Display for ProtocolDeviation {
    fn fmt(&self, f: &mut fmt::Formatter<'_>) -> fmt::Result {
        f.write_str(match self {
            ProtocolDeviation::InvalidServiceId => "it answers another service",
            ProtocolDeviation::InvalidRequestServiceId => "it refuses another service",
            ProtocolDeviation::InvalidSubFunction => "it names another sub-function",
            ProtocolDeviation::UnexpectedPositiveResponse => {
                "silence was asked for, and it is positive"
            }
            ProtocolDeviation::InvalidDataIdentifier => "it names another identifier",
            ProtocolDeviation::InvalidRoutineIdentifier => "it names another routine",
            ProtocolDeviation::InvalidBlockSequenceCounter => "it names another block",
            ProtocolDeviation::InvalidResponseLength { minimum, maximum } => {
                // the bounds are not all: call 15 wants 3 bytes and a multiple of 4
                return match maximum {
                    Some(most) if most == minimum => write!(f, "it has not {minimum} bytes"),
                    Some(most) => write!(f, "its length is wrong (bounds {minimum} to {most})"),
                    None => write!(f, "its length is wrong (bounds {minimum} or more)"),
                };
            }
            ProtocolDeviation::InvalidLengthFormat => "its block length has no bytes",
            ProtocolDeviation::InvalidLengthFormatIdentifier => {
                "its length format has bits that are to be 0"
            }
            ProtocolDeviation::InvalidMaxNumberOfBlockLength => "its block length is below 3",
            ProtocolDeviation::InvalidAddressAndLengthFormatIdentifier => {
                "it names other lengths of address and size"
            }
            ProtocolDeviation::InvalidMemoryAddress => "it names another address",
            ProtocolDeviation::InvalidMemorySize => "it names another size",
            ProtocolDeviation::InvalidMemoryRecordLength => {
                "it has not as many bytes as were asked for"
            }
        })
    }
}

impl core::error::Error for ProtocolDeviation {}
