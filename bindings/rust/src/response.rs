//! An answer as a `Result`, and what a record holds.

use crate::{door, Answer, Error, NegativeResponseCode, Outcome, Refusal};

/// How a call went well, and its finishing time, in milliseconds since sending.
#[derive(Debug, Clone, Copy, PartialEq, Eq)]
pub enum Response<'r> {
    Positive {
        record: Record<'r>,
        time: u64,
    },
    /// Silence, which was asked for.
    Suppressed {
        time: u64,
    },
}

impl<'r> Answer<'_, 'r> {
    /// The outcome as a `Result`: positive and asked-for silence are well, all else is an [`Error`].
    pub fn response(&self) -> Result<Response<'r>, Error> {
        let time = self.time;
        Err(match self.outcome {
            Outcome::PositiveResponse(data) => {
                let record = Record(data);
                return Ok(Response::Positive { record, time });
            }
            Outcome::Suppressed => return Ok(Response::Suppressed { time }),
            Outcome::NegativeResponse(code) => Error::Negative(code),
            Outcome::Timeout => Error::Timeout(time),
            Outcome::Disconnected => Error::Disconnected,
            Outcome::Transport(number) => Error::Transport(number),
            Outcome::ProtocolDeviation(deviation) => Error::Deviation(deviation),
            Outcome::InvalidResponseLength => Error::TooShort,
            Outcome::BlockLengthOverflow => Error::BlockLengthOverflow,
            Outcome::Refused(number) => Error::Refused(Refusal(number)),
            Outcome::PendingLimit => Error::PendingLimit(self.notices),
        })
    }
}

impl<'r> Response<'r> {
    /// The record that a positive handed out; an error where the controller was silent, as it was asked to be.
    pub fn record(self) -> Result<Record<'r>, Error> {
        match self {
            Response::Positive { record, .. } => Ok(record),
            Response::Suppressed { .. } => Err(Error::NoRecord),
        }
    }

    /// The finishing time, in milliseconds since sending.
    pub fn time(self) -> u64 {
        match self {
            Response::Positive { time, .. } | Response::Suppressed { time } => time,
        }
    }
}

/// The data that a positive handed out. Numbers are high byte first, and have all of its bytes.
///
/// ```
/// # use bintrochis::{Error, Record};
/// assert_eq!(Record(&[0x03, 0xe8]).u16(), Ok(1000));
/// assert_eq!(Record(&[0x03]).u16(), Err(Error::RecordLength { wanted: 2, found: 1 }));
/// ```
#[derive(Debug, Clone, Copy, PartialEq, Eq)]
pub struct Record<'r>(pub &'r [u8]);

impl<'r> Record<'r> {
    /// Its bytes, if there are N.
    pub fn array<const N: usize>(self) -> Result<[u8; N], Error> {
        let found = self.0.len();
        self.0
            .try_into()
            .map_err(|_| Error::RecordLength { wanted: N, found })
    }

    pub fn u8(self) -> Result<u8, Error> {
        self.array().map(u8::from_be_bytes)
    }

    pub fn u16(self) -> Result<u16, Error> {
        self.array().map(u16::from_be_bytes)
    }

    pub fn u32(self) -> Result<u32, Error> {
        self.array().map(u32::from_be_bytes)
    }

    pub fn u64(self) -> Result<u64, Error> {
        self.array().map(u64::from_be_bytes)
    }

    /// Of call 15's record, an availability mask and records of faults: those whose status shares a bit with the mask.
    ///
    /// ```
    /// # use bintrochis::{Fault, Record};
    /// let record = Record(&[0xff, 0x01, 0x02, 0x03, 0x08, 0x04, 0x05, 0x06, 0x01]);
    /// let confirmed: Vec<Fault> = record.faults(0x08).collect();
    /// assert_eq!(confirmed, [Fault { code: 0x010203, status: 0x08 }]);
    /// assert_eq!(record.faults(0xff).count(), 2);
    /// ```
    pub fn faults(self, mask: u8) -> Faults<'r> {
        Faults {
            mask,
            records: self.0.get(1..).unwrap_or_default(),
        }
    }
}

/// One fault.
#[derive(Debug, Clone, Copy, PartialEq, Eq)]
pub struct Fault {
    /// Three bytes, high byte first.
    pub code: u32,
    pub status: u8,
}

/// The faults that a mask selects, in order: see [`Record::faults`].
#[derive(Debug, Clone, PartialEq, Eq)]
pub struct Faults<'r> {
    mask: u8,
    /// The records behind the last fault that was found, so that no record is read twice.
    records: &'r [u8],
}

impl Iterator for Faults<'_> {
    type Item = Fault;

    fn next(&mut self) -> Option<Fault> {
        let at = door::first_fault(self.mask, self.records)?;
        let (&[high, middle, low, status], behind) =
            self.records.get(at..)?.split_first_chunk::<4>()?;
        self.records = behind;
        Some(Fault {
            code: u32::from_be_bytes([0, high, middle, low]),
            status,
        })
    }
}

impl NegativeResponseCode {
    /// Whether it is the notice that asks for patience, which is never an answer.
    pub fn is_wait(self) -> bool {
        self == NegativeResponseCode::RequestCorrectlyReceivedResponsePending
    }
}
