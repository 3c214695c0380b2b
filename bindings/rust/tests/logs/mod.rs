//! A log's fields as a call, and an answer as a log's line, by docs/RULES.md.
#![allow(dead_code)]

use bintrochis::{Answer, Asked, Call, Config, Memory, Outcome, Session};

/// A log's bytes, read from the front.
struct Log<'l>(&'l [u8]);

impl<'l> Log<'l> {
    fn bytes(&mut self, count: usize) -> &'l [u8] {
        let (front, rest) = self.0.split_at(count);
        self.0 = rest;
        front
    }

    fn number(&mut self, width: usize) -> usize {
        let bytes = self.bytes(width).iter();
        bytes.fold(0, |number, &byte| number * 256 + byte as usize)
    }
}

/// What a log holds.
pub struct Recorded<'l> {
    pub asked: Asked<'l>,
    pub session: Session,
    pub events: &'l [u8],
    pub replies: &'l [u8],
}

/// Reads a log that is none of the bad ones.
pub fn recorded(log: &[u8], notice_limit: Option<u8>) -> Recorded<'_> {
    let mut log = Log(log);
    let addressed = log.number(2) == 2;
    let (number, flags) = (log.number(1), log.number(1));
    let flag = |weight: usize| flags & weight != 0;
    let value = log.number(2) as u16;
    let sub = log.number(1) as u8;
    let (address_length, size_length) = (log.number(1), log.number(1));
    let listens = log.number(if addressed { 2 } else { 1 }) as u16;
    // Three areas with their places, and the total.
    let [arguments, _, events, _, replies, _, _] = [(); 7].map(|()| log.number(2));
    let [p2, p2_star, overall] = [(); 3].map(|()| log.number(4) as u32);
    let mut area = Log(log.bytes(arguments));
    let memory = Memory::Bytes {
        address: area.bytes(address_length),
        size: area.bytes(size_length),
    };
    let present = area.0;
    let data = flag(32).then_some(present);
    let [high, low] = value.to_be_bytes();
    let call = match number {
        0 => Call::Request {
            sid: low,
            sub_function: flag(16).then_some(sub),
            data,
        },
        1 => Call::DiagnosticSessionControl { session_type: sub },
        2 => Call::EcuReset { reset_type: sub },
        3 => Call::SecurityAccess {
            access_type: sub,
            data,
        },
        4 => Call::TesterPresent,
        5 => Call::ReadMemoryByAddress { memory },
        6 => Call::WriteMemoryByAddress {
            memory,
            data: present,
        },
        7 => Call::ReadDataByIdentifier { identifier: value },
        8 => Call::WriteDataByIdentifier {
            identifier: value,
            data: present,
        },
        9 => Call::ReadDTCInformationNumberOfDTCByStatusMask { status_mask: low },
        10 => Call::RoutineControl {
            control_type: sub,
            identifier: value,
            data,
        },
        11 => Call::RequestDownload {
            compression: high,
            encryption: low,
            memory,
        },
        12 => Call::RequestUpload {
            compression: high,
            encryption: low,
            memory,
        },
        13 => Call::TransferData { counter: low, data },
        14 => Call::RequestTransferExit { data },
        15 => Call::ReadDTCInformationDTCByStatusMask { status_mask: low },
        other => panic!("call {other}"),
    };
    let config = Config {
        strict: flag(1),
        server_timing: flag(2),
        suppressed: flag(4),
        overall: flag(8).then_some(overall),
        notice_limit,
        listens: addressed.then_some(listens),
        wide: false,
    };
    let events = log.bytes(events * if addressed { 12 } else { 10 });
    assert_eq!(log.0.len(), replies);
    Recorded {
        asked: Asked::new(&call, &config),
        session: Session { p2, p2_star },
        events,
        replies: log.0,
    }
}

/// The line of an answer.
pub fn line(answer: &Answer) -> String {
    let (word, detail) = match answer.outcome {
        Outcome::PositiveResponse(data) => ("positive", data.to_vec()),
        Outcome::Suppressed => ("suppressed", vec![]),
        Outcome::NegativeResponse(code) => ("negative", vec![code.0]),
        Outcome::Timeout => ("timeout", vec![]),
        Outcome::Disconnected => ("disconnected", vec![]),
        Outcome::Transport(number) => ("transport", number.to_be_bytes().to_vec()),
        Outcome::ProtocolDeviation(deviation) => {
            let number = [deviation.number()];
            ("deviation", [&number, answer.reply].concat())
        }
        Outcome::InvalidResponseLength => ("length", vec![]),
        Outcome::BlockLengthOverflow => ("overflow", answer.reply.to_vec()),
        Outcome::Refused(number) => ("refused", vec![number]),
        Outcome::PendingLimit => ("pendinglimit", vec![]),
    };
    let hex: String = detail.iter().map(|byte| format!("{byte:02x}")).collect();
    let hex = if hex.is_empty() { "-" } else { &hex };
    let Answer {
        time,
        events,
        notices,
        ..
    } = answer;
    format!("{word} {time} {events} {notices} {hex}")
}
