//! Document 01's log, and document 02's version 2 of it: from a case to its bytes and back, and from an observation to its
//! line. A file of logs has each log after its length as u32, big-endian.

use crate::model::{Call, Case, Data, Event, Memory, Observed, Outcome, Setting};
use std::fmt::Write;

/// Of version 1; the header of version 2 has one byte more, its events two.
const HEADER: usize = 36;
const EVENT: usize = 10;

/// How much further stands what comes after byte 9, and how many bytes an event has.
fn layout(addressed: bool) -> (usize, usize) {
    if addressed {
        (1, EVENT + 2)
    } else {
        (0, EVENT)
    }
}

pub const BADLOG: &str = "badlog 0 0 0 -";

// Flags.
const STRICT: u8 = 1;
const SERVER_TIMING: u8 = 2;
const QUIET: u8 = 4;
const OVERALL: u8 = 8;
const SUB: u8 = 16;
const DATA: u8 = 32;

fn u16_at(bytes: &[u8], at: usize) -> u16 {
    u16::from_be_bytes([bytes[at], bytes[at + 1]])
}

fn u32_at(bytes: &[u8], at: usize) -> u32 {
    u32::from_be_bytes([bytes[at], bytes[at + 1], bytes[at + 2], bytes[at + 3]])
}

/// What a call uses of the header: the largest value; whether sub and the two lengths are used; data forbidden (0),
/// allowed (1) or needed (2). Call 0 uses sub with flag 16 only.
const USES: [(u16, bool, bool, u8); 16] = [
    (255, false, false, 1),
    (0, true, false, 0),
    (0, true, false, 0),
    (0, true, false, 1),
    (0, false, false, 0),
    (0, false, true, 0),
    (0, false, true, 2),
    (65535, false, false, 0),
    (65535, false, false, 2),
    (255, false, false, 0),
    (65535, true, false, 1),
    (65535, false, true, 0),
    (65535, false, true, 0),
    (255, false, false, 1),
    (0, false, false, 1),
    (255, false, false, 0),
];

/// The case that a log says, or none where its layout is bad.
pub fn read(log: &[u8]) -> Option<Case> {
    let addressed = log.starts_with(&[0, 2]);
    let (moved, event_size) = layout(addressed);
    let header = HEADER + moved;
    if log.len() < header || !(addressed || log.starts_with(&[0, 1])) || log[2] > 15 {
        return None;
    }
    let field = |at: usize| u16_at(log, at + moved) as usize;
    let (number, flags) = (log[2], log[3]);
    let flag = |weight| flags & weight != 0;
    let (value, sub, address_length, size_length) = (u16_at(log, 4), log[6], log[7], log[8]);
    let (largest_value, uses_sub, uses_lengths, data_rule) = USES[number as usize];
    let lengths = address_length as usize + size_length as usize;
    let (argument_count, arguments_at) = (field(10), field(12));
    let (event_count, events_at) = (field(14), field(16));
    let (reply_count, replies_at) = (field(18), field(20));
    let total = field(22);
    let overall = u32_at(log, 32 + moved);

    let fields = flags < 64
        && (number == 0 || !flag(SUB))
        && (data_rule > 0 || !flag(DATA))
        && (data_rule < 2 || flag(DATA))
        && value <= largest_value
        && (uses_sub || flag(SUB) || sub == 0)
        && (uses_lengths || lengths == 0)
        && (addressed || log[9] == 0)
        && (flag(OVERALL) || overall == 0)
        && argument_count >= lengths
        && (flag(DATA) || argument_count == lengths);
    let areas = arguments_at == header
        && events_at == arguments_at + argument_count
        && replies_at == events_at + event_count * event_size
        && total == replies_at + reply_count
        && total == log.len();
    if !fields || !areas {
        return None;
    }

    let events = events_of(&log[events_at..replies_at], addressed);
    let unused_are_zero = |event: &Event| match event.kind {
        1 | 2 => event.offset == 0 && event.length == 0,
        3 => event.offset == 0,
        _ => true,
    };
    if !events.iter().all(unused_are_zero) {
        return None;
    }

    let arguments = &log[arguments_at..events_at];
    let (address, rest) = arguments.split_at(address_length as usize);
    let (size, rest) = rest.split_at(size_length as usize);
    let memory = Memory::Bytes {
        address: address.to_vec(),
        size: size.to_vec(),
    };
    let call = call_of(number, flags, value, sub, memory, rest);
    let times = [u32_at(log, 24 + moved), u32_at(log, 28 + moved), overall];
    let mut setting = setting_of(flags, times);
    setting.listens = addressed.then(|| u16_at(log, 9));
    Some(Case {
        call,
        setting,
        events,
        replies: log[replies_at..].to_vec(),
    })
}

/// The call that the fields of a header say.
pub fn call_of(number: u8, flags: u8, value: u16, sub: u8, memory: Memory, data: &[u8]) -> Call {
    let data = (flags & DATA != 0).then(|| data.to_vec());
    let [high, low] = value.to_be_bytes();
    match number {
        0 => Call::Request {
            sid: low,
            sub: (flags & SUB != 0).then_some(sub),
            data,
        },
        1 => Call::Session { sub },
        2 => Call::Reset { sub },
        3 => Call::Security { sub, data },
        4 => Call::TesterPresent,
        5 => Call::ReadMemory { memory },
        6 => Call::WriteMemory {
            memory,
            data: data.unwrap_or_default(),
        },
        7 => Call::ReadIdentifier { id: value },
        8 => Call::WriteIdentifier {
            id: value,
            data: data.unwrap_or_default(),
        },
        9 => Call::FaultCount { mask: low },
        10 => Call::Routine {
            sub,
            id: value,
            data,
        },
        11 => Call::Download {
            compression: high,
            encryption: low,
            memory,
        },
        12 => Call::Upload {
            compression: high,
            encryption: low,
            memory,
        },
        13 => Call::Transfer { counter: low, data },
        14 => Call::TransferExit { data },
        _ => Call::FaultList { mask: low },
    }
}

/// The setting that the flags and P2, P2*, T say. No log has a limit of notices.
pub fn setting_of(flags: u8, [p2, p2_star, overall]: [u32; 3]) -> Setting {
    let flag = |weight| flags & weight != 0;
    Setting {
        strict: flag(STRICT),
        server_timing: flag(SERVER_TIMING),
        quiet: flag(QUIET),
        p2,
        p2_star,
        overall: flag(OVERALL).then_some(overall),
        limit: None,
        listens: None,
    }
}

/// The events that stand in an area of events.
pub fn events_of(area: &[u8], addressed: bool) -> Vec<Event> {
    let event = |entry: &[u8]| Event {
        time: u32_at(entry, 0),
        kind: u16_at(entry, 4),
        offset: u16_at(entry, 6),
        length: u16_at(entry, 8),
        source: if addressed { u16_at(entry, 10) } else { 0 },
    };
    area.chunks_exact(layout(addressed).1).map(event).collect()
}

/// Flags, value and sub of a header, and its three times.
pub struct Fields {
    pub flags: u8,
    pub value: u16,
    pub sub: u8,
    pub times: [u32; 3],
}

pub fn fields_of(case: &Case) -> Fields {
    let setting = &case.setting;
    let value = match &case.call {
        Call::Request { sid: byte, .. }
        | Call::FaultCount { mask: byte }
        | Call::Transfer { counter: byte, .. }
        | Call::FaultList { mask: byte } => (*byte).into(),
        Call::ReadIdentifier { id }
        | Call::WriteIdentifier { id, .. }
        | Call::Routine { id, .. } => *id,
        Call::Download {
            compression,
            encryption,
            ..
        }
        | Call::Upload {
            compression,
            encryption,
            ..
        } => u16::from_be_bytes([*compression, *encryption]),
        _ => 0,
    };
    let fixed_sub = matches!(
        case.call,
        Call::TesterPresent | Call::FaultCount { .. } | Call::FaultList { .. }
    );
    let sub = case.call.sub().filter(|_| !fixed_sub);
    let flags = [
        (STRICT, setting.strict),
        (SERVER_TIMING, setting.server_timing),
        (QUIET, setting.quiet),
        (OVERALL, setting.overall.is_some()),
        (SUB, case.call.number() == 0 && sub.is_some()),
        (DATA, case.call.data().is_some()),
    ];
    Fields {
        flags: flags.iter().map(|&(weight, set)| weight * set as u8).sum(),
        value,
        sub: sub.unwrap_or(0),
        times: [setting.p2, setting.p2_star, setting.overall.unwrap_or(0)],
    }
}

/// The area of events.
pub fn event_bytes(case: &Case) -> Vec<u8> {
    let addressed = case.setting.listens.is_some();
    let mut area = Vec::with_capacity(case.events.len() * layout(addressed).1);
    for event in &case.events {
        area.extend(event.time.to_be_bytes());
        area.extend(event.kind.to_be_bytes());
        area.extend(event.offset.to_be_bytes());
        area.extend(event.length.to_be_bytes());
        if addressed {
            area.extend(event.source.to_be_bytes());
        }
    }
    area
}

/// The log that says a case, or none where no log can: an `alfid` form, or an area too long for its field.
pub fn write(case: &Case) -> Option<Vec<u8>> {
    let empty: &[u8] = &[];
    let (address, size) = match case.call.memory() {
        Some(Memory::Bytes { address, size }) => (&address[..], &size[..]),
        Some(Memory::Alfid { .. }) => return None,
        None => (empty, empty),
    };
    let data = case.call.data().unwrap_or_default();
    let fields = fields_of(case);
    let arguments = address.len() + size.len() + data.len();
    let (moved, event_size) = layout(case.setting.listens.is_some());
    let header = HEADER + moved;
    let events_at = header + arguments;
    let replies_at = events_at + case.events.len() * event_size;
    let total = replies_at + case.replies.len();

    let mut log = Vec::with_capacity(total);
    let version = 1 + case.setting.listens.is_some() as u8;
    log.extend([0, version, case.call.number(), fields.flags]);
    log.extend(fields.value.to_be_bytes());
    log.push(fields.sub);
    log.push(address.len().try_into().ok()?);
    log.push(size.len().try_into().ok()?);
    match case.setting.listens {
        None => log.push(0),
        Some(address) => log.extend(address.to_be_bytes()),
    }
    for number in [
        arguments,
        header,
        case.events.len(),
        events_at,
        case.replies.len(),
        replies_at,
        total,
    ] {
        log.extend(u16::try_from(number).ok()?.to_be_bytes());
    }
    log.extend(fields.times.into_iter().flat_map(u32::to_be_bytes));
    log.extend(address);
    log.extend(size);
    log.extend(data);
    log.extend(event_bytes(case));
    log.extend(&case.replies);
    Some(log)
}

/// The logs of a file.
pub fn split(file: &[u8]) -> Result<Vec<&[u8]>, String> {
    let mut logs = Vec::new();
    let mut rest = file;
    while !rest.is_empty() {
        if rest.len() < 4 {
            return Err(format!(
                "The file ends within the length of log {}.",
                logs.len()
            ));
        }
        let length = u32_at(rest, 0) as usize;
        if rest.len() - 4 < length {
            return Err(format!("The file ends within log {}.", logs.len()));
        }
        logs.push(&rest[4..4 + length]);
        rest = &rest[4 + length..];
    }
    Ok(logs)
}

/// The line of an observation, without its newline.
pub fn line(observed: &Observed) -> String {
    let mut detail = Vec::new();
    match &observed.outcome {
        Outcome::Positive(Data::Bytes(data)) => detail.extend(data),
        Outcome::Negative(code) => detail.push(*code),
        Outcome::Transport(number) => detail.extend(number.to_be_bytes()),
        Outcome::Deviation { number, reply, .. } => {
            detail.push(*number);
            detail.extend(reply);
        }
        Outcome::Overflow { reply } => detail.extend(reply),
        Outcome::Refused(number) => detail.push(*number),
        _ => {}
    }
    let mut line = format!(
        "{} {} {} {} ",
        observed.outcome.word(),
        observed.time,
        observed.events,
        observed.notices
    );
    if detail.is_empty() {
        line.push('-');
    }
    for byte in detail {
        write!(line, "{byte:02x}").expect("a string takes all that is written");
    }
    line
}
