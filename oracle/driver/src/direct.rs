//! Document 01's rules, and document 02's for call 15, the limit of notices and addresses, as a small direct program without async,
//! written from these with the original in mind: a second opinion, and the baseline of the measurements.

use crate::model::{
    Bounds, Call, Case, Data, Event, Memory, Observed, Outcome, Place, END, ERROR, IDLE, REPLY,
};

/// What a call answers; parts of the lent reply bytes are places.
#[derive(Debug, Clone, Copy)]
pub struct Answer {
    pub verdict: Verdict,
    pub time: u64,
    pub events: usize,
    pub notices: usize,
    /// The reply that settled the exchange.
    pub reply: Place,
    /// The data handed out with a positive.
    pub data: Place,
    /// What calls 11 and 12 return with a positive.
    pub number: u64,
    /// P2 and P2* afterwards.
    pub timing: (u64, u64),
    /// How many bytes of the request buffer are the request.
    pub request: usize,
}

#[derive(Debug, Clone, Copy, PartialEq, Eq)]
pub enum Verdict {
    Positive,
    Suppressed,
    Negative(u8),
    Timeout,
    Disconnected,
    Transport(u16),
    Deviation(u8),
    /// Deviation 8.
    Bounds(Bounds),
    Length,
    Overflow,
    Refused(u8),
    PendingLimit,
}

/// "A length error is deviation 8 (minimum, maximum) in strict, the plain length outcome in lenient."
fn length_error(strict: bool, minimum: usize, maximum: Option<usize>) -> Verdict {
    if strict {
        Verdict::Bounds((minimum, maximum))
    } else {
        Verdict::Length
    }
}

/// How many bytes an address or a size has in the request. (After refusals 6 and 7 passed.)
fn lengths(memory: &Memory) -> (usize, usize) {
    match memory {
        Memory::Bytes { address, size } => (address.len(), size.len()),
        Memory::Alfid {
            address_width,
            size_width,
            ..
        } => (*address_width, *size_width),
    }
}

/// Refusals 6 and 7 for one number of an `alfid` form.
fn refused_width(value: u64, width: usize) -> Option<u8> {
    if !(1..=8).contains(&width) {
        Some(6)
    } else if width < 8 && value >> (8 * width) != 0 {
        Some(7)
    } else {
        None
    }
}

/// Refusals 1 to 7: "`alfid` address 6, 7, then size 6, 7; 4; 5; 2; 3; 1".
fn refused_arguments(call: &Call) -> Option<u8> {
    if let Some(memory) = call.memory() {
        if let Memory::Alfid {
            address,
            size,
            address_width,
            size_width,
        } = memory
        {
            let refused = refused_width(*address, *address_width)
                .or_else(|| refused_width(*size, *size_width));
            if refused.is_some() {
                return refused;
            }
        }
        if let Call::Download {
            compression,
            encryption,
            ..
        }
        | Call::Upload {
            compression,
            encryption,
            ..
        } = call
        {
            if *compression > 15 {
                return Some(4);
            }
            if *encryption > 15 {
                return Some(5);
            }
        }
        let (address, size) = lengths(memory);
        if !(1..=15).contains(&address) {
            return Some(2);
        }
        if !(1..=15).contains(&size) {
            return Some(3);
        }
    }
    match call {
        Call::Security { sub, data: None } if sub % 2 == 0 => Some(1),
        _ => None,
    }
}

/// Refusal 10: whether the event list breaks no limit.
pub fn sound_events(events: &[Event], replies: &[u8]) -> bool {
    let sound = |event: &Event| match event.kind {
        REPLY => {
            event.length <= 4095 && event.offset as usize + event.length as usize <= replies.len()
        }
        IDLE | END | ERROR => event.source == 0,
        _ => false,
    };
    events.len() <= 512
        && events.iter().all(sound)
        && events.windows(2).all(|pair| pair[0].time <= pair[1].time)
}

/// The request's length, once the arguments are not refused.
pub fn request_length(call: &Call) -> usize {
    let memory = call.memory().map_or(0, |memory| {
        let (address, size) = lengths(memory);
        1 + address + size
    });
    let parameters = match call {
        Call::ReadIdentifier { .. } | Call::WriteIdentifier { .. } | Call::Routine { .. } => 2,
        Call::FaultCount { .. }
        | Call::Download { .. }
        | Call::Upload { .. }
        | Call::Transfer { .. }
        | Call::FaultList { .. } => 1,
        _ => 0,
    };
    let data = call.data().map_or(0, <[u8]>::len);
    1 + call.sub().is_some() as usize + parameters + memory + data
}

/// Why the case is refused, in document 01's order, for a request buffer of this length.
pub fn refusal(case: &Case, buffer: usize) -> Option<u8> {
    let refused = refused_arguments(&case.call);
    if refused.is_some() {
        return refused;
    }
    let length = request_length(&case.call);
    if length > 4095 {
        Some(8)
    } else if length > buffer {
        Some(9)
    } else if !sound_events(&case.events, &case.replies) {
        Some(10)
    } else {
        None
    }
}

/// Bytes joined at the front of a lent buffer.
struct Writer<'b> {
    buffer: &'b mut [u8],
    at: usize,
}

impl Writer<'_> {
    fn put(&mut self, bytes: &[u8]) {
        self.buffer[self.at..self.at + bytes.len()].copy_from_slice(bytes);
        self.at += bytes.len();
    }

    /// "f addr size"
    fn put_memory(&mut self, memory: &Memory) {
        let (address_length, size_length) = lengths(memory);
        self.put(&[(size_length * 16 + address_length) as u8]);
        match memory {
            Memory::Bytes { address, size } => {
                self.put(address);
                self.put(size);
            }
            Memory::Alfid { address, size, .. } => {
                self.put(&address.to_be_bytes()[8 - address_length..]);
                self.put(&size.to_be_bytes()[8 - size_length..]);
            }
        }
    }
}

/// Writes the table's request to the buffer's front and returns its length.
fn write_request(case: &Case, buffer: &mut [u8]) -> usize {
    let mut writer = Writer { buffer, at: 0 };
    writer.put(&[case.call.sid()]);
    if let Some(sub) = case.sent_sub() {
        writer.put(&[sub]);
    }
    match &case.call {
        Call::ReadIdentifier { id }
        | Call::WriteIdentifier { id, .. }
        | Call::Routine { id, .. } => writer.put(&id.to_be_bytes()),
        Call::FaultCount { mask: byte }
        | Call::Transfer { counter: byte, .. }
        | Call::FaultList { mask: byte } => writer.put(&[*byte]),
        Call::Download {
            compression,
            encryption,
            ..
        }
        | Call::Upload {
            compression,
            encryption,
            ..
        } => writer.put(&[compression * 16 + encryption]),
        _ => {}
    }
    if let Some(memory) = case.call.memory() {
        writer.put_memory(memory);
    }
    if let Some(data) = case.call.data() {
        writer.put(data);
    }
    writer.at
}

/// What one reply does to the exchange: none means that it asks for patience.
fn judge(case: &Case, hush: bool, reply: &[u8]) -> Option<Verdict> {
    let strict = case.setting.strict;
    let sid = case.call.sid();
    let Some(&first) = reply.first() else {
        return Some(length_error(strict, 1, None));
    };
    if first == 0x7f {
        if reply.len() < 3 || (strict && reply.len() != 3) {
            return Some(length_error(strict, 3, Some(3)));
        }
        if strict && reply[1] != sid {
            return Some(Verdict::Deviation(2));
        }
        return match reply[2] {
            0x78 => None,
            code => Some(Verdict::Negative(code)),
        };
    }
    if strict && first != sid | 0x40 {
        return Some(Verdict::Deviation(1));
    }
    if let Some(sub) = case.call.sub() {
        if reply.len() == 1 {
            return Some(length_error(strict, 2, None));
        }
        if strict && reply[1] != sub & 0x7f {
            return Some(Verdict::Deviation(3));
        }
    }
    if strict && hush {
        return Some(Verdict::Deviation(4));
    }
    Some(Verdict::Positive)
}

/// The exchange: verdict, finishing time, counts and the settling reply.
fn exchange(case: &Case) -> Answer {
    let setting = &case.setting;
    let p2 = u64::from(setting.p2);
    let suppressing = case.suppressing();
    let mut hush = suppressing;
    let mut deadline = p2;
    let (mut events, mut notices) = (0, 0);
    // Under T, only what stands at times up to T is counted.
    let (mut events_to_overall, mut notices_to_overall) = (0, 0);
    let overall = setting.overall.map_or(u64::MAX, u64::from);
    let mut reply = Place::default();
    let mut settled = None;
    for event in &case.events {
        let time = u64::from(event.time);
        if time > deadline {
            break;
        }
        events += 1;
        events_to_overall += (time <= overall) as usize;
        match event.kind {
            IDLE => continue,
            _ if case.is_foreign(event) => continue,
            END => settled = Some((Verdict::Disconnected, time)),
            ERROR => settled = Some((Verdict::Transport(event.length), time)),
            _ => {
                let place = Place {
                    at: event.offset as usize,
                    length: event.length as usize,
                };
                let bytes = &case.replies[place.at..place.at + place.length];
                let Some(verdict) = judge(case, hush, bytes) else {
                    notices += 1;
                    notices_to_overall += (time <= overall) as usize;
                    if setting.limit.is_some_and(|most| notices > most as usize) {
                        reply = place;
                        settled = Some((Verdict::PendingLimit, time));
                        break;
                    }
                    hush = false;
                    deadline = time + u64::from(setting.p2_star);
                    continue;
                };
                let waits =
                    suppressing && matches!(verdict, Verdict::Positive | Verdict::Negative(_));
                reply = place;
                settled = Some((verdict, if waits { time.max(p2) } else { time }));
            }
        }
        break;
    }
    let (mut verdict, mut time) = settled.unwrap_or(if hush {
        (Verdict::Suppressed, deadline)
    } else {
        (Verdict::Timeout, deadline)
    });
    if time > overall {
        (verdict, time) = (Verdict::Timeout, overall);
        (events, notices) = (events_to_overall, notices_to_overall);
        reply = Place::default();
    }
    Answer {
        verdict,
        time,
        events,
        notices,
        reply,
        data: Place::default(),
        number: 0,
        timing: (p2, setting.p2_star.into()),
        request: 0,
    }
}

/// Whether a length keeps bounds in strict, else the length error.
fn bounded(strict: bool, length: usize, minimum: usize, maximum: Option<usize>) -> Option<Verdict> {
    let outside = length < minimum || maximum.is_some_and(|maximum| length > maximum);
    (strict && outside).then(|| length_error(strict, minimum, maximum))
}

/// The value of big-endian bytes, or none if it is above 2^64 - 1.
fn value(bytes: &[u8]) -> Option<u64> {
    bytes.iter().try_fold(0u64, |value, &byte| {
        value.checked_mul(256)?.checked_add(byte.into())
    })
}

/// The size bytes of a call at memory. An `alfid` size stands in `scratch`.
fn size_bytes<'m>(memory: &'m Memory, scratch: &'m mut [u8; 8]) -> &'m [u8] {
    match memory {
        Memory::Bytes { size, .. } => size,
        Memory::Alfid {
            size, size_width, ..
        } => {
            *scratch = size.to_be_bytes();
            &scratch[8 - size_width..]
        }
    }
}

/// The address bytes likewise.
fn address_bytes<'m>(memory: &'m Memory, scratch: &'m mut [u8; 8]) -> &'m [u8] {
    match memory {
        Memory::Bytes { address, .. } => address,
        Memory::Alfid {
            address,
            address_width,
            ..
        } => {
            *scratch = address.to_be_bytes();
            &scratch[8 - address_width..]
        }
    }
}

/// What the checks after the positive find wrong with the reply, if anything.
fn check(case: &Case, reply: &[u8]) -> Option<Verdict> {
    let strict = case.setting.strict;
    let length = reply.len();
    let exactly = |n| bounded(strict, length, n, Some(n));
    let at_least = |n| bounded(strict, length, n, None);
    let needs = |n| (length < n).then(|| length_error(strict, n, None));
    let strictly = |right: bool, number| (strict && !right).then_some(Verdict::Deviation(number));
    let pair = |at: usize| u16::from_be_bytes([reply[at], reply[at + 1]]);
    match &case.call {
        Call::Request { .. } | Call::TransferExit { .. } => None,
        Call::Session { .. } => exactly(6),
        Call::Reset { sub } => exactly(if sub & 0x7f == 4 { 3 } else { 2 }),
        Call::Security { sub, .. } if sub % 2 == 1 => at_least(3),
        Call::Security { .. } | Call::TesterPresent => exactly(2),
        Call::ReadMemory { memory } => {
            let mut scratch = [0; 8];
            let wanted = value(size_bytes(memory, &mut scratch));
            strictly(wanted == Some(length as u64 - 1), 15)
                .or_else(|| bounded(strict, length, 2, None))
        }
        Call::WriteMemory { .. } if !strict => None,
        Call::WriteMemory { memory, .. } => {
            let (address_length, size_length) = lengths(memory);
            let (mut a, mut b) = ([0; 8], [0; 8]);
            let (address, size) = (address_bytes(memory, &mut a), size_bytes(memory, &mut b));
            let size_at = 2 + address_length;
            let format = size_length * 16 + address_length;
            exactly(2 + address_length + size_length)
                .or_else(|| strictly(reply[1] as usize == format, 12))
                .or_else(|| strictly(reply[2..size_at] == *address, 13))
                .or_else(|| strictly(reply[size_at..] == *size, 14))
        }
        Call::ReadIdentifier { id } => at_least(4)
            .or_else(|| needs(3))
            .or_else(|| strictly(pair(1) == *id, 5)),
        Call::WriteIdentifier { id, .. } => exactly(3)
            .or_else(|| needs(3))
            .or_else(|| strictly(pair(1) == *id, 5)),
        Call::FaultCount { .. } => {
            (length < 6 || (strict && length != 6)).then(|| length_error(strict, 6, Some(6)))
        }
        Call::Routine { id, .. } => needs(4).or_else(|| strictly(pair(2) == *id, 6)),
        Call::Download { .. } | Call::Upload { .. } => check_block_length(strict, reply),
        Call::Transfer { counter, data } => at_least(if data.is_none() { 3 } else { 2 })
            .or_else(|| needs(2))
            .or_else(|| strictly(reply[1] == *counter, 7)),
        // "Strict total length must be 3 plus a multiple of 4, else deviation 8 (3, none)"
        Call::FaultList { .. } => (strict && length % 4 != 3)
            .then(|| length_error(strict, 3, None))
            .or_else(|| needs(3)),
    }
}

/// Calls 11 and 12.
fn check_block_length(strict: bool, reply: &[u8]) -> Option<Verdict> {
    if reply.len() < 2 {
        return Some(length_error(strict, 2, None));
    }
    if strict && reply[1] % 16 != 0 {
        return Some(Verdict::Deviation(10));
    }
    let n = reply[1] as usize / 16;
    if strict && n == 0 {
        return Some(Verdict::Deviation(9));
    }
    let wanted = n + 2;
    if reply.len() < wanted || (strict && reply.len() > wanted) {
        return Some(length_error(strict, wanted, Some(wanted)));
    }
    match value(&reply[2..wanted]) {
        Some(value) if strict && value < 3 => Some(Verdict::Deviation(11)),
        Some(_) => None,
        None => Some(Verdict::Overflow),
    }
}

/// Where the data handed out stands in a reply that passed the checks: from where, and how many bytes.
fn handed(case: &Case, reply: &[u8]) -> (usize, usize) {
    let rest = |from: usize| (from, reply.len() - from);
    let only = |from: usize, n: usize| {
        if reply.len() == from + n {
            (from, n)
        } else {
            (from, 0)
        }
    };
    match &case.call {
        Call::Request { sub, .. } => rest(1 + sub.is_some() as usize),
        Call::Session { .. } => only(2, 4),
        Call::Reset { .. } => only(2, 1),
        Call::Security { sub, .. } if sub % 2 == 1 => rest(2),
        Call::Security { .. } | Call::TesterPresent => (2, 0),
        Call::ReadMemory { .. } | Call::WriteMemory { .. } | Call::TransferExit { .. } => rest(1),
        Call::ReadIdentifier { .. } => rest(3),
        Call::WriteIdentifier { .. } => (3, 0),
        Call::FaultCount { .. } => (2, 4),
        Call::Routine { .. } => rest(4),
        Call::Download { .. } | Call::Upload { .. } => (2, reply[1] as usize / 16),
        Call::Transfer { .. } => rest(2),
        // "the availability mask and the records; lenient drops a broken tail"
        Call::FaultList { .. } => (2, 1 + (reply.len() - 3) / 4 * 4),
    }
}

/// The whole call: the request goes to the buffer's front, its rest keeps its bytes.
pub fn call(case: &Case, buffer: &mut [u8]) -> Answer {
    let setting = &case.setting;
    if let Some(number) = refusal(case, buffer.len()) {
        return Answer {
            verdict: Verdict::Refused(number),
            time: 0,
            events: 0,
            notices: 0,
            reply: Place::default(),
            data: Place::default(),
            number: 0,
            timing: (setting.p2.into(), setting.p2_star.into()),
            request: 0,
        };
    }
    let request = write_request(case, buffer);
    let mut answer = exchange(case);
    answer.request = request;
    if answer.verdict != Verdict::Positive {
        return answer;
    }
    let reply = &case.replies[answer.reply.at..answer.reply.at + answer.reply.length];
    if let Some(verdict) = check(case, reply) {
        answer.verdict = verdict;
        return answer;
    }
    let (from, length) = handed(case, reply);
    answer.data = Place {
        at: answer.reply.at + from,
        length,
    };
    let data = &reply[from..from + length];
    match &case.call {
        Call::Download { .. } | Call::Upload { .. } => answer.number = value(data).unwrap_or(0),
        Call::Session { .. } if setting.server_timing && length == 4 => {
            let pair = |at: usize| u64::from(u16::from_be_bytes([data[at], data[at + 1]]));
            answer.timing = (pair(0), pair(2) * 10);
        }
        _ => {}
    }
    answer
}

/// The whole call as an observation.
pub fn run(case: &Case) -> Observed {
    let mut buffer = [0; 4095];
    let answer = call(case, &mut buffer);
    let part = |place: Place| case.replies[place.at..place.at + place.length].to_vec();
    let reply = || part(answer.reply);
    let outcome = match answer.verdict {
        Verdict::Positive => Outcome::Positive(Data::Bytes(part(answer.data))),
        Verdict::Suppressed => Outcome::Suppressed,
        Verdict::Negative(code) => Outcome::Negative(code),
        Verdict::Timeout => Outcome::Timeout,
        Verdict::Disconnected => Outcome::Disconnected,
        Verdict::Transport(number) => Outcome::Transport(number),
        Verdict::Deviation(number) => Outcome::Deviation {
            number,
            bounds: None,
            reply: reply(),
        },
        Verdict::Bounds(bounds) => Outcome::Deviation {
            number: 8,
            bounds: Some(bounds),
            reply: reply(),
        },
        Verdict::Length => Outcome::Length,
        Verdict::Overflow => Outcome::Overflow { reply: reply() },
        Verdict::Refused(number) => Outcome::Refused(number),
        Verdict::PendingLimit => Outcome::PendingLimit { reply: reply() },
    };
    let loading = matches!(case.call, Call::Download { .. } | Call::Upload { .. });
    let positive = answer.verdict == Verdict::Positive;
    let refused = matches!(answer.verdict, Verdict::Refused(_));
    Observed {
        request: (!refused).then(|| buffer[..answer.request].to_vec()),
        outcome,
        time: answer.time,
        events: answer.events,
        notices: answer.notices,
        number: (loading && positive).then_some(answer.number),
        timing: answer.timing,
        place: positive.then_some(answer.data),
    }
}
