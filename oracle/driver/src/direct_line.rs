//! The direct program from a log's bytes to its line, as a careful engineer would write it: nothing is allocated, every event is
//! checked once (layout and refusal 10 in one pass), and no request is written, since no line shows one. It follows document 01's
//! rules, and document 02's for call 15 and addresses, as `direct` does; it is the baseline of the measurements from log to line.

use std::io::{Read, Write};

/// No line is longer: the word, the time and counts, and a deviation's number and reply of 4,095 bytes.
pub const LONGEST: usize = 8222;

const BADLOG: &[u8] = b"badlog 0 0 0 -\n";
const HEX: &[u8; 16] = b"0123456789abcdef";

fn u16_at(bytes: &[u8], at: usize) -> u16 {
    u16::from_be_bytes([bytes[at], bytes[at + 1]])
}

fn u32_at(bytes: &[u8], at: usize) -> u32 {
    u32::from_be_bytes([bytes[at], bytes[at + 1], bytes[at + 2], bytes[at + 3]])
}

/// What a call uses of the header, and what it sends: its SID, its sub-function if that is fixed (256: none, 257: the header's), the
/// largest value, whether the two lengths are used, and whether data is forbidden (0), allowed (1) or needed (2).
struct Row {
    sid: u8,
    sub: u16,
    value: u16,
    lengths: bool,
    data: u8,
}

const NO_SUB: u16 = 256;
const OWN_SUB: u16 = 257;

const fn row(sid: u8, sub: u16, value: u16, lengths: bool, data: u8) -> Row {
    Row {
        sid,
        sub,
        value,
        lengths,
        data,
    }
}

const ROWS: [Row; 16] = [
    row(0, NO_SUB, 255, false, 1),
    row(0x10, OWN_SUB, 0, false, 0),
    row(0x11, OWN_SUB, 0, false, 0),
    row(0x27, OWN_SUB, 0, false, 1),
    row(0x3e, 0, 0, false, 0),
    row(0x23, NO_SUB, 0, true, 0),
    row(0x3d, NO_SUB, 0, true, 2),
    row(0x22, NO_SUB, 65535, false, 0),
    row(0x2e, NO_SUB, 65535, false, 2),
    row(0x19, 1, 255, false, 0),
    row(0x31, OWN_SUB, 65535, false, 1),
    row(0x34, NO_SUB, 65535, true, 0),
    row(0x35, NO_SUB, 65535, true, 0),
    row(0x36, NO_SUB, 255, false, 1),
    row(0x37, NO_SUB, 0, false, 1),
    row(0x19, 2, 255, false, 0),
];

/// A log of sound layout.
struct Log<'l> {
    call: u8,
    flags: u8,
    value: u16,
    own_sub: u8,
    sid: u8,
    /// As it is compared with a reply's: without bit 7 of the suppressed client.
    sub: Option<u8>,
    suppressing: bool,
    address: &'l [u8],
    size: &'l [u8],
    data: Option<&'l [u8]>,
    events: &'l [u8],
    event_size: usize,
    replies: &'l [u8],
    listens: u16,
    p2: u64,
    star: u64,
    overall: u64,
    /// Refusal 10 does not come up.
    sound: bool,
}

impl Log<'_> {
    fn strict(&self) -> bool {
        self.flags & 1 != 0
    }
}

/// The log that bytes are, or none where the layout is bad.
fn read(log: &[u8]) -> Option<Log<'_>> {
    if log.len() < 36 {
        return None;
    }
    let (moved, event_size) = match u16_at(log, 0) {
        1 => (0, 10),
        2 if log.len() > 36 => (1, 12),
        _ => return None,
    };
    let (call, flags, value, own_sub) = (log[2], log[3], u16_at(log, 4), log[6]);
    let row = ROWS.get(call as usize)?;
    let rest = &log[moved..];
    let (address, size) = (log[7] as usize, log[8] as usize);
    let (arguments, arguments_at) = (u16_at(rest, 10) as usize, u16_at(rest, 12) as usize);
    let (events, events_at) = (u16_at(rest, 14) as usize, u16_at(rest, 16) as usize);
    let (replies, replies_at) = (u16_at(rest, 18) as usize, u16_at(rest, 20) as usize);
    let total = u16_at(rest, 22) as usize;
    let overall = u32_at(rest, 32);
    let named = flags & 16 != 0;
    let present = flags & 32 != 0;
    let listens = if moved == 1 { u16_at(log, 9) } else { 0 };
    if arguments_at != 36 + moved
        || events_at != arguments_at + arguments
        || replies_at != events_at + events * event_size
        || total != replies_at + replies
        || total != log.len()
        || flags >= 64
        || (named && call != 0)
        || (present && row.data == 0)
        || (!present && row.data == 2)
        || value > row.value
        || (own_sub != 0 && row.sub != OWN_SUB && !named)
        || (!row.lengths && address + size != 0)
        || (moved == 0 && log[9] != 0)
        || (flags & 8 == 0 && overall != 0)
        || arguments < address + size
        || (!present && arguments != address + size)
    {
        return None;
    }
    let (event_bytes, reply_bytes) = (&log[events_at..replies_at], &log[replies_at..]);
    let mut sound = events <= 512;
    let mut last = 0;
    for event in event_bytes.chunks_exact(event_size) {
        let (time, kind) = (u32_at(event, 0), u16_at(event, 4));
        let (offset, length) = (u16_at(event, 6), u16_at(event, 8));
        let own = match kind {
            0 => length <= 4095 && offset as usize + length as usize <= replies,
            1 | 2 => {
                if offset != 0 || length != 0 {
                    return None;
                }
                true
            }
            3 => {
                if offset != 0 {
                    return None;
                }
                true
            }
            _ => false,
        };
        sound &= own && time >= last && (moved == 0 || kind == 0 || u16_at(event, 10) == 0);
        last = time;
    }
    let sub = match row.sub {
        NO_SUB => named.then_some(own_sub),
        OWN_SUB => Some(own_sub),
        fixed => Some(fixed as u8),
    };
    let address_at = 36 + moved;
    Some(Log {
        call,
        flags,
        value,
        own_sub,
        sid: if call == 0 { value as u8 } else { row.sid },
        sub,
        suppressing: sub.is_some_and(|sub| sub & 0x80 != 0 || flags & 4 != 0),
        address: &log[address_at..address_at + address],
        size: &log[address_at + address..address_at + address + size],
        data: present.then(|| &log[address_at + address + size..events_at]),
        events: event_bytes,
        event_size,
        replies: reply_bytes,
        listens,
        p2: u32_at(rest, 24).into(),
        star: u32_at(rest, 28).into(),
        overall: if flags & 8 != 0 {
            overall.into()
        } else {
            u64::MAX
        },
        sound,
    })
}

/// What settles a call; parts of the reply bytes by reference.
enum Verdict<'l> {
    Positive(&'l [u8]),
    Suppressed,
    Negative(u8),
    Timeout,
    Disconnected,
    Transport(u16),
    Deviation(u8, &'l [u8]),
    Length,
    Overflow(&'l [u8]),
    Refused(u8),
}

struct Answer<'l> {
    verdict: Verdict<'l>,
    time: u64,
    events: usize,
    notices: usize,
}

/// Refusals 1 to 10, in document 01's order; a request's buffer is long enough, so there is no 9.
fn refusal(log: &Log) -> Option<u8> {
    let memory = matches!(log.call, 5 | 6 | 11 | 12);
    if memory {
        if log.call > 10 {
            if log.value >> 8 > 15 {
                return Some(4);
            }
            if log.value & 0xff > 15 {
                return Some(5);
            }
        }
        if !(1..=15).contains(&log.address.len()) {
            return Some(2);
        }
        if !(1..=15).contains(&log.size.len()) {
            return Some(3);
        }
    }
    if log.call == 3 && log.data.is_none() && log.own_sub % 2 == 0 {
        return Some(1);
    }
    let parameters = match log.call {
        7 | 8 | 10 => 2,
        5 | 6 | 9 | 13 | 15 => 1,
        11 | 12 => 2,
        _ => 0,
    };
    let length = 1
        + log.sub.is_some() as usize
        + parameters
        + log.address.len()
        + log.size.len()
        + log.data.map_or(0, <[u8]>::len);
    if length > 4095 {
        return Some(8);
    }
    (!log.sound).then_some(10)
}

fn length_error(strict: bool, reply: &[u8]) -> Verdict<'_> {
    if strict {
        Verdict::Deviation(8, reply)
    } else {
        Verdict::Length
    }
}

/// What one reply does to the exchange: none means that it asks for patience.
fn judge<'l>(log: &Log, hush: bool, reply: &'l [u8]) -> Option<Verdict<'l>> {
    let strict = log.strict();
    let Some(&first) = reply.first() else {
        return Some(length_error(strict, reply));
    };
    if first == 0x7f {
        if reply.len() < 3 || (strict && reply.len() != 3) {
            return Some(length_error(strict, reply));
        }
        if strict && reply[1] != log.sid {
            return Some(Verdict::Deviation(2, reply));
        }
        return match reply[2] {
            0x78 => None,
            code => Some(Verdict::Negative(code)),
        };
    }
    if strict && first != log.sid | 0x40 {
        return Some(Verdict::Deviation(1, reply));
    }
    if let Some(sub) = log.sub {
        if reply.len() == 1 {
            return Some(length_error(strict, reply));
        }
        if strict && reply[1] != sub & 0x7f {
            return Some(Verdict::Deviation(3, reply));
        }
    }
    if strict && hush {
        return Some(Verdict::Deviation(4, reply));
    }
    Some(Verdict::Positive(reply))
}

/// The value of big-endian bytes, or none if it is above 2^64 - 1.
fn value(bytes: &[u8]) -> Option<u64> {
    bytes.iter().try_fold(0u64, |value, &byte| {
        value.checked_mul(256)?.checked_add(byte.into())
    })
}

/// The checks after the positive, and the data that is handed out.
fn checked<'l>(log: &Log, reply: &'l [u8]) -> Verdict<'l> {
    let strict = log.strict();
    let length = reply.len();
    let outside = |wrong: bool| strict && wrong;
    let bad = || length_error(strict, reply);
    let deviates = |number| Verdict::Deviation(number, reply);
    let only = |n: usize| {
        if length == n {
            Verdict::Positive(&reply[2..])
        } else {
            Verdict::Positive(&[])
        }
    };
    match log.call {
        0 => Verdict::Positive(&reply[1 + log.sub.is_some() as usize..]),
        1 if outside(length != 6) => bad(),
        1 => only(6),
        2 if outside(length != if log.own_sub & 0x7f == 4 { 3 } else { 2 }) => bad(),
        2 => only(3),
        3 if log.own_sub % 2 == 1 => {
            if outside(length < 3) {
                return bad();
            }
            Verdict::Positive(&reply[2..])
        }
        3 | 4 if outside(length != 2) => bad(),
        3 | 4 => Verdict::Positive(&[]),
        5 => {
            if outside(value(log.size) != Some(length as u64 - 1)) {
                return deviates(15);
            }
            if outside(length < 2) {
                return bad();
            }
            Verdict::Positive(&reply[1..])
        }
        6 => {
            if strict {
                let size_at = 2 + log.address.len();
                if length != size_at + log.size.len() {
                    return bad();
                }
                if reply[1] as usize != log.size.len() * 16 + log.address.len() {
                    return deviates(12);
                }
                if reply[2..size_at] != *log.address {
                    return deviates(13);
                }
                if reply[size_at..] != *log.size {
                    return deviates(14);
                }
            }
            Verdict::Positive(&reply[1..])
        }
        7 | 8 => {
            if outside(if log.call == 7 {
                length < 4
            } else {
                length != 3
            }) || length < 3
            {
                return bad();
            }
            if outside(u16_at(reply, 1) != log.value) {
                return deviates(5);
            }
            Verdict::Positive(if log.call == 7 { &reply[3..] } else { &[] })
        }
        9 => {
            if length < 6 || outside(length != 6) {
                return bad();
            }
            Verdict::Positive(&reply[2..6])
        }
        10 => {
            if length < 4 {
                return bad();
            }
            if outside(u16_at(reply, 2) != log.value) {
                return deviates(6);
            }
            Verdict::Positive(&reply[4..])
        }
        11 | 12 => {
            if length < 2 {
                return bad();
            }
            if outside(reply[1] % 16 != 0) {
                return deviates(10);
            }
            let n = reply[1] as usize / 16;
            if outside(n == 0) {
                return deviates(9);
            }
            if length < n + 2 || outside(length > n + 2) {
                return bad();
            }
            match value(&reply[2..n + 2]) {
                Some(value) if strict && value < 3 => deviates(11),
                Some(_) => Verdict::Positive(&reply[2..n + 2]),
                None => Verdict::Overflow(reply),
            }
        }
        13 => {
            if outside(length < if log.data.is_none() { 3 } else { 2 }) || length < 2 {
                return bad();
            }
            if outside(u16::from(reply[1]) != log.value) {
                return deviates(7);
            }
            Verdict::Positive(&reply[2..])
        }
        14 => Verdict::Positive(&reply[1..]),
        _ => {
            if outside(length % 4 != 3) || length < 3 {
                return bad();
            }
            Verdict::Positive(&reply[2..3 + (length - 3) / 4 * 4])
        }
    }
}

/// The answer of the call that a log asks.
fn answer<'l>(log: &Log<'l>) -> Answer<'l> {
    if let Some(number) = refusal(log) {
        return Answer {
            verdict: Verdict::Refused(number),
            time: 0,
            events: 0,
            notices: 0,
        };
    }
    let mut hush = log.suppressing;
    let mut deadline = log.p2;
    let (mut events, mut notices) = (0, 0);
    // Under T, only what stands at times up to T is counted.
    let (mut early_events, mut early_notices) = (0, 0);
    let mut settled = None;
    for event in log.events.chunks_exact(log.event_size) {
        let (time, kind) = (u64::from(u32_at(event, 0)), u16_at(event, 4));
        if time > deadline {
            break;
        }
        events += 1;
        early_events += (time <= log.overall) as usize;
        if kind == 1 || (kind == 0 && log.event_size == 12 && u16_at(event, 10) != log.listens) {
            continue;
        }
        if kind == 2 {
            settled = Some((Verdict::Disconnected, time));
            break;
        }
        if kind == 3 {
            settled = Some((Verdict::Transport(u16_at(event, 8)), time));
            break;
        }
        let (at, length) = (u16_at(event, 6) as usize, u16_at(event, 8) as usize);
        let Some(verdict) = judge(log, hush, &log.replies[at..at + length]) else {
            notices += 1;
            early_notices += (time <= log.overall) as usize;
            hush = false;
            deadline = time + log.star;
            continue;
        };
        let waits =
            log.suppressing && matches!(verdict, Verdict::Positive(_) | Verdict::Negative(_));
        settled = Some((verdict, if waits { time.max(log.p2) } else { time }));
        break;
    }
    let (verdict, time) = settled.unwrap_or((
        if hush {
            Verdict::Suppressed
        } else {
            Verdict::Timeout
        },
        deadline,
    ));
    if time > log.overall {
        return Answer {
            verdict: Verdict::Timeout,
            time: log.overall,
            events: early_events,
            notices: early_notices,
        };
    }
    let verdict = match verdict {
        Verdict::Positive(reply) => checked(log, reply),
        other => other,
    };
    Answer {
        verdict,
        time,
        events,
        notices,
    }
}

/// Bytes joined at the front of a lent buffer.
struct Text<'b> {
    buffer: &'b mut [u8],
    at: usize,
}

impl Text<'_> {
    fn put(&mut self, bytes: &[u8]) {
        self.buffer[self.at..self.at + bytes.len()].copy_from_slice(bytes);
        self.at += bytes.len();
    }

    /// A space and a number in decimal.
    fn number(&mut self, mut value: u64) {
        let mut digits = [0; 21];
        let mut from = digits.len();
        loop {
            from -= 1;
            digits[from] = b'0' + (value % 10) as u8;
            value /= 10;
            if value == 0 {
                break;
            }
        }
        from -= 1;
        digits[from] = b' ';
        self.put(&digits[from..]);
    }

    fn hex(&mut self, bytes: &[u8]) {
        let to = &mut self.buffer[self.at..self.at + bytes.len() * 2];
        for (pair, byte) in to.chunks_exact_mut(2).zip(bytes) {
            pair[0] = HEX[(byte >> 4) as usize];
            pair[1] = HEX[(byte & 15) as usize];
        }
        self.at += bytes.len() * 2;
    }
}

/// Writes the line at the front of a buffer of at least `LONGEST` bytes, and returns its length.
pub fn line(log: &[u8], buffer: &mut [u8]) -> usize {
    let Some(log) = read(log) else {
        buffer[..BADLOG.len()].copy_from_slice(BADLOG);
        return BADLOG.len();
    };
    let answer = answer(&log);
    let (number, wide);
    let (word, head, bytes): (&[u8], &[u8], &[u8]) = match answer.verdict {
        Verdict::Positive(data) => (b"positive", &[], data),
        Verdict::Suppressed => (b"suppressed", &[], &[]),
        Verdict::Negative(code) => {
            number = [code];
            (b"negative", &number, &[])
        }
        Verdict::Timeout => (b"timeout", &[], &[]),
        Verdict::Disconnected => (b"disconnected", &[], &[]),
        Verdict::Transport(error) => {
            wide = error.to_be_bytes();
            (b"transport", &wide, &[])
        }
        Verdict::Deviation(deviation, reply) => {
            number = [deviation];
            (b"deviation", &number, reply)
        }
        Verdict::Length => (b"length", &[], &[]),
        Verdict::Overflow(reply) => (b"overflow", &[], reply),
        Verdict::Refused(refusal) => {
            number = [refusal];
            (b"refused", &number, &[])
        }
    };
    let mut text = Text { buffer, at: 0 };
    text.put(word);
    text.number(answer.time);
    text.number(answer.events as u64);
    text.number(answer.notices as u64);
    text.put(b" ");
    if head.is_empty() && bytes.is_empty() {
        text.put(b"-");
    }
    text.hex(head);
    text.hex(bytes);
    text.put(b"\n");
    text.at
}

/// A file of logs, each after its length, to their lines: what `udslogs` does, with buffers of the same kind.
pub fn filter(input: &mut impl Read, output: &mut impl Write) -> std::io::Result<()> {
    let mut input = std::io::BufReader::with_capacity(1 << 17, input);
    let mut output = std::io::BufWriter::with_capacity(1 << 16, output);
    let mut log = vec![0; 1 << 16];
    let mut text = [0; LONGEST];
    loop {
        let mut length = [0; 4];
        match input.read_exact(&mut length) {
            Err(error) if error.kind() == std::io::ErrorKind::UnexpectedEof => break,
            other => other?,
        }
        let length = u32::from_be_bytes(length) as usize;
        if length > log.len() {
            log.resize(length, 0);
        }
        input.read_exact(&mut log[..length])?;
        let n = line(&log[..length], &mut text);
        output.write_all(&text[..n])?;
    }
    output.flush()
}
