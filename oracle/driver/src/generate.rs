//! Generated cases, each generator with its name: exhaustive where short, at and around every boundary, and damaged
//! copies of good conversations. Seeded, so that a run can be repeated.

use crate::direct;
use crate::model::{Call, Case, Event, Memory, Setting, END, ERROR, IDLE, REPLY};
use crate::rng::Rng;

pub type Visit<'v> = dyn FnMut(&Case) + 'v;

pub struct Generator {
    pub name: &'static str,
    pub run: fn(&mut Rng, &mut Visit),
}

/// All generators of a comparison, in order.
pub const GENERATORS: [Generator; 17] = [
    Generator {
        name: "replies of up to two bytes",
        run: short_replies,
    },
    Generator {
        name: "replies of three bytes",
        run: three_bytes,
    },
    Generator {
        name: "every code",
        run: codes,
    },
    Generator {
        name: "boundary times",
        run: times,
    },
    Generator {
        name: "reply lengths",
        run: lengths,
    },
    Generator {
        name: "notices and idles",
        run: sequences,
    },
    Generator {
        name: "call 0 with every SID",
        run: every_sid,
    },
    Generator {
        name: "sizes to 15 bytes",
        run: wide_sizes,
    },
    Generator {
        name: "block lengths",
        run: block_lengths,
    },
    Generator {
        name: "long lists",
        run: long_lists,
    },
    Generator {
        name: "damaged replies",
        run: damaged,
    },
    Generator {
        name: "session timing",
        run: sessions,
    },
    Generator {
        name: "requests",
        run: requests,
    },
    Generator {
        name: "refusals 1 to 7",
        run: refusals,
    },
    Generator {
        name: "alfid forms",
        run: alfid_forms,
    },
    Generator {
        name: "anything",
        run: anything,
    },
    Generator {
        name: "refusals 8 and 10, and around them",
        run: beyond,
    },
];

/// The long run: every reply of three bytes to every call, 1,342,177,280 cases, in two halves.
pub const EVERY_THREE_BYTES: [Generator; 2] = [
    Generator {
        name: "every reply of three bytes, strict",
        run: |_, visit| every_three_bytes(true, visit),
    },
    Generator {
        name: "every reply of three bytes, lenient",
        run: |_, visit| every_three_bytes(false, visit),
    },
];

fn bytes(address: &[u8], size: &[u8]) -> Memory {
    Memory::Bytes {
        address: address.to_vec(),
        size: size.to_vec(),
    }
}

/// At least one of every call; two where an argument decides what a positive is.
pub fn sample_calls() -> Vec<Call> {
    let some = |data: &[u8]| Some(data.to_vec());
    vec![
        Call::Request {
            sid: 0x22,
            sub: None,
            data: some(&[0xf1, 0x90]),
        },
        Call::Request {
            sid: 0x28,
            sub: Some(1),
            data: some(&[2]),
        },
        Call::Session { sub: 3 },
        Call::Reset { sub: 1 },
        Call::Reset { sub: 4 },
        Call::Security { sub: 1, data: None },
        Call::Security {
            sub: 2,
            data: some(&[0xaa, 0xbb]),
        },
        Call::TesterPresent,
        Call::ReadMemory {
            memory: bytes(&[0x12, 0x34], &[2]),
        },
        Call::WriteMemory {
            memory: bytes(&[0x12], &[1]),
            data: vec![0x55],
        },
        Call::ReadIdentifier { id: 0xf190 },
        Call::WriteIdentifier {
            id: 0xf190,
            data: vec![0x41, 0x42],
        },
        Call::FaultCount { mask: 0xff },
        Call::Routine {
            sub: 1,
            id: 0x0203,
            data: None,
        },
        Call::Download {
            compression: 1,
            encryption: 2,
            memory: bytes(&[0x12, 0x34], &[0x56]),
        },
        Call::Upload {
            compression: 0,
            encryption: 0,
            memory: bytes(&[0x12], &[0x34, 0x56]),
        },
        Call::Transfer {
            counter: 1,
            data: None,
        },
        Call::Transfer {
            counter: 1,
            data: some(&[0x77]),
        },
        Call::TransferExit { data: None },
        Call::FaultList { mask: 0x08 },
    ]
}

/// Both modes, by the plain and by the suppressed client.
fn settings() -> impl Iterator<Item = Setting> {
    [(true, false), (true, true), (false, false), (false, true)]
        .into_iter()
        .map(|(strict, quiet)| Setting {
            strict,
            quiet,
            ..Setting::default()
        })
}

/// Bit 7 set in the sub-function by the caller, where the call takes one.
fn with_bit_7(call: &Call) -> Call {
    let mut call = call.clone();
    match &mut call {
        Call::Request { sub: Some(sub), .. }
        | Call::Session { sub }
        | Call::Reset { sub }
        | Call::Security { sub, .. }
        | Call::Routine { sub, .. } => *sub |= 0x80,
        _ => {}
    }
    call
}

/// The address and size bytes of a memory.
fn sent(memory: &Memory) -> (Vec<u8>, Vec<u8>) {
    match memory {
        Memory::Bytes { address, size } => (address.clone(), size.clone()),
        Memory::Alfid {
            address,
            size,
            address_width,
            size_width,
        } => {
            let part = |value: u64, width: usize| value.to_be_bytes()[8 - width.min(8)..].to_vec();
            (part(*address, *address_width), part(*size, *size_width))
        }
    }
}

/// "f addr size"
fn echo(memory: &Memory) -> Vec<u8> {
    let (address, size) = sent(memory);
    let format = (size.len() * 16 + address.len()) as u8;
    [vec![format], address, size].concat()
}

/// A strict positive of the table; of call 5 only where the size is up to 4,094.
pub fn good_reply(call: &Call, rng: &mut Rng) -> Vec<u8> {
    let mut reply = vec![call.sid() | 0x40];
    reply.extend(call.sub().map(|sub| sub & 0x7f));
    let few = rng.below(6);
    match call {
        Call::Request { .. } | Call::TransferExit { .. } => reply.extend(rng.bytes(few)),
        Call::Session { .. } | Call::FaultCount { .. } => reply.extend(rng.bytes(4)),
        Call::Reset { sub } if sub & 0x7f == 4 => reply.push(rng.byte()),
        Call::Security { sub, .. } if sub % 2 == 1 => reply.extend(rng.bytes(1 + few)),
        Call::Reset { .. } | Call::Security { .. } | Call::TesterPresent => {}
        Call::ReadMemory { memory } => {
            let size = sent(memory).1;
            let many = size
                .iter()
                .fold(0, |many: usize, &byte| {
                    many.saturating_mul(256).saturating_add(byte.into())
                })
                .min(4094);
            reply.extend(rng.bytes(many));
        }
        Call::WriteMemory { memory, .. } => reply.extend(echo(memory)),
        Call::ReadIdentifier { id } => {
            reply.extend(id.to_be_bytes());
            reply.extend(rng.bytes(1 + few));
        }
        Call::WriteIdentifier { id, .. } => reply.extend(id.to_be_bytes()),
        Call::Routine { id, .. } => {
            reply.extend(id.to_be_bytes());
            reply.extend(rng.bytes(few));
        }
        Call::Download { .. } | Call::Upload { .. } => {
            let n = rng.between(1, 15);
            let mut value = rng.bytes(n);
            if n > 8 {
                value[..n - 8].fill(0);
            }
            value[n - 1] |= 3;
            reply.push(n as u8 * 16);
            reply.extend(value);
        }
        Call::Transfer { counter, data } => {
            reply.push(*counter);
            reply.extend(rng.bytes(few.max(data.is_none() as usize)));
        }
        Call::FaultList { .. } => reply.extend(rng.bytes(1 + 4 * few)),
    }
    reply
}

fn notice(call: &Call) -> [u8; 3] {
    [0x7f, call.sid(), 0x78]
}

/// Every reply of no, one and two bytes to every call, in both modes, suppressed or not.
fn short_replies(_: &mut Rng, visit: &mut Visit) {
    for call in sample_calls() {
        for setting in settings() {
            let mut case = Case::new(call.clone(), setting);
            visit(case.clear().reply(10, &[]));
            for first in 0..=255 {
                visit(case.clear().reply(10, &[first]));
                for second in 0..=255 {
                    visit(case.clear().reply(10, &[first, second]));
                }
            }
        }
    }
}

/// Every reply of three bytes that begins with 7F or with the positive's SID, likewise.
fn three_bytes(_: &mut Rng, visit: &mut Visit) {
    for call in sample_calls() {
        for setting in settings() {
            let mut case = Case::new(call.clone(), setting);
            for first in [0x7f, call.sid() | 0x40] {
                for rest in 0..=u16::MAX {
                    let [second, third] = rest.to_be_bytes();
                    visit(case.clear().reply(10, &[first, second, third]));
                }
            }
        }
    }
}

/// At time 0, which spares the clock's work, except that a suppressed positive or negative waits.
fn every_three_bytes(strict: bool, visit: &mut Visit) {
    for call in sample_calls() {
        for setting in settings().filter(|setting| setting.strict == strict) {
            let mut case = Case::new(call.clone(), setting);
            case.reply(0, &[0; 3]);
            for all in 0..1u32 << 24 {
                case.replies.copy_from_slice(&all.to_be_bytes()[1..]);
                visit(&case);
            }
        }
    }
}

/// Every code, to every call, from the right and from a wrong SID, with and without a byte after it, before silence and
/// before a positive; bit 7 set by nobody, by the client and by the caller.
fn codes(rng: &mut Rng, visit: &mut Visit) {
    for call in sample_calls() {
        for call in [with_bit_7(&call), call] {
            let sid = call.sid();
            for setting in settings() {
                let mut case = Case::new(call.clone(), setting);
                for code in 0..=255 {
                    for second in [sid, sid ^ 1] {
                        for length in 2..=4 {
                            let reply = [0x7f, second, code, 0xaa];
                            visit(case.clear().reply(10, &reply[..length]));
                            let closing = good_reply(&call, rng);
                            visit(case.reply(20, &closing));
                        }
                    }
                }
            }
        }
    }
}

/// Events one before, at and one past each deadline, and T one before, at and one past each time that matters.
fn times(rng: &mut Rng, visit: &mut Visit) {
    const MOST: u32 = u32::MAX;
    let clocks = [
        (0, 0),
        (0, 1),
        (1, 0),
        (50, 5000),
        (5000, 50),
        (MOST, MOST),
        (MOST, 0),
        (0, MOST),
    ];
    let calls = [
        Call::TesterPresent,
        Call::ReadIdentifier { id: 0xf190 },
        Call::Reset { sub: 0x81 },
        Call::Routine {
            sub: 1,
            id: 0x0203,
            data: None,
        },
    ];
    for call in calls {
        for setting in settings() {
            for (p2, p2_star) in clocks {
                let setting = Setting {
                    p2,
                    p2_star,
                    ..setting
                };
                let mut case = Case::new(call.clone(), setting);
                times_from(rng, &mut case, p2.into(), 3, visit);
            }
        }
    }
}

/// Visits the case with every continuation of up to `more` events; its deadline so far is given.
fn times_from(rng: &mut Rng, case: &mut Case, deadline: u64, more: usize, visit: &mut Visit) {
    with_overall(case, visit);
    if more == 0 {
        return;
    }
    let before = case.events.last().map_or(0, |event| event.time);
    let near = [deadline.saturating_sub(1), deadline, deadline + 1]
        .map(|time| u32::try_from(time).unwrap_or(u32::MAX));
    let mut choices: Vec<u32> = near.into_iter().filter(|&time| time >= before).collect();
    choices.push(before);
    choices.sort();
    choices.dedup();
    for time in choices {
        let (events, replies) = (case.events.len(), case.replies.len());
        for what in 0..7 {
            let mut continues = None;
            match what {
                0 => {
                    case.event(time, IDLE, 0);
                    continues = Some(deadline);
                }
                1 => {
                    let notice = notice(&case.call);
                    case.reply(time, &notice);
                    continues = Some(u64::from(time) + u64::from(case.setting.p2_star));
                }
                2 => {
                    let reply = good_reply(&case.call, rng);
                    case.reply(time, &reply);
                }
                3 => {
                    let sid = case.call.sid();
                    case.reply(time, &[0x7f, sid, 0x22]);
                }
                4 => {
                    case.reply(time, &[0x12]);
                }
                5 => {
                    case.event(time, END, 0);
                }
                _ => {
                    case.event(time, ERROR, rng.next() as u16);
                }
            }
            match continues {
                Some(deadline) if u64::from(time) <= deadline => {
                    times_from(rng, case, deadline, more - 1, visit)
                }
                _ => with_overall(case, visit),
            }
            case.events.truncate(events);
            case.replies.truncate(replies);
        }
    }
}

/// Visits the case without T and with T around its finishing time, P2 and its last event's time.
fn with_overall(case: &mut Case, visit: &mut Visit) {
    case.setting.overall = None;
    visit(case);
    let finish = direct::call(case, &mut [0; 4095]).time;
    let last = case.events.last().map_or(0, |event| event.time.into());
    let mut times: Vec<u32> = [finish, last, case.setting.p2.into()]
        .into_iter()
        .flat_map(|time: u64| [time.saturating_sub(1), time, time + 1])
        .filter_map(|time| u32::try_from(time).ok())
        .chain([0, u32::MAX])
        .collect();
    times.sort();
    times.dedup();
    for overall in times {
        case.setting.overall = Some(overall);
        visit(case);
    }
    case.setting.overall = None;
}

/// Every reply length around each bound, from none up, and the longest: a good reply cut or drawn out.
fn lengths(rng: &mut Rng, visit: &mut Visit) {
    let mut calls = sample_calls();
    calls.extend(sample_calls().iter().map(with_bit_7));
    for address in 1..=15 {
        for size in 1..=15 {
            let mut small = rng.bytes(size);
            small[..size - 1].fill(0);
            small[size - 1] %= 40;
            let read = bytes(&rng.bytes(address), &small);
            let memory = bytes(&rng.bytes(address), &rng.bytes(size));
            calls.push(Call::ReadMemory { memory: read });
            calls.push(Call::WriteMemory {
                memory: memory.clone(),
                data: rng.bytes(3),
            });
            calls.push(Call::Download {
                compression: 15,
                encryption: 0,
                memory: memory.clone(),
            });
            calls.push(Call::Upload {
                compression: 0,
                encryption: 15,
                memory,
            });
        }
    }
    for call in calls {
        let mut good = good_reply(&call, rng);
        let bound = good.len();
        good.extend(rng.bytes(4095 - bound));
        for setting in settings() {
            let mut case = Case::new(call.clone(), setting);
            for length in (0..=bound + 3).chain([4094, 4095]) {
                visit(case.clear().reply(20, &good[..length]));
                let notice = notice(&call);
                visit(case.clear().reply(10, &notice).reply(20, &good[..length]));
            }
        }
    }
}

/// Any of the sample calls, with bit 7 or not, in any setting.
fn some_case(rng: &mut Rng, calls: &[Call]) -> Case {
    let call = &calls[rng.below(calls.len())];
    let call = if rng.once_in(4) {
        with_bit_7(call)
    } else {
        call.clone()
    };
    let p2 = rng.pick(&[0, 1, 50, 50, 50, 1000]);
    let p2_star = rng.pick(&[0, 1, 60, 5000, 5000]);
    let setting = Setting {
        strict: rng.coin(),
        server_timing: !rng.once_in(4),
        quiet: rng.once_in(3),
        p2,
        p2_star,
        overall: rng.once_in(3).then(|| rng.below(12000) as u32),
        limit: None,
        listens: None,
    };
    Case::new(call, setting)
}

/// Adds notices and idles, mostly in time, and returns the deadline after them and the time of the last.
fn add_waiting(rng: &mut Rng, case: &mut Case, most: usize) -> (u64, u64) {
    let mut deadline = u64::from(case.setting.p2);
    let mut now = 0;
    for _ in 0..rng.below(most + 1) {
        now = next_time(rng, now, deadline);
        if rng.coin() {
            case.event(now as u32, IDLE, 0);
        } else {
            let notice = notice(&case.call);
            case.reply(now as u32, &notice);
            if now <= deadline {
                deadline = now + u64::from(case.setting.p2_star);
            }
        }
    }
    (deadline, now)
}

/// A time from now on: often by the deadline, at times one around it.
fn next_time(rng: &mut Rng, now: u64, deadline: u64) -> u64 {
    let left = deadline.saturating_sub(now);
    let time = match rng.below(12) {
        0 => deadline.saturating_sub(1),
        1 => deadline,
        2 => deadline + 1,
        3 => now,
        _ => now + rng.next() % (left + 1),
    };
    time.max(now).min(u32::MAX.into())
}

/// Adds an event that settles the exchange, if it comes in time.
fn add_closing(rng: &mut Rng, case: &mut Case, deadline: u64, now: u64, reply: &[u8]) {
    let time = next_time(rng, now, deadline) as u32;
    let sid = case.call.sid();
    match rng.below(12) {
        0 => {}
        1 => {
            case.event(time, END, 0);
        }
        2 => {
            let number = rng.next() as u16;
            case.event(time, ERROR, number);
        }
        3 | 4 => {
            let code = rng.byte();
            case.reply(time, &[0x7f, sid, code]);
        }
        _ => {
            case.reply(time, reply);
        }
    }
    // Events behind the closing are never read.
    if rng.once_in(4) {
        case.event(time, IDLE, 0);
        case.reply(time, reply);
    }
}

/// Several notices and idles before a closing of every kind.
fn sequences(rng: &mut Rng, visit: &mut Visit) {
    let calls = sample_calls();
    for _ in 0..400_000 {
        let mut case = some_case(rng, &calls);
        let (deadline, now) = add_waiting(rng, &mut case, 12);
        let reply = good_reply(&case.call, rng);
        add_closing(rng, &mut case, deadline, now, &reply);
        visit(&case);
    }
}

/// So many sequences of two to five calls of one client, whose setting is the first case's; each further case has the timing that
/// the client then has, and events by that. Every third call is a session, mostly with times that later calls feel.
pub fn on_one_client(rng: &mut Rng, count: usize, visit: &mut dyn FnMut(&[Case])) {
    let calls = sample_calls();
    let pairs = [0u16, 1, 6, 25, 50, 500, 3000, 65535];
    for _ in 0..count {
        let mut setting = some_case(rng, &calls).setting;
        if rng.once_in(8) {
            setting = Setting::default();
        }
        let many = rng.between(2, 5);
        let mut cases: Vec<Case> = Vec::new();
        while cases.len() < many {
            let session = rng.once_in(3);
            let call = match rng.below(2) {
                _ if session => some_call_numbered(rng, 1),
                0 => some_call(rng),
                _ => calls[rng.below(calls.len())].clone(),
            };
            setting.quiet = rng.once_in(3);
            let mut case = Case::new(call, setting);
            let (deadline, now) = add_waiting(rng, &mut case, 3);
            let mut reply = good_reply(&case.call, rng);
            if session && !rng.once_in(8) {
                let [p2, p2_star] = [rng.pick(&pairs), rng.pick(&pairs)].map(u16::to_be_bytes);
                reply.truncate(2);
                reply.extend([p2, p2_star].concat());
            }
            if rng.once_in(4) {
                damage(rng, &mut reply);
            }
            reply.truncate(4095);
            add_closing(rng, &mut case, deadline, now, &reply);
            if matches!(direct::refusal(&case, 4095), Some(8..=10)) {
                continue;
            }
            let (p2, p2_star) = direct::run(&case).timing;
            (setting.p2, setting.p2_star) = (p2 as u32, p2_star as u32);
            cases.push(case);
        }
        visit(&cases);
    }
}

/// For limits of notices, so many cases: a controller that says wait all day, by few notices or by some more than 250, at
/// times one that only lenient takes for a notice, with idles between them; then a closing. T is at and around an event.
pub fn waiting(rng: &mut Rng, cases: usize, visit: &mut Visit) {
    let calls = sample_calls();
    for _ in 0..cases {
        let mut case = some_case(rng, &calls);
        if rng.once_in(4) {
            case.call = some_call(rng);
        }
        let many = rng.once_in(8);
        let count = if many {
            rng.between(253, 259)
        } else {
            rng.between(1, 6)
        };
        let (mut deadline, mut now) = (u64::from(case.setting.p2), 0);
        for _ in 0..count {
            now = if many {
                (now + rng.pick(&[0, 0, 1, 7])).min(deadline)
            } else {
                next_time(rng, now, deadline)
            };
            let time = now as u32;
            if rng.once_in(4) {
                case.event(time, IDLE, 0);
            }
            let sid = case.call.sid();
            match rng.below(4 * count) {
                0 => case.reply(time, &[0x7f, sid ^ 1, 0x78]),
                1 => case.reply(time, &[0x7f, sid, 0x78, 0xaa]),
                _ => case.reply(time, &[0x7f, sid, 0x78]),
            };
            if now <= deadline {
                deadline = now + u64::from(case.setting.p2_star);
            }
        }
        let reply = good_reply(&case.call, rng);
        add_closing(rng, &mut case, deadline, now, &reply);
        if rng.coin() {
            let at = rng.below(case.events.len());
            let time = case.events[at].time;
            let overall = rng.pick(&[time.saturating_sub(1), time, time + 1]);
            case.setting.overall = Some(overall);
        }
        visit(&case);
    }
}

/// The case with addresses: its call listens to one, and all its replies come from there.
pub fn addressed(rng: &mut Rng, case: &Case) -> Case {
    let mut case = case.clone();
    let listens = match rng.below(8) {
        0 => 0,
        1 => rng.next() as u16,
        2 => rng.pick(&[1, 0xff, 0x100, 0xffff]),
        _ => 0x7e8,
    };
    case.setting.listens = Some(listens);
    for event in &mut case.events {
        event.source = if event.kind == REPLY { listens } else { 0 };
    }
    case
}

/// What a foreign reply says: anything that would matter from the address listened to.
fn foreign_reply(rng: &mut Rng, call: &Call) -> Vec<u8> {
    let sid = call.sid();
    match rng.below(10) {
        0 => vec![],
        1 => vec![0x7f],
        2 | 3 => notice(call).to_vec(),
        4 => vec![0x7f, sid, rng.byte()],
        5 => vec![sid | 0x40],
        6 => {
            let mut reply = good_reply(call, rng);
            damage(rng, &mut reply);
            reply.truncate(4095);
            reply
        }
        7 => {
            let n = rng.pick(&[1, 2, 3, 9]);
            rng.bytes(n)
        }
        _ => good_reply(call, rng),
    }
}

/// The case with replies from other addresses among its events, at times that do not fall: with those of the events around
/// them, at and around P2, T and P2* after an event. Once in a while one breaks a limit, or another event has an address.
pub fn mixed(rng: &mut Rng, ours: &Case) -> Case {
    let mut case = ours.clone();
    let listens = case.listens();
    let count = if rng.once_in(200) {
        512usize.saturating_sub(case.events.len()) + rng.below(2)
    } else {
        rng.between(1, 6)
    };
    for _ in 0..count {
        let at = rng.below(case.events.len() + 1);
        let before = at.checked_sub(1).map_or(0, |at| case.events[at].time);
        let after = case.events.get(at).map_or(u32::MAX, |event| event.time);
        let Setting {
            p2,
            p2_star,
            overall,
            ..
        } = case.setting;
        let (soon, any) = (rng.below(100) as u32, rng.next() as u16);
        let near = rng.pick(&[
            before,
            after,
            p2,
            overall.unwrap_or(p2),
            before.saturating_add(p2_star),
            before.saturating_add(soon),
        ]);
        let near = rng.pick(&[near, near, near.saturating_sub(1), near.saturating_add(1)]);
        let source = rng.pick(&[0, listens ^ 1, listens.swap_bytes(), any]);
        let source = if source == listens { !listens } else { source };
        let reply = foreign_reply(rng, &case.call);
        let mut event = Event {
            time: near.max(before).min(after),
            kind: REPLY,
            offset: case.replies.len() as u16,
            length: reply.len() as u16,
            source,
        };
        let next = case.events.get(at).filter(|next| next.kind == REPLY);
        if let (true, Some(next)) = (rng.once_in(4), next) {
            // The same bytes as the next reply's.
            (event.offset, event.length) = (next.offset, next.length);
        } else if case.replies.len() + reply.len() < 65_536 {
            case.replies.extend(reply);
        } else {
            (event.offset, event.length) = (0, 0);
        }
        case.events.insert(at, event);
    }
    if rng.once_in(40) {
        let at = rng.below(case.events.len());
        let most = case.replies.len() as u16;
        let event = &mut case.events[at];
        match event.kind {
            IDLE | END | ERROR => event.source = rng.pick(&[listens | 1, 1, 0xffff]),
            REPLY if event.source == listens => {}
            _ => match rng.below(4) {
                0 => event.offset = most.saturating_sub(event.length).saturating_add(1),
                1 => event.length = 4096,
                2 => event.time = event.time.wrapping_sub(1),
                _ => event.kind = rng.pick(&[4, 256]),
            },
        }
    }
    case
}

/// Call 0 with every SID, with and without sub-function and data.
fn every_sid(rng: &mut Rng, visit: &mut Visit) {
    for sid in 0..=255 {
        for sub in [None, Some(0), Some(1), Some(0x7f), Some(0x80), Some(0xff)] {
            for data in [None, Some(vec![]), Some(rng.bytes(3))] {
                let call = Call::Request { sid, sub, data };
                let good = good_reply(&call, rng);
                // An echo with bit 7 set, if there is an echo.
                let mut bit_7 = [&good[..], &[0x5a]].concat();
                bit_7[1] |= 0x80;
                let replies: [&[u8]; 10] = [
                    &good,
                    &bit_7,
                    &[sid | 0x40],
                    &[sid.wrapping_add(0x40), 0, 1],
                    &[sid, 1, 2],
                    &[0x7f, sid, 0x78],
                    &[0x7f, sid, 0x31],
                    &[0x7f, sid],
                    &[0x7f, sid ^ 0x40, 0x78],
                    &[0x7f, sid, 0x78, 0],
                ];
                for setting in settings() {
                    let mut case = Case::new(call.clone(), setting);
                    for reply in replies {
                        visit(case.clear().reply(10, reply));
                        visit(case.reply(30, replies[0]));
                    }
                }
            }
        }
    }
}

/// Call 5 with sizes of up to 15 bytes, all of which count, and records one short, right and one long.
fn wide_sizes(rng: &mut Rng, visit: &mut Visit) {
    for width in 1..=15usize {
        for record in [0, 1, 2, 3, 254, 255, 256, 257, 4093, 4094usize] {
            for high in 0..width {
                for off in [-1i64, 0, 1] {
                    for marked in [0, 1, 0x80] {
                        let value = (record as i64 + off).max(0) as u128;
                        let mut size = value.to_be_bytes()[16 - width..].to_vec();
                        size[high] |= marked;
                        let call = Call::ReadMemory {
                            memory: bytes(&[0x20, 0], &size),
                        };
                        let mut reply = rng.bytes(record + 1);
                        reply[0] = 0x63;
                        for setting in settings() {
                            visit(Case::new(call.clone(), setting).reply(10, &reply));
                        }
                    }
                }
            }
        }
    }
}

/// Calls 11 and 12: values around 2, 3, 2^64 - 1 and 2^64 in n bytes, n from 0 to 15, with a wrong low nibble, and a byte
/// more or fewer.
fn block_lengths(rng: &mut Rng, visit: &mut Visit) {
    let top = 1u128 << 64;
    let mut values: Vec<u128> = (0..6).collect();
    values.extend([255, 256, 0x0ffa, 65535, 65536, u32::MAX as u128]);
    values.extend((0..6).map(|less| top - 3 + less));
    values.extend([top + 255, top * 2, top << 55, (1 << 120) - 1]);
    let calls = sample_calls();
    let loads = calls
        .iter()
        .filter(|call| matches!(call, Call::Download { .. } | Call::Upload { .. }));
    for call in loads {
        for setting in settings() {
            let mut case = Case::new(call.clone(), setting);
            for n in 0..=15usize {
                for low in [0, 1, 15] {
                    for &value in &values {
                        for length in n.saturating_sub(1)..=n + 1 {
                            let mut reply = vec![call.sid() | 0x40, (n * 16) as u8 + low];
                            let mut field = value.to_be_bytes()[16 - n..].to_vec();
                            field.push(rng.byte());
                            reply.extend(&field[..length.min(field.len())]);
                            visit(case.clear().reply(10, &reply));
                        }
                    }
                }
            }
        }
    }
}

/// Lists of up to 512 events and replies of up to 4,095 bytes.
fn long_lists(rng: &mut Rng, visit: &mut Visit) {
    let calls = sample_calls();
    for _ in 0..3000 {
        let mut case = some_case(rng, &calls);
        case.setting.overall = rng.once_in(8).then(|| rng.below(400_000) as u32);
        let count = rng.pick(&[1, 8, 63, 64, 65, 127, 128, 129, 256, 510, 511, 512]);
        let mut now = 0;
        let mut deadline = u64::from(case.setting.p2);
        for at in 0..count {
            let step = rng.pick(&[0, 0, 0, 1, 1, 7]);
            now = (now + step).min(deadline);
            if at + 1 == count {
                let mut reply = good_reply(&case.call, rng);
                if rng.coin() && case.replies.len() + 4095 < 60_000 {
                    reply.extend(rng.bytes(4095 - reply.len()));
                }
                case.reply(now as u32, &reply);
            } else if rng.once_in(3) {
                let notice = notice(&case.call);
                case.reply(now as u32, &notice);
                deadline = now + u64::from(case.setting.p2_star);
            } else {
                case.event(now as u32, IDLE, 0);
            }
        }
        visit(&case);
    }
}

/// Damages a good reply somewhere.
fn damage(rng: &mut Rng, reply: &mut Vec<u8>) {
    let at = rng.below(reply.len() + 1);
    let inside = at.min(reply.len().saturating_sub(1));
    match rng.below(8) {
        0 => reply.truncate(at),
        1 => reply.insert(at, rng.byte()),
        2 => reply.extend(rng.bytes(3)),
        _ if reply.is_empty() => {}
        3 => {
            reply.remove(inside);
        }
        4 => reply[inside] = rng.byte(),
        5 => reply[inside] ^= 0x80,
        6 => reply[inside] = reply[inside].wrapping_add(1),
        _ => reply[inside] ^= 1 << rng.below(8),
    }
}

/// Damaged copies of good replies, after nothing, notices and idles.
fn damaged(rng: &mut Rng, visit: &mut Visit) {
    let calls = sample_calls();
    for _ in 0..800_000 {
        let mut case = some_case(rng, &calls);
        if rng.once_in(4) {
            case.call = some_call(rng);
        }
        let (deadline, now) = add_waiting(rng, &mut case, 2);
        let mut reply = good_reply(&case.call, rng);
        for _ in 0..rng.between(1, 2) {
            damage(rng, &mut reply);
        }
        reply.truncate(4095);
        add_closing(rng, &mut case, deadline, now, &reply);
        visit(&case);
    }
}

/// Call 1 with the timings that it may set, records of every length, server timing on and off, and T.
fn sessions(rng: &mut Rng, visit: &mut Visit) {
    let pairs = [
        0u16, 1, 2, 49, 50, 255, 256, 500, 32767, 32768, 65534, 65535,
    ];
    for strict in [true, false] {
        for server_timing in [true, false] {
            for quiet in [true, false] {
                for overall in [None, Some(5), Some(49), Some(60), Some(1_000_000)] {
                    let setting = Setting {
                        strict,
                        server_timing,
                        quiet,
                        overall,
                        ..Setting::default()
                    };
                    let mut case = Case::new(Call::Session { sub: 3 }, setting);
                    for p2 in pairs {
                        for p2_star in pairs {
                            let [a, b] = p2.to_be_bytes();
                            let [c, d] = p2_star.to_be_bytes();
                            let reply = [0x50, 3, a, b, c, d, 0];
                            visit(case.clear().reply(10, &reply[..6]));
                            let notice = notice(&case.call);
                            visit(case.clear().reply(5, &notice).reply(10, &reply[..6]));
                            let length = rng.between(2, 7);
                            visit(case.clear().reply(10, &reply[..length]));
                        }
                    }
                }
            }
        }
    }
}

/// Every sub-function, identifier, mask, counter and pair of methods, data of many lengths, and the longest requests.
fn requests(rng: &mut Rng, visit: &mut Visit) {
    let mut answered = |rng: &mut Rng, call: Call| {
        let setting = Setting {
            strict: rng.coin(),
            quiet: rng.coin(),
            ..Setting::default()
        };
        let mut case = Case::new(call, setting);
        let notice = notice(&case.call);
        let reply = good_reply(&case.call, rng);
        if rng.coin() {
            case.reply(5, &notice);
        }
        visit(case.reply(10, &reply));
    };
    for byte in 0..=255 {
        for data in [None, Some(vec![]), Some(rng.bytes(2))] {
            for _ in 0..4 {
                answered(rng, Call::Session { sub: byte });
                answered(rng, Call::Reset { sub: byte });
                if byte % 2 == 1 || data.is_some() {
                    let data = data.clone();
                    answered(rng, Call::Security { sub: byte, data });
                }
                answered(rng, Call::FaultCount { mask: byte });
                answered(rng, Call::FaultList { mask: byte });
                let (sub, id) = (byte, rng.next() as u16);
                let data = data.clone();
                answered(rng, Call::Routine { sub, id, data });
                let (counter, data) = (byte, rng.coin().then(|| rng.bytes(3)));
                answered(rng, Call::Transfer { counter, data });
            }
        }
        let (compression, encryption) = (byte / 16, byte % 16);
        let memory = bytes(&rng.bytes(3), &rng.bytes(2));
        let again = memory.clone();
        answered(
            rng,
            Call::Download {
                compression,
                encryption,
                memory,
            },
        );
        answered(
            rng,
            Call::Upload {
                compression,
                encryption,
                memory: again,
            },
        );
    }
    for id in 0..=u16::MAX {
        answered(rng, Call::ReadIdentifier { id });
        let data = rng.bytes(id as usize % 3);
        answered(rng, Call::WriteIdentifier { id, data });
        let sub = rng.byte();
        answered(
            rng,
            Call::Routine {
                sub,
                id,
                data: None,
            },
        );
    }
    // The longest request has 4,095 bytes; what stands before the data has 2 to 34.
    for length in (0..40).chain(4050..4095) {
        let data = rng.bytes(length);
        for call in sample_calls() {
            let mut call = call;
            if let Some(place) = call.optional_data_mut() {
                *place = Some(data.clone());
            } else if let Some(place) = call.data_mut() {
                place.clone_from(&data);
            }
            if direct::refusal(&Case::new(call.clone(), Setting::default()), 4095).is_none() {
                answered(rng, call);
            }
        }
    }
    for address in 1..=15 {
        for size in 1..=15 {
            let memory = bytes(&rng.bytes(address), &rng.bytes(size));
            let longest = 4095 - 2 - address - size;
            for length in [0, 1, longest - 1, longest] {
                let (memory, data) = (memory.clone(), rng.bytes(length));
                answered(rng, Call::WriteMemory { memory, data });
            }
        }
    }
}

/// Arguments that refusals 1 to 7 meet, alone and together, by their order.
fn refusals(rng: &mut Rng, visit: &mut Visit) {
    let setting = |rng: &mut Rng| Setting {
        strict: rng.coin(),
        quiet: rng.coin(),
        ..Setting::default()
    };
    let mut ask = |rng: &mut Rng, call: Call| {
        let setting = setting(rng);
        let mut case = Case::new(call, setting);
        case.reply(10, &[case.call.sid() | 0x40, 0x10, 5]);
        visit(&case);
    };
    let mut at_memory = |rng: &mut Rng, memory: &Memory, c: u8, e: u8| {
        let memory = || memory.clone();
        ask(rng, Call::ReadMemory { memory: memory() });
        ask(
            rng,
            Call::WriteMemory {
                memory: memory(),
                data: vec![1],
            },
        );
        ask(
            rng,
            Call::Download {
                compression: c,
                encryption: e,
                memory: memory(),
            },
        );
        ask(
            rng,
            Call::Upload {
                compression: c,
                encryption: e,
                memory: memory(),
            },
        );
    };
    let lengths = [0, 1, 2, 14, 15, 16, 17, 31, 32, 255];
    let methods = [0, 1, 15, 16, 17, 255];
    for address in lengths {
        for size in lengths {
            for c in methods {
                for e in methods {
                    let memory = bytes(&rng.bytes(address), &rng.bytes(size));
                    at_memory(rng, &memory, c, e);
                }
            }
        }
    }
    let widths = [0, 1, 2, 3, 7, 8, 9, 15, 16, 256, usize::MAX];
    let values = [
        0,
        1,
        255,
        256,
        65535,
        65536,
        1 << 55,
        (1 << 56) - 1,
        1 << 56,
        u64::MAX,
    ];
    for address_width in widths {
        for size_width in widths {
            for address in values {
                for size in values {
                    let memory = Memory::Alfid {
                        address,
                        size,
                        address_width,
                        size_width,
                    };
                    let (c, e) = (rng.pick(&methods), rng.pick(&methods));
                    at_memory(rng, &memory, c, e);
                }
            }
        }
    }
    for sub in 0..=255 {
        for data in [None, Some(vec![]), Some(vec![1])] {
            for _ in 0..4 {
                let data = data.clone();
                ask(rng, Call::Security { sub, data });
            }
        }
    }
}

fn some_alfid(rng: &mut Rng) -> Memory {
    let number = |rng: &mut Rng| {
        let width = rng.between(1, 8);
        let most = u64::MAX >> (64 - 8 * width);
        let any = rng.next() & most;
        (rng.pick(&[0, 1, most, most - 1, any, any & 0xff]), width)
    };
    let (address, address_width) = number(rng);
    let (size, size_width) = number(rng);
    Memory::Alfid {
        address,
        size,
        address_width,
        size_width,
    }
}

/// The `alfid` forms of calls 5, 6, 11 and 12 with good and damaged replies.
fn alfid_forms(rng: &mut Rng, visit: &mut Visit) {
    for _ in 0..50_000 {
        for number in [5, 6, 11, 12] {
            let mut call = some_call_numbered(rng, number);
            let memory = some_alfid(rng);
            *call.memory_mut().expect("these calls have a memory") = memory;
            let setting = Setting {
                strict: rng.coin(),
                quiet: rng.once_in(4),
                ..Setting::default()
            };
            let mut case = Case::new(call, setting);
            let mut reply = good_reply(&case.call, rng);
            if rng.coin() {
                damage(rng, &mut reply);
            }
            reply.truncate(4095);
            visit(case.reply(10, &reply));
        }
    }
}

fn some_memory(rng: &mut Rng) -> Memory {
    if rng.once_in(4) {
        return some_alfid(rng);
    }
    let lengths = (rng.between(1, 15), rng.between(1, 15));
    let mut size = rng.bytes(lengths.1);
    if rng.coin() {
        size[..lengths.1 - 1].fill(0);
    }
    bytes(&rng.bytes(lengths.0), &size)
}

fn some_call(rng: &mut Rng) -> Call {
    let number = rng.below(16);
    some_call_numbered(rng, number)
}

fn some_call_numbered(rng: &mut Rng, number: usize) -> Call {
    let (byte, id) = (rng.byte(), rng.next() as u16);
    let many = rng.pick(&[0, 0, 1, 2, 3, 17]);
    let data = rng.coin().then(|| rng.bytes(many));
    let (compression, encryption) = (byte % 16, byte / 16);
    match number {
        0 => Call::Request {
            sid: byte,
            sub: rng.coin().then(|| rng.byte()),
            data,
        },
        1 => Call::Session { sub: byte },
        2 => Call::Reset { sub: byte },
        3 => Call::Security { sub: byte, data },
        4 => Call::TesterPresent,
        5 => Call::ReadMemory {
            memory: some_memory(rng),
        },
        6 => Call::WriteMemory {
            memory: some_memory(rng),
            data: data.unwrap_or_default(),
        },
        7 => Call::ReadIdentifier { id },
        8 => Call::WriteIdentifier {
            id,
            data: data.unwrap_or_default(),
        },
        9 => Call::FaultCount { mask: byte },
        10 => Call::Routine {
            sub: byte,
            id,
            data,
        },
        11 => Call::Download {
            compression,
            encryption,
            memory: some_memory(rng),
        },
        12 => Call::Upload {
            compression,
            encryption,
            memory: some_memory(rng),
        },
        13 => Call::Transfer {
            counter: byte,
            data,
        },
        14 => Call::TransferExit { data },
        _ => Call::FaultList { mask: byte },
    }
}

/// Any call with any arguments, any setting and any events of known kinds.
fn anything(rng: &mut Rng, visit: &mut Visit) {
    for _ in 0..1_000_000 {
        let call = some_call(rng);
        let mut case = some_case(rng, std::slice::from_ref(&call));
        if rng.once_in(8) {
            case.setting.p2 = rng.next() as u32;
            case.setting.p2_star = rng.next() as u32;
            case.setting.overall = rng.coin().then(|| rng.next() as u32);
        }
        let mut now = 0;
        for _ in 0..rng.below(6) {
            now = next_time(rng, now, case.setting.p2.into());
            let time = now as u32;
            match rng.below(8) {
                0 => {
                    case.event(time, IDLE, 0);
                }
                1 if rng.once_in(3) => {
                    case.event(time, END, 0);
                }
                2 if rng.once_in(3) => {
                    let number = rng.next() as u16;
                    case.event(time, ERROR, number);
                }
                3 | 4 => {
                    let notice = notice(&case.call);
                    case.reply(time, &notice);
                }
                5 => {
                    let many = rng.below(8);
                    let mut reply = rng.bytes(many);
                    if let Some(first) = reply.first_mut().filter(|_| rng.coin()) {
                        *first = 0x7f;
                    }
                    case.reply(time, &reply);
                }
                _ => {
                    let mut reply = good_reply(&case.call, rng);
                    if rng.coin() {
                        damage(rng, &mut reply);
                    }
                    reply.truncate(4095);
                    case.reply(time, &reply);
                }
            }
        }
        visit(&case);
    }
}

/// Event lists that break a limit, requests that are too long, and their neighbours that are not: also with arguments that
/// another refusal meets first.
fn beyond(rng: &mut Rng, visit: &mut Visit) {
    let calls = sample_calls();
    for _ in 0..40_000 {
        let mut case = some_case(rng, &calls);
        add_waiting(rng, &mut case, 4);
        let reply = good_reply(&case.call, rng);
        let time = case.events.last().map_or(0, |event| event.time);
        case.reply(time, &reply);
        if rng.once_in(16) {
            if let Some(data) = case.call.data_mut() {
                let many = rng.between(4085, 4096);
                data.resize(many, 0x33);
            }
        }
        if rng.once_in(16) {
            if let Some(Memory::Bytes { address, .. }) = case.call.memory_mut() {
                address.clear();
            }
        }
        if rng.once_in(64) {
            let count = rng.pick(&[512, 513]);
            while case.events.len() < count {
                case.event(time, IDLE, 0);
            }
        }
        let at = rng.below(case.events.len());
        let event = &mut case.events[at];
        match rng.below(8) {
            0 => event.kind = rng.pick(&[4, 5, 256, 65535]),
            1 => event.time = event.time.wrapping_sub(1),
            2 => event.time = event.time.wrapping_add(1),
            3 if event.kind == 0 => event.length = event.length.wrapping_add(1),
            4 if event.kind == 0 => event.offset = event.offset.wrapping_add(1),
            5 if event.kind == 0 => event.offset = rng.pick(&[65535, 65534]),
            6 if event.kind == 0 => {
                event.length = rng.pick(&[4095, 4096, 4097]);
                event.offset = 0;
                case.replies.resize(4097, 0);
            }
            _ => {}
        }
        visit(&case);
    }
}
