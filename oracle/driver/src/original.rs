//! One case on the original under tokio's paused clock: a mock transport plays the events at their times, and what the
//! client did is read off its result, off the mock and off further exchanges of the same client. A limit of notices and
//! addresses, which it does not have, change nothing.

use crate::model::{
    Call, Case, Data, Event, Memory, Observed, Outcome, Setting, END, ERROR, IDLE, REPLY,
};
use automotive::protocols::uds::{
    DTCReportNumberByStatusMask, Error as UdsError, ProtocolDeviation, RequestOutcome,
    SessionParameterRecord, UDSClient, UDSConfig,
};
use automotive::{Error, Stream, Transport};
use std::cell::{Cell, RefCell};
use std::future::Future;
use std::panic::{catch_unwind, AssertUnwindSafe};
use std::pin::Pin;
use std::sync::Once;
use std::task::{Context, Poll};
use std::time::Duration;
use tokio::runtime::{Builder, Runtime};
use tokio::time::{sleep_until, Instant, Sleep};

/// Runs cases on the original, all on one runtime.
pub struct Original {
    runtime: Runtime,
    begin: Instant,
}

static HOOK: Once = Once::new();

thread_local! {
    /// The original runs: its panics are caught, and nothing is printed of them.
    static CATCHING: Cell<bool> = const { Cell::new(false) };
}

/// A runtime is replaced once its clock has passed this: tokio's timer wheel turns over at 2^36 ms, and the longest case
/// with its probes of the timing takes less than 2^35 ms.
const CLOCK_END: Duration = Duration::from_millis(1 << 35);

fn paused_runtime() -> (Runtime, Instant) {
    let runtime = Builder::new_current_thread()
        .enable_time()
        .start_paused(true)
        .build()
        .expect("tokio gives a runtime");
    let begin = runtime.block_on(async { Instant::now() });
    (runtime, begin)
}

impl Default for Original {
    fn default() -> Self {
        HOOK.call_once(|| {
            let usual = std::panic::take_hook();
            std::panic::set_hook(Box::new(move |info| {
                if !CATCHING.with(Cell::get) {
                    usual(info);
                }
            }));
        });
        let (runtime, begin) = paused_runtime();
        Original { runtime, begin }
    }
}

impl Original {
    /// Everything that can be observed, the session timing by two further exchanges.
    pub fn run(&mut self, case: &Case) -> Observed {
        self.observe(case, true)
    }

    /// The call alone, for measuring: the timing afterwards is reported as the setting's.
    pub fn run_alone(&mut self, case: &Case) -> Observed {
        self.observe(case, false)
    }

    /// Cases one after the other on one client; the timing after each of them, or after the last one alone.
    pub fn run_all(&mut self, cases: &[Case], each: bool) -> Vec<Observed> {
        self.on_clock(observe_all(cases, each))
    }

    fn observe(&mut self, case: &Case, probe: bool) -> Observed {
        self.on_clock(observe(case, probe))
    }

    fn on_clock<A>(&mut self, observing: impl Future<Output = A>) -> A {
        let (observed, now) = self.runtime.block_on(async {
            let observed = observing.await;
            (observed, Instant::now())
        });
        if now - self.begin >= CLOCK_END {
            (self.runtime, self.begin) = paused_runtime();
        }
        observed
    }
}

/// The transport: it records the request, plays the events and counts what is read.
struct Mock<'c> {
    events: Cell<&'c [Event]>,
    replies: Cell<&'c [u8]>,
    begin: Cell<Instant>,
    sent: RefCell<Option<Vec<u8>>>,
    read: Cell<usize>,
    notices: Cell<usize>,
    /// The last event read is a reply, and the client has not come back for more.
    settling: Cell<bool>,
}

impl<'c> Mock<'c> {
    fn new(events: &'c [Event], replies: &'c [u8]) -> Self {
        Mock {
            events: Cell::new(events),
            replies: Cell::new(replies),
            begin: Cell::new(Instant::now()),
            sent: RefCell::new(None),
            read: Cell::new(0),
            notices: Cell::new(0),
            settling: Cell::new(false),
        }
    }

    /// Gives the mock the events of an exchange, and counts anew.
    fn play(&self, events: &'c [Event], replies: &'c [u8]) {
        self.events.set(events);
        self.replies.set(replies);
        self.sent.take();
        self.read.set(0);
        self.notices.set(0);
        self.settling.set(false);
    }
}

impl Transport for Mock<'_> {
    fn send<'a>(&'a self, data: &'a [u8]) -> impl Future<Output = automotive::Result<()>> + 'a {
        // Sending succeeds at once, and time counts from here.
        self.begin.set(Instant::now());
        let mut sent = self.sent.borrow_mut();
        sent.get_or_insert_with(Vec::new).extend_from_slice(data);
        std::future::ready(Ok(()))
    }

    fn recv(&self) -> impl Stream<Item = automotive::Result<Vec<u8>>> + Unpin + '_ {
        Playing {
            mock: self,
            next: 0,
            alarm: None,
        }
    }
}

/// The stream of one exchange.
struct Playing<'m, 'c> {
    mock: &'m Mock<'c>,
    next: usize,
    alarm: Option<Pin<Box<Sleep>>>,
}

impl Stream for Playing<'_, '_> {
    type Item = automotive::Result<Vec<u8>>;

    fn poll_next(self: Pin<&mut Self>, context: &mut Context<'_>) -> Poll<Option<Self::Item>> {
        let this = self.get_mut();
        let mock = this.mock;
        if mock.settling.replace(false) {
            // Only after a notice does the client ask for more than a reply.
            mock.notices.set(mock.notices.get() + 1);
        }
        let Some(event) = mock.events.get().get(this.next) else {
            return Poll::Pending;
        };
        let due = mock.begin.get() + Duration::from_millis(event.time.into());
        // The clock is asked first, so that many events at one time cost none of tokio's budget of polls.
        if Instant::now() < due {
            let alarm = match &mut this.alarm {
                Some(alarm) => {
                    if alarm.deadline() != due {
                        alarm.as_mut().reset(due);
                    }
                    alarm
                }
                none => none.insert(Box::pin(sleep_until(due))),
            };
            if alarm.as_mut().poll(context).is_pending() {
                return Poll::Pending;
            }
        }
        this.next += 1;
        mock.read.set(mock.read.get() + 1);
        Poll::Ready(match event.kind {
            REPLY => {
                mock.settling.set(true);
                let at = event.offset as usize;
                let reply = &mock.replies.get()[at..at + event.length as usize];
                Some(Ok(reply.to_vec()))
            }
            IDLE => Some(Err(Error::IdleTimeout)),
            END => None,
            ERROR => {
                let error = std::io::Error::from_raw_os_error(event.length.into());
                Some(Err(error.into()))
            }
            kind => unreachable!("An event of kind {kind} is not in the domain."),
        })
    }
}

/// A future whose panic is a result. (A panic must not unwind through the runtime, which is used again.)
struct Caught<F>(F);

impl<F: Future + Unpin> Future for Caught<F> {
    type Output = Result<F::Output, String>;

    fn poll(mut self: Pin<&mut Self>, context: &mut Context<'_>) -> Poll<Self::Output> {
        CATCHING.with(|catching| catching.set(true));
        let polled = catch_unwind(AssertUnwindSafe(|| Pin::new(&mut self.0).poll(context)));
        CATCHING.with(|catching| catching.set(false));
        match polled {
            Ok(Poll::Pending) => Poll::Pending,
            Ok(Poll::Ready(output)) => Poll::Ready(Ok(output)),
            Err(payload) => Poll::Ready(Err(match payload.downcast_ref::<&str>() {
                Some(message) => message.to_string(),
                None => payload
                    .downcast_ref::<String>()
                    .cloned()
                    .unwrap_or_default(),
            })),
        }
    }
}

/// What a call returned, before the mock says the rest.
enum Returned {
    Data(Vec<u8>),
    Number(usize),
    Suppressed,
    /// The original's call returns the same for silence and for a positive without data, or nothing at all.
    Nothing,
}

impl From<Vec<u8>> for Returned {
    fn from(data: Vec<u8>) -> Self {
        Returned::Data(data)
    }
}

impl From<Option<Vec<u8>>> for Returned {
    fn from(data: Option<Vec<u8>>) -> Self {
        data.map_or(Returned::Nothing, Returned::Data)
    }
}

impl From<Option<u8>> for Returned {
    fn from(byte: Option<u8>) -> Self {
        byte.map(|byte| vec![byte]).into()
    }
}

impl From<Option<SessionParameterRecord>> for Returned {
    fn from(record: Option<SessionParameterRecord>) -> Self {
        let pair = |time: Duration, unit| ((time.as_millis() / unit) as u16).to_be_bytes();
        let bytes = |record: SessionParameterRecord| {
            let p2 = pair(record.p2_server_max, 1);
            let p2_star = pair(record.p2_star_server_max, 10);
            [p2, p2_star].concat()
        };
        record.map(bytes).into()
    }
}

impl From<DTCReportNumberByStatusMask> for Returned {
    fn from(report: DTCReportNumberByStatusMask) -> Self {
        let mask = report.dtc_status_availability_mask;
        let format = report.dtc_format_identifier.as_raw();
        let count = report.dtc_count.to_be_bytes();
        Returned::Data(vec![mask, format, count[0], count[1]])
    }
}

impl From<Option<DTCReportNumberByStatusMask>> for Returned {
    fn from(report: Option<DTCReportNumberByStatusMask>) -> Self {
        report.map_or(Returned::Suppressed, Returned::from)
    }
}

impl From<RequestOutcome<Vec<u8>>> for Returned {
    fn from(outcome: RequestOutcome<Vec<u8>>) -> Self {
        match outcome {
            RequestOutcome::PositiveResponse(data) => Returned::Data(data),
            RequestOutcome::Suppressed => Returned::Suppressed,
        }
    }
}

impl From<usize> for Returned {
    fn from(number: usize) -> Self {
        Returned::Number(number)
    }
}

impl From<()> for Returned {
    fn from((): ()) -> Self {
        Returned::Nothing
    }
}

/// Makes the call. The suppressed client has every call, by `Deref` those that it does not change.
async fn ask(client: &UDSClient<'_, Mock<'_>>, case: &Case) -> automotive::Result<Returned> {
    // The suppressed client's methods have the client's names, but not always its types.
    macro_rules! by_either {
        ($name:ident($($argument:expr),*)) => {
            if case.setting.quiet {
                client.suppress_positive_responses().$name($($argument),*).await?.into()
            } else {
                client.$name($($argument),*).await?.into()
            }
        };
    }
    macro_rules! at_memory {
        ($memory:expr, $bytes:ident, $alfid:ident, [$($before:expr),*], [$($after:expr),*]) => {
            match $memory {
                Memory::Bytes { address, size } => {
                    by_either!($bytes($($before,)* address, size $(, $after)*))
                }
                &Memory::Alfid { address, size, address_width, size_width } => {
                    by_either!($alfid($($before,)* address, size, address_width, size_width $(, $after)*))
                }
            }
        };
    }
    Ok(match &case.call {
        Call::Request { sid, sub, data } => by_either!(request(*sid, *sub, data.as_deref())),
        Call::Session { sub } => by_either!(diagnostic_session_control(*sub)),
        Call::Reset { sub } => by_either!(ecu_reset(*sub)),
        Call::Security { sub, data } => by_either!(security_access(*sub, data.as_deref())),
        Call::TesterPresent => by_either!(tester_present()),
        Call::ReadMemory { memory } => {
            at_memory!(
                memory,
                read_memory_by_address,
                read_memory_by_address_alfid,
                [],
                []
            )
        }
        Call::WriteMemory { memory, data } => {
            at_memory!(
                memory,
                write_memory_by_address,
                write_memory_by_address_alfid,
                [],
                [data]
            )
        }
        Call::ReadIdentifier { id } => by_either!(read_data_by_identifier(*id)),
        Call::WriteIdentifier { id, data } => by_either!(write_data_by_identifier(*id, data)),
        Call::FaultCount { mask } => {
            by_either!(read_dtc_information_number_of_dtc_by_status_mask(*mask))
        }
        Call::Routine { sub, id, data } => by_either!(routine_control(*sub, *id, data.as_deref())),
        Call::Download {
            compression: c,
            encryption: e,
            memory,
        } => {
            at_memory!(
                memory,
                request_download,
                request_download_alfid,
                [*c, *e],
                []
            )
        }
        Call::Upload {
            compression: c,
            encryption: e,
            memory,
        } => {
            at_memory!(memory, request_upload, request_upload_alfid, [*c, *e], [])
        }
        Call::Transfer { counter, data } => by_either!(transfer_data(*counter, data.as_deref())),
        Call::TransferExit { data } => by_either!(request_transfer_exit(data.as_deref())),
        Call::FaultList { mask } => {
            let exchanged: Returned = by_either!(request(0x19u8, Some(0x02), Some(&[*mask])));
            match exchanged {
                Returned::Data(data) => listed_by_document_02(case.setting.strict, data)?,
                silence => silence,
            }
        }
    })
}

/// Call 15 behind its positive: whether what stands behind the sub-function is a list of faults, and what of it is handed
/// out. The original has no such method: the exchange is the original's own, by `request`, and the checks behind the
/// positive, which stand here, are document 02's.
fn listed_by_document_02(strict: bool, mut data: Vec<u8>) -> automotive::Result<Returned> {
    // "Strict total length must be 3 plus a multiple of 4, else deviation 8 (3, none)"
    if strict && data.len() % 4 != 1 {
        let deviation = ProtocolDeviation::InvalidResponseLength {
            minimum: 3,
            maximum: None,
        };
        // The exchange was strict, so that this is the whole reply.
        let response = [&[0x59, 0x02], &data[..]].concat();
        return Err(UdsError::ProtocolDeviation {
            deviation,
            response,
        }
        .into());
    }
    // "fewer than one byte after the sub-function is a length outcome"
    if data.is_empty() {
        return Err(UdsError::InvalidResponseLength.into());
    }
    // "lenient drops a broken tail": of records of four bytes behind the availability mask
    let tail = (data.len() - 1) % 4;
    data.truncate(data.len() - tail);
    Ok(Returned::Data(data))
}

/// A deviation's number, "in the order of `ProtocolDeviation`", and the bounds of number 8.
fn deviation(deviation: ProtocolDeviation, reply: Vec<u8>) -> Outcome {
    use ProtocolDeviation::*;
    let mut bounds = None;
    let number = match deviation {
        InvalidServiceId { .. } => 1,
        InvalidRequestServiceId { .. } => 2,
        InvalidSubFunction { .. } => 3,
        UnexpectedPositiveResponse => 4,
        InvalidDataIdentifier { .. } => 5,
        InvalidRoutineIdentifier { .. } => 6,
        InvalidBlockSequenceCounter { .. } => 7,
        InvalidResponseLength { minimum, maximum } => {
            bounds = Some((minimum, maximum));
            8
        }
        InvalidLengthFormat(_) => 9,
        InvalidLengthFormatIdentifier(_) => 10,
        InvalidMaxNumberOfBlockLength(_) => 11,
        InvalidAddressAndLengthFormatIdentifier { .. } => 12,
        InvalidMemoryAddress { .. } => 13,
        InvalidMemorySize { .. } => 14,
        InvalidMemoryRecordLength { .. } => 15,
    };
    Outcome::Deviation {
        number,
        bounds,
        reply,
    }
}

/// The number that bytes are, high byte first.
fn number_of(bytes: &[u8]) -> u128 {
    let add = |number: u128, &byte: &u8| number.wrapping_mul(256).wrapping_add(byte.into());
    bytes.iter().fold(0, add)
}

/// What a deviation names besides its number, expected and found, as the request and the reply have it: the port does not hand these
/// out, so that the original's own bytes say what is right.
fn names_rightly(deviation: &ProtocolDeviation, request: &[u8], reply: &[u8]) -> bool {
    use ProtocolDeviation::*;
    let bytes = |from: &[u8], at: usize, many: usize| from.get(at..at + many).map(<[u8]>::to_vec);
    let pair = |from: &[u8], at: usize| bytes(from, at, 2).map(|pair| number_of(&pair) as u16);
    let byte = |from: &[u8], at: usize| from.get(at).copied();
    let format = byte(request, 1).unwrap_or(0);
    let (address, size) = (format as usize % 16, format as usize / 16);
    match deviation {
        InvalidServiceId { expected, actual } => {
            Some(expected.as_raw()) == byte(request, 0).map(|sid| sid | 0x40)
                && Some(actual.as_raw()) == byte(reply, 0)
        }
        InvalidRequestServiceId { expected, actual } => {
            Some(expected.as_raw()) == byte(request, 0) && Some(actual.as_raw()) == byte(reply, 1)
        }
        InvalidSubFunction { expected, actual } => {
            Some(*expected) == byte(request, 1).map(|sub| sub & 0x7f)
                && Some(*actual) == byte(reply, 1)
        }
        InvalidDataIdentifier { expected, actual } => {
            Some(expected.as_raw()) == pair(request, 1) && Some(actual.as_raw()) == pair(reply, 1)
        }
        InvalidRoutineIdentifier { expected, actual } => {
            Some(expected.as_raw()) == pair(request, 2) && Some(actual.as_raw()) == pair(reply, 2)
        }
        InvalidBlockSequenceCounter { expected, actual }
        | InvalidAddressAndLengthFormatIdentifier { expected, actual } => {
            Some(*expected) == byte(request, 1) && Some(*actual) == byte(reply, 1)
        }
        InvalidLengthFormat(many) => Some(*many) == byte(reply, 1).map(|n| n as usize / 16),
        InvalidLengthFormatIdentifier(found) => Some(*found) == byte(reply, 1),
        InvalidMaxNumberOfBlockLength(value) => *value == number_of(&reply[2..]),
        InvalidMemoryAddress { expected, actual } => {
            Some(expected) == bytes(request, 2, address).as_ref()
                && Some(actual) == bytes(reply, 2, address).as_ref()
        }
        InvalidMemorySize { expected, actual } => {
            Some(expected) == bytes(request, 2 + address, size).as_ref()
                && Some(actual) == bytes(reply, 2 + address, size).as_ref()
        }
        InvalidMemoryRecordLength { expected, actual } => {
            Some(*expected) == bytes(request, 2 + address, size).map(|size| number_of(&size))
                && *actual == reply.len() - 1
        }
        InvalidResponseLength { .. } | UnexpectedPositiveResponse => true,
    }
}

/// The value and the width that refusals 6 and 7 name: the first that is off.
fn off_width(case: &Case) -> Option<(u64, usize)> {
    let Some(&Memory::Alfid {
        address,
        size,
        address_width,
        size_width,
    }) = case.call.memory()
    else {
        return None;
    };
    let fits = |&(value, width): &(u64, usize)| {
        (1..=8).contains(&width) && (width == 8 || value >> (8 * width) == 0)
    };
    let pairs = [(address, address_width), (size, size_width)];
    pairs.into_iter().find(|pair| !fits(pair))
}

/// Compression and encryption method.
fn methods(case: &Case) -> Option<(u8, u8)> {
    match case.call {
        Call::Download {
            compression,
            encryption,
            ..
        }
        | Call::Upload {
            compression,
            encryption,
            ..
        } => Some((compression, encryption)),
        _ => None,
    }
}

/// An error's outcome. What it names besides must be what was asked, sent and received.
fn failure(error: Error, case: &Case, request: &[u8]) -> Outcome {
    let rightly = match &error {
        Error::UDSError(error) => match error {
            UdsError::ProtocolDeviation {
                deviation,
                response,
            } => names_rightly(deviation, request, response),
            UdsError::BlockLengthOverflow { value, response } => {
                let many = response[1] as usize / 16;
                *value == number_of(&response[2..2 + many])
            }
            UdsError::InvalidCompressionMethod(method) => {
                Some(*method) == methods(case).map(|(compression, _)| compression)
            }
            UdsError::InvalidEncryptionMethod(method) => {
                Some(*method) == methods(case).map(|(_, encryption)| encryption)
            }
            UdsError::InvalidMemoryValueWidth(width) => {
                Some(*width) == off_width(case).map(|(_, width)| width)
            }
            UdsError::MemoryValueOverflow { value, width } => {
                Some((*value, *width)) == off_width(case)
            }
            _ => true,
        },
        _ => true,
    };
    if !rightly {
        return Outcome::Unknown(error.to_string());
    }
    match error {
        Error::Timeout => Outcome::Timeout,
        Error::Disconnected => Outcome::Disconnected,
        Error::IoError(error) => match error.raw_os_error() {
            Some(number) => Outcome::Transport(number as u16),
            None => Outcome::Unknown(error.to_string()),
        },
        Error::UDSError(error) => match error {
            UdsError::ProtocolDeviation {
                deviation: found,
                response,
            } => deviation(found, response),
            UdsError::InvalidResponseLength => Outcome::Length,
            UdsError::BlockLengthOverflow { response, .. } => Outcome::Overflow { reply: response },
            UdsError::NegativeResponse(code) => Outcome::Negative(code.as_raw()),
            UdsError::InvalidCompressionMethod(_) => Outcome::Refused(4),
            UdsError::InvalidEncryptionMethod(_) => Outcome::Refused(5),
            UdsError::InvalidMemoryValueWidth(_) => Outcome::Refused(6),
            UdsError::MemoryValueOverflow { .. } => Outcome::Refused(7),
            other => Outcome::Unknown(other.to_string()),
        },
        other => Outcome::Unknown(other.to_string()),
    }
}

/// Panics and asserts became refusals 1 to 3.
fn panicked(message: String) -> Outcome {
    if message == "Missing data parameter when sending key" {
        Outcome::Refused(1)
    } else if message.starts_with("assertion failed: !memory_address.is_empty()") {
        Outcome::Refused(2)
    } else if message.starts_with("assertion failed: !memory_size.is_empty()") {
        Outcome::Refused(3)
    } else {
        Outcome::Unknown(message)
    }
}

/// The notice of the second probe.
const NOTICE: [u8; 3] = [0x7f, 0x3e, 0x78];
const NOTICE_AT_0: [Event; 1] = [Event {
    time: 0,
    kind: REPLY,
    offset: 0,
    length: 3,
    source: 0,
}];

/// The setting's configuration, by the original's builder.
fn config(setting: &Setting) -> UDSConfig {
    let millis = |time: u32| Duration::from_millis(time.into());
    let builder = UDSConfig::builder()
        .p2_timeout(millis(setting.p2))
        .p2_star_timeout(millis(setting.p2_star))
        .use_server_timing(setting.server_timing)
        .strict(setting.strict);
    match setting.overall {
        Some(overall) => builder.request_timeout(millis(overall)),
        // Set and taken away again, as a caller may.
        None => builder.request_timeout(millis(1)).without_request_timeout(),
    }
    .build()
}

/// The setting's client; one with the defaults of both sides is made without a configuration.
fn client<'m, 'c>(mock: &'m Mock<'c>, setting: &Setting) -> UDSClient<'m, Mock<'c>> {
    let default = Setting {
        quiet: setting.quiet,
        limit: setting.limit,
        listens: setting.listens,
        ..Setting::default()
    };
    if *setting == default {
        UDSClient::new(mock)
    } else {
        UDSClient::with_config(mock, config(setting))
    }
}

/// The cases one after the other on one client, which is made by the first one's setting: each further case gives its call, its
/// events and whether the suppressed client asks. The timing is observed after each call, or after the last one alone; where it is
/// not, it is reported as 0.
async fn observe_all(cases: &[Case], each: bool) -> Vec<Observed> {
    let mock = Mock::new(&[], &[]);
    let client = client(&mock, &cases[0].setting);
    let mut all = Vec::new();
    for (at, case) in cases.iter().enumerate() {
        let mut observed = observe_on(&client, &mock, case).await;
        if each || at + 1 == cases.len() {
            observed.timing = probed(&client, &mock).await;
        }
        all.push(observed);
    }
    all
}

async fn observe(case: &Case, probe: bool) -> Observed {
    let mock = Mock::new(&[], &[]);
    let client = client(&mock, &case.setting);
    let mut observed = observe_on(&client, &mock, case).await;
    observed.timing = if probe {
        probed(&client, &mock).await
    } else {
        (case.setting.p2.into(), case.setting.p2_star.into())
    };
    observed
}

/// P2 and P2* of the client: silence lasts P2; one notice at 0 and then silence lasts P2*.
async fn probed<'c>(client: &UDSClient<'_, Mock<'c>>, mock: &Mock<'c>) -> (u64, u64) {
    mock.play(&[], &[]);
    let p2 = lasting(client).await;
    mock.play(&NOTICE_AT_0, &NOTICE);
    let p2_star = lasting(client).await;
    (p2, p2_star)
}

/// Whether the original's call returns `None`, and never `Some` of no bytes, where nothing is handed out.
fn says_none(call: &Call) -> bool {
    match call {
        Call::Security { sub, .. } => sub % 2 == 0,
        Call::Routine { .. } | Call::Transfer { .. } | Call::TransferExit { .. } => true,
        _ => false,
    }
}

/// One call of the client; the timing is left open.
async fn observe_on<'c>(
    client: &UDSClient<'_, Mock<'c>>,
    mock: &Mock<'c>,
    case: &'c Case,
) -> Observed {
    mock.play(&case.events, &case.replies);
    let begin = Instant::now();
    let call = ask(client, case);
    tokio::pin!(call);
    let returned = Caught(call.as_mut()).await;
    let time = begin.elapsed().as_millis() as u64;

    let request = mock.sent.borrow_mut().take();
    let mut number = None;
    let outcome = match returned {
        Err(message) => panicked(message),
        Ok(Err(error)) => failure(error, case, request.as_deref().unwrap_or_default()),
        // To document 01 absent and empty are one; the original has an empty one of a seed alone, and else none.
        Ok(Ok(Returned::Data(data))) if data.is_empty() && says_none(&case.call) => {
            Outcome::Unknown("Some of no bytes".to_string())
        }
        Ok(Ok(Returned::Data(data))) => Outcome::Positive(Data::Bytes(data)),
        Ok(Ok(Returned::Number(value))) => {
            number = Some(value as u64);
            Outcome::Positive(Data::NotHandedOut)
        }
        Ok(Ok(Returned::Suppressed)) => Outcome::Suppressed,
        // A positive's reply was read last, and the client did not come back for more; in silence none was.
        Ok(Ok(Returned::Nothing)) if !mock.settling.get() => Outcome::Suppressed,
        Ok(Ok(Returned::Nothing)) if matches!(case.call, Call::WriteMemory { .. }) => {
            Outcome::Positive(Data::NotHandedOut)
        }
        Ok(Ok(Returned::Nothing)) => Outcome::Positive(Data::Bytes(Vec::new())),
    };
    Observed {
        request,
        outcome,
        time,
        events: mock.read.get(),
        notices: mock.notices.get(),
        number,
        timing: (0, 0),
        place: None,
    }
}

/// How long a further exchange of the client lasts: it gets no answer, so that it ends in a timeout.
async fn lasting(client: &UDSClient<'_, Mock<'_>>) -> u64 {
    let begin = Instant::now();
    let call = client.tester_present();
    tokio::pin!(call);
    match Caught(call.as_mut()).await {
        Ok(Err(Error::Timeout)) => begin.elapsed().as_millis() as u64,
        // No timing: it equals none that a case can have.
        _ => u64::MAX,
    }
}
