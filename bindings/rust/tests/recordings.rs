//! A recording and the `Result` of an answer, the words of errors, and the client over a transport.

use bintrochis::{
    version, Asked, Call, Client, Config, Error, Failure, Heard, NegativeResponseCode, Outcome,
    ProtocolDeviation, Record, Recording, Refusal, Response, Session, StepRefusal, Transport,
    LONGEST_REQUEST,
};
use std::collections::VecDeque;
use std::time::{Duration, Instant};

const READ: Call<'static> = Call::ReadDataByIdentifier { identifier: 0x2101 };
const COUNT: [u8; 5] = [0x62, 0x21, 0x01, 0x03, 0xe8];
const NOTICE: [u8; 3] = [0x7f, 0x22, 0x78];

/// The `Result` of a read that heard this.
fn response(config: Config, heard: &Recording<'_>) -> Result<Vec<u8>, Error> {
    let mut buffer = [0; LONGEST_REQUEST];
    let asked = Asked::new(&READ, &config);
    let answer = asked.hear(&mut Session::default(), &mut buffer, heard);
    Ok(answer.response()?.record()?.0.to_vec())
}

#[test]
fn versions() {
    assert_eq!(version(), 200);
    assert_eq!(env!("CARGO_PKG_VERSION"), "0.2.0");
}

#[test]
fn a_recording_says_places_by_itself() {
    let mut heard = Recording::new();
    heard.reply(20, &NOTICE).idle(30).reply(900, &COUNT);
    assert_eq!(response(Config::default(), &heard), Ok(vec![0x03, 0xe8]));
    assert_eq!(heard.replies(), [&NOTICE[..], &COUNT].concat());
    let late = Recording::new();
    assert_eq!(response(Config::default(), &late), Err(Error::Timeout(50)));
}

#[test]
fn sources_are_told_apart() {
    let mut heard = Recording::new();
    heard.reply_from(0x7e9, 8, &[0x62, 0x21, 0x01, 0x07, 0xd0]);
    heard.reply_from(0x7e8, 15, &COUNT);
    let listens = |listens| Config {
        listens,
        ..Config::default()
    };
    assert_eq!(response(listens(Some(0x7e8)), &heard), Ok(vec![0x03, 0xe8]));
    assert_eq!(response(listens(Some(0x7e9)), &heard), Ok(vec![0x07, 0xd0]));
    assert_eq!(response(listens(None), &heard), Err(Error::Timeout(50)));
}

#[test]
fn what_ends_a_recording() {
    let mut ended = Recording::new();
    ended.end(20);
    assert_eq!(
        response(Config::default(), &ended),
        Err(Error::Disconnected)
    );
    let mut failed = Recording::new();
    failed.error(20, 7);
    assert_eq!(
        response(Config::default(), &failed),
        Err(Error::Transport(7))
    );
}

#[test]
fn a_recording_without_room_is_refused() {
    let refused = Err(Error::Refused(Refusal(10)));
    let (mut events, mut replies) = ([0; 24], [0; 8]);
    let mut heard = Recording::lent(&mut events, &mut replies);
    heard.reply(20, &NOTICE).reply(900, &COUNT);
    assert_eq!(response(Config::default(), &heard), Ok(vec![0x03, 0xe8]));
    heard.idle(901);
    assert_eq!(response(Config::default(), &heard), refused);
    let (mut events, mut replies) = ([0; 24], [0; 7]);
    let mut heard = Recording::lent(&mut events, &mut replies);
    heard.reply(20, &NOTICE).reply(900, &COUNT);
    assert_eq!(response(Config::default(), &heard), refused);
    let mut heard = Recording::new();
    for time in 0..18 {
        heard.reply(time, &[0x7f; 4095]);
    }
    assert_eq!(response(Config::default(), &heard), refused);
    let mut heard = Recording::new();
    heard.reply(0, &[0; 65536]);
    assert_eq!(response(Config::default(), &heard), refused);
}

#[test]
fn the_request_alone() {
    let mut buffer = [0; LONGEST_REQUEST];
    let config = Config::default();
    let asked = Asked::new(&READ, &config);
    assert_eq!(asked.request(&mut buffer), Ok(&[0x22, 0x21, 0x01][..]));
    let refused = Err(Error::Refused(Refusal(9)));
    assert_eq!(asked.request(&mut buffer[..2]), refused);
    let key = Call::SecurityAccess {
        access_type: 2,
        data: None,
    };
    let refused = Err(Error::Refused(Refusal(1)));
    assert_eq!(Asked::new(&key, &config).request(&mut buffer), refused);
}

/// Data so long that the bindings cut it is refused as it is whole.
#[test]
fn more_data_than_a_request_has() {
    let data = vec![0; 5000];
    let memory = bintrochis::Memory::Bytes {
        address: &[0x20],
        size: &[4],
    };
    let mut buffer = [0; LONGEST_REQUEST];
    for (length, wanted) in [(4091, true), (4092, false), (4096, false), (5000, false)] {
        let call = Call::WriteMemoryByAddress {
            memory,
            data: &data[..length],
        };
        let asked = Asked::new(&call, &Config::default());
        let request = asked.request(&mut buffer);
        assert_eq!(request.is_ok(), wanted, "{length}");
        assert!(
            wanted || request == Err(Error::Refused(Refusal(8))),
            "{length}"
        );
    }
}

#[test]
fn words() {
    let said = |error: Error| error.to_string();
    let code = NegativeResponseCode(0x31);
    assert_eq!(
        said(Error::Negative(code)),
        "the controller refused: RequestOutOfRange (code 31)"
    );
    let unnamed = Error::Negative(NegativeResponseCode(0x99));
    assert_eq!(said(unnamed), "the controller refused with code 99");
    assert_eq!(
        said(Error::Timeout(50)),
        "no answer in time: waiting ended at 50 ms"
    );
    let deviation = Error::Deviation(ProtocolDeviation::InvalidDataIdentifier);
    assert_eq!(
        said(deviation),
        "the reply breaks rule 5: it names another identifier"
    );
    let length = |minimum, maximum| {
        ProtocolDeviation::InvalidResponseLength { minimum, maximum }.to_string()
    };
    assert_eq!(length(6, Some(6)), "it has not 6 bytes");
    assert_eq!(length(3, Some(6)), "its length is wrong (bounds 3 to 6)");
    assert_eq!(length(4, None), "its length is wrong (bounds 4 or more)");
    let refused = Error::Refused(Refusal(9));
    assert_eq!(
        said(refused),
        "the call is refused: the buffer is too short for the request (refusal 9)"
    );
    for number in (1..=13).chain([20, 21]) {
        let words = Refusal(number).to_string();
        assert!(!words.starts_with("refusal"), "{number}: {words}");
    }
    assert_eq!(Refusal(99).to_string(), "refusal 99");
}

/// Six bytes are three or more, and yet no list of faults: the words say no more than the bounds do.
#[test]
fn the_words_of_a_length_that_is_within_its_bounds() {
    let faults = Call::ReadDTCInformationDTCByStatusMask { status_mask: 0xff };
    let mut heard = Recording::new();
    heard.reply(20, &[0x59, 0x02, 0xff, 0x4a, 0x01, 0x13]);
    let mut buffer = [0; LONGEST_REQUEST];
    let asked = Asked::new(&faults, &Config::default());
    let answer = asked.hear(&mut Session::default(), &mut buffer, &heard);
    assert_eq!(
        answer.response().unwrap_err().to_string(),
        "the reply breaks rule 8: its length is wrong (bounds 3 or more)"
    );
}

/// A list is refused when it is judged, and its request may have been sent long before.
#[test]
fn the_words_of_a_list_that_is_refused() {
    let mut falling = Recording::new();
    falling.reply(20, &NOTICE).reply(19, &COUNT);
    let refused = response(Config::default(), &falling).unwrap_err();
    assert_eq!(
        refused.to_string(),
        "the call is refused: the list of events breaks a limit (refusal 10)"
    );
}

/// Going through all faults reads each record once: 32 times as many take about 32 times as long, and not 1,024 times.
#[test]
fn faults_are_found_in_one_pass() {
    let took = |records: usize| {
        let record: Vec<u8> = [0xff]
            .into_iter()
            .chain((0..4 * records).map(|_| 0x2f))
            .collect();
        let once = |_| {
            let start = Instant::now();
            assert_eq!(Record(&record).faults(0x01).count(), records);
            start.elapsed()
        };
        (0..9).map(once).min().unwrap_or(Duration::MAX)
    };
    let (few, many) = (took(1_000), took(32_000));
    assert!(many < 200 * few, "1,000 faults {few:?}, 32,000 {many:?}");
}

/// Every outcome as a `Result`.
#[test]
fn outcomes_as_results() {
    let heard = Recording::new();
    let mut buffer = [0; LONGEST_REQUEST];
    let asked = Asked::new(&READ, &Config::default());
    let answer = asked.hear(&mut Session::default(), &mut buffer, &heard);
    let of = |outcome| {
        let mut answer = answer;
        answer.outcome = outcome;
        answer.notices = 3;
        answer.response()
    };
    let positive = of(Outcome::PositiveResponse(&COUNT));
    let (record, time) = (Record(&COUNT), 50);
    assert_eq!(positive, Ok(Response::Positive { record, time }));
    assert_eq!(positive.map(Response::time), Ok(50));
    let suppressed = Ok(Response::Suppressed { time });
    assert_eq!(of(Outcome::Suppressed), suppressed);
    assert_eq!(suppressed.map(Response::time), Ok(50));
    assert_eq!(
        of(Outcome::Suppressed).and_then(Response::record),
        Err(Error::NoRecord)
    );
    let code = NegativeResponseCode(0x22);
    assert_eq!(
        of(Outcome::NegativeResponse(code)),
        Err(Error::Negative(code))
    );
    assert_eq!(of(Outcome::InvalidResponseLength), Err(Error::TooShort));
    assert_eq!(
        of(Outcome::BlockLengthOverflow),
        Err(Error::BlockLengthOverflow)
    );
    assert_eq!(of(Outcome::Refused(8)), Err(Error::Refused(Refusal(8))));
    assert_eq!(of(Outcome::PendingLimit), Err(Error::PendingLimit(3)));
}

/// A channel with a clock. It says what it was told to, at its time, and keeps what was sent and waited for.
#[derive(Default)]
struct Channel {
    says: VecDeque<(u32, Vec<u8>, u16)>,
    ends: Option<u32>,
    /// Whether it fails once it has said all.
    fails: bool,
    sent: Vec<Vec<u8>>,
    waited: Vec<u64>,
    /// In milliseconds since the last sending.
    now: u64,
    /// What the clock said when each request left.
    left: Vec<u64>,
}

impl Transport for Channel {
    type Error = &'static str;

    fn send(&mut self, request: &[u8]) -> Result<(), Self::Error> {
        self.sent.push(request.to_vec());
        self.left.push(self.now);
        self.now = 0;
        if request == [0x3e, 0x00] {
            return Err("the cable is cut");
        }
        Ok(())
    }

    fn receive(&mut self, until: u64, buffer: &mut [u8]) -> Result<Heard, Self::Error> {
        self.waited.push(until);
        if let Some((time, bytes, source)) = self.says.pop_front() {
            if u64::from(time) <= until {
                self.now = time.into();
                let length = bytes.len();
                let kept = length.min(buffer.len());
                buffer[..kept].copy_from_slice(&bytes[..kept]);
                return Ok(Heard::Message {
                    time,
                    length,
                    source,
                });
            }
        }
        if self.fails {
            return Err("the cable is cut");
        }
        self.now = until;
        Ok(self.ends.map_or(Heard::Nothing, |time| Heard::End { time }))
    }
}

/// How a call failed, and when.
fn failed(error: Error, time: u64) -> Result<Response<'static>, Failure<&'static str>> {
    Err(Failure::Call { error, time })
}

fn client(says: &[(u32, &[u8], u16)], config: Config) -> Client<Channel> {
    let says = says
        .iter()
        .map(|&(time, bytes, source)| (time, bytes.to_vec(), source));
    let channel = Channel {
        says: says.collect(),
        ..Channel::default()
    };
    Client::new(channel, config)
}

#[test]
fn the_client_waits_as_long_as_it_is_told_to() {
    let says: [(u32, &[u8], u16); 2] = [(20, &NOTICE, 0), (900, &COUNT, 0)];
    let mut patient = client(&says, Config::default());
    let response = patient.call(&READ).expect("an answer");
    let record = response.record().expect("a record");
    assert_eq!((record.u16(), response.time()), (Ok(1000), 900));
    assert_eq!(patient.transport.sent, [[0x22, 0x21, 0x01]]);
    assert_eq!(patient.transport.waited, [50, 5020]);
    assert_eq!(patient.call(&READ), failed(Error::Timeout(50), 50));
    assert_eq!(patient.transport.left, [0, 900]);

    let overall = Some(500);
    let mut hasty = client(
        &says,
        Config {
            overall,
            ..Config::default()
        },
    );
    assert_eq!(hasty.call(&READ), failed(Error::Timeout(500), 500));
    assert_eq!(hasty.transport.waited, [50, 500]);

    let notice_limit = Some(0);
    let mut strict = client(
        &says,
        Config {
            notice_limit,
            ..Config::default()
        },
    );
    assert_eq!(strict.call(&READ), failed(Error::PendingLimit(1), 20));
}

#[test]
fn the_client_keeps_the_session_and_listens_to_its_controller() {
    let granted: &[u8] = &[0x50, 0x03, 0x00, 0x19, 0x01, 0xf4];
    let mut asking = client(
        &[(8, &COUNT, 0x7e9), (10, granted, 0x7e8)],
        Config {
            listens: Some(0x7e8),
            ..Config::default()
        },
    );
    let session = Call::DiagnosticSessionControl { session_type: 3 };
    assert!(asking.call(&session).is_ok());
    assert_eq!(
        asking.session,
        Session {
            p2: 25,
            p2_star: 5000
        }
    );
    assert_eq!(asking.call(&READ), failed(Error::Timeout(25), 25));
}

const RESET: Call<'static> = Call::EcuReset { reset_type: 1 };

/// Under suppression an answer stands once P2 is over, and the next request leaves no earlier; what comes meanwhile is dropped.
#[test]
fn the_client_waits_for_the_finishing_time() {
    let suppressed = Config {
        suppressed: true,
        ..Config::default()
    };
    let refusal: &[u8] = &[0x7f, 0x11, 0x22];
    let negative = Error::Negative(NegativeResponseCode(0x22));
    let mut early = client(&[(10, refusal, 0), (30, &COUNT, 0)], suppressed);
    assert_eq!(early.call(&RESET), failed(negative, 50));
    assert_eq!(early.transport.waited, [50, 50, 50]);
    assert_eq!(early.call(&RESET), Ok(Response::Suppressed { time: 50 }));
    assert_eq!(early.transport.left, [0, 50]);

    // lenient takes a positive, whose data outlives what comes meanwhile
    let config = Config {
        strict: false,
        ..suppressed
    };
    let mut lenient = client(&[(10, &[0x51, 0x01, 0x07], 0), (30, &[9; 99], 0)], config);
    let record = Record(&[0x07]);
    let positive = Response::Positive { record, time: 50 };
    assert_eq!(lenient.call(&RESET), Ok(positive));
    assert_eq!(lenient.transport.now, 50);

    // the overall timeout comes first
    let config = Config {
        overall: Some(30),
        ..suppressed
    };
    let mut hasty = client(&[(10, refusal, 0)], config);
    assert_eq!(hasty.call(&RESET), failed(Error::Timeout(30), 30));
    assert_eq!(hasty.transport.now, 30);

    // nothing is to be waited for on a stream that ended; one that fails is told, since the time may not be over
    let mut ended = client(&[(10, refusal, 0)], suppressed);
    ended.transport.ends = Some(20);
    assert_eq!(ended.call(&RESET), failed(negative, 50));
    let mut cut = client(&[(10, refusal, 0)], suppressed);
    cut.transport.fails = true;
    let cable = Failure::Transport("the cable is cut");
    assert_eq!(cut.call(&RESET), Err(cable));

    // a deviation stands when it comes, and behind a notice so does an answer past P2
    let notice: &[u8] = &[0x7f, 0x11, 0x78];
    for (says, waited) in [
        (vec![(10, &[0x51, 0x01][..], 0)], vec![50]),
        (vec![(10, notice, 0), (70, refusal, 0)], vec![50, 5010]),
    ] {
        let mut decided = client(&says, suppressed);
        assert!(decided.call(&RESET).is_err());
        assert_eq!(decided.transport.waited, waited);
    }
}

/// However much the trolley talks, and whatever, the hoist's call goes on.
#[test]
fn a_chatty_trolley_does_not_end_the_hoists_call() {
    let mut says: Vec<(u32, &[u8], u16)> = vec![(20, &NOTICE, 0x7e8)];
    says.extend((21..621).map(|time| (time, &COUNT[..], 0x7e9)));
    says.push((700, &[0; 4096], 0x7e9));
    says.push((900, &[0x62, 0x21, 0x01, 0x07, 0xd0], 0x7e8));
    let config = Config {
        listens: Some(0x7e8),
        ..Config::default()
    };
    let mut hoist = client(&says, config);
    let response = hoist.call(&READ).expect("the hoist's answer");
    assert_eq!(response.record().and_then(Record::u16), Ok(2000));
    assert_eq!(response.time(), 900);
    // and it does not keep a silent hoist's call alive
    let mut silent = client(&says[1..], config);
    assert_eq!(silent.call(&READ), failed(Error::Timeout(50), 50));
}

#[test]
fn what_stops_the_client() {
    let mut cut = client(&[], Config::default());
    let cable = Failure::Transport("the cable is cut");
    assert_eq!(cut.call(&Call::TesterPresent), Err(cable));
    assert_eq!(cable.to_string(), "the cable is cut");
    cut.transport.ends = Some(5);
    assert_eq!(cut.call(&READ), failed(Error::Disconnected, 5));
    let key = Call::SecurityAccess {
        access_type: 2,
        data: None,
    };
    let mut unsent = client(&[], Config::default());
    let refused = failed(Error::Refused(Refusal(1)), 0);
    assert_eq!(unsent.call(&key), refused);
    assert_eq!(
        refused.unwrap_err().to_string(),
        "nothing was sent: the call is refused: a key is to be sent, and there is no data (refusal 1)"
    );
    assert!(unsent.transport.sent.is_empty());
    let suppressed = Config {
        suppressed: true,
        ..Config::default()
    };
    let mut silent = client(&[], suppressed);
    assert_eq!(silent.call(&RESET), Ok(Response::Suppressed { time: 50 }));
}

/// What the transport says may be refused when the request has left already: that is told as what it is.
#[test]
fn a_step_that_is_refused_after_sending() {
    let many: Vec<(u32, &[u8], u16)> = (1..514).map(|time| (time, &NOTICE[..], 0)).collect();
    let bad = "given up after the request was sent: refusal 10: the event breaks a limit";
    let back = "given up after the request was sent: refusal 20: earlier than the last step";
    for (says, refusal, words) in [
        (many, StepRefusal::BadEvent, bad),
        (vec![(5, &[0; 4096][..], 0)], StepRefusal::BadEvent, bad),
        (
            vec![(20, &NOTICE[..], 0), (19, &COUNT, 0)],
            StepRefusal::GoingBack,
            back,
        ),
        (
            vec![(20, &NOTICE[..], 0), (19, &COUNT, 7)],
            StepRefusal::GoingBack,
            back,
        ),
    ] {
        let mut given_up = client(&says, Config::default());
        let failure = Failure::Step(refusal);
        assert_eq!(given_up.call(&READ), Err(failure));
        assert_eq!(failure.to_string(), words);
        assert_eq!(given_up.transport.sent, [[0x22, 0x21, 0x01]]);
    }
}
