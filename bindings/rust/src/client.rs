//! The live loop, written once: a request is sent, and what comes is handed over one event at a time until the call has settled; then the
//! client waits until its finishing time.

use crate::{
    Asked, Call, Config, Error, Event, Response, Session, StepRefusal, LONGEST_REPLY,
    LONGEST_REQUEST,
};
use core::fmt;

/// What a transport heard.
#[derive(Debug, Clone, Copy, PartialEq, Eq)]
pub enum Heard {
    /// A message at this time, in milliseconds since sending: so many bytes at the buffer's front, from this address (0 where there
    /// are no addresses).
    Message {
        time: u32,
        length: usize,
        source: u16,
    },
    /// Nothing up to the time that was waited for.
    Nothing,
    /// The stream ended.
    End { time: u32 },
}

/// A way to a controller.
pub trait Transport {
    type Error;

    /// Sends a request. The times of what is heard afterwards count from here.
    fn send(&mut self, request: &[u8]) -> Result<(), Self::Error>;

    /// Waits for a message up to and at `until`, in milliseconds since sending, and puts it at the front of `buffer`. Times never fall.
    fn receive(&mut self, until: u64, buffer: &mut [u8]) -> Result<Heard, Self::Error>;

    /// Waits until it is `until`, in milliseconds since sending, or the stream ends: the call has settled, and the next request may leave
    /// then. What comes meanwhile answers no call and is dropped; a transport that is to keep it, or that has a clock to sleep by, does
    /// this in its own way.
    fn wait(&mut self, until: u64, buffer: &mut [u8]) -> Result<(), Self::Error> {
        loop {
            match self.receive(until, buffer)? {
                Heard::Message { time, .. } if u64::from(time) < until => {}
                _ => return Ok(()),
            }
        }
    }
}

/// Why there is no response.
#[derive(Debug, Clone, Copy, PartialEq, Eq)]
pub enum Failure<E> {
    /// The call's own error, and its finishing time, in milliseconds since sending. A call that is refused sent nothing, and its time is 0.
    Call { error: Error, time: u64 },
    /// The request was sent, and what the transport then said cannot be taken: a message of the controller with more than 4,095
    /// bytes, what comes behind its 512th, or a time before an earlier one. The client gave the call up; how it would have ended is
    /// not known.
    Step(StepRefusal),
    /// The transport's.
    Transport(E),
}

impl<E: fmt::Display> fmt::Display for Failure<E> {
    fn fmt(&self, f: &mut fmt::Formatter<'_>) -> fmt::Result {
        match self {
            Failure::Call { error, .. } => {
                if matches!(error, Error::Refused(_)) {
                    f.write_str("nothing was sent: ")?;
                }
                error.fmt(f)
            }
            Failure::Step(refusal) => {
                write!(f, "given up after the request was sent: {refusal}")
            }
            Failure::Transport(error) => error.fmt(f),
        }
    }
}

impl<E: fmt::Debug + fmt::Display> core::error::Error for Failure<E> {}

/// A blocking client of one controller. It has room for the longest request and the longest reply, and keeps the session from call to
/// call.
///
/// ```
/// use bintrochis::{Call, Client, Config, Error, Failure, Heard, Transport};
///
/// /// A drive that asks for patience once, then tells its count.
/// struct Hoist(u8);
///
/// impl Transport for Hoist {
///     type Error = std::convert::Infallible;
///
///     fn send(&mut self, request: &[u8]) -> Result<(), Self::Error> {
///         assert_eq!(request, [0x22, 0x21, 0x01]);
///         Ok(())
///     }
///
///     fn receive(&mut self, until: u64, buffer: &mut [u8]) -> Result<Heard, Self::Error> {
///         self.0 += 1;
///         let (time, message): (u32, &[u8]) = match self.0 {
///             1 => (20, &[0x7f, 0x22, 0x78]),
///             2 => (900, &[0x62, 0x21, 0x01, 0x03, 0xe8]),
///             _ => return Ok(Heard::Nothing),
///         };
///         assert!(u64::from(time) <= until);
///         buffer[..message.len()].copy_from_slice(message);
///         Ok(Heard::Message { time, length: message.len(), source: 0 })
///     }
/// }
///
/// let mut client = Client::new(Hoist(0), Config::default());
/// let count = Call::ReadDataByIdentifier { identifier: 0x2101 };
/// let response = client.call(&count)?;
/// assert_eq!((response.record().and_then(|record| record.u16()), response.time()), (Ok(1000), 900));
/// // Now the drive is silent.
/// assert_eq!(client.call(&count), Err(Failure::Call { error: Error::Timeout(50), time: 50 }));
/// # Ok::<(), bintrochis::Failure<std::convert::Infallible>>(())
/// ```
#[derive(Debug)]
pub struct Client<T> {
    pub transport: T,
    pub config: Config,
    pub session: Session,
    request: [u8; LONGEST_REQUEST],
    reply: [u8; LONGEST_REPLY],
}

impl<T: Transport> Client<T> {
    pub fn new(transport: T, config: Config) -> Client<T> {
        Client {
            transport,
            config,
            session: Session::default(),
            request: [0; LONGEST_REQUEST],
            reply: [0; LONGEST_REPLY],
        }
    }

    /// Makes a call, and comes back at its finishing time, when the next request may leave: under suppression an answer that comes
    /// before P2 is over is held back until then. Messages that were on their way when an earlier call settled are the transport's to
    /// drop or to hand over.
    ///
    /// A message of another address than the one listened to is passed over here. It would alter nothing but the count of events
    /// read, which is proved (README.md, "Hoist and trolley on one channel"); but the 513th event is refused, and so another
    /// controller that talks much would end this call.
    pub fn call(&mut self, call: &Call<'_>) -> Result<Response<'_>, Failure<T::Error>> {
        let asked = Asked::new(call, &self.config);
        let mut engine = asked.begin(self.session, &mut self.request);
        if let Some(refused) = engine.settled(&[]) {
            return refused
                .response()
                .map_err(|error| Failure::Call { error, time: 0 });
        }
        self.transport
            .send(engine.request())
            .map_err(Failure::Transport)?;
        let overall = self.config.overall.map_or(u64::MAX, u64::from);
        let listens = self.config.listens.unwrap_or(0);
        while let Some(deadline) = engine.deadline() {
            let until = deadline.min(overall);
            let heard = self.transport.receive(until, &mut self.reply);
            let refused = match heard.map_err(Failure::Transport)? {
                Heard::Message { time, source, .. } if source != listens => {
                    engine.tick(time.into()).err()
                }
                Heard::Message {
                    time,
                    length,
                    source,
                } => {
                    // a message that u16 cannot say is longer than any reply may be
                    let length = u16::try_from(length).unwrap_or(u16::MAX);
                    let event = Event::reply(time, 0, length, source);
                    engine.event(event, &self.reply).err()
                }
                Heard::End { time } => engine.event(Event::end(time), &[]).err(),
                Heard::Nothing => engine.tick(until + 1).err(),
            };
            if let Some(refusal) = refused {
                return Err(Failure::Step(refusal));
            }
        }
        self.session = engine.session();
        let (last, answer) = (engine.last(), engine.settled(&self.reply));
        let answer = answer.expect("the reply that settled the call stands in the buffer still");
        let (response, time) = (answer.response(), answer.time);
        if last < time {
            // the request was sent, and its bytes are free
            self.transport
                .wait(time, &mut self.request)
                .map_err(Failure::Transport)?;
        }
        response.map_err(|error| Failure::Call { error, time })
    }
}
