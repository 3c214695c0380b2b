//! The inputs and the observations of a comparison, in document 01's words: a call with its arguments, the settings,
//! the event list and the reply bytes; and what one side did with them.

/// Event kinds.
pub const REPLY: u16 = 0;
pub const IDLE: u16 = 1;
pub const END: u16 = 2;
pub const ERROR: u16 = 3;

/// Address and size of calls 5, 6, 11 and 12: bytes, or the `alfid` form's numbers with widths.
#[derive(Debug, Clone, PartialEq, Eq)]
pub enum Memory {
    Bytes {
        address: Vec<u8>,
        size: Vec<u8>,
    },
    Alfid {
        address: u64,
        size: u64,
        address_width: usize,
        size_width: usize,
    },
}

/// The calls 0 to 15 with their arguments. Data that may be absent is an option: absent is not empty.
#[derive(Debug, Clone, PartialEq, Eq)]
pub enum Call {
    Request {
        sid: u8,
        sub: Option<u8>,
        data: Option<Vec<u8>>,
    },
    Session {
        sub: u8,
    },
    Reset {
        sub: u8,
    },
    Security {
        sub: u8,
        data: Option<Vec<u8>>,
    },
    TesterPresent,
    ReadMemory {
        memory: Memory,
    },
    WriteMemory {
        memory: Memory,
        data: Vec<u8>,
    },
    ReadIdentifier {
        id: u16,
    },
    WriteIdentifier {
        id: u16,
        data: Vec<u8>,
    },
    FaultCount {
        mask: u8,
    },
    Routine {
        sub: u8,
        id: u16,
        data: Option<Vec<u8>>,
    },
    Download {
        compression: u8,
        encryption: u8,
        memory: Memory,
    },
    Upload {
        compression: u8,
        encryption: u8,
        memory: Memory,
    },
    Transfer {
        counter: u8,
        data: Option<Vec<u8>>,
    },
    TransferExit {
        data: Option<Vec<u8>>,
    },
    FaultList {
        mask: u8,
    },
}

impl Call {
    /// The call's number in document 01; 15 is document 02's.
    pub fn number(&self) -> u8 {
        match self {
            Call::Request { .. } => 0,
            Call::Session { .. } => 1,
            Call::Reset { .. } => 2,
            Call::Security { .. } => 3,
            Call::TesterPresent => 4,
            Call::ReadMemory { .. } => 5,
            Call::WriteMemory { .. } => 6,
            Call::ReadIdentifier { .. } => 7,
            Call::WriteIdentifier { .. } => 8,
            Call::FaultCount { .. } => 9,
            Call::Routine { .. } => 10,
            Call::Download { .. } => 11,
            Call::Upload { .. } => 12,
            Call::Transfer { .. } => 13,
            Call::TransferExit { .. } => 14,
            Call::FaultList { .. } => 15,
        }
    }

    /// The service identifier that the call sends.
    pub fn sid(&self) -> u8 {
        const SIDS: [u8; 16] = [
            0, 0x10, 0x11, 0x27, 0x3e, 0x23, 0x3d, 0x22, 0x2e, 0x19, 0x31, 0x34, 0x35, 0x36, 0x37,
            0x19,
        ];
        match self {
            Call::Request { sid, .. } => *sid,
            other => SIDS[other.number() as usize],
        }
    }

    /// The sub-function that the caller gives or the table fixes.
    pub fn sub(&self) -> Option<u8> {
        match self {
            Call::Request { sub, .. } => *sub,
            Call::Session { sub }
            | Call::Reset { sub }
            | Call::Security { sub, .. }
            | Call::Routine { sub, .. } => Some(*sub),
            Call::TesterPresent => Some(0),
            Call::FaultCount { .. } => Some(1),
            Call::FaultList { .. } => Some(2),
            _ => None,
        }
    }

    pub fn memory(&self) -> Option<&Memory> {
        match self {
            Call::ReadMemory { memory }
            | Call::WriteMemory { memory, .. }
            | Call::Download { memory, .. }
            | Call::Upload { memory, .. } => Some(memory),
            _ => None,
        }
    }

    pub fn memory_mut(&mut self) -> Option<&mut Memory> {
        match self {
            Call::ReadMemory { memory }
            | Call::WriteMemory { memory, .. }
            | Call::Download { memory, .. }
            | Call::Upload { memory, .. } => Some(memory),
            _ => None,
        }
    }

    pub fn data(&self) -> Option<&[u8]> {
        match self {
            Call::Request { data, .. }
            | Call::Security { data, .. }
            | Call::Routine { data, .. }
            | Call::Transfer { data, .. }
            | Call::TransferExit { data } => data.as_deref(),
            Call::WriteMemory { data, .. } | Call::WriteIdentifier { data, .. } => Some(data),
            _ => None,
        }
    }

    pub fn data_mut(&mut self) -> Option<&mut Vec<u8>> {
        match self {
            Call::Request { data, .. }
            | Call::Security { data, .. }
            | Call::Routine { data, .. }
            | Call::Transfer { data, .. }
            | Call::TransferExit { data } => data.as_mut(),
            Call::WriteMemory { data, .. } | Call::WriteIdentifier { data, .. } => Some(data),
            _ => None,
        }
    }

    /// The data where it may be absent.
    pub fn optional_data_mut(&mut self) -> Option<&mut Option<Vec<u8>>> {
        match self {
            Call::Request { data, .. }
            | Call::Security { data, .. }
            | Call::Routine { data, .. }
            | Call::Transfer { data, .. }
            | Call::TransferExit { data } => Some(data),
            _ => None,
        }
    }
}

/// What a call is given besides its arguments.
#[derive(Debug, Clone, Copy, PartialEq, Eq)]
pub struct Setting {
    pub strict: bool,
    pub server_timing: bool,
    /// The suppressed client asks.
    pub quiet: bool,
    pub p2: u32,
    pub p2_star: u32,
    /// T.
    pub overall: Option<u32>,
    /// Document 02's limit of notices, which the original does not have.
    pub limit: Option<u8>,
    /// Document 02's address that the call listens to, which the original does not have; none if events have no addresses.
    pub listens: Option<u16>,
}

impl Default for Setting {
    fn default() -> Self {
        Setting {
            strict: true,
            server_timing: true,
            quiet: false,
            p2: 50,
            p2_star: 5000,
            overall: None,
            limit: None,
            listens: None,
        }
    }
}

/// An event as it stands in a log; kind 3 has its number in `length`.
#[derive(Debug, Clone, Copy, PartialEq, Eq)]
pub struct Event {
    pub time: u32,
    pub kind: u16,
    pub offset: u16,
    pub length: u16,
    /// The source address; 0 where events have none.
    pub source: u16,
}

#[derive(Debug, Clone, PartialEq, Eq)]
pub struct Case {
    pub call: Call,
    pub setting: Setting,
    pub events: Vec<Event>,
    pub replies: Vec<u8>,
}

impl Case {
    pub fn new(call: Call, setting: Setting) -> Case {
        Case {
            call,
            setting,
            events: Vec::new(),
            replies: Vec::new(),
        }
    }

    /// Takes all events and reply bytes away.
    pub fn clear(&mut self) -> &mut Case {
        self.events.clear();
        self.replies.clear();
        self
    }

    /// The address listened to.
    pub fn listens(&self) -> u16 {
        self.setting.listens.unwrap_or(0)
    }

    /// Adds a reply at this time, from the address listened to.
    pub fn reply(&mut self, time: u32, bytes: &[u8]) -> &mut Case {
        self.reply_from(self.listens(), time, bytes)
    }

    pub fn reply_from(&mut self, source: u16, time: u32, bytes: &[u8]) -> &mut Case {
        self.events.push(Event {
            time,
            kind: REPLY,
            offset: self.replies.len() as u16,
            length: bytes.len() as u16,
            source,
        });
        self.replies.extend_from_slice(bytes);
        self
    }

    /// A reply from another address than the one listened to.
    pub fn is_foreign(&self, event: &Event) -> bool {
        event.kind == REPLY && event.source != self.listens()
    }

    /// How many of these events are foreign replies.
    pub fn foreign(&self, events: &[Event]) -> usize {
        events.iter().filter(|event| self.is_foreign(event)).count()
    }

    /// What is left once foreign replies are dropped; the reply bytes stay.
    pub fn left(&self) -> Case {
        let mut left = self.clone();
        left.events.retain(|event| !self.is_foreign(event));
        left
    }

    /// Adds an event without reply bytes; `number` is that of a transport error.
    pub fn event(&mut self, time: u32, kind: u16, number: u16) -> &mut Case {
        self.events.push(Event {
            time,
            kind,
            offset: 0,
            length: number,
            source: 0,
        });
        self
    }

    /// The sub-function byte that is sent.
    pub fn sent_sub(&self) -> Option<u8> {
        let bit = if self.setting.quiet { 0x80 } else { 0 };
        self.call.sub().map(|sub| sub | bit)
    }

    /// Whether bit 7 of the sub-function is set, whoever set it.
    pub fn suppressing(&self) -> bool {
        self.sent_sub().is_some_and(|sub| sub & 0x80 != 0)
    }
}

/// Minimum and maximum of deviation 8.
pub type Bounds = (usize, Option<usize>);

/// What a side handed out. The original keeps the data of calls 6, 11 and 12 to itself.
#[derive(Debug, Clone, PartialEq, Eq)]
pub enum Data {
    Bytes(Vec<u8>),
    NotHandedOut,
}

#[derive(Debug, Clone, PartialEq, Eq)]
pub enum Outcome {
    Positive(Data),
    Suppressed,
    Negative(u8),
    Timeout,
    Disconnected,
    Transport(u16),
    Deviation {
        number: u8,
        bounds: Option<Bounds>,
        reply: Vec<u8>,
    },
    Length,
    Overflow {
        reply: Vec<u8>,
    },
    Refused(u8),
    /// Document 02's, with the notice after the K-th.
    PendingLimit {
        reply: Vec<u8>,
    },
    /// Something that document 01 does not know, such as a panic that is no refusal. Never right.
    Unknown(String),
}

impl Outcome {
    /// The word that the line begins with.
    pub fn word(&self) -> &'static str {
        match self {
            Outcome::Positive(_) => "positive",
            Outcome::Suppressed => "suppressed",
            Outcome::Negative(_) => "negative",
            Outcome::Timeout => "timeout",
            Outcome::Disconnected => "disconnected",
            Outcome::Transport(_) => "transport",
            Outcome::Deviation { .. } => "deviation",
            Outcome::Length => "length",
            Outcome::Overflow { .. } => "overflow",
            Outcome::Refused(_) => "refused",
            Outcome::PendingLimit { .. } => "pendinglimit",
            Outcome::Unknown(_) => "unknown",
        }
    }

    /// The number of a deviation or a refusal, else 0.
    pub fn number(&self) -> u8 {
        match self {
            Outcome::Deviation { number, .. } | Outcome::Refused(number) => *number,
            _ => 0,
        }
    }
}

/// Where bytes stand in the lent reply bytes. An empty part has no place that matters.
#[derive(Debug, Clone, Copy, PartialEq, Eq, Default)]
pub struct Place {
    pub at: usize,
    pub length: usize,
}

/// What one side did with a case.
#[derive(Debug, Clone, PartialEq, Eq)]
pub struct Observed {
    /// The request bytes; none if nothing was sent.
    pub request: Option<Vec<u8>>,
    pub outcome: Outcome,
    pub time: u64,
    pub events: usize,
    pub notices: usize,
    /// The number that calls 11 and 12 return with a positive.
    pub number: Option<u64>,
    /// P2 and P2* afterwards. The original shows each only up to T.
    pub timing: (u64, u64),
    /// Where the handed-out data stands, for a side that has places (the original has copies).
    pub place: Option<Place>,
}
