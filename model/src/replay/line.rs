//! The lines that parse, the reasons why others do not, and the answers.

use crate::clc::{Clc, NoMessage};
use crate::gauge::{Gauge, Health};
use crate::links::{Exchange, LinkAnswer, LinkSent, Queue, Role};
use crate::llc::Fields;
use crate::pool::Books;
use crate::setup::{Due, SetUp, Settings};
use crate::smcr::*;

/// A line that parsed.
#[derive(Clone, Debug, PartialEq)]
pub enum Line {
    Group {
        elements: u32,
        size: u32,
        length: usize,
        /// COUNT where the line names it.
        records: Option<usize>,
    },
    Open {
        opening: Opening,
    },
    Free {
        slot: u32,
    },
    Link {
        link: u8,
        up: bool,
        /// ROOM where the line names it, here and in the next one and in link send.
        room: Option<usize>,
    },
    LinkMsg {
        link: u8,
        bytes: Vec<u8>,
        room: Option<usize>,
    },
    Send {
        slot: u32,
        bytes: Vec<u8>,
    },
    Urgent {
        slot: u32,
        bytes: Vec<u8>,
    },
    Gather {
        slot: u32,
        head: Vec<u8>,
        body: Vec<u8>,
    },
    Place {
        slot: u32,
        offset: u32,
        bytes: Vec<u8>,
    },
    Read {
        slot: u32,
        room: usize,
    },
    Hear {
        bytes: Vec<u8>,
    },
    Shutdown {
        slot: u32,
    },
    Close {
        slot: u32,
    },
    Abort {
        slot: u32,
    },
    Record {
        slot: usize,
        record: Connection,
    },
    Poke {
        at: usize,
        bytes: Vec<u8>,
    },
    Table,
    Memory {
        at: usize,
        count: usize,
    },
    Pool,
    Take {
        units: u32,
    },
    Return {
        start: u32,
        units: u32,
    },
    Books {
        books: Books,
    },
    BooksShown,
    Sample {
        link: u8,
        milliseconds: u32,
    },
    Health {
        link: u8,
    },
    Gauge {
        link: u8,
        gauge: Gauge,
    },
    Settings {
        settings: Box<Settings>,
    },
    Setup {
        due: Due,
        bytes: Vec<u8>,
    },
    Clc {
        bytes: Vec<u8>,
    },
    LinkSend {
        link: u8,
        fields: Fields,
        room: Option<usize>,
    },
    Links {
        active: [bool; LINKS],
    },
    Role {
        role: Role,
    },
    Exchange {
        exchange: Exchange,
    },
    Queue {
        queue: Box<Queue>,
    },
}

/// Why a line did not parse. The answer is `bad line` for each.
#[derive(Clone, Copy, Debug, PartialEq, Eq, PartialOrd, Ord)]
pub enum BadLine {
    Word,
    WordCount,
    Number,
    NumberRange,
    HexDigit,
    OddHex,
    LongHex,
    ByteCount,
    NotFinite,
    LeavesMemory,
}

impl BadLine {
    pub const ALL: [BadLine; 10] = [
        BadLine::Word,
        BadLine::WordCount,
        BadLine::Number,
        BadLine::NumberRange,
        BadLine::HexDigit,
        BadLine::OddHex,
        BadLine::LongHex,
        BadLine::ByteCount,
        BadLine::NotFinite,
        BadLine::LeavesMemory,
    ];

    pub fn name(self) -> &'static str {
        match self {
            BadLine::Word => "unknown word",
            BadLine::WordCount => "wrong count of words",
            BadLine::Number => "no number",
            BadLine::NumberRange => "number does not fit",
            BadLine::HexDigit => "bad hex digit",
            BadLine::OddHex => "odd count of hex digits",
            BadLine::LongHex => "over 70,000 bytes of hex",
            BadLine::ByteCount => "wrong count of bytes",
            BadLine::NotFinite => "a double that is not finite",
            BadLine::LeavesMemory => "poke or memory leaves LEN",
        }
    }
}

/// What a line answered.
#[derive(Clone, Debug, PartialEq)]
pub enum Answer {
    Bad,
    Refused(u8),
    RefusedRead(u8, Vec<u8>),
    Word(&'static str),
    Sent(Sent),
    Urgent(Sent),
    Gathered(Gathered),
    Read(ReadAnswer, Vec<u8>),
    Heard(Heard),
    Made(&'static str, Bytes44),
    /// A link change: the count, and the buffer after it, as in the next three.
    Link(usize, Vec<u8>),
    LinkMsg(LinkAnswer, Vec<u8>),
    LinkSent(LinkSent, Vec<u8>),
    RefusedLink(u8, Vec<u8>),
    Table,
    Memory {
        at: usize,
        count: usize,
    },
    Taken(u32),
    Books,
    Health(&'static str, Health),
    SetUp(SetUp),
    Clc(Result<Clc, NoMessage>),
}

impl Answer {
    /// The number of a refused call.
    pub fn refusal(&self) -> Option<u8> {
        match self {
            Answer::Refused(number)
            | Answer::RefusedRead(number, _)
            | Answer::RefusedLink(number, _) => Some(*number),
            _ => None,
        }
    }
}
