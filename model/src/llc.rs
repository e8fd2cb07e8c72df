//! Link messages (Appendix A.3): what the first byte says, and the fields of the
//! eight named kinds, row by row as the rules page of 2026-01 lists them.

use crate::smcr::{Bytes44, LENGTH_BYTE, MESSAGE_BYTES};

/// What the first byte of a link message says.
#[derive(Clone, Copy, Debug, PartialEq, Eq)]
pub enum LlcClass {
    Named,
    Cdc,
    Optional,
    Unknown,
}

/// "01 to 04 and 06 to 09 named, FE cursor message, 80 to BF (high bits 10)
/// optional, all else unknown."
pub fn llc_class(first_byte: u8) -> LlcClass {
    match first_byte {
        0x01..=0x04 | 0x06..=0x09 => LlcClass::Named,
        0xFE => LlcClass::Cdc,
        0x80..=0xBF => LlcClass::Optional,
        _ => LlcClass::Unknown,
    }
}

pub const CONFIRM_LINK: u8 = 0x01;
pub const ADD_LINK: u8 = 0x02;
pub const ADD_LINK_CONTINUATION: u8 = 0x03;
pub const DELETE_LINK: u8 = 0x04;
pub const CONFIRM_RKEY: u8 = 0x06;
pub const TEST_LINK: u8 = 0x07;
pub const CONFIRM_RKEY_CONTINUATION: u8 = 0x08;
pub const DELETE_RKEY: u8 = 0x09;

pub const KINDS: [u8; 8] = [
    CONFIRM_LINK,
    ADD_LINK,
    ADD_LINK_CONTINUATION,
    DELETE_LINK,
    CONFIRM_RKEY,
    TEST_LINK,
    CONFIRM_RKEY_CONTINUATION,
    DELETE_RKEY,
];

/// The reply bit, in byte 3.
pub const LLC_REPLY: u8 = 0x80;

/// "The field is (the big-endian number of those bytes / 2^low) mod 2^bits."
#[derive(Clone, Copy, Debug, PartialEq, Eq)]
pub struct Row {
    pub name: &'static str,
    pub first: usize,
    pub bytes: usize,
    pub low: u32,
    pub bits: u32,
}

impl Row {
    /// The largest value that the row can hold.
    pub fn most(&self) -> u64 {
        u64::MAX >> (64 - self.bits)
    }
}

/// Whole bytes: `f 26:3`.
const fn whole(name: &'static str, first: usize, bytes: usize) -> Row {
    Row {
        name,
        first,
        bytes,
        low: 0,
        bits: 8 * bytes as u32,
    }
}

/// Some bits of one byte: `f 3.7` is one, `f 30.0:4` are four.
const fn within(name: &'static str, byte: usize, low: u32, bits: u32) -> Row {
    Row {
        name,
        first: byte,
        bytes: 1,
        low,
        bits,
    }
}

const REPLY: Row = within("R", 3, 7, 1);

/// The rows of each kind, in their order.
pub const LAYOUTS: [(u8, &[Row]); 8] = [
    (
        CONFIRM_LINK,
        &[
            REPLY,
            whole("mac", 4, 6),
            whole("gid1", 10, 8),
            whole("gid2", 18, 8),
            whole("qp", 26, 3),
            whole("link", 29, 1),
            whole("user", 30, 4),
            whole("max", 34, 1),
        ],
    ),
    (
        ADD_LINK,
        &[
            REPLY,
            within("Z", 3, 6, 1),
            within("reason", 2, 0, 4),
            whole("mac", 4, 6),
            whole("gid1", 10, 8),
            whole("gid2", 18, 8),
            whole("qp", 26, 3),
            whole("link", 29, 1),
            within("mtu", 30, 0, 4),
            whole("psn", 31, 3),
        ],
    ),
    (
        ADD_LINK_CONTINUATION,
        &[
            REPLY,
            whole("link", 4, 1),
            whole("num", 5, 1),
            whole("ref1", 8, 4),
            whole("key1", 12, 4),
            whole("addr1", 16, 8),
            whole("ref2", 24, 4),
            whole("key2", 28, 4),
            whole("addr2", 32, 8),
        ],
    ),
    (
        DELETE_LINK,
        &[
            REPLY,
            within("A", 3, 6, 1),
            within("O", 3, 5, 1),
            whole("link", 4, 1),
            whole("reason", 5, 4),
        ],
    ),
    (
        CONFIRM_RKEY,
        &[
            REPLY,
            within("Z", 3, 5, 1),
            within("C", 3, 4, 1),
            whole("num", 4, 1),
            whole("key", 5, 4),
            whole("addr", 9, 8),
            whole("link1", 17, 1),
            whole("key1", 18, 4),
            whole("addr1", 22, 8),
            whole("link2", 30, 1),
            whole("key2", 31, 4),
            whole("addr2", 35, 8),
        ],
    ),
    (
        TEST_LINK,
        &[REPLY, whole("user1", 4, 8), whole("user2", 12, 8)],
    ),
    (
        CONFIRM_RKEY_CONTINUATION,
        &[
            REPLY,
            within("Z", 3, 5, 1),
            whole("num", 4, 1),
            whole("link1", 5, 1),
            whole("key1", 6, 4),
            whole("addr1", 10, 8),
            whole("link2", 18, 1),
            whole("key2", 19, 4),
            whole("addr2", 23, 8),
            whole("link3", 31, 1),
            whole("key3", 32, 4),
            whole("addr3", 36, 8),
        ],
    ),
    (
        DELETE_RKEY,
        &[
            REPLY,
            within("Z", 3, 5, 1),
            whole("count", 4, 1),
            whole("mask", 5, 1),
            whole("key1", 8, 4),
            whole("key2", 12, 4),
            whole("key3", 16, 4),
            whole("key4", 20, 4),
            whole("key5", 24, 4),
            whole("key6", 28, 4),
            whole("key7", 32, 4),
            whole("key8", 36, 4),
        ],
    ),
];

/// The rows of a kind; none of another one.
pub fn layout(kind: u8) -> &'static [Row] {
    let found = LAYOUTS.iter().find(|(of, _)| *of == kind);
    found.map_or(&[], |(_, rows)| rows)
}

/// "A message's fields are its kind and its values in row order."
#[derive(Clone, Debug, PartialEq, Eq)]
pub struct Fields {
    pub kind: u8,
    pub values: Vec<u64>,
}

impl Fields {
    /// A kind with all its values zero.
    pub fn zero(kind: u8) -> Fields {
        Fields {
            kind,
            values: vec![0; layout(kind).len()],
        }
    }

    /// "Values are first reduced to their rows' bits; missing ones are 0, surplus
    /// ones ignored."
    pub fn reduced(&self) -> Fields {
        let value = |place: usize| self.values.get(place).copied().unwrap_or(0);
        let rows = layout(self.kind).iter().enumerate();
        Fields {
            kind: self.kind,
            values: rows.map(|(place, row)| value(place) & row.most()).collect(),
        }
    }

    fn place(&self, name: &str) -> Option<usize> {
        layout(self.kind).iter().position(|row| row.name == name)
    }

    /// A field by its name, 0 where the kind has no such row.
    pub fn get(&self, name: &str) -> u64 {
        self.place(name)
            .and_then(|place| self.values.get(place).copied())
            .unwrap_or(0)
    }

    /// The same fields with one of them set; where the kind has no such row,
    /// nothing is set.
    pub fn with(mut self, name: &str, value: u64) -> Fields {
        if let Some(place) = self.place(name) {
            self.values[place] = value;
        }
        self
    }

    pub fn is_reply(&self) -> bool {
        self.get("R") == 1
    }

    /// "R 0 a request, R 1 a reply."
    pub fn is_request_of(&self, kind: u8) -> bool {
        self.kind == kind && !self.is_reply()
    }

    pub fn is_reply_of(&self, kind: u8) -> bool {
        self.kind == kind && self.is_reply()
    }

    /// Bits that no row names are not looked at. `None` if byte 0 is no named
    /// kind.
    pub fn read(bytes: &Bytes44) -> Option<Fields> {
        let kind = bytes[0];
        if llc_class(kind) != LlcClass::Named {
            return None;
        }
        let value = |row: &Row| {
            let part = &bytes[row.first..row.first + row.bytes];
            let number = part
                .iter()
                .fold(0u64, |number, &byte| number << 8 | u64::from(byte));
            number >> row.low & row.most()
        };
        Some(Fields {
            kind,
            values: layout(kind).iter().map(value).collect(),
        })
    }

    /// "Byte 0 is the kind, byte 1 is 2C. [...] Bits that no row names are
    /// reserved: written zero."
    pub fn write(&self) -> Bytes44 {
        let mut bytes = [0; MESSAGE_BYTES];
        bytes[0] = self.kind;
        bytes[1] = LENGTH_BYTE;
        for (row, value) in layout(self.kind).iter().zip(self.reduced().values) {
            let number = (value << row.low).to_be_bytes();
            for (place, byte) in number[8 - row.bytes..].iter().enumerate() {
                bytes[row.first + place] |= byte;
            }
        }
        bytes
    }
}
