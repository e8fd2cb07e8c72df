//! Reading a line.

use super::{BadLine, Line, Replay, MAX_RECORDS};
use crate::clc::{Prefix, MAX_PREFIXES, PREFIX_BYTES};
use crate::gauge::Gauge;
use crate::links::{Exchange, Queue, Role, PLACES};
use crate::llc::{layout, Fields};
use crate::pool::Books;
use crate::setup::{Due, Settings};
use crate::smcr::*;

pub const MAX_HEX_BYTES: usize = 70_000;
pub const MAX_LENGTH: u64 = 1_048_704;
pub const MAX_ROOM: u64 = 65_600;
pub const MAX_COUNT: u64 = 65_600;
pub const MAX_MARKS: u64 = 511;

/// "Empty lines and lines whose first character is `#` are skipped."
pub fn skipped(line: &[u8]) -> bool {
    line.is_empty() || line[0] == b'#'
}

/// A number of decimal digits, leading zeros allowed, at most `most`.
fn number(word: &[u8], most: u64) -> Result<u64, BadLine> {
    if word.is_empty() || !word.iter().all(u8::is_ascii_digit) {
        return Err(BadLine::Number);
    }
    let mut value: u128 = 0;
    for digit in word {
        value = value * 10 + u128::from(digit - b'0');
        if value > u128::from(most) {
            return Err(BadLine::NumberRange);
        }
    }
    Ok(value as u64)
}

fn number64(word: &[u8]) -> Result<u64, BadLine> {
    number(word, u64::MAX)
}

fn number32(word: &[u8]) -> Result<u32, BadLine> {
    number(word, u64::from(u32::MAX)).map(|value| value as u32)
}

fn number16(word: &[u8]) -> Result<u16, BadLine> {
    number(word, u64::from(u16::MAX)).map(|value| value as u16)
}

fn number8(word: &[u8]) -> Result<u8, BadLine> {
    number(word, u64::from(u8::MAX)).map(|value| value as u8)
}

fn zero_or_one(word: &[u8]) -> Result<bool, BadLine> {
    number(word, 1).map(|value| value == 1)
}

fn hex_digit(digit: u8) -> Result<u8, BadLine> {
    match digit {
        b'0'..=b'9' => Ok(digit - b'0'),
        b'A'..=b'F' => Ok(digit - b'A' + 10),
        _ => Err(BadLine::HexDigit),
    }
}

/// Upper-case hexadecimal, two digits a byte; `-` stands for no bytes.
fn hex(word: &[u8]) -> Result<Vec<u8>, BadLine> {
    if word == b"-" {
        return Ok(Vec::new());
    }
    if word.is_empty() {
        return Err(BadLine::HexDigit);
    }
    if word.len() % 2 != 0 {
        return Err(BadLine::OddHex);
    }
    if word.len() / 2 > MAX_HEX_BYTES {
        return Err(BadLine::LongHex);
    }
    word.chunks_exact(2)
        .map(|pair| Ok(hex_digit(pair[0])? * 16 + hex_digit(pair[1])?))
        .collect()
}

/// Hex of just so many bytes.
fn hex_of<const COUNT: usize>(word: &[u8]) -> Result<[u8; COUNT], BadLine> {
    hex(word)?.try_into().map_err(|_| BadLine::ByteCount)
}

/// "A double is the 16 digits of its bits in HEX"; it must be finite.
fn double(word: &[u8]) -> Result<f64, BadLine> {
    let value = f64::from_be_bytes(hex_of(word)?);
    if value.is_finite() {
        Ok(value)
    } else {
        Err(BadLine::NotFinite)
    }
}

/// A link from 1 to 4.
fn gauged_link(word: &[u8]) -> Result<u8, BadLine> {
    match number8(word)? {
        link if link_in_range(link) => Ok(link),
        _ => Err(BadLine::NumberRange),
    }
}

/// The first words, and how many words a line may have, the first included.
pub const WORDS: &[(&str, &[usize])] = &[
    ("group", &[4, 5]),
    ("open", &[15]),
    ("free", &[2]),
    ("link", &[3, 4]),
    ("linkmsg", &[3, 4]),
    ("send", &[3]),
    ("urgent", &[3]),
    ("gather", &[4]),
    ("place", &[4]),
    ("read", &[3]),
    ("hear", &[2]),
    ("shutdown", &[2]),
    ("close", &[2]),
    ("abort", &[2]),
    ("record", &[31]),
    ("poke", &[3]),
    ("table", &[1]),
    ("memory", &[3]),
    ("pool", &[1]),
    ("take", &[2]),
    ("return", &[3]),
    ("books", &[1, 2]),
    ("sample", &[3]),
    ("health", &[2]),
    ("gauge", &[6]),
    ("settings", &[26]),
    ("setup", &[3]),
    ("clc", &[2]),
    ("linksend", &[3, 4]),
    ("links", &[5]),
    ("role", &[2]),
    ("exchange", &[4]),
    ("queue", &[10]),
];

fn word_counts(first: &[u8]) -> Option<&'static [usize]> {
    let found = WORDS.iter().find(|(word, _)| word.as_bytes() == first);
    found.map(|(_, counts)| *counts)
}

impl Replay {
    /// Parses a line that is not skipped. `poke` and `memory` must stay within the
    /// memory's present length, `record` within the table.
    pub fn parse(&self, line: &[u8]) -> Result<Line, BadLine> {
        let length = self.group.memory.len();
        let words: Vec<&[u8]> = line.splitn(40, |&byte| byte == b' ').collect();
        let counts = word_counts(words[0]).ok_or(BadLine::Word)?;
        if !counts.contains(&words.len()) {
            return Err(BadLine::WordCount);
        }
        Ok(match words[0] {
            b"group" => Line::Group {
                elements: number32(words[1])?,
                size: number32(words[2])?,
                length: number(words[3], MAX_LENGTH)? as usize,
                records: match words.get(4) {
                    Some(word) => Some(number(word, MAX_RECORDS as u64)? as usize),
                    None => None,
                },
            },
            b"open" => Line::Open {
                opening: parse_opening(&words)?,
            },
            b"free" => Line::Free {
                slot: number32(words[1])?,
            },
            b"link" => Line::Link {
                link: number8(words[1])?,
                up: zero_or_one(words[2])?,
                room: room(words.get(3))?,
            },
            b"linkmsg" => Line::LinkMsg {
                link: number8(words[1])?,
                bytes: hex(words[2])?,
                room: room(words.get(3))?,
            },
            b"send" => Line::Send {
                slot: number32(words[1])?,
                bytes: hex(words[2])?,
            },
            b"urgent" => Line::Urgent {
                slot: number32(words[1])?,
                bytes: hex(words[2])?,
            },
            b"gather" => Line::Gather {
                slot: number32(words[1])?,
                head: hex(words[2])?,
                body: hex(words[3])?,
            },
            b"place" => Line::Place {
                slot: number32(words[1])?,
                offset: number32(words[2])?,
                bytes: hex(words[3])?,
            },
            b"read" => Line::Read {
                slot: number32(words[1])?,
                room: number(words[2], MAX_ROOM)? as usize,
            },
            b"hear" => Line::Hear {
                bytes: hex(words[1])?,
            },
            b"shutdown" => Line::Shutdown {
                slot: number32(words[1])?,
            },
            b"close" => Line::Close {
                slot: number32(words[1])?,
            },
            b"abort" => Line::Abort {
                slot: number32(words[1])?,
            },
            b"record" => parse_record(&words, self.group.table.len())?,
            b"poke" => {
                let at = number(words[1], MAX_LENGTH)? as usize;
                let bytes = hex(words[2])?;
                if at + bytes.len() > length {
                    return Err(BadLine::LeavesMemory);
                }
                Line::Poke { at, bytes }
            }
            b"table" => Line::Table,
            b"memory" => {
                let at = number(words[1], MAX_LENGTH)? as usize;
                let count = number(words[2], MAX_COUNT)? as usize;
                if at + count > length {
                    return Err(BadLine::LeavesMemory);
                }
                Line::Memory { at, count }
            }
            b"pool" => Line::Pool,
            b"take" => Line::Take {
                units: number32(words[1])?,
            },
            b"return" => Line::Return {
                start: number32(words[1])?,
                units: number32(words[2])?,
            },
            b"sample" => Line::Sample {
                link: number8(words[1])?,
                milliseconds: number32(words[2])?,
            },
            b"health" => Line::Health {
                link: gauged_link(words[1])?,
            },
            b"settings" => Line::Settings {
                settings: Box::new(parse_settings(&words)?),
            },
            b"setup" => Line::Setup {
                due: due(words[1])?,
                bytes: hex(words[2])?,
            },
            b"clc" => Line::Clc {
                bytes: hex(words[1])?,
            },
            b"linksend" => Line::LinkSend {
                link: number8(words[1])?,
                fields: fields(words[2])?,
                room: room(words.get(3))?,
            },
            b"links" => {
                let mut active = [false; LINKS];
                for link in 0..LINKS {
                    active[link] = zero_or_one(words[1 + link])?;
                }
                Line::Links { active }
            }
            b"role" => Line::Role {
                role: role(words[1])?,
            },
            b"exchange" => Line::Exchange {
                exchange: Exchange {
                    stage: number(words[1], 11)? as u8,
                    v: number8(words[2])?,
                    w: number8(words[3])?,
                },
            },
            b"queue" => Line::Queue {
                queue: Box::new(queue(&words)?),
            },
            b"gauge" => Line::Gauge {
                link: gauged_link(words[1])?,
                gauge: Gauge {
                    mean: double(words[2])?,
                    worst: double(words[3])?,
                    count: number8(words[4])?,
                    late: zero_or_one(words[5])?,
                },
            },
            b"books" if words.len() == 1 => Line::BooksShown,
            b"books" => Line::Books {
                books: Books(hex_of(words[1])?),
            },
            _ => return Err(BadLine::Word),
        })
    }
}

/// "With a last word ROOM, 0 to 65,600, they lend ROOM bytes."
fn room(word: Option<&&[u8]>) -> Result<Option<usize>, BadLine> {
    match word {
        Some(word) => Ok(Some(number(word, MAX_ROOM)? as usize)),
        None => Ok(None),
    }
}

/// "`KK:V1,V2,..`: the kind in two hex digits, then all its values in row order,
/// decimal."
fn fields(word: &[u8]) -> Result<Fields, BadLine> {
    let colon = word.iter().position(|&byte| byte == b':');
    let colon = colon.ok_or(BadLine::Word)?;
    let [kind]: [u8; 1] = hex_of(&word[..colon])?;
    let rows = layout(kind).len();
    if rows == 0 {
        return Err(BadLine::Word);
    }
    let parts: Vec<&[u8]> = word[colon + 1..].split(|&byte| byte == b',').collect();
    if parts.len() != rows {
        return Err(BadLine::WordCount);
    }
    let values: Result<Vec<u64>, BadLine> = parts.into_iter().map(number64).collect();
    Ok(Fields {
        kind,
        values: values?,
    })
}

fn role(word: &[u8]) -> Result<Role, BadLine> {
    Role::ALL
        .into_iter()
        .find(|role| role.name().as_bytes() == word)
        .ok_or(BadLine::Word)
}

/// "M 44 bytes or `-` for 44 zeros."
fn queue(words: &[&[u8]]) -> Result<Queue, BadLine> {
    let mut queue = Queue {
        count: number8(words[1])?,
        ..Queue::EMPTY
    };
    for place in 0..PLACES {
        queue.places[place].link = number8(words[2 + 2 * place])?;
        let message = words[3 + 2 * place];
        if message != b"-" {
            queue.places[place].bytes = hex_of(message)?;
        }
    }
    Ok(queue)
}

fn due(word: &[u8]) -> Result<Due, BadLine> {
    Due::ALL
        .into_iter()
        .find(|due| due.name().as_bytes() == word)
        .ok_or(BadLine::Word)
}

/// "PREFIXES of 0 to 136 bytes, any number of them, zeros added behind."
fn prefixes(word: &[u8]) -> Result<[Prefix; MAX_PREFIXES], BadLine> {
    let mut bytes = hex(word)?;
    if bytes.len() > PREFIX_BYTES * MAX_PREFIXES {
        return Err(BadLine::ByteCount);
    }
    bytes.resize(PREFIX_BYTES * MAX_PREFIXES, 0);
    let mut prefixes = [Prefix::default(); MAX_PREFIXES];
    for (prefix, part) in prefixes.iter_mut().zip(bytes.chunks(PREFIX_BYTES)) {
        prefix.prefix.copy_from_slice(&part[..16]);
        prefix.length = part[16];
    }
    Ok(prefixes)
}

fn parse_settings(words: &[&[u8]]) -> Result<Settings, BadLine> {
    let (peer_keys, peer_bases) = keys_and_bases(&words[18..])?;
    Ok(Settings {
        size: number32(words[1])?,
        peer_id: hex_of(words[2])?,
        gid: hex_of(words[3])?,
        mac: hex_of(words[4])?,
        mask: hex_of(words[5])?,
        mask_length: number8(words[6])?,
        count: number8(words[7])?,
        prefixes: prefixes(words[8])?,
        first_contact: zero_or_one(words[9])?,
        qp: number32(words[10])?,
        mtu: number8(words[11])?,
        psn: number32(words[12])?,
        key: number32(words[13])?,
        base: number64(words[14])?,
        slot: number8(words[15])?,
        own_token: number32(words[16])?,
        link: number8(words[17])?,
        peer_keys,
        peer_bases,
    })
}

/// A key and a base for each link, from a word on.
fn keys_and_bases(words: &[&[u8]]) -> Result<([u32; LINKS], [u64; LINKS]), BadLine> {
    let mut keys = [0; LINKS];
    let mut bases = [0; LINKS];
    for link in 0..LINKS {
        keys[link] = number32(words[2 * link])?;
        bases[link] = number64(words[2 * link + 1])?;
    }
    Ok((keys, bases))
}

fn parse_opening(words: &[&[u8]]) -> Result<Opening, BadLine> {
    let (keys, bases) = keys_and_bases(&words[7..])?;
    Ok(Opening {
        slot: number32(words[1])?,
        own_token: number32(words[2])?,
        peer_token: number32(words[3])?,
        link: number8(words[4])?,
        peer_size: number32(words[5])?,
        index: number32(words[6])?,
        keys,
        bases,
    })
}

/// An urgent place: "`-` for none, or `offset:wrap`".
fn place(word: &[u8]) -> Result<Option<Cursor>, BadLine> {
    if word == b"-" {
        return Ok(None);
    }
    let colon = word.iter().position(|&byte| byte == b':');
    let colon = colon.ok_or(BadLine::Number)?;
    let (offset, wrap) = (&word[..colon], &word[colon + 1..]);
    Ok(Some(cursor(number32(offset)?, number16(wrap)?)))
}

fn parse_record(words: &[&[u8]], records: usize) -> Result<Line, BadLine> {
    let slot = number(words[1], records as u64)? as usize;
    if slot == 0 {
        return Err(BadLine::NumberRange);
    }
    let cursor_at = |at: usize| -> Result<Cursor, BadLine> {
        Ok(cursor(number32(words[at])?, number16(words[at + 1])?))
    };
    let (keys, bases) = keys_and_bases(&words[21..])?;
    let mut record = Connection {
        index: number8(words[20])?,
        keys,
        bases,
        open: zero_or_one(words[2])?,
        own_token: number32(words[3])?,
        peer_token: number32(words[4])?,
        link: number8(words[5])?,
        peer_size: number32(words[6])?,
        peer_producer: cursor_at(7)?,
        consumer: cursor_at(9)?,
        told: cursor_at(11)?,
        producer: cursor_at(13)?,
        peer_consumer: cursor_at(15)?,
        next_sequence: number16(words[17])?,
        heard_sequence: number16(words[18])?,
        urgent_sent: place(words[29])?,
        urgent_heard: place(words[30])?,
        ..Connection::default()
    };
    set_marks(&mut record, number(words[19], MAX_MARKS)? as u16);
    Ok(Line::Record { slot, record })
}

/// "MARKS [...] the sum of: 1 D sent, 2 C sent, 4 D heard, 8 C heard, 16 ours
/// first, 32 A sent, 64 B [...], 128 B in the last message heard, 256 R in the
/// last message heard."
pub fn set_marks(c: &mut Connection, marks: u16) {
    c.done_sent = marks & 1 != 0;
    c.closed_sent = marks & 2 != 0;
    c.done_heard = marks & 4 != 0;
    c.closed_heard = marks & 8 != 0;
    c.ours_first = marks & 16 != 0;
    c.abort_sent = marks & 32 != 0;
    c.blocked = marks & 64 != 0;
    c.peer_blocked = marks & 128 != 0;
    c.update_requested = marks & 256 != 0;
}

pub fn marks(c: &Connection) -> u16 {
    let mark = |on: bool, value: u16| if on { value } else { 0 };
    mark(c.done_sent, 1)
        + mark(c.closed_sent, 2)
        + mark(c.done_heard, 4)
        + mark(c.closed_heard, 8)
        + mark(c.ours_first, 16)
        + mark(c.abort_sent, 32)
        + mark(c.blocked, 64)
        + mark(c.peer_blocked, 128)
        + mark(c.update_requested, 256)
}
