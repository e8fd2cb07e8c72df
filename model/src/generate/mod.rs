//! Lists of calls, made from a seed.

pub mod exhaust;
pub mod failover;
pub mod gauges;
pub mod hostile;
pub mod links;
pub mod orders;
pub mod pool;
pub mod setup;
pub mod traffic;

use crate::gauge::Gauge;
use crate::pool::Books;
use crate::replay::{print_line, Answer, Line, Replay};
use crate::smcr::*;

/// A list under construction. Every line is also run by the list itself, so
/// that later lines can be built from earlier answers.
pub struct List {
    pub text: Vec<u8>,
    pub replay: Replay,
    pub count: usize,
    /// The F messages that calls on links made; who carries them takes them out.
    pub told: Vec<Bytes44>,
}

impl Default for List {
    fn default() -> List {
        List::new()
    }
}

impl List {
    pub fn new() -> List {
        List {
            text: Vec::new(),
            replay: Replay::new(),
            count: 0,
            told: Vec::new(),
        }
    }

    pub fn add(&mut self, line: Line) -> Answer {
        print_line(&mut self.text, &line);
        self.text.push(b'\n');
        self.count += 1;
        let answer = self.replay.execute(&line);
        self.told.extend(told_in(&answer));
        answer
    }

    /// A line as it stands, which may be bad.
    pub fn raw(&mut self, line: &[u8]) {
        self.text.extend_from_slice(line);
        self.text.push(b'\n');
        self.count += 1;
        if let Ok(call) = self.replay.parse(line) {
            self.replay.execute(&call);
        }
    }

    pub fn comment(&mut self, text: &str) {
        self.text.extend_from_slice(b"# ");
        self.text.extend_from_slice(text.as_bytes());
        self.text.push(b'\n');
    }

    pub fn group(&mut self, elements: u32, size: u32) {
        self.group_of(elements, size, elements as usize * size as usize);
    }

    pub fn group_of(&mut self, elements: u32, size: u32, length: usize) {
        self.add(Line::Group {
            elements,
            size,
            length,
            records: None,
        });
    }

    /// A group whose table has so many records.
    pub fn group_with_table(&mut self, elements: u32, size: u32, length: usize, records: usize) {
        self.add(Line::Group {
            elements,
            size,
            length,
            records: Some(records),
        });
    }

    pub fn all_links_up(&mut self) {
        for link in 1..=4 {
            self.link(link, true);
        }
    }

    /// Lays the four states in, which is no call.
    pub fn lay_links(&mut self, active: [bool; LINKS]) {
        self.add(Line::Links { active });
    }

    pub fn link(&mut self, link: u8, up: bool) -> Answer {
        self.add(Line::Link {
            link,
            up,
            room: None,
        })
    }

    pub fn link_message(&mut self, link: u8, bytes: Vec<u8>) -> Answer {
        self.add(Line::LinkMsg {
            link,
            bytes,
            room: None,
        })
    }

    /// An open of an element at base 0, where an address is the offset.
    pub fn open(&mut self, slot: u32, own: u32, peer: u32, link: u8, size: u32) -> Answer {
        self.opening(Opening::at_base_0(slot, own, peer, link, size))
    }

    pub fn opening(&mut self, opening: Opening) -> Answer {
        self.add(Line::Open { opening })
    }

    pub fn free(&mut self, slot: u32) -> Answer {
        self.add(Line::Free { slot })
    }

    pub fn send(&mut self, slot: u32, bytes: Vec<u8>) -> Answer {
        self.add(Line::Send { slot, bytes })
    }

    pub fn urgent(&mut self, slot: u32, bytes: Vec<u8>) -> Answer {
        self.add(Line::Urgent { slot, bytes })
    }

    pub fn gather(&mut self, slot: u32, head: Vec<u8>, body: Vec<u8>) -> Answer {
        self.add(Line::Gather { slot, head, body })
    }

    pub fn place(&mut self, slot: u32, offset: u32, bytes: Vec<u8>) -> Answer {
        self.add(Line::Place {
            slot,
            offset,
            bytes,
        })
    }

    pub fn read(&mut self, slot: u32, room: usize) -> Answer {
        self.add(Line::Read { slot, room })
    }

    pub fn hear(&mut self, bytes: Vec<u8>) -> Answer {
        self.add(Line::Hear { bytes })
    }

    pub fn shutdown(&mut self, slot: u32) -> Answer {
        self.add(Line::Shutdown { slot })
    }

    pub fn close(&mut self, slot: u32) -> Answer {
        self.add(Line::Close { slot })
    }

    pub fn abort(&mut self, slot: u32) -> Answer {
        self.add(Line::Abort { slot })
    }

    pub fn record(&mut self, slot: usize, record: Connection) {
        self.add(Line::Record { slot, record });
    }

    pub fn poke(&mut self, at: usize, bytes: Vec<u8>) {
        self.add(Line::Poke { at, bytes });
    }

    pub fn table(&mut self) {
        self.add(Line::Table);
    }

    pub fn memory(&mut self, at: usize, count: usize) {
        self.add(Line::Memory { at, count });
    }

    pub fn sample(&mut self, link: u8, milliseconds: u32) -> Answer {
        self.add(Line::Sample { link, milliseconds })
    }

    pub fn gauge(&mut self, link: u8, gauge: Gauge) {
        self.add(Line::Gauge { link, gauge });
    }

    pub fn take(&mut self, units: u32) -> Answer {
        self.add(Line::Take { units })
    }

    pub fn give_back(&mut self, start: u32, units: u32) -> Answer {
        self.add(Line::Return { start, units })
    }

    pub fn lay_books(&mut self, books: Books) {
        self.add(Line::Books { books });
    }

    /// The whole memory, in pieces that the format allows.
    pub fn whole_memory(&mut self) {
        let length = self.replay.group.memory.len();
        let mut at = 0;
        while at < length {
            let count = (length - at).min(65_600);
            self.memory(at, count);
            at += count;
        }
    }
}

/// The offset in the peer's element of an address that a connection writes to.
pub fn offset_of(c: &Connection, at: u64) -> u32 {
    at.wrapping_sub(address(c, 0)) as u32
}

/// What the answer to a send lets the card write: addresses and bytes.
pub fn writes_of(answer: &Answer, offered: &[u8]) -> Vec<(u64, Vec<u8>)> {
    match answer {
        Answer::Sent(sent) | Answer::Urgent(sent) => sent
            .placings
            .iter()
            .map(|placing| {
                let start = placing.start as usize;
                let end = start + placing.length as usize;
                (placing.address, offered[start..end].to_vec())
            })
            .collect(),
        Answer::Gathered(gathered) => gathered
            .pieces
            .iter()
            .filter(|piece| !piece.bytes.is_empty())
            .map(|piece| (piece.address, piece.bytes.clone()))
            .collect(),
        _ => Vec::new(),
    }
}

/// The F messages that a call on a link counts, in slot order.
pub fn told_in(answer: &Answer) -> Vec<Bytes44> {
    let (count, buffer) = match answer {
        Answer::Link(count, buffer) => (*count, buffer),
        Answer::LinkMsg(answer, buffer) => (answer.count, buffer),
        Answer::LinkSent(sent, buffer) => (sent.count, buffer),
        _ => return Vec::new(),
    };
    let messages = buffer.chunks_exact(MESSAGE_BYTES).take(count);
    messages
        .map(|bytes| {
            let mut message = [0; MESSAGE_BYTES];
            message.copy_from_slice(bytes);
            message
        })
        .collect()
}

/// The message that an answer carries, if any.
pub fn message_of(answer: &Answer) -> Option<Bytes44> {
    match answer {
        Answer::Sent(sent) | Answer::Urgent(sent) => sent.message,
        Answer::Gathered(gathered) => gathered.message,
        Answer::Read(ReadAnswer::Read { message, .. }, _) => *message,
        Answer::Read(ReadAnswer::Torn { message }, _) => Some(*message),
        Answer::Heard(heard) => heard.message,
        Answer::Made(_, message) => Some(*message),
        _ => None,
    }
}
