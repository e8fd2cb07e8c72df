//! The replay format: one call to a line in, its answer out.
//!
//! `parse` reads a line, `print_line` writes one, `execute` makes the call and
//! `print_answer` writes what it answered.

mod line;
mod parse;
mod print;

pub use line::{Answer, BadLine, Line};
pub use parse::{marks, set_marks, skipped, WORDS};
pub use print::{print_line, push_hex};

use crate::clc::Clc;
use crate::pool::Books;
use crate::setup::{set_up, Settings};
use crate::smcr::*;
use std::io::{self, BufRead, Write};

/// Every byte of an out buffer before a read, and of the three link calls' buffer.
pub const OUT_FILL: u8 = 0xA5;

/// The most records that a table is lent with.
pub const MAX_RECORDS: usize = 300;

/// "`group S N LEN` lends a table of S records (of 300 where S is above 300)."
pub fn usual_records(elements: u32) -> usize {
    (elements as usize).min(MAX_RECORDS)
}

/// "`link`, `linkmsg` and `linksend` lend 44 x S bytes of buffer (S above 300 as
/// 300); with a last word ROOM [...] they lend ROOM bytes."
pub fn lent_bytes(elements: u32, room: Option<usize>) -> usize {
    room.unwrap_or(MESSAGE_BYTES * usual_records(elements))
}

/// "Every byte is A5 before the call."
fn lent_buffer(group: &Group, room: Option<usize>) -> Vec<u8> {
    vec![OUT_FILL; lent_bytes(group.elements, room)]
}

/// What the lines work on: a group, and beside it what `group` leaves alone.
#[derive(Clone, Debug, PartialEq)]
pub struct Replay {
    pub group: Group,
    pub pool: Books,
    pub settings: Settings,
}

impl Default for Replay {
    fn default() -> Replay {
        Replay::new()
    }
}

impl Replay {
    /// "Before the first `group` line the group is `group 1 8 8`." At the start all
    /// units of the pool are free and all settings are zero.
    pub fn new() -> Replay {
        Replay {
            group: Group::fresh(1, 8, 8, 1),
            pool: Books::free(),
            settings: Settings::default(),
        }
    }

    /// Makes the call that a line names.
    pub fn execute(&mut self, line: &Line) -> Answer {
        let group = &mut self.group;
        match line {
            Line::Group {
                elements,
                size,
                length,
                records,
            } => {
                let records = records.unwrap_or(usual_records(*elements));
                *group = Group::fresh(*elements, *size, *length, records);
                Answer::Word("group")
            }
            Line::Open { opening } => done("open", group.open(opening)),
            Line::Free { slot } => done("free", group.free(*slot)),
            Line::Link { link, up, room } => {
                let mut buffer = lent_buffer(group, *room);
                match group.link_change(*link, *up, &mut buffer) {
                    Ok(count) => Answer::Link(count, buffer),
                    Err(number) => Answer::RefusedLink(number, buffer),
                }
            }
            Line::LinkMsg { link, bytes, room } => {
                let mut buffer = lent_buffer(group, *room);
                match group.link_message(*link, bytes, &mut buffer) {
                    Ok(answer) => Answer::LinkMsg(answer, buffer),
                    Err(number) => Answer::RefusedLink(number, buffer),
                }
            }
            Line::Send { slot, bytes } => answered(group.send(*slot, bytes), Answer::Sent),
            Line::Urgent { slot, bytes } => answered(group.urgent(*slot, bytes), Answer::Urgent),
            Line::Gather { slot, head, body } => {
                answered(group.gather(*slot, head, body), Answer::Gathered)
            }
            Line::Place {
                slot,
                offset,
                bytes,
            } => done("place", group.place(*slot, *offset, bytes)),
            Line::Read { slot, room } => {
                let mut out = vec![OUT_FILL; *room];
                match group.read(*slot, &mut out) {
                    Ok(answer) => Answer::Read(answer, out),
                    Err(number) => Answer::RefusedRead(number, out),
                }
            }
            Line::Hear { bytes } => answered(group.hear(bytes), Answer::Heard),
            Line::Shutdown { slot } => made("shutdown", group.shutdown(*slot)),
            Line::Close { slot } => answered(group.close(*slot), |answer| match answer {
                CloseAnswer::Closed(message) => Answer::Made("close", message),
                CloseAnswer::Reset(message) => Answer::Made("reset", message),
            }),
            Line::Abort { slot } => made("abort", group.abort(*slot)),
            Line::Record { slot, record } => {
                group.table[slot - 1] = *record;
                Answer::Word("record")
            }
            Line::Poke { at, bytes } => {
                group.memory[*at..at + bytes.len()].copy_from_slice(bytes);
                Answer::Word("poke")
            }
            Line::Table => Answer::Table,
            Line::Memory { at, count } => Answer::Memory {
                at: *at,
                count: *count,
            },
            Line::Pool => {
                self.pool = Books::free();
                Answer::Word("pool")
            }
            Line::Take { units } => answered(self.pool.take(*units), Answer::Taken),
            Line::Return { start, units } => done("return", self.pool.give_back(*start, *units)),
            Line::Books { books } => {
                self.pool = *books;
                Answer::Word("books")
            }
            Line::BooksShown => Answer::Books,
            Line::Sample { link, milliseconds } => {
                let health = group.sample(*link, *milliseconds);
                answered(health, |health| Answer::Health("sample", health))
            }
            Line::Health { link } => {
                Answer::Health("health", group.gauges[usize::from(*link) - 1].health())
            }
            Line::Settings { settings } => {
                self.settings = **settings;
                Answer::Word("settings")
            }
            Line::Setup { due, bytes } => {
                answered(set_up(&self.settings, *due, bytes), Answer::SetUp)
            }
            Line::Clc { bytes } => Answer::Clc(Clc::read(bytes)),
            Line::LinkSend { link, fields, room } => {
                let mut buffer = lent_buffer(group, *room);
                match group.link_send(*link, fields, &mut buffer) {
                    Ok(sent) => Answer::LinkSent(sent, buffer),
                    Err(number) => Answer::RefusedLink(number, buffer),
                }
            }
            Line::Links { active } => {
                group.links = *active;
                Answer::Word("links")
            }
            Line::Role { role } => {
                group.role = *role;
                Answer::Word("role")
            }
            Line::Exchange { exchange } => {
                group.exchange = *exchange;
                Answer::Word("exchange")
            }
            Line::Queue { queue } => {
                group.queue = **queue;
                Answer::Word("queue")
            }
            Line::Gauge { link, gauge } => {
                group.gauges[usize::from(*link) - 1] = *gauge;
                Answer::Word("gauge")
            }
        }
    }

    /// Answers one line, which may be skipped or bad; the text of the answer
    /// goes to `out`.
    pub fn answer_line(&mut self, line: &[u8], out: &mut Vec<u8>) {
        if skipped(line) {
            return;
        }
        let answer = match self.parse(line) {
            Ok(call) => self.execute(&call),
            Err(_) => Answer::Bad,
        };
        self.print_answer(out, &answer);
    }
}

fn answered<T>(answer: Result<T, u8>, then: impl FnOnce(T) -> Answer) -> Answer {
    match answer {
        Ok(value) => then(value),
        Err(number) => Answer::Refused(number),
    }
}

fn done(word: &'static str, answer: Result<(), u8>) -> Answer {
    answered(answer, |()| Answer::Word(word))
}

fn made(word: &'static str, answer: Result<Bytes44, u8>) -> Answer {
    answered(answer, |message| Answer::Made(word, message))
}

/// The lines of a whole input: parted by `\n`, a last line without it counts.
pub fn lines(input: &[u8]) -> Vec<&[u8]> {
    let mut all: Vec<&[u8]> = input.split(|&byte| byte == b'\n').collect();
    if all.last().is_some_and(|last| last.is_empty()) {
        all.pop();
    }
    all
}

/// Answers a whole input.
pub fn answer_all(input: &[u8]) -> Vec<u8> {
    let mut replay = Replay::new();
    let mut out = Vec::new();
    for line in lines(input) {
        replay.answer_line(line, &mut out);
    }
    out
}

/// `model run`: answers standard input line by line.
pub fn run(mut input: impl BufRead, mut output: impl Write) -> io::Result<()> {
    let mut replay = Replay::new();
    let mut line = Vec::new();
    let mut out = Vec::new();
    loop {
        line.clear();
        if input.read_until(b'\n', &mut line)? == 0 {
            break;
        }
        if line.last() == Some(&b'\n') {
            line.pop();
        }
        out.clear();
        replay.answer_line(&line, &mut out);
        output.write_all(&out)?;
    }
    output.flush()
}
