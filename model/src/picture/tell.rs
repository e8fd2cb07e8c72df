//! The words of each line: what was called, and below it what came of it.

use std::collections::BTreeSet;

use super::{side_of, Said, What};
use crate::cast::{element_of, heard_at, Ends};
use crate::clc::Clc;
use crate::failover::{failover_message, tells};
use crate::gauge::{Gauge, Health};
use crate::generate::message_of;
use crate::links::{Exchange, Fate, Role, TakenUp};
use crate::llc::{layout, Fields};
use crate::pool::Books;
use crate::replay::{push_hex, Answer, BadLine, Line, Replay};
use crate::setup::{Due, SetUp, Settings};
use crate::smcr::*;
use crate::walk::Before;
use crate::words::{counted, kind_name, listed, refusal_words};

/// The most bytes of a call that are quoted.
const QUOTED: usize = 24;
/// What stands behind those that are, where there are more.
pub const NOT_QUOTED: &str = " \u{2026} and more";

/// A line that does not parse.
pub fn bad(line: &[u8], reason: BadLine) -> What {
    let text: String = String::from_utf8_lossy(line).chars().take(60).collect();
    middle(Said {
        text: format!("bad line: {}", reason.name()),
        below: format!("\u{201c}{text}\u{201d}, no call is made"),
        refused: true,
    })
}

/// What a call shows.
pub fn tell(
    line: &Line,
    answer: &Answer,
    ends: Ends,
    before: &Before,
    after: &Replay,
    moved: &BTreeSet<usize>,
) -> What {
    let teller = Teller {
        line,
        answer,
        ends,
        before,
        after,
        moved,
    };
    match line {
        Line::Link { .. } | Line::LinkMsg { .. } | Line::LinkSend { .. } => teller.on_links(),
        _ => teller.what(),
    }
}

struct Teller<'a> {
    line: &'a Line,
    answer: &'a Answer,
    ends: Ends,
    before: &'a Before,
    after: &'a Replay,
    moved: &'a BTreeSet<usize>,
}

impl Teller<'_> {
    /// The number of a refusal and what the list says of it.
    fn refusal(&self) -> Option<String> {
        let number = self.answer.refusal()?;
        let words = refusal_words(self.line, number);
        Some(format!("refused {number}: {words}"))
    }

    fn said(&self, text: String, below: String) -> Said {
        let refusal = self.refusal();
        Said {
            text,
            refused: refusal.is_some(),
            below: refusal.unwrap_or(below),
        }
    }

    /// A call on a slot: at its end, or in the middle where the table has no such slot.
    fn at(&self, slot: u32, text: String, below: String) -> What {
        match side_of(self.ends, slot) {
            Some(side) => What::Call {
                side,
                said: self.said(text, below),
            },
            None => middle(self.said(format!("slot {slot}: {text}"), below)),
        }
    }

    fn desk(&self, text: String, below: String) -> What {
        middle(self.said(text, below))
    }

    fn on_pool(&self, text: String, below: String) -> What {
        What::Middle {
            said: self.said(text, below),
            pool: Some(self.after.pool),
        }
    }

    /// The message that was made. Who has it is not in the list where the peer is not.
    fn makes(&self) -> String {
        match message_of(self.answer).and_then(|bytes| Message::read(&bytes)) {
            None => String::new(),
            Some(message) if self.ends[0].is_none() => format!("makes {}", label(&message)),
            Some(message) => format!("makes message {}{}", message.sequence, flags(&message)),
        }
    }

    /// By which link and key a connection that moved writes.
    fn goes_by(&self, slot: u32, key: Option<u32>) -> String {
        let index = slot.wrapping_sub(1) as usize;
        match (self.after.group.table.get(index), key) {
            (Some(c), Some(key)) if self.moved.contains(&index) => {
                format!("by link {}, key {key}", c.link)
            }
            _ => String::new(),
        }
    }

    fn sending(&self, slot: u32, word: &str, offered: &str, bytes: &[u8]) -> What {
        let (taken, key, pieces) = match self.answer {
            Answer::Sent(sent) | Answer::Urgent(sent) => {
                let key = sent.placings.first().map(|placing| placing.key);
                (Some(sent.taken), key, String::new())
            }
            Answer::Gathered(gathered) => {
                let key = gathered.pieces.first().map(|piece| piece.key);
                // The last is the empty one.
                let pieces = counted(gathered.pieces.len() - 1, "piece");
                (Some(gathered.taken), key, format!("in {pieces}"))
            }
            _ => (None, None, String::new()),
        };
        let taken = taken.map_or(String::new(), |taken| format!(", {taken} taken"));
        let text = format!("{word} {offered}{taken}{}", quoted(bytes));
        let by = self.goes_by(slot, key);
        let held = match self.before.table.get(slot.wrapping_sub(1) as usize) {
            Some(c) if !bytes.is_empty() && c.urgent_sent.is_some() => {
                "nothing is sent before the urgent bytes are read"
            }
            _ => "",
        };
        self.at(
            slot,
            text,
            joined(&[&pieces, &by, &self.makes(), held], ", "),
        )
    }

    /// A call that may close its slot.
    fn ending(&self, slot: u32, text: &str) -> What {
        let index = slot.wrapping_sub(1) as usize;
        let open = |table: &[Connection]| table.get(index).is_some_and(|c| c.open);
        let closed = open(&self.before.table) && !open(&self.after.group.table);
        let closed = if closed { "slot closed" } else { "" };
        let below = joined(&[&self.makes(), closed], ", ");
        self.at(slot, text.to_string(), below)
    }

    fn what(&self) -> What {
        let group = &self.after.group;
        let none = String::new;
        match (self.line, self.answer) {
            (
                Line::Group {
                    elements,
                    size,
                    length,
                    records,
                },
                _,
            ) => {
                let elements_text = match elements {
                    1 => "one element".to_string(),
                    _ => format!("{elements} elements"),
                };
                let whole = u64::from(*elements) * u64::from(*size);
                let memory = if whole == *length as u64 {
                    none()
                } else {
                    format!("{length} bytes of memory")
                };
                let table = match records {
                    Some(count) => format!("a table of {}", counted(*count, "record")),
                    None if *elements as usize != group.table.len() => {
                        format!("a table of {} records", group.table.len())
                    }
                    None => none(),
                };
                let text = format!("a fresh group: {elements_text} of {size} bytes");
                self.desk(text, joined(&[&memory, &table], ", "))
            }
            (Line::Open { opening }, _) => self.at(
                opening.slot,
                format!(
                    "open: own token {}, peer token {}",
                    opening.own_token, opening.peer_token
                ),
                "the element is zeroed, its eye catcher written".to_string(),
            ),
            (Line::Send { slot, bytes }, _) => {
                self.sending(*slot, "send", &counted(bytes.len(), "byte"), bytes)
            }
            (Line::Urgent { slot, bytes }, _) => {
                self.sending(*slot, "urgent send", &counted(bytes.len(), "byte"), bytes)
            }
            (Line::Gather { slot, head, body }, _) => {
                let offered = format!("{} + {} bytes", head.len(), body.len());
                let both: Vec<u8> = head.iter().chain(body).copied().collect();
                self.sending(*slot, "gather", &offered, &both)
            }
            (
                Line::Place {
                    slot,
                    offset,
                    bytes,
                },
                _,
            ) => {
                let last = i64::from(*offset) + bytes.len() as i64 - 1;
                let text = match bytes.len() {
                    0 => format!("RDMA write of no bytes to {offset}"),
                    _ => format!("RDMA write to {offset}..{last}{}", quoted(bytes)),
                };
                match side_of(self.ends, *slot) {
                    Some(to) => What::Arrow {
                        to,
                        said: self.said(text, none()),
                        message: false,
                    },
                    None => self.desk(format!("slot {slot}: {text}"), none()),
                }
            }
            (Line::Read { slot, room }, Answer::Read(ReadAnswer::Read { taken, .. }, out)) => {
                let handed = &out[..*taken as usize];
                let text = format!(
                    "read into {room}: {}{}",
                    counted(handed.len(), "byte"),
                    quoted(handed)
                );
                self.at(*slot, text, self.makes())
            }
            (Line::Read { slot, room }, Answer::Read(ReadAnswer::Torn { .. }, _)) => {
                let text = format!("read into {room}: torn");
                let torn = "the eye catcher is damaged";
                self.at(*slot, text, joined(&[torn, &self.makes()], ", "))
            }
            (Line::Read { slot, room }, _) => self.at(*slot, format!("read into {room}"), none()),
            (Line::Hear { bytes }, _) => self.hearing(bytes),
            (Line::Free { slot }, _) => self.ending(*slot, "free"),
            (Line::Shutdown { slot }, _) => self.ending(*slot, "shutdown"),
            (Line::Close { slot }, Answer::Made("reset", _)) => {
                self.ending(*slot, "close: reset, bytes are unread")
            }
            (Line::Close { slot }, _) => self.ending(*slot, "close"),
            (Line::Abort { slot }, _) => self.ending(*slot, "abort"),
            (Line::Record { slot, record }, _) => {
                let state = if record.open { "open" } else { "closed" };
                let text = format!("record laid: {state}, link {}", record.link);
                let below = match (record.open, group.table.get(slot - 1)) {
                    (true, Some(c)) if !coherent(c, group.n()) => "it is not coherent",
                    _ => "",
                };
                self.at(*slot as u32, text, below.to_string())
            }
            (Line::Poke { at, bytes }, _) => {
                let count = counted(bytes.len(), "byte");
                let laid = format!("{count} laid from {at} on{}", quoted(bytes));
                match element_of(group, *at, bytes.len()) {
                    Some(index) => self.at(index as u32 + 1, format!("poke: {laid}"), none()),
                    None => self.desk(format!("poke: {laid}"), none()),
                }
            }
            (Line::Memory { at, count }, _) => {
                let index = element_of(group, *at, *count);
                let text = format!("memory, {} from {at} on", counted(*count, "byte"));
                What::Bytes {
                    side: index.and_then(|index| side_of(self.ends, index as u32 + 1)),
                    said: self.said(text, none()),
                    hex: hex_lines(&group.memory[*at..at + count]),
                }
            }
            (Line::Table, _) => self.desk("table printed".to_string(), table(group)),
            (Line::Pool, _) => self.on_pool("pool: all units free".to_string(), none()),
            (Line::Take { units }, Answer::Taken(start)) => {
                let taken = format!("take {}: from unit {start} on", counted_units(*units));
                self.on_pool(taken, none())
            }
            (Line::Take { units }, _) => {
                self.on_pool(format!("take {}", counted_units(*units)), none())
            }
            (Line::Return { start, units }, _) => self.on_pool(
                format!("return {} from unit {start} on", counted_units(*units)),
                none(),
            ),
            (Line::Books { books }, _) => {
                self.on_pool(format!("books laid: {}", of_books(books)), none())
            }
            (Line::BooksShown, _) => {
                self.on_pool(format!("books: {}", of_books(&self.after.pool)), none())
            }
            (Line::Sample { link, milliseconds }, answer) => {
                let health = match answer {
                    Answer::Health(_, health) => of_health(health),
                    _ => none(),
                };
                self.desk(format!("link {link} answered in {milliseconds} ms"), health)
            }
            (Line::Health { link }, answer) => {
                let health = match answer {
                    Answer::Health(_, health) => of_health(health),
                    _ => none(),
                };
                self.desk(format!("health of link {link}: {health}"), none())
            }
            (Line::Gauge { link, gauge }, _) => {
                self.desk(format!("gauge of link {link} laid"), of_gauge(gauge))
            }
            (Line::Settings { settings }, _) => {
                self.desk("settings laid".to_string(), of_settings(settings))
            }
            (Line::Setup { due, bytes }, answer) => {
                let text = match due {
                    Due::None => "set-up begins".to_string(),
                    _ => format!("set-up, {} due: hears {}", due.name(), of_clc(bytes)),
                };
                let below = match answer {
                    Answer::SetUp(answer) => of_set_up(*due, answer),
                    _ => none(),
                };
                self.desk(text, below)
            }
            (Line::Clc { bytes }, _) => {
                let text = format!("set-up message read: {}", of_clc(bytes));
                let why = match Clc::read(bytes) {
                    Err(why) => why.name().to_string(),
                    Ok(_) => none(),
                };
                self.desk(text, why)
            }
            (Line::Links { active }, _) => {
                self.desk(format!("links laid: {}", of_links(active)), none())
            }
            (Line::Role { role }, _) => self.desk(format!("role: {}", role.name()), none()),
            (Line::Exchange { exchange }, _) => {
                self.desk(format!("exchange laid: {}", of_exchange(exchange)), none())
            }
            (Line::Queue { queue }, _) => {
                let queued = counted(usize::from(queue.count), "message");
                self.desk(format!("queue laid: {queued}"), none())
            }
            // Those on links have words of their own.
            (Line::Link { .. } | Line::LinkMsg { .. } | Line::LinkSend { .. }, _) => {
                self.on_links()
            }
        }
    }

    fn hearing(&self, bytes: &[u8]) -> What {
        let heard = match self.answer {
            Answer::Heard(heard) => {
                format!("heard: moved {}, {}", heard.moved, heard.state.name())
            }
            _ => String::new(),
        };
        let below = joined(&[&heard, &self.makes()], ", ");
        let text = match Message::read(bytes) {
            Some(message) => label(&message),
            None => format!("hear {}: no message", counted(bytes.len(), "byte")),
        };
        let index = heard_at(bytes, &self.before.table);
        match index.and_then(|index| side_of(self.ends, index as u32 + 1)) {
            Some(to) => What::Arrow {
                to,
                said: self.said(text, below),
                message: true,
            },
            None => {
                let token = match Message::read(bytes) {
                    Some(message) => format!(", to token {}", message.token),
                    None => String::new(),
                };
                self.desk(format!("{text}{token}"), below)
            }
        }
    }

    /// Link change, link message and link send, with what moves.
    fn on_links(&self) -> What {
        let (text, room) = match self.line {
            Line::Link { link, up, room } => {
                let state = if *up { "active" } else { "down" };
                (format!("link {link} {state}"), room)
            }
            Line::LinkMsg { link, bytes, room } => {
                (format!("on link {link} heard: {}", of_llc(bytes)), room)
            }
            Line::LinkSend { link, fields, room } => {
                let named = of_fields(&fields.reduced());
                (format!("on link {link} sent: {named}"), room)
            }
            _ => (String::new(), &None),
        };
        let text = match room {
            Some(room) => format!("{text}, a buffer of {}", counted(*room, "byte")),
            None => text,
        };
        let mut notes: Vec<String> = Vec::new();
        let mut taken_up: Option<&TakenUp> = None;
        if let Answer::LinkMsg(answer, _) = self.answer {
            notes.push(answer.fate.name().to_string());
            if let Some(reply) = &answer.reply {
                notes.push(format!("replies {}", of_llc(reply)));
            }
            taken_up = answer.taken_up.as_ref();
        }
        if let Answer::LinkSent(sent, _) = self.answer {
            taken_up = sent.taken_up.as_ref();
        }
        notes.extend(taken_up.map(of_taken_up));
        notes.extend(self.desk_changes());
        let notes: Vec<&str> = notes.iter().map(String::as_str).collect();
        let said = self.said(text, joined(&notes, "; "));
        let movers = self.movers();
        if movers.is_empty() {
            return middle(said);
        }
        let at_side = |index: usize| side_of(self.ends, index as u32 + 1);
        let mut sides = [None, None];
        for (index, goes, tells) in &movers {
            if let Some(side) = at_side(*index) {
                sides[side] = Some((goes.clone(), tells.clone()));
            }
        }
        let others = movers
            .iter()
            .filter(|(index, ..)| at_side(*index).is_none());
        let others: Vec<String> = others
            .map(|(index, goes, tells)| format!("slot {}: {goes}, {tells}", index + 1))
            .collect();
        let below = joined(&[&said.below, &others.join("; ")], "; ");
        What::Move {
            said: Said { below, ..said },
            sides,
        }
    }

    /// What a call on links did to the links, the exchange and the queue.
    fn desk_changes(&self) -> Vec<String> {
        let group = &self.after.group;
        let mut notes = Vec::new();
        if self.before.links != group.links && !matches!(self.line, Line::Link { .. }) {
            notes.push(format!("links:\u{a0}{}", of_links(&group.links)));
        }
        if self.before.exchange != group.exchange {
            notes.push(format!("exchange: {}", of_exchange(&group.exchange)));
        }
        if self.before.queue.count != group.queue.count {
            notes.push(format!("queue: {}", group.queue.count));
        }
        notes
    }

    /// The slots that moved, from where to where, and what each tells.
    fn movers(&self) -> Vec<(usize, String, String)> {
        let pairs = self.before.table.iter().zip(&self.after.group.table);
        pairs
            .enumerate()
            .filter(|(_, (old, new))| old.link != new.link)
            .map(|(index, (old, new))| {
                let told = Message::read(&failover_message(old));
                let tells = match told {
                    Some(told) if tells(old) => format!("makes message {} with F", told.sequence),
                    _ => "silent: A was sent".to_string(),
                };
                let goes = format!("link {} \u{2192} link {}", old.link, new.link);
                (index, goes, tells)
            })
            .collect()
    }
}

fn middle(said: Said) -> What {
    What::Middle { said, pool: None }
}

/// A message's sequence number, cursors and flags.
fn label(message: &Message) -> String {
    format!(
        "message {}: producer {}, consumer {}{}",
        message.sequence,
        pair(message.producer),
        pair(message.consumer),
        flags(message)
    )
}

fn flags(message: &Message) -> String {
    let flags: String = [
        (message.blocked, 'B'),
        (message.urgent_pending, 'P'),
        (message.urgent_present, 'U'),
        (message.update_requested, 'R'),
        (message.failover, 'F'),
        (message.done, 'D'),
        (message.closed, 'C'),
        (message.abort, 'A'),
    ]
    .iter()
    .filter(|(on, _)| *on)
    .map(|(_, letter)| *letter)
    .collect();
    match flags.is_empty() {
        true => flags,
        false => format!(", flags\u{a0}{flags}"),
    }
}

/// A cursor as the page writes it.
pub fn pair(at: Cursor) -> String {
    format!("({},{})", at.offset, at.wrap)
}

/// The notes that are there, one after the other.
pub fn joined(notes: &[&str], between: &str) -> String {
    let there: Vec<&str> = notes
        .iter()
        .copied()
        .filter(|note| !note.is_empty())
        .collect();
    there.join(between)
}

/// The first bytes as they stand in the cells of an element, or in hexadecimal where
/// one cannot be printed, after a colon.
fn quoted(bytes: &[u8]) -> String {
    if bytes.is_empty() {
        return String::new();
    }
    let shown = &bytes[..bytes.len().min(QUOTED)];
    let signs: Option<String> = shown.iter().map(|&byte| sign(byte)).collect();
    let text = signs.unwrap_or_else(|| hex(shown));
    let more = if bytes.len() > QUOTED { NOT_QUOTED } else { "" };
    format!(": {text}{more}")
}

/// A byte as one sign: a dot for zero, an open box for a blank, itself where it
/// can be printed.
pub fn sign(byte: u8) -> Option<char> {
    match byte {
        0 => Some('\u{b7}'),
        b' ' => Some('\u{2423}'),
        _ if byte.is_ascii_graphic() => Some(char::from(byte)),
        _ => None,
    }
}

fn hex(bytes: &[u8]) -> String {
    let mut text = Vec::new();
    push_hex(&mut text, bytes);
    String::from_utf8_lossy(&text).into_owned()
}

/// Bytes in hexadecimal, sixteen to a line, at most two lines and a word of the rest.
fn hex_lines(bytes: &[u8]) -> Vec<String> {
    let shown = &bytes[..bytes.len().min(32)];
    let mut all: Vec<String> = shown
        .chunks(16)
        .map(|line| {
            let pairs: Vec<String> = line.iter().map(|&byte| hex(&[byte])).collect();
            pairs.join(" ")
        })
        .collect();
    if bytes.len() > shown.len() {
        let more = counted(bytes.len() - shown.len(), "byte");
        all.push(format!("\u{2026} and {more} more, not shown"));
    }
    all
}

fn of_links(active: &[bool; LINKS]) -> String {
    let up: Vec<usize> = (1..=LINKS).filter(|&link| active[link - 1]).collect();
    match up.len() {
        0 => "all down".to_string(),
        LINKS => "all active".to_string(),
        _ => format!("{} active", listed(&up)).replace(' ', "\u{a0}"),
    }
}

fn of_exchange(exchange: &Exchange) -> String {
    match exchange {
        Exchange { stage: 0, .. } => "none".to_string(),
        Exchange { stage, v, w: 0 } => format!("stage {stage} over link {v}"),
        Exchange { stage, v, w } => format!("stage {stage} over link {v}, for link {w}"),
    }
}

/// What a `table` line prints, in short.
fn table(group: &Group) -> String {
    let open = |open: bool| -> Vec<usize> {
        let slots = group.table.iter().enumerate();
        slots
            .filter(|(_, c)| c.open == open)
            .map(|(index, _)| index + 1)
            .collect()
    };
    let slots = match (open(true).len(), open(false).len()) {
        (0, 0) => "no slots".to_string(),
        (0, _) => "every slot closed".to_string(),
        (_, 0) => "every slot open".to_string(),
        (1, _) => format!("slot {} open", listed(&open(true))),
        _ => format!("slots {} open", listed(&open(true))),
    };
    let role = match group.role {
        Role::Client => "client",
        Role::Server => "server",
    };
    format!(
        "{slots}; links: {}; {role}; exchange: {}; queue: {}",
        of_links(&group.links),
        of_exchange(&group.exchange),
        group.queue.count
    )
}

fn counted_units(units: u32) -> String {
    counted(units as usize, "unit")
}

fn of_books(books: &Books) -> String {
    let blocks = counted(books.blocks().len(), "block");
    let wrong = if books.wrong() { ", wrong books" } else { "" };
    format!("{blocks}, {} of 64 units{wrong}", books.units_held())
}

/// A double, with at most three digits behind its point.
fn milliseconds(value: f64) -> String {
    let text = format!("{value:.3}");
    let short = text.trim_end_matches('0').trim_end_matches('.');
    if short.len() > 16 {
        format!("{value:e} ms")
    } else {
        format!("{short} ms")
    }
}

fn of_health(health: &Health) -> String {
    match health {
        Health::Unheard => "unheard".to_string(),
        Health::Steady(mean) => format!("steady, mean {}", milliseconds(*mean)),
        Health::Late(mean, worst) => format!(
            "late, mean {}, worst {}",
            milliseconds(*mean),
            milliseconds(*worst)
        ),
    }
}

fn of_gauge(gauge: &Gauge) -> String {
    format!(
        "mean {}, worst {}, {}{}",
        milliseconds(gauge.mean),
        milliseconds(gauge.worst),
        counted(usize::from(gauge.count), "sample"),
        if gauge.late { ", late" } else { "" }
    )
}

fn of_settings(settings: &Settings) -> String {
    let first = if settings.first_contact {
        ", first contact"
    } else {
        ""
    };
    format!(
        "N {}, peer ID {}, slot {}, own token {}, link {}, QP {}, MTU {}, PSN {}, key {}, base {}{first}; \
         not shown: GID, MAC, mask, prefixes, the peer's other keys and bases",
        settings.size,
        hex(&settings.peer_id),
        settings.slot,
        settings.own_token,
        settings.link,
        settings.qp,
        settings.mtu,
        settings.psn,
        settings.key,
        settings.base
    )
}

/// A set-up message by its name.
fn of_clc(bytes: &[u8]) -> String {
    let name = match Clc::read(bytes) {
        Ok(message) => message.name(),
        Err(_) => "no message",
    };
    format!("{name}, {}", counted(bytes.len(), "byte"))
}

fn of_set_up(due: Due, answer: &SetUp) -> String {
    let sends = match &answer.message {
        Some(bytes) => format!("sends {}", of_clc(bytes)),
        None => String::new(),
    };
    let opens = match &answer.open {
        Some(opening) => format!(
            "open of slot {}: own token {}, peer token {}, link {}, N' {}, index {}",
            opening.slot,
            opening.own_token,
            opening.peer_token,
            opening.link,
            opening.peer_size,
            opening.index
        ),
        None => String::new(),
    };
    let declines = match (answer.diagnosis, &answer.message) {
        (Some(diagnosis), Some(_)) => format!("declines, diagnosis {diagnosis}"),
        (Some(diagnosis), None) => format!("declined by the peer, diagnosis {diagnosis}"),
        (None, _) => String::new(),
    };
    let nothing = match (&answer.message, &answer.open, due) {
        (None, None, Due::None) => "nothing to send: the settings do not fit",
        _ => "",
    };
    joined(&[&sends, &opens, &declines, nothing], "; ")
}

/// A link message from its bytes.
fn of_llc(bytes: &[u8]) -> String {
    let fields = match <&Bytes44>::try_from(bytes) {
        Ok(bytes) => Fields::read(bytes),
        Err(_) => None,
    };
    match (fields, bytes.first()) {
        (Some(fields), _) => of_fields(&fields),
        (None, Some(first)) => {
            format!(
                "{}, the first {first:02X}, no named kind",
                counted(bytes.len(), "byte")
            )
        }
        (None, None) => "no bytes".to_string(),
    }
}

/// A link message's name and those of its fields that are not zero.
fn of_fields(fields: &Fields) -> String {
    let reply = if fields.is_reply() {
        "reply"
    } else {
        "request"
    };
    let rows = layout(fields.kind).iter().zip(&fields.values);
    let there: Vec<String> = rows
        .filter(|(row, &value)| row.name != "R" && value != 0)
        .map(|(row, &value)| match row.bits {
            1 => row.name.to_string(),
            2..=24 => format!("{} {value}", row.name),
            _ => format!("{} {value:X}h", row.name),
        })
        .collect();
    let there = match there.is_empty() {
        true => String::new(),
        false => format!(" ({})", there.join(", ")),
    };
    format!("{} {reply}{there}", kind_name(fields.kind))
}

fn of_taken_up(taken_up: &TakenUp) -> String {
    let fields = match &taken_up.fields {
        Some(fields) => of_fields(fields),
        None => "no named kind".to_string(),
    };
    let fate: Fate = taken_up.fate;
    format!(
        "from the queue, link {}: {fields}, {}",
        taken_up.link,
        fate.name()
    )
}
