//! The books of one connection (2026-14, part 1): what is under way to each end, which byte a placing put where, the bytes taken and the
//! bytes read. Of each call the premises are asked before, and the claims checked after. The names are those of
//! `crates/thm_sent/specs`.

use crate::call::{other, Answer, Call, How, SIDES};
use crate::plain::{carries, in_order, Mark, Plain};
use fordlinnet::{Group, Message, Opening, RToken, Record, Refusal, Remote};
use std::collections::VecDeque;

/// A byte under way: its number since the open, from 0, the link by which it goes, its key, its address and its value.
#[derive(Clone, Copy, Debug)]
pub struct Owed {
    pub number: u64,
    pub link: u8,
    pub key: u32,
    pub address: u64,
    pub value: u8,
    pub performed: bool,
    /// The offset of this end's element where it lands.
    lands: Option<u32>,
}

/// A message under way. The bytes with numbers below `after` were handed over before it.
#[derive(Clone, Copy, Debug)]
pub struct Carried {
    pub bytes: [u8; 44],
    pub after: u64,
    mark: Mark,
}

/// How a slot closed.
#[derive(Clone, Copy, Debug, PartialEq, Eq)]
pub enum Closed {
    ByC,
    ByA,
    ByFree,
}

/// The premises, by their names in `OnlySent.antt`; `Matching` is "that open".
#[derive(Clone, Copy, Debug, PartialEq, Eq)]
pub enum Premise {
    Matching,
    AsLeft,
    StillOpen,
    LinkActive,
    NoOthers,
    PerformedBefore,
    HeardInOrder,
}

/// A claim that does not hold, of connection `id` at an end.
#[derive(Clone, Debug, PartialEq, Eq)]
pub struct Wrong {
    pub id: usize,
    pub side: usize,
    pub what: What,
}

#[derive(Clone, Debug, PartialEq, Eq)]
pub enum What {
    /// `first_so_many`.
    Byte {
        number: u64,
        read: u8,
        taken: Option<u8>,
    },
    /// `from-element`, `in-data`, `where-put`.
    Place {
        number: u64,
        offset: u32,
        put: Option<u64>,
    },
    /// `NothingLost`.
    Lost {
        read: u64,
        taken: u64,
    },
    /// `NothingUnderWay`.
    UnderWay {
        bytes: usize,
    },
    MaySend,
    /// `NoOneTurnedAway`.
    Aborted,
    TurnedAway {
        hear: bool,
        refusal: Refusal,
    },
    /// `RefusedMayStand`: a call that had to be refused and to change nothing, or an open that had to be accepted.
    Stranger,
    /// The right to open the slot again came where it should not, or did not come.
    Right,
    /// The eye catcher is damaged.
    Torn,
    /// `CursorsArePlain`.
    Plain(&'static str),
    /// `InTheBuffer`.
    Told,
}

impl Wrong {
    pub fn words(&self) -> String {
        let (id, at, from) = (self.id, SIDES[self.side], SIDES[other(self.side)]);
        let of = format!("connection {id}:");
        match &self.what {
            What::Byte { number, read, taken: Some(taken) } => {
                format!("{of} byte number {number} read at {at} is {read:02X}; the byte taken at {from} was {taken:02X}")
            }
            What::Byte { number, read, taken: None } => {
                format!("{of} byte number {number} read at {at} is {read:02X}; {from} never sent a byte of that number")
            }
            What::Place { number, offset, put } => {
                let put = put.map_or("no byte".to_string(), |put| format!("byte number {put}"));
                format!("{of} byte number {number} read at {at} stood at offset {offset}, where its placings had put {put}")
            }
            What::Lost { read, taken } => {
                format!("{of} nothing is under way or unread at {at}, and of {taken} bytes taken at {from} {read} were read")
            }
            What::UnderWay { bytes } => format!("{of} the slot at {at} closed, not by free, and {bytes} bytes are under way to it"),
            What::MaySend => format!("{of} the slot at {at} closed, not by free, and {from} may still send"),
            What::Aborted => format!("{of} a message with F aborts it at {at}, and nothing was lost"),
            What::TurnedAway { hear, refusal } => {
                let what = if *hear { "a message" } else { "a write" };
                format!("{of} {what} is turned away at {at}: {refusal}")
            }
            What::Stranger => format!("{of} an open, an early or a repeated message at {at} was not answered as it should be"),
            What::Right => format!("{of} the slot at {at} closed, and the right to open it again is not what it should be"),
            What::Torn => format!("{of} a read at {at} finds the eye catcher damaged"),
            What::Plain(what) => format!("{of} {what} at {at} is not the plain engine's"),
            What::Told => format!("{of} the message with F of {at} is not in its place"),
        }
    }
}

/// What was found in a run.
#[derive(Debug, Default)]
pub struct Findings {
    pub broken: Vec<Premise>,
    pub wrong: Vec<Wrong>,
    /// Points at which all that was taken had to be read, and was; and at which a closed slot had to have nothing to come.
    pub nothing_lost: u64,
    pub none_to_come: u64,
}

impl Findings {
    pub fn unless(&mut self, holds: bool, premise: Premise) {
        if !holds && !self.broken.contains(&premise) {
            self.broken.push(premise);
        }
    }
}

/// One end of the connection.
#[derive(Clone, Debug)]
pub struct End {
    pub slot: u32,
    pub own: u32,
    /// N of its group.
    pub size: u32,
    /// Keys and bases of its group's memory, by links of the other.
    reach: [RToken; 4],
    /// "That open" was made.
    pub opened: bool,
    pub closed: Option<Closed>,
    /// The record as last left.
    pub record: Record,
    pub bytes: VecDeque<Owed>,
    pub messages: VecDeque<Carried>,
    /// By offset: the number of the byte that an accepted place last put there.
    put: Vec<Option<u64>>,
    /// Bytes that were taken here and are not yet read at the other end.
    took: VecDeque<u8>,
    pub taken: u64,
    pub read: u64,
    pub plain: Plain,
    /// The last bytes and messages that were taken off, for those who repeat them.
    pub past_bytes: VecDeque<Owed>,
    pub past_messages: VecDeque<[u8; 44]>,
}

const PAST: usize = 16;

impl End {
    /// Opened, and not closed since.
    pub fn is_open(&self) -> bool {
        self.opened && self.closed.is_none()
    }

    /// The number of data bytes.
    pub fn d(&self) -> u64 {
        u64::from(self.size) - 4
    }

    pub fn unread(&self) -> u32 {
        let (p, c) = (self.record.inbound.producer, self.record.inbound.consumer);
        if p.wrap == c.wrap {
            p.offset.saturating_sub(c.offset)
        } else {
            (self.size - 4 + p.offset).saturating_sub(c.offset)
        }
    }

    /// `lands_in`: by its key on its link, and base + (slot - 1) x N + offset.
    fn lands(&self, link: u8, key: u32, address: u64) -> Option<u32> {
        let reach = self.reach[usize::from(link) - 1];
        let element = u64::from(self.slot - 1) * u64::from(self.size);
        let offset = address.checked_sub(reach.base)?.checked_sub(element)?;
        (reach.key == key).then_some(u32::try_from(offset).ok()?)
    }

    /// `PerformedBefore`, of the first message.
    pub fn all_performed(&self) -> bool {
        let Some(first) = self.messages.front() else { return true };
        self.bytes.iter().take_while(|owed| owed.number < first.after).all(|owed| owed.performed)
    }

    /// The message goes; and with it, unless it has F, all bytes before it.
    fn take_off(&mut self) -> Option<Carried> {
        let first = self.messages.pop_front()?;
        if first.bytes[24] & 0x08 == 0 {
            while self.bytes.front().is_some_and(|owed| owed.number < first.after) {
                let owed = self.bytes.pop_front();
                if self.past_bytes.len() == PAST {
                    self.past_bytes.pop_front();
                }
                self.past_bytes.extend(owed);
            }
        }
        if self.past_messages.len() == PAST {
            self.past_messages.pop_front();
        }
        self.past_messages.push_back(first.bytes);
        Some(first)
    }

    /// The first message never arrives. It is the wire's doing, and no call.
    pub fn drop_message(&mut self) {
        self.take_off();
        self.past_messages.pop_back();
    }
}

/// What a call is to the connection at an end where it is open.
enum Aim<'a> {
    Sends(bool, &'a [u8]),
    Places(u32, &'a [u8]),
    Reads(usize),
    Hears(Message),
    Finishes,
    Elsewhere,
}

/// A call as made: what it found, and what it left.
pub struct Seen<'a> {
    pub side: usize,
    pub call: &'a Call,
    pub answer: &'a Answer,
    pub before: &'a [Record],
    pub links: [bool; 4],
    pub group: &'a Group,
}

#[derive(Clone, Debug)]
pub struct Books {
    pub id: usize,
    pub ends: [End; 2],
    /// An open that does not match is taken for "that open".
    pub lenient: bool,
    /// The engine is kept and compared: not where a premise is to be broken.
    pub engine: bool,
}

impl Books {
    pub fn new(id: usize, slots: [u32; 2], sizes: [u32; 2], reach: [[RToken; 4]; 2]) -> Books {
        let ends = [0, 1].map(|side: usize| End {
            slot: slots[side],
            own: 10 * id as u32 + 1 + side as u32,
            size: sizes[side],
            reach: reach[side],
            opened: false,
            closed: None,
            record: Record::default(),
            bytes: VecDeque::new(),
            messages: VecDeque::new(),
            put: vec![None; sizes[side] as usize],
            took: VecDeque::new(),
            taken: 0,
            read: 0,
            plain: Plain::default(),
            past_bytes: VecDeque::new(),
            past_messages: VecDeque::new(),
        });
        Books { id, ends, lenient: false, engine: true }
    }

    /// The open that matches.
    pub fn opening(&self, side: usize, link: u8) -> Opening {
        let (own, peer) = (&self.ends[side], &self.ends[other(side)]);
        let remote = Remote { size: peer.size, index: peer.slot, rtokens: peer.reach };
        Opening { own: own.own, peer: peer.own, link, remote }
    }

    /// Follows a call.
    pub fn see(&mut self, seen: &Seen, found: &mut Findings) {
        let end = &self.ends[seen.side];
        if end.closed.is_some() {
            return;
        }
        if !end.opened {
            return self.see_open(seen, found);
        }
        match self.aim(seen) {
            Aim::Elsewhere if !seen.call.on_links() => return,
            Aim::Elsewhere => self.follow_move(seen, found),
            aim => {
                self.ask(seen, &aim, found);
                self.follow(seen, &aim, found);
            }
        }
        let end = &mut self.ends[seen.side];
        end.record = seen.group.table()[end.slot as usize - 1];
        if !end.record.id.opened {
            end.closed = Some(match seen.call {
                Call::Free { .. } => Closed::ByFree,
                Call::Hear { bytes } if bytes[25] & 0x20 != 0 => Closed::ByA,
                _ => Closed::ByC,
            });
        }
        self.claim(seen.side, found);
    }

    fn see_open(&mut self, seen: &Seen, found: &mut Findings) {
        let Call::Open { slot, opening } = seen.call else { return };
        let end = &self.ends[seen.side];
        if seen.answer.refusal.is_some() || *slot != end.slot || opening.own != end.own {
            return;
        }
        let matches = *opening == self.opening(seen.side, opening.link);
        found.unless(matches, Premise::Matching);
        let end = &mut self.ends[seen.side];
        end.opened = matches || self.lenient;
        end.record = seen.group.table()[end.slot as usize - 1];
    }

    fn aim<'a>(&self, seen: &Seen<'a>) -> Aim<'a> {
        let end = &self.ends[seen.side];
        let ours = |slot: &u32| *slot == end.slot;
        match seen.call {
            Call::Send { slot, how, bytes } if ours(slot) => Aim::Sends(*how == How::Urgent, bytes),
            Call::Place { slot, offset, bytes } if ours(slot) => Aim::Places(*offset, bytes),
            Call::Read { slot, room } if ours(slot) => Aim::Reads(*room),
            Call::Shutdown { slot } | Call::Close { slot } | Call::Abort { slot } | Call::Free { slot } if ours(slot) => Aim::Finishes,
            Call::Hear { bytes } => match Message::try_from(&bytes[..]) {
                Ok(message) if message.token() == end.own => Aim::Hears(message),
                _ => Aim::Elsewhere,
            },
            _ => Aim::Elsewhere,
        }
    }

    /// The premises, of the ends as last left.
    fn ask(&self, seen: &Seen, aim: &Aim, found: &mut Findings) {
        let end = &self.ends[seen.side];
        let link = seen.before[end.slot as usize - 1].id.link;
        let active = seen.links.get(usize::from(link).wrapping_sub(1)).copied().unwrap_or(false);
        match aim {
            Aim::Places(at, bytes) => {
                found.unless(active, Premise::LinkActive);
                // most often the next byte placed is the next under way
                let mut next = 0;
                let owed = |(place, value): (usize, &u8)| {
                    let offset = at.checked_add(place as u32);
                    let is = |owed: &Owed| owed.lands == offset && owed.value == *value;
                    let found = if end.bytes.get(next).is_some_and(is) { Some(next) } else { end.bytes.iter().position(is) };
                    next = found.map_or(0, |found| found + 1);
                    found.is_some()
                };
                found.unless(bytes.iter().enumerate().all(owed), Premise::NoOthers);
            }
            Aim::Hears(message) => {
                found.unless(active, Premise::LinkActive);
                found.unless(end.all_performed(), Premise::PerformedBefore);
                let first = end.messages.front().is_some_and(|first| same_fields(message, &first.bytes));
                found.unless(first, Premise::HeardInOrder);
            }
            _ => {}
        }
    }

    fn wrong(&self, found: &mut Findings, side: usize, what: What) {
        found.wrong.push(Wrong { id: self.id, side, what });
    }

    /// What a call of the connection hands over, performs, takes off and books.
    fn follow(&mut self, seen: &Seen, aim: &Aim, found: &mut Findings) {
        let (side, refusal) = (seen.side, seen.answer.refusal);
        let mut turned_away = None;
        match aim {
            Aim::Sends(urgent, bytes) if refusal.is_none() => self.book_sent(seen, *urgent, bytes, found),
            Aim::Places(at, bytes) => {
                turned_away = refusal.filter(|refusal| *refusal != Refusal::State);
                self.book_placed(side, *at, bytes.len() as u32, refusal.is_none());
            }
            Aim::Reads(_) if seen.answer.torn => self.wrong(found, side, What::Torn),
            Aim::Reads(room) if refusal.is_none() => self.book_read(seen, *room as u64, found),
            Aim::Hears(message) => {
                turned_away = refusal;
                // one that is not the first is no message of the wire, and takes none off
                let first = self.ends[side].messages.front().is_some_and(|first| same_fields(message, &first.bytes));
                if let Some(first) = first.then(|| self.ends[side].take_off()).flatten() {
                    self.ends[side].plain.hears(&first.mark);
                }
                if message.flags().failover && seen.answer.message.is_some() {
                    self.wrong(found, side, What::Aborted);
                }
            }
            _ => {}
        }
        if let Some(refusal) = turned_away {
            self.wrong(found, side, What::TurnedAway { hear: matches!(aim, Aim::Hears(_)), refusal });
        }
        if let Some(message) = seen.answer.message {
            let mark = self.ends[side].plain.makes(message.flags().abort);
            self.hand_over(side, &message, mark, found);
        }
    }

    /// Hands a message to the other end, behind all bytes taken.
    fn hand_over(&mut self, side: usize, message: &Message, mark: Mark, found: &mut Findings) {
        let (end, to) = (&self.ends[side], &self.ends[other(side)]);
        if self.engine && !(message.token() == to.own && carries(message, &mark, end.d(), to.d())) {
            self.wrong(found, side, What::Plain("a message made"));
        }
        let after = self.ends[side].taken;
        self.ends[other(side)].messages.push_back(Carried { bytes: *message.as_bytes(), after, mark });
    }

    /// The first n of the bytes offered are taken; each byte of each placing or piece is under way, by the link that the record names.
    fn book_sent(&mut self, seen: &Seen, urgent: bool, bytes: &[u8], found: &mut Findings) {
        let side = seen.side;
        let taken = seen.answer.taken as u64;
        let link = seen.before[self.ends[side].slot as usize - 1].id.link;
        let mut number = self.ends[side].taken;
        let to = &mut self.ends[other(side)];
        for named in &seen.answer.named {
            for (place, &value) in bytes[named.start..][..named.len].iter().enumerate() {
                let (key, address) = (named.key, named.address.wrapping_add(place as u64));
                let lands = to.lands(link, key, address);
                to.bytes.push_back(Owed { number, link, key, address, value, performed: false, lands });
                number += 1;
            }
        }
        let d_peer = to.d();
        let end = &mut self.ends[side];
        end.taken += taken;
        end.took.extend(&bytes[..taken as usize]);
        let plain = end.plain.sends(urgent, bytes.len() as u64, d_peer);
        if self.engine && (plain != taken || number != end.taken) {
            self.wrong(found, side, What::Plain("n of a send"));
        }
    }

    /// A place performs each byte under way that lands where it puts one; an accepted one puts it there.
    fn book_placed(&mut self, side: usize, at: u32, len: u32, accepted: bool) {
        let end = &mut self.ends[side];
        let covered = |offset: u32| at <= offset && offset - at < len;
        if accepted {
            // a byte from nowhere is none of ours
            for put in end.put.iter_mut().skip(at as usize).take(len as usize) {
                *put = None;
            }
        }
        for owed in end.bytes.iter_mut().rev() {
            let Some(offset) = owed.lands.filter(|offset| covered(*offset)) else { continue };
            owed.performed = true;
            if accepted {
                // the first of several stands last: `number_at`
                end.put[offset as usize] = Some(owed.number);
            }
        }
    }

    /// Compares each byte read with the byte taken, and asks where it stood and who put it there.
    fn book_read(&mut self, seen: &Seen, room: u64, found: &mut Findings) {
        let side = seen.side;
        let (slot, size) = (self.ends[side].slot as usize, self.ends[side].size);
        let element = &seen.group.memory()[(slot - 1) * size as usize..][..size as usize];
        let mut offset = seen.before[slot - 1].inbound.consumer.offset;
        for &read in &seen.answer.read {
            let number = self.ends[side].read;
            self.ends[side].read += 1;
            let taken = self.ends[other(side)].took.pop_front();
            if taken != Some(read) {
                self.wrong(found, side, What::Byte { number, read, taken });
            }
            let put = self.ends[side].put.get(offset as usize).copied().flatten();
            let in_data = (4..size).contains(&offset) && element[offset as usize] == read;
            if !in_data || put != Some(number) {
                self.wrong(found, side, What::Place { number, offset, put });
            }
            offset = if offset + 1 == size { 4 } else { offset + 1 };
        }
        let plain = self.ends[side].plain.reads(room);
        if self.engine && plain != seen.answer.read.len() as u64 {
            self.wrong(found, side, What::Plain("n of a read"));
        }
    }

    /// A call on links in which the connection's link goes down and another is active: it moves, and unless A was sent it tells. Its
    /// message stands behind those of the slots before.
    fn follow_move(&mut self, seen: &Seen, found: &mut Findings) {
        let (side, after) = (seen.side, seen.group.links().active);
        if seen.answer.refusal.is_some() || seen.links == after {
            return;
        }
        let gone = |link: u8| seen.links[usize::from(link) - 1] && !after[usize::from(link) - 1];
        let target = seen.group.links().lowest_active();
        let tells = |record: &&Record| record.id.opened && gone(record.id.link) && target.is_some() && !record.marks.abort;
        let index = self.ends[side].slot as usize - 1;
        if !tells(&&seen.before[index]) {
            return;
        }
        let place = seen.before[..index].iter().filter(tells).count();
        match seen.answer.told.get(place).copied() {
            Some(message) => {
                let mark = self.ends[side].plain.tells();
                self.hand_over(side, &message, mark, found);
            }
            None => self.wrong(found, side, What::Told),
        }
    }

    /// The claims that are of a point and no call.
    pub fn claim(&self, side: usize, found: &mut Findings) {
        let (end, peer) = (&self.ends[side], &self.ends[other(side)]);
        if self.engine {
            if end.is_open() {
                if let Some(what) = end.plain.differs(&end.record, end.d(), peer.d()) {
                    self.wrong(found, side, What::Plain(what));
                }
                if (end.plain.q, end.plain.c) != (end.taken, end.read) {
                    self.wrong(found, side, What::Plain("the count of bytes"));
                }
            }
            if !in_order(&end.plain, &peer.plain, peer.d()) || !in_order(&peer.plain, &end.plain, end.d()) {
                self.wrong(found, side, What::Plain("the order of positions"));
            }
        }
        for side in [side, other(side)] {
            let (end, peer) = (&self.ends[side], &self.ends[other(side)]);
            let quiet = end.bytes.is_empty() && end.messages.is_empty();
            if end.is_open() && !end.record.marks.abort && quiet && end.unread() == 0 {
                if end.read == peer.taken {
                    found.nothing_lost += u64::from(peer.taken > 0);
                } else {
                    self.wrong(found, side, What::Lost { read: end.read, taken: peer.taken });
                }
            }
            if matches!(end.closed, Some(Closed::ByC | Closed::ByA)) {
                let marks = &peer.record.marks;
                let forbidden = marks.sent.done || marks.sent.closed || marks.abort || marks.heard.closed;
                if !end.bytes.is_empty() {
                    self.wrong(found, side, What::UnderWay { bytes: end.bytes.len() });
                } else if peer.is_open() && !forbidden {
                    self.wrong(found, side, What::MaySend);
                } else {
                    found.none_to_come += 1;
                }
            }
        }
    }
}

/// The same message but for reserved bits.
fn same_fields(message: &Message, bytes: &[u8; 44]) -> bool {
    let Ok(other) = Message::try_from(&bytes[..]) else { return false };
    let fields = |m: &Message| (m.sequence(), m.token(), m.producer(), m.consumer(), m.flags());
    fields(message) == fields(&other)
}
