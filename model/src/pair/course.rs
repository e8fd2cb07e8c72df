//! A course: what a list of calls at both ends leaves beside the groups, in the
//! order in which the rules page gives it. Before each call the premises are asked
//! of it; after it the claims are checked. Neither stops the course: what was
//! broken and what came out wrong is written down.

use std::collections::{BTreeSet, VecDeque};

use super::plain::{carries, in_order, Mark, Plain};
use super::{other, Names, SIDES};
use crate::failover::{failover_message, moves_to, tells};
use crate::generate::{message_of, told_in};
use crate::replay::{Answer, Line};
use crate::smcr::*;

/// A byte under way, "with its number (bytes taken since the open, from 0), its
/// link (the sender's record's), key, address and value".
#[derive(Clone, Copy, Debug, PartialEq, Eq)]
pub struct Owed {
    pub number: usize,
    pub link: u8,
    pub key: u32,
    pub address: u64,
    pub value: u8,
    pub performed: bool,
}

/// What stands under way to an end.
#[derive(Clone, Copy, Debug, PartialEq, Eq)]
pub enum Coming {
    Byte(Owed),
    Message(Bytes44),
}

/// Of a byte read: "the offset of each, what the element held there, and the number
/// of the byte that an accepted place had last put there (none at the open)".
#[derive(Clone, Copy, Debug, PartialEq, Eq)]
pub struct Origin {
    pub offset: u32,
    pub holds: u8,
    pub put: Option<usize>,
}

/// One end: its names, what is under way to it, its books, its engine.
#[derive(Clone, Debug)]
pub struct End {
    pub names: Names,
    /// N of its group.
    pub size: u32,
    /// "That open" was made.
    pub opened: bool,
    /// The record in its slot as last left.
    pub record: Connection,
    /// A free of the slot was accepted after that open.
    pub freed: bool,
    pub coming: VecDeque<Coming>,
    pub took: Vec<u8>,
    pub got: Vec<u8>,
    pub origins: Vec<Origin>,
    /// By offset: the number of the byte that an accepted place last put there.
    put: Vec<Option<usize>>,
    pub plain: Plain,
}

impl End {
    fn new(names: Names, size: u32) -> End {
        End {
            names,
            size,
            opened: false,
            record: Connection::default(),
            freed: false,
            coming: VecDeque::new(),
            took: Vec::new(),
            got: Vec::new(),
            origins: Vec::new(),
            put: vec![None; size as usize],
            plain: Plain::default(),
        }
    }

    pub fn index(&self) -> usize {
        self.names.slot as usize - 1
    }

    pub fn n(&self) -> i64 {
        i64::from(self.size)
    }

    pub fn d(&self) -> i64 {
        data_size(self.n())
    }

    /// Opened, and its slot still open.
    pub fn is_open(&self) -> bool {
        self.opened && self.record.open
    }

    /// Opened, and its slot closed since.
    pub fn is_closed(&self) -> bool {
        self.opened && !self.record.open
    }

    /// "A byte lands at offset y if its key is that of `reach` on its link and its
    /// address is base + (slot - 1) x N + y."
    pub fn lands(&self, owed: &Owed) -> Option<u64> {
        let (key, base) = self.names.reach[usize::from(owed.link) - 1];
        let first = i128::from(base) + i128::from(self.names.slot - 1) * i128::from(self.size);
        let offset = i128::from(owed.address) - first;
        (owed.key == key && offset >= 0).then_some(offset as u64)
    }

    /// The bytes under way with where they land, and how many messages stand before
    /// each.
    pub fn owed(&self) -> impl Iterator<Item = (usize, Option<u64>, &Owed)> {
        let mut messages = 0;
        self.coming.iter().filter_map(move |coming| match coming {
            Coming::Byte(owed) => Some((messages, self.lands(owed), owed)),
            Coming::Message(_) => {
                messages += 1;
                None
            }
        })
    }

    pub fn first_message(&self) -> Option<&Bytes44> {
        self.coming.iter().find_map(|coming| match coming {
            Coming::Message(bytes) => Some(bytes),
            Coming::Byte(_) => None,
        })
    }

    /// "When a message is heard all bytes before it were placed."
    pub fn all_performed(&self) -> bool {
        self.owed()
            .take_while(|(messages, ..)| *messages == 0)
            .all(|(.., owed)| owed.performed)
    }

    fn bytes_under_way(&self) -> usize {
        self.owed().count()
    }

    /// The byte under way to an offset with a value, by its number.
    fn owed_in(&self, offset: u64, value: u8) -> Option<usize> {
        self.owed()
            .find(|(_, lands, owed)| *lands == Some(offset) && owed.value == value)
            .map(|(.., owed)| owed.number)
    }

    /// "A place of the connection performs each byte under way that lands where it
    /// puts one."
    fn perform(&mut self, at: u64, length: u64) {
        let mut coming = std::mem::take(&mut self.coming);
        for coming in &mut coming {
            if let Coming::Byte(owed) = coming {
                let lands = self.lands(owed);
                owed.performed |= lands.is_some_and(|y| at <= y && y < at + length);
            }
        }
        self.coming = coming;
    }

    /// "A hear takes the first message off, with all that stands before it"; an F
    /// message "goes off alone".
    fn take_off(&mut self) {
        let is_message = |coming: &Coming| matches!(coming, Coming::Message(_));
        let Some(first) = self.coming.iter().position(is_message) else {
            return;
        };
        if self
            .first_message()
            .is_some_and(|bytes| has_failover(bytes))
        {
            self.coming.remove(first);
        } else {
            self.coming.drain(..=first);
        }
    }
}

fn has_failover(bytes: &[u8]) -> bool {
    bytes[24] & FLAG_FAILOVER != 0
}

/// The premises, "asked at every event of both ends as last left".
#[derive(Clone, Copy, Debug, PartialEq, Eq, PartialOrd, Ord)]
pub enum Premise {
    /// Each group's calls get its S, N, tables and memory as last left.
    AsLastLeft,
    /// Until the slot closes at either end.
    StillOpen,
    /// Until it closes at the end that calls: in the place of the last one.
    OwnOpen,
    LinkActive,
    NoOthers,
    PerformedBefore,
    HeardInOrder,
}

/// What of "that open" may go unasked, one at a time, to show what it is for.
#[derive(Clone, Copy, Debug, PartialEq, Eq)]
pub enum Unasked {
    Nothing,
    Size,
    Token,
    Base,
    Index,
}

/// A claim that does not hold.
#[derive(Clone, Debug, PartialEq, Eq)]
pub enum Wrong {
    /// Byte `number` of those read is none of those taken, or not the one.
    Byte {
        side: usize,
        number: usize,
        read: u8,
        taken: Option<u8>,
    },
    /// It was not read from this element's data, or stands not where its placing put
    /// it.
    Place {
        side: usize,
        number: usize,
        origin: Origin,
    },
    /// A place was refused, and not with 7; or a hear.
    TurnedAway { side: usize, refusal: u8 },
    /// A heard F made a message: it aborted the connection.
    Aborted { side: usize },
    /// A read found the eye catcher damaged.
    Torn { side: usize },
    /// The plain engine and the groups part.
    Plain { side: usize, what: &'static str },
    /// The F message does not stand in the buffer behind those of the slots before.
    Buffer { side: usize },
    /// Nothing is under way and nothing unread, and yet not all was read.
    Lost {
        side: usize,
        read: usize,
        taken: usize,
    },
    /// The slot closed, not by free, and bytes are under way to it.
    UnderWay { side: usize, bytes: usize },
    /// The slot closed, not by free, and the other end may send.
    MaySend { side: usize },
}

impl Wrong {
    /// In words.
    pub fn words(&self) -> String {
        let at = |side: &usize| SIDES[*side];
        match self {
            Wrong::Byte {
                side,
                number,
                read,
                taken,
            } => {
                let taken = taken.map_or("none".to_string(), |byte| format!("{byte:02X}"));
                let (at, from) = (at(side), SIDES[other(*side)]);
                format!("byte {number} read at {at} is {read:02X}, that taken at {from} {taken}")
            }
            Wrong::Place {
                side,
                number,
                origin,
            } => {
                let put = origin
                    .put
                    .map_or("none".to_string(), |put| format!("byte {put}"));
                let (at, offset) = (at(side), origin.offset);
                format!("byte {number} read at {at} stood at {offset}, where a placing put {put}")
            }
            Wrong::TurnedAway { side, refusal } => {
                format!("a place or hear at {} is refused with {refusal}", at(side))
            }
            Wrong::Aborted { side } => format!("F aborts the connection at {}", at(side)),
            Wrong::Torn { side } => format!("a read at {} answers torn", at(side)),
            Wrong::Plain { side, what } => {
                format!("{what} at {} is not the plain engine's", at(side))
            }
            Wrong::Buffer { side } => format!("F of {} is not in its buffer", at(side)),
            Wrong::Lost { side, read, taken } => {
                let at = at(side);
                format!("all is quiet, {taken} bytes were taken and {read} read at {at}")
            }
            Wrong::UnderWay { side, bytes } => {
                format!("{bytes} bytes are under way to {}, which closed", at(side))
            }
            Wrong::MaySend { side } => format!("{} closed, and its peer may send", at(side)),
        }
    }
}

/// What a call is to a connection.
enum Aim<'a> {
    Sends(bool, Vec<u8>),
    Places(u32, &'a [u8]),
    Reads(usize),
    Hears(&'a [u8]),
    Finishes,
    Elsewhere,
}

impl Names {
    /// "A call there is of the connection if it is on the slot, or a hear of a
    /// well-formed message with that own token."
    fn aim<'a>(&self, line: &'a Line) -> Aim<'a> {
        let ours = |slot: &u32| *slot == self.slot;
        match line {
            Line::Send { slot, bytes } if ours(slot) => Aim::Sends(false, bytes.clone()),
            Line::Urgent { slot, bytes } if ours(slot) => Aim::Sends(true, bytes.clone()),
            Line::Gather { slot, head, body } if ours(slot) => {
                Aim::Sends(false, [&head[..], body].concat())
            }
            Line::Place {
                slot,
                offset,
                bytes,
            } if ours(slot) => Aim::Places(*offset, bytes),
            Line::Read { slot, room } if ours(slot) => Aim::Reads(*room),
            Line::Shutdown { slot } | Line::Close { slot } | Line::Abort { slot } if ours(slot) => {
                Aim::Finishes
            }
            Line::Hear { bytes } => match Message::read(bytes) {
                Some(message) if message.token == self.own => Aim::Hears(bytes),
                _ => Aim::Elsewhere,
            },
            _ => Aim::Elsewhere,
        }
    }
}

/// Lines that lay something in are no calls.
fn no_call(line: &Line) -> bool {
    matches!(
        line,
        Line::Group { .. }
            | Line::Record { .. }
            | Line::Poke { .. }
            | Line::Links { .. }
            | Line::Role { .. }
            | Line::Exchange { .. }
            | Line::Queue { .. }
            | Line::Gauge { .. }
    )
}

#[derive(Clone, Debug)]
pub struct Course {
    pub ends: [End; 2],
    unasked: Unasked,
    pub broken: BTreeSet<Premise>,
    pub wrong: Vec<Wrong>,
    /// Points at which all that was taken had to be read, and was.
    pub nothing_lost: u64,
    /// Points at which a closed slot had to have nothing to come, and had not.
    pub none_to_come: u64,
}

impl Course {
    /// Sizes are N of either group.
    pub fn new(names: [Names; 2], sizes: [u32; 2]) -> Course {
        Course::with_unasked(names, sizes, Unasked::Nothing)
    }

    /// One in which "that open" asks for less.
    pub fn with_unasked(names: [Names; 2], sizes: [u32; 2], unasked: Unasked) -> Course {
        let [near, far] = [0, 1].map(|side: usize| End::new(names[side], sizes[side]));
        Course {
            ends: [near, far],
            unasked,
            broken: BTreeSet::new(),
            wrong: Vec::new(),
            nothing_lost: 0,
            none_to_come: 0,
        }
    }

    /// The same names, with nothing seen yet.
    pub fn anew(&self) -> Course {
        let [near, far] = &self.ends;
        let names = [near.names, far.names];
        Course::with_unasked(names, [near.size, far.size], self.unasked)
    }

    /// The open that matches.
    pub fn opening(&self, side: usize) -> Opening {
        let (own, peer) = (&self.ends[side], &self.ends[other(side)]);
        Opening {
            slot: own.names.slot,
            own_token: own.names.own,
            peer_token: peer.names.own,
            link: own.names.link,
            peer_size: peer.size,
            index: peer.names.slot,
            keys: peer.names.reach.map(|(key, _)| key),
            bases: peer.names.reach.map(|(_, base)| base),
        }
    }

    /// "That open": slot, link and own token as named, "the other end's own token as
    /// peer token, the other group's N as N', the other end's slot as index, and for
    /// each of the four links the key and base of the other's memory".
    fn matches(&self, side: usize, opening: &Opening) -> bool {
        let mut asked = self.opening(side);
        match self.unasked {
            Unasked::Nothing => {}
            Unasked::Size => asked.peer_size = opening.peer_size,
            Unasked::Token => asked.peer_token = opening.peer_token,
            Unasked::Base => asked.bases = opening.bases,
            Unasked::Index => asked.index = opening.index,
        }
        asked == *opening
    }

    /// Follows a call at one end: the group there before it and after it.
    pub fn see(
        &mut self,
        side: usize,
        line: &Line,
        answer: &Answer,
        before: &Group,
        after: &Group,
    ) {
        self.ask(side, line, before);
        let accepted = answer.refusal().is_none();
        if self.ends[side].opened {
            self.follow(side, line, answer, before);
            if accepted {
                self.follow_move(side, answer, before, after);
            }
        }
        let end = &mut self.ends[side];
        let index = end.index();
        match line {
            Line::Open { opening } if accepted && !end.opened => {
                self.ends[side].opened = self.matches(side, opening);
            }
            Line::Free { slot } if accepted && *slot == end.names.slot => {
                end.freed |= end.opened;
            }
            _ => {}
        }
        self.ends[side].record = after.table[index];
        self.claim(side);
    }

    /// The premises, of the ends as last left.
    fn ask(&mut self, side: usize, line: &Line, before: &Group) {
        let end = &self.ends[side];
        let mut broken = Vec::new();
        let mut unless = |premise: Premise, holds: bool| {
            if !holds {
                broken.push(premise);
            }
        };
        unless(Premise::AsLastLeft, !no_call(line));
        unless(
            Premise::StillOpen,
            !self.ends.iter().any(|end| end.is_closed()),
        );
        unless(Premise::OwnOpen, !end.is_closed());
        if end.is_open() {
            let active = before.links[usize::from(end.record.link) - 1];
            match end.names.aim(line) {
                Aim::Places(at, bytes) => {
                    unless(Premise::LinkActive, active);
                    let owed = |(i, value): (usize, &u8)| {
                        end.owed_in(u64::from(at) + i as u64, *value).is_some()
                    };
                    unless(Premise::NoOthers, bytes.iter().enumerate().all(owed));
                }
                Aim::Hears(bytes) => {
                    unless(Premise::LinkActive, active);
                    unless(Premise::PerformedBefore, end.all_performed());
                    let first = end.first_message().map(|bytes| Message::read(bytes));
                    unless(Premise::HeardInOrder, first == Some(Message::read(bytes)));
                }
                _ => {}
            }
        }
        self.broken.extend(broken);
    }

    /// What a call of the connection hands over, performs, takes off and books.
    fn follow(&mut self, side: usize, line: &Line, answer: &Answer, before: &Group) {
        let refusal = answer.refusal();
        let mut turned_away = None;
        let mut failover_heard = false;
        match self.ends[side].names.aim(line) {
            Aim::Elsewhere => return,
            Aim::Finishes => {}
            Aim::Sends(urgent, bytes) => {
                if refusal.is_none() {
                    self.book_sent(side, urgent, &bytes, answer, before);
                }
            }
            Aim::Places(at, bytes) => {
                turned_away = refusal.filter(|number| *number != 7);
                self.book_placed(side, u64::from(at), bytes, refusal.is_none());
            }
            Aim::Reads(room) => match answer {
                Answer::Read(ReadAnswer::Read { taken, .. }, out) => {
                    self.book_read(side, room, &out[..*taken as usize], before);
                }
                Answer::Read(ReadAnswer::Torn { .. }, _) => self.wrong.push(Wrong::Torn { side }),
                _ => {}
            },
            Aim::Hears(bytes) => {
                turned_away = refusal;
                failover_heard = has_failover(bytes);
                self.ends[side].take_off();
                let last = self.ends[side].plain.last;
                let counts = !self.ends[side].plain.abort_sent;
                if let Some(mark) = self.ends[side].plain.hears() {
                    // "Numbers under way run from last heard + 1 to made"; F repeats.
                    let next = last + i64::from(!mark.failover);
                    self.agree(side, !counts || mark.number == next, "a number under way");
                }
            }
        }
        if let Some(refusal) = turned_away {
            self.wrong.push(Wrong::TurnedAway { side, refusal });
        }
        let Some(bytes) = message_of(answer) else {
            return;
        };
        if failover_heard {
            self.wrong.push(Wrong::Aborted { side });
        }
        let message = Message::read(&bytes).unwrap_or_default();
        let mark = self.ends[side].plain.makes(message.abort);
        self.hand_over(side, bytes, mark);
    }

    /// Hands a message to the other end.
    fn hand_over(&mut self, side: usize, bytes: Bytes44, mark: Mark) {
        let (d, d_peer) = (self.ends[side].d(), self.ends[other(side)].d());
        let message = Message::read(&bytes).unwrap_or_default();
        let agree = carries(&message, &mark, d, d_peer);
        self.agree(side, agree, "a message under way");
        let to = &mut self.ends[other(side)];
        to.coming.push_back(Coming::Message(bytes));
        to.plain.coming.push_back(mark);
    }

    /// "Bytes taken (the first n of those offered by each send, urgent send or
    /// gather that answered n)"; "each byte of each placing or piece named".
    fn book_sent(
        &mut self,
        side: usize,
        urgent: bool,
        bytes: &[u8],
        answer: &Answer,
        before: &Group,
    ) {
        let (taken, written) = match answer {
            Answer::Sent(sent) | Answer::Urgent(sent) => {
                let part = |placing: &Placing| {
                    let start = placing.start as usize;
                    let part = bytes[start..start + placing.length as usize].to_vec();
                    (placing.key, placing.address, part)
                };
                (sent.taken, sent.placings.iter().map(part).collect())
            }
            Answer::Gathered(gathered) => {
                let part = |piece: &Piece| (piece.key, piece.address, piece.bytes.clone());
                (
                    gathered.taken,
                    gathered.pieces.iter().map(part).collect::<Vec<_>>(),
                )
            }
            _ => return,
        };
        let link = before.table[self.ends[side].index()].link;
        let mut number = self.ends[side].took.len();
        for (key, address, part) in written {
            for (i, &value) in part.iter().enumerate() {
                let owed = Owed {
                    number,
                    link,
                    key,
                    address: address.wrapping_add(i as u64),
                    value,
                    performed: false,
                };
                self.ends[other(side)].coming.push_back(Coming::Byte(owed));
                number += 1;
            }
        }
        self.ends[side]
            .took
            .extend_from_slice(&bytes[..taken as usize]);
        let d_peer = self.ends[other(side)].d();
        let plain = self.ends[side]
            .plain
            .sends(urgent, bytes.len() as i64, d_peer);
        self.agree(side, plain == taken, "n of a send");
    }

    fn book_placed(&mut self, side: usize, at: u64, bytes: &[u8], accepted: bool) {
        let end = &mut self.ends[side];
        if accepted {
            for (i, &value) in bytes.iter().enumerate() {
                let offset = at + i as u64;
                end.put[offset as usize] = end.owed_in(offset, value);
            }
        }
        end.perform(at, bytes.len() as u64);
    }

    /// Books the bytes read, and checks of each what the claim says of it.
    fn book_read(&mut self, side: usize, room: usize, bytes: &[u8], before: &Group) {
        let n = self.ends[side].n();
        let index = self.ends[side].index();
        let mut at = before.table[index].consumer;
        for &read in bytes {
            let number = self.ends[side].got.len();
            let taken = self.ends[other(side)].took.get(number).copied();
            let end = &mut self.ends[side];
            let origin = Origin {
                offset: at.offset,
                holds: before.memory[index * n as usize + at.offset as usize],
                put: end.put[at.offset as usize],
            };
            end.got.push(read);
            end.origins.push(origin);
            if taken != Some(read) {
                self.wrong.push(Wrong::Byte {
                    side,
                    number,
                    read,
                    taken,
                });
            }
            let of_element = origin.holds == read && offset_in_range(origin.offset, n);
            if !of_element || origin.put != Some(number) {
                self.wrong.push(Wrong::Place {
                    side,
                    number,
                    origin,
                });
            }
            at = step(at, 1, n);
        }
        let plain = self.ends[side].plain.reads(room as i64);
        self.agree(side, plain == bytes.len() as i64, "n of a read");
    }

    /// "A link change, link message or link send in which the slot tells hands over
    /// its F message, made from that record, behind all that is under way." It is
    /// "the 44 bytes of the call's buffer behind the messages of the slots before".
    fn follow_move(&mut self, side: usize, answer: &Answer, before: &Group, after: &Group) {
        if before.links == after.links {
            return;
        }
        let told = |c: &&Connection| {
            tells(c) && moves_to(c, before.n(), &before.links, &after.links).is_some()
        };
        let index = self.ends[side].index();
        let record = &before.table[index];
        if told(&record) {
            let bytes = failover_message(record);
            let place = before.table[..index].iter().filter(told).count();
            if told_in(answer).get(place) != Some(&bytes) {
                self.wrong.push(Wrong::Buffer { side });
            }
            let mark = self.ends[side].plain.tells();
            self.hand_over(side, bytes, mark);
        }
    }

    fn agree(&mut self, side: usize, agree: bool, what: &'static str) {
        if !agree {
            self.wrong.push(Wrong::Plain { side, what });
        }
    }

    /// The claims at this point. The record of the other end did not change.
    fn claim(&mut self, side: usize) {
        let (d, d_peer) = (self.ends[side].d(), self.ends[other(side)].d());
        let end = &self.ends[side];
        if end.is_open() {
            let differs = end.plain.differs_from(&end.record, d, d_peer);
            let counts = end.plain.q == end.took.len() as i64
                && end.plain.c == end.got.len() as i64
                && end.plain.coming.len() == end.coming.len() - end.bytes_under_way();
            self.agree(side, differs.is_none(), differs.unwrap_or(""));
            self.agree(side, counts, "the books");
        }
        for side in 0..2 {
            let (sender, reader) = (&self.ends[side], &self.ends[other(side)]);
            let ordered = in_order(&sender.plain, &reader.plain, reader.d());
            self.agree(side, ordered, "the order of positions");
            self.claim_nothing_lost(side);
            self.claim_none_to_come(side);
        }
    }

    /// "At an open end that sent no A, with nothing under way and nothing unread,
    /// the bytes read are all bytes taken at the other."
    fn claim_nothing_lost(&mut self, side: usize) {
        let end = &self.ends[side];
        let quiet = end.is_open() && !end.record.abort_sent && end.coming.is_empty();
        if quiet && end.record.unread(end.n()) == 0 {
            let (read, taken) = (end.got.len(), self.ends[other(side)].took.len());
            if read == taken {
                self.nothing_lost += u64::from(taken > 0);
            } else {
                self.wrong.push(Wrong::Lost { side, read, taken });
            }
        }
    }

    /// "At an end whose slot has closed by any call but free, no byte of the
    /// connection is under way to it, then and at every later point of the list, and
    /// the other end may not send."
    fn claim_none_to_come(&mut self, side: usize) {
        let (end, peer) = (&self.ends[side], &self.ends[other(side)]);
        if !end.is_closed() || end.freed {
            return;
        }
        let bytes = end.bytes_under_way();
        let may_send = peer.is_open() && !send_forbidden(&peer.record);
        if bytes > 0 {
            self.wrong.push(Wrong::UnderWay { side, bytes });
        }
        if may_send {
            self.wrong.push(Wrong::MaySend { side });
        }
        self.none_to_come += u64::from(bytes == 0 && !may_send);
    }

    /// Whether the premises were met: all, or all with `OwnOpen` in the place of
    /// `StillOpen`.
    pub fn premises_met(&self) -> bool {
        self.broken.is_empty()
    }

    pub fn met_until_each(&self) -> bool {
        self.broken
            .iter()
            .all(|premise| *premise == Premise::StillOpen)
    }
}
