//! One switch for each premise: what breaks it, alone, and what then comes out.

use crate::books::{Closed, Owed, Premise, What};
use crate::call::{other, Call};
use crate::world::{strays_of, Act, Step, World};
use fordlinnet::{Message, Record};

#[derive(Clone, Copy, Debug, PartialEq, Eq)]
pub enum Fault {
    Size,
    Token,
    Key,
    Base,
    Index,
    OtherLink,
    MessageFirst,
    OrderAcrossMove,
    AbortFirst,
    LateWrite,
    Stranger,
    ReuseAfterFree,
    Forged,
    MessageTwice,
    MessageLost,
    Order,
    FailoverFirst,
    LinkDown,
    Memory,
    Table,
    SameToken,
}

/// What a broken premise may lead to, the worst first.
#[derive(Clone, Copy, Debug, PartialEq, Eq)]
pub enum Harm {
    /// A wrong byte is read.
    WrongByte,
    /// A byte is lost.
    LostByte,
    /// A message with F aborts a connection that lost nothing.
    Aborted,
    /// A message or a write of the connection is turned away.
    TurnedAway,
}

impl Harm {
    pub fn of(what: &What) -> Option<Harm> {
        match what {
            What::Byte { .. } => Some(Harm::WrongByte),
            What::Lost { .. } => Some(Harm::LostByte),
            What::Aborted => Some(Harm::Aborted),
            What::TurnedAway { .. } => Some(Harm::TurnedAway),
            _ => None,
        }
    }

    pub fn words(self) -> &'static str {
        match self {
            Harm::WrongByte => "a wrong byte is read",
            Harm::LostByte => "a byte is lost",
            Harm::Aborted => "a connection that lost nothing is aborted",
            Harm::TurnedAway => "a message of the connection is turned away",
        }
    }
}

pub struct Break {
    pub fault: Fault,
    pub name: &'static str,
    /// What is done.
    pub story: &'static str,
    pub premise: Premise,
    /// The worst that was found.
    pub harm: Harm,
}

use Harm::{Aborted, LostByte, WrongByte};
use Premise::{AsLeft, HeardInOrder, LinkActive, Matching, NoOthers, PerformedBefore, StillOpen};

const fn a(fault: Fault, name: &'static str, premise: Premise, harm: Harm, story: &'static str) -> Break {
    Break { fault, name, story, premise, harm }
}

pub const BREAKS: [Break; 21] = [
    a(Fault::Size, "size", Matching, WrongByte, "an end is opened with a wrong size of the peer's element"),
    a(Fault::Token, "token", Matching, WrongByte, "an end is opened with the token of another connection of the peer"),
    a(Fault::Key, "key", Matching, WrongByte, "an end is opened with a key that the peer's card does not know"),
    a(Fault::Base, "base", Matching, WrongByte, "an end is opened with a wrong base of the peer's memory"),
    a(Fault::Index, "index", Matching, WrongByte, "an end is opened with the index of another element"),
    a(Fault::OtherLink, "other-link", Matching, WrongByte, "the base is wrong of a link alone to which the connection moves later"),
    a(
        Fault::MessageFirst,
        "message-first",
        PerformedBefore,
        WrongByte,
        "a message is heard before the bytes that it announces are written",
    ),
    a(
        Fault::OrderAcrossMove,
        "order-across-move",
        PerformedBefore,
        WrongByte,
        "after a move the message, put again by the new link, overtakes a write on the old one",
    ),
    a(
        Fault::AbortFirst,
        "abort-first",
        HeardInOrder,
        WrongByte,
        "a message with A overtakes all before it; the slot is used again, as after A heard it may be, and an old write comes then",
    ),
    a(Fault::LateWrite, "late-write", NoOthers, WrongByte, "a write is repeated after its message was heard"),
    a(Fault::Stranger, "stranger", NoOthers, WrongByte, "somebody else writes a byte into the element, FF"),
    a(
        Fault::ReuseAfterFree,
        "reuse-after-free",
        NoOthers,
        WrongByte,
        "a slot that was freed is used again while writes of the old connection are under way, and one comes then",
    ),
    a(Fault::Forged, "forged", HeardInOrder, WrongByte, "a message is heard that the peer did not make"),
    a(Fault::MessageTwice, "message-twice", HeardInOrder, Aborted, "a message is heard twice"),
    a(Fault::MessageLost, "message-lost", HeardInOrder, LostByte, "a message is never heard"),
    a(Fault::Order, "order", HeardInOrder, LostByte, "a message overtakes the one before it"),
    a(Fault::FailoverFirst, "failover-first", HeardInOrder, Aborted, "after a move the message with F overtakes the one before it"),
    a(
        Fault::LinkDown,
        "link-down",
        LinkActive,
        WrongByte,
        "a write arrives while the connection's link is down here, and is not put again",
    ),
    a(Fault::Memory, "memory", AsLeft, WrongByte, "somebody writes the memory between two calls, FF"),
    a(Fault::Table, "table", AsLeft, WrongByte, "a record is put back as it was before the last call"),
    a(
        Fault::SameToken,
        "same-token",
        StillOpen,
        WrongByte,
        "an end aborts, frees and opens again with the same token, while the other end is open",
    ),
];

impl Fault {
    pub fn row(self) -> &'static Break {
        let row = BREAKS.iter().find(|row| row.fault == self);
        row.expect("every fault has its row")
    }

    pub fn premise(self) -> Premise {
        self.row().premise
    }

    /// Whether a run that breaks these premises breaks its own alone. A byte that lands in another connection's element, because the open
    /// did not match, is one of the "others" there; and an A that overtakes all overtakes writes too.
    pub fn alone(self, broken: &[Premise]) -> bool {
        broken.iter().all(|premise| match self {
            _ if *premise == self.premise() => true,
            Fault::AbortFirst => matches!(premise, PerformedBefore | NoOthers),
            _ => self.premise() == Matching && *premise == NoOthers,
        })
    }
}

/// What nobody sends where bytes are counted.
const NOBODYS: u8 = 0xFF;

impl World {
    /// The fault of this run at an end of a connection, where it can be. True where it happened.
    pub fn fault(&mut self, id: usize, side: usize, a: u32, b: u32) -> bool {
        let Some(fault) = self.setup.fault else { return false };
        let opens = fault.premise() == Matching;
        let too_soon = fault.premise() == PerformedBefore || fault == Fault::AbortFirst;
        if self.setup.mended && !opens && !too_soon {
            return false;
        }
        match fault {
            Fault::Size | Fault::Token | Fault::Key | Fault::Base | Fault::Index | Fault::OtherLink => {
                self.wrong_open(fault, id, side, a, b)
            }
            Fault::ReuseAfterFree => self.stray(side, Closed::ByFree, a),
            Fault::AbortFirst => self.abort_overtakes(id, side) || self.stray(side, Closed::ByA, a),
            Fault::MessageFirst => self.hear_too_soon(id, side, false),
            Fault::OrderAcrossMove => self.hear_too_soon(id, side, true),
            Fault::SameToken => self.open_again(id, side, b),
            _ => self.fault_at_open_end(fault, id, side, a),
        }
    }

    fn wrong_open(&mut self, fault: Fault, id: usize, side: usize, a: u32, b: u32) -> bool {
        let links: Vec<u8> = (1..=4).filter(|link| self.active(side, *link)).collect();
        let Some(books) = self.live(id).filter(|books| !books.ends[side].opened && !links.is_empty()) else { return false };
        let link = links[b as usize % links.len()];
        let slot = books.ends[side].slot;
        let mut opening = books.opening(side, link);
        let peer = other(side);
        let tokens = &mut opening.remote.rtokens;
        match fault {
            Fault::Size if a % 2 == 0 => opening.remote.size += 1,
            Fault::Size => opening.remote.size = (opening.remote.size - 1).max(8),
            Fault::Token => {
                let others = self.lives.iter().filter(|books| books.id != id && books.ends[peer].is_open());
                let Some(another) = others.map(|books| books.ends[peer].own).next() else { return false };
                opening.peer = another;
            }
            Fault::Key => tokens[usize::from(link) - 1].key += 1000,
            Fault::Base => tokens[usize::from(link) - 1].base += 1 + u64::from(a % 4),
            Fault::OtherLink => {
                tokens.iter_mut().enumerate().filter(|(place, _)| place + 1 != usize::from(link)).for_each(|(_, token)| token.base += 1)
            }
            _ => opening.remote.index = 1 + (opening.remote.index + a % self.setup.slots[peer]) % (self.setup.slots[peer] + 1),
        }
        if opening == books.opening(side, link) {
            return false;
        }
        if self.setup.mended {
            opening = books.opening(side, link);
        }
        self.count_reuse(side, slot);
        self.call(side, Call::Open { slot, opening });
        true
    }

    /// The first message under way is heard although not all bytes before it are written; `across` a move: these all went by a link that
    /// the sender has left.
    fn hear_too_soon(&mut self, id: usize, side: usize, across: bool) -> bool {
        if !self.own_active(id, side) {
            return false;
        }
        let Some(books) = self.live(id).filter(|books| books.ends[side].is_open()) else { return false };
        let (end, peer) = (&books.ends[side], &books.ends[other(side)]);
        let Some(first) = end.messages.front().filter(|_| !end.all_performed()) else { return false };
        let bytes = first.bytes;
        let mut missing = end.bytes.iter().filter(|owed| owed.number < first.after && !owed.performed);
        let left = peer.is_open() && missing.all(|owed| owed.link != peer.record.id.link);
        if across && !left {
            return false;
        }
        if self.setup.mended {
            self.write_all(id, side);
        }
        self.call(side, Call::Hear { bytes });
        true
    }

    /// A message with A is heard before all that went before it.
    fn abort_overtakes(&mut self, id: usize, side: usize) -> bool {
        if !self.own_active(id, side) {
            return false;
        }
        let Some(end) = self.live(id).map(|books| &books.ends[side]).filter(|end| end.is_open()) else { return false };
        let Some(place) = end.messages.iter().position(|carried| carried.bytes[25] & 0x20 != 0) else { return false };
        if place == 0 && end.all_performed() {
            return false;
        }
        if self.setup.mended {
            for _ in 0..=place {
                self.write_all(id, side);
                self.step(&Step { side, id, act: Act::Hear { noise: 0 } });
            }
            return true;
        }
        let bytes = end.messages[place].bytes;
        self.found.unless(place == 0, HeardInOrder);
        if let Some(books) = self.live_mut(id) {
            books.ends[side].messages.drain(..place);
        }
        self.call(side, Call::Hear { bytes });
        true
    }

    /// A byte that was not written when its slot closed comes now, and another connection has the slot.
    fn stray(&mut self, side: usize, closed: Closed, a: u32) -> bool {
        if self.setup.mended {
            return false;
        }
        let living = self.lives.iter().flat_map(strays_of);
        let all = self.strays.iter().copied().chain(living);
        let strays: Vec<Owed> = all.filter(|(at, how, _)| (*at, *how) == (side, closed)).map(|(.., owed)| owed).collect();
        if strays.is_empty() {
            return false;
        }
        let owed = strays[a as usize % strays.len()];
        let Some((slot, offset)) = self.resolve(side, &owed) else { return false };
        let has = |record: &&Record| record.id.opened;
        let taken = self.groups[side].record(slot).filter(has).is_some();
        if taken {
            self.call(side, Call::Place { slot, offset, bytes: vec![owed.value] });
        }
        taken
    }

    fn open_again(&mut self, id: usize, side: usize, b: u32) -> bool {
        let links: Vec<u8> = (1..=4).filter(|link| self.active(side, *link)).collect();
        let Some(books) = self.live(id) else { return false };
        let (end, peer) = (&books.ends[side], &books.ends[other(side)]);
        if end.closed != Some(Closed::ByFree) || peer.closed.is_some() || links.is_empty() {
            return false;
        }
        let slot = end.slot;
        let opening = books.opening(side, links[b as usize % links.len()]);
        self.found.unless(false, StillOpen);
        self.count_reuse(side, slot);
        if self.call(side, Call::Open { slot, opening }).refusal.is_some() {
            return true;
        }
        let record = self.groups[side].record(slot).copied();
        if let Some(books) = self.live_mut(id) {
            let end = &mut books.ends[side];
            end.closed = None;
            end.record = record.unwrap_or_default();
        }
        true
    }

    /// The faults at an end where the connection is open.
    fn fault_at_open_end(&mut self, fault: Fault, id: usize, side: usize, a: u32) -> bool {
        let active = self.own_active(id, side);
        let Some(end) = self.live(id).map(|books| &books.ends[side]).filter(|end| end.is_open()) else { return false };
        let (slot, record) = (end.slot, end.record);
        let some = |count: usize| (count > 0).then(|| a as usize % count);
        match fault {
            Fault::LateWrite => {
                let Some(owed) = some(end.past_bytes.len()).map(|place| end.past_bytes[place]).filter(|_| active) else { return false };
                let Some((slot, offset)) = self.resolve(side, &owed) else { return false };
                self.call(side, Call::Place { slot, offset, bytes: vec![owed.value] });
            }
            Fault::Stranger => {
                let offset = 4 + a % (end.size - 4);
                self.call(side, Call::Place { slot, offset, bytes: vec![NOBODYS] });
            }
            Fault::Forged => {
                let Some(bytes) = forged(&record, end.size, a).filter(|_| active) else { return false };
                self.call(side, Call::Hear { bytes });
            }
            Fault::MessageTwice => {
                let Some(place) = some(end.past_messages.len()).filter(|_| active) else { return false };
                let bytes = end.past_messages[place];
                self.call(side, Call::Hear { bytes });
            }
            Fault::MessageLost => {
                let Some(first) = end.messages.front().filter(|_| end.all_performed()) else { return false };
                let number = u16::from_be_bytes([first.bytes[2], first.bytes[3]]);
                self.found.unless(false, HeardInOrder);
                self.note_wire(side, format!("message {number} is lost"));
                let World { lives, found, .. } = self;
                if let Some(books) = lives.iter_mut().find(|books| books.id == id) {
                    books.ends[side].drop_message();
                    books.claim(side, found);
                }
            }
            Fault::Order | Fault::FailoverFirst => {
                let failover = |place: usize| end.messages.get(place).map(|carried| carried.bytes[24] & 0x08 != 0);
                if (failover(0), failover(1)) != (Some(false), Some(fault == Fault::FailoverFirst)) {
                    return false;
                }
                self.found.unless(false, HeardInOrder);
                self.note_wire(side, "the second message under way overtakes the first".to_string());
                if let Some(books) = self.live_mut(id) {
                    books.ends[side].messages.swap(0, 1);
                }
            }
            Fault::LinkDown => return !active && self.write(id, side, 0, 0, 0, false),
            Fault::Memory => {
                let unread = end.unread().max(1);
                let offset = 4 + (record.inbound.consumer.offset - 4 + a % unread) % (end.size - 4);
                let place = (slot as usize - 1) * end.size as usize + offset as usize;
                self.found.unless(false, AsLeft);
                self.note_wire(side, format!("somebody writes {NOBODYS:02X} into slot {slot} at {offset}"));
                self.groups[side].memory_mut()[place] = NOBODYS;
            }
            Fault::Table => {
                let old = self.record_before(side, slot);
                if old == record || old.id.own != record.id.own {
                    return false;
                }
                self.found.unless(false, AsLeft);
                self.note_wire(side, format!("the record of slot {slot} is put back as it was before the last call"));
                self.groups[side].table_mut()[slot as usize - 1] = old;
                if let Some(books) = self.live_mut(id) {
                    books.ends[side].record = old;
                }
            }
            _ => return false,
        }
        true
    }
}

/// A message with the next number and a producer further on, by any number of bytes that the element has free.
fn forged(record: &Record, size: u32, a: u32) -> Option<[u8; 44]> {
    let d = size - 4;
    let (p, t) = (record.inbound.producer, record.inbound.told);
    let window = if p.wrap == t.wrap { d - (p.offset - t.offset) } else { t.offset.checked_sub(p.offset)? };
    if window == 0 {
        return None;
    }
    let on = p.offset - 4 + 1 + a % window;
    let (offset, wrap) = (4 + on % d, p.wrap.wrapping_add((on / d) as u16));
    let r = record.outbound.consumer;
    let mut bytes = [0; 44];
    bytes[..2].copy_from_slice(&[0xFE, 0x2C]);
    bytes[2..4].copy_from_slice(&record.inbound.last.wrapping_add(1).to_be_bytes());
    bytes[4..8].copy_from_slice(&record.id.own.to_be_bytes());
    bytes[10..12].copy_from_slice(&wrap.to_be_bytes());
    bytes[12..16].copy_from_slice(&offset.to_be_bytes());
    bytes[18..20].copy_from_slice(&r.wrap.to_be_bytes());
    bytes[20..24].copy_from_slice(&r.offset.to_be_bytes());
    Message::try_from(&bytes[..]).ok().map(|message| *message.as_bytes())
}
