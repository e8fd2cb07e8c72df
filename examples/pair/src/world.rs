//! Two groups and what is between them. A step says what is to happen; it makes a call, or more, where the premises admit that, and nothing
//! otherwise. So every part of a list of steps is a list within the premises, and a list that shows something can be made smaller.

use crate::books::{Books, Closed, Findings, Owed, Premise, Seen, What, Wrong};
use crate::breaks::Fault;
use crate::call::{self, other, Answer, Call, How, Right, Rights, SIDES};
use crate::counts::Counts;
use crate::plain::WRAPS;
use crate::random::mixed;
use fordlinnet::{Group, LinkFields, LinkKind, RToken, Record, Refusal, Role, Row};

#[derive(Clone, Copy, Debug, PartialEq, Eq)]
pub enum Act {
    /// Both ends agree on a connection and its slots. No call.
    Begin {
        slots: [u32; 2],
    },
    Open {
        link: u8,
    },
    Send {
        len: u32,
        how: How,
    },
    /// Some of what is under way is written: from one of the bytes not yet written, or of all where it is done again, so many offsets back,
    /// and so many on (0: as far as it goes).
    Write {
        pick: u32,
        back: u32,
        len: u32,
        again: bool,
    },
    /// A write of no bytes.
    Nothing {
        offset: u32,
    },
    /// The first message under way, with reserved bits by `noise`.
    Hear {
        noise: u64,
    },
    /// The message heard last arrives once more.
    Repeat,
    Read {
        room: u32,
    },
    Shutdown,
    Close,
    Abort,
    Free,
    /// It is known that nothing can arrive any more in a slot that was freed. No call.
    Gone {
        slot: u32,
    },
    Link {
        link: u8,
        up: bool,
    },
    /// DELETE LINK over another link: the server sends it, both take the link down.
    Delete {
        link: u8,
        over: u8,
    },
    /// What breaks the premise of this run.
    Fault {
        a: u32,
        b: u32,
    },
}

#[derive(Clone, Copy, Debug, PartialEq, Eq)]
pub struct Step {
    pub side: usize,
    /// The connection.
    pub id: usize,
    pub act: Act,
}

/// The groups, and which premise may be broken.
#[derive(Clone, Debug)]
pub struct Setup {
    pub slots: [u32; 2],
    pub sizes: [u32; 2],
    /// Keys and bases of each group's memory, by links of the other.
    pub reach: [[RToken; 4]; 2],
    pub server: usize,
    /// From which the bytes sent are made; without one they are counted from 1.
    pub seed: Option<u64>,
    pub fault: Option<Fault>,
    /// What would break the premise is done as it should be, or left out.
    pub mended: bool,
}

/// What was in a slot before.
#[derive(Clone, Copy, Debug, PartialEq, Eq)]
enum Past {
    Fresh,
    Safe,
    Freed,
    Gone,
}

/// A call in words, or what happened on the wire.
#[derive(Clone, Debug)]
pub struct Line {
    pub side: usize,
    pub did: String,
    pub said: String,
    /// It is the fault.
    pub fault: bool,
}

pub struct World {
    pub setup: Setup,
    pub groups: [Group; 2],
    pub rights: [Rights; 2],
    pub lives: Vec<Books>,
    past: [Vec<Past>; 2],
    /// Bytes that were never written to slots that closed since, and how these closed.
    pub strays: Vec<(usize, Closed, Owed)>,
    /// The table of each end before its last call.
    before: [Vec<Record>; 2],
    sent: u64,
    pub found: Findings,
    pub counts: Counts,
    pub log: Option<Vec<Line>>,
    pub in_fault: bool,
}

impl World {
    pub fn new(setup: Setup) -> World {
        let mut groups = [0, 1].map(|side: usize| {
            let (s, n) = (setup.slots[side], setup.sizes[side]);
            let group = if side == setup.server { Group::fresh_server(s, n) } else { Group::fresh(s, n) };
            group.expect("sizes are in range")
        });
        World {
            past: setup.slots.map(|slots| vec![Past::Fresh; slots as usize]),
            before: [groups[0].table().to_vec(), groups[1].table().to_vec()],
            rights: groups.each_mut().map(Rights::of),
            setup,
            groups,
            lives: Vec::new(),
            strays: Vec::new(),
            sent: 0,
            found: Findings::default(),
            counts: Counts::default(),
            log: None,
            in_fault: false,
        }
    }

    pub fn live(&self, id: usize) -> Option<&Books> {
        self.lives.iter().find(|books| books.id == id)
    }

    pub fn live_mut(&mut self, id: usize) -> Option<&mut Books> {
        self.lives.iter_mut().find(|books| books.id == id)
    }

    pub fn active(&self, side: usize, link: u8) -> bool {
        (1..=4).contains(&link) && self.groups[side].links().active[usize::from(link) - 1]
    }

    /// The record of a slot before the last call at that end.
    pub fn record_before(&self, side: usize, slot: u32) -> Record {
        self.before[side][slot as usize - 1]
    }

    /// Whether the link that the connection's record names is active.
    pub fn own_active(&self, id: usize, side: usize) -> bool {
        self.live(id).is_some_and(|books| self.active(side, books.ends[side].record.id.link))
    }

    /// The rule of reuse: a slot that closed by both C, or by A heard, may be used again; a slot that was freed, once nothing can arrive.
    pub fn may_begin(&self, side: usize, slot: u32) -> bool {
        let held = self.lives.iter().any(|books| books.ends[side].slot == slot && books.ends[side].closed.is_none());
        !held
            && match self.rights[side].get(slot) {
                Right::Quiet(_) => true,
                Right::Freed(_) => self.setup.fault == Some(Fault::ReuseAfterFree),
                Right::InUse => false,
            }
    }

    /// Slots that were freed, of which nothing more is known.
    pub fn freed(&self, side: usize) -> impl Iterator<Item = u32> + '_ {
        (1..).zip(&self.past[side]).filter(|(_, past)| **past == Past::Freed).map(|(slot, _)| slot)
    }

    /// The next bytes to be sent.
    fn fresh_bytes(&mut self, len: u32) -> Vec<u8> {
        let first = self.sent;
        self.sent += u64::from(len);
        match self.setup.seed {
            Some(seed) => (first..self.sent).map(|number| mixed(seed ^ mixed(number)) as u8).collect(),
            None => (first..self.sent).map(|number| (number % 250) as u8 + 1).collect(),
        }
    }

    /// Makes a call and shows it to the books of all connections.
    pub fn call(&mut self, side: usize, call: Call) -> Answer {
        let before = &mut self.before[side];
        before.clear();
        before.extend_from_slice(self.groups[side].table());
        let links = self.groups[side].links().active;
        let answer = call::make(&mut self.groups[side], &mut self.rights[side], &call);
        self.count(side, &call, &answer);
        self.note(side, &call, &answer);
        let group = &self.groups[side];
        let seen = Seen { side, call: &call, answer: &answer, before: &self.before[side], links, group };
        for books in &mut self.lives {
            let open = books.ends[side].is_open();
            books.see(&seen, &mut self.found);
            let end = &books.ends[side];
            if !open && end.is_open() && books.ends[other(side)].opened {
                self.counts.connections += 1;
            }
            let closed = end.closed.filter(|_| open);
            let counts = &mut self.counts;
            let past = match closed {
                None => continue,
                Some(Closed::ByFree) => {
                    counts.freed += 1;
                    counts.left_behind += end.bytes.len() as u64;
                    Past::Freed
                }
                Some(Closed::ByA) => {
                    counts.closed_by_a += 1;
                    Past::Safe
                }
                Some(Closed::ByC) => {
                    counts.closed_by_c += 1;
                    Past::Safe
                }
            };
            self.past[side][end.slot as usize - 1] = past;
            let right = matches!((past, self.rights[side].get(end.slot)), (Past::Freed, Right::Freed(_)) | (Past::Safe, Right::Quiet(_)));
            if !right {
                self.found.wrong.push(Wrong { id: books.id, side, what: What::Right });
            }
        }
        self.retire();
        answer
    }

    /// Takes out the connections that are over at both ends.
    fn retire(&mut self) {
        let over = |books: &Books| books.ends.iter().all(|end| end.closed.is_some());
        for which in (0..self.lives.len()).rev() {
            if over(&self.lives[which]) {
                let books = self.lives.swap_remove(which);
                self.count_books(&books);
                if self.setup.fault.is_some() {
                    self.strays.extend(strays_of(&books));
                }
            }
        }
    }

    fn count_books(&mut self, books: &Books) {
        for side in 0..2 {
            let (end, peer) = (&books.ends[side], &books.ends[other(side)]);
            self.counts.laps += end.taken / peer.d();
            self.counts.wraps += u64::from(end.taken / peer.d() >= WRAPS);
            self.counts.numbers += u64::from(end.plain.made >= WRAPS);
        }
    }

    /// Counts what only the end of a list shows.
    pub fn finish(&mut self) -> Counts {
        for books in std::mem::take(&mut self.lives) {
            self.count_books(&books);
        }
        self.counts.nothing_lost = self.found.nothing_lost;
        self.counts.none_to_come = self.found.none_to_come;
        std::mem::take(&mut self.counts)
    }

    fn count(&mut self, side: usize, call: &Call, answer: &Answer) {
        let counts = &mut self.counts;
        match call {
            Call::Open { .. } => counts.opens += 1,
            Call::Free { .. } => counts.frees += 1,
            Call::Send { how: How::Plain, .. } => counts.sends += 1,
            Call::Send { how: How::Urgent, .. } => counts.urgent += 1,
            Call::Send { .. } => counts.gathers += 1,
            Call::Place { bytes, .. } => {
                counts.places += 1;
                counts.placed += bytes.len() as u64;
                counts.refused_7 += u64::from(answer.refusal == Some(Refusal::State));
            }
            Call::Read { .. } => counts.reads += 1,
            Call::Hear { bytes } => {
                counts.hears += 1;
                counts.failovers += u64::from(bytes[24] & 0x08 != 0 && answer.refusal.is_none());
            }
            Call::Shutdown { .. } | Call::Close { .. } | Call::Abort { .. } => counts.endings += 1,
            Call::Link { .. } | Call::LinkMessage { .. } | Call::LinkSend { .. } => {
                counts.link_calls += 1;
                counts.several += u64::from(answer.told.len() >= 2);
                counts.told += answer.told.len() as u64;
                let moved = |(was, is): &(&Record, &Record)| was.id.link != is.id.link && was.marks.abort;
                counts.silent += self.before[side].iter().zip(self.groups[side].table()).filter(moved).count() as u64;
            }
        }
        counts.taken += answer.taken as u64;
        counts.read += answer.read.len() as u64;
        counts.down += u64::from(answer.refusal == Some(Refusal::LinkDown));
    }

    fn note(&mut self, side: usize, call: &Call, answer: &Answer) {
        if let Some(log) = &mut self.log {
            log.push(Line { side, did: call.words(), said: answer.words(call), fault: self.in_fault });
        }
    }

    /// Something that is no call.
    pub fn note_wire(&mut self, side: usize, did: String) {
        if let Some(log) = &mut self.log {
            log.push(Line { side, did, said: String::new(), fault: self.in_fault });
        }
    }

    /// A stranger's call: it is refused and changes nothing, or that is wrong. The books are not shown it (`RefusedMayStand`).
    fn stranger(&mut self, id: usize, side: usize, call: Call, refusal: Refusal) {
        let before = self.groups[side].clone();
        let answer = call::make(&mut self.groups[side], &mut self.rights[side], &call);
        self.count(side, &call, &answer);
        self.note(side, &call, &answer);
        if answer.refusal != Some(refusal) || self.groups[side] != before {
            self.found.wrong.push(Wrong { id, side, what: What::Stranger });
        }
    }

    /// What is to happen, where it may. True where something did.
    pub fn step(&mut self, step: &Step) -> bool {
        let Step { side, id, act } = *step;
        match act {
            Act::Begin { slots } => return self.begin(id, slots),
            Act::Gone { slot } => {
                let past = self.past[side].get_mut((slot as usize).wrapping_sub(1));
                let unknown = self.setup.fault == Some(Fault::ReuseAfterFree);
                let Some(past) = past.filter(|past| **past == Past::Freed && !unknown) else { return false };
                *past = Past::Gone;
                self.rights[side].swear(slot);
                self.note_wire(side, format!("nothing can arrive in slot {slot} any more: its queue pair is down"));
                return true;
            }
            Act::Link { link, up } => {
                let changes = self.active(side, link) != up;
                if changes {
                    self.call(side, Call::Link { link, up });
                }
                return changes;
            }
            Act::Delete { link, over } => return self.delete(link, over),
            Act::Fault { a, b } => {
                self.in_fault = true;
                let happened = self.fault(id, side, a, b);
                self.in_fault = false;
                return happened;
            }
            _ => {}
        }
        let Some(end) = self.live(id).map(|books| &books.ends[side]) else { return false };
        if end.closed.is_some() {
            return false;
        }
        let (slot, opened) = (end.slot, end.opened);
        match act {
            Act::Open { link } => {
                let may = !opened && self.active(side, link);
                return may && self.open(id, side, link);
            }
            Act::Hear { .. } if !opened => {
                let Some(first) = end.messages.front() else { return false };
                let bytes = first.bytes;
                self.counts.early += 1;
                self.stranger(id, side, Call::Hear { bytes }, Refusal::Token);
                return true;
            }
            _ if !opened => return false,
            Act::Send { len, how } => self.send(id, side, len, how),
            Act::Write { .. } | Act::Nothing { .. } | Act::Hear { .. } | Act::Repeat if !self.own_active(id, side) => return false,
            Act::Write { pick, back, len, again } => return self.write(id, side, pick, back, len, again),
            Act::Nothing { offset } => {
                self.counts.empty += 1;
                self.call(side, Call::Place { slot, offset, bytes: Vec::new() });
            }
            Act::Hear { .. } if self.setup.mended && !end.all_performed() => {
                self.write_all(id, side);
                let written = self.live(id).is_some_and(|books| books.ends[side].all_performed());
                return written && self.step(step);
            }
            Act::Hear { noise } => {
                let first = end.messages.front().filter(|_| end.all_performed());
                let Some(mut bytes) = first.map(|first| first.bytes) else { return false };
                if noise != 0 {
                    self.counts.reserved += 1;
                    make_noise(&mut bytes, noise);
                }
                self.call(side, Call::Hear { bytes });
            }
            Act::Repeat => {
                let last = end.past_messages.back().copied();
                let Some(bytes) = last.filter(|bytes| bytes[24] & 0x08 == 0 && !end.record.marks.abort) else { return false };
                self.counts.repeated += 1;
                self.stranger(id, side, Call::Hear { bytes }, Refusal::Sequence);
            }
            Act::Read { room } => _ = self.call(side, Call::Read { slot, room: room as usize }),
            Act::Shutdown => _ = self.call(side, Call::Shutdown { slot }),
            Act::Close => _ = self.call(side, Call::Close { slot }),
            Act::Abort => _ = self.call(side, Call::Abort { slot }),
            Act::Free => _ = self.call(side, Call::Free { slot }),
            Act::Begin { .. } | Act::Gone { .. } | Act::Link { .. } | Act::Delete { .. } | Act::Fault { .. } => return false,
        }
        true
    }

    fn begin(&mut self, id: usize, slots: [u32; 2]) -> bool {
        let may = self.live(id).is_none() && (0..2).all(|side| self.may_begin(side, slots[side]));
        if may {
            let mut books = Books::new(id, slots, self.setup.sizes, self.setup.reach);
            let fault = self.setup.fault.filter(|_| !self.setup.mended);
            books.engine = fault.is_none();
            books.lenient = fault.is_some_and(|fault| fault.premise() == Premise::Matching);
            self.lives.push(books);
        }
        may
    }

    /// Opens an end by what was agreed.
    fn open(&mut self, id: usize, side: usize, link: u8) -> bool {
        let Some(books) = self.live(id) else { return false };
        let (slot, opening) = (books.ends[side].slot, books.opening(side, link));
        self.count_reuse(side, slot);
        let answer = self.call(side, Call::Open { slot, opening });
        if answer.refusal.is_some() {
            self.found.wrong.push(Wrong { id, side, what: What::Stranger });
        }
        true
    }

    /// Counts that a slot is used again. One that was freed, and of which nothing more is known, is sworn for falsely: a fault.
    pub fn count_reuse(&mut self, side: usize, slot: u32) {
        self.rights[side].swear(slot);
        let past = std::mem::replace(&mut self.past[side][slot as usize - 1], Past::Fresh);
        if past == Past::Fresh {
            return;
        }
        self.counts.again_safe += u64::from(past == Past::Safe);
        self.counts.again_gone += u64::from(past == Past::Gone);
        let old = |books: &&Books| books.ends[side].slot == slot && books.ends[side].closed.is_some() && books.ends[other(side)].is_open();
        self.counts.again_early += u64::from(self.lives.iter().any(|books| old(&books)));
    }

    fn send(&mut self, id: usize, side: usize, len: u32, how: How) {
        let Some(books) = self.live(id) else { return };
        let (slot, early) = (books.ends[side].slot, !books.ends[other(side)].opened);
        let stood = books.ends[side].record.outbound.urgent.standing;
        let how = if let How::Parted(at) = how { How::Parted(at.min(len)) } else { how };
        let bytes = self.fresh_bytes(len);
        let answer = self.call(side, Call::Send { slot, how, bytes });
        if answer.refusal.is_none() {
            self.counts.waits += u64::from(stood && len > 0);
            self.counts.cut_short += u64::from(!stood && answer.taken < len as usize);
            self.counts.early_sends += u64::from(early && answer.taken > 0);
        }
    }

    /// Where the card at this end finds the byte's place: by the key of the link, and the address.
    pub fn resolve(&self, side: usize, owed: &Owed) -> Option<(u32, u32)> {
        let token = self.setup.reach[side][usize::from(owed.link) - 1];
        let size = u64::from(self.setup.sizes[side]);
        let place = owed.address.checked_sub(token.base)?;
        let there = token.key == owed.key && place < u64::from(self.setup.slots[side]) * size;
        there.then_some(((place / size) as u32 + 1, (place % size) as u32))
    }

    /// Writes some of what is under way, as the card does: a run of places to each of which a byte is under way.
    pub fn write(&mut self, id: usize, side: usize, pick: u32, back: u32, len: u32, again: bool) -> bool {
        let Some(books) = self.live(id) else { return false };
        let end = &books.ends[side];
        let chosen = if again {
            (!end.bytes.is_empty()).then(|| pick as usize % end.bytes.len())
        } else {
            let due = end.bytes.iter().filter(|owed| !owed.performed).count();
            let mut numbered = (0..end.bytes.len()).filter(|place| !end.bytes[*place].performed);
            (due > 0).then(|| numbered.nth(pick as usize % due)).flatten()
        };
        let Some(chosen) = chosen else { return false };
        let Some((slot, offset)) = self.resolve(side, &end.bytes[chosen]) else {
            // the card does not know the key, or the address is outside its memory
            let owed = end.bytes[chosen];
            self.handled(id, side, &[chosen]);
            self.note_wire(
                side,
                format!("the card turns the write of {:02X} away: key {}, address {}", owed.value, owed.key, owed.address),
            );
            return true;
        };
        let mut at = vec![None; self.setup.sizes[side] as usize];
        for (place, owed) in end.bytes.iter().enumerate() {
            if let Some((_, offset)) = self.resolve(side, owed).filter(|(in_slot, _)| *in_slot == slot) {
                at[offset as usize] = Some(place);
            }
        }
        at[offset as usize] = Some(chosen);
        let mut first = offset as usize;
        for _ in 0..back {
            if first == 0 || at[first - 1].is_none() {
                break;
            }
            first -= 1;
        }
        let most = if len == 0 { usize::MAX } else { len as usize };
        let run: Vec<usize> = at[first..].iter().map_while(|place| *place).take(most).collect();
        let bytes: Vec<u8> = run.iter().map(|place| end.bytes[*place].value).collect();
        let counts = count_run(&run, end);
        self.counts.add(&counts);
        self.handled(id, side, &run);
        self.call(side, Call::Place { slot, offset: first as u32, bytes });
        true
    }

    /// Writes all that the first message announces.
    pub fn write_all(&mut self, id: usize, side: usize) {
        let missing =
            |world: &World| world.live(id).map_or(0, |books| books.ends[side].bytes.iter().filter(|owed| !owed.performed).count());
        let mut before = usize::MAX;
        while missing(self) < before {
            before = missing(self);
            self.write(id, side, 0, 0, 0, false);
        }
    }

    /// Where an open does not match, a byte may land elsewhere: it is done when the card has done with it.
    fn handled(&mut self, id: usize, side: usize, places: &[usize]) {
        let Some(books) = self.live_mut(id).filter(|books| books.lenient) else { return };
        for place in places {
            books.ends[side].bytes[*place].performed = true;
        }
    }

    /// DELETE LINK: the server sends it over another link, the client hears it and replies, the server hears that.
    fn delete(&mut self, link: u8, over: u8) -> bool {
        let (server, client) = (self.setup.server, other(self.setup.server));
        debug_assert_eq!(self.groups[server].role(), Role::Server);
        if link == over || !self.active(server, over) || !self.active(client, over) {
            return false;
        }
        let fields = LinkFields::new(LinkKind::DeleteLink).with(Row::Link, u64::from(link));
        let Some(bytes) = self.call(server, Call::LinkSend { link: over, fields }).link_message else { return true };
        let Some(bytes) = self.call(client, Call::LinkMessage { link: over, bytes }).link_message else { return true };
        self.call(server, Call::LinkMessage { link: over, bytes });
        true
    }

    /// Where the run is told: the lines so far.
    pub fn told(&mut self) -> Vec<Line> {
        self.log.take().unwrap_or_default()
    }
}

impl Line {
    pub fn words(&self) -> String {
        let said = if self.said.is_empty() || self.said == "done" { String::new() } else { format!("\n             -> {}", self.said) };
        let fault = if self.fault { "   <== breaks the premise" } else { "" };
        format!("{:4}  {}{fault}{said}", SIDES[self.side], self.did)
    }
}

/// The bytes that were not written at the ends of a connection that closed.
pub fn strays_of(books: &Books) -> Vec<(usize, Closed, Owed)> {
    let mut strays = Vec::new();
    for (side, end) in books.ends.iter().enumerate() {
        let Some(closed) = end.closed else { continue };
        let missing = end.past_bytes.iter().chain(&end.bytes).filter(|owed| !owed.performed);
        strays.extend(missing.map(|owed| (side, closed, *owed)));
    }
    strays
}

/// What is not looked at: the reserved bytes and bits.
fn make_noise(bytes: &mut [u8; 44], noise: u64) {
    for (place, at) in [8, 9, 16, 17].into_iter().chain(26..44).enumerate() {
        bytes[at] = mixed(noise.wrapping_add(place as u64)) as u8;
    }
    bytes[24] |= (noise & 0x07) as u8;
    bytes[25] |= (noise >> 8 & 0x1F) as u8;
}

/// What kind of a write it is, by the bytes under way that it performs.
fn count_run(run: &[usize], end: &crate::books::End) -> Counts {
    // how many messages stand before a byte
    let before = |place: &usize| end.messages.iter().filter(|carried| carried.after <= end.bytes[*place].number).count();
    let lowest = run.iter().map(before).min().unwrap_or(0);
    let highest = run.iter().map(before).max().unwrap_or(0);
    let whole = || (0..end.bytes.len()).filter(|place| before(place) == highest).count();
    let earliest = run.iter().min().copied().unwrap_or(0);
    Counts {
        parts: u64::from(lowest == highest && run.len() < whole()),
        joined: u64::from(lowest < highest),
        ahead: u64::from(highest > 0),
        again: u64::from(run.iter().any(|place| end.bytes[*place].performed)),
        out_of_order: u64::from(end.bytes.iter().take(earliest).any(|owed| !owed.performed)),
        ..Counts::default()
    }
}
