//! Read, send, urgent send, gather, hear, place, shutdown, close, abort and link change in ordinary Rust, straight and unproved: the whole
//! of each call, with its refusals, the record, the update test and the message, as one would write it without proofs. Records are changed
//! where they lie; nothing is copied but the bytes.
//!
//! The record is the crate's own (`fordlinnet::Record`), so that both sides work on the same bytes. The calls are not inlined into their
//! caller, as those of a library are not.

use fordlinnet::{Cursor, Exchange, Gauge, Links, Marks, Queue, Record, Refusal, Sort, State, Urgent};

pub const EYE_CATCHER: [u8; 4] = [0xE2, 0xD4, 0xC3, 0xD9];

/// What a call is lent.
pub struct Group<'a> {
    pub s: u32,
    pub n: u32,
    pub memory: &'a mut [u8],
    pub table: &'a mut [Record],
    pub links: &'a mut Links,
}

pub type Bytes44 = [u8; 44];

#[derive(Clone, Copy, Debug, PartialEq)]
pub struct Placing {
    pub key: u32,
    pub address: u64,
    pub start: u32,
    pub len: u32,
}

#[derive(Clone, Copy, Debug, PartialEq)]
pub struct Sent {
    pub taken: u32,
    pub placings: [Option<Placing>; 2],
    pub message: Option<Bytes44>,
}

#[derive(Clone, Copy, Debug, PartialEq)]
pub struct Piece<'b> {
    pub key: u32,
    pub address: u64,
    pub bytes: &'b [u8],
}

#[derive(Clone, Copy, Debug, PartialEq)]
pub struct Gathered<'b> {
    pub taken: u32,
    pub pieces: [Piece<'b>; 3],
    pub message: Option<Bytes44>,
}

#[derive(Clone, Copy, Debug, PartialEq)]
pub enum Read {
    Bytes { count: u32, message: Option<Bytes44> },
    Torn { message: Bytes44 },
}

#[derive(Clone, Copy, Debug, PartialEq)]
pub struct Heard {
    pub moved: u64,
    pub state: State,
    pub message: Option<Bytes44>,
}

#[derive(Clone, Copy, Debug, PartialEq)]
pub enum Closed {
    InOrder(Bytes44),
    Reset(Bytes44),
}

fn in_range(n: u32, c: Cursor) -> bool {
    4 <= c.offset && c.offset < n
}

fn distance(n: u32, from: Cursor, to: Cursor) -> i64 {
    let d = i64::from(n) - 4;
    i64::from(to.wrap.wrapping_sub(from.wrap)) * d + i64::from(to.offset) - i64::from(from.offset)
}

/// By at most D.
fn step(n: u32, c: Cursor, by: u32) -> Cursor {
    let offset = c.offset + by;
    if offset < n {
        Cursor { offset, wrap: c.wrap }
    } else {
        Cursor { offset: offset - (n - 4), wrap: c.wrap.wrapping_add(1) }
    }
}

fn good(n: u32, distance: i64) -> bool {
    0 <= distance && distance <= i64::from(n) - 4
}

/// An urgent place lies after one cursor and up to another.
fn place_ok(n: u32, from: Cursor, to: Cursor, u: Urgent) -> bool {
    if !u.standing {
        return true;
    }
    let ahead = distance(n, from, u.place);
    in_range(n, u.place) && good(n, ahead) && 1 <= ahead && ahead <= distance(n, from, to)
}

pub fn coherent(n: u32, r: &Record) -> bool {
    let peer = &r.remote;
    if r.id.own == 0 || r.id.peer == 0 || !(1..=4).contains(&r.id.link) || !(8..=65_540).contains(&peer.size) {
        return false;
    }
    if !(1..=255).contains(&peer.index) || (r.marks.sent.closed && r.marks.heard.closed) {
        return false;
    }
    let end = u64::from(peer.index) * u64::from(peer.size);
    if peer.rtokens.iter().any(|t| t.base.checked_add(end - 1).is_none()) {
        return false;
    }
    let (i, o) = (&r.inbound, &r.outbound);
    if !(in_range(n, i.producer) && in_range(n, i.consumer) && in_range(n, i.told)) {
        return false;
    }
    if !(in_range(peer.size, o.producer) && in_range(peer.size, o.consumer)) {
        return false;
    }
    let (behind, ahead) = (distance(n, i.told, i.consumer), distance(n, i.consumer, i.producer));
    good(n, behind)
        && good(n, ahead)
        && behind + ahead <= i64::from(n) - 4
        && good(peer.size, distance(peer.size, o.consumer, o.producer))
        && place_ok(n, i.consumer, i.producer, i.urgent)
        && place_ok(peer.size, o.consumer, o.producer, o.urgent)
}

/// The message of a record.
pub fn written(r: &Record, sequence: u16) -> Bytes44 {
    let mut m = [0; 44];
    let (q, c) = (r.outbound.producer, r.inbound.consumer);
    let urgent = u8::from(r.outbound.urgent.standing);
    m[0] = 0xFE;
    m[1] = 0x2C;
    m[2..4].copy_from_slice(&sequence.to_be_bytes());
    m[4..8].copy_from_slice(&r.id.peer.to_be_bytes());
    m[10..12].copy_from_slice(&q.wrap.to_be_bytes());
    m[12..16].copy_from_slice(&q.offset.to_be_bytes());
    m[18..20].copy_from_slice(&c.wrap.to_be_bytes());
    m[20..24].copy_from_slice(&c.offset.to_be_bytes());
    m[24] = u8::from(r.outbound.blocked) << 7 | urgent << 6 | urgent << 5;
    m[25] = u8::from(r.marks.sent.done) << 7 | u8::from(r.marks.sent.closed) << 6 | u8::from(r.marks.abort) << 5;
    m
}

/// Makes a message: T becomes C, and the next sequence number is used.
fn usual_message(r: &mut Record) -> Bytes44 {
    let m = written(r, r.outbound.next);
    r.inbound.told = r.inbound.consumer;
    r.outbound.next = r.outbound.next.wrapping_add(1);
    m
}

/// Our D or C: the first of all marks is ours, where no other stands.
fn mark(m: &mut Marks) {
    m.first |= !(m.sent.done | m.sent.closed | m.heard.done | m.heard.closed);
}

impl Group<'_> {
    pub fn sizes_ok(&self) -> bool {
        (1..=255).contains(&self.s)
            && (8..=65_540).contains(&self.n)
            && self.memory.len() == self.s as usize * self.n as usize
            && self.table.len() == self.s as usize
    }

    fn sound(&self, at: usize) -> Result<(), Refusal> {
        let r = &self.table[at];
        if !coherent(self.n, r) {
            return Err(Refusal::Incoherent);
        }
        if !self.links.active[r.id.link as usize - 1] {
            return Err(Refusal::LinkDown);
        }
        Ok(())
    }

    /// Refusals 1, 2, 3 and 6; the slot's place in the table.
    fn slot(&self, slot: u32) -> Result<usize, Refusal> {
        if !self.sizes_ok() {
            return Err(Refusal::Sizes);
        }
        if !(1 <= slot && slot <= self.s && self.table[slot as usize - 1].id.opened) {
            return Err(Refusal::Slot);
        }
        let at = slot as usize - 1;
        self.sound(at)?;
        Ok(at)
    }

    #[inline(never)]
    pub fn read(&mut self, slot: u32, out: &mut [u8]) -> Result<Read, Refusal> {
        let at = self.slot(slot)?;
        let n = self.n;
        let r = &mut self.table[at];
        if r.marks.sent.closed || r.marks.abort {
            return Err(Refusal::State);
        }
        let element = &self.memory[at * n as usize..(at + 1) * n as usize];
        if element[..4] != EYE_CATCHER {
            r.marks.abort = true;
            return Ok(Read::Torn { message: usual_message(r) });
        }
        let i = &mut r.inbound;
        let unread = distance(n, i.consumer, i.producer) as usize;
        let count = unread.min(out.len());
        let from = i.consumer.offset as usize;
        let first = count.min(n as usize - from);
        out[..first].copy_from_slice(&element[from..from + first]);
        out[first..count].copy_from_slice(&element[4..4 + count - first]);
        i.consumer = step(n, i.consumer, count as u32);
        let reached = i.urgent.standing && distance(n, i.consumer, i.producer) <= distance(n, i.urgent.place, i.producer);
        if reached {
            i.urgent = Urgent::default();
        }
        let d = i64::from(n) - 4;
        let window = d - distance(n, i.told, i.producer);
        let due = i.blocked || i.request || reached || (2 * window < d && 10 * distance(n, i.told, i.consumer) >= d);
        let message = if count > 0 && due { Some(usual_message(r)) } else { None };
        Ok(Read::Bytes { count: count as u32, message })
    }

    #[inline(never)]
    pub fn place(&mut self, slot: u32, offset: u32, bytes: &[u8]) -> Result<(), Refusal> {
        let at = self.slot(slot)?;
        let n = self.n;
        let r = &self.table[at];
        if r.marks.abort || r.marks.heard.done || r.marks.heard.closed {
            return Err(Refusal::State);
        }
        if bytes.is_empty() {
            return Ok(());
        }
        if offset < 4 || offset >= n || bytes.len() > (n - offset) as usize {
            return Err(Refusal::Placing);
        }
        let d = i64::from(n) - 4;
        let p = r.inbound.producer;
        let window = d - distance(n, r.inbound.told, p);
        let mut ahead = i64::from(offset) - i64::from(p.offset);
        if ahead < 0 {
            ahead += d;
        }
        if window < d && ahead + bytes.len() as i64 > window {
            return Err(Refusal::Placing);
        }
        let start = at * n as usize + offset as usize;
        self.memory[start..start + bytes.len()].copy_from_slice(bytes);
        Ok(())
    }

    #[inline(never)]
    pub fn send(&mut self, slot: u32, bytes: &[u8]) -> Result<Sent, Refusal> {
        self.sent(slot, bytes, false)
    }

    #[inline(never)]
    pub fn urgent_send(&mut self, slot: u32, bytes: &[u8]) -> Result<Sent, Refusal> {
        self.sent(slot, bytes, true)
    }

    #[inline(always)]
    fn sent(&mut self, slot: u32, bytes: &[u8], urgent: bool) -> Result<Sent, Refusal> {
        let at = self.slot(slot)?;
        let r = &mut self.table[at];
        let m = &r.marks;
        if m.sent.done || m.sent.closed || m.abort || m.heard.closed {
            return Err(Refusal::State);
        }
        if bytes.is_empty() || r.outbound.urgent.standing {
            return Ok(Sent { taken: 0, placings: [None; 2], message: None });
        }
        let size = r.remote.size;
        let q = r.outbound.producer;
        let room = i64::from(size) - 4 - distance(size, r.outbound.consumer, q);
        let taken = (room as usize).min(bytes.len()) as u32;
        let token = r.remote.rtokens[r.id.link as usize - 1];
        let element = token.base + u64::from(r.remote.index - 1) * u64::from(size);
        let first = taken.min(size - q.offset);
        let placing = |offset: u32, start: u32, len: u32| {
            let address = element + u64::from(offset);
            (len > 0).then_some(Placing { key: token.key, address, start, len })
        };
        let placings = [placing(q.offset, 0, first), placing(4, first, taken - first)];
        r.outbound.producer = step(size, q, taken);
        let left = (taken as usize) < bytes.len();
        let told = r.outbound.blocked;
        r.outbound.blocked = left;
        if urgent && !left {
            r.outbound.urgent = Urgent { standing: true, place: r.outbound.producer };
        }
        let message = if urgent || taken > 0 || (left && !told) {
            let mut m = usual_message(r);
            // P, where it is cut short too
            m[24] |= u8::from(urgent) << 6;
            Some(m)
        } else {
            None
        };
        Ok(Sent { taken, placings, message })
    }

    /// Up to an empty piece: what lies before the element's end, and what behind its beginning, cut where the head ends.
    #[inline(never)]
    pub fn gather<'b>(&mut self, slot: u32, head: &'b [u8], body: &'b [u8]) -> Result<Gathered<'b>, Refusal> {
        let at = self.slot(slot)?;
        let r = &mut self.table[at];
        let m = &r.marks;
        if m.sent.done || m.sent.closed || m.abort || m.heard.closed {
            return Err(Refusal::State);
        }
        let none = Piece { key: 0, address: 0, bytes: &[] };
        let length = head.len() + body.len();
        if length == 0 || r.outbound.urgent.standing {
            return Ok(Gathered { taken: 0, pieces: [none; 3], message: None });
        }
        let size = r.remote.size;
        let q = r.outbound.producer;
        let room = i64::from(size) - 4 - distance(size, r.outbound.consumer, q);
        let taken = (room as usize).min(length) as u32;
        let token = r.remote.rtokens[r.id.link as usize - 1];
        let element = token.base + u64::from(r.remote.index - 1) * u64::from(size);
        let first = taken.min(size - q.offset) as usize;
        let mut pieces = [none; 3];
        let mut count = 0;
        let mut add = |start: usize, end: usize, address: u64| {
            if start < end {
                let bytes = if start < head.len() { &head[start..end] } else { &body[start - head.len()..end - head.len()] };
                pieces[count] = Piece { key: token.key, address, bytes };
                count += 1;
            }
        };
        let mut cut = |start: usize, end: usize, address: u64| {
            let middle = head.len().clamp(start, end);
            add(start, middle, address);
            add(middle, end, address + (middle - start) as u64);
        };
        cut(0, first, element + u64::from(q.offset));
        cut(first, taken as usize, element + 4);
        r.outbound.producer = step(size, q, taken);
        let left = (taken as usize) < length;
        let told = r.outbound.blocked;
        r.outbound.blocked = left;
        let message = if taken > 0 || (left && !told) { Some(usual_message(r)) } else { None };
        Ok(Gathered { taken, pieces, message })
    }

    #[inline(never)]
    pub fn shutdown(&mut self, slot: u32) -> Result<Bytes44, Refusal> {
        let at = self.slot(slot)?;
        let r = &mut self.table[at];
        if r.marks.sent.done || r.marks.sent.closed || r.marks.abort {
            return Err(Refusal::State);
        }
        mark(&mut r.marks);
        r.marks.sent.done = true;
        Ok(usual_message(r))
    }

    #[inline(never)]
    pub fn close(&mut self, slot: u32) -> Result<Closed, Refusal> {
        let at = self.slot(slot)?;
        let n = self.n;
        let r = &mut self.table[at];
        if r.marks.sent.closed || r.marks.abort {
            return Err(Refusal::State);
        }
        if distance(n, r.inbound.consumer, r.inbound.producer) > 0 {
            r.marks.abort = true;
            return Ok(Closed::Reset(usual_message(r)));
        }
        mark(&mut r.marks);
        r.marks.sent.closed = true;
        let message = usual_message(r);
        if r.marks.heard.closed {
            *r = Record::default();
        }
        Ok(Closed::InOrder(message))
    }

    #[inline(never)]
    pub fn abort(&mut self, slot: u32) -> Result<Bytes44, Refusal> {
        let at = self.slot(slot)?;
        let r = &mut self.table[at];
        if r.marks.abort {
            return Err(Refusal::State);
        }
        r.marks.abort = true;
        Ok(usual_message(r))
    }

    #[inline(never)]
    pub fn hear(&mut self, bytes: &[u8]) -> Result<Heard, Refusal> {
        if !self.sizes_ok() {
            return Err(Refusal::Sizes);
        }
        let m: &Bytes44 = bytes.try_into().map_err(|_| Refusal::Malformed)?;
        if m[0] != 0xFE || m[1] != 0x2C {
            return Err(Refusal::Malformed);
        }
        let two = |k: usize| u16::from_be_bytes([m[k], m[k + 1]]);
        let four = |k: usize| u32::from_be_bytes([m[k], m[k + 1], m[k + 2], m[k + 3]]);
        let token = four(4);
        let held = |r: &Record| r.id.opened && r.id.own == token;
        let at = match self.table.iter().position(held) {
            Some(at) if token != 0 => at,
            _ => return Err(Refusal::Token),
        };
        self.sound(at)?;
        let n = self.n;
        let r = &mut self.table[at];
        if m[25] & 0x20 != 0 {
            let message = if r.marks.abort {
                None
            } else {
                r.marks.abort = true;
                Some(usual_message(r))
            };
            *r = Record::default();
            return Ok(Heard { moved: 0, state: State::Closed, message });
        }
        if r.marks.abort {
            return Ok(Heard { moved: 0, state: State::PeerAbortWait, message: None });
        }
        if m[24] & 0x08 != 0 {
            if two(2) == r.inbound.last {
                return Ok(Heard { moved: 0, state: state(r), message: None });
            }
            r.marks.abort = true;
            return Ok(Heard { moved: 0, state: State::PeerAbortWait, message: Some(usual_message(r)) });
        }
        if two(2) != r.inbound.last.wrapping_add(1) {
            return Err(Refusal::Sequence);
        }
        let p = Cursor { offset: four(12), wrap: two(10) };
        let c = Cursor { offset: four(20), wrap: two(18) };
        let size = r.remote.size;
        let (i, o) = (&mut r.inbound, &mut r.outbound);
        let (far, near) = (distance(n, i.told, p), distance(n, i.told, i.producer));
        let (left, before) = (distance(size, c, o.producer), distance(size, o.consumer, o.producer));
        let ended = r.marks.heard.done || r.marks.heard.closed;
        let kept = in_range(n, p) && in_range(size, c) && good(n, far) && far >= near && good(size, left) && left <= before;
        if !kept || (ended && p != i.producer) {
            return Err(Refusal::CursorRule);
        }
        let moved = far - near;
        i.producer = p;
        i.last = two(2);
        i.blocked = m[24] & 0x80 != 0;
        i.request = m[24] & 0x10 != 0;
        o.consumer = c;
        if o.urgent.standing && left <= distance(size, o.urgent.place, o.producer) {
            o.urgent = Urgent::default();
        }
        let urged = m[24] & 0x20 != 0 && moved > 0;
        if urged {
            i.urgent = Urgent { standing: true, place: p };
        }
        let asked = i.request && i.told != i.consumer;
        r.marks.heard.done |= m[25] & 0x80 != 0;
        r.marks.heard.closed |= m[25] & 0x40 != 0;
        let state = state(r);
        let message = if urged || asked { Some(usual_message(r)) } else { None };
        if r.marks.sent.closed && r.marks.heard.closed {
            *r = Record::default();
        }
        Ok(Heard { moved: moved as u64, state, message })
    }

    /// The messages with F go to the buffer's front; how many they are.
    #[inline(never)]
    pub fn link_change(&mut self, link: u8, up: bool, out: &mut [u8]) -> Result<usize, Refusal> {
        if !self.sizes_ok() || out.len() < 44 * self.s as usize {
            return Err(Refusal::Sizes);
        }
        if !(1..=4).contains(&link) {
            return Err(Refusal::LinkNumber);
        }
        let (links, at) = (&mut *self.links, link as usize - 1);
        let gone = links.active[at] && !up;
        links.active[at] = up;
        if !up {
            links.gauges[at] = Gauge::default();
            let x = &mut links.exchange;
            if x.stage > 0 && (x.v == link || (x.sort() == Some(Sort::Add) && x.w == link)) {
                *x = Exchange::default();
                links.queue = Queue::default();
            }
        }
        let target = links.active.iter().position(|active| *active);
        let (true, Some(target)) = (gone, target) else { return Ok(0) };
        let mut count = 0;
        for r in self.table.iter_mut().filter(|r| r.id.opened && r.id.link == link) {
            if !coherent(self.n, r) {
                continue;
            }
            r.id.link = target as u8 + 1;
            if !r.marks.abort {
                let mut m = written(r, r.outbound.next.wrapping_sub(1));
                m[24] |= 0x08;
                out[44 * count..44 * (count + 1)].copy_from_slice(&m);
                count += 1;
            }
        }
        Ok(count)
    }
}

fn state(r: &Record) -> State {
    let m = &r.marks;
    let ours = m.sent.done || m.sent.closed;
    let heard = m.heard.done || m.heard.closed;
    match (ours, heard) {
        (false, false) => State::Active,
        (true, false) => State::PeerCloseWait1,
        (false, true) => State::AppCloseWait1,
        (true, true) if m.sent.closed && m.heard.closed => State::Closed,
        (true, true) if m.sent.closed => State::PeerCloseWait2,
        (true, true) if m.heard.closed => State::AppCloseWait2,
        (true, true) if m.first => State::PeerCloseWait2,
        (true, true) => State::AppCloseWait2,
    }
}
