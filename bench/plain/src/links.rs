//! Link message and link send in ordinary Rust, straight and unproved: the refusals, the stages of an exchange, the table of collisions,
//! the queue, the replies, and what moves where a link goes down. The links are changed where they lie.

use crate::plain::{coherent, written, Bytes44, Group};
use fordlinnet::{Exchange, Fate, Gauge, Queue, Refusal, Role, Sort, Waiting};

const CONFIRM_LINK: u8 = 1;
const ADD_LINK: u8 = 2;
const ADD_LINK_CONTINUATION: u8 = 3;
const DELETE_LINK: u8 = 4;
const CONFIRM_RKEY: u8 = 6;
const TEST_LINK: u8 = 7;
const CONFIRM_RKEY_CONTINUATION: u8 = 8;
const DELETE_RKEY: u8 = 9;

const UNKNOWN_LINK: u64 = 0x0010_0000;
const INVALID_MTU: u64 = 2;

/// A kind and its values in the order of its rows.
#[derive(Clone, Copy, Debug, PartialEq)]
pub struct Fields {
    pub kind: u8,
    pub values: [u64; 12],
}

#[derive(Clone, Copy, Debug, PartialEq)]
pub struct TakenUp {
    pub link: u8,
    pub fields: Option<Fields>,
    pub fate: Fate,
}

#[derive(Clone, Copy, Debug, PartialEq)]
pub struct Heard {
    pub fields: Option<Fields>,
    pub fate: Fate,
    pub reply: Option<Bytes44>,
    pub taken_up: Option<TakenUp>,
    pub moved: usize,
}

#[derive(Clone, Copy, Debug, PartialEq)]
pub struct Sent {
    pub message: Bytes44,
    pub taken_up: Option<TakenUp>,
    pub moved: usize,
}

fn get<const N: usize>(m: &Bytes44, at: usize) -> u64 {
    let mut number = [0; 8];
    number[8 - N..].copy_from_slice(&m[at..at + N]);
    u64::from_be_bytes(number)
}

fn put<const N: usize>(m: &mut Bytes44, at: usize, value: u64) {
    m[at..at + N].copy_from_slice(&value.to_be_bytes()[8 - N..]);
}

fn bit(m: &Bytes44, low: u32) -> u64 {
    u64::from(m[3] >> low & 1)
}

impl Fields {
    fn read(m: &Bytes44) -> Option<Fields> {
        let r = bit(m, 7);
        let (one, four, eight) = (|at| get::<1>(m, at), |at| get::<4>(m, at), |at| get::<8>(m, at));
        let values = match m[0] {
            CONFIRM_LINK => [r, get::<6>(m, 4), eight(10), eight(18), get::<3>(m, 26), one(29), four(30), one(34), 0, 0, 0, 0],
            ADD_LINK => {
                let (z, reason, mac, mtu) = (bit(m, 6), u64::from(m[2] & 15), get::<6>(m, 4), u64::from(m[30] & 15));
                [r, z, reason, mac, eight(10), eight(18), get::<3>(m, 26), one(29), mtu, get::<3>(m, 31), 0, 0]
            }
            ADD_LINK_CONTINUATION => [r, one(4), one(5), four(8), four(12), eight(16), four(24), four(28), eight(32), 0, 0, 0],
            DELETE_LINK => [r, bit(m, 6), bit(m, 5), one(4), four(5), 0, 0, 0, 0, 0, 0, 0],
            CONFIRM_RKEY => {
                let (num, key, addr) = (one(4), four(5), eight(9));
                [r, bit(m, 5), bit(m, 4), num, key, addr, one(17), four(18), eight(22), one(30), four(31), eight(35)]
            }
            TEST_LINK => [r, eight(4), eight(12), 0, 0, 0, 0, 0, 0, 0, 0, 0],
            CONFIRM_RKEY_CONTINUATION => {
                let (num, link, key, addr) = (one(4), one(5), four(6), eight(10));
                [r, bit(m, 5), num, link, key, addr, one(18), four(19), eight(23), one(31), four(32), eight(36)]
            }
            DELETE_RKEY => {
                let (count, mask) = (one(4), one(5));
                [r, bit(m, 5), count, mask, four(8), four(12), four(16), four(20), four(24), four(28), four(32), four(36)]
            }
            _ => return None,
        };
        Some(Fields { kind: m[0], values })
    }

    /// Values are cut to their rows' bits.
    fn write(&self) -> Bytes44 {
        let mut m = [0; 44];
        let v = &self.values;
        m[0] = self.kind;
        m[1] = 0x2C;
        m[3] = (v[0] as u8 & 1) << 7;
        let flag = |place: usize, low: u32| (v[place] as u8 & 1) << low;
        match self.kind {
            CONFIRM_LINK => {
                put::<6>(&mut m, 4, v[1]);
                put::<8>(&mut m, 10, v[2]);
                put::<8>(&mut m, 18, v[3]);
                put::<3>(&mut m, 26, v[4]);
                m[29] = v[5] as u8;
                put::<4>(&mut m, 30, v[6]);
                m[34] = v[7] as u8;
            }
            ADD_LINK => {
                m[3] |= flag(1, 6);
                m[2] = v[2] as u8 & 15;
                put::<6>(&mut m, 4, v[3]);
                put::<8>(&mut m, 10, v[4]);
                put::<8>(&mut m, 18, v[5]);
                put::<3>(&mut m, 26, v[6]);
                m[29] = v[7] as u8;
                m[30] = v[8] as u8 & 15;
                put::<3>(&mut m, 31, v[9]);
            }
            ADD_LINK_CONTINUATION => {
                m[4] = v[1] as u8;
                m[5] = v[2] as u8;
                put::<4>(&mut m, 8, v[3]);
                put::<4>(&mut m, 12, v[4]);
                put::<8>(&mut m, 16, v[5]);
                put::<4>(&mut m, 24, v[6]);
                put::<4>(&mut m, 28, v[7]);
                put::<8>(&mut m, 32, v[8]);
            }
            DELETE_LINK => {
                m[3] |= flag(1, 6) | flag(2, 5);
                m[4] = v[3] as u8;
                put::<4>(&mut m, 5, v[4]);
            }
            CONFIRM_RKEY => {
                m[3] |= flag(1, 5) | flag(2, 4);
                m[4] = v[3] as u8;
                put::<4>(&mut m, 5, v[4]);
                put::<8>(&mut m, 9, v[5]);
                m[17] = v[6] as u8;
                put::<4>(&mut m, 18, v[7]);
                put::<8>(&mut m, 22, v[8]);
                m[30] = v[9] as u8;
                put::<4>(&mut m, 31, v[10]);
                put::<8>(&mut m, 35, v[11]);
            }
            TEST_LINK => {
                put::<8>(&mut m, 4, v[1]);
                put::<8>(&mut m, 12, v[2]);
            }
            CONFIRM_RKEY_CONTINUATION => {
                m[3] |= flag(1, 5);
                m[4] = v[2] as u8;
                for (at, values) in [5, 18, 31].into_iter().zip(v[3..].chunks_exact(3)) {
                    m[at] = values[0] as u8;
                    put::<4>(&mut m, at + 1, values[1]);
                    put::<8>(&mut m, at + 5, values[2]);
                }
            }
            _ => {
                m[3] |= flag(1, 5);
                m[4] = v[2] as u8;
                m[5] = v[3] as u8;
                for (at, key) in (8..40).step_by(4).zip(&v[4..]) {
                    put::<4>(&mut m, at, *key);
                }
            }
        }
        m
    }
}

/// What the rules look at in a message, straight from its bytes.
#[derive(Clone, Copy)]
struct Seen {
    kind: u8,
    reply: bool,
    z: bool,
    a: bool,
    link: u8,
    num: u8,
    mtu: u8,
}

fn seen(m: &Bytes44) -> Seen {
    let kind = m[0];
    let (z, link) = match kind {
        CONFIRM_LINK => (0, m[29]),
        ADD_LINK => (0x40, m[29]),
        ADD_LINK_CONTINUATION | DELETE_LINK => (0, m[4]),
        TEST_LINK => (0, 0),
        _ => (0x20, 0),
    };
    Seen { kind, reply: m[3] & 0x80 != 0, z: m[3] & z != 0, a: kind == DELETE_LINK && m[3] & 0x40 != 0, link, num: m[4], mtu: m[30] & 15 }
}

/// The next stage, where the message is due.
fn due(x: Exchange, f: &Seen, client: bool, heard: bool, over: u8) -> Option<u8> {
    let (on_v, on_w, names_w) = (over == x.v, over == x.w, f.link == x.w);
    let reply = |kind: u8| f.kind == kind && f.reply;
    let request = |kind: u8| f.kind == kind && !f.reply;
    let unless_z = |stage: u8| if f.z { 0 } else { stage };
    match x.stage {
        1 if reply(ADD_LINK) && client && on_v && (f.z || names_w) => Some(unless_z(2)),
        2 if request(ADD_LINK_CONTINUATION) && !client && on_v && names_w => Some(3),
        2 if request(CONFIRM_LINK) && !client && on_w && names_w => Some(4),
        3 if reply(ADD_LINK_CONTINUATION) && client && on_v && names_w => Some(2),
        4 if reply(CONFIRM_LINK) && client && on_w && names_w => Some(0),
        5 if reply(DELETE_LINK) && !f.a && heard && on_v && names_w => Some(0),
        6 if reply(CONFIRM_RKEY) && heard && on_v => Some(0),
        7 if reply(CONFIRM_RKEY) && heard && on_v => Some(unless_z(8)),
        8 if request(CONFIRM_RKEY_CONTINUATION) && !heard && on_v => Some(if f.num <= 3 { 9 } else { 10 }),
        9 if reply(CONFIRM_RKEY_CONTINUATION) && heard && on_v => Some(0),
        10 if reply(CONFIRM_RKEY_CONTINUATION) && heard && on_v => Some(unless_z(8)),
        11 if reply(DELETE_RKEY) && heard && on_v => Some(0),
        _ => None,
    }
}

/// The table of collisions: none, add, delete or keys run; an ADD LINK with an MTU value that is none is denied.
fn fate(x: Exchange, f: &Seen, client: bool) -> Fate {
    use Fate::{Denied, Dropped, Queued, Taken};
    let rows = match f.kind {
        TEST_LINK => [Taken; 4],
        _ if f.reply => [Dropped; 4],
        CONFIRM_LINK => [Dropped, Dropped, Dropped, Queued],
        ADD_LINK if client => [Taken, Dropped, Queued, Queued],
        DELETE_LINK if f.a => [Taken; 4],
        DELETE_LINK if client => [Taken, Queued, Queued, Queued],
        CONFIRM_RKEY | CONFIRM_RKEY_CONTINUATION if client => [Taken, Denied, Denied, Taken],
        ADD_LINK | DELETE_LINK | CONFIRM_RKEY | CONFIRM_RKEY_CONTINUATION | DELETE_RKEY => [Taken, Dropped, Dropped, Taken],
        _ => [Dropped; 4],
    };
    let fate = match x.sort() {
        None => rows[0],
        Some(Sort::Add) => rows[1],
        Some(Sort::Delete) => rows[2],
        Some(Sort::Rkey) => rows[3],
    };
    if fate == Taken && f.kind == ADD_LINK && !client && !(1..=5).contains(&f.mtu) {
        return Denied;
    }
    fate
}

/// The number acted on is outside 1 to 4.
fn acts_outside(f: &Seen, client: bool) -> bool {
    let acts = match f.kind {
        ADD_LINK if f.reply => !f.z,
        ADD_LINK => !client,
        DELETE_LINK => !f.a,
        CONFIRM_LINK | ADD_LINK_CONTINUATION => true,
        _ => false,
    };
    acts && !(1..=4).contains(&f.link)
}

impl Group<'_> {
    fn desk_sizes_ok(&self, link: u8, out: &[u8]) -> Result<(), Refusal> {
        if !self.sizes_ok() || out.len() < 44 * self.s as usize {
            return Err(Refusal::Sizes);
        }
        if !(1..=4).contains(&link) {
            return Err(Refusal::LinkNumber);
        }
        Ok(())
    }

    /// A link that is down bars, but not CONFIRM LINK on the link being added.
    fn link_barred(&self, link: u8, kind: Option<u8>) -> bool {
        let x = &self.links.exchange;
        let adds = kind == Some(CONFIRM_LINK) && x.sort() == Some(Sort::Add) && x.w == link;
        !self.links.active[link as usize - 1] && !adds
    }

    fn is_active(&self, link: u8) -> bool {
        (1..=4).contains(&link) && self.links.active[link as usize - 1]
    }

    fn set_down(&mut self, link: u8) {
        let links = &mut *self.links;
        links.active[link as usize - 1] = false;
        links.gauges[link as usize - 1] = Gauge::default();
        let x = &links.exchange;
        if x.stage > 0 && (x.v == link || (x.sort() == Some(Sort::Add) && x.w == link)) {
            links.exchange = Exchange::default();
            links.queue = Queue::default();
        }
    }

    fn delete_group(&mut self) {
        self.links.active = [false; 4];
        self.links.gauges = [Gauge::default(); 4];
        self.links.exchange = Exchange::default();
        self.links.queue = Queue::default();
    }

    /// A message was due: the stage, the link that it brings up or takes down, and the oldest that waits.
    fn go_on(&mut self, next: u8) -> Option<TakenUp> {
        let Exchange { stage, w, .. } = self.links.exchange;
        if next != 0 {
            self.links.exchange.stage = next;
            return None;
        }
        self.links.exchange = Exchange::default();
        match stage {
            4 => self.links.active[w as usize - 1] = true,
            5 => self.set_down(w),
            _ => {}
        }
        let queue = &mut self.links.queue;
        if queue.count == 0 {
            return None;
        }
        let oldest = queue.places[0];
        queue.places.rotate_left(1);
        queue.places[3] = Waiting::default();
        queue.count = queue.count.min(4) - 1;
        let fields = Fields::read(&oldest.bytes);
        let f = seen(&oldest.bytes);
        let follows = (f.kind == ADD_LINK || (f.kind == DELETE_LINK && !f.a && self.is_active(f.link))) && !f.reply;
        let fate = if follows && self.links.role == Role::Server { Fate::Taken } else { Fate::Dropped };
        Some(TakenUp { link: oldest.link, fields, fate })
    }

    /// Moves the connections of the links that went down; how many messages with F stand in the buffer.
    fn fail_over(&mut self, before: [bool; 4], out: &mut [u8]) -> usize {
        let after = self.links.active;
        let gone = |k: usize| before[k] && !after[k];
        let target = after.iter().position(|active| *active);
        let Some(target) = target.filter(|_| (0..4).any(gone)) else { return 0 };
        let mut count = 0;
        for r in self.table.iter_mut().filter(|r| r.id.opened && (1..=4).contains(&r.id.link) && gone(r.id.link as usize - 1)) {
            if !coherent(self.n, r) {
                continue;
            }
            r.id.link = target as u8 + 1;
            if !r.marks.abort {
                let mut m = written(r, r.outbound.next.wrapping_sub(1));
                m[24] |= 0x08;
                out[44 * count..44 * (count + 1)].copy_from_slice(&m);
                count += 1;
            }
        }
        count
    }

    /// Taken or denied, and not due: what it does, and the reply.
    fn take(&mut self, mut reply: Fields, f: &Seen, fate: Fate, over: u8, client: bool) -> Option<Bytes44> {
        let v = &mut reply.values;
        v[0] = 1;
        match f.kind {
            ADD_LINK if client => return None,
            ADD_LINK if fate == Fate::Denied => (v[1], v[2]) = (1, INVALID_MTU),
            ADD_LINK => {
                self.links.exchange = Exchange { stage: 1, v: over, w: f.link };
                return None;
            }
            DELETE_LINK if f.a => {
                self.delete_group();
                return None;
            }
            DELETE_LINK if client => {
                if self.is_active(f.link) {
                    return None;
                }
                v[4] = UNKNOWN_LINK;
            }
            DELETE_LINK => {
                v[4] = if self.is_active(f.link) { 0 } else { UNKNOWN_LINK };
                self.set_down(f.link);
            }
            CONFIRM_RKEY => {
                let negative = u64::from(fate == Fate::Denied);
                (v[1], v[2]) = (negative, negative);
            }
            CONFIRM_RKEY_CONTINUATION => v[1] = u64::from(fate == Fate::Denied),
            DELETE_RKEY => (v[1], v[3]) = (0, 0),
            TEST_LINK if !f.reply => {}
            _ => return None,
        }
        Some(reply.write())
    }

    #[inline(never)]
    pub fn link_message(&mut self, link: u8, bytes: &[u8], out: &mut [u8]) -> Result<Heard, Refusal> {
        self.desk_sizes_ok(link, out)?;
        if self.link_barred(link, bytes.first().copied()) {
            return Err(Refusal::LinkDown);
        }
        let m: &Bytes44 = bytes.try_into().map_err(|_| Refusal::Malformed)?;
        if m[0] & 0xC0 == 0x80 {
            return Ok(Heard { fields: None, fate: Fate::Dropped, reply: None, taken_up: None, moved: 0 });
        }
        let fields = Fields::read(m).filter(|_| m[1] == 0x2C).ok_or(Refusal::Malformed)?;
        let f = seen(m);
        let client = self.links.role == Role::Server;
        let next = due(self.links.exchange, &f, client, true, link);
        let fate = if next.is_some() { Fate::Taken } else { fate(self.links.exchange, &f, client) };
        if matches!(fate, Fate::Taken | Fate::Queued) && acts_outside(&f, client) {
            return Err(Refusal::CarriedLink);
        }
        let queue = &mut self.links.queue;
        if fate == Fate::Queued && queue.count >= 4 {
            return Err(Refusal::Barred);
        }
        let before = self.links.active;
        let (mut reply, mut taken_up) = (None, None);
        match next {
            Some(next) => taken_up = self.go_on(next),
            None => match fate {
                Fate::Queued => {
                    queue.places[queue.count as usize] = Waiting { link, bytes: *m };
                    queue.count += 1;
                }
                Fate::Dropped => {}
                Fate::Taken | Fate::Denied => reply = self.take(fields, &f, fate, link, client),
            },
        }
        Ok(Heard { fields: Some(fields), fate, reply, taken_up, moved: self.fail_over(before, out) })
    }

    #[inline(never)]
    pub fn link_send(&mut self, link: u8, fields: &Fields, out: &mut [u8]) -> Result<Sent, Refusal> {
        self.desk_sizes_ok(link, out)?;
        if self.link_barred(link, Some(fields.kind)) {
            return Err(Refusal::LinkDown);
        }
        let message = fields.write();
        let f = seen(&message);
        let client = self.links.role == Role::Client;
        if acts_outside(&f, client) {
            return Err(Refusal::CarriedLink);
        }
        let x = self.links.exchange;
        let before = self.links.active;
        let taken_up = match due(x, &f, client, false, link) {
            Some(next) => self.go_on(next),
            None => {
                let idle = x.stage == 0;
                let allowed = match f.kind {
                    _ if f.reply => false,
                    TEST_LINK => true,
                    DELETE_LINK => f.a || client || idle,
                    ADD_LINK if client => x.sort() != Some(Sort::Add),
                    ADD_LINK | CONFIRM_RKEY | DELETE_RKEY => idle,
                    _ => false,
                };
                if !allowed {
                    return Err(Refusal::Barred);
                }
                let begun = |stage, w| Exchange { stage, v: link, w };
                match f.kind {
                    DELETE_LINK if f.a => self.delete_group(),
                    ADD_LINK if !client => self.links.exchange = begun(1, f.link),
                    DELETE_LINK if !client => self.links.exchange = begun(5, f.link),
                    CONFIRM_RKEY => self.links.exchange = begun(if f.num <= 2 { 6 } else { 7 }, 0),
                    DELETE_RKEY => self.links.exchange = begun(11, 0),
                    _ => {}
                }
                None
            }
        };
        Ok(Sent { message, taken_up, moved: self.fail_over(before, out) })
    }
}
