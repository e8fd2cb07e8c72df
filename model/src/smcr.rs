//! The rules of one SMC-R group, in the order in which document 01 gives them.
//!
//! Every refusal is a number (`u8`), and the calls test them in the order of
//! document 01's section on refusals. Distances are `i64` and may come out
//! below zero, exactly as the page says.

use crate::gauge::Gauge;
use crate::links::{Exchange, Queue, Role};

// ---------------------------------------------------------------------------
// The memory and the tables
// ---------------------------------------------------------------------------

/// S runs from 1 to 255 (2026-06), "the most that a one-byte index starting at 1
/// can name".
pub const MAX_ELEMENTS: i64 = 255;
/// N and N' run from 8 to 65,540.
pub const MIN_SIZE: i64 = 8;
pub const MAX_SIZE: i64 = 65_540;
/// The first four bytes of an element.
pub const EYE_CATCHER: [u8; 4] = [0xE2, 0xD4, 0xC3, 0xD9];
/// Offsets start here, after the eye catcher.
pub const FIRST_OFFSET: i64 = 4;
/// There are four links.
pub const LINKS: usize = 4;
/// Wrap numbers and sequence numbers are counted modulo this.
pub const WRAPS: i64 = 65_536;

/// A cursor is an offset and a 16-bit wrap number.
#[derive(Clone, Copy, Debug, Default, PartialEq, Eq)]
pub struct Cursor {
    pub offset: u32,
    pub wrap: u16,
}

/// Writes a cursor.
pub fn cursor(offset: u32, wrap: u16) -> Cursor {
    Cursor { offset, wrap }
}

/// "The other D = N-4 bytes are data."
pub fn data_size(size: i64) -> i64 {
    size - 4
}

/// "N from 8 to 65,540": N and N' share the range.
pub fn size_in_range(size: i64) -> bool {
    MIN_SIZE <= size && size <= MAX_SIZE
}

/// "Offsets run from 4 to N-1."
pub fn offset_in_range(offset: u32, size: i64) -> bool {
    let offset = i64::from(offset);
    FIRST_OFFSET <= offset && offset <= size - 1
}

/// "A step that reaches N gives 4 and the wrap number plus one, 65,535 going
/// on to 0." The step is at most D, so it passes the end at most once.
pub fn step(from: Cursor, by: i64, size: i64) -> Cursor {
    let mut offset = i64::from(from.offset) + by;
    let mut wrap = i64::from(from.wrap);
    if offset >= size {
        offset -= data_size(size);
        wrap = (wrap + 1) % WRAPS;
    }
    Cursor {
        offset: offset as u32,
        wrap: wrap as u16,
    }
}

/// "The distance from (c1,w1) to (c2,w2) is ((w2-w1) mod 65,536) x D + c2 - c1.
/// It may come out below zero."
pub fn distance(from: Cursor, to: Cursor, size: i64) -> i64 {
    let wraps = (i64::from(to.wrap) - i64::from(from.wrap)).rem_euclid(WRAPS);
    wraps * data_size(size) + i64::from(to.offset) - i64::from(from.offset)
}

/// "It counts as good only from 0 to D."
pub fn good(distance: i64, size: i64) -> bool {
    0 <= distance && distance <= data_size(size)
}

/// A slot's record: plain data, whatever it holds.
#[derive(Clone, Copy, Debug, Default, PartialEq, Eq)]
pub struct Connection {
    pub open: bool,
    pub own_token: u32,
    pub peer_token: u32,
    pub link: u8,
    /// N', the peer's element size.
    pub peer_size: u32,
    /// The peer's element as its card knows it (2026-09): its index, and a key
    /// and a base for each link.
    pub index: u8,
    pub keys: [u32; LINKS],
    pub bases: [u64; LINKS],
    /// P, the peer's producer as last heard.
    pub peer_producer: Cursor,
    /// C, our consumer.
    pub consumer: Cursor,
    /// T, the consumer last told to the peer.
    pub told: Cursor,
    /// Q, our producer in the peer's element.
    pub producer: Cursor,
    /// R, the peer's consumer as last heard.
    pub peer_consumer: Cursor,
    pub next_sequence: u16,
    pub heard_sequence: u16,
    pub done_sent: bool,
    pub closed_sent: bool,
    pub done_heard: bool,
    pub closed_heard: bool,
    pub ours_first: bool,
    pub abort_sent: bool,
    /// B, our present writer blocked.
    pub blocked: bool,
    /// B in the last message heard.
    pub peer_blocked: bool,
    /// R (cursor update requested) in the last message heard.
    pub update_requested: bool,
    /// The urgent place of our own sends, in the peer's element (2026-04).
    pub urgent_sent: Option<Cursor>,
    /// The urgent place in our own element.
    pub urgent_heard: Option<Cursor>,
}

impl Connection {
    /// N' as a whole number.
    pub fn n_peer(&self) -> i64 {
        i64::from(self.peer_size)
    }

    /// The distance T to P.
    pub fn told_to_producer(&self, n: i64) -> i64 {
        distance(self.told, self.peer_producer, n)
    }

    /// The unread bytes: the distance C to P.
    pub fn unread(&self, n: i64) -> i64 {
        distance(self.consumer, self.peer_producer, n)
    }

    /// The peer's window: "D minus the distance T to P".
    pub fn peer_window(&self, n: i64) -> i64 {
        data_size(n) - self.told_to_producer(n)
    }

    /// "Room is D' minus the distance R to Q."
    pub fn room(&self) -> i64 {
        data_size(self.n_peer()) - distance(self.peer_consumer, self.producer, self.n_peer())
    }

    /// "Closing writes all zeros."
    pub fn close_slot(&mut self) {
        *self = Connection::default();
    }
}

/// 2026-09: "an element whose last byte would pass the top of 64 bits on any
/// link, or an index outside 1 to 255". The last byte is base + index x N' - 1.
pub fn element_out_of_reach(index: u32, bases: &[u64; LINKS], peer_size: u32) -> bool {
    let index_wrong = !(1 <= index && index <= 255);
    index_wrong
        || bases
            .iter()
            .any(|&base| past_the_top(index, base, peer_size))
}

/// Whether the last byte of element `index` after a base passes the top.
pub fn past_the_top(index: u32, base: u64, peer_size: u32) -> bool {
    let last = i128::from(base) + i128::from(index) * i128::from(peer_size) - 1;
    last > i128::from(u64::MAX)
}

/// "An open record is coherent if both tokens are nonzero, link and N' are in
/// range, all offsets are in range, the distances T to C and C to P are good
/// and sum to at most D, the distance R to Q is good by D', and the close marks
/// sent and heard are not both C." 2026-09 bars an element out of reach too, and
/// 2026-04 adds "an urgent place lies after R up to Q, or after C up to P".
pub fn coherent(c: &Connection, n: i64) -> bool {
    tokens_nonzero(c)
        && link_in_range(c.link)
        && size_in_range(c.n_peer())
        && offsets_in_range(c, n)
        && reading_distances_good(c, n)
        && writing_distance_good(c)
        && !(c.closed_sent && c.closed_heard)
        && !element_out_of_reach(u32::from(c.index), &c.bases, c.peer_size)
        && c.urgent_sent
            .is_none_or(|place| lies_between(c.peer_consumer, place, c.producer, c.n_peer()))
        && c.urgent_heard
            .is_none_or(|place| lies_between(c.consumer, place, c.peer_producer, n))
}

/// Whether a place lies after one cursor and up to another.
pub fn lies_between(after: Cursor, place: Cursor, up_to: Cursor, size: i64) -> bool {
    let ahead = distance(after, place, size);
    offset_in_range(place.offset, size)
        && good(ahead, size)
        && 1 <= ahead
        && ahead <= distance(after, up_to, size)
}

fn tokens_nonzero(c: &Connection) -> bool {
    c.own_token != 0 && c.peer_token != 0
}

/// "link (1 to 4)"
pub fn link_in_range(link: u8) -> bool {
    1 <= link && link <= 4
}

fn offsets_in_range(c: &Connection, n: i64) -> bool {
    offset_in_range(c.peer_producer.offset, n)
        && offset_in_range(c.consumer.offset, n)
        && offset_in_range(c.told.offset, n)
        && offset_in_range(c.producer.offset, c.n_peer())
        && offset_in_range(c.peer_consumer.offset, c.n_peer())
}

fn reading_distances_good(c: &Connection, n: i64) -> bool {
    let told_to_consumer = distance(c.told, c.consumer, n);
    let consumer_to_producer = distance(c.consumer, c.peer_producer, n);
    good(told_to_consumer, n)
        && good(consumer_to_producer, n)
        && told_to_consumer + consumer_to_producer <= data_size(n)
}

fn writing_distance_good(c: &Connection) -> bool {
    good(
        distance(c.peer_consumer, c.producer, c.n_peer()),
        c.n_peer(),
    )
}

/// A group: S, N, the memory and the table lent to every call, and the links.
/// S, N and both lengths stand here as they were handed in, right or not.
#[derive(Clone, Debug, PartialEq)]
pub struct Group {
    pub elements: u32,
    pub size: u32,
    pub memory: Vec<u8>,
    pub table: Vec<Connection>,
    pub links: [bool; LINKS],
    /// One for each link (2026-10).
    pub gauges: [Gauge; LINKS],
    /// What link messages need (2026-01).
    pub role: Role,
    pub exchange: Exchange,
    pub queue: Queue,
}

impl Group {
    /// "A fresh group has every slot closed, every link down and memory all
    /// zeros." Its table has so many records.
    pub fn fresh(elements: u32, size: u32, length: usize, records: usize) -> Group {
        Group {
            elements,
            size,
            memory: vec![0; length],
            table: vec![Connection::default(); records],
            links: [false; LINKS],
            gauges: [Gauge::default(); LINKS],
            role: Role::Client,
            exchange: Exchange::default(),
            queue: Queue::EMPTY,
        }
    }

    /// S as a whole number.
    pub fn s(&self) -> i64 {
        i64::from(self.elements)
    }

    /// N as a whole number.
    pub fn n(&self) -> i64 {
        i64::from(self.size)
    }

    /// "Element k (1 to S) is bytes (k-1)N to kN-1." The index counts from 0.
    fn element(&mut self, index: usize) -> &mut [u8] {
        let n = self.size as usize;
        &mut self.memory[index * n..(index + 1) * n]
    }
}

// ---------------------------------------------------------------------------
// The 44-byte message (Appendix A.4)
// ---------------------------------------------------------------------------

pub const MESSAGE_BYTES: usize = 44;
/// A Connection Data Control message, or an LLC message: both have 44 bytes.
pub type Bytes44 = [u8; MESSAGE_BYTES];

/// The first byte of a CDC message.
pub const CDC_TYPE: u8 = 0xFE;
/// The second byte of every message: its length, 44.
pub const LENGTH_BYTE: u8 = 0x2C;

/// Byte 24, high bit down.
pub const FLAG_BLOCKED: u8 = 0x80;
pub const FLAG_URGENT_PENDING: u8 = 0x40;
pub const FLAG_URGENT_PRESENT: u8 = 0x20;
pub const FLAG_UPDATE_REQUESTED: u8 = 0x10;
pub const FLAG_FAILOVER: u8 = 0x08;
/// Byte 25, high bit down.
pub const FLAG_DONE: u8 = 0x80;
pub const FLAG_CLOSED: u8 = 0x40;
pub const FLAG_ABORT: u8 = 0x20;

/// The fields of a CDC message.
#[derive(Clone, Copy, Debug, Default, PartialEq, Eq)]
pub struct Message {
    pub sequence: u16,
    pub token: u32,
    pub producer: Cursor,
    pub consumer: Cursor,
    pub blocked: bool,
    pub urgent_pending: bool,
    pub urgent_present: bool,
    pub update_requested: bool,
    pub failover: bool,
    pub done: bool,
    pub closed: bool,
    pub abort: bool,
}

impl Message {
    /// "Big-endian. Byte 0 FE, byte 1 2C, bytes 2-3 sequence, 4-7 alert token
    /// of the receiver's connection, 10-11 producer wrap, 12-15 producer
    /// offset, 18-19 consumer wrap, 20-23 consumer offset. [...] The rest is
    /// reserved: written zero."
    pub fn write(&self) -> Bytes44 {
        let mut bytes = [0; MESSAGE_BYTES];
        bytes[0] = CDC_TYPE;
        bytes[1] = LENGTH_BYTE;
        bytes[2..4].copy_from_slice(&self.sequence.to_be_bytes());
        bytes[4..8].copy_from_slice(&self.token.to_be_bytes());
        bytes[10..12].copy_from_slice(&self.producer.wrap.to_be_bytes());
        bytes[12..16].copy_from_slice(&self.producer.offset.to_be_bytes());
        bytes[18..20].copy_from_slice(&self.consumer.wrap.to_be_bytes());
        bytes[20..24].copy_from_slice(&self.consumer.offset.to_be_bytes());
        let mut flag = |byte: usize, bit: u8, on: bool| {
            if on {
                bytes[byte] |= bit;
            }
        };
        flag(24, FLAG_BLOCKED, self.blocked);
        flag(24, FLAG_URGENT_PENDING, self.urgent_pending);
        flag(24, FLAG_URGENT_PRESENT, self.urgent_present);
        flag(24, FLAG_UPDATE_REQUESTED, self.update_requested);
        flag(24, FLAG_FAILOVER, self.failover);
        flag(25, FLAG_DONE, self.done);
        flag(25, FLAG_CLOSED, self.closed);
        flag(25, FLAG_ABORT, self.abort);
        bytes
    }

    /// The same fields read back; what is reserved is not looked at. `None` is
    /// refusal 4: the bytes are not 44, byte 0 is not FE, byte 1 is not 2C.
    pub fn read(bytes: &[u8]) -> Option<Message> {
        if bytes.len() != MESSAGE_BYTES || bytes[0] != CDC_TYPE || bytes[1] != LENGTH_BYTE {
            return None;
        }
        let two = |at: usize| u16::from_be_bytes([bytes[at], bytes[at + 1]]);
        let four = |at: usize| {
            u32::from_be_bytes([bytes[at], bytes[at + 1], bytes[at + 2], bytes[at + 3]])
        };
        Some(Message {
            sequence: two(2),
            token: four(4),
            producer: cursor(four(12), two(10)),
            consumer: cursor(four(20), two(18)),
            blocked: bytes[24] & FLAG_BLOCKED != 0,
            urgent_pending: bytes[24] & FLAG_URGENT_PENDING != 0,
            urgent_present: bytes[24] & FLAG_URGENT_PRESENT != 0,
            update_requested: bytes[24] & FLAG_UPDATE_REQUESTED != 0,
            failover: bytes[24] & FLAG_FAILOVER != 0,
            done: bytes[25] & FLAG_DONE != 0,
            closed: bytes[25] & FLAG_CLOSED != 0,
            abort: bytes[25] & FLAG_ABORT != 0,
        })
    }
}

/// "Each message carries the peer token, Q, C, our present B, and D, C or A for
/// the marks we have sent; P, U, R and F stay zero for now. Making one sets T
/// to C and uses the next sequence number. [...] after 65,535 comes 0." 2026-04:
/// from an urgent send taken whole on "our messages carry flags P and U until R
/// reaches or passes" its place. 2026-13 excepts F messages, which `failover` makes.
fn make_message(c: &mut Connection) -> Bytes44 {
    let urgent = c.urgent_sent.is_some();
    make_message_with(c, urgent, urgent)
}

fn make_message_with(c: &mut Connection, pending: bool, present: bool) -> Bytes44 {
    let message = Message {
        sequence: c.next_sequence,
        token: c.peer_token,
        producer: c.producer,
        consumer: c.consumer,
        blocked: c.blocked,
        urgent_pending: pending,
        urgent_present: present,
        done: c.done_sent,
        closed: c.closed_sent,
        abort: c.abort_sent,
        ..Message::default()
    };
    c.told = c.consumer;
    c.next_sequence = c.next_sequence.wrapping_add(1);
    message.write()
}

/// Torn, reset, a heard abort, a wrong F and the call abort make an abort message: the abort
/// mark is set, and the message carries it.
fn make_abort_message(c: &mut Connection) -> Bytes44 {
    c.abort_sent = true;
    make_message(c)
}

// ---------------------------------------------------------------------------
// When a call is refused: what each number says
// ---------------------------------------------------------------------------

impl Group {
    /// 1: "S, N or the memory's length is wrong"; 2026-06: "1 covers a table not
    /// of S records".
    pub fn sizes_wrong(&self) -> bool {
        let elements_right = 1 <= self.s() && self.s() <= MAX_ELEMENTS;
        let size_right = size_in_range(self.n());
        let length_right = self.memory.len() as i64 == self.s() * self.n();
        let table_right = self.table.len() as i64 == self.s();
        !(elements_right && size_right && length_right && table_right)
    }

    /// 2, first half: "slot outside 1 to S". Asked where 1 does not hold, so the
    /// table has S records; else no slot that it lacks counts as inside.
    pub fn slot_outside(&self, slot: u32) -> bool {
        let slot = i64::from(slot);
        !(1 <= slot && slot <= self.s() && slot <= self.table.len() as i64)
    }

    /// 2: "slot outside 1 to S, or closed".
    pub fn slot_not_open(&self, slot: u32) -> bool {
        self.slot_outside(slot) || !self.table[slot as usize - 1].open
    }

    /// The lowest open slot with the token, as an index. The token 0 names none.
    pub fn slot_with_token(&self, token: u32) -> Option<usize> {
        if token == 0 {
            return None;
        }
        self.slots_in_use()
            .find(|&index| self.table[index].own_token == token)
    }

    /// 3: "the open record is not coherent".
    pub fn not_coherent(&self, index: usize) -> bool {
        !coherent(&self.table[index], self.n())
    }

    /// 6: "the connection's or named link is down". Only asked of a link from 1
    /// to 4.
    pub fn link_down(&self, link: u8) -> bool {
        !self.links[usize::from(link) - 1]
    }

    /// 11: "own token held by another open slot".
    pub fn token_held_elsewhere(&self, token: u32, slot: u32) -> bool {
        self.slots_in_use()
            .any(|index| index + 1 != slot as usize && self.table[index].own_token == token)
    }

    /// The indices of the open slots among 1 to S.
    fn slots_in_use(&self) -> impl Iterator<Item = usize> + '_ {
        (0..self.table.len()).filter(|&index| (index as i64) < self.s() && self.table[index].open)
    }
}

/// 7: "send after D, C or A sent or C heard".
pub fn send_forbidden(c: &Connection) -> bool {
    c.done_sent || c.closed_sent || c.abort_sent || c.closed_heard
}

/// 7: "place after A sent or D or C heard".
pub fn place_forbidden(c: &Connection) -> bool {
    c.abort_sent || c.done_heard || c.closed_heard
}

/// 7: "read after C or A sent".
pub fn read_forbidden(c: &Connection) -> bool {
    c.closed_sent || c.abort_sent
}

/// 7: "shutdown after D, C or A sent".
pub fn shutdown_forbidden(c: &Connection) -> bool {
    c.done_sent || c.closed_sent || c.abort_sent
}

/// 7: "close after C or A sent".
pub fn close_forbidden(c: &Connection) -> bool {
    c.closed_sent || c.abort_sent
}

/// 7: "abort after A sent".
pub fn abort_forbidden(c: &Connection) -> bool {
    c.abort_sent
}

/// 7: "free outside PeerAbortWait".
pub fn free_forbidden(c: &Connection) -> bool {
    state(c) != State::PeerAbortWait
}

// ---------------------------------------------------------------------------
// Calls of a connection
// ---------------------------------------------------------------------------

/// "Each an offset in the peer's element, a start in the bytes and a length";
/// 2026-09: "a placing's offset becomes the peer's 32-bit memory key and a 64-bit
/// address".
#[derive(Clone, Copy, Debug, PartialEq, Eq)]
pub struct Placing {
    pub key: u32,
    pub address: u64,
    pub start: i64,
    pub length: i64,
}

/// What send answers.
#[derive(Clone, Debug, PartialEq, Eq)]
pub struct Sent {
    pub taken: i64,
    pub placings: Vec<Placing>,
    pub message: Option<Bytes44>,
}

/// A piece of a head-and-body send (2026-08): "a part of the head or a part of
/// the body". The last one is empty and stands at the new Q.
#[derive(Clone, Debug, PartialEq, Eq)]
pub struct Piece {
    pub key: u32,
    pub address: u64,
    pub bytes: Vec<u8>,
}

/// What a head-and-body send answers.
#[derive(Clone, Debug, PartialEq, Eq)]
pub struct Gathered {
    pub taken: i64,
    pub pieces: Vec<Piece>,
    pub message: Option<Bytes44>,
}

/// What read answers; the bytes read stand in the out buffer.
#[derive(Clone, Debug, PartialEq, Eq)]
pub enum ReadAnswer {
    Read {
        taken: i64,
        message: Option<Bytes44>,
    },
    Torn {
        message: Bytes44,
    },
}

/// What close answers, with the message it made.
#[derive(Clone, Debug, PartialEq, Eq)]
pub enum CloseAnswer {
    /// C was sent; every byte had been read.
    Closed(Bytes44),
    /// Bytes were unread, so A was sent and no C.
    Reset(Bytes44),
}

impl CloseAnswer {
    pub fn message(&self) -> &Bytes44 {
        match self {
            CloseAnswer::Closed(message) | CloseAnswer::Reset(message) => message,
        }
    }
}

/// What hear answers.
#[derive(Clone, Debug, PartialEq, Eq)]
pub struct Heard {
    pub moved: i64,
    pub state: State,
    pub message: Option<Bytes44>,
}

impl Group {
    /// "Connection calls test 1, then 2 [...], 3, 6, 7": as far as 6, which is
    /// the same for every call on a slot. The index of the slot comes back.
    fn test_slot(&self, slot: u32) -> Result<usize, u8> {
        if self.sizes_wrong() {
            return Err(1);
        }
        if self.slot_not_open(slot) {
            return Err(2);
        }
        let index = slot as usize - 1;
        if self.not_coherent(index) {
            return Err(3);
        }
        if self.link_down(self.table[index].link) {
            return Err(6);
        }
        Ok(index)
    }

    /// **Send**, slot and bytes.
    pub fn send(&mut self, slot: u32, bytes: &[u8]) -> Result<Sent, u8> {
        let index = self.test_slot(slot)?;
        if send_forbidden(&self.table[index]) {
            return Err(7);
        }
        Ok(take_and_announce(
            &mut self.table[index],
            bytes.len() as i64,
            false,
        ))
    }

    /// **Urgent send** (2026-04), slot and bytes; it is refused as send is.
    pub fn urgent(&mut self, slot: u32, bytes: &[u8]) -> Result<Sent, u8> {
        let index = self.test_slot(slot)?;
        if send_forbidden(&self.table[index]) {
            return Err(7);
        }
        Ok(take_and_announce(
            &mut self.table[index],
            bytes.len() as i64,
            true,
        ))
    }

    /// **Gather** (2026-08), slot, head and body: "a send that takes both as if
    /// joined, head first". "Refusals, n, record and message equal those of a
    /// plain send of the joined bytes."
    pub fn gather(&mut self, slot: u32, head: &[u8], body: &[u8]) -> Result<Gathered, u8> {
        let joined = [head, body].concat();
        let before = slot
            .checked_sub(1)
            .and_then(|index| self.table.get(index as usize).copied());
        let sent = self.send(slot, &joined)?;
        let from = before.unwrap_or_default();
        Ok(Gathered {
            taken: sent.taken,
            pieces: pieces(&from, head, body, sent.taken as usize),
            message: sent.message,
        })
    }

    /// **Place**, slot, offset, bytes: what the card does for the peer.
    pub fn place(&mut self, slot: u32, offset: u32, bytes: &[u8]) -> Result<(), u8> {
        let index = self.test_slot(slot)?;
        if place_forbidden(&self.table[index]) {
            return Err(7);
        }
        let length = bytes.len() as i64;
        if placing_barred(&self.table[index], i64::from(offset), length, self.n()) {
            return Err(9);
        }
        if length > 0 {
            let start = offset as usize;
            self.element(index)[start..start + bytes.len()].copy_from_slice(bytes);
        }
        Ok(())
    }

    /// **Read**, slot and an out buffer.
    pub fn read(&mut self, slot: u32, out: &mut [u8]) -> Result<ReadAnswer, u8> {
        let index = self.test_slot(slot)?;
        if read_forbidden(&self.table[index]) {
            return Err(7);
        }
        if self.eye_catcher_damaged(index) {
            let message = make_abort_message(&mut self.table[index]);
            return Ok(ReadAnswer::Torn { message });
        }
        Ok(self.copy_and_update(index, out))
    }

    /// **Hear**, message bytes. Tests 1, 4, 5, 3, 6, 16, 8 in this order; 16 and 8
    /// do not apply where F is on (2026-13).
    pub fn hear(&mut self, bytes: &[u8]) -> Result<Heard, u8> {
        if self.sizes_wrong() {
            return Err(1);
        }
        let message = Message::read(bytes).ok_or(4u8)?;
        let index = self.slot_with_token(message.token).ok_or(5u8)?;
        if self.not_coherent(index) {
            return Err(3);
        }
        if self.link_down(self.table[index].link) {
            return Err(6);
        }
        let n = self.n();
        let c = &mut self.table[index];
        if message.abort {
            return Ok(hear_abort(c));
        }
        if c.abort_sent {
            return Ok(heard_without_change(c));
        }
        if message.failover {
            return Ok(hear_failover(c, &message));
        }
        if not_next(c, &message) {
            return Err(16);
        }
        if cursor_rule_broken(c, &message, n) {
            return Err(8);
        }
        Ok(hear_cursors(c, &message, n))
    }

    /// **Shutdown** sends D.
    pub fn shutdown(&mut self, slot: u32) -> Result<Bytes44, u8> {
        let index = self.test_slot(slot)?;
        let c = &mut self.table[index];
        if shutdown_forbidden(c) {
            return Err(7);
        }
        mark_ours_first(c);
        c.done_sent = true;
        Ok(make_message(c))
    }

    /// **Close** sends C, "and the slot is closed if C was heard". 2026-03: "a
    /// close with unread bytes makes an abort message, sets the abort mark and
    /// answers "reset"; no C is sent, and the slot stays open in PeerAbortWait
    /// even where C was heard. With none it is as before."
    pub fn close(&mut self, slot: u32) -> Result<CloseAnswer, u8> {
        let index = self.test_slot(slot)?;
        let n = self.n();
        let c = &mut self.table[index];
        if close_forbidden(c) {
            return Err(7);
        }
        if c.unread(n) > 0 {
            return Ok(CloseAnswer::Reset(make_abort_message(c)));
        }
        mark_ours_first(c);
        c.closed_sent = true;
        let message = make_message(c);
        if c.closed_heard {
            c.close_slot();
        }
        Ok(CloseAnswer::Closed(message))
    }

    /// **Abort** sends A.
    pub fn abort(&mut self, slot: u32) -> Result<Bytes44, u8> {
        let index = self.test_slot(slot)?;
        let c = &mut self.table[index];
        if abort_forbidden(c) {
            return Err(7);
        }
        Ok(make_abort_message(c))
    }
}

// Send, sentence by sentence.

/// 2026-04: while an urgent place of our own stands "send takes 0 bytes, changes
/// nothing and makes no message". "An urgent send of a byte or more, taken whole,
/// makes Q the urgent place [...]. One cut short at other times always makes a
/// message, with P and no U."
fn take_and_announce(c: &mut Connection, length: i64, urgent: bool) -> Sent {
    if length == 0 || c.urgent_sent.is_some() {
        return nothing_taken();
    }
    let taken = c.room().min(length);
    let placings = placings(c, taken);
    c.producer = step(c.producer, taken, c.n_peer());
    let left_over = taken < length;
    let told_before = c.blocked;
    c.blocked = left_over;
    let message = if urgent && left_over {
        Some(make_message_with(c, true, false))
    } else {
        if urgent {
            c.urgent_sent = Some(c.producer);
        }
        if taken > 0 || (left_over && !told_before) {
            Some(make_message(c))
        } else {
            None
        }
    };
    Sent {
        taken,
        placings,
        message,
    }
}

/// "Nothing offered: n is 0, no message, no change."
fn nothing_taken() -> Sent {
    Sent {
        taken: 0,
        placings: Vec::new(),
        message: None,
    }
}

/// "At most two placings [...]: the first from Q's offset to the element's end
/// at most, the second from 4. Empty placings are not named."
fn placings(c: &Connection, taken: i64) -> Vec<Placing> {
    let to_the_end = c.n_peer() - i64::from(c.producer.offset);
    let first = taken.min(to_the_end);
    let second = taken - first;
    let both = [
        placing(c, i64::from(c.producer.offset), 0, first),
        placing(c, FIRST_OFFSET, first, second),
    ];
    both.into_iter()
        .filter(|placing| placing.length > 0)
        .collect()
}

fn placing(c: &Connection, offset: i64, start: i64, length: i64) -> Placing {
    Placing {
        key: c.keys[usize::from(c.link) - 1],
        address: address(c, offset),
        start,
        length,
    }
}

/// "Its pieces are handed back one at a time, each with its offset and an empty
/// one, at the new Q, after the last: the next piece is a part of the head or a
/// part of the body [...] as long as n, its buffer and the room before the
/// element's end allow." The record is the one before the send.
fn pieces(c: &Connection, head: &[u8], body: &[u8], taken: usize) -> Vec<Piece> {
    let key = c.keys[usize::from(c.link) - 1];
    let mut at = c.producer;
    let mut done = 0;
    let mut pieces = Vec::new();
    loop {
        let rest = if done < head.len() {
            &head[done..]
        } else {
            &body[done - head.len()..]
        };
        let room = (c.n_peer() - i64::from(at.offset)) as usize;
        let length = (taken - done).min(rest.len()).min(room);
        pieces.push(Piece {
            key,
            address: address(c, i64::from(at.offset)),
            bytes: rest[..length].to_vec(),
        });
        if length == 0 {
            return pieces;
        }
        done += length;
        at = step(at, length as i64, c.n_peer());
    }
}

/// "Base + (index - 1) x N' + offset"; "the connection's link decides which".
pub fn address(c: &Connection, offset: i64) -> u64 {
    let base = i128::from(c.bases[usize::from(c.link) - 1]);
    let before = (i128::from(c.index) - 1) * i128::from(c.peer_size);
    (base + before + i128::from(offset)) as u64
}

// Place, sentence by sentence.

/// "Byte x of the element is free if (x - P's offset) mod D is below D minus
/// the distance T to P."
pub fn byte_free(c: &Connection, x: i64, n: i64) -> bool {
    let ahead = (x - i64::from(c.peer_producer.offset)).rem_euclid(data_size(n));
    ahead < c.peer_window(n)
}

/// 9: "a placed byte is outside the data or not free". "No bytes: accepted at
/// any offset."
pub fn placing_barred(c: &Connection, offset: i64, length: i64, n: i64) -> bool {
    (offset..offset + length).any(|x| !(FIRST_OFFSET <= x && x <= n - 1) || !byte_free(c, x, n))
}

// Read, sentence by sentence.

impl Group {
    pub fn eye_catcher_damaged(&self, index: usize) -> bool {
        let start = index * self.size as usize;
        self.memory[start..start + 4] != EYE_CATCHER
    }

    /// "Otherwise the first n unread bytes from C are copied, n the smaller of
    /// unread and room in out; C moves by n; out beyond n stays."
    fn copy_and_update(&mut self, index: usize, out: &mut [u8]) -> ReadAnswer {
        let n = self.n();
        let from = self.table[index].consumer;
        let taken = self.table[index].unread(n).min(out.len() as i64);
        let element = self.element(index);
        let mut at = from;
        for byte in out.iter_mut().take(taken as usize) {
            *byte = element[at.offset as usize];
            at = step(at, 1, n);
        }
        let c = &mut self.table[index];
        c.consumer = step(from, taken, n);
        let reached = urgent_place_reached(c, from, taken, n);
        if reached {
            c.urgent_heard = None;
        }
        let message = if taken > 0 && (reached || update_due(c, n)) {
            Some(make_message(c))
        } else {
            None
        };
        ReadAnswer::Read { taken, message }
    }
}

/// 2026-04: whether a read of so many bytes from the old C "reaches or passes"
/// the urgent place.
pub fn urgent_place_reached(c: &Connection, from: Cursor, taken: i64, n: i64) -> bool {
    c.urgent_heard
        .is_some_and(|place| distance(from, place, n) <= taken)
}

/// "B or R stood in the last message heard, or" the window rule.
fn update_due(c: &Connection, n: i64) -> bool {
    c.peer_blocked || c.update_requested || window_rule(c, n)
}

/// "Twice the peer's window (D minus the distance T to P) is below D and ten
/// times the distance T to the new C is at least D (4.5.1)."
pub fn window_rule(c: &Connection, n: i64) -> bool {
    let d = data_size(n);
    2 * c.peer_window(n) < d && 10 * distance(c.told, c.consumer, n) >= d
}

// Hear, sentence by sentence.

/// "With A: if we had not sent A, one abort message is made; the slot is then
/// closed, cursors not looked at."
fn hear_abort(c: &mut Connection) -> Heard {
    let message = if c.abort_sent {
        None
    } else {
        Some(make_abort_message(c))
    };
    c.close_slot();
    Heard {
        moved: 0,
        state: State::Closed,
        message,
    }
}

/// "If we had sent A and this has none: accepted, no change." So is an F message
/// with the last number heard.
fn heard_without_change(c: &Connection) -> Heard {
    Heard {
        moved: 0,
        state: state(c),
        message: None,
    }
}

/// 2026-13: "has F, its number is the last heard: nothing: no field of the record
/// changes"; "any other number: sets the abort mark, then makes an abort message:
/// record and message are those of Abort". "The slot stays open, also where C was
/// heard."
fn hear_failover(c: &mut Connection, message: &Message) -> Heard {
    if message.sequence == c.heard_sequence {
        return heard_without_change(c);
    }
    let message = make_abort_message(c);
    Heard {
        moved: 0,
        state: state(c),
        message: Some(message),
    }
}

/// 16 (2026-07): "A message heard must carry the last number heard plus one,
/// 65,535 going on to 0, the first being 1." Open sets the last heard to 0, so
/// the first is no case of its own.
pub fn not_next(c: &Connection, message: &Message) -> bool {
    message.sequence != c.heard_sequence.wrapping_add(1)
}

/// 8: "a cursor rule of hear is broken".
pub fn cursor_rule_broken(c: &Connection, message: &Message, n: i64) -> bool {
    !new_offsets_in_range(c, message, n)
        || !new_producer_allowed(c, message.producer, n)
        || !new_consumer_allowed(c, message.consumer)
        || producer_moves_after_end(c, message.producer)
}

/// "Both new offsets must be in range (P's by N, R's by N')."
fn new_offsets_in_range(c: &Connection, message: &Message, n: i64) -> bool {
    offset_in_range(message.producer.offset, n)
        && offset_in_range(message.consumer.offset, c.n_peer())
}

/// "The new P must have a good distance from T and none less than before."
fn new_producer_allowed(c: &Connection, new: Cursor, n: i64) -> bool {
    let new_distance = distance(c.told, new, n);
    good(new_distance, n) && new_distance >= c.told_to_producer(n)
}

/// "The new R must be at a good distance before Q and none greater than
/// before."
fn new_consumer_allowed(c: &Connection, new: Cursor) -> bool {
    let size = c.n_peer();
    let new_distance = distance(new, c.producer, size);
    good(new_distance, size) && new_distance <= distance(c.peer_consumer, c.producer, size)
}

/// "P may not move once D or C was heard."
fn producer_moves_after_end(c: &Connection, new: Cursor) -> bool {
    (c.done_heard || c.closed_heard) && new != c.peer_producer
}

/// "Then P, R, sequence, B and R flag are replaced; a D or C mark once heard
/// stays; [...] If the R flag is on and T differs from C, a message is made.
/// After that, C heard and C sent: closed. The answer names how far P moved
/// [...] and the state."
fn hear_cursors(c: &mut Connection, message: &Message, n: i64) -> Heard {
    let moved = distance(c.peer_producer, message.producer, n);
    c.peer_producer = message.producer;
    c.peer_consumer = message.consumer;
    c.heard_sequence = message.sequence;
    c.peer_blocked = message.blocked;
    c.update_requested = message.update_requested;
    c.done_heard = c.done_heard || message.done;
    c.closed_heard = c.closed_heard || message.closed;
    clear_urgent_place_reached(c);
    // 2026-04: "a heard message with U that moves P makes the new P urgent; the
    // reader makes one message then".
    let urgent = message.urgent_present && moved > 0;
    if urgent {
        c.urgent_heard = Some(c.peer_producer);
    }
    let answer = if urgent || (message.update_requested && c.told != c.consumer) {
        Some(make_message(c))
    } else {
        None
    };
    let state = state(c);
    if c.closed_heard && c.closed_sent {
        c.close_slot();
    }
    Heard {
        moved,
        state,
        message: answer,
    }
}

/// 2026-04: our urgent place is "cleared when reached or passed" by R.
fn clear_urgent_place_reached(c: &mut Connection) {
    let size = c.n_peer();
    let left = |from: Cursor| distance(from, c.producer, size);
    if c.urgent_sent
        .is_some_and(|place| left(c.peer_consumer) <= left(place))
    {
        c.urgent_sent = None;
    }
}

/// "Ours first (set with our first D or C if none was heard)."
fn mark_ours_first(c: &mut Connection) {
    let our_first = !c.done_sent && !c.closed_sent;
    let none_heard = !c.done_heard && !c.closed_heard;
    if our_first && none_heard {
        c.ours_first = true;
    }
}

// ---------------------------------------------------------------------------
// State names (Figure 22, from the marks)
// ---------------------------------------------------------------------------

#[derive(Clone, Copy, Debug, PartialEq, Eq, PartialOrd, Ord)]
pub enum State {
    Active,
    PeerCloseWait1,
    PeerCloseWait2,
    AppCloseWait1,
    AppCloseWait2,
    PeerAbortWait,
    Closed,
}

impl State {
    pub const ALL: [State; 7] = [
        State::Active,
        State::PeerCloseWait1,
        State::PeerCloseWait2,
        State::AppCloseWait1,
        State::AppCloseWait2,
        State::PeerAbortWait,
        State::Closed,
    ];

    pub fn name(self) -> &'static str {
        match self {
            State::Active => "Active",
            State::PeerCloseWait1 => "PeerCloseWait1",
            State::PeerCloseWait2 => "PeerCloseWait2",
            State::AppCloseWait1 => "AppCloseWait1",
            State::AppCloseWait2 => "AppCloseWait2",
            State::PeerAbortWait => "PeerAbortWait",
            State::Closed => "Closed",
        }
    }
}

/// The state of an open record: "abort sent, PeerAbortWait", else by the close
/// marks.
pub fn state(c: &Connection) -> State {
    if c.abort_sent {
        State::PeerAbortWait
    } else {
        state_of_marks(
            c.done_sent,
            c.closed_sent,
            c.done_heard,
            c.closed_heard,
            c.ours_first,
        )
    }
}

/// "No mark, Active; only ours, PeerCloseWait1; only heard, AppCloseWait1; both
/// sides marked: C sent only, PeerCloseWait2; C heard only, AppCloseWait2; D
/// each, PeerCloseWait2 if ours came first, else AppCloseWait2. [...] A C
/// counts as its side's mark with or without D. [...] both C giving Closed."
pub fn state_of_marks(
    done_sent: bool,
    closed_sent: bool,
    done_heard: bool,
    closed_heard: bool,
    ours_first: bool,
) -> State {
    let ours = done_sent || closed_sent;
    let heard = done_heard || closed_heard;
    match (ours, heard) {
        (false, false) => State::Active,
        (true, false) => State::PeerCloseWait1,
        (false, true) => State::AppCloseWait1,
        (true, true) => match (closed_sent, closed_heard) {
            (true, true) => State::Closed,
            (true, false) => State::PeerCloseWait2,
            (false, true) => State::AppCloseWait2,
            (false, false) if ours_first => State::PeerCloseWait2,
            (false, false) => State::AppCloseWait2,
        },
    }
}

// ---------------------------------------------------------------------------
// Open and free; `links` has link change, link message and link send
// ---------------------------------------------------------------------------

/// What open is given.
#[derive(Clone, Copy, Debug, PartialEq, Eq)]
pub struct Opening {
    pub slot: u32,
    pub own_token: u32,
    pub peer_token: u32,
    pub link: u8,
    pub peer_size: u32,
    pub index: u32,
    pub keys: [u32; LINKS],
    pub bases: [u64; LINKS],
}

impl Opening {
    /// The peer's element is the first after base 0 on every link, where an
    /// address is the offset.
    pub fn at_base_0(slot: u32, own: u32, peer: u32, link: u8, peer_size: u32) -> Opening {
        Opening {
            slot,
            own_token: own,
            peer_token: peer,
            link,
            peer_size,
            index: 1,
            keys: [0; LINKS],
            bases: [0; LINKS],
        }
    }

    /// 12: "a zero token, or N' out of range"; 2026-09: or an element out of
    /// reach.
    pub fn barred(&self) -> bool {
        self.own_token == 0
            || self.peer_token == 0
            || !size_in_range(i64::from(self.peer_size))
            || element_out_of_reach(self.index, &self.bases, self.peer_size)
    }
}

impl Group {
    /// **Open** (slot, own token, peer token, link, N'; 2026-09: index, and a key
    /// and base for each link). Tests 1, 2, 10, 12, 13, 6, 11.
    pub fn open(&mut self, opening: &Opening) -> Result<(), u8> {
        if self.sizes_wrong() {
            return Err(1);
        }
        if self.slot_outside(opening.slot) {
            return Err(2);
        }
        let index = opening.slot as usize - 1;
        if self.table[index].open {
            return Err(10);
        }
        if opening.barred() {
            return Err(12);
        }
        if !link_in_range(opening.link) {
            return Err(13);
        }
        if self.link_down(opening.link) {
            return Err(6);
        }
        if self.token_held_elsewhere(opening.own_token, opening.slot) {
            return Err(11);
        }
        self.start_element(index);
        self.table[index] = new_connection(opening);
        Ok(())
    }

    /// "Zeroes the element, writes the eye catcher."
    fn start_element(&mut self, index: usize) {
        let element = self.element(index);
        element.fill(0);
        element[..4].copy_from_slice(&EYE_CATCHER);
    }

    /// **Free** closes a slot in PeerAbortWait. Tests 1, 2, 3, 7.
    pub fn free(&mut self, slot: u32) -> Result<(), u8> {
        if self.sizes_wrong() {
            return Err(1);
        }
        if self.slot_not_open(slot) {
            return Err(2);
        }
        let index = slot as usize - 1;
        if self.not_coherent(index) {
            return Err(3);
        }
        if free_forbidden(&self.table[index]) {
            return Err(7);
        }
        self.table[index].close_slot();
        Ok(())
    }
}

/// "Sets all cursors to offset 4, wrap 0, next sequence 1, last heard 0, marks
/// off." An index that is not barred fits a byte.
fn new_connection(opening: &Opening) -> Connection {
    let start = cursor(FIRST_OFFSET as u32, 0);
    Connection {
        open: true,
        own_token: opening.own_token,
        peer_token: opening.peer_token,
        link: opening.link,
        peer_size: opening.peer_size,
        index: opening.index as u8,
        keys: opening.keys,
        bases: opening.bases,
        peer_producer: start,
        consumer: start,
        told: start,
        producer: start,
        peer_consumer: start,
        next_sequence: 1,
        ..Connection::default()
    }
}
