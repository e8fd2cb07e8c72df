//! Two-sided traffic: connections whose two ends are two slots of one group, or
//! one slot of the group and one of a far group that stands behind the scenes
//! with its own element size. A send's placings are performed as `place` at the
//! other end, its message is heard there, and so on back.

use std::collections::VecDeque;

use super::{gauges, links, message_of, pool, setup, told_in, writes_of, List};
use crate::links::Role;
use crate::llc::{Fields, DELETE_LINK, TEST_LINK};
use crate::random::Random;
use crate::replay::{Answer, Line, Replay};
use crate::smcr::*;

/// How many lines a list has unless asked otherwise.
pub const COUNT: usize = 3_000;
/// A list of large elements ends early when its text has this many bytes.
const MOST_TEXT: usize = 700_000;

/// One end of a connection.
#[derive(Clone, Copy, Debug, PartialEq, Eq)]
struct End {
    far: bool,
    slot: u32,
}

/// What is on its way to an end. A write keeps the link that its address is for,
/// whatever moves meanwhile.
#[derive(Clone, Debug)]
enum Flight {
    Write {
        link: u8,
        address: u64,
        bytes: Vec<u8>,
    },
    Message(Bytes44),
}

/// A connection: its two ends and what is on its way to each of them.
struct Pair {
    ends: [End; 2],
    flights: [VecDeque<Flight>; 2],
    last_heard: [Option<Bytes44>; 2],
    /// Actions left before the ends begin to close.
    life: i64,
}

/// What a world may do beside traffic.
#[derive(Clone, Copy, Debug)]
pub struct Habits {
    /// Lays records and bytes as a stranger would.
    pub strangers: bool,
    /// Makes `table` and `memory` lines.
    pub looks: bool,
    /// Makes calls that nobody owns, and refused calls of the other kinds.
    pub noise: bool,
    /// Works on what stands beside the group too.
    pub beside: bool,
}

/// A group's memory as the other group's card knows it: a key and a base for
/// each link. Slot k is element k.
#[derive(Clone, Copy, Debug)]
struct Registered {
    keys: [u32; LINKS],
    bases: [u64; LINKS],
}

impl Registered {
    fn new(random: &mut Random, length: u64) -> Registered {
        let mut registered = Registered {
            keys: [0; LINKS],
            bases: [0; LINKS],
        };
        for link in 0..LINKS {
            registered.keys[link] = random.draw() as u32 >> random.below(32);
            registered.bases[link] = match random.below(4) {
                0 => 0,
                1 => u64::MAX - length + 1,
                2 => random.draw() >> 17 << 12,
                _ => random.below(1_000_000),
            };
        }
        registered
    }
}

pub struct World {
    pub list: List,
    far: Replay,
    /// The memory of the group, and that of the far one.
    registered: [Registered; 2],
    pairs: Vec<Pair>,
    random: Random,
    habits: Habits,
    next_token: u32,
    /// The exchanges of link messages with an end of their own.
    links: links::Ends,
}

/// A list of traffic.
pub fn list(seed: u64, count: usize) -> Vec<u8> {
    let mut random = Random::new(seed.wrapping_mul(4).wrapping_add(1));
    let size = match seed % 16 {
        5 => 65_540,
        3 | 11 => 10_000,
        7 => 8,
        _ => random.between(8, 40) as u32,
    };
    let habits = Habits {
        strangers: true,
        looks: true,
        noise: true,
        beside: true,
    };
    let elements = match seed % 16 {
        _ if size > 1_000 => random.between(2, 3),
        2 => 255,
        6 | 14 => random.between(17, 255),
        _ => random.between(2, 16),
    };
    let mut world = World::new(random, elements as u32, size, habits);
    while world.list.count < count && world.list.text.len() < MOST_TEXT {
        world.act();
    }
    world.list.table();
    if size <= 1_000 {
        world.list.whole_memory();
    }
    world.list.text
}

impl World {
    pub fn new(mut random: Random, elements: u32, size: u32, habits: Habits) -> World {
        let mut list = List::new();
        list.group(elements, size);
        let far_size = random.between(8, 48) as u32;
        let mut far = Replay::new();
        let slots = elements as usize;
        far.group = Group::fresh(elements, far_size, slots * far_size as usize, slots);
        far.group.links = [true; 4];
        let next_token = random.between(1, 1_000_000_000) as u32;
        let registered =
            [size, far_size].map(|size| Registered::new(&mut random, u64::from(elements * size)));
        let links = links::Ends::new(&mut list, &mut random);
        let mut world = World {
            list,
            far,
            registered,
            pairs: Vec::new(),
            random,
            habits,
            next_token,
            links,
        };
        world.pair_up(elements);
        world
    }

    /// Parts the slots among near pairs and far pairs; some stay closed.
    fn pair_up(&mut self, elements: u32) {
        let mut slots: Vec<u32> = (1..=elements).collect();
        self.random.shuffle(&mut slots);
        while let Some(slot) = slots.pop() {
            let near = End { far: false, slot };
            let other = match slots.pop() {
                Some(other) if self.random.chance(4, 5) => End {
                    far: false,
                    slot: other,
                },
                Some(unused) if self.random.chance(1, 2) => {
                    slots.push(unused);
                    End { far: true, slot }
                }
                _ => End { far: true, slot },
            };
            self.pairs.push(Pair {
                ends: [near, other],
                flights: [VecDeque::new(), VecDeque::new()],
                last_heard: [None, None],
                life: 0,
            });
            if self.pairs.len() == if elements > 16 { 9 } else { 5 } {
                break;
            }
        }
        // Slots that belong to no pair stay closed and can be named in error.
        for link in 1..=4 {
            if self.random.chance(4, 5) {
                self.links.change_both(&mut self.list, link, true);
            }
        }
    }

    pub fn act(&mut self) {
        self.act_once();
        self.carry_failovers();
    }

    fn act_once(&mut self) {
        match self.random.below(400) {
            0..=3 | 61..=64 => self.flap_link(),
            65 => self.strand(),
            66..=67 => self.test_link(),
            68..=70 => self.delete_link(),
            4..=5 => self.bring_links_up(),
            6 if self.habits.looks => self.list.table(),
            7 if self.habits.looks => self.look_at_memory(),
            8 if self.habits.strangers => self.damage(),
            9..=24 if self.habits.noise => self.noise(),
            49..=60 => {
                for _ in 0..self.random.between(1, 6) {
                    self.links.act(&mut self.list, &mut self.random);
                }
            }
            25..=32 => gauges::act(&mut self.list, &mut self.random),
            33 if self.habits.beside => setup::act(&mut self.list, &mut self.random),
            34..=48 if self.habits.beside => pool::act(&mut self.list, &mut self.random),
            _ => self.act_on_pair(),
        }
    }

    fn act_on_pair(&mut self) {
        let which = self.random.below(self.pairs.len() as u64) as usize;
        let side = self.random.below(2) as usize;
        if self.both_closed(which) {
            if self.random.chance(1, 6) {
                self.open_pair(which);
            }
            return;
        }
        self.pairs[which].life -= 1;
        if self.pairs[which].life < 0 && self.random.chance(1, 4) {
            self.wind_down(which, side);
            return;
        }
        match self.random.below(100) {
            0..=34 => self.send(which, side),
            35..=69 => self.deliver(which, side),
            70..=97 => self.read(which, side),
            98 => {
                if self.random.chance(1, 12) {
                    self.end_call(which, side, |slot| Line::Shutdown { slot })
                }
            }
            _ => {
                if self.random.chance(1, 20) {
                    self.end_call(which, side, |slot| Line::Abort { slot })
                }
            }
        }
    }

    // The ends.

    fn group_of(&self, end: End) -> &Group {
        if end.far {
            &self.far.group
        } else {
            &self.list.replay.group
        }
    }

    fn record_of(&self, end: End) -> Connection {
        self.group_of(end).table[end.slot as usize - 1]
    }

    fn both_closed(&self, which: usize) -> bool {
        self.pairs[which]
            .ends
            .iter()
            .all(|&end| !self.record_of(end).open)
    }

    /// Makes a call at an end: in the list, or behind the scenes.
    fn call(&mut self, end: End, line: Line) -> Answer {
        if end.far {
            self.far.execute(&line)
        } else {
            self.list.add(line)
        }
    }

    /// Makes a call at one side of a pair and sends off the message it makes.
    fn call_at(&mut self, which: usize, side: usize, line: Line) -> Answer {
        let end = self.pairs[which].ends[side];
        let answer = self.call(end, line);
        if let Some(message) = message_of(&answer) {
            self.pairs[which].flights[1 - side].push_back(Flight::Message(message));
        }
        answer
    }

    // The actions.

    fn open_pair(&mut self, which: usize) {
        let first = self.next_token;
        self.next_token += self.random.between(2, 5) as u32;
        let tokens = [first, first + 1];
        let ends = self.pairs[which].ends;
        let link = self.random.between(1, 4) as u8;
        for side in 0..2 {
            let peer = ends[1 - side];
            let Registered { keys, bases } = self.registered[usize::from(peer.far)];
            let opening = Opening {
                slot: ends[side].slot,
                own_token: tokens[side],
                peer_token: tokens[1 - side],
                link,
                peer_size: self.group_of(peer).size,
                index: peer.slot,
                keys,
                bases,
            };
            self.call(ends[side], Line::Open { opening });
        }
        self.pairs[which].flights = [VecDeque::new(), VecDeque::new()];
        self.pairs[which].last_heard = [None, None];
        self.pairs[which].life = self.random.between(10, 160);
        let opened = ends.iter().all(|&end| self.record_of(end).open);
        if !opened {
            self.drop_pair(which);
        } else if self.habits.strangers && self.random.chance(1, 2) {
            self.shift_pair(which);
        }
    }

    /// An open that failed at one end is taken back at the other.
    fn drop_pair(&mut self, which: usize) {
        for end in self.pairs[which].ends {
            if !self.record_of(end).open {
                continue;
            }
            self.call(end, Line::Abort { slot: end.slot });
            self.call(end, Line::Free { slot: end.slot });
        }
    }

    /// Lays records that put wraps and sequence numbers close to 65,535.
    fn shift_pair(&mut self, which: usize) {
        let ends = self.pairs[which].ends;
        let mut records = [self.record_of(ends[0]), self.record_of(ends[1])];
        for side in 0..2 {
            // The direction from this side to the other one.
            let size = i64::from(self.group_of(ends[1 - side]).size);
            let near_end = self.random.chance(1, 2);
            let offset = if near_end {
                self.random.between((size - 5).max(4), size - 1)
            } else {
                self.random.between(4, size - 1)
            };
            let start = cursor(offset as u32, self.random.between(65_531, 65_535) as u16);
            records[side].producer = start;
            records[side].peer_consumer = start;
            records[1 - side].peer_producer = start;
            records[1 - side].consumer = start;
            records[1 - side].told = start;
            let sequence = self.random.between(65_520, 65_535) as u16;
            records[side].next_sequence = sequence;
            records[1 - side].heard_sequence = sequence.wrapping_sub(1);
        }
        for side in 0..2 {
            self.call(
                ends[side],
                Line::Record {
                    slot: ends[side].slot as usize,
                    record: records[side],
                },
            );
        }
    }

    fn send(&mut self, which: usize, side: usize) {
        let end = self.pairs[which].ends[side];
        let peer_size = i64::from(self.record_of(end).peer_size);
        let length = match self.random.below(20) {
            0 => 0,
            1..=3 => 1,
            4..=15 => self.random.between(1, (peer_size / 2).min(400)),
            16..=18 if peer_size <= 1_000 => self.random.between(1, peer_size + 6),
            19 if peer_size > 1_000 => self.random.between(1, peer_size + 6).min(69_000),
            _ => self.random.between(1, peer_size.min(900)),
        };
        let bytes = self.random.bytes(length as usize);
        let slot = end.slot;
        let line = match self.random.below(9) {
            0 => Line::Urgent {
                slot,
                bytes: bytes.clone(),
            },
            1 => {
                let (head, body) = bytes.split_at(self.random.below(length as u64 + 1) as usize);
                Line::Gather {
                    slot,
                    head: head.to_vec(),
                    body: body.to_vec(),
                }
            }
            _ => Line::Send {
                slot,
                bytes: bytes.clone(),
            },
        };
        let link = self.record_of(end).link;
        let answer = self.call(end, line);
        let flights = &mut self.pairs[which].flights[1 - side];
        for (address, bytes) in writes_of(&answer, &bytes) {
            flights.push_back(Flight::Write {
                link,
                address,
                bytes,
            });
        }
        if let Some(message) = message_of(&answer) {
            flights.push_back(Flight::Message(message));
        }
    }

    /// Performs what is on its way to a side, up to some messages.
    fn deliver(&mut self, which: usize, side: usize) {
        let end = self.pairs[which].ends[side];
        let mut messages = self.random.between(1, 3);
        while messages > 0 {
            let Some(flight) = self.pairs[which].flights[side].pop_front() else {
                self.hear_again(which, side);
                return;
            };
            let (answer, is_message) = match &flight {
                Flight::Write {
                    link,
                    address,
                    bytes,
                } => {
                    let line = Line::Place {
                        slot: end.slot,
                        offset: self.offset_at(end, *link, *address),
                        bytes: bytes.clone(),
                    };
                    (self.call_at(which, side, line), false)
                }
                Flight::Message(message) => {
                    self.pairs[which].last_heard[side] = Some(*message);
                    let bytes = self.of_another_make(*message).to_vec();
                    (self.call_at(which, side, Line::Hear { bytes }), true)
                }
            };
            if answer == Answer::Refused(6) {
                self.pairs[which].flights[side].push_front(flight);
                return;
            }
            if is_message {
                messages -= 1;
            }
        }
    }

    /// Where in an end's element an address of its memory lies, by a link.
    fn offset_at(&self, end: End, link: u8, address: u64) -> u32 {
        let base = self.registered[usize::from(end.far)].bases[usize::from(link) - 1];
        let element = u64::from(end.slot - 1) * u64::from(self.group_of(end).size);
        address.wrapping_sub(base).wrapping_sub(element) as u32
    }

    /// A message heard a second time, out of step now unless it is an abort.
    fn hear_again(&mut self, which: usize, side: usize) {
        if !self.random.chance(1, 10) {
            return;
        }
        if let Some(message) = self.pairs[which].last_heard[side] {
            let bytes = message.to_vec();
            self.call_at(which, side, Line::Hear { bytes });
        }
    }

    /// Peers of another make ask for updates and use what is reserved.
    fn of_another_make(&mut self, mut message: Bytes44) -> Bytes44 {
        if self.random.chance(1, 16) {
            message[24] |= FLAG_UPDATE_REQUESTED;
        }
        if self.random.chance(1, 40) {
            message[24] ^= FLAG_BLOCKED;
        }
        if self.random.chance(1, 40) {
            message[24] |= self.random.draw() as u8 & 0x67;
            message[25] |= self.random.draw() as u8 & 0x1F;
            for at in [8, 9, 16, 17].into_iter().chain(26..44) {
                message[at] = self.random.draw() as u8;
            }
        }
        message
    }

    fn read(&mut self, which: usize, side: usize) {
        let end = self.pairs[which].ends[side];
        let size = i64::from(self.group_of(end).size);
        let unread = self.record_of(end).unread(size).max(0);
        let room = match self.random.below(12) {
            0 => 0,
            1..=2 => 1,
            3..=5 => self.random.between(1, (size / 8).max(2)),
            6..=7 => self.random.between(0, unread),
            8 => unread + self.random.between(0, 8),
            _ => self.random.between(1, size.min(300)),
        };
        let line = Line::Read {
            slot: end.slot,
            room: room as usize,
        };
        self.call_at(which, side, line);
    }

    fn end_call(&mut self, which: usize, side: usize, line: fn(u32) -> Line) {
        let slot = self.pairs[which].ends[side].slot;
        self.call_at(which, side, line(slot));
    }

    /// Closes a connection that has lived long enough, one step at a time.
    fn wind_down(&mut self, which: usize, side: usize) {
        let end = self.pairs[which].ends[side];
        let record = self.record_of(end);
        if record.abort_sent {
            let nothing_comes = self.pairs[which].flights[side].is_empty();
            if nothing_comes || self.random.chance(1, 10) {
                self.call(end, Line::Free { slot: end.slot });
            }
            return;
        }
        let unread = record.unread(i64::from(self.group_of(end).size));
        match self.random.below(12) {
            0..=3 => self.end_call(which, side, |slot| Line::Shutdown { slot }),
            // Who closes in order reads first; a close with unread bytes resets.
            4..=9 if unread > 0 && self.random.chance(3, 4) => {
                let room = unread as usize;
                self.call_at(
                    which,
                    side,
                    Line::Read {
                        slot: end.slot,
                        room,
                    },
                );
            }
            4..=9 => self.end_call(which, side, |slot| Line::Close { slot }),
            _ => self.end_call(which, side, |slot| Line::Abort { slot }),
        }
    }

    fn flap_link(&mut self) {
        let link = self.random.between(1, 4) as u8;
        let up = !self.list.replay.group.links[usize::from(link) - 1] || self.random.chance(1, 4);
        self.change_link(link, up);
        if !up {
            for _ in 0..self.random.between(0, 12) {
                self.act_on_pair();
            }
            if self.random.chance(2, 3) {
                self.change_link(link, true);
            }
        }
    }

    /// Changes a link in the group, and mostly in the far one too; now and then
    /// with a buffer that is longer than need be, or too short at first.
    fn change_link(&mut self, link: u8, up: bool) {
        let right = MESSAGE_BYTES * self.list.replay.group.table.len();
        let odd = match self.random.below(8) {
            0 => Some(right - 1 - self.random.below(right as u64) as usize),
            1 => Some(right + self.random.below(100) as usize),
            _ => None,
        };
        if let Some(room) = odd {
            let room = Some(room);
            self.list.add(Line::Link { link, up, room });
        }
        self.links.change_both(&mut self.list, link, up);
        self.carry_failovers();
        if self.random.chance(3, 4) {
            let room = None;
            let answer = self.far.execute(&Line::Link { link, up, room });
            self.carry(true, told_in(&answer));
        }
    }

    /// The server deletes a link, heard at a client or sent and answered, over
    /// another one mostly; it comes up again after a while.
    fn delete_link(&mut self) {
        let group = &self.list.replay.group;
        let active: Vec<u8> = (1..=4).filter(|&link| !group.link_down(link)).collect();
        if active.is_empty() {
            return;
        }
        let (role, idle) = (group.role, group.exchange.stage == 0);
        let (link, over) = (*self.random.pick(&active), *self.random.pick(&active));
        let delete = Fields::zero(DELETE_LINK).with("link", u64::from(link));
        match role {
            Role::Client => {
                self.list.link_message(over, delete.write().to_vec());
            }
            Role::Server => {
                if idle {
                    self.list.link_send(over, delete.clone());
                }
                let reply = delete.with("R", 1).write().to_vec();
                self.list.link_message(over, reply);
            }
        }
        self.carry_failovers();
        for _ in 0..self.random.between(0, 12) {
            self.act_on_pair();
        }
        if self.random.chance(2, 3) {
            self.change_link(link, true);
        }
    }

    /// All links go down one after the other, which strands the connections on the
    /// last; others come up first.
    fn strand(&mut self) {
        let mut order = [1, 2, 3, 4];
        self.random.shuffle(&mut order);
        for link in order {
            self.change_link(link, false);
        }
        for _ in 0..self.random.between(0, 8) {
            self.act_on_pair();
        }
        for link in order {
            self.change_link(link, true);
            for _ in 0..self.random.between(0, 6) {
                self.act_on_pair();
            }
        }
    }

    /// Takes the F messages that the list's calls made to those who hear them.
    fn carry_failovers(&mut self) {
        let told = std::mem::take(&mut self.list.told);
        self.carry(false, told);
    }

    /// F messages go behind what is on its way, mostly. One that overtakes, or
    /// before which something was lost, costs the connection.
    fn carry(&mut self, from_far: bool, told: Vec<Bytes44>) {
        for bytes in told {
            let Some(message) = Message::read(&bytes) else {
                continue;
            };
            let found = (0..self.pairs.len())
                .flat_map(|which| [(which, 0), (which, 1)])
                .find(|&(which, side)| {
                    let ends = self.pairs[which].ends;
                    let c = self.record_of(ends[side]);
                    ends[1 - side].far == from_far && c.open && c.own_token == message.token
                });
            let Some((which, side)) = found else {
                continue;
            };
            let fate = self.random.below(30);
            let flights = &mut self.pairs[which].flights[side];
            match fate {
                0 => flights.retain(|flight| matches!(flight, Flight::Write { .. })),
                1 => {
                    flights.pop_front();
                }
                2..=3 => continue,
                _ => {}
            }
            let flight = Flight::Message(bytes);
            match fate {
                4..=5 => flights.push_front(flight),
                6..=8 => flights.extend([flight.clone(), flight]),
                _ => flights.push_back(flight),
            }
        }
    }

    /// Links that exchanges took down come up again.
    fn bring_links_up(&mut self) {
        for link in 1..=4 {
            if !self.list.replay.group.links[usize::from(link) - 1] && self.random.chance(3, 4) {
                self.change_link(link, true);
            }
        }
    }

    fn test_link(&mut self) {
        let link = self.random.between(1, 4) as u8;
        let mut bytes = self.random.bytes(MESSAGE_BYTES);
        bytes[0] = *self
            .random
            .pick(&[TEST_LINK, TEST_LINK, TEST_LINK, 0x80, 0xBF, 0x09]);
        bytes[1] = LENGTH_BYTE;
        self.list.link_message(link, bytes);
    }

    fn look_at_memory(&mut self) {
        let length = self.list.replay.group.memory.len();
        let at = self.random.below(length as u64) as usize;
        let count = self.random.below((length - at).min(400) as u64 + 1) as usize;
        self.list.memory(at, count);
    }

    /// Something writes over an eye catcher.
    fn damage(&mut self) {
        let slot = self
            .random
            .below(u64::from(self.list.replay.group.elements)) as usize;
        let at = slot * self.list.replay.group.size as usize + self.random.below(4) as usize;
        let bytes = self.random.bytes(1);
        self.list.poke(at, bytes);
    }

    /// A message that is not accepted, unless A was sent: malformed, to nobody,
    /// with a number that is not next, or with an offset outside.
    fn message_out_of_step(&mut self, token: u32) -> Vec<u8> {
        let size = i64::from(self.list.replay.group.size);
        let next = match self.list.replay.group.slot_with_token(token) {
            Some(index) => self.list.replay.group.table[index]
                .heard_sequence
                .wrapping_add(1),
            None => 1,
        };
        let mut message = Message {
            sequence: next,
            token,
            producer: cursor(self.random.between(4, size - 1) as u32, 0),
            consumer: cursor(self.random.between(4, size - 1) as u32, 0),
            ..Message::default()
        };
        if self.random.chance(1, 3) {
            message.producer.offset = *self.random.pick(&[3, size as u32]);
        } else {
            let off = *self.random.pick(&[1, 2, 3, 65_535, 65_534, 32_768]);
            message.sequence = next.wrapping_add(off);
        }
        let mut bytes = message.write().to_vec();
        match self.random.below(4) {
            0 => bytes[0] = self.random.draw() as u8 & 0x7F,
            1 => {
                bytes.pop();
            }
            _ => {}
        }
        bytes
    }

    /// Calls that nobody owns and calls that are refused, the open, free and
    /// link calls among them.
    fn noise(&mut self) {
        let elements = self.list.replay.group.elements;
        let size = self.list.replay.group.size;
        let slot = match self.random.below(6) {
            0 => 0,
            1 => elements + 1,
            2 => u32::MAX,
            3 => self.random.between(1, 300) as u32,
            _ => self.random.between(1, i64::from(elements)) as u32,
        };
        let bytes = self.random.between(0, 3) as usize;
        let bytes = self.random.bytes(bytes);
        let token = match self.random.below(3) {
            0 => 0,
            1 => self.random.draw() as u32,
            _ => {
                let index = self.random.below(u64::from(elements)) as usize;
                self.list.replay.group.table[index].own_token
            }
        };
        match self.random.below(20) {
            0 => {
                self.list.send(slot, bytes);
            }
            1 => {
                self.list.gather(slot, bytes.clone(), bytes);
            }
            2 => {
                self.list.urgent(slot, bytes);
            }
            3..=4 => {
                let offset = self.random.between(0, i64::from(size) + 1) as u32;
                self.list.place(slot, offset, bytes);
            }
            5..=6 => {
                let room = self.random.below(4) as usize;
                self.list.read(slot, room);
            }
            7..=10 => {
                let message = self.message_out_of_step(token);
                self.list.hear(message);
            }
            11 if elements < slot || slot == 0 => {
                self.list.shutdown(slot);
            }
            12 if elements < slot || slot == 0 => {
                self.list.close(slot);
            }
            13 if elements < slot || slot == 0 => {
                self.list.abort(slot);
            }
            14 => {
                self.list.free(slot);
            }
            15 => {
                let link = *self.random.pick(&[0, 5, 255]);
                self.list.link(link, true);
            }
            16 => {
                let link = self.random.below(7) as u8;
                let length = *self.random.pick(&[0, 43, 44, 45]);
                let bytes = self.random.bytes(length);
                self.list.link_message(link, bytes);
            }
            17 => {
                let link = self.random.below(6) as u8;
                self.list.open(slot, token, 0, link, size);
            }
            _ => {
                let link = *self.random.pick(&[0, 5, 255]);
                self.list.open(slot, token, 1, link, size);
            }
        }
    }
}
