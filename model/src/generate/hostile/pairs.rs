//! Every refusal of every call alone, and every pair and triple that can hold
//! at once.

use super::calls::{allowing_marks, forbidding_marks, SlotCall, SLOT_CALLS};
use super::records::{highest_base, with_marks};
use super::Bench;
use crate::links::{Queue, Role};
use crate::llc::*;
use crate::replay::Line;
use crate::smcr::*;

impl Bench {
    /// Every one, every pair and some triples of 1, 2, 3, 6, 7 and 9.
    pub(super) fn pairs_of_slot_calls(&mut self) {
        for call in SLOT_CALLS {
            let mut numbers = vec![1, 2, 3, 6, 7];
            if call == SlotCall::Place {
                numbers.push(9);
            }
            for spoiled in subsets(&numbers) {
                let times = if spoiled.len() > 2 { 1 } else { 3 };
                for _ in 0..times {
                    self.spoiled_slot_call(call, &spoiled);
                }
            }
        }
    }

    fn spoiled_slot_call(&mut self, call: SlotCall, spoiled: &[u8]) {
        let has = |number: u8| spoiled.contains(&number);
        let (elements, size) = self.small_group(!has(1));
        let n = i64::from(size);
        let mut slot = self.any_slot(elements);
        let base = self.coherent_record(n);
        let mut c = if has(3) {
            self.broken_record(&base, n, has(6))
        } else {
            self.with_places(base, n)
        };
        let own_bits = (self.random.below(8) * 64) as u16;
        let close_marks = if has(7) {
            *self.random.pick(forbidding_marks(call))
        } else {
            *self.random.pick(allowing_marks(call))
        };
        let both_closed = c.closed_sent && c.closed_heard;
        c = with_marks(c, close_marks + own_bits);
        if both_closed {
            c.closed_sent = true;
            c.closed_heard = true;
        }
        self.links_around(c.link, !has(6), if has(6) { 2 } else { 3 });
        if has(2) && self.random.chance(1, 2) {
            c.open = false;
        }
        if self.random.chance(9, 10) {
            self.right_eye_catcher(slot, size);
        }
        self.list.record(slot as usize, c);
        if has(2) && c.open {
            slot = self.slot_outside(slot);
        }
        self.slot_call(call, slot, &c, n, has(9));
        self.look();
    }

    /// Pairs among 1, 4, 5, 3, 6, 16 and 8.
    pub(super) fn pairs_of_hear(&mut self) {
        for spoiled in subsets(&[1, 4, 5, 3, 6, 16, 8]) {
            let times = if spoiled.len() > 2 { 2 } else { 6 };
            for _ in 0..times {
                self.spoiled_hear(&spoiled);
            }
        }
    }

    /// A slot outside 1 to S; some of them are this one when they are cut.
    fn slot_outside(&mut self, slot: u32) -> u32 {
        let elements = self.list.replay.group.elements;
        let beyond = [0, elements + 1, 256, 256 + slot, 65_536 + slot];
        let far = [0x8000_0000 | slot, u32::MAX];
        *self.random.pick(&[&beyond[..], &far[..]].concat())
    }

    fn spoiled_hear(&mut self, spoiled: &[u8]) {
        let has = |number: u8| spoiled.contains(&number);
        let (elements, size) = self.small_group(!has(1));
        let n = i64::from(size);
        let slot = self.any_slot(elements);
        let base = self.coherent_record(n);
        let mut c = if has(3) {
            self.broken_record(&base, n, has(6))
        } else {
            self.with_places(base, n)
        };
        if !has(3) {
            let marks = *self
                .random
                .pick(&[0, 1, 2, 4, 5, 8, 12, 17, 18, 20, 21, 29]);
            c = with_marks(c, marks + (self.random.below(8) * 64) as u16);
        }
        self.links_around(c.link, !has(6), 2);
        if has(5) && (has(3) || has(6) || has(16) || has(8)) {
            // The token 0, held by an open slot.
            c.own_token = 0;
        }
        self.list.record(slot as usize, c);
        let mut message = self.fitting_message(&base, n);
        message.token = c.own_token;
        if has(5) && c.own_token != 0 {
            message.token = match self.random.below(4) {
                0 => 0,
                1 => c.own_token ^ 1,
                2 => c.own_token.swap_bytes() ^ 0x0100_0001,
                _ => c.peer_token ^ 0x8000_0000,
            };
        }
        message.sequence = c.heard_sequence.wrapping_add(1);
        if has(16) {
            let off = *self.random.pick(&[1, 65_535, 65_534, 256, 32_768]);
            message.sequence = message.sequence.wrapping_add(off);
        }
        if has(8) {
            match self.random.below(4) {
                0 => message.producer.offset = 3,
                1 => message.consumer.offset = c.peer_size,
                2 => message.producer.offset = size,
                _ => message.consumer.offset = 0,
            }
        }
        let mut bytes = message.write().to_vec();
        if has(4) {
            match self.random.below(4) {
                0 => bytes[0] = *self.random.pick(&[0x00, 0x07, 0xFF, 0xFC, 0xEE, 0x7E]),
                1 => bytes[1] = *self.random.pick(&[0x00, 0x2B, 0x2D, 0x6C, 0xAC]),
                2 => {
                    bytes.pop();
                }
                _ => bytes.push(0),
            }
        }
        self.list.hear(bytes);
        self.look();
    }

    /// Pairs among 1, 2, 10, 12, 13, 6 and 11.
    pub(super) fn pairs_of_open(&mut self) {
        for spoiled in subsets(&[1, 2, 10, 12, 13, 6, 11]) {
            let times = if spoiled.len() > 2 { 1 } else { 6 };
            for _ in 0..times {
                self.spoiled_open(&spoiled);
            }
        }
    }

    fn spoiled_open(&mut self, spoiled: &[u8]) {
        let has = |number: u8| spoiled.contains(&number);
        let (elements, size) = self.small_group(!has(1));
        let n = i64::from(size);
        let mut slot = self.any_slot(elements);
        let own = self.random.between(1, 0xFFFF_FFFF) as u32;
        let peer = self.random.between(1, 0xFFFF_FFFF) as u32;
        let peer_size = *self.random.pick(&[8, 9, 16, 65_540, size]);
        let mut link = self.random.between(1, 4) as u8;
        self.links_around(link, !has(6), 2);
        if has(10) {
            let mut held = self.coherent_record(n);
            if self.random.chance(1, 3) {
                held = self.broken_record(&held, n, false);
            }
            if self.random.chance(1, 3) {
                held.own_token = own;
            }
            self.list.record(slot as usize, held);
        } else if self.random.chance(1, 2) {
            let junk = self.junk_record(own);
            self.list.record(slot as usize, junk);
        }
        if has(11) {
            let other = if slot == elements { 1 } else { slot + 1 };
            let mut held = self.coherent_record(n);
            if self.random.chance(1, 3) {
                held = self.broken_record(&held, n, false);
            }
            held.own_token = own;
            self.list.record(other as usize, held);
        }
        if has(13) {
            link = *self.random.pick(&[0, 5, 6, 255, 128]);
        }
        if has(2) {
            slot = self.slot_outside(slot);
        }
        // An element that held something before, to see it zeroed or left.
        let length = self.list.replay.group.memory.len();
        let bytes = self.random.bytes(length.min(200));
        self.list.poke(0, bytes);
        let mut opening = Opening::at_base_0(slot, own, peer, link, peer_size);
        if self.random.chance(1, 2) {
            self.open_somewhere(&mut opening);
        }
        if has(12) {
            self.spoil_opening(&mut opening, has(11));
        }
        self.list.opening(opening);
        if self.random.chance(1, 6) {
            self.list.whole_memory();
        }
        self.look();
    }

    /// Puts the peer's element somewhere in reach.
    fn open_somewhere(&mut self, opening: &mut Opening) {
        let mut c = Connection {
            peer_size: opening.peer_size,
            ..Connection::default()
        };
        self.somewhere(&mut c);
        opening.index = u32::from(c.index);
        opening.keys = c.keys;
        opening.bases = c.bases;
    }

    /// A reason for 12; the own token is kept where 11 is to hold too.
    fn spoil_opening(&mut self, opening: &mut Opening, own_kept: bool) {
        match self.random.below(12) {
            0 if !own_kept => opening.own_token = 0,
            0 | 1 => opening.peer_token = 0,
            2 => opening.peer_size = 7,
            3 => opening.peer_size = 65_541,
            4 => opening.peer_size = 0,
            5 => opening.peer_size = u32::MAX,
            6 => opening.index = 0,
            7 => opening.index = 256,
            8 => opening.index = *self.random.pick(&[257, 65_537, u32::MAX]),
            _ => {
                let highest = highest_base(opening.index, opening.peer_size);
                let more = *self.random.pick(&[1, 1, 4, u64::MAX - highest]);
                let link = self.random.below(4) as usize;
                opening.bases[link] = highest + more;
            }
        }
    }

    /// Pairs among 1, 2, 3 and 7.
    pub(super) fn pairs_of_free(&mut self) {
        for spoiled in subsets(&[1, 2, 3, 7]) {
            for _ in 0..4 {
                self.spoiled_free(&spoiled);
            }
        }
    }

    fn spoiled_free(&mut self, spoiled: &[u8]) {
        let has = |number: u8| spoiled.contains(&number);
        let (elements, size) = self.small_group(!has(1));
        let n = i64::from(size);
        let mut slot = self.any_slot(elements);
        let base = self.coherent_record(n);
        let mut c = if has(3) {
            self.broken_record(&base, n, false)
        } else {
            base
        };
        c.abort_sent = !has(7);
        if self.random.chance(1, 2) {
            c.done_heard = true;
        }
        // Free asks for no link.
        if self.random.chance(1, 2) {
            self.links_around(1, true, 2);
        }
        if has(2) && self.random.chance(1, 2) {
            c.open = false;
        }
        self.list.record(slot as usize, c);
        if has(2) && c.open {
            slot = self.slot_outside(slot);
        }
        self.list.free(slot);
        self.look();
    }

    /// Pairs among 1 and 13.
    pub(super) fn pairs_of_link_change(&mut self) {
        for spoiled in subsets(&[1, 13]) {
            for _ in 0..6 {
                let has = |number: u8| spoiled.contains(&number);
                let (link, room) = self.linked_group(has(1), false, has(13));
                let up = self.random.chance(1, 2);
                self.list.add(Line::Link { link, up, room });
                self.look();
            }
        }
    }

    /// Pairs among 1, 13, 6, 4, 14 and 15.
    pub(super) fn pairs_of_link_message(&mut self) {
        for spoiled in subsets(&[1, 13, 6, 4, 14, 15]) {
            let times = if spoiled.len() > 2 { 2 } else { 4 };
            for _ in 0..times {
                self.spoiled_link_message(&spoiled);
            }
        }
        // Optional messages: their length counts, their byte 1 does not.
        self.list.group(1, 8);
        self.list.all_links_up();
        for length in [0, 1, 43, 44, 45] {
            for first in [0x7F, 0x80, 0x9C, 0xBF, 0xC0] {
                let mut bytes = self.random.bytes(length);
                if length > 0 {
                    bytes[0] = first;
                }
                self.list.link_message(2, bytes);
            }
        }
        // On the link being added 6 is not given for a first byte 01.
        for length in [0, 1, 43, 44, 45] {
            for first in [0x01, 0x02] {
                for stage in [0, 2, 5] {
                    self.list.link(3, false);
                    self.list.exchange(stage, 1, 3);
                    let mut bytes = self.random.bytes(length);
                    if length > 0 {
                        bytes[0] = first;
                    }
                    self.list.link_message(3, bytes);
                }
            }
        }
    }

    /// A group and links for a call on a link. The link and the ROOM come back:
    /// where 1 is to hold, the sizes are wrong or the buffer is too short.
    fn linked_group(&mut self, wrong: bool, down: bool, outside: bool) -> (u8, Option<usize>) {
        let (elements, size) = self.small_sizes();
        let right = MESSAGE_BYTES * elements as usize;
        let mut room = *self.random.pick(&[None, Some(right), Some(right + 1)]);
        match self.random.below(4) {
            0 if wrong => self.list.group_of(0, 0, 0),
            1 if wrong => {
                self.list.group(elements, size);
                room = Some(*self.random.pick(&[0, 44, right - 1]));
            }
            _ if wrong => self.nearly_right_group(elements, size),
            _ => self.list.group(elements, size),
        }
        let n = i64::from(size);
        for slot in 1..=self.list.replay.group.table.len().min(elements as usize) {
            if self.random.chance(1, 3) {
                let c = self.coherent_record(n);
                self.list.record(slot, c);
            }
        }
        let mut link = self.random.between(1, 4) as u8;
        self.links_around(link, !down, 2);
        if outside {
            link = *self.random.pick(&[0, 5, 255]);
        }
        (link, room)
    }

    fn spoiled_link_message(&mut self, spoiled: &[u8]) {
        let has = |number: u8| spoiled.contains(&number);
        let (link, room) = self.linked_group(has(1), has(6), has(13));
        let w = self.random.between(1, 4) as u8;
        let mut bytes = if has(14) || has(15) {
            // An 04 from a client, which a server queues while anything runs.
            self.list.role(Role::Server);
            let stage = *self.random.pick(&[1, 4, 5, 7, 11]);
            self.list
                .exchange(stage, self.random.between(1, 4) as u8, w);
            let outside = *self.random.pick(&[0, 5, 255]);
            let named = if has(14) { outside } else { u64::from(w) };
            let fields = Fields::zero(DELETE_LINK).with("link", named);
            let count = if has(15) {
                *self.random.pick(&[4, 5, 255])
            } else {
                *self.random.pick(&[0, 1, 3])
            };
            let queue = Box::new(Queue {
                count,
                ..Queue::EMPTY
            });
            self.list.add(Line::Queue { queue });
            fields.write().to_vec()
        } else {
            let mut bytes = self.random.bytes(MESSAGE_BYTES);
            bytes[0] = TEST_LINK;
            bytes[1] = LENGTH_BYTE;
            bytes
        };
        if has(4) {
            match self.random.below(5) {
                0 | 1 => bytes[1] = *self.random.pick(&[0x00, 0x2B, 0x2D, 0xFF]),
                2 => {
                    bytes.pop();
                }
                3 => bytes.push(0),
                _ if has(14) || has(15) => bytes[1] = 0xAC,
                _ => {
                    bytes[0] = *self
                        .random
                        .pick(&[0x00, 0x05, 0x0A, 0x7F, 0xC0, 0xFE, 0xFF])
                }
            }
        }
        self.list.add(Line::LinkMsg { link, bytes, room });
        self.look();
    }

    /// Pairs among 1, 13, 6, 14 and 15.
    pub(super) fn pairs_of_link_send(&mut self) {
        for spoiled in subsets(&[1, 13, 6, 14, 15]) {
            let times = if spoiled.len() > 2 { 2 } else { 5 };
            for _ in 0..times {
                self.spoiled_link_send(&spoiled);
            }
        }
    }

    fn spoiled_link_send(&mut self, spoiled: &[u8]) {
        let has = |number: u8| spoiled.contains(&number);
        let (link, room) = self.linked_group(has(1), has(6), has(13));
        let role = *self.random.pick(&Role::ALL);
        self.list.role(role);
        let w = self.random.between(1, 4);
        let outside = *self.random.pick(&[0, 5, 255]);
        let named = if has(14) { outside } else { w as u64 };
        let fields = if has(15) {
            // A reply unasked, or a request while another exchange runs.
            let stage = *self.random.pick(&[0, 6, 11]);
            self.list.exchange(stage, link, 0);
            match self.random.below(3) {
                0 => Fields::zero(CONFIRM_LINK),
                1 => Fields::zero(ADD_LINK_CONTINUATION).with("R", 1),
                _ => Fields::zero(ADD_LINK).with("R", 1),
            }
        } else if role == Role::Client {
            Fields::zero(DELETE_LINK)
        } else {
            Fields::zero(ADD_LINK)
        };
        let fields = fields.with("link", named);
        self.list.add(Line::LinkSend { link, fields, room });
        self.look();
    }
}

/// The empty list, every one, every pair, and all triples.
fn subsets(numbers: &[u8]) -> Vec<Vec<u8>> {
    let mut all = vec![Vec::new()];
    for (at, &first) in numbers.iter().enumerate() {
        all.push(vec![first]);
        for (next, &second) in numbers.iter().enumerate().skip(at + 1) {
            all.push(vec![first, second]);
            for &third in &numbers[next + 1..] {
                all.push(vec![first, second, third]);
            }
        }
    }
    all
}
