//! Tables of any records, links as a stranger lays them, each call that may take
//! links down, its buffer right, long or short, and F messages heard.

use super::calls::SLOT_CALLS;
use super::records::with_marks;
use super::Bench;
use crate::links::{Exchange, Role};
use crate::llc::*;
use crate::replay::Line;
use crate::smcr::*;

impl Bench {
    pub(super) fn failovers(&mut self) {
        for round in 0..18 {
            let elements = match round {
                0 => self.random.between(17, 40) as u32,
                1..=2 => self.random.between(8, 16) as u32,
                3..=4 => 1,
                _ => self.random.between(2, 7) as u32,
            };
            let size = self.random.between(8, 24) as u32;
            let n = i64::from(size);
            if self.random.chance(5, 6) {
                self.list.group(elements, size);
            } else {
                self.nearly_right_group(elements, size);
            }
            for slot in 1..=(elements as usize).min(self.list.replay.group.table.len()) {
                let c = self.record_of_any_sort(n);
                self.list.record(slot, c);
            }
            for _ in 0..5 {
                let active = [0; 4].map(|_| self.random.chance(2, 3));
                self.list.lay_links(active);
                self.call_on_links(elements);
                if self.random.chance(1, 3) {
                    self.list.table();
                }
                for _ in 0..self.random.below(4) {
                    let slot = self.any_slot(elements);
                    self.after_a_move(slot, n);
                }
            }
        }
    }

    /// Open and coherent with any marks, mostly; else broken, or closed.
    fn record_of_any_sort(&mut self, n: i64) -> Connection {
        let base = self.coherent_record(n);
        match self.random.below(8) {
            0 => Connection {
                link: base.link,
                ..self.junk_record(base.own_token)
            },
            1 => self.broken_record(&base, n, true),
            2 => self.broken_record(&base, n, false),
            _ => {
                let marks = *self
                    .random
                    .pick(&[0, 0, 0, 1, 2, 4, 5, 8, 9, 18, 20, 32, 32, 33, 40]);
                let own_bits = 64 * self.random.below(8) as u16;
                with_marks(self.with_places(base, n), marks + own_bits)
            }
        }
    }

    /// How many bytes of buffer a call is lent, said or not.
    fn any_room(&mut self, elements: u32) -> Option<usize> {
        let right = MESSAGE_BYTES * elements as usize;
        match self.random.below(12) {
            0 => Some(right - 1),
            1 => Some(right - self.random.below(right as u64 + 1) as usize),
            2 => Some(right + 1),
            3 => Some(right + self.random.below(200) as usize),
            4..=5 => Some(right),
            _ => None,
        }
    }

    /// A call that may take links down; one in a few takes none down.
    fn call_on_links(&mut self, elements: u32) {
        let room = self.any_room(elements);
        let link = self.random.between(1, 4) as u8;
        let over = self.random.between(1, 4) as u8;
        let delete = Fields::zero(DELETE_LINK).with("link", u64::from(link));
        let way = self.random.below(14);
        let role = match way {
            6..=7 => Role::Client,
            8..=9 => Role::Server,
            _ => *self.random.pick(&Role::ALL),
        };
        if self.list.replay.group.role != role {
            self.list.role(role);
        }
        if matches!(way, 8..=9) {
            self.list.exchange(5, over, link);
        } else if self.list.replay.group.exchange != Exchange::default() {
            self.list.exchange(0, 0, 0);
        }
        let heard = |fields: Fields| Line::LinkMsg {
            link: over,
            bytes: fields.write().to_vec(),
            room,
        };
        let line = match way {
            0..=4 => Line::Link {
                link,
                up: false,
                room,
            },
            5 => Line::Link {
                link: *self.random.pick(&[link, link, 0, 5]),
                up: self.random.chance(1, 2),
                room,
            },
            6..=7 => heard(delete),
            8..=9 => heard(delete.with("R", 1)),
            10 => heard(delete.with("A", 1)),
            11 => Line::LinkSend {
                link: over,
                fields: delete.with("A", 1),
                room,
            },
            12 => Line::LinkSend {
                link: over,
                fields: Fields::zero(TEST_LINK),
                room,
            },
            _ => heard(Fields::zero(TEST_LINK)),
        };
        self.list.add(line);
    }

    /// An F heard, or a call of the connection.
    fn after_a_move(&mut self, slot: u32, n: i64) {
        let Some(c) = self.list.replay.group.table.get(slot as usize - 1).copied() else {
            return;
        };
        if self.random.chance(1, 3) {
            let call = *self.random.pick(&SLOT_CALLS);
            return self.slot_call(call, slot, &c, n, false);
        }
        let off = *self.random.pick(&[0, 0, 0, 1, 65_535, 2, 256, 32_768]);
        let message = Message {
            sequence: c.heard_sequence.wrapping_add(off),
            token: c.own_token,
            producer: self.any_cursor(n),
            consumer: self.any_cursor(c.n_peer().max(8)),
            failover: true,
            ..Message::default()
        };
        let mut bytes = message.write().to_vec();
        if self.random.chance(1, 2) {
            bytes[24] |= self.random.draw() as u8;
            bytes[25] |= self.random.draw() as u8;
            if self.random.chance(3, 4) {
                bytes[25] &= !FLAG_ABORT;
            }
        }
        self.list.hear(bytes.clone());
        if self.random.chance(1, 4) {
            self.list.hear(bytes);
        }
    }
}
