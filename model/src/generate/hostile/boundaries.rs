//! Cursors, bytes and lengths just inside and just outside each rule, full
//! turns, and any marks at all.

use super::calls::{allowing_marks, SlotCall, SLOT_CALLS};
use super::records::{highest_base, step_back, step_far, with_marks};
use super::Bench;
use crate::replay::set_marks;
use crate::smcr::*;

impl Bench {
    /// Cursors just inside and just outside each rule of hear.
    pub(super) fn hear_boundaries(&mut self) {
        let elements = self.random.between(1, 3) as u32;
        let size = *self.random.pick(&[8, 9, 10, 16, 23]);
        let n = i64::from(size);
        self.list.group(elements, size);
        self.list.all_links_up();
        for _ in 0..7 {
            let slot = self.any_slot(elements) as usize;
            let mut c = self.coherent_record(n);
            if self.random.chance(2, 3) {
                // T, C and P apart, and some window left.
                let d = data_size(n);
                c.consumer = step(c.told, d / 4, n);
                c.peer_producer = step(c.consumer, d / 3, n);
            }
            let marks = *self.random.pick(&[0, 0, 4, 8, 12, 1, 2, 5, 9]);
            set_marks(&mut c, marks);
            for producer in self.producers_to_try(&c, n) {
                let consumer = c.peer_consumer;
                self.try_cursors(slot, &c, producer, consumer);
            }
            for consumer in self.consumers_to_try(&c) {
                let producer = c.peer_producer;
                self.try_cursors(slot, &c, producer, consumer);
            }
        }
    }

    fn producers_to_try(&mut self, c: &Connection, n: i64) -> Vec<Cursor> {
        let d = data_size(n);
        let p = c.peer_producer;
        let mut all = vec![
            p,
            step(p, 1, n),
            step_back(p, 1, n),
            c.told,
            step_back(c.told, 1, n),
            step(c.told, d, n),
            step_far(c.told, d - 1, n),
            step_far(c.told, d + 1, n),
            step_far(c.consumer, d, n),
            c.consumer,
            cursor(p.offset, p.wrap.wrapping_add(2)),
            cursor(p.offset, p.wrap.wrapping_add(32_768)),
        ];
        for wrap in [p.wrap.wrapping_sub(1), p.wrap, p.wrap.wrapping_add(1)] {
            for offset in [0, 3, 4, n as u32 - 1, n as u32, u32::MAX, p.offset] {
                all.push(cursor(offset, wrap));
            }
        }
        all
    }

    fn consumers_to_try(&mut self, c: &Connection) -> Vec<Cursor> {
        let n = c.n_peer();
        let d = data_size(n);
        let r = c.peer_consumer;
        let q = c.producer;
        let mut all = vec![
            r,
            step(r, 1, n),
            step_back(r, 1, n),
            q,
            step_far(q, 1, n),
            step_back(q, 1, n),
            step_back(q, d, n),
            step_back(q, d + 1, n),
            cursor(r.offset, r.wrap.wrapping_add(2)),
            cursor(r.offset, r.wrap.wrapping_add(32_768)),
        ];
        for wrap in [r.wrap.wrapping_sub(1), r.wrap, r.wrap.wrapping_add(1)] {
            for offset in [0, 3, 4, n as u32 - 1, n as u32, u32::MAX, q.offset] {
                all.push(cursor(offset, wrap));
            }
        }
        all
    }

    fn try_cursors(&mut self, slot: usize, c: &Connection, producer: Cursor, consumer: Cursor) {
        self.list.record(slot, *c);
        let message = Message {
            sequence: c.heard_sequence.wrapping_add(1),
            token: c.own_token,
            producer,
            consumer,
            blocked: self.random.chance(1, 4),
            update_requested: self.random.chance(1, 4),
            done: self.random.chance(1, 8),
            closed: self.random.chance(1, 8),
            ..Message::default()
        };
        self.hear(&message);
        if self.random.chance(1, 20) {
            self.list.table();
        }
    }

    /// Bytes just inside and just outside what is free, and the element's ends.
    pub(super) fn place_boundaries(&mut self) {
        for _ in 0..8 {
            let elements = self.random.between(1, 3) as u32;
            let size = *self.random.pick(&[8, 9, 12, 20]);
            let n = i64::from(size);
            let d = data_size(n);
            self.list.group(elements, size);
            self.list.all_links_up();
            let slot = self.any_slot(elements);
            let mut c = self.coherent_record(n);
            if self.random.chance(2, 3) {
                c.consumer = step(c.told, (d / 3).max(1), n);
                let more = self.random.between(0, d - (d / 3).max(1));
                c.peer_producer = step(c.consumer, more, n);
            }
            set_marks(&mut c, 0);
            self.list.record(slot as usize, c);
            let window = c.peer_window(n);
            let p = c.peer_producer;
            let mut tries: Vec<(i64, i64)> = vec![
                (3, 1),
                (4, 1),
                (n - 1, 1),
                (n, 1),
                (n - 1, 2),
                (3, 2),
                (0, 1),
                (0, n),
                (4, d),
                (4, d + 1),
                (i64::from(u32::MAX), 1),
                (i64::from(u32::MAX) - 1, 5),
                (0, 0),
                (3, 0),
                (n, 0),
                (n + 7, 0),
                (i64::from(u32::MAX), 0),
            ];
            for ahead in [-1, 0, 1, window - 1, window, window + 1, d - 1] {
                let at = if ahead < 0 {
                    step_back(p, -ahead, n)
                } else {
                    step_far(p, ahead, n)
                };
                tries.push((i64::from(at.offset), 1));
                tries.push((i64::from(at.offset), 2));
            }
            let first = window.min(n - i64::from(p.offset));
            tries.push((i64::from(p.offset), first));
            tries.push((i64::from(p.offset), first + 1));
            tries.push((4, window - first));
            tries.push((4, window - first + 1));
            tries.push((i64::from(c.consumer.offset), 1));
            tries.push((i64::from(c.told.offset), 1));
            tries.push((i64::from(step_back(c.told, 1, n).offset), 1));
            for (offset, length) in tries {
                let bytes = self.random.bytes(length.max(0) as usize);
                self.list.place(slot, offset as u32, bytes);
            }
            self.list.whole_memory();
            self.list.table();
        }
    }

    /// Lengths around the room there is, B told before or not.
    pub(super) fn send_boundaries(&mut self) {
        self.list.group(2, 16);
        self.list.all_links_up();
        for _ in 0..30 {
            let mut c = self.coherent_record(16);
            c.peer_size = *self.random.pick(&[8, 8, 9, 20, 40]);
            self.somewhere(&mut c);
            let n = c.n_peer();
            c.peer_consumer = self.any_cursor(n);
            let written = self.part(data_size(n));
            c.producer = step(c.peer_consumer, written, n);
            let room = c.room();
            for length in [0, 1, room - 1, room, room + 1, room + 9] {
                if length < 0 {
                    continue;
                }
                let told = self.random.below(2) as u16;
                self.list.record(2, with_marks(c, 64 * told));
                let bytes = self.random.bytes(length as usize);
                match self.random.below(4) {
                    0 => self.list.urgent(2, bytes),
                    1 => {
                        let at = self.random.below(length as u64 + 1) as usize;
                        self.list
                            .gather(2, bytes[..at].to_vec(), bytes[at..].to_vec())
                    }
                    _ => self.list.send(2, bytes),
                };
                if self.random.chance(1, 3) {
                    // Once more, with B as it now stands.
                    let bytes = self.random.bytes(3);
                    self.list.send(2, bytes);
                }
                if self.random.chance(1, 12) {
                    self.list.table();
                }
            }
        }
    }

    /// Elements in reach and just out of it, on the own link and on another, by
    /// open and by a record.
    pub(super) fn addresses(&mut self) {
        let (_, size) = self.small_group(true);
        let n = i64::from(size);
        self.list.all_links_up();
        for index in [0, 1, 2, 255, 256, 257, 0x0001_0001, u32::MAX] {
            for peer_size in [8, 23, 65_540] {
                let own_link = self.random.between(1, 4) as u8;
                let other = own_link % 4 + 1;
                let near = if (1..=255).contains(&index) {
                    highest_base(index, peer_size)
                } else {
                    0
                };
                for (link, base) in [
                    (own_link, 0),
                    (own_link, near / 2),
                    (own_link, near),
                    (own_link, near.saturating_add(1)),
                    (own_link, u64::MAX),
                    (other, near),
                    (other, near.saturating_add(1)),
                    (other, u64::MAX - 3),
                ] {
                    let mut opening = Opening {
                        index,
                        keys: [1, 0, u32::MAX, self.random.draw() as u32],
                        ..Opening::at_base_0(1, 5, 6, own_link, peer_size)
                    };
                    opening.bases[usize::from(link) - 1] = base;
                    self.list.record(1, Connection::default());
                    self.list.opening(opening);
                    if index <= 255 {
                        // The same in a record, with Q close to the element's end.
                        let at = cursor(peer_size - 1, 7);
                        let mut c = self.coherent_record(n);
                        c.link = own_link;
                        c.peer_size = peer_size;
                        c.index = index as u8;
                        c.keys = opening.keys;
                        c.bases = opening.bases;
                        c.producer = at;
                        c.peer_consumer = at;
                        self.list.record(1, with_marks(c, 0));
                    }
                    self.list.send(1, vec![1, 2, 3]);
                    self.list.send(1, vec![4]);
                }
                self.look();
            }
        }
        self.list.table();
    }

    /// Windows around half of D, gains around a tenth of D.
    pub(super) fn read_boundaries(&mut self) {
        for size in [8, 13, 14, 15, 16, 23, 24, 25, 34] {
            let n = i64::from(size);
            let d = data_size(n);
            self.list.group(1, size);
            self.list.all_links_up();
            self.right_eye_catcher(1, size);
            let bytes = self.random.bytes(d as usize);
            self.list.poke(4, bytes);
            for window in [d / 2 - 1, d / 2, d / 2 + 1, 0, d] {
                let total = d - window;
                for gain in [d / 10 - 1, d / 10, d / 10 + 1, d / 10 + 2] {
                    if gain < 1 || gain > total {
                        continue;
                    }
                    let mut c = self.coherent_record(n);
                    let before = self.random.between(0, gain - 1);
                    c.consumer = step(c.told, before, n);
                    c.peer_producer = step(c.told, total, n);
                    let heard = if self.random.chance(2, 3) {
                        0
                    } else {
                        *self.random.pick(&[128, 256, 384])
                    };
                    c = with_marks(c, heard);
                    self.list.record(1, c);
                    self.list.read(1, (gain - before) as usize);
                    let room = self.random.below(6) as usize;
                    self.list.read(1, room);
                    if self.random.chance(1, 12) {
                        self.list.table();
                    }
                }
            }
        }
    }

    /// Closes with nothing, one byte and the whole element unread, and what
    /// follows a reset.
    pub(super) fn close_boundaries(&mut self) {
        let (elements, size) = self.small_group(true);
        let n = i64::from(size);
        let d = data_size(n);
        self.list.all_links_up();
        for &marks in allowing_marks(SlotCall::Close) {
            for unread in [0, 1, d - 1, d] {
                let slot = self.any_slot(elements);
                let c = self.coherent_record(n);
                let untold = self.part(d - unread);
                let consumer = step(c.told, untold, n);
                let c = Connection {
                    consumer,
                    peer_producer: step(consumer, unread, n),
                    ..with_marks(c, marks + (self.random.below(8) * 64) as u16)
                };
                self.list.record(slot as usize, c);
                if self.random.chance(1, 4) {
                    self.list.shutdown(slot);
                }
                self.list.close(slot);
                if self.random.chance(1, 3) {
                    self.list.table();
                }
                match self.random.below(6) {
                    0 => {
                        self.list.close(slot);
                    }
                    1 => {
                        self.list.read(slot, 3);
                    }
                    2 => {
                        let message = self.fitting_message(&c, n);
                        self.hear(&message);
                    }
                    3 => {
                        let message = self.fitting_message(&c, n);
                        let closed = self.random.chance(1, 2);
                        self.hear(&Message {
                            closed,
                            abort: !closed,
                            ..message
                        });
                    }
                    4 => {
                        self.list.free(slot);
                    }
                    _ => {}
                }
                self.look();
            }
        }
    }

    /// Cursors a full turn apart: equal offsets, and a wrap between them.
    pub(super) fn full_turns(&mut self) {
        let (elements, size) = self.small_group(true);
        let n = i64::from(size);
        let d = data_size(n);
        self.list.all_links_up();
        let slot = self.any_slot(elements);
        self.right_eye_catcher(slot, size);
        let start = (slot as usize - 1) * size as usize;
        let bytes = self.random.bytes(d as usize);
        self.list.poke(start + 4, bytes);
        for marks in [0, 4, 8, 12, 1, 2, 64, 128, 256] {
            let mut base = self.coherent_record(n);
            set_marks(&mut base, marks);
            let turn = |at: Cursor| cursor(at.offset, at.wrap.wrapping_add(1));
            let (t, r) = (base.told, base.peer_consumer);
            let empty = Connection {
                peer_producer: t,
                consumer: t,
                producer: r,
                ..base
            };
            let unread = Connection {
                peer_producer: turn(t),
                ..empty
            };
            let untold = Connection {
                consumer: turn(t),
                ..unread
            };
            let full = Connection {
                producer: turn(r),
                ..empty
            };
            for c in [empty, unread, untold, full] {
                let still = Message {
                    sequence: c.heard_sequence.wrapping_add(1),
                    token: c.own_token,
                    producer: c.peer_producer,
                    consumer: c.peer_consumer,
                    ..Message::default()
                };
                let producer = turn(c.peer_producer);
                let consumer = turn(c.peer_consumer);
                for message in [
                    still,
                    Message { producer, ..still },
                    Message { consumer, ..still },
                    Message {
                        update_requested: true,
                        ..still
                    },
                ] {
                    self.list.record(slot as usize, c);
                    self.hear(&message);
                }
                self.list.record(slot as usize, c);
                self.list.place(slot, c.peer_producer.offset, vec![0x5A]);
                self.list.send(slot, vec![1, 2, 3]);
                let room = self.random.between(1, d + 1) as usize;
                self.list.read(slot, room);
                if self.random.chance(1, 6) {
                    self.list.table();
                }
            }
        }
    }

    /// Any marks at all before each call.
    pub(super) fn random_marks(&mut self) {
        let (elements, size) = self.small_group(true);
        let n = i64::from(size);
        self.list.all_links_up();
        for slot in 1..=elements {
            self.right_eye_catcher(slot, size);
        }
        for _ in 0..150 {
            let slot = self.any_slot(elements);
            let c = self.coherent_record(n);
            let c = self.with_places(c, n);
            let c = with_marks(c, self.random.below(512) as u16);
            self.list.record(slot as usize, c);
            match self.random.below(8) {
                0 => {
                    let message = self.fitting_message(&c, n);
                    self.hear(&message);
                }
                1 => {
                    self.list.free(slot);
                }
                _ => {
                    let call = *self.random.pick(&SLOT_CALLS);
                    self.slot_call(call, slot, &c, n, false);
                }
            }
            self.look();
        }
    }
}
