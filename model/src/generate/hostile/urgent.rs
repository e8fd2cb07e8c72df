//! Urgent sends of every length, places reached, passed and missed by one, by
//! what is heard and by what is read.

use super::records::with_marks;
use super::Bench;
use crate::smcr::*;

impl Bench {
    /// Lengths around the room there is; what is sent while the place stands; R
    /// heard just before the place, at it and beyond it.
    pub(super) fn urgent_sends(&mut self) {
        let (elements, size) = self.small_group(true);
        let n = i64::from(size);
        self.list.all_links_up();
        for _ in 0..14 {
            let slot = self.any_slot(elements);
            let mut c = self.coherent_record(n);
            c.peer_size = *self.random.pick(&[8, 8, 9, 20, 40]);
            self.somewhere(&mut c);
            let peer = c.n_peer();
            c.peer_consumer = self.any_cursor(peer);
            let written = self.part(data_size(peer));
            c.producer = step(c.peer_consumer, written, peer);
            let room = c.room();
            for length in [0, 1, room - 1, room, room + 1, room + 9] {
                if length < 0 {
                    continue;
                }
                let told = 64 * self.random.below(2) as u16;
                self.list.record(slot as usize, with_marks(c, told));
                let bytes = self.random.bytes(length as usize);
                self.list.urgent(slot, bytes);
                self.meanwhile(slot);
                self.consumed(slot, n);
            }
        }
        self.placed_before_q();
    }

    /// Calls after an urgent send: sends take nothing while its place stands, and
    /// every message carries P and U.
    fn meanwhile(&mut self, slot: u32) {
        for _ in 0..self.random.below(3) {
            match self.random.below(8) {
                0 => {
                    self.list.send(slot, Vec::new());
                }
                1 => {
                    self.list.urgent(slot, vec![9]);
                }
                2 => {
                    self.list.urgent(slot, vec![7; 90]);
                }
                3 => {
                    self.list.send(slot, vec![8; 90]);
                }
                4 => {
                    self.list.read(slot, 3);
                }
                5 => {
                    self.list.shutdown(slot);
                }
                6 => {
                    self.list.table();
                }
                _ => {
                    self.list.gather(slot, vec![1], vec![2]);
                }
            }
        }
    }

    /// R heard one short of the place, at it, or anywhere up to Q; then a send.
    fn consumed(&mut self, slot: u32, n: i64) {
        let c = self.list.replay.group.table[slot as usize - 1];
        if !c.open {
            return;
        }
        let peer = c.n_peer();
        let written = distance(c.peer_consumer, c.producer, peer);
        let ahead = match c.urgent_sent {
            Some(place) => {
                let to = distance(c.peer_consumer, place, peer);
                *self
                    .random
                    .pick(&[to - 1, to - 1, to, to, (to + 1).min(written), written])
            }
            None => self.part(written),
        };
        let consumer = step(c.peer_consumer, ahead.max(0), peer);
        let message = Message {
            consumer,
            ..self.fitting_message(&c, n)
        };
        self.hear(&message);
        self.list.send(slot, vec![3, 2, 1]);
        match self.random.below(6) {
            0 => {
                self.list.abort(slot);
            }
            1 => {
                self.list.close(slot);
            }
            2 => self.list.table(),
            _ => {}
        }
    }

    /// Places laid between R and Q: our own sends never leave one there.
    fn placed_before_q(&mut self) {
        let (elements, size) = self.small_group(true);
        let n = i64::from(size);
        self.list.all_links_up();
        for _ in 0..12 {
            let slot = self.any_slot(elements);
            let mut c = self.coherent_record(n);
            let peer = c.n_peer();
            let written = self.random.between(2, data_size(peer).min(40));
            c.producer = step(c.peer_consumer, written, peer);
            let ahead = self.place_ahead(written);
            c.urgent_sent = Some(step(c.peer_consumer, ahead, peer));
            self.list.record(slot as usize, with_marks(c, 0));
            self.meanwhile(slot);
            self.consumed(slot, n);
            self.look();
        }
    }

    /// U with and without a P that moves, while a place stands or not, with R, D
    /// and C; then reads to just before the place, to it and past it.
    pub(super) fn urgent_heard(&mut self) {
        let (elements, size) = self.small_group(true);
        let n = i64::from(size);
        let d = data_size(n);
        self.list.all_links_up();
        for slot in 1..=elements {
            self.right_eye_catcher(slot, size);
        }
        for round in 0..40 {
            let slot = self.any_slot(elements);
            let mut c = self.coherent_record(n);
            // T, C and P apart, and some window left.
            c.consumer = step(c.told, self.random.below(2) as i64, n);
            c.peer_producer = step(c.consumer, self.random.between(0, d / 3), n);
            let marks = *self.random.pick(&[0, 0, 0, 0, 1, 2, 4, 8, 32]);
            c = with_marks(c, marks + 64 * self.random.below(8) as u16);
            if round % 2 == 0 {
                c = self.with_places(c, n);
            }
            self.list.record(slot as usize, c);
            let window = c.peer_window(n);
            let ahead = match self.random.below(4) {
                0 => 0,
                1 => window,
                _ => self.random.between(1, window),
            };
            let still = c.done_heard || c.closed_heard;
            let message = Message {
                producer: step(c.peer_producer, if still { 0 } else { ahead }, n),
                urgent_pending: self.random.chance(1, 2),
                urgent_present: self.random.chance(4, 5),
                update_requested: self.random.chance(1, 2),
                done: self.random.chance(1, 8),
                closed: self.random.chance(1, 8),
                ..self.fitting_message(&c, n)
            };
            self.hear(&message);
            if self.random.chance(1, 6) {
                self.list.table();
            }
            if self.random.chance(1, 8) {
                self.list.poke((slot as usize - 1) * size as usize, vec![0]);
                self.list.read(slot, 2);
                self.right_eye_catcher(slot, size);
            }
            self.read_to_the_place(slot, n);
        }
        self.list.table();
    }

    fn read_to_the_place(&mut self, slot: u32, n: i64) {
        for _ in 0..2 {
            let c = self.list.replay.group.table[slot as usize - 1];
            let to = match c.urgent_heard {
                Some(place) if c.open => distance(c.consumer, place, n),
                _ => self.random.between(0, 3),
            };
            let room = *self.random.pick(&[0, to - 1, to, to, to + 1, to + 20]);
            self.list.read(slot, room.max(0) as usize);
        }
    }
}
