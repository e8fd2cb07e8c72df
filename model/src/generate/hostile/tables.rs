//! Groups of wrong sizes, slots outside and beyond S, records that are not
//! coherent, eye catchers that are damaged.

use super::calls::{allowing_marks, SlotCall, SLOT_CALLS};
use super::records::{broken_records, resting_message, with_marks};
use super::Bench;
use crate::llc::{Fields, TEST_LINK};
use crate::replay::set_marks;
use crate::smcr::*;

impl Bench {
    /// Every call on groups whose S, N or LEN is wrong, and on the largest and
    /// smallest that are right.
    pub(super) fn wrong_sizes(&mut self) {
        let groups: [(u32, u32, usize, Option<usize>); 40] = [
            (0, 8, 0, None),
            (0, 16, 16, None),
            (1, 8, 8, None),
            (1, 8, 7, None),
            (1, 8, 9, None),
            (1, 7, 7, None),
            (1, 7, 8, None),
            (1, 65_540, 65_540, None),
            (1, 65_541, 65_541, None),
            (1, 65_540, 65_539, None),
            (16, 8, 128, None),
            (16, 8, 127, None),
            (17, 8, 136, None),
            (17, 8, 128, None),
            (15, 65_540, 983_100, None),
            (16, 65_540, 1_048_640, None),
            (16, 65_540, 1_048_704, None),
            (254, 9, 2_286, None),
            (255, 8, 2_040, None),
            (255, 4_112, 1_048_560, None),
            (255, 8, 2_039, None),
            (256, 8, 2_048, None),
            (257, 8, 2_056, None),
            (300, 8, 2_400, None),
            (301, 8, 2_408, None),
            (u32::MAX, u32::MAX, 1, None),
            (65_536, 65_536, 0, None),
            (0x8000_0000, 2, 0, None),
            (2, 0x8000_0008, 16, None),
            (u32::MAX, 8, 0, None),
            (2, 0, 0, None),
            (1, u32::MAX, 100, None),
            // The table alone is wrong, or S as the table has it.
            (2, 8, 16, Some(1)),
            (2, 8, 16, Some(2)),
            (2, 8, 16, Some(3)),
            (2, 8, 16, Some(0)),
            (2, 8, 16, Some(258)),
            (255, 8, 2_040, Some(254)),
            (255, 8, 2_040, Some(256)),
            (256, 8, 2_048, Some(255)),
        ];
        for (elements, size, length, records) in groups {
            match records {
                Some(records) => self.list.group_with_table(elements, size, length, records),
                None => self.list.group_of(elements, size, length),
            }
            self.list.link(1, true);
            self.list.lay_links([true, false, false, true]);
            // The last slot that there is; with an empty table no record is laid.
            let records = self.list.replay.group.table.len() as u32;
            let slot = elements.min(records).max(1);
            let small = i64::from(size.clamp(8, 65_540));
            let mut c = self.coherent_record(small);
            c.link = 1;
            if size <= 65_540 {
                self.right_eye_catcher(slot, size);
            }
            for call in SLOT_CALLS {
                let marks = *self.random.pick(allowing_marks(call));
                self.lay(slot, with_marks(c, marks));
                self.slot_call(call, slot, &c, small, false);
            }
            let message = self.fitting_message(&c, small);
            self.lay(slot, c);
            self.hear(&message);
            self.lay(slot, with_marks(c, 32));
            self.list.free(slot);
            self.lay(slot, Connection::default());
            self.list.open(slot, 1, 2, 1, 8);
            self.list.open(slot, 0, 2, 9, 8);
            let mut bytes = self.random.bytes(MESSAGE_BYTES);
            bytes[0] = TEST_LINK;
            bytes[1] = LENGTH_BYTE;
            bytes[3] &= 0x7F;
            self.list.link_message(1, bytes);
            self.list.link_send(1, Fields::zero(TEST_LINK));
            self.list.link(4, true);
            self.list.link(5, true);
            self.lay(slot, c);
            self.list.link(1, false);
            self.look();
        }
    }

    /// Lays a record where the table has one.
    fn lay(&mut self, slot: u32, c: Connection) {
        if slot as usize <= self.list.replay.group.table.len() {
            self.list.record(slot as usize, c);
        }
    }

    /// Every call on slots outside 1 to S, on closed slots, and on groups whose
    /// tables have records beyond S that stand open.
    pub(super) fn strange_slots(&mut self) {
        let (elements, size) = self.small_group(true);
        let n = i64::from(size);
        self.list.all_links_up();
        for slot in [
            0,
            elements + 1,
            16,
            17,
            255,
            256,
            257,
            65_537,
            0x7FFF_FFFF,
            u32::MAX,
        ] {
            let c = self.coherent_record(n);
            for call in SLOT_CALLS {
                self.slot_call(call, slot, &c, n, false);
            }
            self.list.free(slot);
            self.list.open(slot, 9, 9, 1, 8);
        }
        for slot in 1..=elements {
            let own = self.random.draw() as u32 | 1;
            let junk = self.junk_record(own);
            self.list.record(slot as usize, junk);
            for call in SLOT_CALLS {
                self.slot_call(call, slot, &junk, n, false);
            }
            self.list.free(slot);
            self.hear(&resting_message(own));
        }
        // A token that a closed slot holds bars no open.
        let held = self.list.replay.group.table[0].own_token;
        self.list.open(2, held, 1, 1, 8);
        self.list.table();
        // A record beyond S: everything is refused with 1.
        let records = elements as usize + 1;
        let length = elements as usize * size as usize;
        self.list.group_with_table(elements, size, length, records);
        self.list.all_links_up();
        self.list.lay_links([true; 4]);
        let c = self.coherent_record(n);
        self.list.record(records, c);
        for slot in [1, elements, elements + 1] {
            for call in SLOT_CALLS {
                self.slot_call(call, slot, &c, n, false);
            }
            self.list.free(slot);
            self.list.open(slot, 9, 9, 1, 8);
        }
        let message = self.fitting_message(&c, n);
        self.hear(&message);
        self.list.table();
    }

    /// Tables of 17 to 255 records: slots at both ends and in the middle, the
    /// search for a token, and what an open finds elsewhere.
    pub(super) fn many_elements(&mut self) {
        let between = self.random.between(18, 253) as u32;
        for elements in [17, between, 254, 255] {
            let size = self.random.between(8, 12) as u32;
            let n = i64::from(size);
            self.list.group(elements, size);
            self.list.all_links_up();
            let middle = self.random.between(17, i64::from(elements)) as u32;
            let token = self.random.between(1, 0xFFFF_FFFF) as u32;
            for slot in [1, 16, 17, middle, elements - 1, elements] {
                let own = token.wrapping_add(slot).max(1);
                self.list.open(slot, own, 7, 2, 8);
                self.list.open(slot, own, 7, 2, 8);
                self.list.send(slot, vec![1, 2, 3]);
                self.list.place(slot, 4, vec![slot as u8; 3]);
                let place = step(cursor(4, 0), 3, n);
                let message = Message {
                    sequence: 1,
                    producer: place,
                    ..resting_message(own)
                };
                self.hear(&message);
                self.list.read(slot, 4);
            }
            self.list.table();
            // The lowest open slot with the token, a closed one before it.
            for slot in [middle, elements, elements - 1] {
                let mut c = self.coherent_record(n);
                c.own_token = 77;
                self.list.record(slot as usize, c);
            }
            let junk = self.junk_record(77);
            self.list.record(2, junk);
            let lowest = middle.min(elements - 1);
            let c = self.list.replay.group.table[lowest as usize - 1];
            let message = self.fitting_message(&c, n);
            self.hear(&message);
            // Held in the last slot: 11 in the first, and not in the last itself.
            self.list.record(3, Connection::default());
            self.list.record(elements as usize, Connection::default());
            let held = self.coherent_record(n);
            self.list.record(elements as usize, held);
            self.list.open(3, held.own_token, 5, 1, 8);
            self.list.record(elements as usize, junk);
            self.list.open(elements, 78, 5, 1, 8);
            for slot in [elements + 1, 256, 257, 300] {
                self.list.close(slot);
                self.list.open(slot, 79, 5, 1, 8);
            }
            for slot in [1, 17, middle, elements] {
                self.list.abort(slot);
                self.list.free(slot);
                self.list.close(slot);
            }
            self.list.table();
            let last = (elements as usize - 2) * size as usize;
            self.list.memory(last, 2 * size as usize);
        }
    }

    /// Each clause of coherence broken, alone where it can be, before each call.
    pub(super) fn incoherent_records(&mut self) {
        for _ in 0..2 {
            let (elements, size) = self.small_group(true);
            let n = i64::from(size);
            self.list.all_links_up();
            let slot = self.any_slot(elements);
            self.right_eye_catcher(slot, size);
            let mut base = self.coherent_record(n);
            set_marks(&mut base, 0);
            let all = broken_records(&base, n);
            for broken in all {
                for call in SLOT_CALLS {
                    if self.random.chance(1, 2) {
                        self.list.record(slot as usize, broken);
                        self.slot_call(call, slot, &base, n, false);
                    }
                }
                self.list.record(slot as usize, broken);
                let message = Message {
                    token: broken.own_token,
                    ..self.fitting_message(&base, n)
                };
                self.hear(&message);
                self.list.record(
                    slot as usize,
                    Connection {
                        abort_sent: true,
                        ..broken
                    },
                );
                self.list.free(slot);
                let abort = Message {
                    abort: true,
                    ..message
                };
                self.hear(&abort);
                self.look();
            }
        }
    }

    /// Each of the four bytes of the eye catcher damaged.
    pub(super) fn damaged_eye_catchers(&mut self) {
        let (elements, size) = self.small_group(true);
        let n = i64::from(size);
        self.list.all_links_up();
        for at in 0..4 {
            for damage in [0x01, 0x80, EYE_CATCHER[at]] {
                let slot = self.any_slot(elements);
                let mut c = self.coherent_record(n);
                let marks = *self.random.pick(allowing_marks(SlotCall::Read));
                c = with_marks(c, marks + (self.random.below(8) * 64) as u16);
                self.list.record(slot as usize, c);
                self.right_eye_catcher(slot, size);
                let place = (slot as usize - 1) * size as usize + at;
                self.list.poke(place, vec![EYE_CATCHER[at] ^ damage]);
                // Nothing but read looks at it.
                if !send_forbidden(&c) {
                    self.list.send(slot, Vec::new());
                }
                let room = self.random.below(10) as usize;
                self.list.read(slot, room);
                self.list.read(slot, room);
                self.list.table();
                let message = self.fitting_message(&c, n);
                self.hear(&message);
                self.list.free(slot);
            }
        }
        // A damaged eye catcher next door harms nobody.
        for slot in 1..=elements {
            let c = self.coherent_record(n);
            self.list.record(slot as usize, c);
            self.right_eye_catcher(slot, size);
        }
        self.list.poke(0, vec![0]);
        for slot in 1..=elements {
            self.list.read(slot, 4);
        }
    }
}
