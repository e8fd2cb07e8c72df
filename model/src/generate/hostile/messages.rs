//! Messages malformed, with any flags, and to tokens that several slots hold.

use super::records::{resting_message, with_marks};
use super::Bench;
use crate::random::Random;
use crate::smcr::*;

impl Bench {
    /// Lengths, bytes 0 and 1, and everything reserved.
    pub(super) fn malformed_messages(&mut self) {
        let (elements, size) = self.small_group(true);
        let n = i64::from(size);
        self.list.all_links_up();
        let slot = self.any_slot(elements) as usize;
        let c = self.coherent_record(n);
        for length in [0, 1, 4, 8, 26, 43, 45, 88] {
            self.list.record(slot, c);
            self.hear_changed(&c, n, |bytes, _| bytes.resize(length, 0));
        }
        for first in [0x00, 0x01, 0x07, 0x2C, 0x7E, 0x80, 0xEF, 0xFC, 0xFD, 0xFF] {
            self.hear_changed(&c, n, |bytes, _| bytes[0] = first);
        }
        for second in [0x00, 0x2A, 0x2B, 0x2D, 0x2E, 0x6C, 0xAC, 0xFE, 0xFF] {
            self.hear_changed(&c, n, |bytes, _| bytes[1] = second);
        }
        for at in [8, 9, 16, 17].into_iter().chain(26..44) {
            self.list.record(slot, c);
            self.hear_changed(&c, n, |bytes, random| bytes[at] = random.draw() as u8 | 1);
        }
        for (at, bits) in [(24, 0x01), (24, 0x02), (24, 0x04), (25, 0x01), (25, 0x02)]
            .into_iter()
            .chain([(25, 0x04), (25, 0x08), (25, 0x10), (24, 0x07), (25, 0x1F)])
        {
            self.list.record(slot, c);
            self.hear_changed(&c, n, |bytes, _| bytes[at] |= bits);
        }
        self.list.table();
    }

    /// A message that fits the record, heard after a change to its bytes.
    fn hear_changed(
        &mut self,
        c: &Connection,
        n: i64,
        change: impl FnOnce(&mut Vec<u8>, &mut Random),
    ) {
        let mut bytes = self.fitting_message(c, n).write().to_vec();
        change(&mut bytes, &mut self.random);
        self.list.hear(bytes);
    }

    /// Each flag alone, and flags together, on many records.
    pub(super) fn flags(&mut self) {
        let (elements, size) = self.small_group(true);
        let n = i64::from(size);
        self.list.all_links_up();
        for round in 0..80 {
            let slot = self.any_slot(elements) as usize;
            let mut c = self.coherent_record(n);
            let marks = loop {
                let marks = self.random.below(512) as u16;
                if marks & 10 != 10 {
                    break marks;
                }
            };
            c = with_marks(self.with_places(c, n), marks);
            self.list.record(slot, c);
            let mut bytes = self.fitting_message(&c, n).write().to_vec();
            match round {
                0..=7 => bytes[24] = 0x80 >> round,
                8..=10 => bytes[25] = 0x80 >> (round - 8),
                _ => {
                    bytes[24] = self.random.draw() as u8;
                    bytes[25] = self.random.draw() as u8;
                    if self.random.chance(3, 4) {
                        bytes[25] &= !FLAG_ABORT;
                    }
                }
            }
            self.list.hear(bytes);
            if self.random.chance(1, 3) {
                self.list.table();
            }
        }
    }

    /// Numbers that are next, equal, older and too far, around 65,535 and after
    /// an open, with A and after our A, with cursors that fit and that do not.
    pub(super) fn sequence_numbers(&mut self) {
        let (elements, size) = self.small_group(true);
        let n = i64::from(size);
        self.list.all_links_up();
        let other = self.random.draw() as u16;
        for heard in [0, 1, 255, 256, 65_534, 65_535, other] {
            let next = heard.wrapping_add(1);
            let mut numbers = vec![next, heard, heard.wrapping_sub(1), next.wrapping_add(1)];
            numbers.extend([0, 1, 65_535, next.swap_bytes(), next.wrapping_add(32_768)]);
            for (place, sequence) in numbers.into_iter().enumerate() {
                let marks = *self.random.pick(&[0, 0, 4, 8, 1, 2, 32, 33, 40]);
                let slot = self.any_slot(elements) as usize;
                let c = Connection {
                    heard_sequence: heard,
                    ..with_marks(self.coherent_record(n), marks)
                };
                self.list.record(slot, c);
                let mut message = Message {
                    sequence,
                    abort: place > 0 && self.random.chance(1, 6),
                    ..self.fitting_message(&c, n)
                };
                if self.random.chance(1, 4) {
                    message.consumer.offset = 3;
                }
                self.hear(&message);
                if self.random.chance(1, 4) {
                    // The same once more, and the one after it.
                    self.hear(&message);
                    message.sequence = sequence.wrapping_add(1);
                    self.hear(&message);
                }
                self.look();
            }
        }
        // From an open on: 0, 2, 65,535, then 1, 1 again, 3, 2, 3.
        let slot = self.any_slot(elements);
        self.list.record(slot as usize, Connection::default());
        let own = self.random.between(1, 0xFFFF_FFFF) as u32;
        self.list.open(slot, own, 5, 1, 8);
        for sequence in [0, 2, 65_535, 1, 1, 3, 2, 3] {
            self.hear(&Message {
                sequence,
                ..resting_message(own)
            });
        }
        self.list.table();
    }

    /// Tokens that several slots hold, tokens of closed slots, the token 0.
    pub(super) fn shared_tokens(&mut self) {
        let elements = self.random.between(4, 8) as u32;
        let size = self.random.between(8, 24) as u32;
        let n = i64::from(size);
        for _ in 0..12 {
            self.list.group(elements, size);
            self.list.all_links_up();
            let token = self.random.between(1, 0xFFFF_FFFF) as u32;
            let mut first_open = None;
            for slot in 1..=elements as usize {
                let mut c = match self.random.below(5) {
                    0 => self.junk_record(token),
                    1 => {
                        let base = self.coherent_record(n);
                        self.broken_record(&base, n, true)
                    }
                    _ => self.coherent_record(n),
                };
                if self.random.chance(3, 4) {
                    c.own_token = token;
                }
                self.list.record(slot, c);
                if first_open.is_none() && c.open && c.own_token == token {
                    first_open = Some(c);
                }
            }
            if let Some(c) = first_open.filter(|c| coherent(c, n)) {
                let message = self.fitting_message(&c, n);
                self.hear(&message);
                self.hear(&Message {
                    abort: true,
                    ..message
                });
                self.hear(&message);
            } else {
                self.hear(&resting_message(token));
            }
            let zero = Connection {
                own_token: 0,
                ..self.coherent_record(n)
            };
            self.list.record(1, zero);
            self.hear(&Message::default());
            let free_slot = self.random.between(2, i64::from(elements)) as usize;
            let other = self.random.draw() as u32;
            let junk = self.junk_record(other);
            self.list.record(free_slot, junk);
            self.list.open(free_slot as u32, token, 5, 1, 8);
            self.list.open(free_slot as u32, other, 5, 2, 8);
            self.list.open(free_slot as u32, 0, 5, 2, 8);
            self.list.table();
        }
    }
}
