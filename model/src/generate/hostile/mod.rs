//! Calls that reach every refusal of every call, every pair of refusals that
//! can hold at once, records that are not coherent, damaged eye catchers,
//! malformed messages, boundaries, and lines that do not parse.
//!
//! `records` makes what is laid and heard, `calls` the calls on a slot; the rest
//! are the sections of a list.

mod bad_lines;
mod boundaries;
mod calls;
mod failover;
mod messages;
mod pairs;
mod records;
mod tables;
mod urgent;

use super::{gauges, links, pool, setup, List};
use crate::random::Random;
use crate::smcr::*;

/// A list under construction and its random numbers.
struct Bench {
    list: List,
    random: Random,
    /// Lines of more than a hundred thousand characters are wanted too.
    long_lines: bool,
}

/// A hostile list: every section once, in an order of its own, or again and
/// again until it has `count` lines.
pub fn list(seed: u64, count: Option<usize>) -> Vec<u8> {
    let mut bench = Bench {
        list: List::new(),
        random: Random::new(seed.wrapping_mul(4).wrapping_add(3)),
        long_lines: seed % 8 == 0,
    };
    let mut sections: Vec<fn(&mut Bench)> = vec![
        Bench::pairs_of_slot_calls,
        Bench::pairs_of_hear,
        Bench::pairs_of_open,
        Bench::pairs_of_free,
        Bench::pairs_of_link_change,
        Bench::pairs_of_link_message,
        Bench::pairs_of_link_send,
        Bench::wrong_sizes,
        Bench::strange_slots,
        Bench::many_elements,
        Bench::incoherent_records,
        Bench::damaged_eye_catchers,
        Bench::malformed_messages,
        Bench::flags,
        Bench::shared_tokens,
        Bench::sequence_numbers,
        Bench::hear_boundaries,
        Bench::place_boundaries,
        Bench::send_boundaries,
        Bench::addresses,
        Bench::urgent_sends,
        Bench::urgent_heard,
        Bench::read_boundaries,
        Bench::close_boundaries,
        Bench::full_turns,
        Bench::random_marks,
        Bench::failovers,
        |bench| pool::hostile(&mut bench.list, &mut bench.random),
        |bench| gauges::hostile(&mut bench.list, &mut bench.random),
        |bench| setup::hostile(&mut bench.list, &mut bench.random),
        |bench| links::hostile(&mut bench.list, &mut bench.random),
        Bench::bad_lines,
        Bench::long_lines,
    ];
    loop {
        bench.random.shuffle(&mut sections);
        for section in &sections {
            section(&mut bench);
            if count.is_some_and(|count| bench.list.count >= count) {
                return bench.list.text;
            }
        }
        if count.is_none() {
            return bench.list.text;
        }
    }
}

// The groups that the sections start from.

impl Bench {
    /// Sizes of a small group.
    fn small_sizes(&mut self) -> (u32, u32) {
        (
            self.random.between(2, 5) as u32,
            self.random.between(8, 24) as u32,
        )
    }

    /// A group whose sizes are wrong, though slots 1 to `elements` could be
    /// named and N is close to `size`.
    fn nearly_right_group(&mut self, elements: u32, size: u32) {
        let right = elements as usize * size as usize;
        let records = elements as usize;
        match self.random.below(9) {
            0 => self.list.group_of(elements, size, right - 1),
            1 => self.list.group_of(elements, size, right + 1),
            2 => self.list.group_of(elements, size, right - size as usize),
            3 => self.list.group_of(elements, 7, records * 7),
            4 => self.list.group_of(256, size, 256 * size as usize),
            5..=6 => {
                let more = records + self.random.between(1, 4) as usize;
                self.list.group_with_table(elements, size, right, more);
            }
            7 => {
                // A table of one record too few, S and the memory one more.
                let length = right + size as usize;
                self.list
                    .group_with_table(elements + 1, size, length, records);
            }
            _ => self.list.group_of(elements, size, 0),
        }
    }

    /// A small group, right or nearly so; its elements and their size.
    fn small_group(&mut self, right: bool) -> (u32, u32) {
        let (elements, size) = self.small_sizes();
        if right {
            self.list.group(elements, size);
        } else {
            self.nearly_right_group(elements, size);
        }
        (elements, size)
    }

    /// Sets the link of a call as asked and each other one up once in `of` times.
    /// A group with wrong sizes has no way to an active link but that it is laid.
    fn links_around(&mut self, own: u8, up: bool, of: u64) {
        let mut active = [false; LINKS];
        for link in 1..=4 {
            active[usize::from(link) - 1] = if link == own {
                up
            } else {
                self.random.chance(1, of)
            };
        }
        if self.list.replay.group.sizes_wrong() {
            return self.list.lay_links(active);
        }
        for link in 1..=4 {
            if active[usize::from(link) - 1] {
                self.list.link(link, true);
            }
        }
    }

    fn any_slot(&mut self, elements: u32) -> u32 {
        self.random.between(1, i64::from(elements)) as u32
    }

    fn hear(&mut self, message: &Message) {
        self.list.hear(message.write().to_vec());
    }

    /// Looks at what may have changed, now and then.
    fn look(&mut self) {
        if self.random.chance(1, 12) {
            self.list.table();
        }
        if self.random.chance(1, 24) && self.list.replay.group.memory.len() <= 400 {
            self.list.whole_memory();
        }
    }

    fn right_eye_catcher(&mut self, slot: u32, size: u32) {
        let at = (slot as usize - 1) * size as usize;
        if at + 4 <= self.list.replay.group.memory.len() {
            self.list.poke(at, EYE_CATCHER.to_vec());
        }
    }
}
