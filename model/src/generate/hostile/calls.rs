//! The calls on a slot: which marks forbid and allow each, and one of each to
//! make.

use super::Bench;
use crate::replay::Line;
use crate::smcr::*;

/// The calls on a slot.
#[derive(Clone, Copy, Debug, PartialEq, Eq)]
pub(super) enum SlotCall {
    Send,
    Urgent,
    Gather,
    Place,
    Read,
    Shutdown,
    Close,
    Abort,
}

pub(super) const SLOT_CALLS: [SlotCall; 8] = [
    SlotCall::Send,
    SlotCall::Urgent,
    SlotCall::Gather,
    SlotCall::Place,
    SlotCall::Read,
    SlotCall::Shutdown,
    SlotCall::Close,
    SlotCall::Abort,
];

/// Marks that forbid a call (refusal 7) in a coherent record.
pub(super) fn forbidding_marks(call: SlotCall) -> &'static [u16] {
    match call {
        SlotCall::Send | SlotCall::Urgent | SlotCall::Gather => {
            &[1, 2, 32, 8, 1 + 4, 2 + 4, 1 + 8, 3, 16 + 1]
        }
        SlotCall::Place => &[32, 4, 8, 12, 1 + 4, 2 + 4],
        SlotCall::Read => &[2, 32, 3, 2 + 4, 16 + 2],
        SlotCall::Shutdown => &[1, 2, 32, 3, 1 + 4, 1 + 8, 16 + 1],
        SlotCall::Close => &[2, 32, 3, 2 + 4, 16 + 2],
        SlotCall::Abort => &[32, 33, 34, 36, 40],
    }
}

/// Marks that allow a call.
pub(super) fn allowing_marks(call: SlotCall) -> &'static [u16] {
    match call {
        SlotCall::Send | SlotCall::Urgent | SlotCall::Gather => &[0, 4, 16, 20],
        SlotCall::Place => &[0, 1, 2, 3, 16, 17, 18, 19],
        SlotCall::Read => &[0, 1, 4, 5, 8, 9, 12, 13, 16, 17, 20, 21],
        SlotCall::Shutdown => &[0, 4, 8, 12, 16, 20, 24, 28],
        SlotCall::Close => &[0, 1, 4, 5, 8, 9, 12, 13, 16, 17, 20, 21, 24, 25],
        SlotCall::Abort => &[0, 1, 2, 3, 4, 5, 6, 7, 8, 9, 12, 13, 16, 17, 21, 29],
    }
}

impl Bench {
    pub(super) fn slot_call(
        &mut self,
        call: SlotCall,
        slot: u32,
        c: &Connection,
        n: i64,
        barred: bool,
    ) {
        let line = match call {
            SlotCall::Send | SlotCall::Urgent | SlotCall::Gather => {
                let length = match self.random.below(4) {
                    0 => 0,
                    1 => self.random.between(1, 60),
                    _ => self.random.between(1, 8),
                };
                let bytes = self.random.bytes(length as usize);
                match call {
                    SlotCall::Urgent => Line::Urgent { slot, bytes },
                    SlotCall::Gather => {
                        let at = self.random.below(length as u64 + 1) as usize;
                        let (head, body) = (bytes[..at].to_vec(), bytes[at..].to_vec());
                        Line::Gather { slot, head, body }
                    }
                    _ => Line::Send { slot, bytes },
                }
            }
            SlotCall::Place => {
                let (offset, length) = if barred {
                    self.barred_placing(c, n)
                } else {
                    self.free_placing(c, n)
                };
                Line::Place {
                    slot,
                    offset: offset as u32,
                    bytes: self.random.bytes(length as usize),
                }
            }
            SlotCall::Read => Line::Read {
                slot,
                room: self.random.below(12) as usize,
            },
            SlotCall::Shutdown => Line::Shutdown { slot },
            SlotCall::Close => Line::Close { slot },
            SlotCall::Abort => Line::Abort { slot },
        };
        self.list.add(line);
    }

    /// An offset and a length that refusal 9 bars, whatever the record holds.
    fn barred_placing(&mut self, c: &Connection, n: i64) -> (i64, i64) {
        let window = c.peer_window(n);
        let not_free = i64::from(step(c.peer_producer, window.clamp(0, data_size(n)), n).offset);
        match self.random.below(6) {
            0 => (3, 1),
            1 => (n, 1),
            2 => (n - 1, 2),
            3 => (0xFFFF_FFFF, 3),
            4 if 0 <= window && window < data_size(n) && offset_in_range(not_free as u32, n) => {
                (not_free, 1)
            }
            _ => (0, 5),
        }
    }

    fn free_placing(&mut self, c: &Connection, n: i64) -> (i64, i64) {
        let offset = i64::from(c.peer_producer.offset);
        let most = c.peer_window(n).min(n - offset).clamp(0, 300);
        if most == 0 || self.random.chance(1, 6) {
            let anywhere = *self.random.pick(&[0, 3, 4, n - 1, n, n + 1, 0xFFFF_FFFF]);
            (anywhere, 0)
        } else {
            (offset, self.random.between(1, most))
        }
    }
}
