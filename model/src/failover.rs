//! Failover (2026-13), in the order in which the rules page gives it: what moves,
//! the F message, the buffer. `links` has the three calls, `smcr` what hear does
//! with F.

use crate::smcr::*;

/// "A link is gone if it was active before the call and is down after."
pub fn gone(before: &[bool; LINKS], after: &[bool; LINKS], link: u8) -> bool {
    let place = usize::from(link) - 1;
    before[place] && !after[place]
}

/// "The target is the lowest-numbered of links 1 to 4 active after the call."
pub fn target(after: &[bool; LINKS]) -> Option<u8> {
    (1..=LINKS as u8).find(|&link| after[usize::from(link) - 1])
}

/// "A slot of 1 to S moves if there is a target and the slot is open, coherent,
/// and its link is gone." The target comes back where it does.
pub fn moves_to(
    c: &Connection,
    n: i64,
    before: &[bool; LINKS],
    after: &[bool; LINKS],
) -> Option<u8> {
    let moves = c.open && coherent(c, n) && gone(before, after, c.link);
    target(after).filter(|_| moves)
}

/// "A slot that moves tells (makes one F message) unless we sent A: also with C
/// sent, C heard, or nothing sent yet."
pub fn tells(c: &Connection) -> bool {
    !c.abort_sent
}

/// "01's message of the record, but for sequence and F. Made from a record, it
/// leaves T, the next number and all else of it as they were." The sequence is
/// "(next + 65,535) mod 65,536", R and A are never on.
pub fn failover_message(c: &Connection) -> Bytes44 {
    let urgent = c.urgent_sent.is_some();
    let last = (i64::from(c.next_sequence) + 65_535) % WRAPS;
    let message = Message {
        sequence: last as u16,
        token: c.peer_token,
        producer: c.producer,
        consumer: c.consumer,
        blocked: c.blocked,
        urgent_pending: urgent,
        urgent_present: urgent,
        update_requested: false,
        failover: true,
        done: c.done_sent,
        closed: c.closed_sent,
        abort: false,
    };
    message.write()
}

impl Group {
    /// 1 in the three calls: "S, N, the memory's length or the table's length is
    /// wrong, or [...] the buffer is under 44 x S bytes, whether or not anything
    /// would move".
    pub fn sizes_or_buffer_wrong(&self, buffer: usize) -> bool {
        self.sizes_wrong() || (buffer as i64) < MESSAGE_BYTES as i64 * self.s()
    }

    /// "Decided in each of the three calls that is not refused, from the links
    /// before it and after all its own work on them." "Its link becomes the target.
    /// Nothing else in any record and no byte of memory changes." "The F messages
    /// of the slots that tell stand at its front in slot order, 44 bytes each, no
    /// gaps; its bytes from 44 x count on stay." The count comes back.
    pub fn fail_over(&mut self, before: &[bool; LINKS], buffer: &mut [u8]) -> usize {
        let n = self.n();
        let mut count = 0;
        for c in &mut self.table {
            let Some(target) = moves_to(c, n, before, &self.links) else {
                continue;
            };
            if tells(c) {
                let at = MESSAGE_BYTES * count;
                buffer[at..at + MESSAGE_BYTES].copy_from_slice(&failover_message(c));
                count += 1;
            }
            c.link = target;
        }
        count
    }
}
