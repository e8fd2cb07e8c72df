//! The plain engine (2026-14, part 2): positions as whole numbers from the open,
//! never wrapped. Of an answer it takes only whether the call was refused, whether
//! it made a message, and whether that has A; every number is its own.

use std::collections::VecDeque;

use crate::smcr::*;

/// A message under way, as the engine has it.
#[derive(Clone, Copy, Debug, PartialEq, Eq)]
pub struct Mark {
    pub taken: i64,
    pub read: i64,
    pub urges: bool,
    pub number: i64,
    /// "A mark has F" (2026-13).
    pub failover: bool,
}

/// One end. U and W are "the urgent places of its own sends and of what it hears
/// of (0 at the open; they stand while R < U, C < W)".
#[derive(Clone, Debug, Default)]
pub struct Plain {
    pub q: i64,
    pub r: i64,
    pub p: i64,
    pub c: i64,
    pub t: i64,
    pub u: i64,
    pub w: i64,
    pub made: i64,
    pub last: i64,
    pub abort_sent: bool,
    /// Under way to this end.
    pub coming: VecDeque<Mark>,
}

impl Plain {
    /// "Q grows by n: 0 while R < U, else min(R + d' - Q, length); urgent, a byte
    /// or more, n the length: U = Q". n comes back.
    pub fn sends(&mut self, urgent: bool, length: i64, d_peer: i64) -> i64 {
        let n = if self.r < self.u {
            0
        } else {
            length.min(self.r + d_peer - self.q)
        };
        self.q += n;
        if urgent && length >= 1 && n == length {
            self.u = self.q;
        }
        n
    }

    /// "C grows by min(P - C, room in out)", which comes back.
    pub fn reads(&mut self, room: i64) -> i64 {
        let n = room.min(self.p - self.c);
        self.c += n;
        n
    }

    /// "First mark off; unless A was sent P = its taken, R = its read, and if it
    /// urges and taken is above P, W = its taken; last = its number." "A heard F
    /// takes its mark off and changes nothing." The mark comes back.
    pub fn hears(&mut self) -> Option<Mark> {
        let mark = self.coming.pop_front()?;
        if self.abort_sent || mark.failover {
            return Some(mark);
        }
        if mark.urges && mark.taken > self.p {
            self.w = mark.taken;
        }
        self.p = mark.taken;
        self.r = mark.read;
        self.last = mark.number;
        Some(mark)
    }

    /// "Made grows by 1; mark (Q, C, R < U, made) to the other; T = C; with A: A
    /// sent."
    pub fn makes(&mut self, with_abort: bool) -> Mark {
        self.made += 1;
        self.t = self.c;
        self.abort_sent |= with_abort;
        self.mark(false)
    }

    /// "A move that tells adds a mark (Q, C, R < U, made; F) to the other; made, T
    /// and all else stay."
    pub fn tells(&self) -> Mark {
        self.mark(true)
    }

    fn mark(&self, failover: bool) -> Mark {
        Mark {
            taken: self.q,
            read: self.c,
            urges: self.r < self.u,
            number: self.made,
            failover,
        }
    }

    /// The first of a record's cursors, urgent places and numbers that is not this
    /// engine's. `d` is D of this element, `d_peer` of the other.
    pub fn differs_from(&self, c: &Connection, d: i64, d_peer: i64) -> Option<&'static str> {
        let stands = |stands: bool, d, x| stands.then(|| cursor_at(d, x));
        let parts = [
            ("Q", c.producer == cursor_at(d_peer, self.q)),
            ("R", c.peer_consumer == cursor_at(d_peer, self.r)),
            ("P", c.peer_producer == cursor_at(d, self.p)),
            ("C", c.consumer == cursor_at(d, self.c)),
            ("T", c.told == cursor_at(d, self.t)),
            (
                "the urgent place of our own sends",
                c.urgent_sent == stands(self.r < self.u, d_peer, self.u),
            ),
            (
                "the urgent place in our element",
                c.urgent_heard == stands(self.c < self.w, d, self.w),
            ),
            (
                "the next number",
                i64::from(c.next_sequence) == (self.made + 1) % WRAPS,
            ),
            (
                "the last number heard",
                i64::from(c.heard_sequence) == self.last % WRAPS,
            ),
            ("A sent", c.abort_sent == self.abort_sent),
        ];
        parts
            .iter()
            .find(|(_, agree)| !agree)
            .map(|(name, _)| *name)
    }
}

/// "`cursor_at d x` is (4 + x mod d, x / d mod 65,536)."
pub fn cursor_at(d: i64, x: i64) -> Cursor {
    cursor((4 + x % d) as u32, (x / d % WRAPS) as u16)
}

/// "Every message under way carries `cursor_at` and number of its mark." Its
/// sender's D is `d`, its hearer's `d_peer`.
pub fn carries(message: &Message, mark: &Mark, d: i64, d_peer: i64) -> bool {
    message.producer == cursor_at(d_peer, mark.taken)
        && message.consumer == cursor_at(d, mark.read)
        && message.urgent_present == mark.urges
        && i64::from(message.sequence) == mark.number % WRAPS
        && message.failover == mark.failover
}

/// One way: "R ≤ T ≤ C ≤ P ≤ Q ≤ R + d, U ≤ Q, W ≤ P".
pub fn in_order(sender: &Plain, reader: &Plain, d: i64) -> bool {
    sender.r <= reader.t
        && reader.t <= reader.c
        && reader.c <= reader.p
        && reader.p <= sender.q
        && sender.q <= sender.r + d
        && sender.u <= sender.q
        && reader.w <= reader.p
}
