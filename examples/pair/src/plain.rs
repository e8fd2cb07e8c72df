//! The plain engine (2026-14, part 2): positions as whole numbers from the open on, never wrapped. Of an answer it takes only whether the
//! call was refused, whether it made a message, and whether that has A; every number is its own.

use fordlinnet::{Cursor, Message, Record, Urgent};

/// How many wrap numbers and sequence numbers there are.
pub const WRAPS: u64 = 65_536;

/// A message under way, as the engine has it.
#[derive(Clone, Copy, Debug)]
pub struct Mark {
    taken: u64,
    read: u64,
    urges: bool,
    number: u64,
    failover: bool,
}

#[derive(Clone, Debug, Default)]
pub struct Plain {
    /// Outward: taken, known to be read, the urgent place of our own sends; messages made.
    pub q: u64,
    r: u64,
    u: u64,
    pub made: u64,
    /// Inward: heard of, read, told, the urgent place of what is heard of; the number of the last message heard.
    p: u64,
    pub c: u64,
    t: u64,
    w: u64,
    last: u64,
    /// A was sent.
    mute: bool,
}

impl Plain {
    /// How many bytes a send takes.
    pub fn sends(&mut self, urgent: bool, length: u64, d_peer: u64) -> u64 {
        let n = if self.r < self.u { 0 } else { length.min((self.r + d_peer).saturating_sub(self.q)) };
        self.q += n;
        if urgent && length >= 1 && n == length {
            self.u = self.q;
        }
        n
    }

    /// How many bytes a read gives.
    pub fn reads(&mut self, room: u64) -> u64 {
        let n = room.min(self.p.saturating_sub(self.c));
        self.c += n;
        n
    }

    pub fn hears(&mut self, mark: &Mark) {
        if self.mute || mark.failover {
            return;
        }
        if mark.urges && mark.taken > self.p {
            self.w = mark.taken;
        }
        (self.p, self.r, self.last) = (mark.taken, mark.read, mark.number);
    }

    /// A call of the connection made a message.
    pub fn makes(&mut self, with_abort: bool) -> Mark {
        self.made += 1;
        self.t = self.c;
        self.mute |= with_abort;
        self.mark(false)
    }

    /// The connection moved and told so.
    pub fn tells(&self) -> Mark {
        self.mark(true)
    }

    fn mark(&self, failover: bool) -> Mark {
        Mark { taken: self.q, read: self.c, urges: self.r < self.u, number: self.made, failover }
    }

    /// What of a record is not this engine's. `d` is the number of data bytes of this element, `d_peer` of the other.
    pub fn differs(&self, record: &Record, d: u64, d_peer: u64) -> Option<&'static str> {
        let (inbound, outbound) = (&record.inbound, &record.outbound);
        let place = |stands: bool, d, x| match stands {
            true => Urgent { standing: true, place: cursor_at(d, x) },
            false => Urgent::default(),
        };
        let same = [
            ("Q", outbound.producer == cursor_at(d_peer, self.q)),
            ("R", outbound.consumer == cursor_at(d_peer, self.r)),
            ("P", inbound.producer == cursor_at(d, self.p)),
            ("C", inbound.consumer == cursor_at(d, self.c)),
            ("T", inbound.told == cursor_at(d, self.t)),
            ("the urgent place of our own sends", outbound.urgent == place(self.r < self.u, d_peer, self.u)),
            ("the urgent place of what was heard of", inbound.urgent == place(self.c < self.w, d, self.w)),
            ("the next number", u64::from(outbound.next) == (self.made + 1) % WRAPS),
            ("the last number heard", u64::from(inbound.last) == self.last % WRAPS),
            ("whether A was sent", record.marks.abort == self.mute),
        ];
        same.iter().find(|(_, same)| !same).map(|(what, _)| *what)
    }
}

/// "(4 + x mod d, x / d mod 65,536)".
fn cursor_at(d: u64, x: u64) -> Cursor {
    Cursor { offset: 4 + (x % d) as u32, wrap: (x / d % WRAPS) as u16 }
}

/// Whether a message carries the cursors and the number of its mark. `d` is its sender's number of data bytes.
pub fn carries(message: &Message, mark: &Mark, d: u64, d_peer: u64) -> bool {
    let flags = message.flags();
    message.producer() == cursor_at(d_peer, mark.taken)
        && message.consumer() == cursor_at(d, mark.read)
        && u64::from(message.sequence()) == mark.number % WRAPS
        && (flags.urgent, flags.failover) == (mark.urges, mark.failover)
}

/// One way: R ≤ T ≤ C ≤ P ≤ Q ≤ R + d, U ≤ Q, W ≤ P.
pub fn in_order(sender: &Plain, reader: &Plain, d: u64) -> bool {
    let ascending = [sender.r, reader.t, reader.c, reader.p, sender.q, sender.r + d];
    ascending.windows(2).all(|two| two[0] <= two[1]) && sender.u <= sender.q && reader.w <= reader.p
}
