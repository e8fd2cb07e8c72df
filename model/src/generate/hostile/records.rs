//! Cursors, records coherent and broken, and messages that a record accepts.

use super::Bench;
use crate::replay::set_marks;
use crate::smcr::*;

pub(super) fn with_marks(mut c: Connection, marks: u16) -> Connection {
    set_marks(&mut c, marks);
    c
}

/// A step backwards, for cursors that are just outside.
pub(super) fn step_back(from: Cursor, by: i64, size: i64) -> Cursor {
    let mut offset = i64::from(from.offset) - by;
    let mut wrap = from.wrap;
    while offset < FIRST_OFFSET {
        offset += data_size(size);
        wrap = wrap.wrapping_sub(1);
    }
    cursor(offset as u32, wrap)
}

/// A step of any length.
pub(super) fn step_far(mut from: Cursor, mut by: i64, size: i64) -> Cursor {
    while by > 0 {
        let now = by.min(data_size(size));
        from = step(from, now, size);
        by -= now;
    }
    from
}

/// The highest base at which an element is in reach: its last byte is the last
/// of 64 bits.
pub(super) fn highest_base(index: u32, peer_size: u32) -> u64 {
    u64::MAX - u64::from(index) * u64::from(peer_size) + 1
}

/// The ways to break coherence, each clause alone where that can be.
pub(super) fn broken_records(base: &Connection, n: i64) -> Vec<Connection> {
    let d = data_size(n);
    let d_peer = data_size(base.n_peer());
    let n_peer = base.peer_size;
    let at = cursor;
    let reading = |p: Cursor, c: Cursor, t: Cursor| Connection {
        peer_producer: p,
        consumer: c,
        told: t,
        ..*base
    };
    let writing = |q: Cursor, r: Cursor| Connection {
        producer: q,
        peer_consumer: r,
        ..*base
    };
    let n32 = n as u32;
    let mut all = vec![
        Connection {
            own_token: 0,
            ..*base
        },
        Connection {
            peer_token: 0,
            ..*base
        },
        // P, C and T at 3 and at N, every distance good.
        reading(at(3, 1), at(4, 0), at(4, 0)),
        reading(at(n32, 0), at(4, 0), at(4, 0)),
        reading(at(4, 0), at(3, 0), at(4, 65_535)),
        reading(at(4, 1), at(n32, 0), at(4, 0)),
        reading(at(4, 0), at(4, 0), at(3, 0)),
        reading(at(4, 1), at(4, 1), at(n32, 0)),
        // T to C below zero and above D, C to P likewise, the sum above D.
        reading(at(6, 0), at(5, 0), at(6, 0)),
        reading(at(5, 1), at(5, 1), at(4, 0)),
        reading(at(5, 0), at(6, 0), at(5, 0)),
        reading(at(5, 1), at(4, 0), at(4, 0)),
        reading(at(5, 0), at(5, 1), at(4, 0)),
        reading(at(5, 1), at(4, 1), at(4, 0)),
        reading(
            step(step(at(4, 7), d, n), 1, n),
            step(at(4, 7), 1, n),
            at(4, 7),
        ),
        reading(step(at(4, 9), d, n), at(4, 9), step_back(at(4, 9), 1, n)),
        reading(at(4, 0), at(4, 65_535), at(4, 65_534)),
        reading(at(4, 0), at(4, 1), at(4, 0)),
        // Q and R at 3 and at N', every distance good.
        writing(at(3, 1), at(4, 0)),
        writing(at(n_peer, 0), at(4, 0)),
        writing(at(4, 0), at(3, 0)),
        writing(at(4, 1), at(n_peer, 0)),
        // R to Q below zero and above D'.
        writing(at(5, 0), at(6, 0)),
        writing(at(5, 1), at(4, 0)),
        writing(at(4, 65_535), at(4, 0)),
        writing(step_far(at(4, 3), d_peer + 1, base.n_peer()), at(4, 3)),
        writing(at(4, 2), at(4, 0)),
        // Huge offsets.
        reading(at(u32::MAX, 0), at(4, 0), at(4, 0)),
        writing(at(u32::MAX, 0), at(4, 0)),
        writing(at(4, 0), at(0, 0)),
        reading(at(4, 0), at(4, 0), at(0, 0)),
        // Both C.
        Connection {
            closed_sent: true,
            closed_heard: true,
            ..*base
        },
        Connection {
            closed_sent: true,
            closed_heard: true,
            done_sent: true,
            done_heard: true,
            ours_first: true,
            abort_sent: true,
            ..*base
        },
    ];
    // Urgent places: at R, before it, just beyond Q, at 3 and at N'; likewise at C.
    let q = base.producer;
    let n_of_peer = base.n_peer();
    for place in [
        base.peer_consumer,
        step_back(base.peer_consumer, 1, n_of_peer),
        step(q, 1, n_of_peer),
        at(q.offset, q.wrap.wrapping_add(2)),
    ] {
        let urgent_sent = Some(place);
        all.push(Connection {
            urgent_sent,
            ..*base
        });
    }
    for place in [
        base.consumer,
        step_back(base.consumer, 1, n),
        step(base.peer_producer, 1, n),
        at(base.consumer.offset, base.consumer.wrap.wrapping_add(2)),
    ] {
        let urgent_heard = Some(place);
        all.push(Connection {
            urgent_heard,
            ..*base
        });
    }
    for (offset, place) in [(3, at(3, 1)), (n_peer, at(n_peer, 0)), (0, at(0, 0))] {
        all.push(Connection {
            urgent_sent: Some(place),
            ..writing(at(4, 1), at(4, 0))
        });
        let place = at(if offset == n_peer { n32 } else { offset }, place.wrap);
        all.push(Connection {
            urgent_heard: Some(place),
            ..reading(at(4, 1), at(4, 0), at(4, 0))
        });
    }
    for link in [0, 5, 255] {
        all.push(Connection { link, ..*base });
    }
    // The element out of reach: no index, or past the top on one link.
    all.push(Connection { index: 0, ..*base });
    for link in 0..LINKS {
        let mut bases = base.bases;
        bases[link] = highest_base(u32::from(base.index), base.peer_size) + 1;
        all.push(Connection { bases, ..*base });
    }
    // N' out of range, with offsets and distance that would suit it.
    for peer_size in [0, 7, 65_541, u32::MAX] {
        let start = at(4, 0);
        all.push(Connection {
            peer_size,
            producer: start,
            peer_consumer: start,
            bases: [0; LINKS],
            ..*base
        });
    }
    all
}

/// A message with its cursors where an open puts them.
pub(super) fn resting_message(token: u32) -> Message {
    Message {
        token,
        producer: cursor(4, 0),
        consumer: cursor(4, 0),
        ..Message::default()
    }
}

impl Bench {
    /// A wrap number, often one at which wraps turn over.
    pub(super) fn wrap(&mut self) -> u16 {
        match self.random.below(5) {
            0 => 0,
            1 => 65_535,
            2 => 65_534,
            3 => 1,
            _ => self.random.draw() as u16,
        }
    }

    /// A distance from 0 to `most`, often at an end.
    pub(super) fn part(&mut self, most: i64) -> i64 {
        match self.random.below(6) {
            0 => 0,
            1 => most,
            2 => most / 2,
            _ => self.random.between(0, most),
        }
    }

    pub(super) fn any_cursor(&mut self, size: i64) -> Cursor {
        let offset = match self.random.below(4) {
            0 => 4,
            1 => size - 1,
            _ => self.random.between(4, size - 1),
        };
        cursor(offset as u32, self.wrap())
    }

    /// An open and coherent record for elements of N bytes, no close marks.
    pub(super) fn coherent_record(&mut self, n: i64) -> Connection {
        let peer_size = match self.random.below(6) {
            0 => 8,
            1 => 65_540,
            2 => n,
            _ => self.random.between(8, 48),
        };
        let d = data_size(n);
        let total = self.part(d);
        let read = self.part(total);
        let told = self.any_cursor(n);
        let consumer = step(told, read, n);
        let peer_producer = step(consumer, total - read, n);
        let peer_consumer = self.any_cursor(peer_size);
        let written = self.part(data_size(peer_size));
        let producer = step(peer_consumer, written, peer_size);
        let mut record = Connection {
            open: true,
            own_token: self.random.between(1, 0xFFFF_FFFF) as u32,
            peer_token: self.random.between(1, 0xFFFF_FFFF) as u32,
            link: self.random.between(1, 4) as u8,
            peer_size: peer_size as u32,
            index: 1,
            peer_producer,
            consumer,
            told,
            producer,
            peer_consumer,
            next_sequence: self.wrap(),
            heard_sequence: self.wrap(),
            ..Connection::default()
        };
        set_marks(&mut record, (self.random.below(8) * 64) as u16);
        if self.random.chance(1, 3) {
            self.somewhere(&mut record);
        }
        record
    }

    /// Puts the peer's element somewhere in reach on every link, often at an end.
    pub(super) fn somewhere(&mut self, c: &mut Connection) {
        c.index = *self.random.pick(&[1, 2, 17, 254, 255]);
        for link in 0..LINKS {
            c.keys[link] = self.random.draw() as u32 >> self.random.below(32);
            let highest = highest_base(u32::from(c.index), c.peer_size);
            c.bases[link] = match self.random.below(5) {
                0 => 0,
                1 => highest,
                2 => self.random.draw() % highest,
                _ => self.random.below(1_000_000),
            };
        }
    }

    /// Urgent places that a coherent record may have, here and there.
    pub(super) fn with_places(&mut self, mut c: Connection, n: i64) -> Connection {
        let written = distance(c.peer_consumer, c.producer, c.n_peer());
        if written > 0 && self.random.chance(1, 3) {
            let ahead = self.place_ahead(written);
            c.urgent_sent = Some(step(c.peer_consumer, ahead, c.n_peer()));
        }
        let unread = c.unread(n);
        if unread > 0 && self.random.chance(1, 2) {
            let ahead = self.place_ahead(unread);
            c.urgent_heard = Some(step(c.consumer, ahead, n));
        }
        c
    }

    /// How far a place is ahead: 1 to `most`, often an end.
    pub(super) fn place_ahead(&mut self, most: i64) -> i64 {
        match self.random.below(3) {
            0 => 1,
            1 => most,
            _ => self.random.between(1, most),
        }
    }

    /// A closed record that holds anything.
    pub(super) fn junk_record(&mut self, own_token: u32) -> Connection {
        let mut record = self.coherent_record(16);
        set_marks(&mut record, self.random.below(512) as u16);
        record.own_token = own_token;
        record.open = false;
        record.link = self.random.draw() as u8;
        record
    }

    /// A message to a record that is next and that its cursor rules accept.
    pub(super) fn fitting_message(&mut self, c: &Connection, n: i64) -> Message {
        let ahead = if c.done_heard || c.closed_heard {
            0
        } else {
            self.part(c.peer_window(n))
        };
        let consumed = self.part(data_size(c.n_peer()) - c.room());
        Message {
            sequence: c.heard_sequence.wrapping_add(1),
            token: c.own_token,
            producer: step(c.peer_producer, ahead, n),
            consumer: step(c.peer_consumer, consumed, c.n_peer()),
            blocked: self.random.chance(1, 3),
            urgent_pending: self.random.chance(1, 5),
            urgent_present: self.random.chance(1, 5),
            update_requested: self.random.chance(1, 3),
            ..Message::default()
        }
    }

    /// A coherent record broken in some way; in range is its link when asked.
    pub(super) fn broken_record(
        &mut self,
        base: &Connection,
        n: i64,
        link_right: bool,
    ) -> Connection {
        loop {
            let all = broken_records(base, n);
            let broken = *self.random.pick(&all);
            if !link_right || link_in_range(broken.link) {
                return broken;
            }
        }
    }
}
