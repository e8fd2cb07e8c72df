//! Lists that break one premise each, and the wrong byte that then comes out: those
//! of the page's part 1 ("without it"), the accident of its part 6, and some more.
//! Elements have 8 bytes, near sends and far reads.

use super::course::{Course, Unasked, Wrong};
use super::{Names, Run, FAR, NEAR, SIDES};
use crate::generate::{message_of, told_in};
use crate::replay::{print_line, push_hex, Line};
use crate::smcr::*;

/// A premise, in plain words, and a list that breaks it alone.
pub struct Break {
    pub name: &'static str,
    /// What happens in the list.
    pub story: &'static str,
    pub run: fn() -> Run,
}

pub const BREAKS: [Break; 15] = [
    Break {
        name: "as-last-left",
        story: "someone writes the element before the read",
        run: as_last_left,
    },
    Break {
        name: "until-it-closes",
        story: "near aborts, frees and opens again with the same token",
        run: until_it_closes,
    },
    Break {
        name: "link-active",
        story: "the link at far is down when the placing is performed",
        run: link_active,
    },
    Break {
        name: "no-others",
        story: "a byte is placed that was not sent",
        run: no_others,
    },
    Break {
        name: "not-written-again",
        story: "a write is repeated after its message was heard, over a byte of the next lap",
        run: not_written_again,
    },
    Break {
        name: "performed-before",
        story: "the message is heard before its placing is performed",
        run: performed_before,
    },
    Break {
        name: "heard-in-order",
        story: "a forged message is heard, and nothing was sent",
        run: heard_in_order,
    },
    Break {
        name: "failover-in-order",
        story: "near moves, and F by the new link overtakes the message on the old one",
        run: failover_in_order,
    },
    Break {
        name: "old-link-first",
        story: "near moves, and the message, put again by the new link, overtakes the write on \
                the old one; F finds nothing lost",
        run: old_link_first,
    },
    Break {
        name: "safe-reuse",
        story: "far aborts and frees its slot while a write is under way to it; both open again, \
                and the late write comes",
        run: safe_reuse,
    },
    Break {
        name: "sizes-match",
        story: "near takes far's element for a smaller one",
        run: sizes_match,
    },
    Break {
        name: "tokens-match",
        story: "near names the token of another connection of far, which hears the message",
        run: tokens_match,
    },
    Break {
        name: "bases-match",
        story: "near takes far's memory to begin a byte later",
        run: bases_match,
    },
    Break {
        name: "every-link-matches",
        story: "the same for near's link 2 alone, to which near moves",
        run: every_link_matches,
    },
    Break {
        name: "index-matches",
        story: "near names another element of far's",
        run: index_matches,
    },
];

/// The keys and bases of near's memory and of far's, by links of the other.
const REACH: [[(u32, u64); LINKS]; 2] = [
    [(3, 512), (4, 1024), (0, 0), (0, 0)],
    [(7, 4096), (9, 8192), (0, 0), (0, 0)],
];

/// The tokens of connection k are 10 k + 1 at near and 10 k + 2 at far; its slot is
/// `slot` at both ends, and both are on link 1.
fn names(slot: u32, connection: u32) -> [Names; 2] {
    [NEAR, FAR].map(|side| Names {
        slot,
        own: 10 * connection + 1 + side as u32,
        link: 1,
        reach: REACH[side],
    })
}

impl Run {
    /// One connection, open at both ends, in elements of 8 bytes.
    fn opened() -> Run {
        let mut run = Run::on_link_1(1, [8, 8]);
        run.follow(Course::new(names(1, 1), [8, 8]));
        run.open_both();
        run
    }

    /// So many elements at both ends, link 1 active.
    fn on_link_1(slots: u32, sizes: [u32; 2]) -> Run {
        let mut run = Run::new([slots; 2], sizes);
        for side in [NEAR, FAR] {
            run.link(side, 1, true);
        }
        run
    }

    fn open(&mut self, side: usize) {
        let opening = self.course().opening(side);
        self.at(side, Line::Open { opening });
    }

    fn open_both(&mut self) {
        self.open(NEAR);
        self.open(FAR);
    }

    /// The message that the send makes.
    fn send(&mut self, bytes: &[u8]) -> Option<Bytes44> {
        let bytes = bytes.to_vec();
        message_of(&self.at(NEAR, Line::Send { slot: 1, bytes }))
    }

    fn place(&mut self, offset: u32, bytes: &[u8]) {
        let bytes = bytes.to_vec();
        let slot = 1;
        self.at(
            FAR,
            Line::Place {
                slot,
                offset,
                bytes,
            },
        );
    }

    fn hear(&mut self, side: usize, message: Option<Bytes44>) -> Option<Bytes44> {
        let bytes = message.map_or(Vec::new(), |bytes| bytes.to_vec());
        message_of(&self.at(side, Line::Hear { bytes }))
    }

    fn read(&mut self, slot: u32, room: usize) -> Option<Bytes44> {
        message_of(&self.at(FAR, Line::Read { slot, room }))
    }

    fn abort(&mut self, side: usize) -> Option<Bytes44> {
        message_of(&self.at(side, Line::Abort { slot: 1 }))
    }

    fn free(&mut self, side: usize) {
        self.at(side, Line::Free { slot: 1 });
    }

    /// Near's link 2 comes up and its link 1 goes down: the F message.
    fn move_near(&mut self) -> Option<Bytes44> {
        self.link(NEAR, 2, true);
        let answer = self.link(NEAR, 1, false);
        told_in(&answer).first().copied()
    }
}

/// Someone writes 9 where 1 lies.
fn as_last_left() -> Run {
    let mut run = Run::opened();
    let message = run.send(&[1]);
    run.place(4, &[1]);
    run.hear(FAR, message);
    run.at(
        FAR,
        Line::Poke {
            at: 4,
            bytes: vec![9],
        },
    );
    run.read(1, 1);
    run
}

/// The page has both ends abort, free and open again; near alone is enough. Its new
/// first message has the fields of the old one.
fn until_it_closes() -> Run {
    let mut run = Run::opened();
    run.send(&[1]);
    run.abort(NEAR);
    run.free(NEAR);
    run.open(NEAR);
    let message = run.send(&[2]);
    run.place(4, &[2]);
    run.hear(FAR, message);
    run.read(1, 1);
    run
}

/// "Send 1; far link down, place (6), link up, hear, read: 0 of 1."
fn link_active() -> Run {
    let mut run = Run::opened();
    let message = run.send(&[1]);
    run.link(FAR, 1, false);
    run.place(4, &[1]);
    run.link(FAR, 1, true);
    run.hear(FAR, message);
    run.read(1, 1);
    run
}

/// "Send 1; place 1, place 9 at 4, hear, read: 9 of 1."
fn no_others() -> Run {
    let mut run = Run::opened();
    let message = run.send(&[1]);
    run.place(4, &[1]);
    run.place(4, &[9]);
    run.hear(FAR, message);
    run.read(1, 1);
    run
}

/// Part 6 rests on "no byte written again after its message was heard".
fn not_written_again() -> Run {
    let mut run = Run::opened();
    let message = run.send(&[1, 2, 3, 4]);
    run.place(4, &[1, 2, 3, 4]);
    run.hear(FAR, message);
    let update = run.read(1, 4);
    run.hear(NEAR, update);
    let message = run.send(&[5]);
    run.place(4, &[5]);
    run.place(4, &[1]);
    run.hear(FAR, message);
    run.read(1, 1);
    run
}

/// "Send 1; hear, read: 0 of 1."
fn performed_before() -> Run {
    let mut run = Run::opened();
    let message = run.send(&[1]);
    run.hear(FAR, message);
    run.read(1, 1);
    run
}

/// "Hear of a forged Q (6,0), read: 0 0 of nothing."
fn heard_in_order() -> Run {
    let mut run = Run::opened();
    let forged = Message {
        sequence: 1,
        token: 12,
        producer: cursor(6, 0),
        consumer: cursor(4, 0),
        ..Message::default()
    };
    run.hear(FAR, Some(forged.write()));
    run.read(1, 2);
    run
}

/// 2026-13, O3: "a message still under way on the old link when F is heard costs the
/// connection".
fn failover_in_order() -> Run {
    let mut run = Run::opened();
    run.send(&[1]);
    run.place(4, &[1]);
    let failover = run.move_near();
    run.hear(FAR, failover);
    run
}

/// F has the number of messages, and says nothing of writes.
fn old_link_first() -> Run {
    let mut run = Run::opened();
    let message = run.send(&[1]);
    let failover = run.move_near();
    run.hear(FAR, message);
    run.hear(FAR, failover);
    run.read(1, 1);
    run
}

/// "Near sends 1; far aborts, frees (allowed in PeerAbortWait); near hears A; both
/// open again with other tokens; near sends 2, placed at 4; the late write of 1
/// comes, is placed at 4; hear, read: 1 of 2."
fn safe_reuse() -> Run {
    let mut run = Run::opened();
    run.send(&[1]);
    let abort = run.abort(FAR);
    run.free(FAR);
    run.hear(NEAR, abort);
    run.follow(Course::new(names(1, 2), [8, 8]));
    run.open_both();
    let message = run.send(&[2]);
    run.place(4, &[2]);
    run.place(4, &[1]);
    run.hear(FAR, message);
    run.read(1, 1);
    run
}

/// A connection in which near's open is altered, and that is not asked.
fn altered(unasked: Unasked, sizes: [u32; 2], alter: impl Fn(&mut Opening)) -> Run {
    let mut run = Run::on_link_1(1, sizes);
    run.follow(Course::with_unasked(names(1, 1), sizes, unasked));
    let mut opening = run.course().opening(NEAR);
    alter(&mut opening);
    run.at(NEAR, Line::Open { opening });
    run.open(FAR);
    run
}

/// Four bytes are a lap to near; far, with five, finds five unread.
fn sizes_match() -> Run {
    let mut run = altered(Unasked::Size, [8, 9], |opening| opening.peer_size = 8);
    let message = run.send(&[1, 2, 3, 4]);
    run.place(4, &[1, 2, 3, 4]);
    run.hear(FAR, message);
    run.read(1, 5);
    run
}

/// Connection 2 hears the message of connection 1, and reads what nobody sent.
fn tokens_match() -> Run {
    let mut run = Run::on_link_1(2, [8, 8]);
    run.follow(Course::with_unasked(names(1, 1), [8, 8], Unasked::Token));
    let mut opening = run.course().opening(NEAR);
    opening.peer_token = 22;
    run.at(NEAR, Line::Open { opening });
    run.open(FAR);
    run.follow(Course::new(names(2, 2), [8, 8]));
    run.open_both();
    let message = run.send(&[1]);
    run.place(4, &[1]);
    run.hear(FAR, message);
    run.read(2, 1);
    run
}

/// The write lands one byte further.
fn bases_match() -> Run {
    let mut run = altered(Unasked::Base, [8, 8], |opening| opening.bases[0] += 1);
    let message = run.send(&[1]);
    run.place(5, &[1]);
    run.hear(FAR, message);
    run.read(1, 1);
    run
}

/// "All four keys and bases of that open are used."
fn every_link_matches() -> Run {
    let mut run = altered(Unasked::Base, [8, 8], |opening| opening.bases[1] += 1);
    let failover = run.move_near();
    run.hear(FAR, failover);
    let message = run.send(&[1]);
    run.place(5, &[1]);
    run.hear(FAR, message);
    run.read(1, 1);
    run
}

/// The write lands behind the element, where it is refused (9).
fn index_matches() -> Run {
    let mut run = altered(Unasked::Index, [8, 8], |opening| opening.index = 2);
    let message = run.send(&[1]);
    run.place(12, &[1]);
    run.hear(FAR, message);
    run.read(1, 1);
    run
}

/// `model pair --break NAME`: the calls in order with their answers, what came out,
/// and the calls of each end as a list in the replay format.
pub fn text(broken: &Break) -> String {
    let run = (broken.run)();
    let course = run.course();
    let mut text = format!("# without {}: {}\n", broken.name, broken.story);
    for (place, event) in run.events.iter().enumerate() {
        text += &format!("# {:2} {}\n", place + 1, event.text());
    }
    let (took, got) = (&course.ends[NEAR].took, &course.ends[FAR].got);
    text += &format!("# taken at near {}, read at far {}\n", hex(took), hex(got));
    let told = |wrong: &&Wrong| {
        matches!(
            wrong,
            Wrong::Byte { .. } | Wrong::TurnedAway { .. } | Wrong::Aborted { .. }
        )
    };
    for wrong in course.wrong.iter().filter(told) {
        text += &format!("# wrong: {}\n", wrong.words());
    }
    for side in [NEAR, FAR] {
        text += &format!("# {}\n", SIDES[side]);
        for event in run.events.iter().filter(|event| event.side == side) {
            let mut line = Vec::new();
            print_line(&mut line, &event.line);
            text += &String::from_utf8_lossy(&line);
            text.push('\n');
        }
    }
    text
}

fn hex(bytes: &[u8]) -> String {
    let mut out = Vec::new();
    push_hex(&mut out, bytes);
    String::from_utf8_lossy(&out).into_owned()
}
