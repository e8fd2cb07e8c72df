//! That the plain calls answer and leave the same as the proved ones, on the second program's random lists.

use crate::ours::Ours;
use crate::plain;
use fordlinnet::{Closed, Gathered, Group, Read, Record, Refusal, Sent};
use model::generate::{exhaust, hostile, traffic};
use model::replay::{lent_bytes, lines, skipped, Line, Replay, OUT_FILL};
use std::fmt::Debug;

fn same<T, U: Debug + PartialEq>(ours: Result<T, Refusal>, plain: Result<U, Refusal>, of: impl Fn(T) -> U, line: &Line) {
    let ours = ours.map(of);
    assert!(ours == plain, "{line:?}\nproved: {ours:?}\nplain: {plain:?}");
}

fn sent(s: Sent) -> plain::Sent {
    let placing = |k: usize| s.placings.get(k).map(|p| plain::Placing { key: p.key, address: p.address, start: p.start, len: p.len });
    plain::Sent { taken: s.taken as u32, placings: [placing(0), placing(1)], message: s.message.map(Into::into) }
}

fn gathered(g: Gathered<'_>) -> plain::Gathered<'_> {
    let mut pieces = g.pieces().map(|p| plain::Piece { key: p.key, address: p.address, bytes: p.bytes });
    let none = plain::Piece { key: 0, address: 0, bytes: &[] };
    let three = [pieces.next().unwrap_or(none), pieces.next().unwrap_or(none), pieces.next().unwrap_or(none)];
    assert!(pieces.next().is_none(), "a fourth piece");
    plain::Gathered { taken: g.taken as u32, pieces: three, message: g.message.map(Into::into) }
}

fn read(r: Read) -> plain::Read {
    match r {
        Read::Bytes { count, message } => plain::Read::Bytes { count: count as u32, message: message.map(Into::into) },
        Read::Torn { message } => plain::Read::Torn { message: message.into() },
    }
}

fn closed(c: Closed) -> plain::Closed {
    match c {
        Closed::InOrder { message, .. } => plain::Closed::InOrder(message.into()),
        Closed::Reset { message } => plain::Closed::Reset(message.into()),
    }
}

/// Makes the call on two copies of the group. Whether it is one of the nine.
fn beside(group: &Group, line: &Line) -> bool {
    let mut ours = group.clone();
    let (mut memory, mut table): (Vec<u8>, Vec<Record>) = (group.memory().clone(), group.table().to_vec());
    let mut links = *group.links();
    let mut plain =
        plain::Group { s: group.elements(), n: group.element_size(), memory: &mut memory, table: &mut table, links: &mut links };
    match line {
        Line::Send { slot, bytes } => same(ours.send(*slot, bytes), plain.send(*slot, bytes), sent, line),
        Line::Urgent { slot, bytes } => same(ours.urgent_send(*slot, bytes), plain.urgent_send(*slot, bytes), sent, line),
        Line::Gather { slot, head, body } => same(ours.gather(*slot, head, body), plain.gather(*slot, head, body), gathered, line),
        Line::Place { slot, offset, bytes } => same(ours.place(*slot, *offset, bytes), plain.place(*slot, *offset, bytes), |()| (), line),
        Line::Read { slot, room } => {
            let (mut a, mut b) = (vec![OUT_FILL; *room], vec![OUT_FILL; *room]);
            same(ours.read(*slot, &mut a), plain.read(*slot, &mut b), read, line);
            assert!(a == b, "{line:?}: other bytes");
        }
        Line::Hear { bytes } => {
            let heard = |h: fordlinnet::Heard| plain::Heard { moved: h.moved, state: h.state, message: h.message.map(Into::into) };
            same(ours.hear(bytes), plain.hear(bytes), heard, line)
        }
        Line::Shutdown { slot } => same(ours.shutdown(*slot), plain.shutdown(*slot), |m| *m.as_bytes(), line),
        Line::Close { slot } => same(ours.close(*slot), plain.close(*slot), closed, line),
        Line::Abort { slot } => same(ours.abort(*slot), plain.abort(*slot), |m| *m.as_bytes(), line),
        Line::Link { link, up, room } => {
            let room = lent_bytes(group.elements(), *room);
            let (mut a, mut b) = (vec![OUT_FILL; room], vec![OUT_FILL; room]);
            same(ours.link_change_into(*link, *up, &mut a), plain.link_change(*link, *up, &mut b), |c| c.moved.len(), line);
            assert!(a == b, "{line:?}: another buffer");
            // as text, so that gauges of no number are compared too
            assert!(format!("{:?}", ours.links()) == format!("{links:?}"), "{line:?}: other links");
        }
        _ => return false,
    }
    assert!(ours.table() == table, "{line:?}: another table");
    assert!(*ours.memory() == memory, "{line:?}: other memory");
    true
}

/// Runs lists until so many calls were compared; how many were.
pub fn check(wanted: usize) -> usize {
    let mut calls = 0;
    for seed in 1.. {
        let mut lists =
            vec![hostile::list(seed, None), traffic::list(4 * seed, traffic::COUNT), traffic::list(4 * seed + 1, traffic::COUNT)];
        if seed == 1 {
            lists.push(exhaust::list(1));
        }
        for list in lists {
            let (mut ours, mut replay) = (Ours::new(), Replay::new());
            for line in lines(&list).into_iter().filter(|line| !skipped(line)) {
                if let Ok(line) = replay.parse(line) {
                    // what is sent is also gathered, its first third as the head
                    if let Line::Send { slot, bytes } = &line {
                        let (head, body) = bytes.split_at(bytes.len() / 3);
                        let line = Line::Gather { slot: *slot, head: head.to_vec(), body: body.to_vec() };
                        calls += usize::from(beside(&ours.group, &line));
                    }
                    calls += usize::from(beside(&ours.group, &line));
                    replay.execute(&line);
                    ours.execute(&line);
                }
            }
        }
        if calls >= wanted {
            break;
        }
    }
    calls
}
