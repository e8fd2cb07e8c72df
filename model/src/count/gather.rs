//! The cells of head-and-body sends.

use super::cells::Cells;
use super::Details;
use crate::replay::{Answer, Line};
use crate::smcr::*;

const FURTHER: &[&str] = &[
    "gather: both empty",
    "gather: head empty",
    "gather: body empty",
    "gather: n 0 with bytes offered",
    "gather: n ends in the head",
    "gather: n ends at the head's end",
    "gather: n ends in the body",
    "gather: all taken",
    "gather: no piece",
    "gather: one piece of the head",
    "gather: one piece of the body",
    "gather: head and body",
    "gather: head in two pieces",
    "gather: body in two pieces",
    "gather: head in two pieces and body",
    "gather: head and body in two pieces",
    "gather: the element's end between head and body",
    "gather: Q's wrap goes from 65,535 to 0",
    "gather: while the urgent place stands",
    "gather: last address of 64 bits",
];

pub(super) fn declare(cells: &mut Cells) {
    for name in FURTHER {
        cells.can(name.to_string());
    }
}

pub(super) fn count(
    cells: &mut Cells,
    line: &Line,
    answer: &Answer,
    before: &Details,
    after: &Group,
) {
    let (Line::Gather { slot, head, body }, Answer::Gathered(gathered)) = (line, answer) else {
        return;
    };
    let index = *slot as usize - 1;
    let (old, new) = (&before.table[index], &after.table[index]);
    let joined = [&head[..], &body[..]].concat();
    let taken = gathered.taken as usize;
    let parts: Vec<&[u8]> = gathered
        .pieces
        .iter()
        .map(|piece| &piece.bytes[..])
        .collect();
    if parts.concat() != joined[..taken] {
        cells.fault("pieces that are not the first bytes of head and body".to_string());
    }
    let last = gathered.pieces.last();
    let at_the_end = |piece: &Piece| {
        let offset = i64::from(new.producer.offset);
        piece.bytes.is_empty() && piece.address == address(new, offset)
    };
    if !last.is_some_and(at_the_end) || parts.len() > 4 {
        cells.fault("pieces that do not end with an empty one at the new Q".to_string());
    }
    if parts[..parts.len() - 1].iter().any(|part| part.is_empty()) {
        cells.fault("an empty piece before the last".to_string());
    }
    cells.hit_if(joined.is_empty(), "gather: both empty");
    cells.hit_if(head.is_empty() && !body.is_empty(), "gather: head empty");
    cells.hit_if(body.is_empty() && !head.is_empty(), "gather: body empty");
    if old.urgent_sent.is_some() {
        return cells.hit("gather: while the urgent place stands");
    }
    cells.hit_if(
        taken == 0 && !joined.is_empty(),
        "gather: n 0 with bytes offered",
    );
    cells.hit_if(
        taken > 0 && taken < head.len(),
        "gather: n ends in the head",
    );
    cells.hit_if(
        taken > 0 && taken == head.len() && !body.is_empty(),
        "gather: n ends at the head's end",
    );
    let beyond = taken > head.len();
    cells.hit_if(beyond && taken < joined.len(), "gather: n ends in the body");
    cells.hit_if(taken > 0 && taken == joined.len(), "gather: all taken");
    let wraps = new.producer.wrap != old.producer.wrap;
    cells.hit_if(
        wraps && old.producer.wrap == 65_535,
        "gather: Q's wrap goes from 65,535 to 0",
    );
    // How many pieces of each.
    let mut done = 0;
    let (mut heads, mut bodies) = (0, 0);
    let mut end_between = false;
    for piece in &gathered.pieces {
        if piece.bytes.is_empty() {
            break;
        }
        if done < head.len() {
            heads += 1;
        } else {
            bodies += 1;
        }
        done += piece.bytes.len();
        let ends = piece.address.wrapping_add(piece.bytes.len() as u64 - 1);
        cells.hit_if(ends == u64::MAX, "gather: last address of 64 bits");
        let at_end = ends == address(old, old.n_peer() - 1);
        end_between |= at_end && done == head.len() && done < taken;
    }
    cells.hit_if(
        end_between,
        "gather: the element's end between head and body",
    );
    cells.hit(match (heads, bodies) {
        (0, 0) => "gather: no piece",
        (1, 0) => "gather: one piece of the head",
        (0, 1) => "gather: one piece of the body",
        (1, 1) => "gather: head and body",
        (2, 0) => "gather: head in two pieces",
        (0, 2) => "gather: body in two pieces",
        (2, 1) => "gather: head in two pieces and body",
        _ => "gather: head and body in two pieces",
    });
}
