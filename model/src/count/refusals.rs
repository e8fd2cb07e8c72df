//! Why a call was refused.

use super::cells::Cells;
use super::order::{lowest_holder, token_in};
use super::Details;
use crate::llc::{llc_class, LlcClass};
use crate::replay::Line;
use crate::smcr::*;

pub(super) fn count_refusal(cells: &mut Cells, number: u8, line: &Line, before: &Details) {
    match (number, line) {
        (1, _) => {
            let records = before.table.len() as i64;
            let wrong = [
                (!(1..=MAX_ELEMENTS).contains(&before.s), "S"),
                (!size_in_range(before.n), "N"),
                (before.length != before.s * before.n, "LEN"),
                (records < before.s, "table too short"),
                (records > before.s, "table too long"),
            ];
            let wrong: Vec<&str> = wrong
                .iter()
                .filter(|(on, _)| *on)
                .map(|(_, name)| *name)
                .collect();
            if let [one] = wrong[..] {
                cells.hit(&format!("refused 1: {one}"));
            }
            cells.hit_if(before.s == 256 && records == 256, "refused 1: S 256");
        }
        (3, Line::Hear { bytes }) => {
            if let Some(c) =
                token_in(bytes).and_then(|token| lowest_holder(&before.table, before.s, token))
            {
                count_coherence(cells, c, before.n);
            }
        }
        (
            3,
            Line::Send { slot, .. }
            | Line::Urgent { slot, .. }
            | Line::Gather { slot, .. }
            | Line::Place { slot, .. }
            | Line::Read { slot, .. }
            | Line::Shutdown { slot }
            | Line::Close { slot }
            | Line::Abort { slot }
            | Line::Free { slot },
        ) => count_coherence(cells, &before.table[*slot as usize - 1], before.n),
        (4, Line::Hear { bytes }) => {
            let name = if bytes.len() != MESSAGE_BYTES {
                "length"
            } else if bytes[0] != CDC_TYPE {
                "byte 0"
            } else {
                "byte 1"
            };
            cells.hit(&format!("hear: refused 4, {name}"));
        }
        (4, Line::LinkMsg { bytes, .. }) => {
            let name = if bytes.len() != MESSAGE_BYTES {
                "length"
            } else {
                match llc_class(bytes[0]) {
                    LlcClass::Unknown => "unknown first byte",
                    LlcClass::Cdc => "FE",
                    _ => "byte 1",
                }
            };
            cells.hit(&format!("linkmsg: refused 4, {name}"));
        }
        (5, Line::Hear { bytes }) => {
            let token = token_in(bytes).unwrap_or(0);
            let held = |c: &Connection| c.open && c.own_token == token;
            cells.hit_if(
                token == 0 && before.table.iter().any(held),
                "hear: token 0 held by an open slot, 5",
            );
        }
        (8, Line::Hear { bytes }) => count_hear_rules(cells, bytes, before),
        (16, Line::Hear { bytes }) => count_not_next(cells, bytes, before),
        (
            9,
            Line::Place {
                slot,
                offset,
                bytes,
            },
        ) => {
            let c = &before.table[*slot as usize - 1];
            count_barred(cells, c, i64::from(*offset), bytes.len() as i64, before.n);
        }
        (11, Line::Open { opening }) => {
            let holds = |c: &Connection| c.open && c.own_token == opening.own_token;
            let last = before.table.get(254).is_some_and(holds);
            cells.hit_if(last, "open: refused 11, held in slot 255");
        }
        (12, Line::Open { opening }) => count_barred_opening(cells, opening),
        _ => {}
    }
}

/// Why an open is refused with 12: by one reason, or by several.
fn count_barred_opening(cells: &mut Cells, opening: &Opening) {
    let size = i64::from(opening.peer_size);
    let own = usize::from(opening.link).wrapping_sub(1);
    let past = |link: usize| {
        let base = opening.bases[link];
        past_the_top(opening.index, base, opening.peer_size)
    };
    let links = (0..LINKS).filter(|&link| past(link));
    let past: Vec<usize> = links.collect();
    let reasons = [
        (opening.own_token == 0, "own token 0"),
        (opening.peer_token == 0, "peer token 0"),
        (size < MIN_SIZE, "N' below 8"),
        (size > MAX_SIZE, "N' above 65,540"),
        (opening.index == 0, "index 0"),
        (opening.index > 255, "index above 255"),
        (past.contains(&own), "past the top on the own link"),
        (
            past.iter().any(|&link| link != own),
            "past the top on another link",
        ),
    ];
    let on: Vec<&str> = reasons
        .iter()
        .filter(|(on, _)| *on)
        .map(|(_, name)| *name)
        .collect();
    match on[..] {
        [one] => cells.hit(&format!("refused 12: {one}")),
        _ => cells.hit("refused 12: several reasons"),
    }
}

/// Which clause of coherence is broken: it alone, or several.
fn count_coherence(cells: &mut Cells, c: &Connection, n: i64) {
    let mut broken: Vec<&str> = Vec::new();
    let mut check = |on: bool, name: &'static str| {
        if on {
            broken.push(name);
        }
    };
    let above = |at: Cursor, size: i64| i64::from(at.offset) > size - 1;
    let n_peer = c.n_peer();
    check(c.own_token == 0, "own token 0");
    check(c.peer_token == 0, "peer token 0");
    check(!link_in_range(c.link), "link");
    check(n_peer < MIN_SIZE, "N' below 8");
    check(n_peer > MAX_SIZE, "N' above 65,540");
    check(c.peer_producer.offset < 4, "P below 4");
    check(above(c.peer_producer, n), "P above N-1");
    check(c.consumer.offset < 4, "C below 4");
    check(above(c.consumer, n), "C above N-1");
    check(c.told.offset < 4, "T below 4");
    check(above(c.told, n), "T above N-1");
    check(c.producer.offset < 4, "Q below 4");
    check(above(c.producer, n_peer), "Q above N'-1");
    check(c.peer_consumer.offset < 4, "R below 4");
    check(above(c.peer_consumer, n_peer), "R above N'-1");
    let told_to_consumer = distance(c.told, c.consumer, n);
    let consumer_to_producer = distance(c.consumer, c.peer_producer, n);
    let written = distance(c.peer_consumer, c.producer, n_peer);
    check(told_to_consumer < 0, "T to C below zero");
    check(told_to_consumer > data_size(n), "T to C above D");
    check(consumer_to_producer < 0, "C to P below zero");
    check(consumer_to_producer > data_size(n), "C to P above D");
    check(
        told_to_consumer + consumer_to_producer > data_size(n),
        "sum above D",
    );
    check(written < 0, "R to Q below zero");
    check(written > data_size(n_peer), "R to Q above D'");
    check(c.closed_sent && c.closed_heard, "both C");
    if let Some(place) = c.urgent_sent {
        let ahead = distance(c.peer_consumer, place, n_peer);
        check(place.offset < 4, "own urgent place below 4");
        check(above(place, n_peer), "own urgent place above N'-1");
        check(ahead < 1, "own urgent place not after R");
        check(ahead > written, "own urgent place beyond Q");
    }
    if let Some(place) = c.urgent_heard {
        let ahead = distance(c.consumer, place, n);
        check(place.offset < 4, "heard urgent place below 4");
        check(above(place, n), "heard urgent place above N-1");
        check(ahead < 1, "heard urgent place not after C");
        check(ahead > consumer_to_producer, "heard urgent place beyond P");
    }
    check(c.index == 0, "index 0");
    for link in 0..LINKS {
        let past = past_the_top(u32::from(c.index), c.bases[link], c.peer_size);
        let own = usize::from(c.link) == link + 1;
        check(past && own, "past the top on the own link");
        check(past && !own, "past the top on another link");
    }
    match broken[..] {
        [one] => cells.hit(&format!("refused 3: {one}")),
        _ => cells.hit("refused 3: several clauses"),
    }
}

/// In which way a number is not next.
fn count_not_next(cells: &mut Cells, bytes: &[u8], before: &Details) {
    let Some(message) = Message::read(bytes) else {
        return;
    };
    let Some(c) = lowest_holder(&before.table, before.s, message.token) else {
        return;
    };
    let heard = c.heard_sequence;
    let ahead = message.sequence.wrapping_sub(heard);
    cells.hit_if(ahead == 0, "refused 16: equal to the last");
    cells.hit_if(ahead == 65_535, "refused 16: one older than the last");
    cells.hit_if(ahead == 2, "refused 16: one too far");
    let after_the_last = heard == 65_535;
    cells.hit_if(
        after_the_last && message.sequence == 1,
        "refused 16: 65,535 going on to 1",
    );
    cells.hit_if(
        heard == 0 && message.sequence == 0,
        "refused 16: 0 where 1 is the first",
    );
}

/// Which rule of hear is broken: it alone, or several.
fn count_hear_rules(cells: &mut Cells, bytes: &[u8], before: &Details) {
    let Some(message) = Message::read(bytes) else {
        return;
    };
    let Some(c) = lowest_holder(&before.table, before.s, message.token) else {
        return;
    };
    let (n, n_peer) = (before.n, c.n_peer());
    let mut broken: Vec<&str> = Vec::new();
    let mut check = |on: bool, name: &'static str| {
        if on {
            broken.push(name);
        }
    };
    check(message.producer.offset < 4, "P's offset below 4");
    check(
        i64::from(message.producer.offset) >= n,
        "P's offset above N-1",
    );
    check(message.consumer.offset < 4, "R's offset below 4");
    check(
        i64::from(message.consumer.offset) >= n_peer,
        "R's offset above N'-1",
    );
    let new_p = distance(c.told, message.producer, n);
    check(new_p < 0, "P before T");
    check(new_p > data_size(n), "P more than D from T");
    check(new_p < c.told_to_producer(n), "P less far than before");
    let new_r = distance(message.consumer, c.producer, n_peer);
    check(new_r < 0, "R beyond Q");
    check(new_r > data_size(n_peer), "R more than D' before Q");
    check(
        new_r > distance(c.peer_consumer, c.producer, n_peer),
        "R farther than before",
    );
    let moves = message.producer != c.peer_producer;
    check(
        moves && c.done_heard && !c.closed_heard,
        "P moves after D heard",
    );
    check(moves && c.closed_heard, "P moves after C heard");
    match broken[..] {
        [one] => cells.hit(&format!("refused 8: {one}")),
        _ => cells.hit("refused 8: several rules"),
    }
}

fn count_barred(cells: &mut Cells, c: &Connection, offset: i64, length: i64, n: i64) {
    let last = offset + length - 1;
    cells.hit_if(offset < 4, "place: refused 9, below 4");
    cells.hit_if(last > n - 1, "place: refused 9, above N-1");
    if 4 <= offset && last < n {
        cells.hit("place: refused 9, not free");
        // The error that document 01 names: room measured from C.
        let from_consumer = Connection {
            told: c.consumer,
            ..*c
        };
        cells.hit_if(
            !placing_barred(&from_consumer, offset, length, n),
            "place: refused 9, free from C but not from T",
        );
    }
}
