//! What a call that was not refused did.

use super::cells::Cells;
use super::{row, row_name, Details};
use crate::replay::{Answer, Line};
use crate::smcr::*;

pub(super) fn count_answer(
    cells: &mut Cells,
    line: &Line,
    answer: &Answer,
    group: &Group,
    before: &Details,
) {
    if let Some(message) = crate::generate::message_of(answer) {
        cells.hit_if(
            message[2..4] == [0xFF, 0xFF],
            "message: sequence 65,535, next 0",
        );
    }
    match (line, answer) {
        (Line::Send { slot, bytes }, Answer::Sent(sent)) => {
            let index = *slot as usize - 1;
            count_send(
                cells,
                bytes.len() as i64,
                sent,
                &before.table[index],
                &group.table[index],
            );
        }
        (Line::Place { offset, bytes, .. }, _) => {
            let inside = offset_in_range(*offset, before.n);
            cells.hit_if(!bytes.is_empty(), "place: bytes stored");
            cells.hit_if(bytes.is_empty() && inside, "place: no bytes, offset inside");
            cells.hit_if(
                bytes.is_empty() && !inside,
                "place: no bytes, offset outside",
            );
            let end = i64::from(*offset) + bytes.len() as i64;
            cells.hit_if(
                !bytes.is_empty() && end == before.n,
                "place: last byte at N-1",
            );
        }
        (Line::Read { slot, room }, Answer::Read(read, _)) => {
            let index = *slot as usize - 1;
            count_read(
                cells,
                *room as i64,
                read,
                &before.table[index],
                &group.table[index],
                before.n,
            );
        }
        (Line::Hear { bytes }, Answer::Heard(heard)) => {
            count_hear(cells, bytes, heard, group, before)
        }
        (Line::Shutdown { slot }, _) => {
            let c = &before.table[*slot as usize - 1];
            cells.hit_if(!c.done_heard && !c.closed_heard, "shutdown: ours first");
            cells.hit_if(c.done_heard && !c.closed_heard, "shutdown: after D heard");
            cells.hit_if(c.closed_heard, "shutdown: after C heard");
            cells.hit_if(c.unread(before.n) > 0, "shutdown: with unread bytes");
        }
        (Line::Close { slot }, Answer::Made("reset", _)) => {
            let c = &before.table[*slot as usize - 1];
            let unread = c.unread(before.n);
            cells.hit("close: reset");
            cells.hit_if(unread == 1, "close: reset, one byte unread");
            cells.hit_if(
                unread == data_size(before.n),
                "close: reset, D unread, equal offsets",
            );
            cells.hit_if(c.done_sent, "close: reset, D sent");
            cells.hit_if(c.done_heard, "close: reset, D heard");
            cells.hit_if(c.closed_heard, "close: reset, C heard");
            cells.hit_if(c.told != c.consumer, "close: reset, T moves");
            if state(&group.table[*slot as usize - 1]) != State::PeerAbortWait {
                cells.fault("a close that reset left another state".to_string());
            }
        }
        (Line::Close { slot }, _) => {
            cells.hit_if(*slot > 16, "close: slot above 16");
            let c = &before.table[*slot as usize - 1];
            let none_heard = !c.done_heard && !c.closed_heard;
            cells.hit_if(none_heard && !c.done_sent, "close: ours first");
            cells.hit_if(c.done_sent, "close: after D sent");
            cells.hit_if(c.done_heard && !c.closed_heard, "close: after D heard");
            cells.hit_if(c.closed_heard, "close: C heard, slot closed");
            cells.hit_if(c.told != c.consumer, "close: all read, but not all told");
            if c.unread(before.n) > 0 {
                cells.fault("a close dropped unread bytes".to_string());
            }
        }
        (Line::Abort { slot }, _) => {
            let c = &before.table[*slot as usize - 1];
            cells.hit_if(state(c) == State::Active, "abort: from no mark");
            cells.hit_if(c.closed_sent, "abort: after C sent");
            cells.hit_if(c.closed_heard, "abort: after C heard");
        }
        (Line::Open { opening }, _) => {
            let slot = opening.slot;
            cells.hit("open: answered");
            cells.hit_if(slot > 16, "open: slot above 16");
            cells.hit_if(slot == 255, "open: slot 255");
            cells.hit_if(before.element_used, "open: element held bytes before");
            let elsewhere =
                before.table.iter().enumerate().any(|(index, c)| {
                    index + 1 != slot as usize && c.own_token == opening.own_token
                });
            cells.hit_if(elsewhere, "open: token of a closed slot");
            cells.hit_if(opening.index == 255, "open: index 255");
            let bytes = u128::from(opening.index) * u128::from(opening.peer_size);
            let top = |base: &u64| u128::from(*base) + bytes == 1 << 64;
            cells.hit_if(
                opening.bases.iter().any(top),
                "open: last address of 64 bits",
            );
        }
        (Line::Free { .. }, _) => cells.hit("free: answered"),
        (Line::Link { up, .. }, _) => cells.hit(if *up {
            "link: to active"
        } else {
            "link: to down"
        }),
        _ => {}
    }
}

/// Whether a cursor passed the end of its element, and from wrap 65,535.
fn count_wrap(cells: &mut Cells, who: &str, from: Cursor, to: Cursor) {
    cells.hit_if(from.wrap != to.wrap, &format!("{who} passes the end"));
    cells.hit_if(
        from.wrap == 65_535 && to.wrap == 0,
        &format!("{who}'s wrap goes from 65,535 to 0"),
    );
}

fn count_send(
    cells: &mut Cells,
    length: i64,
    sent: &Sent,
    before: &Connection,
    after: &Connection,
) {
    cells.hit("send: answered");
    cells.hit(&format!("send: placings {}", sent.placings.len()));
    count_wrap(cells, "send: Q", before.producer, after.producer);
    let left_over = sent.taken < length;
    cells.hit_if(length == 0, "send: nothing offered");
    cells.hit_if(sent.taken > 0 && !left_over, "send: n above 0, all taken");
    cells.hit_if(sent.taken > 0 && left_over, "send: n above 0, left over");
    if before.urgent_sent.is_some() {
        // Counted by `urgent`.
        return;
    }
    let blocked = sent.taken == 0 && left_over;
    cells.hit_if(
        blocked && !before.blocked,
        "send: n 0, left over, B not told before",
    );
    cells.hit_if(
        blocked && before.blocked,
        "send: n 0, left over, B told before",
    );
    cells.hit_if(before.blocked && !after.blocked, "send: B turned off");
    cells.hit_if(before.told != after.told, "message: T moves");
    cells.hit_if(
        sent.taken == data_size(before.n_peer()),
        "send: whole D' at once",
    );
    let end_of = |placing: &Placing| {
        let last = placing.address.wrapping_add(placing.length as u64 - 1);
        last == address(before, before.n_peer() - 1)
    };
    if let [placing] = &sent.placings[..] {
        cells.hit_if(end_of(placing), "send: one placing that ends the element");
    }
    if sent.placings.is_empty() {
        return;
    }
    let own = usize::from(before.link) - 1;
    let (key, base) = (before.keys[own], before.bases[own]);
    cells.hit_if(
        base == 0 && before.index == 1,
        "send: base 0 and index 1, the address is the offset",
    );
    cells.hit_if(before.index > 1, "send: index above 1");
    cells.hit_if(before.index == 255, "send: index 255");
    let top = sent.placings.iter().any(|placing| {
        let last = placing.address.checked_add(placing.length as u64 - 1);
        last == Some(u64::MAX)
    });
    cells.hit_if(top, "send: last address of 64 bits");
    let others = (0..LINKS).filter(|&link| link != own);
    let mut differ = others.map(|link| before.keys[link] != key && before.bases[link] != base);
    cells.hit_if(
        differ.all(|differs| differs),
        "send: links with other keys and bases",
    );
}

fn count_read(
    cells: &mut Cells,
    room: i64,
    read: &ReadAnswer,
    before: &Connection,
    after: &Connection,
    n: i64,
) {
    let ReadAnswer::Read { taken, message } = read else {
        cells.hit("read: torn");
        cells.hit_if(room == 0, "read: torn, no room in out");
        return;
    };
    count_wrap(cells, "read: C", before.consumer, after.consumer);
    let unread = before.unread(n);
    cells.hit_if(*taken == 0, "read: n 0");
    cells.hit_if(
        *taken > 0 && *taken == room && room < unread,
        "read: n is the room in out",
    );
    cells.hit_if(*taken > 0 && *taken == unread, "read: n is all unread");
    cells.hit_if(*taken > 0 && *taken < room, "read: room in out beyond n");
    cells.hit_if(*taken == data_size(n), "read: whole D at once");
    if *taken == 0 {
        return;
    }
    let moved = Connection {
        consumer: after.consumer,
        ..*before
    };
    let by_window = window_rule(&moved, n);
    let reasons = [before.peer_blocked, before.update_requested, by_window];
    if urgent_place_reached(before, before.consumer, *taken, n) {
        // Counted by `urgent`; the message is made whatever else asks for one.
        return;
    }
    let name = match reasons {
        [true, false, false] => "read: message by B alone",
        [false, true, false] => "read: message by R alone",
        [false, false, true] => "read: message by window alone",
        [false, false, false] => {
            if 2 * moved.peer_window(n) < data_size(n) {
                "read: no message, tenth not reached"
            } else {
                "read: no message, half not reached"
            }
        }
        _ => "read: message by several",
    };
    cells.hit(name);
    if message.is_some() != reasons.contains(&true) {
        cells.fault(format!("read made a message or none against {reasons:?}"));
    }
}

fn count_hear(cells: &mut Cells, bytes: &[u8], heard: &Heard, group: &Group, before: &Details) {
    let Some(message) = Message::read(bytes) else {
        return;
    };
    let holders: Vec<usize> = (0..before.s as usize)
        .filter(|&index| before.table[index].own_token == message.token)
        .collect();
    let open: Vec<usize> = holders
        .iter()
        .copied()
        .filter(|&index| before.table[index].open)
        .collect();
    let index = open[0];
    cells.hit_if(open.len() > 1, "hear: lowest of several slots");
    cells.hit_if(
        holders[0] != index,
        "hear: slot with the token closed, later one taken",
    );
    cells.hit_if(index + 1 > 16, "hear: slot above 16");
    cells.hit_if(index + 1 == 255, "hear: slot 255");
    let old = &before.table[index];
    let new = &group.table[index];
    cells.hit(&format!("hear: state {}", heard.state.name()));
    cells.hit_if(heard.moved == 0, "hear: moved 0");
    cells.hit_if(heard.moved > 0, "hear: moved above 0");
    cells.hit_if(
        heard.moved == data_size(before.n),
        "hear: moved D, equal offsets",
    );
    let next = !not_next(old, &message);
    cells.hit_if(message.abort && !next, "hear: A with a number not next");
    let after_ours = old.abort_sent && !message.abort;
    cells.hit_if(after_ours && !next, "hear: a number not next after A sent");
    if message.abort {
        cells.hit_if(!old.abort_sent, "hear: abort answered");
        cells.hit_if(old.abort_sent, "hear: abort not answered, A sent before");
        return;
    }
    if old.abort_sent {
        cells.hit("hear: A sent, none heard, no change");
        cells.hit(&format!("hear: marks {} and A sent", row_name(row(old))));
        return;
    }
    if message.failover {
        // Counted by `failover`.
        return;
    }
    let mut marked = *old;
    marked.done_heard |= message.done;
    marked.closed_heard |= message.closed;
    cells.hit(&format!("hear: marks {}", row_name(row(&marked))));
    count_wrap(cells, "hear: P", old.peer_producer, message.producer);
    count_wrap(cells, "hear: R", old.peer_consumer, message.consumer);
    cells.hit_if(old.peer_consumer != message.consumer, "hear: R moves");
    let answered = heard.message.is_some();
    // With U that moves P the message is made whether R asks or not; `urgent`
    // counts it.
    let urgent = message.urgent_present && heard.moved > 0;
    let asked = message.update_requested && !urgent;
    let closed = marked.closed_sent && marked.closed_heard;
    cells.hit_if(asked && answered, "hear: R flag answered");
    cells.hit_if(asked && !answered, "hear: R flag, T equals C");
    cells.hit_if(
        asked && answered && closed,
        "hear: R flag answered, then closed",
    );
    cells.hit_if(closed, "hear: C heard and C sent, closed");
    if closed == new.open {
        cells.fault("hear left a slot open or closed against the marks".to_string());
    }
    cells.hit_if(message.done && !old.done_heard, "hear: D heard first");
    cells.hit_if(message.closed && !old.closed_heard, "hear: C heard first");
    cells.hit_if(
        !message.done && old.done_heard,
        "hear: D heard before and missing now",
    );
    cells.hit_if(
        !message.closed && old.closed_heard,
        "hear: C heard before and missing now",
    );
    cells.hit_if(message.sequence == 65_535, "hear: sequence 65,535 stored");
    cells.hit_if(message.sequence == 0, "hear: sequence 0 stored");
    cells.hit_if(message.sequence == 1, "hear: sequence 1, the first");
    if !next {
        cells.fault("hear took a number that is not next".to_string());
    }
}
