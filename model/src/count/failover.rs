//! The cells of failover: what moves, what is told, buffers, and F heard.

use super::cells::Cells;
use super::{word_of, Details};
use crate::failover::{failover_message, gone, target, tells};
use crate::generate::told_in;
use crate::links::TakenUp;
use crate::replay::{lent_bytes, Answer, Line, OUT_FILL};
use crate::smcr::*;

const CALLS: [&str; 3] = ["link", "linkmsg", "linksend"];

/// Why 1 is given in the three calls, and the buffers that they are lent.
const BUFFERS: &[&str] = &[
    "refused 1, the sizes",
    "refused 1, a slot would move were the sizes right",
    "refused 1, the buffer alone",
    "refused 1, the buffer alone, nothing would move",
    "refused 1, a buffer of no bytes",
    "refused 1, the buffer one byte short",
    "a buffer of just 44 x S bytes",
    "a buffer one byte longer",
    "a buffer of 65,600 bytes",
];

const FURTHER: &[&str] = &[
    "links: line",
    "link: refused 1, room for the messages but not for S",
    "linkmsg: refused 1, room for the messages but not for S",
    "linkmsg: refused 1, an optional message",
    "failover: by link change",
    "failover: by a DELETE LINK taken by a client",
    "failover: by the reply to a DELETE LINK",
    "failover: no slot moves though a link is gone",
    "failover: one slot moves",
    "failover: several slots move",
    "failover: all 255 slots looked at",
    "failover: slot 255 tells",
    "failover: a reply in the same answer",
    "failover: one taken up in the same call",
    "failover: the gone link was the lowest active",
    "failover: the gone link was above the target",
    "failover: an active link above the target",
    "failover: bytes behind the messages stay",
    "failover: all slots that move are silent",
    "failover: one that tells after one that is silent",
    "failover: one that tells after one that stays",
    "no target: by link change",
    "no target: by a DELETE LINK taken by a client",
    "no target: by the reply to a DELETE LINK",
    "no target: the whole group heard",
    "no target: the whole group sent",
    "stays: closed, its link gone",
    "stays: not coherent, its link gone",
    "stays: not coherent, link outside",
    "stays: on a link still active",
    "stays: stranded on a link down before",
    "stays: stranded on the link set down again",
    "stays: stranded when its link comes up again",
    "stays: stranded when another link comes up",
    "silent: A sent",
    "silent: A sent after C heard",
    "tells: nothing sent yet, number 0",
    "tells: next 0, number 65,535",
    "tells: next 65,535",
    "tells: D sent",
    "tells: C sent",
    "tells: D heard",
    "tells: C heard",
    "tells: B on",
    "tells: P and U, our place stands",
    "tells: a place in our own element, no P and U",
    "tells: R heard, no R",
    "tells: T differs from C and stays",
    "hear: F refused 1",
    "hear: F refused 5",
    "hear: F refused 3",
    "hear: F refused 6",
    "hear: F with A, slot closed",
    "hear: F with A, A sent before",
    "hear: F after A sent, the last number",
    "hear: F after A sent, another number",
    "hear: F again, accepted again",
    "hear: F again, after the abort",
    "hear: the next number after an accepted F",
    "hear: F, last heard 0 and number 0",
    "hear: F, last heard 0 and number 65,535",
    "hear: F, last heard 65,535 and number 0",
    "hear: F, one more than the last",
    "hear: F, one less than the last",
    "hear: F, the bytes of the last exchanged",
];

/// What F may meet, accepted or not.
const MET: &[&str] = &[
    "with B",
    "with P",
    "with U",
    "with R",
    "with D",
    "with C",
    "with no other flag",
    "where D was sent",
    "where C was sent",
    "where D was heard",
    "where C was heard",
    "with C where C was sent",
    "with U that would move P",
    "with R where T differs from C",
    "with cursors that 8 would refuse",
    "with R past our urgent place",
    "while a place of our element stands",
];

pub(super) fn declare(cells: &mut Cells) {
    for call in CALLS {
        for name in BUFFERS {
            cells.can(format!("{call}: {name}"));
        }
    }
    for link in 1..=4 {
        cells.can(format!("failover: from link {link}"));
        cells.can(format!("failover: to link {link}"));
    }
    for fate in ["accepted", "aborted"] {
        for met in MET {
            cells.can(format!("hear: F {fate} {met}"));
        }
    }
    for state in State::ALL {
        let name = format!("hear: F accepted in {}", state.name());
        match state {
            State::PeerAbortWait => cells.cannot(name, "the line for A sent comes before"),
            State::Closed => cells.cannot(name, "a record with both C is not coherent"),
            _ => cells.can(name),
        }
    }
    for call in ["send", "urgent", "gather", "place", "read", "hear"] {
        cells.can(format!("after a move: {call}"));
    }
    for name in FURTHER {
        cells.can(name.to_string());
    }
}

pub(super) fn count(
    cells: &mut Cells,
    line: &Line,
    answer: &Answer,
    before: &Details,
    after: &Group,
) {
    match line {
        Line::Links { .. } => cells.hit("links: line"),
        Line::Link { room, .. } | Line::LinkMsg { room, .. } | Line::LinkSend { room, .. } => {
            count_call_on_links(cells, line, answer, before, after, *room);
        }
        Line::Hear { bytes } => count_heard(cells, bytes, answer, before, after),
        _ => {}
    }
    count_after_a_move(cells, line, answer, before);
}

/// How many slots would move if the call were not refused and took down the link
/// that it names.
fn would_move(line: &Line, before: &Details) -> usize {
    let mut after = before.links;
    let named = match line {
        Line::Link {
            link, up: false, ..
        } => *link,
        Line::LinkMsg { bytes, .. } => bytes.get(4).copied().unwrap_or(0),
        _ => 0,
    };
    if !link_in_range(named) {
        return 0;
    }
    after[usize::from(named) - 1] = false;
    let moves =
        |c: &&Connection| c.open && coherent(c, before.n) && gone(&before.links, &after, c.link);
    match target(&after) {
        Some(_) => before.table.iter().filter(moves).count(),
        None => 0,
    }
}

fn count_call_on_links(
    cells: &mut Cells,
    line: &Line,
    answer: &Answer,
    before: &Details,
    after: &Group,
    room: Option<usize>,
) {
    let call = word_of(line);
    let lent = lent_bytes(after.elements, room) as i64;
    let right = MESSAGE_BYTES as i64 * before.s;
    if let Answer::RefusedLink(number, buffer) = answer {
        if before.table != after.table || buffer.iter().any(|&byte| byte != OUT_FILL) {
            cells.fault(format!("a refused {call} changed a record or its buffer"));
        }
        if *number == 1 {
            let sizes = after.sizes_wrong();
            let would = would_move(line, before);
            let mut hit = |on: bool, name: &str| cells.hit_if(on, &format!("{call}: {name}"));
            hit(sizes, "refused 1, the sizes");
            let whole = call == "linksend" && before.table.iter().any(|c| c.open);
            hit(
                sizes && (would > 0 || whole),
                "refused 1, a slot would move were the sizes right",
            );
            hit(!sizes, "refused 1, the buffer alone");
            hit(
                !sizes && would == 0,
                "refused 1, the buffer alone, nothing would move",
            );
            hit(!sizes && lent == 0, "refused 1, a buffer of no bytes");
            hit(
                !sizes && lent == right - 1,
                "refused 1, the buffer one byte short",
            );
            let enough = lent >= MESSAGE_BYTES as i64 * would as i64;
            if !sizes && would > 0 && enough && call != "linksend" {
                hit(true, "refused 1, room for the messages but not for S");
            }
            if let Line::LinkMsg { bytes, .. } = line {
                let optional = bytes.len() == MESSAGE_BYTES && bytes[0] & 0xC0 == 0x80;
                hit(optional, "refused 1, an optional message");
            }
        }
        return;
    }
    let mut hit = |on: bool, name: &str| cells.hit_if(on, &format!("{call}: {name}"));
    hit(
        room.is_some() && lent == right,
        "a buffer of just 44 x S bytes",
    );
    hit(lent == right + 1, "a buffer one byte longer");
    hit(lent == 65_600, "a buffer of 65,600 bytes");
    count_moves(cells, line, answer, before, after);
}

fn count_moves(cells: &mut Cells, line: &Line, answer: &Answer, before: &Details, after: &Group) {
    let (reply, taken_up, buffer): (bool, Option<&TakenUp>, &[u8]) = match answer {
        Answer::Link(_, buffer) => (false, None, buffer),
        Answer::LinkMsg(heard, buffer) => (heard.reply.is_some(), heard.taken_up.as_ref(), buffer),
        Answer::LinkSent(sent, buffer) => (false, sent.taken_up.as_ref(), buffer),
        _ => return,
    };
    let way = match line {
        Line::Link { .. } => "by link change",
        Line::LinkMsg { .. } if before.exchange.stage == 5 && after.exchange.stage == 0 => {
            "by the reply to a DELETE LINK"
        }
        _ => "by a DELETE LINK taken by a client",
    };
    let lost = (1..=4).any(|link| gone(&before.links, &after.links, link));
    let aim = target(&after.links);
    let told = told_in(answer);
    let mut expected: Vec<Bytes44> = Vec::new();
    let (mut moved, mut silent, mut stayed) = (0, 0, 0);
    for (index, old) in before.table.iter().enumerate() {
        let new = &after.table[index];
        if !old.open || !coherent(old, before.n) || !gone(&before.links, &after.links, old.link) {
            stayed += 1;
            count_staying(cells, line, old, before, after);
        } else if let Some(aim) = aim {
            moved += 1;
            cells.moved.insert(index);
            cells.hit(&format!("failover: from link {}", old.link));
            cells.hit(&format!("failover: to link {aim}"));
            cells.hit_if(
                old.link < aim,
                "failover: the gone link was the lowest active",
            );
            cells.hit_if(
                old.link > aim,
                "failover: the gone link was above the target",
            );
            if tells(old) {
                let stays = stayed > 0;
                cells.hit_if(stays, "failover: one that tells after one that stays");
                let after_silent = silent > 0;
                cells.hit_if(
                    after_silent,
                    "failover: one that tells after one that is silent",
                );
                cells.hit_if(index == 254, "failover: slot 255 tells");
                expected.push(failover_message(old));
                count_telling(cells, old);
            } else {
                silent += 1;
                cells.hit("silent: A sent");
                cells.hit_if(old.closed_heard, "silent: A sent after C heard");
            }
            if *new != (Connection { link: aim, ..*old }) {
                cells.fault("a move changed more than a link, or another".to_string());
            }
            continue;
        } else {
            cells.hit(&match line {
                Line::LinkSend { .. } => "no target: the whole group sent".to_string(),
                Line::LinkMsg { bytes, .. } if bytes[3] & 0xC0 == 0x40 => {
                    "no target: the whole group heard".to_string()
                }
                _ => format!("no target: {way}"),
            });
        }
        if new != old {
            cells.fault("a slot that stays was changed".to_string());
        }
    }
    if told != expected {
        cells.fault("the messages told are not those of the slots that tell".to_string());
    }
    let behind = &buffer[MESSAGE_BYTES * told.len()..];
    if behind.iter().any(|&byte| byte != OUT_FILL) {
        cells.fault("bytes behind the messages changed".to_string());
    }
    cells.hit_if(
        lost && moved == 0,
        "failover: no slot moves though a link is gone",
    );
    if moved == 0 {
        return;
    }
    cells.hit(&format!("failover: {way}"));
    cells.hit(if moved == 1 {
        "failover: one slot moves"
    } else {
        "failover: several slots move"
    });
    cells.hit_if(before.s == 255, "failover: all 255 slots looked at");
    cells.hit_if(reply, "failover: a reply in the same answer");
    cells.hit_if(
        taken_up.is_some(),
        "failover: one taken up in the same call",
    );
    let active = after.links.iter().filter(|active| **active).count();
    cells.hit_if(active > 1, "failover: an active link above the target");
    cells.hit_if(
        !told.is_empty() && !behind.is_empty(),
        "failover: bytes behind the messages stay",
    );
    cells.hit_if(told.is_empty(), "failover: all slots that move are silent");
}

/// A slot that is not moved by a call on a link, and why.
fn count_staying(cells: &mut Cells, line: &Line, c: &Connection, before: &Details, after: &Group) {
    if !link_in_range(c.link) {
        let open = c.open && target(&after.links).is_some();
        return cells.hit_if(open, "stays: not coherent, link outside");
    }
    let place = usize::from(c.link) - 1;
    let (was, is) = (before.links[place], after.links[place]);
    let lost = was && !is && target(&after.links).is_some();
    if !c.open {
        return cells.hit_if(lost, "stays: closed, its link gone");
    }
    if !coherent(c, before.n) {
        return cells.hit_if(lost, "stays: not coherent, its link gone");
    }
    let any_lost = (1..=4).any(|link| gone(&before.links, &after.links, link));
    cells.hit_if(was && is && any_lost, "stays: on a link still active");
    let stranded = !was && !is;
    cells.hit_if(
        stranded && any_lost && target(&after.links).is_some(),
        "stays: stranded on a link down before",
    );
    if let Line::Link { link, up, .. } = line {
        let own = *link == c.link;
        let others = target(&after.links).is_some();
        cells.hit_if(
            stranded && own && !up && others,
            "stays: stranded on the link set down again",
        );
        cells.hit_if(
            stranded && !own && *up,
            "stays: stranded when another link comes up",
        );
        cells.hit_if(
            !was && is && own,
            "stays: stranded when its link comes up again",
        );
    }
}

fn count_telling(cells: &mut Cells, c: &Connection) {
    let next = c.next_sequence;
    cells.hit_if(next == 1, "tells: nothing sent yet, number 0");
    cells.hit_if(next == 0, "tells: next 0, number 65,535");
    cells.hit_if(next == 65_535, "tells: next 65,535");
    cells.hit_if(c.done_sent, "tells: D sent");
    cells.hit_if(c.closed_sent, "tells: C sent");
    cells.hit_if(c.done_heard, "tells: D heard");
    cells.hit_if(c.closed_heard, "tells: C heard");
    cells.hit_if(c.blocked, "tells: B on");
    cells.hit_if(c.urgent_sent.is_some(), "tells: P and U, our place stands");
    cells.hit_if(
        c.urgent_heard.is_some() && c.urgent_sent.is_none(),
        "tells: a place in our own element, no P and U",
    );
    cells.hit_if(c.update_requested, "tells: R heard, no R");
    cells.hit_if(c.told != c.consumer, "tells: T differs from C and stays");
}

fn count_heard(cells: &mut Cells, bytes: &[u8], answer: &Answer, before: &Details, after: &Group) {
    let Some(message) = Message::read(bytes) else {
        return;
    };
    let held = |c: &Connection| c.open && c.own_token == message.token;
    let index = before
        .table
        .iter()
        .take(before.s.max(0) as usize)
        .position(held);
    if !message.failover {
        let accepted = matches!(answer, Answer::Heard(_)) && !message.abort;
        let last = cells.last_failover;
        cells.hit_if(
            accepted && last == index && index.is_some_and(|at| !before.table[at].abort_sent),
            "hear: the next number after an accepted F",
        );
        cells.last_failover = None;
        return;
    }
    if let Some(number) = answer.refusal() {
        if [1, 5, 3, 6].contains(&number) {
            cells.hit(&format!("hear: F refused {number}"));
        } else {
            cells.fault(format!("an F message was refused with {number}"));
        }
        return;
    }
    let (Answer::Heard(heard), Some(index)) = (answer, index) else {
        return;
    };
    let (old, new) = (&before.table[index], &after.table[index]);
    let equal = message.sequence == old.heard_sequence;
    if message.abort {
        return cells.hit(if old.abort_sent {
            "hear: F with A, A sent before"
        } else {
            "hear: F with A, slot closed"
        });
    }
    if old.abort_sent {
        let again = cells.last_failover == Some(index);
        cells.hit_if(again, "hear: F again, after the abort");
        cells.hit(if equal {
            "hear: F after A sent, the last number"
        } else {
            "hear: F after A sent, another number"
        });
        if old != new || heard.message.is_some() {
            cells.fault("an F message after A sent did something".to_string());
        }
        return;
    }
    let again = cells.last_failover == Some(index);
    cells.hit_if(equal && again, "hear: F again, accepted again");
    cells.last_failover = Some(index);
    let last = old.heard_sequence;
    let (number, off) = (message.sequence, message.sequence.wrapping_sub(last));
    cells.hit_if(equal && last == 0, "hear: F, last heard 0 and number 0");
    cells.hit_if(
        last == 0 && number == 65_535,
        "hear: F, last heard 0 and number 65,535",
    );
    cells.hit_if(
        last == 65_535 && number == 0,
        "hear: F, last heard 65,535 and number 0",
    );
    cells.hit_if(off == 1, "hear: F, one more than the last");
    cells.hit_if(off == 65_535, "hear: F, one less than the last");
    cells.hit_if(
        !equal && number == last.swap_bytes(),
        "hear: F, the bytes of the last exchanged",
    );
    let fate = if equal { "accepted" } else { "aborted" };
    for (met, on) in MET.iter().zip(met(&message, old, before.n)) {
        cells.hit_if(on, &format!("hear: F {fate} {met}"));
    }
    if equal {
        cells.hit(&format!("hear: F accepted in {}", heard.state.name()));
        if old != new || heard.message.is_some() || heard.moved != 0 {
            cells.fault("an F message with the last number did something".to_string());
        }
    } else if !new.open || heard.message.is_none() || heard.state != State::PeerAbortWait {
        cells.fault("an F message with another number made no abort".to_string());
    }
}

/// Which of `MET` hold, in its order.
fn met(message: &Message, c: &Connection, n: i64) -> [bool; 17] {
    let none = Message {
        sequence: message.sequence,
        token: message.token,
        producer: message.producer,
        consumer: message.consumer,
        failover: true,
        ..Message::default()
    };
    let ahead = distance(c.peer_producer, message.producer, n);
    let size = c.n_peer();
    let left = |from: Cursor| distance(from, c.producer, size);
    let passes = |place: Cursor| left(message.consumer) <= left(place);
    [
        message.blocked,
        message.urgent_pending,
        message.urgent_present,
        message.update_requested,
        message.done,
        message.closed,
        *message == none,
        c.done_sent,
        c.closed_sent,
        c.done_heard,
        c.closed_heard,
        message.closed && c.closed_sent,
        message.urgent_present && ahead > 0 && ahead <= data_size(n),
        message.update_requested && c.told != c.consumer,
        cursor_rule_broken(c, message, n),
        c.urgent_sent.is_some_and(passes),
        c.urgent_heard.is_some(),
    ]
}

/// Calls of a connection that moved, and nothing was laid into its slot since.
fn count_after_a_move(cells: &mut Cells, line: &Line, answer: &Answer, before: &Details) {
    let slot = match line {
        Line::Send { slot, .. }
        | Line::Urgent { slot, .. }
        | Line::Gather { slot, .. }
        | Line::Place { slot, .. }
        | Line::Read { slot, .. } => *slot as usize,
        Line::Open { opening } => {
            cells.moved.remove(&(opening.slot as usize).wrapping_sub(1));
            return;
        }
        Line::Hear { bytes } => {
            let held = |message: Message| {
                let held = |c: &Connection| c.open && c.own_token == message.token;
                before.table.iter().position(held)
            };
            Message::read(bytes)
                .and_then(held)
                .map_or(0, |index| index + 1)
        }
        _ => return,
    };
    let moved = cells.moved.contains(&slot.wrapping_sub(1));
    let accepted = answer.refusal().is_none();
    cells.hit_if(
        moved && accepted,
        &format!("after a move: {}", word_of(line)),
    );
}
