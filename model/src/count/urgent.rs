//! The cells of urgent data.

use super::cells::Cells;
use super::Details;
use crate::generate::message_of;
use crate::replay::{Answer, Line};
use crate::smcr::*;

const FURTHER: &[&str] = &[
    "urgent: nothing offered",
    "urgent: taken whole, Q is the place",
    "urgent: taken whole, all the room there is",
    "urgent: taken whole, B turned off",
    "urgent: taken whole, past the end",
    "urgent: cut short",
    "urgent: cut short, n 0, B not told before",
    "urgent: cut short, n 0, B told before",
    "urgent: while the place stands",
    "send: while the place stands",
    "send: while the place stands, B on",
    "send: nothing offered while the place stands",
    "message: P and U by a send",
    "message: P and U by read",
    "message: P and U by hear",
    "message: P and U by shutdown",
    "message: P and U by close",
    "message: P and U by abort",
    "message: P and no U",
    "hear: R one before our place",
    "hear: R reaches our place",
    "hear: R passes our place",
    "hear: our place cleared and a message made",
    "hear: U moves P",
    "hear: U moves P, T equals C",
    "hear: U moves P, R asks too",
    "hear: U moves P while a place stands",
    "hear: U moves P, then closed",
    "hear: U without a move",
    "hear: P flag and no U",
    "hear: P moves without U while a place stands",
    "read: one before the place",
    "read: reaches the place",
    "read: passes the place",
    "read: reaches the place, something else asks too",
    "read: torn while a place stands",
    "slot closed with a place",
];

pub(super) fn declare(cells: &mut Cells) {
    for name in FURTHER {
        cells.can(name.to_string());
    }
}

pub(super) fn count(
    cells: &mut Cells,
    line: &Line,
    answer: &Answer,
    before: &Details,
    after: &Group,
) {
    if let Some(message) = message_of(answer).and_then(|bytes| Message::read(&bytes)) {
        count_flags(cells, line, &message);
    }
    match (line, answer) {
        (Line::Urgent { slot, bytes }, Answer::Urgent(sent)) => {
            let index = *slot as usize - 1;
            let (old, new) = (&before.table[index], &after.table[index]);
            count_urgent(cells, bytes.len() as i64, sent, old, new);
        }
        (Line::Send { slot, bytes }, Answer::Sent(sent)) => {
            let index = *slot as usize - 1;
            let (old, new) = (&before.table[index], &after.table[index]);
            if old.urgent_sent.is_some() {
                cells.hit("send: while the place stands");
                cells.hit_if(old.blocked, "send: while the place stands, B on");
                let none = "send: nothing offered while the place stands";
                cells.hit_if(bytes.is_empty(), none);
                still(cells, sent, old, new);
            }
        }
        (Line::Hear { bytes }, Answer::Heard(heard)) => {
            let Some(message) = Message::read(bytes) else {
                return;
            };
            let held = |c: &Connection| c.open && c.own_token == message.token;
            let Some(index) = before.table.iter().position(held) else {
                return;
            };
            let (old, new) = (&before.table[index], &after.table[index]);
            count_heard(cells, &message, heard, old, new, before.n);
        }
        (Line::Read { slot, .. }, Answer::Read(read, _)) => {
            let index = *slot as usize - 1;
            let (old, new) = (&before.table[index], &after.table[index]);
            count_read(cells, read, old, new, before.n);
        }
        _ => {}
    }
}

fn count_flags(cells: &mut Cells, line: &Line, message: &Message) {
    match (message.urgent_pending, message.urgent_present) {
        (true, true) => {
            let who = match line {
                Line::Send { .. } | Line::Urgent { .. } | Line::Gather { .. } => "a send",
                Line::Read { .. } => "read",
                Line::Hear { .. } => "hear",
                Line::Shutdown { .. } => "shutdown",
                Line::Close { .. } => "close",
                _ => "abort",
            };
            cells.hit(&format!("message: P and U by {who}"));
        }
        (true, false) => cells.hit("message: P and no U"),
        (false, true) => cells.fault("a message has U without P".to_string()),
        (false, false) => {}
    }
}

/// Nothing was taken, nothing said, and nothing changed.
fn still(cells: &mut Cells, sent: &Sent, old: &Connection, new: &Connection) {
    if sent.taken != 0 || sent.message.is_some() || old != new {
        cells.fault("a send went on while its urgent place stands".to_string());
    }
}

fn count_urgent(cells: &mut Cells, length: i64, sent: &Sent, old: &Connection, new: &Connection) {
    if old.urgent_sent.is_some() {
        cells.hit("urgent: while the place stands");
        return still(cells, sent, old, new);
    }
    if length == 0 {
        cells.hit("urgent: nothing offered");
        return still(cells, sent, old, new);
    }
    if sent.taken == length {
        cells.hit("urgent: taken whole, Q is the place");
        let all = sent.taken == old.room();
        cells.hit_if(all, "urgent: taken whole, all the room there is");
        cells.hit_if(old.blocked, "urgent: taken whole, B turned off");
        let past = old.producer.wrap != new.producer.wrap;
        cells.hit_if(past, "urgent: taken whole, past the end");
        if new.urgent_sent != Some(new.producer) {
            cells.fault("an urgent send taken whole left no place".to_string());
        }
    } else {
        cells.hit("urgent: cut short");
        let none = sent.taken == 0;
        cells.hit_if(
            none && !old.blocked,
            "urgent: cut short, n 0, B not told before",
        );
        cells.hit_if(none && old.blocked, "urgent: cut short, n 0, B told before");
        if sent.message.is_none() || new.urgent_sent.is_some() {
            cells.fault("an urgent send cut short made no message, or a place".to_string());
        }
    }
}

fn count_heard(
    cells: &mut Cells,
    message: &Message,
    heard: &Heard,
    old: &Connection,
    new: &Connection,
    n: i64,
) {
    let places = old.urgent_sent.is_some() || old.urgent_heard.is_some();
    cells.hit_if(places && !new.open, "slot closed with a place");
    if message.abort || old.abort_sent || message.failover {
        return;
    }
    if let Some(place) = old.urgent_sent {
        let size = old.n_peer();
        let beyond =
            distance(place, old.producer, size) - distance(message.consumer, old.producer, size);
        cells.hit_if(beyond == -1, "hear: R one before our place");
        cells.hit_if(beyond == 0, "hear: R reaches our place");
        cells.hit_if(beyond > 0, "hear: R passes our place");
        cells.hit_if(
            beyond >= 0 && heard.message.is_some(),
            "hear: our place cleared and a message made",
        );
        if new.open && new.urgent_sent.is_some() != (beyond < 0) {
            cells.fault("our urgent place was kept or cleared wrongly".to_string());
        }
    }
    let moves = distance(old.peer_producer, message.producer, n) > 0;
    if message.urgent_present && moves {
        cells.hit("hear: U moves P");
        cells.hit_if(old.told == old.consumer, "hear: U moves P, T equals C");
        cells.hit_if(message.update_requested, "hear: U moves P, R asks too");
        cells.hit_if(
            old.urgent_heard.is_some(),
            "hear: U moves P while a place stands",
        );
        cells.hit_if(!new.open, "hear: U moves P, then closed");
        if heard.message.is_none() {
            cells.fault("U was heard and no message made".to_string());
        }
    }
    cells.hit_if(message.urgent_present && !moves, "hear: U without a move");
    cells.hit_if(
        message.urgent_pending && !message.urgent_present,
        "hear: P flag and no U",
    );
    cells.hit_if(
        !message.urgent_present && moves && old.urgent_heard.is_some(),
        "hear: P moves without U while a place stands",
    );
}

fn count_read(cells: &mut Cells, read: &ReadAnswer, old: &Connection, new: &Connection, n: i64) {
    let Some(place) = old.urgent_heard else {
        return;
    };
    let (taken, message) = match read {
        ReadAnswer::Read { taken, message } => (*taken, message.is_some()),
        ReadAnswer::Torn { .. } => return cells.hit("read: torn while a place stands"),
    };
    let to = distance(old.consumer, place, n);
    cells.hit_if(taken + 1 == to && taken > 0, "read: one before the place");
    cells.hit_if(taken == to, "read: reaches the place");
    cells.hit_if(taken > to, "read: passes the place");
    let asks = old.peer_blocked || old.update_requested;
    cells.hit_if(
        taken >= to && asks,
        "read: reaches the place, something else asks too",
    );
    if new.urgent_heard.is_some() != (taken < to) || (taken >= to && !message) {
        cells.fault("a read kept its urgent place, or made no message at it".to_string());
    }
}
