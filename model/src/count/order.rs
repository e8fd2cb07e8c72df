//! The order of refusals: which of them hold, and which one is given.

use super::cells::Cells;
use super::tables::ORDERS;
use super::{gauges, links};
use crate::replay::{lent_bytes, Line};
use crate::smcr::*;

/// The refusals whose condition holds, each judged on its own.
pub(super) fn holding(group: &Group, line: &Line) -> Vec<u8> {
    let mut holds = Vec::new();
    let mut hold = |on: bool, number: u8| {
        if on {
            holds.push(number);
        }
    };
    let n = group.n();
    let link_down = |link: u8| link_in_range(link) && group.link_down(link);
    match line {
        Line::Send { slot, .. }
        | Line::Urgent { slot, .. }
        | Line::Gather { slot, .. }
        | Line::Place { slot, .. }
        | Line::Read { slot, .. }
        | Line::Shutdown { slot }
        | Line::Close { slot }
        | Line::Abort { slot }
        | Line::Free { slot } => {
            hold(group.sizes_wrong(), 1);
            hold(group.slot_not_open(*slot), 2);
            if group.slot_not_open(*slot) {
                return holds;
            }
            let c = &group.table[*slot as usize - 1];
            hold(!coherent(c, n), 3);
            if !matches!(line, Line::Free { .. }) {
                hold(link_down(c.link), 6);
            }
            let forbidden = match line {
                Line::Send { .. } | Line::Urgent { .. } | Line::Gather { .. } => send_forbidden(c),
                Line::Place { .. } => place_forbidden(c),
                Line::Read { .. } => read_forbidden(c),
                Line::Shutdown { .. } => shutdown_forbidden(c),
                Line::Close { .. } => close_forbidden(c),
                Line::Abort { .. } => abort_forbidden(c),
                _ => free_forbidden(c),
            };
            hold(forbidden, 7);
            if let Line::Place { offset, bytes, .. } = line {
                let barred = size_in_range(n)
                    && placing_barred(c, i64::from(*offset), bytes.len() as i64, n);
                hold(barred, 9);
            }
        }
        Line::Hear { bytes } => {
            hold(group.sizes_wrong(), 1);
            hold(Message::read(bytes).is_none(), 4);
            let Some(token) = token_in(bytes) else {
                return holds;
            };
            hold(group.slot_with_token(token).is_none(), 5);
            let Some(c) = lowest_holder(&group.table, group.s(), token) else {
                return holds;
            };
            hold(!coherent(c, n), 3);
            hold(link_down(c.link), 6);
            if let Some(message) = read_leniently(bytes) {
                let looked_at = !message.abort && !c.abort_sent && !message.failover;
                hold(looked_at && not_next(c, &message), 16);
                hold(looked_at && cursor_rule_broken(c, &message, n), 8);
            }
        }
        Line::Open { opening } => {
            let slot = opening.slot;
            hold(group.sizes_wrong(), 1);
            hold(group.slot_outside(slot), 2);
            let open = !group.slot_outside(slot) && group.table[slot as usize - 1].open;
            hold(open, 10);
            hold(opening.barred(), 12);
            hold(!link_in_range(opening.link), 13);
            hold(link_down(opening.link), 6);
            hold(group.token_held_elsewhere(opening.own_token, slot), 11);
        }
        Line::Link { link, room, .. } => {
            hold(
                group.sizes_or_buffer_wrong(lent_bytes(group.elements, *room)),
                1,
            );
            hold(!link_in_range(*link), 13);
        }
        Line::Sample { link, milliseconds } => return gauges::holding(group, *link, *milliseconds),
        Line::LinkMsg { link, bytes, room } => {
            hold(
                group.sizes_or_buffer_wrong(lent_bytes(group.elements, *room)),
                1,
            );
            holds.extend(links::holding_heard(group, *link, bytes));
        }
        Line::LinkSend { link, fields, room } => {
            hold(
                group.sizes_or_buffer_wrong(lent_bytes(group.elements, *room)),
                1,
            );
            holds.extend(links::holding_sent(group, *link, fields));
        }
        _ => {}
    }
    holds
}

pub(super) fn token_in(bytes: &[u8]) -> Option<u32> {
    let token = bytes.get(4..8)?;
    Some(u32::from_be_bytes([token[0], token[1], token[2], token[3]]))
}

/// The lowest open slot that holds a token, 0 included.
pub(super) fn lowest_holder(table: &[Connection], s: i64, token: u32) -> Option<&Connection> {
    table
        .iter()
        .take(s as usize)
        .find(|c| c.open && c.own_token == token)
}

/// The fields of 44 bytes whatever stands in bytes 0 and 1.
fn read_leniently(bytes: &[u8]) -> Option<Message> {
    let mut copy = bytes.to_vec();
    if copy.len() != MESSAGE_BYTES {
        return None;
    }
    copy[0] = CDC_TYPE;
    copy[1] = LENGTH_BYTE;
    Message::read(&copy)
}

/// The refusal given is the first that holds, and none is given if none holds.
pub(super) fn count_order(cells: &mut Cells, word: &str, holding: &[u8], refusal: Option<u8>) {
    let order = ORDERS
        .iter()
        .find(|(call, _)| *call == word)
        .map_or(&[][..], |(_, order)| order);
    let expected = order
        .iter()
        .copied()
        .find(|number| holding.contains(number));
    if expected != refusal {
        cells.fault(format!(
            "{word} gave {refusal:?} where {expected:?} holds first"
        ));
    }
    if let Some(first) = refusal {
        cells.hit(&format!("{word}: refused {first}"));
        let at = order.iter().position(|&number| number == first);
        for second in order.iter().skip(at.map_or(0, |at| at + 1)) {
            if holding.contains(second) {
                cells.hit(&format!("{word}: {first} given while {second} holds"));
            }
        }
    }
}
