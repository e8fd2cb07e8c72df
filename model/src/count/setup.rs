//! The cells of setting up a connection.

use super::cells::Cells;
use crate::clc::{Clc, NoMessage};
use crate::replay::{Answer, Line};
use crate::setup::{code_of_bytes, Due, SetUp, Settings};

const FURTHER: &[&str] = &[
    "settings: line",
    "setup: none due, bytes unread",
    "setup: Proposal without prefixes",
    "setup: Proposal with prefixes",
    "setup: Proposal, count above 8",
    "setup: first contact",
    "setup: QP number cut",
    "setup: MTU cut",
    "setup: PSN cut",
    "setup: our code 3 to 5",
    "setup: version above 1 heard",
    "setup: token 0 heard",
    "setup: index 0 heard",
    "setup: S heard",
    "clc: with a growth area",
    "clc: the longest Proposal",
    "clc: reserved bits lost",
    "clc: written as read",
    "clc: F in a Confirm is reserved",
];

pub(super) fn declare(cells: &mut Cells) {
    for reason in NoMessage::ALL {
        cells.can(format!("clc: none, {}", reason.name()));
    }
    for kind in ["Proposal", "Accept", "Confirm", "Decline"] {
        cells.can(format!("clc: {kind}"));
        for due in Due::ALL.into_iter().skip(1) {
            cells.can(format!("setup: {kind} while {} is due", due.name()));
        }
    }
    for kind in ["Accept", "Confirm"] {
        for code in 0..16 {
            cells.can(format!("setup: {kind} with code {code}"));
        }
    }
    for link in ["1", "2", "3", "4", "outside"] {
        cells.can(format!("setup: open, link {link}"));
    }
    for count in 0..=8 {
        cells.can(format!("clc: {count} prefixes"));
    }
    for name in FURTHER {
        cells.can(name.to_string());
    }
}

/// The refusals that hold, each judged on its own.
pub(super) fn holding(settings: &Settings, due: Due, bytes: &[u8]) -> Vec<u8> {
    let mut holds = Vec::new();
    if code_of_bytes(settings.size).is_none() {
        holds.push(1);
    }
    if due == Due::None {
        return holds;
    }
    match Clc::read(bytes) {
        Err(_) => holds.push(2),
        Ok(Clc::Decline(_)) => {}
        Ok(message) if message.name() != due.name() => holds.push(3),
        Ok(_) => {}
    }
    holds
}

pub(super) fn count(cells: &mut Cells, line: &Line, answer: &Answer, settings: &Settings) {
    match (line, answer) {
        (Line::Settings { .. }, _) => cells.hit("settings: line"),
        (Line::Clc { bytes }, Answer::Clc(read)) => count_clc(cells, bytes, read),
        (Line::Setup { due, bytes }, Answer::SetUp(set_up)) => {
            count_set_up(cells, *due, bytes, set_up, settings);
        }
        _ => {}
    }
    if let Line::Setup { due, bytes } = line {
        if let (true, Ok(message)) = (*due != Due::None, Clc::read(bytes)) {
            let name = format!("setup: {} while {} is due", message.name(), due.name());
            cells.hit(&name);
        }
    }
}

fn count_clc(cells: &mut Cells, bytes: &[u8], read: &Result<Clc, NoMessage>) {
    let message = match read {
        Ok(message) => message,
        Err(reason) => return cells.hit(&format!("clc: none, {}", reason.name())),
    };
    cells.hit(&format!("clc: {}", message.name()));
    let again = message.write().unwrap_or_default();
    if again.len() != bytes.len() {
        cells.fault("a message was written again with another length".to_string());
    }
    cells.hit_if(again == bytes, "clc: written as read");
    cells.hit_if(again != bytes, "clc: reserved bits lost");
    cells.hit_if(bytes.len() == 65_535, "clc: the longest Proposal");
    match message {
        Clc::Proposal(proposal) => {
            cells.hit(&format!("clc: {} prefixes", proposal.prefixes.len()));
            cells.hit_if(proposal.offset > 0, "clc: with a growth area");
        }
        Clc::Confirm(_) => {
            cells.hit_if(bytes[7] & 0x08 != 0, "clc: F in a Confirm is reserved");
        }
        _ => {}
    }
}

fn count_set_up(cells: &mut Cells, due: Due, bytes: &[u8], answer: &SetUp, settings: &Settings) {
    let sent = answer.message.as_deref().map(Clc::read);
    if let Some(Ok(Clc::Proposal(proposal))) = &sent {
        let none = proposal.prefixes.is_empty();
        cells.hit_if(none, "setup: Proposal without prefixes");
        cells.hit_if(!none, "setup: Proposal with prefixes");
        cells.hit_if(settings.count > 8, "setup: Proposal, count above 8");
    }
    if let Some(Err(_)) = &sent {
        cells.fault("set-up sent bytes that are no message".to_string());
    }
    if let Some(Ok(Clc::Accept { .. } | Clc::Confirm(_))) = &sent {
        cells.hit_if(settings.qp >> 24 != 0, "setup: QP number cut");
        cells.hit_if(settings.mtu > 15, "setup: MTU cut");
        cells.hit_if(settings.psn >> 24 != 0, "setup: PSN cut");
        let code = code_of_bytes(settings.size);
        cells.hit_if(code > Some(2), "setup: our code 3 to 5");
    }
    let accepted = matches!(&sent, Some(Ok(Clc::Accept { .. })));
    cells.hit_if(accepted && settings.first_contact, "setup: first contact");
    if due == Due::None {
        return cells.hit_if(!bytes.is_empty(), "setup: none due, bytes unread");
    }
    if let Some(open) = &answer.open {
        let link = match open.link {
            link @ 1..=4 => link.to_string(),
            _ => "outside".to_string(),
        };
        cells.hit(&format!("setup: open, link {link}"));
    }
    let heard = Clc::read(bytes);
    match &heard {
        Ok(Clc::Decline(decline)) => cells.hit_if(decline.out_of_sync, "setup: S heard"),
        Ok(message @ (Clc::Accept { ends, .. } | Clc::Confirm(ends))) => {
            cells.hit(&format!(
                "setup: {} with code {}",
                message.name(),
                ends.code
            ));
            cells.hit_if(ends.version > 1, "setup: version above 1 heard");
            cells.hit_if(ends.token == 0, "setup: token 0 heard");
            cells.hit_if(ends.index == 0, "setup: index 0 heard");
        }
        _ => {}
    }
}
