//! Words for numbers: the refusals as document 01's list and the requests have
//! them, the kinds of link messages, and lists of numbers.

use crate::llc::*;
use crate::replay::Line;

/// What the list says of a refusal, for the call that was refused.
pub fn refusal_words(line: &Line, number: u8) -> &'static str {
    match (line, number) {
        // Setting up and the pool have numbers of their own.
        (Line::Setup { .. }, 1) => "our element size has no code",
        (Line::Setup { .. }, 2) => "bytes that are no message of A.2",
        (Line::Setup { .. }, 3) => "a message not due, Decline aside",
        (Line::Take { .. } | Line::Return { .. }, 3) => {
            "the books have blocks that overlap, leave the pool, have another size or start off a multiple of theirs"
        }
        (Line::Link { .. } | Line::LinkMsg { .. } | Line::LinkSend { .. }, 1) => {
            "S, N, the memory's or the table's length is wrong, or the buffer is under 44 x S bytes"
        }
        (_, 1) => "S, N, the memory's or the table's length is wrong",
        (Line::Open { .. }, 2) => "slot outside 1 to S",
        (_, 2) => "slot outside 1 to S, or closed",
        (_, 3) => "the open record is not coherent",
        (Line::Hear { .. }, 4) => "bytes are not 44, byte 0 is not FE or byte 1 is not 2C",
        (_, 4) => "bytes are not 44, byte 0 is unknown or FE, or byte 1 is not 2C",
        (_, 5) => "no open slot has the token, or it is 0",
        (Line::LinkMsg { .. } | Line::LinkSend { .. } | Line::Sample { .. } | Line::Open { .. }, 6) => {
            "the named link is down"
        }
        (_, 6) => "the connection's link is down",
        (Line::Send { .. } | Line::Urgent { .. } | Line::Gather { .. }, 7) => {
            "the state forbids: send after D, C or A sent or C heard"
        }
        (Line::Place { .. }, 7) => "the state forbids: place after A sent or D or C heard",
        (Line::Read { .. }, 7) => "the state forbids: read after C or A sent",
        (Line::Shutdown { .. }, 7) => "the state forbids: shutdown after D, C or A sent",
        (Line::Close { .. }, 7) => "the state forbids: close after C or A sent",
        (Line::Abort { .. }, 7) => "the state forbids: abort after A sent",
        (Line::Free { .. }, 7) => "the state forbids: free outside PeerAbortWait",
        (_, 7) => "the state forbids",
        (_, 8) => "a cursor rule of hear is broken",
        (_, 9) => "a placed byte is outside the data or not free",
        (_, 10) => "slot already open",
        (_, 11) => "own token held by another open slot",
        (_, 12) => {
            "a zero token, N' or the index out of range, or an element that passes the top of 64 bits"
        }
        (_, 13) => "link number outside 1 to 4",
        (_, 14) => "a carried link number acted on is outside 1 to 4",
        (Line::LinkMsg { .. }, 15) => "a fifth queued message",
        (_, 15) => "barred by the running exchange, or replying unasked",
        (_, 16) => "not the last number heard plus one",
        (_, 17) => "the sample is not 0 to 60,000 ms",
        (_, 18) => "not 1, 2, 4, 8, 16, 32 or 64 units",
        (_, 19) => "no block of that size is wholly free",
        (_, 20) => "not given out in that place and size",
        _ => "a number that is not in the list",
    }
}

/// A link message's name, by its first byte.
pub fn kind_name(kind: u8) -> &'static str {
    match kind {
        CONFIRM_LINK => "CONFIRM LINK",
        ADD_LINK => "ADD LINK",
        ADD_LINK_CONTINUATION => "ADD LINK CONTINUATION",
        DELETE_LINK => "DELETE LINK",
        CONFIRM_RKEY => "CONFIRM RKEY",
        TEST_LINK => "TEST LINK",
        CONFIRM_RKEY_CONTINUATION => "CONFIRM RKEY CONTINUATION",
        DELETE_RKEY => "DELETE RKEY",
        _ => "no link message",
    }
}

/// Rising numbers in words, runs of three and more by their ends: `1, 2 and 5 to 9`.
pub fn listed(numbers: &[usize]) -> String {
    let mut parts: Vec<String> = Vec::new();
    let mut rest = numbers;
    while let [first, ..] = rest {
        let run = (1..rest.len())
            .find(|&place| rest[place] != first + place)
            .unwrap_or(rest.len());
        if run >= 3 {
            parts.push(format!("{first} to {}", rest[run - 1]));
        } else {
            parts.extend(rest[..run].iter().map(usize::to_string));
        }
        rest = &rest[run..];
    }
    match parts.split_last() {
        None => "none".to_string(),
        Some((last, [])) => last.clone(),
        Some((last, before)) => format!("{} and {last}", before.join(", ")),
    }
}

/// A thing or several of it: `1 byte`, `2 bytes`.
pub fn counted(count: usize, thing: &str) -> String {
    match count {
        1 => format!("1 {thing}"),
        _ => format!("{count} {thing}s"),
    }
}
