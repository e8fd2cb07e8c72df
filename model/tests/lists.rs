//! The lists themselves: the same seed gives the same list, the stored traces
//! reach every cell, connections move in every kind, the two orders of a pair
//! answer alike, and what is read is what was sent.

use std::collections::VecDeque;

use model::generate::{exhaust, hostile, orders, told_in, traffic};
use model::random::Random;
use model::replay::{answer_all, lines, Answer, Line, Replay};
use model::smcr::*;
use model::{count, traces};

#[test]
fn lists_repeat() {
    assert_eq!(traffic::list(6, 500), traffic::list(6, 500));
    assert_ne!(traffic::list(6, 500), traffic::list(7, 500));
    assert_eq!(hostile::list(2, None), hostile::list(2, None));
    assert_eq!(exhaust::list(1), exhaust::list(1));
    assert_eq!(orders::pair(4, 300).second, orders::pair(4, 300).second);
}

#[test]
fn stored_traces_reach_every_cell() {
    let input = traces::input();
    let output = answer_all(&input);
    assert!(input.len() < 3_000_000, "{}", input.len());
    assert!(output.len() < 6_000_000, "{}", output.len());
    let missing = count::count(&input).missing();
    assert!(missing.is_empty(), "{missing:?}");
}

/// Every kind of list has connections that move and F messages that are accepted,
/// and all but the orders' have some that abort.
#[test]
fn connections_move_in_every_kind() {
    let traffic = |seed| traffic::list(seed, traffic::COUNT);
    for (name, list) in [
        ("traffic 1", traffic(1)),
        ("traffic 2", traffic(2)),
        ("traffic 7", traffic(7)),
        ("hostile 1", hostile::list(1, None)),
        ("hostile 2", hostile::list(2, None)),
        ("exhaust 1", exhaust::list(1)),
        ("orders 1", orders::pair(1, orders::COUNT).first),
        ("orders 2", orders::pair(2, orders::COUNT).first),
    ] {
        let (mut told, mut accepted, mut aborted) = (0, 0, 0);
        let mut replay = Replay::new();
        for line in lines(&list) {
            let Ok(call) = replay.parse(line) else {
                continue;
            };
            let answer = replay.execute(&call);
            told += told_in(&answer).len();
            let (Line::Hear { bytes }, Answer::Heard(heard)) = (&call, &answer) else {
                continue;
            };
            let failover = Message::read(bytes).is_some_and(|message| message.failover);
            let quiet = heard.message.is_none() && heard.state != State::PeerAbortWait;
            accepted += usize::from(failover && quiet);
            aborted += usize::from(failover && heard.message.is_some());
        }
        assert!(told > 10 && accepted > 5, "{name}: {told} {accepted}");
        assert!(aborted > 0 || name.starts_with("orders"), "{name}");
    }
}

#[test]
fn two_orders_answer_alike() {
    for seed in 1..=40 {
        let pair = orders::pair(seed, 400);
        let (first, second) = (answer_all(&pair.first), answer_all(&pair.second));
        let (first, second) = (lines(&first), lines(&second));
        let calls = lines(&pair.first);
        let moving = calls.iter().position(|line| line == b"table").unwrap();
        assert_eq!(calls.len(), pair.permutation.len());
        for call in 0..moving {
            assert_eq!(
                first[call], second[pair.permutation[call]],
                "seed {seed}, call {call}"
            );
        }
        assert_eq!(first[moving..], second[moving..]);
        assert_ne!(pair.first, pair.second);
    }
}

/// Bytes on their way to the other end, then the message that announces them.
enum Flight {
    Write(u32, Vec<u8>),
    Message(Bytes44),
}

/// What the card writes: offsets and bytes.
type Writes = Vec<(u32, Vec<u8>)>;

/// How many bytes a send took, what it writes where, and its message.
fn parts(sent: Sent, bytes: &[u8]) -> (i64, Writes, Option<Bytes44>) {
    let part = |placing: &Placing| {
        let start = placing.start as usize;
        let end = start + placing.length as usize;
        (placing.address as u32, bytes[start..end].to_vec())
    };
    let writes = sent.placings.iter().map(part).collect();
    (sent.taken, writes, sent.message)
}

#[test]
fn what_is_read_is_what_was_sent() {
    for seed in 0..30 {
        let mut random = Random::new(seed);
        let size = random.between(8, 30) as u32;
        let mut group = Group::fresh(2, size, 2 * size as usize, 2);
        group.link_change(1, true, &mut [0; 44 * 16]).unwrap();
        group.open(&Opening::at_base_0(1, 1, 2, 1, size)).unwrap();
        group.open(&Opening::at_base_0(2, 2, 1, 1, size)).unwrap();
        let mut flights = [VecDeque::new(), VecDeque::new()];
        let mut sent = [Vec::new(), Vec::new()];
        let mut read = [Vec::new(), Vec::new()];
        for _ in 0..3_000 {
            let side = random.below(2) as usize;
            let (slot, other) = (side as u32 + 1, 1 - side);
            match random.below(3) {
                0 => {
                    let length = random.between(0, i64::from(size)) as usize;
                    let bytes = random.bytes(length);
                    let (taken, writes, message) = match random.below(4) {
                        0 => parts(group.urgent(slot, &bytes).unwrap(), &bytes),
                        1 => {
                            let at = random.below(length as u64 + 1) as usize;
                            let (head, body) = bytes.split_at(at);
                            let gathered = group.gather(slot, head, body).unwrap();
                            let pieces = gathered.pieces.into_iter();
                            let writes = pieces.map(|piece| (piece.address as u32, piece.bytes));
                            (gathered.taken, writes.collect(), gathered.message)
                        }
                        _ => parts(group.send(slot, &bytes).unwrap(), &bytes),
                    };
                    sent[side].extend_from_slice(&bytes[..taken as usize]);
                    for (offset, part) in writes {
                        flights[other].push_back(Flight::Write(offset, part));
                    }
                    flights[other].extend(message.map(Flight::Message));
                }
                1 => match flights[side].pop_front() {
                    Some(Flight::Write(offset, bytes)) => {
                        group.place(slot, offset, &bytes).unwrap();
                    }
                    Some(Flight::Message(message)) => {
                        let heard = group.hear(&message).unwrap();
                        flights[other].extend(heard.message.map(Flight::Message));
                    }
                    None => {}
                },
                _ => {
                    let mut out = vec![0; random.between(0, i64::from(size)) as usize];
                    let ReadAnswer::Read { taken, message } = group.read(slot, &mut out).unwrap()
                    else {
                        panic!("torn");
                    };
                    read[other].extend_from_slice(&out[..taken as usize]);
                    flights[other].extend(message.map(Flight::Message));
                }
            }
        }
        for side in 0..2 {
            assert!(read[side].len() > 100, "seed {seed}");
            assert_eq!(read[side][..], sent[side][..read[side].len()]);
        }
    }
}
