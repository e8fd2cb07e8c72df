//! Sending a head and a body, 2026-08.

use model::random::Random;
use model::replay::answer_all;
use model::smcr::*;

/// One open slot whose peer's element has eight bytes, the second after base 100.
fn group(offset: u32, written: i64) -> Group {
    let mut group = Group::fresh(1, 16, 16, 1);
    group.link_change(3, true, &mut [0; 44 * 16]).unwrap();
    let opening = Opening {
        index: 2,
        keys: [1, 2, 77, 4],
        bases: [0, 0, 100, 0],
        ..Opening::at_base_0(1, 5, 6, 3, 8)
    };
    group.open(&opening).unwrap();
    group.table[0].peer_consumer = cursor(offset, 65_535);
    group.table[0].producer = step(cursor(offset, 65_535), written, 8);
    group
}

fn list(gathered: &Gathered) -> Vec<(u32, u64, &[u8])> {
    gathered
        .pieces
        .iter()
        .map(|piece| (piece.key, piece.address, &piece.bytes[..]))
        .collect()
}

#[test]
fn pieces() {
    // Q (6,65535): two bytes to the end, 108 + 6 = 114; then from 112 on.
    let mut at_6 = group(6, 0);
    let gathered = at_6.gather(1, &[1, 2, 3], &[4, 5, 6]).unwrap();
    assert_eq!(gathered.taken, 4);
    assert_eq!(
        list(&gathered),
        [
            (77, 114, &[1, 2][..]),
            (77, 112, &[3]),
            (77, 113, &[4]),
            (77, 114, &[]),
        ]
    );
    assert_eq!(at_6.table[0].producer, cursor(6, 0));
    assert!(at_6.table[0].blocked);
    // The end of the element between head and body; the empty one at the new Q.
    let mut at_6 = group(6, 0);
    let gathered = at_6.gather(1, &[1, 2], &[4]).unwrap();
    assert_eq!(
        list(&gathered),
        [(77, 114, &[1, 2][..]), (77, 112, &[4]), (77, 113, &[])]
    );
    // Nothing offered, no room, an urgent place: the empty one alone, at Q.
    for (written, urgent, head, body) in [
        (0, false, &[][..], &[][..]),
        (4, false, &[1][..], &[2][..]),
        (2, true, &[1][..], &[2][..]),
    ] {
        let mut group = group(7, written);
        let q = group.table[0].producer;
        if urgent {
            group.table[0].urgent_sent = Some(q);
        }
        let gathered = group.gather(1, head, body).unwrap();
        assert_eq!(gathered.taken, 0);
        assert_eq!(list(&gathered), [(77, 108 + u64::from(q.offset), &[][..])]);
    }
}

#[test]
fn equals_a_plain_send_of_the_joined_bytes() {
    let mut random = Random::new(8);
    for round in 0..3_000 {
        let mut first = group(random.between(4, 7) as u32, random.between(0, 4));
        if round % 4 == 0 {
            first.table[0].blocked = true;
        }
        if round % 7 == 0 {
            first.table[0].done_sent = true;
        }
        if round % 11 == 0 {
            first.table[0].index = 0;
        }
        let mut second = first.clone();
        let (heads, bodies) = (random.below(7) as usize, random.below(7) as usize);
        let (head, body) = (random.bytes(heads), random.bytes(bodies));
        let joined = [&head[..], &body[..]].concat();
        let slot = random.below(3) as u32;
        let gathered = first.gather(slot, &head, &body);
        let sent = second.send(slot, &joined);
        assert_eq!(first, second);
        let (gathered, sent) = match (gathered, sent) {
            (Ok(gathered), Ok(sent)) => (gathered, sent),
            (Err(one), Err(other)) => {
                assert_eq!(one, other);
                continue;
            }
            _ => panic!("one was refused"),
        };
        assert_eq!(gathered.taken, sent.taken);
        assert_eq!(gathered.message, sent.message);
        let bytes: Vec<&[u8]> = gathered
            .pieces
            .iter()
            .map(|piece| &piece.bytes[..])
            .collect();
        assert_eq!(bytes.concat(), joined[..sent.taken as usize]);
        assert!(gathered.pieces.len() <= 4);
        // The addresses run on as the placings do.
        let mut by_placing = Vec::new();
        for placing in &sent.placings {
            by_placing.extend((0..placing.length as u64).map(|at| placing.address + at));
        }
        let mut by_piece = Vec::new();
        for piece in &gathered.pieces {
            by_piece.extend((0..piece.bytes.len() as u64).map(|at| piece.address + at));
        }
        assert_eq!(by_piece, by_placing);
    }
}

#[test]
fn replay_lines() {
    let input = "link 1 1\nopen 1 1 2 1 8 1 9 50 0 0 0 0 0 0\ngather 1 0102 030405\ngather 1 - -\n\
                 gather 2 00 00\ngather 1 00\ngather 1 0 00\n";
    let answers = String::from_utf8(answer_all(input.as_bytes())).unwrap();
    let lines: Vec<&str> = answers.lines().collect();
    assert_eq!(
        lines[2..],
        [
            "gather 4 pieces 9,54,0102;9,56,0304;9,54,- message FE2C000100000002000000010000000400000\
             000000000048000000000000000000000000000000000000000",
            "gather 0 pieces 9,54,- message -",
            "refused 2",
            "bad line",
            "bad line",
        ]
    );
}
