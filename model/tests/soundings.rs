//! The soundings of document 01, the whole example message and the examples of
//! section 4.5.1. Every expected value is typed in from the documents.

use model::llc::{llc_class, LlcClass};
use model::smcr::*;

const N: i64 = 10_000;

/// A group with one open slot, link 1 active and the eye catcher in place.
fn group(n: u32, peer_size: u32) -> Group {
    let mut group = Group::fresh(1, n, n as usize, 1);
    group.link_change(1, true, &mut [0; 44 * 16]).unwrap();
    let opening = Opening::at_base_0(1, 5, 0x0102_0304, 1, peer_size);
    group.open(&opening).unwrap();
    group
}

fn fields(message: &[u8]) -> Message {
    Message::read(message).expect("a well-formed message")
}

#[test]
fn steps() {
    assert_eq!(step(cursor(4, 0), 1_000, N), cursor(1004, 0));
    assert_eq!(step(cursor(1004, 0), 9_996, N), cursor(1004, 1));
    assert_eq!(step(cursor(9999, 0), 1, N), cursor(4, 1));
    assert_eq!(step(cursor(9999, 65_535), 1, N), cursor(4, 0));
    assert_eq!(step(cursor(7, 0), 4, 8), cursor(7, 1));
}

#[test]
fn distances() {
    let from = cursor(1004, 0);
    assert_eq!(distance(from, cursor(1003, 1), N), 9_995);
    assert!(good(9_995, N));
    assert_eq!(distance(from, cursor(1005, 1), N), 9_997);
    assert!(!good(9_997, N));
    assert_eq!(distance(from, cursor(1003, 0), N), -1);
    assert!(!good(-1, N));
    assert_eq!(distance(cursor(4, 65_535), cursor(4, 0), N), 9_996);
    assert!(good(9_996, N));
}

#[test]
fn distances_heard() {
    for (producer, answer) in [
        (cursor(1003, 1), Ok(9_995)),
        (cursor(1005, 1), Err(8)),
        (cursor(1003, 0), Err(8)),
    ] {
        let mut group = group(10_000, 10_000);
        let at = cursor(1004, 0);
        group.table[0].peer_producer = at;
        group.table[0].consumer = at;
        group.table[0].told = at;
        let message = Message {
            sequence: 1,
            token: 5,
            producer,
            consumer: cursor(4, 0),
            ..Message::default()
        };
        let before = group.clone();
        let heard = group.hear(&message.write());
        assert_eq!(heard.map(|heard| heard.moved), answer);
        if answer.is_err() {
            assert_eq!(group, before);
        }
    }
}

#[test]
fn thousand_bytes_leave_room_for_8996() {
    let mut group = group(10_000, 10_000);
    let sent = group.send(1, &[7; 1_000]).unwrap();
    assert_eq!(sent.taken, 1_000);
    assert_eq!(group.table[0].producer, cursor(1004, 0));
    assert_eq!(group.table[0].room(), 8_996);
    assert_eq!(group.send(1, &[7; 9_000]).unwrap().taken, 8_996);
}

/// Key, address, start and length of each placing.
fn placings(sent: &Sent) -> Vec<(u32, u64, i64, i64)> {
    sent.placings
        .iter()
        .map(|placing| (placing.key, placing.address, placing.start, placing.length))
        .collect()
}

#[test]
fn whole_element_from_1004() {
    let mut group = group(10_000, 10_000);
    group.table[0].producer = cursor(1004, 0);
    group.table[0].peer_consumer = cursor(1004, 0);
    let sent = group.send(1, &[7; 9_996]).unwrap();
    assert_eq!(sent.taken, 9_996);
    assert_eq!(placings(&sent), [(0, 1004, 0, 8_996), (0, 4, 8_996, 1_000)]);
    assert_eq!(group.table[0].producer, cursor(1004, 1));
    assert_eq!(group.table[0].room(), 0);
}

#[test]
fn one_byte_at_the_end() {
    for (wrap, next) in [(0, cursor(4, 1)), (65_535, cursor(4, 0))] {
        let mut group = group(10_000, 10_000);
        group.table[0].producer = cursor(9999, wrap);
        group.table[0].peer_consumer = cursor(9999, wrap);
        let sent = group.send(1, &[7]).unwrap();
        assert_eq!(group.table[0].producer, next);
        assert_eq!(fields(&sent.message.unwrap()).producer, next);
    }
}

/// Reads `gain` bytes while the peer's window is `window`; whether a message is
/// made.
fn updates(n: u32, window: i64, gain: usize) -> bool {
    let mut group = group(n, n);
    let unread = i64::from(n) - 4 - window;
    group.table[0].peer_producer = step(cursor(4, 0), unread, i64::from(n));
    let mut out = vec![0xA5; gain];
    match group.read(1, &mut out).unwrap() {
        ReadAnswer::Read { taken, message } => {
            assert_eq!(taken, gain as i64);
            message.is_some()
        }
        ReadAnswer::Torn { .. } => panic!("the eye catcher is in place"),
    }
}

#[test]
fn window_updates() {
    assert!(!updates(10_000, 4_998, 1_000));
    assert!(updates(10_000, 4_997, 1_000));
    assert!(!updates(10_000, 4_997, 999));
}

#[test]
fn section_4_5_1_examples() {
    // a: the sender's window is 50K; b: 30K, the receiver's 31K; c: 30K and 64K.
    assert!(!updates(65_540, 51_200, 65_536 - 51_200));
    assert!(!updates(65_540, 30_720, 31_744 - 30_720));
    assert!(updates(65_540, 30_720, 65_536 - 30_720));
}

#[test]
fn six_bytes_into_an_element_of_eight() {
    let mut group = group(10_000, 8);
    group.table[0].producer = cursor(7, 0);
    group.table[0].peer_consumer = cursor(7, 0);
    assert_eq!(group.table[0].room(), 4);
    let sent = group.send(1, &[1, 2, 3, 4, 5, 6]).unwrap();
    assert_eq!(sent.taken, 4);
    assert_eq!(placings(&sent), [(0, 7, 0, 1), (0, 4, 1, 3)]);
    assert_eq!(group.table[0].producer, cursor(7, 1));
    assert!(group.table[0].blocked);
    assert!(fields(&sent.message.unwrap()).blocked);
}

#[test]
fn addresses_by_link() {
    // 2026-09: base + (index - 1) x N' + offset, key and base by the connection's link.
    for (link, index, base, key) in [
        (1, 1, 0, 0),
        (2, 3, 0x0001_0000_0000, 7),
        (3, 255, 4_096, u32::MAX),
        (4, 255, u64::MAX - 255 * 8 + 1, 0x0A0B_0C0D),
    ] {
        let mut group = group(10_000, 8);
        group.link_change(link, true, &mut [0; 44 * 16]).unwrap();
        group.table[0].link = link;
        group.table[0].index = index;
        group.table[0].keys = [1; 4];
        group.table[0].keys[usize::from(link) - 1] = key;
        group.table[0].bases[usize::from(link) - 1] = base;
        group.table[0].producer = cursor(7, 0);
        group.table[0].peer_consumer = cursor(7, 0);
        let sent = group.send(1, &[1, 2, 3, 4, 5, 6]).unwrap();
        let first = base + (u64::from(index) - 1) * 8 + 7;
        assert_eq!(
            placings(&sent),
            [(key, first, 0, 1), (key, first - 3, 1, 3)]
        );
        if link == 4 {
            assert_eq!(first, u64::MAX);
        }
    }
}

/// "The first message of scenario 1, peer token 01020304."
const WHOLE_EXAMPLE: [u8; 44] = [
    0xFE, 0x2C, 0x00, 0x01, 0x01, 0x02, 0x03, 0x04, 0x00, 0x00, 0x00, 0x00, 0x00, 0x00, 0x03, 0xEC,
    0x00, 0x00, 0x00, 0x00, 0x00, 0x00, 0x00, 0x04, 0x00, 0x00, 0, 0, 0, 0, 0, 0, 0, 0, 0, 0, 0, 0,
    0, 0, 0, 0, 0, 0,
];

#[test]
fn whole_example() {
    let mut group = group(10_000, 10_000);
    let sent = group.send(1, &[7; 1_000]).unwrap();
    assert_eq!(sent.message, Some(WHOLE_EXAMPLE));
    let message = fields(&WHOLE_EXAMPLE);
    assert_eq!(
        message,
        Message {
            sequence: 1,
            token: 0x0102_0304,
            producer: cursor(1004, 0),
            consumer: cursor(4, 0),
            ..Message::default()
        }
    );
    assert_eq!(message.write(), WHOLE_EXAMPLE);
}

#[test]
fn messages_read_back() {
    // Every field and every flag at its place, reserved bits zero.
    let mut bytes = [0u8; 44];
    bytes[..2].copy_from_slice(&[0xFE, 0x2C]);
    for (place, byte) in [
        2, 3, 4, 5, 6, 7, 10, 11, 12, 13, 14, 15, 18, 19, 20, 21, 22, 23,
    ]
    .into_iter()
    .zip(0x11..)
    {
        bytes[place] = byte;
    }
    for flags in 0..=0xFFu8 {
        bytes[24] = flags & 0xF8;
        bytes[25] = flags.rotate_left(5) & 0xE0;
        assert_eq!(fields(&bytes).write(), bytes);
    }
    let message = fields(&bytes);
    assert_eq!(message.sequence, 0x1112);
    assert_eq!(message.token, 0x1314_1516);
    assert_eq!(message.producer, cursor(0x191A_1B1C, 0x1718));
    assert_eq!(message.consumer, cursor(0x1F20_2122, 0x1D1E));
    bytes[24] = 0x80;
    bytes[25] = 0;
    assert!(fields(&bytes).blocked && !fields(&bytes).update_requested);
    bytes[24] = 0x10;
    assert!(fields(&bytes).update_requested && !fields(&bytes).blocked);
    for (byte, done, closed, abort) in [
        (0x80, true, false, false),
        (0x40, false, true, false),
        (0x20, false, false, true),
    ] {
        bytes[25] = byte;
        let message = fields(&bytes);
        assert_eq!(
            (message.done, message.closed, message.abort),
            (done, closed, abort)
        );
    }
}

#[test]
fn states() {
    use State::*;
    // D sent, C sent, D heard, C heard, ours first.
    for (marks, state) in [
        ([0, 0, 0, 0, 0], Active),
        ([1, 0, 0, 0, 1], PeerCloseWait1),
        ([0, 1, 0, 0, 1], PeerCloseWait1),
        ([1, 1, 0, 0, 1], PeerCloseWait1),
        ([0, 0, 1, 0, 0], AppCloseWait1),
        ([0, 0, 0, 1, 0], AppCloseWait1),
        ([0, 0, 1, 1, 0], AppCloseWait1),
        ([0, 1, 1, 0, 1], PeerCloseWait2),
        ([0, 1, 1, 0, 0], PeerCloseWait2),
        ([1, 0, 0, 1, 1], AppCloseWait2),
        ([1, 0, 0, 1, 0], AppCloseWait2),
        ([1, 0, 1, 0, 1], PeerCloseWait2),
        ([1, 0, 1, 0, 0], AppCloseWait2),
        ([0, 1, 0, 1, 0], Closed),
        ([1, 1, 1, 1, 1], Closed),
    ] {
        let [done_sent, closed_sent, done_heard, closed_heard, first] = marks.map(|mark| mark == 1);
        assert_eq!(
            state_of_marks(done_sent, closed_sent, done_heard, closed_heard, first),
            state,
            "{marks:?}"
        );
    }
}

#[test]
fn first_bytes_of_link_messages() {
    for first in 0..=255u8 {
        let class = match first {
            1 | 2 | 3 | 4 | 6 | 7 | 8 | 9 => LlcClass::Named,
            0xFE => LlcClass::Cdc,
            _ if first & 0b1100_0000 == 0b1000_0000 => LlcClass::Optional,
            _ => LlcClass::Unknown,
        };
        assert_eq!(llc_class(first), class, "{first:02X}");
    }
}
