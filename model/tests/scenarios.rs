//! Scenarios 1 to 6 of section 4.7, host A as slot 1 and host B as slot 2 of one
//! group. The expected cursors are those of the figures; where the text and the
//! figure differ, NOTES.md says which holds.

use model::smcr::*;

const TOKEN_A: u32 = 0x0A0A_0A0A;
const TOKEN_B: u32 = 0x0102_0304;

/// Two hosts with elements of 10,000 bytes.
fn hosts() -> Group {
    let mut group = Group::fresh(2, 10_000, 20_000, 2);
    group.link_change(1, true, &mut [0; 44 * 16]).unwrap();
    for (slot, own, peer) in [(1, TOKEN_A, TOKEN_B), (2, TOKEN_B, TOKEN_A)] {
        let opening = Opening::at_base_0(slot, own, peer, 1, 10_000);
        group.open(&opening).unwrap();
    }
    group
}

/// The placings of a send performed at the other host; the message comes back.
fn write(group: &mut Group, from: u32, to: u32, bytes: &[u8]) -> (Sent, Message) {
    let sent = group.send(from, bytes).unwrap();
    for placing in &sent.placings {
        let start = placing.start as usize;
        let part = &bytes[start..start + placing.length as usize];
        group.place(to, placing.address as u32, part).unwrap();
    }
    let message = Message::read(&sent.message.expect("a message")).unwrap();
    (sent, message)
}

/// First and last offset of each placing: at base 0 they are addresses.
fn ranges(sent: &Sent) -> Vec<(i64, i64)> {
    sent.placings
        .iter()
        .map(|placing| (placing.address as i64, placing.length))
        .map(|(first, length)| (first, first + length - 1))
        .collect()
}

/// Reads up to 10,000 bytes, as host B's recv does.
fn receive(group: &mut Group, slot: u32) -> (Vec<u8>, Option<Message>) {
    let mut out = vec![0xA5; 10_000];
    match group.read(slot, &mut out).unwrap() {
        ReadAnswer::Read { taken, message } => {
            assert!(out[taken as usize..].iter().all(|&byte| byte == 0xA5));
            out.truncate(taken as usize);
            (out, message.map(|bytes| Message::read(&bytes).unwrap()))
        }
        ReadAnswer::Torn { .. } => panic!("torn"),
    }
}

fn pattern(length: usize, start: u8) -> Vec<u8> {
    (0..length).map(|at| (at % 251) as u8 ^ start).collect()
}

#[test]
fn scenario_1() {
    let mut group = hosts();
    let bytes = pattern(1_000, 1);
    let (sent, message) = write(&mut group, 1, 2, &bytes);
    assert_eq!(ranges(&sent), [(4, 1003)]);
    assert_eq!(message.producer, cursor(1004, 0));
    assert_eq!(message.consumer, cursor(4, 0));
    assert!(!message.blocked);
    let heard = group.hear(&message.write()).unwrap();
    assert_eq!(
        (heard.moved, heard.state, heard.message),
        (1_000, State::Active, None)
    );
    assert_eq!(group.table[1].peer_producer, cursor(1004, 0));
    let (received, update) = receive(&mut group, 2);
    assert_eq!(received, bytes);
    assert_eq!(update, None);
    assert_eq!(group.table[1].peer_window(10_000), 8_996);
    // Host A has not been told.
    assert_eq!(group.table[0].peer_consumer, cursor(4, 0));
}

#[test]
fn scenario_2() {
    let mut group = hosts();
    let (_, message) = write(&mut group, 1, 2, &pattern(1_000, 1));
    group.hear(&message.write()).unwrap();
    let (_, update) = receive(&mut group, 2);
    assert_eq!(update, None);
    let answer = pattern(500, 9);
    let (sent, message) = write(&mut group, 2, 1, &answer);
    assert_eq!(ranges(&sent), [(4, 503)]);
    // The text says 503; the next byte to be written is 504.
    assert_eq!(message.producer, cursor(504, 0));
    assert_eq!(message.consumer, cursor(1004, 0));
    assert_eq!(group.table[1].told, cursor(1004, 0));
    let heard = group.hear(&message.write()).unwrap();
    assert_eq!(heard.moved, 500);
    assert_eq!(group.table[0].peer_consumer, cursor(1004, 0));
    assert_eq!(group.table[0].room(), 9_996);
    assert_eq!(receive(&mut group, 1).0, answer);
}

#[test]
fn scenario_3() {
    let mut group = hosts();
    let (sent, message) = write(&mut group, 1, 2, &pattern(3_000, 1));
    assert_eq!(ranges(&sent), [(4, 3003)]);
    assert_eq!(message.producer, cursor(3004, 0));
    group.hear(&message.write()).unwrap();
    let (_, update) = receive(&mut group, 2);
    assert_eq!(update, None);
    let (sent, message) = write(&mut group, 1, 2, &pattern(4_000, 2));
    assert_eq!(ranges(&sent), [(3004, 7003)]);
    assert_eq!(message.producer, cursor(7004, 0));
    group.hear(&message.write()).unwrap();
    let (received, update) = receive(&mut group, 2);
    assert_eq!(received, pattern(4_000, 2));
    let update = update.expect("the window is constrained");
    assert_eq!(update.consumer, cursor(7004, 0));
    assert_eq!(update.sequence, 1);
    group.hear(&update.write()).unwrap();
    assert_eq!(group.table[0].peer_consumer, cursor(7004, 0));
}

#[test]
fn scenario_4() {
    let mut group = hosts();
    let start = cursor(1004, 1);
    group.table[0].producer = start;
    group.table[0].peer_consumer = start;
    group.table[1].peer_producer = start;
    group.table[1].consumer = start;
    group.table[1].told = start;
    let bytes = pattern(20_000, 3);

    // Times 1 to 3.
    let (sent, message) = write(&mut group, 1, 2, &bytes);
    assert_eq!(sent.taken, 9_996);
    assert_eq!(ranges(&sent), [(1004, 9999), (4, 1003)]);
    assert_eq!(message.producer, cursor(1004, 2));
    assert!(message.blocked);
    let heard = group.hear(&message.write()).unwrap();
    assert_eq!(heard.moved, 9_996);

    // Time 4: blocked, so host B tells its consumer.
    let (received, update) = receive(&mut group, 2);
    assert_eq!(received, bytes[..9_996]);
    let update = update.expect("the writer is blocked");
    assert_eq!(update.consumer, cursor(1004, 2));
    group.hear(&update.write()).unwrap();
    assert_eq!(group.table[0].peer_consumer, cursor(1004, 2));

    // Times 5 to 7: 1004 to 9999, not 1003, then 4 to 1003; eight bytes remain.
    let (sent, message) = write(&mut group, 1, 2, &bytes[9_996..]);
    assert_eq!(sent.taken, 9_996);
    assert_eq!(ranges(&sent), [(1004, 9999), (4, 1003)]);
    assert_eq!(message.producer, cursor(1004, 3));
    assert!(message.blocked);
    group.hear(&message.write()).unwrap();

    // Time 8.
    let (received, update) = receive(&mut group, 2);
    assert_eq!(received, bytes[9_996..19_992]);
    let update = update.expect("the writer is still blocked");
    assert_eq!(update.consumer, cursor(1004, 3));
    group.hear(&update.write()).unwrap();

    // The final eight bytes, 1004 to 1011.
    let (sent, message) = write(&mut group, 1, 2, &bytes[19_992..]);
    assert_eq!(ranges(&sent), [(1004, 1011)]);
    assert!(!message.blocked);
    group.hear(&message.write()).unwrap();
    let (received, update) = receive(&mut group, 2);
    assert_eq!(received, bytes[19_992..]);
    assert_eq!(update, None);
}

/// Host A writes from a place on, and host B has read up to another.
fn from_a_to_b(written: Cursor, read: Cursor) -> Group {
    let mut group = hosts();
    group.table[0].producer = written;
    group.table[0].peer_consumer = read;
    group.table[1].peer_producer = written;
    group.table[1].consumer = read;
    group.table[1].told = read;
    group
}

/// An urgent send performed at the other host.
fn write_urgent(group: &mut Group, from: u32, to: u32, bytes: &[u8]) -> (Sent, Bytes44) {
    let sent = group.urgent(from, bytes).unwrap();
    for placing in &sent.placings {
        let start = placing.start as usize;
        let part = &bytes[start..start + placing.length as usize];
        group.place(to, placing.address as u32, part).unwrap();
    }
    let message = sent.message.expect("a message");
    (sent, message)
}

/// A message in hex without the eighteen zeros at its end.
fn hex(message: &[u8]) -> String {
    assert!(message[26..].iter().all(|&byte| byte == 0));
    message[..26]
        .iter()
        .map(|byte| format!("{byte:02X}"))
        .collect()
}

const NOTHING: Sent = Sent {
    taken: 0,
    placings: Vec::new(),
    message: None,
};

#[test]
fn scenario_5() {
    // Figure 20; its cursors run from 1000 as they stand there.
    let mut group = from_a_to_b(cursor(1000, 1), cursor(1000, 1));
    let urgent = pattern(500, 1);
    let normal = pattern(1_000, 2);
    // Times 1 and 2.
    let (sent, message) = write_urgent(&mut group, 1, 2, &urgent);
    assert_eq!(ranges(&sent), [(1000, 1499)]);
    assert_eq!(
        hex(&message),
        "FE2C000101020304000000010000 05DC 0000 0000 00000004 6000".replace(' ', "")
    );
    assert_eq!(group.table[0].urgent_sent, Some(cursor(1500, 1)));
    // A cannot send until B has consumed the urgent data.
    let before = group.clone();
    assert_eq!(group.send(1, &normal), Ok(NOTHING));
    assert_eq!(group.urgent(1, &normal), Ok(NOTHING));
    assert_eq!(group, before);
    // B hears it: one message then, and one on the read (time 3).
    let heard = group.hear(&message).unwrap();
    assert_eq!(heard.moved, 500);
    assert_eq!(
        hex(&heard.message.unwrap()),
        "FE2C00010A0A0A0A000000000000 0004 0000 0001 000003E8 0000".replace(' ', "")
    );
    assert_eq!(group.table[1].urgent_heard, Some(cursor(1500, 1)));
    assert_eq!(group.hear(&heard.message.unwrap()).unwrap().moved, 0);
    assert_eq!(group.send(1, &normal), Ok(NOTHING));
    let (received, update) = receive(&mut group, 2);
    assert_eq!(received, urgent);
    let update = update.expect("whatever the window").write();
    assert_eq!(
        hex(&update),
        "FE2C00020A0A0A0A000000000000 0004 0000 0001 000005DC 0000".replace(' ', "")
    );
    assert_eq!(group.table[1].urgent_heard, None);
    // Time 4: A resumes.
    group.hear(&update).unwrap();
    assert_eq!(group.table[0].urgent_sent, None);
    let (sent, message) = write(&mut group, 1, 2, &normal);
    assert_eq!(ranges(&sent), [(1500, 2499)]);
    assert_eq!(message.producer, cursor(2500, 1));
    assert!(!message.urgent_pending && !message.urgent_present);
    // Time 5: no update is needed.
    assert_eq!(group.hear(&message.write()).unwrap().message, None);
    let (received, update) = receive(&mut group, 2);
    assert_eq!((received, update), (normal, None));
}

#[test]
fn scenario_6() {
    // Figure 21: the window closed, the writer blocked.
    let mut group = from_a_to_b(cursor(1000, 2), cursor(1000, 1));
    group.table[0].blocked = true;
    group.table[1].peer_blocked = true;
    let urgent = pattern(500, 1);
    // Time 1: nothing can be written, but the peer learns that urgent data is pending.
    let (sent, message) = write_urgent(&mut group, 1, 2, &urgent);
    assert_eq!((sent.taken, sent.placings), (0, Vec::new()));
    assert_eq!(
        hex(&message),
        "FE2C000101020304000000020000 03E8 0000 0000 00000004 C000".replace(' ', "")
    );
    assert_eq!(group.table[0].urgent_sent, None);
    assert_eq!(group.hear(&message).unwrap().message, None);
    assert_eq!(group.table[1].urgent_heard, None);
    // Once more: it always makes its message.
    let (_, again) = write_urgent(&mut group, 1, 2, &urgent);
    assert_eq!(hex(&again)[4..8], *"0002");
    group.hear(&again).unwrap();
    // Time 2: a full window is consumed.
    let (received, update) = receive(&mut group, 2);
    assert_eq!(received.len(), 9_996);
    let update = update.expect("the writer is blocked");
    assert_eq!(update.consumer, cursor(1000, 2));
    group.hear(&update.write()).unwrap();
    // Times 3 and 4.
    let (sent, message) = write_urgent(&mut group, 1, 2, &urgent);
    assert_eq!(ranges(&sent), [(1000, 1499)]);
    assert_eq!(
        hex(&message),
        "FE2C000301020304000000020000 05DC 0000 0000 00000004 6000".replace(' ', "")
    );
    let heard = group
        .hear(&message)
        .unwrap()
        .message
        .expect("one message then");
    group.hear(&heard).unwrap();
    // Times 5 to 7.
    let (received, update) = receive(&mut group, 2);
    assert_eq!(received, urgent);
    group.hear(&update.unwrap().write()).unwrap();
    let (sent, message) = write(&mut group, 1, 2, &pattern(1_000, 2));
    assert_eq!(ranges(&sent), [(1500, 2499)]);
    assert_eq!(message.producer, cursor(2500, 2));
    assert!(!message.urgent_pending && !message.urgent_present && !message.blocked);
}

#[test]
fn urgent_places_reached_and_missed() {
    // Our place at (1500,1), Q there too; R heard just before it and at it.
    for (offset, stands) in [(1499, true), (1500, false)] {
        let mut group = from_a_to_b(cursor(1000, 1), cursor(1000, 1));
        write_urgent(&mut group, 1, 2, &pattern(500, 1));
        let message = Message {
            sequence: 1,
            token: TOKEN_A,
            producer: cursor(4, 0),
            consumer: cursor(offset, 1),
            ..Message::default()
        };
        group.hear(&message.write()).unwrap();
        assert_eq!(group.table[0].urgent_sent.is_some(), stands);
        let abort = Message::read(&group.abort(1).unwrap()).unwrap();
        assert_eq!(
            (abort.urgent_pending, abort.urgent_present),
            (stands, stands)
        );
    }
    // B reads one byte short of its place, then one more.
    let mut group = from_a_to_b(cursor(1000, 1), cursor(1000, 1));
    let (_, message) = write_urgent(&mut group, 1, 2, &pattern(500, 1));
    group.hear(&message).unwrap();
    let short = group.read(2, &mut [0; 499]).unwrap();
    assert!(matches!(short, ReadAnswer::Read { message: None, .. }));
    assert!(group.table[1].urgent_heard.is_some());
    let rest = group.read(2, &mut [0; 1]).unwrap();
    assert!(matches!(
        rest,
        ReadAnswer::Read {
            message: Some(_),
            ..
        }
    ));
    assert_eq!(group.table[1].urgent_heard, None);
}

#[test]
fn urgent_marks_heard_without_a_move() {
    let mut group = hosts();
    for (pending, present) in [(true, false), (true, true), (false, true)] {
        let message = Message {
            sequence: group.table[1].heard_sequence + 1,
            token: TOKEN_B,
            producer: cursor(4, 0),
            consumer: cursor(4, 0),
            urgent_pending: pending,
            urgent_present: present,
            ..Message::default()
        };
        assert_eq!(group.hear(&message.write()).unwrap().message, None);
        assert_eq!(group.table[1].urgent_heard, None);
    }
}

#[test]
fn urgent_places_and_coherence() {
    let mut group = hosts();
    group.table[0].producer = cursor(9, 0);
    group.table[0].peer_producer = cursor(9, 0);
    for (place, right) in [
        (cursor(4, 0), false),
        (cursor(5, 0), true),
        (cursor(9, 0), true),
        (cursor(10, 0), false),
        (cursor(3, 0), false),
        (cursor(9, 1), false),
        (cursor(9_999, 65_535), false),
        (cursor(0, 0), false),
    ] {
        let mut own = group.clone();
        own.table[0].urgent_sent = Some(place);
        assert_eq!(own.send(1, &[]).is_ok(), right, "{place:?}");
        let mut heard = group.clone();
        heard.table[0].urgent_heard = Some(place);
        assert_eq!(heard.send(1, &[]).is_ok(), right, "{place:?}");
        if !right {
            assert_eq!(own.send(1, &[]), Err(3));
            assert_eq!(heard.send(1, &[]), Err(3));
        }
    }
}

#[test]
fn closing_both_ways() {
    // 3A, 3B, 3C and 4A, 4B, 4C of section 4.8.1, in document 01's names.
    let mut group = hosts();
    let done = group.shutdown(1).unwrap();
    assert_eq!(state(&group.table[0]), State::PeerCloseWait1);
    assert_eq!(group.hear(&done).unwrap().state, State::AppCloseWait1);
    let done = group.shutdown(2).unwrap();
    assert_eq!(state(&group.table[1]), State::AppCloseWait2);
    assert_eq!(group.hear(&done).unwrap().state, State::PeerCloseWait2);
    let closed = group.close(2).unwrap();
    assert_eq!(state(&group.table[1]), State::PeerCloseWait2);
    assert_eq!(
        group.hear(closed.message()).unwrap().state,
        State::AppCloseWait2
    );
    let closed = group.close(1).unwrap();
    assert_eq!(group.table[0], Connection::default());
    assert_eq!(group.hear(closed.message()).unwrap().state, State::Closed);
    assert_eq!(group.table[1], Connection::default());
}

/// Host B has heard so many bytes and read none of them.
fn unread_at_b(length: usize) -> Group {
    let mut group = hosts();
    let (_, message) = write(&mut group, 1, 2, &pattern(length, 5));
    group.hear(&message.write()).unwrap();
    group
}

#[test]
fn close_with_unread_bytes_resets() {
    // 2026-03, section 4.8.1, step 3A. Marks: none, D sent, D heard, C heard.
    for (done_sent, done_heard, closed_heard) in [
        (false, false, false),
        (true, false, false),
        (false, true, false),
        (false, false, true),
        (true, true, true),
    ] {
        for length in [1, 9_996] {
            let mut group = unread_at_b(length);
            group.table[1].done_sent = done_sent;
            group.table[1].done_heard = done_heard;
            group.table[1].closed_heard = closed_heard;
            let before = group.table[1];
            let answer = group.close(2).unwrap();
            assert!(matches!(answer, CloseAnswer::Reset(_)));
            let message = Message::read(answer.message()).unwrap();
            assert!(message.abort && !message.closed);
            assert_eq!(message.done, done_sent);
            let after = Connection {
                abort_sent: true,
                told: before.consumer,
                next_sequence: before.next_sequence + 1,
                ..before
            };
            assert_eq!(group.table[1], after);
            assert_eq!(state(&after), State::PeerAbortWait);
            // It is an abort: nothing but a heard A or free follows.
            assert_eq!(group.close(2), Err(7));
            assert_eq!(group.abort(2), Err(7));
            group.free(2).unwrap();
            assert_eq!(group.table[1], Connection::default());
        }
    }
}

#[test]
fn close_with_all_bytes_read_closes() {
    let mut group = unread_at_b(700);
    receive(&mut group, 2);
    assert!(matches!(group.close(2), Ok(CloseAnswer::Closed(_))));
    assert_eq!(state(&group.table[1]), State::PeerCloseWait1);
    // One byte short of all of them, the same close resets.
    let mut group = unread_at_b(700);
    group.read(2, &mut [0; 699]).unwrap();
    assert!(matches!(group.close(2), Ok(CloseAnswer::Reset(_))));
}

#[test]
fn shutdown_does_not_look_at_unread_bytes() {
    let mut group = unread_at_b(700);
    let done = Message::read(&group.shutdown(2).unwrap()).unwrap();
    assert!(done.done && !done.abort);
    assert_eq!(state(&group.table[1]), State::PeerCloseWait1);
}

#[test]
fn aborting() {
    // Figure 23: active abort 1A and 1B, passive abort 2A and 2B.
    let mut group = hosts();
    let abort = group.abort(1).unwrap();
    assert_eq!(state(&group.table[0]), State::PeerAbortWait);
    let heard = group.hear(&abort).unwrap();
    assert_eq!((heard.moved, heard.state), (0, State::Closed));
    let answer = heard.message.expect("an abort message");
    assert!(Message::read(&answer).unwrap().abort);
    let heard = group.hear(&answer).unwrap();
    assert_eq!((heard.state, heard.message), (State::Closed, None));
}
