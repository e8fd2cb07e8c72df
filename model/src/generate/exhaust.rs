//! What can be gone through one by one: every row of the close marks, every
//! first byte of a link message, every reserved bit, the soundings of document
//! 01, the examples of section 4.5.1, scenarios 1 to 6 of section 4.7, the pool,
//! the gauges, the messages of set-up and those of links, failover.

use super::{failover, gauges, links, message_of, offset_of, pool, setup, writes_of, List};
use crate::llc::{LLC_REPLY, TEST_LINK};
use crate::random::Random;
use crate::replay::{set_marks, Answer};
use crate::smcr::*;

/// The list; the seed chooses data bytes and tokens only.
pub fn list(seed: u64) -> Vec<u8> {
    let mut random = Random::new(seed.wrapping_mul(4));
    let mut list = List::new();
    close_marks_heard(&mut list, &mut random);
    close_marks_called(&mut list, &mut random);
    link_message_first_bytes(&mut list, &mut random);
    link_message_reserved_bits(&mut list, &mut random);
    cdc_reserved_bits(&mut list, &mut random);
    sequence_numbers(&mut list, &mut random);
    whole_example(&mut list, &mut random);
    soundings(&mut list, &mut random);
    window_examples(&mut list, &mut random);
    scenario_1_and_2(&mut list, &mut random);
    scenario_3(&mut list, &mut random);
    scenario_4(&mut list, &mut random);
    scenario_5(&mut list, &mut random);
    scenario_6(&mut list, &mut random);
    urgent_rules(&mut list, &mut random);
    heads_and_bodies(&mut list, &mut random);
    pool::exhaust(&mut list, &mut random);
    gauges::exhaust(&mut list, &mut random);
    setup::exhaust(&mut list, &mut random);
    links::exhaust(&mut list, &mut random);
    failover::exhaust(&mut list, &mut random);
    list.text
}

/// A record with all cursors at one place, on link 1.
fn resting(n: u32, own: u32, peer: u32, at: Cursor) -> Connection {
    Connection {
        open: true,
        own_token: own,
        peer_token: peer,
        link: 1,
        peer_size: n,
        index: 1,
        peer_producer: at,
        consumer: at,
        told: at,
        producer: at,
        peer_consumer: at,
        next_sequence: 1,
        ..Connection::default()
    }
}

fn message_to(c: &Connection) -> Message {
    Message {
        sequence: c.heard_sequence.wrapping_add(1),
        token: c.own_token,
        producer: c.peer_producer,
        consumer: c.peer_consumer,
        ..Message::default()
    }
}

fn token(random: &mut Random) -> u32 {
    random.between(1, 0xFFFF_FFFF) as u32
}

/// All 32 rows of the close marks, with and without the abort mark, before
/// messages that add no mark, D, C and both.
fn close_marks_heard(list: &mut List, random: &mut Random) {
    list.comment("all rows of the close marks, heard");
    list.group(2, 12);
    list.link(1, true);
    for marks in 0..64 {
        for (done, closed) in [(false, false), (true, false), (false, true), (true, true)] {
            let mut c = resting(12, token(random), token(random), cursor(5, 3));
            set_marks(&mut c, marks);
            list.record(1, c);
            let message = Message {
                done,
                closed,
                ..message_to(&c)
            };
            list.hear(message.write().to_vec());
            if !done && !closed {
                list.table();
            }
        }
        let mut c = resting(12, token(random), token(random), cursor(5, 3));
        set_marks(&mut c, marks);
        list.record(2, c);
        let abort = Message {
            abort: true,
            ..message_to(&c)
        };
        list.hear(abort.write().to_vec());
        list.record(1, Connection::default());
        list.record(2, Connection::default());
    }
    // R asks for a message while the C that closes the slot is heard.
    let mut c = resting(12, token(random), token(random), cursor(5, 3));
    set_marks(&mut c, 2);
    c.peer_producer = cursor(7, 3);
    c.consumer = cursor(7, 3);
    list.record(1, c);
    let message = Message {
        closed: true,
        update_requested: true,
        ..message_to(&c)
    };
    list.hear(message.write().to_vec());
    list.table();
}

/// The same rows before every call on a slot.
fn close_marks_called(list: &mut List, random: &mut Random) {
    list.comment("all rows of the close marks, before each call");
    list.group(1, 12);
    list.link(1, true);
    list.poke(0, EYE_CATCHER.to_vec());
    for marks in 0..64 {
        let mut c = resting(12, token(random), token(random), cursor(5, 3));
        c.peer_producer = cursor(7, 3);
        set_marks(&mut c, marks);
        let bytes = random.bytes(2);
        list.record(1, c);
        list.send(1, bytes.clone());
        list.record(1, c);
        list.urgent(1, bytes.clone());
        list.record(1, c);
        list.gather(1, bytes.clone(), bytes.clone());
        list.record(1, c);
        list.place(1, 7, bytes);
        list.record(1, c);
        list.read(1, 3);
        list.record(1, c);
        list.free(1);
        list.record(1, c);
        list.shutdown(1);
        list.table();
        list.record(1, c);
        list.close(1);
        list.table();
        c.consumer = c.peer_producer;
        list.record(1, c);
        list.close(1);
        list.table();
        list.record(1, c);
        list.abort(1);
    }
}

/// All 256 first bytes, with byte 1 right and wrong.
fn link_message_first_bytes(list: &mut List, random: &mut Random) {
    list.comment("all first bytes of a link message");
    list.group(1, 8);
    list.link(3, true);
    for first in 0..=255u8 {
        for second in [LENGTH_BYTE, LENGTH_BYTE ^ 1] {
            let mut bytes = random.bytes(MESSAGE_BYTES);
            bytes[0] = first;
            bytes[1] = second;
            bytes[3] &= !LLC_REPLY;
            // Some of them begin an exchange or take links down.
            if !list.replay.group.links[2] {
                list.link(3, true);
            }
            if list.replay.group.exchange.stage != 0 {
                list.exchange(0, 0, 0);
            }
            list.link_message(3, bytes);
        }
    }
}

/// A TEST LINK whose reserved bits are set one by one, and its reply.
fn link_message_reserved_bits(list: &mut List, random: &mut Random) {
    list.comment("each reserved bit of a TEST LINK");
    list.link(3, true);
    let mut base = vec![0; MESSAGE_BYTES];
    base[0] = TEST_LINK;
    base[1] = LENGTH_BYTE;
    base[4..20].copy_from_slice(&random.bytes(16));
    for at in [2, 3].into_iter().chain(20..44) {
        for bit in 0..8 {
            let mut bytes = base.clone();
            bytes[at] |= 1 << bit;
            list.link_message(3, bytes);
        }
    }
    let mut reply = base;
    reply[3] |= 0xFF;
    list.link_message(3, reply);
}

/// Each reserved bit of a heard message, and the flags P, U and F.
fn cdc_reserved_bits(list: &mut List, random: &mut Random) {
    list.comment("each reserved bit of a heard message");
    list.group(1, 20);
    list.link(1, true);
    let mut c = resting(20, token(random), token(random), cursor(9, 65_535));
    c.consumer = cursor(10, 65_535);
    c.peer_producer = cursor(12, 65_535);
    let base = Message {
        producer: cursor(6, 0),
        ..message_to(&c)
    }
    .write();
    let mut places: Vec<(usize, u8)> = Vec::new();
    for at in [8, 9, 16, 17].into_iter().chain(26..44) {
        places.extend((0..8).map(|bit| (at, 1 << bit)));
    }
    places.extend([0x01, 0x02, 0x04].map(|bit| (24, bit)));
    places.extend([0x01, 0x02, 0x04, 0x08, 0x10].map(|bit| (25, bit)));
    places.extend([FLAG_URGENT_PENDING, FLAG_URGENT_PRESENT, FLAG_FAILOVER].map(|bit| (24, bit)));
    for (at, bit) in places {
        list.record(1, c);
        let mut bytes = base.to_vec();
        bytes[at] |= bit;
        list.hear(bytes);
    }
    list.table();
    for (at, bit) in [
        (24, FLAG_BLOCKED),
        (24, FLAG_UPDATE_REQUESTED),
        (25, FLAG_DONE),
        (25, FLAG_CLOSED),
        (25, FLAG_ABORT),
    ] {
        list.record(1, c);
        let mut bytes = base.to_vec();
        bytes[at] |= bit;
        list.hear(bytes);
        list.table();
    }
}

/// Numbers next, equal, older and too far, around 65,535; with A and after ours.
fn sequence_numbers(list: &mut List, random: &mut Random) {
    list.comment("sequence numbers");
    list.group(1, 12);
    list.link(1, true);
    for heard in [0, 1, 65_534, 65_535] {
        for marks in [0, 32] {
            for ahead in [1, 0, 2, 65_535, 32_769] {
                let mut c = resting(12, token(random), token(random), cursor(5, 3));
                c.heard_sequence = heard;
                set_marks(&mut c, marks);
                for abort in [false, true] {
                    list.record(1, c);
                    let message = Message {
                        sequence: heard.wrapping_add(ahead),
                        abort,
                        ..message_to(&c)
                    };
                    list.hear(message.write().to_vec());
                }
            }
        }
    }
    list.table();
}

/// The whole example: the first message of scenario 1.
fn whole_example(list: &mut List, random: &mut Random) {
    list.comment("the whole example message");
    list.group(1, 10_000);
    list.link(1, true);
    list.open(1, 5, 0x0102_0304, 1, 10_000);
    let bytes = random.bytes(1_000);
    list.send(1, bytes);
    list.table();
}

/// The soundings that document 01 lists as already checked.
fn soundings(list: &mut List, random: &mut Random) {
    list.comment("(4,0) plus 1,000 is (1004,0); room left 8,996");
    list.group(1, 10_000);
    list.link(1, true);
    list.poke(0, EYE_CATCHER.to_vec());
    let rest = resting(10_000, 5, 6, cursor(4, 0));
    list.record(1, rest);
    list.send(1, random.bytes(1_000));
    list.send(1, random.bytes(8_997));
    list.table();

    list.comment("(1004,0), empty, 9,996 sent");
    list.record(1, resting(10_000, 5, 6, cursor(1004, 0)));
    list.send(1, random.bytes(9_996));
    list.send(1, random.bytes(1));
    list.send(1, random.bytes(1));
    list.table();

    list.comment("(9999,0) plus 1 and (9999,65535) plus 1");
    for wrap in [0, 65_535] {
        let c = resting(10_000, 5, 6, cursor(9999, wrap));
        list.record(1, c);
        list.send(1, random.bytes(1));
        let mut message = message_to(&c);
        message.producer = step(cursor(9999, wrap), 1, 10_000);
        list.hear(message.write().to_vec());
        list.read(1, 2);
        list.table();
    }

    list.comment("distances (1004,0) to (1003,1), (1005,1) and (1003,0)");
    for producer in [cursor(1003, 1), cursor(1005, 1), cursor(1003, 0)] {
        let c = resting(10_000, 5, 6, cursor(1004, 0));
        list.record(1, c);
        let message = Message {
            producer,
            ..message_to(&c)
        };
        list.hear(message.write().to_vec());
        list.table();
    }

    list.comment("(4,65535) to (4,0): 9,996, full");
    let c = resting(10_000, 5, 6, cursor(4, 65_535));
    list.record(1, c);
    let message = Message {
        producer: cursor(4, 0),
        ..message_to(&c)
    };
    list.hear(message.write().to_vec());
    list.place(1, 4, vec![0]);
    list.read(1, 5);
    list.table();

    list.comment("the peer's window 4,998, 4,997 with gain 1,000 and with gain 999");
    for (window, gain) in [(4_998, 1_000), (4_997, 1_000), (4_997, 999), (4_998, 4_998)] {
        let mut c = resting(10_000, 5, 6, cursor(4, 0));
        c.peer_producer = step(c.told, 9_996 - window, 10_000);
        list.record(1, c);
        list.read(1, gain);
        list.table();
    }

    list.comment("N' 8, room 4, Q (7,0), six bytes; at base 0, and elsewhere on each link");
    let mut c = resting(10_000, 5, 6, cursor(7, 0));
    c.peer_size = 8;
    list.record(1, c);
    list.send(1, random.bytes(6));
    list.table();
    list.send(1, random.bytes(1));
    list.all_links_up();
    for link in 1..=4 {
        let c = Connection {
            link,
            index: *random.pick(&[1, 2, 3, 255]),
            keys: [7, 0, u32::MAX, 0x0102_0304],
            bases: [
                4_096,
                0x0001_0000_0000,
                u64::MAX / 2,
                u64::MAX - 255 * 8 + 1,
            ],
            ..c
        };
        list.record(1, c);
        list.send(1, random.bytes(6));
    }
}

/// Section 4.5.1's examples a, b and c, N 65,540.
fn window_examples(list: &mut List, random: &mut Random) {
    list.comment("the examples a, b and c of section 4.5.1");
    for (window, receiver_window) in [(51_200, 65_536), (30_720, 31_744), (30_720, 65_536)] {
        list.group(1, 65_540);
        list.link(1, true);
        list.open(1, 5, 6, 1, 65_540);
        let unread = 65_536 - window;
        let c = list.replay.group.table[0];
        let message = Message {
            producer: step(c.peer_producer, unread, 65_540),
            ..message_to(&c)
        };
        list.place(1, 4, random.bytes(64));
        list.hear(message.write().to_vec());
        list.read(1, (receiver_window - window) as usize);
        list.table();
    }
}

/// A send whose placings are performed at the other end and whose message is
/// heard there.
fn send_across(list: &mut List, from: u32, to: u32, bytes: &[u8]) -> i64 {
    let c = list.replay.group.table[from as usize - 1];
    let answer = list.send(from, bytes.to_vec());
    carry_across(list, &c, to, bytes, &answer)
}

/// The same with an urgent send.
fn urgent_across(list: &mut List, from: u32, to: u32, bytes: &[u8]) -> i64 {
    let c = list.replay.group.table[from as usize - 1];
    let answer = list.urgent(from, bytes.to_vec());
    carry_across(list, &c, to, bytes, &answer)
}

/// Performs what a send answered; a message that its hearing makes goes back.
fn carry_across(list: &mut List, c: &Connection, to: u32, bytes: &[u8], answer: &Answer) -> i64 {
    for (address, part) in writes_of(answer, bytes) {
        list.place(to, offset_of(c, address), part);
    }
    if let Some(message) = message_of(answer) {
        let answer = list.hear(message.to_vec());
        if let Some(message) = message_of(&answer) {
            list.hear(message.to_vec());
        }
    }
    match answer {
        Answer::Sent(sent) | Answer::Urgent(sent) => sent.taken,
        _ => 0,
    }
}

/// A read whose message, if it makes one, is heard at the other end.
fn read_back(list: &mut List, slot: u32, room: usize) {
    let answer = list.read(slot, room);
    if let Some(message) = message_of(&answer) {
        list.hear(message.to_vec());
    }
}

/// Both elements lie in one memory, which has a key and a base on each link.
fn two_hosts(list: &mut List) {
    list.group(2, 10_000);
    list.link(1, true);
    for slot in [1, 2] {
        let tokens = [0x0A0A_0A0A, 0x0102_0304];
        list.opening(Opening {
            index: 3 - slot,
            keys: [0x1111_1111, 0x2222_2222, 0x3333_3333, 0x4444_4444],
            bases: [0x7F00_0000_1000, 0, 4_096, u64::MAX - 19_999],
            ..Opening::at_base_0(
                slot,
                tokens[slot as usize - 1],
                tokens[2 - slot as usize],
                1,
                10_000,
            )
        });
    }
}

/// Host A is slot 1, host B slot 2.
fn scenario_1_and_2(list: &mut List, random: &mut Random) {
    list.comment("scenarios 1 and 2");
    two_hosts(list);
    send_across(list, 1, 2, &random.bytes(1_000));
    read_back(list, 2, 1_004);
    list.table();
    send_across(list, 2, 1, &random.bytes(500));
    read_back(list, 1, 500);
    list.table();
}

fn scenario_3(list: &mut List, random: &mut Random) {
    list.comment("scenario 3");
    two_hosts(list);
    send_across(list, 1, 2, &random.bytes(3_000));
    read_back(list, 2, 3_001);
    send_across(list, 1, 2, &random.bytes(4_000));
    read_back(list, 2, 4_001);
    list.table();
}

/// 20,000 bytes; both hosts start at (1004,1) on the way from A to B.
fn scenario_4(list: &mut List, random: &mut Random) {
    list.comment("scenario 4");
    two_hosts(list);
    from_a_to_b(list, cursor(1004, 1), cursor(1004, 1));
    let bytes = random.bytes(20_000);
    let mut at = 0;
    while at < bytes.len() {
        let taken = send_across(list, 1, 2, &bytes[at..]);
        if taken == 0 {
            break;
        }
        at += taken as usize;
        read_back(list, 2, 10_000);
        list.table();
    }
}

/// Lays the hosts so that A writes from a place on and B has read up to another.
fn from_a_to_b(list: &mut List, written: Cursor, read: Cursor) {
    let mut host_a = list.replay.group.table[0];
    host_a.producer = written;
    host_a.peer_consumer = read;
    let mut host_b = list.replay.group.table[1];
    host_b.peer_producer = written;
    host_b.consumer = read;
    host_b.told = read;
    list.record(1, host_a);
    list.record(2, host_b);
}

/// 500 urgent bytes and then 1,000 others, the window open.
fn scenario_5(list: &mut List, random: &mut Random) {
    list.comment("scenario 5");
    two_hosts(list);
    from_a_to_b(list, cursor(1000, 1), cursor(1000, 1));
    urgent_across(list, 1, 2, &random.bytes(500));
    let normal = random.bytes(1_000);
    // Held back until the urgent bytes are consumed.
    send_across(list, 1, 2, &normal);
    list.table();
    read_back(list, 2, 10_000);
    list.table();
    send_across(list, 1, 2, &normal);
    read_back(list, 2, 10_000);
    list.table();
}

/// The same with the window closed and the writer blocked.
fn scenario_6(list: &mut List, random: &mut Random) {
    list.comment("scenario 6");
    two_hosts(list);
    from_a_to_b(list, cursor(1000, 2), cursor(1000, 1));
    let mut host_a = list.replay.group.table[0];
    host_a.blocked = true;
    list.record(1, host_a);
    let mut host_b = list.replay.group.table[1];
    host_b.peer_blocked = true;
    list.record(2, host_b);
    let urgent = random.bytes(500);
    let normal = random.bytes(1_000);
    urgent_across(list, 1, 2, &urgent);
    list.table();
    read_back(list, 2, 10_000);
    urgent_across(list, 1, 2, &urgent);
    list.table();
    send_across(list, 1, 2, &normal);
    read_back(list, 2, 10_000);
    send_across(list, 1, 2, &normal);
    read_back(list, 2, 10_000);
    list.table();
}

/// U that moves P: T at C or before it, R asking or not, a place standing or not,
/// the slot closing or not. Then every call that makes a message while our own
/// place stands.
fn urgent_rules(list: &mut List, random: &mut Random) {
    list.comment("urgent places: what is heard, and what is made meanwhile");
    list.group(1, 12);
    list.link(1, true);
    list.poke(0, EYE_CATCHER.to_vec());
    let own = token(random);
    for case in 0..16u16 {
        let is = |bit: u16| case & bit != 0;
        let mut c = resting(12, own, token(random), cursor(5, 65_535));
        c.consumer = if is(1) { cursor(6, 65_535) } else { c.told };
        c.peer_producer = cursor(8, 65_535);
        c.urgent_heard = is(4).then_some(cursor(7, 65_535));
        set_marks(&mut c, if is(8) { 2 } else { 0 });
        list.record(1, c);
        let message = Message {
            producer: cursor(10, 65_535),
            urgent_pending: true,
            urgent_present: true,
            update_requested: is(2),
            closed: is(8),
            ..message_to(&c)
        };
        list.hear(message.write().to_vec());
        list.table();
    }
    for marks in [0, 64, 128, 256, 8, 64 + 8] {
        let mut c = resting(12, own, token(random), cursor(5, 65_535));
        c.producer = cursor(7, 65_535);
        c.urgent_sent = Some(c.producer);
        c.peer_producer = cursor(8, 65_535);
        set_marks(&mut c, marks);
        for call in 0..8 {
            list.record(1, c);
            match call {
                0 => list.send(1, vec![1, 2, 3]),
                1 => list.urgent(1, vec![1]),
                2 => list.read(1, 2),
                3 => list.shutdown(1),
                4 => list.close(1),
                5 => list.abort(1),
                6 => {
                    let abort = Message {
                        abort: true,
                        ..message_to(&c)
                    };
                    list.hear(abort.write().to_vec())
                }
                _ => {
                    let asks = Message {
                        producer: cursor(9, 65_535),
                        consumer: cursor(6, 65_535),
                        urgent_present: marks & 8 == 0,
                        ..message_to(&c)
                    };
                    list.hear(asks.write().to_vec())
                }
            };
        }
        list.table();
    }
}

/// Every split of up to eight bytes into head and body, against every place of Q
/// and every room in an element of eight bytes; then the same while an urgent
/// place stands.
fn heads_and_bodies(list: &mut List, random: &mut Random) {
    list.comment("a head and a body: every split against every wrap");
    list.group(1, 8);
    list.link(1, true);
    let own = token(random);
    for offset in 4..8 {
        for written in 0..=4 {
            let mut c = resting(8, own, 6, cursor(offset, 65_535));
            c.index = 2;
            c.keys[0] = 5;
            c.bases[0] = 100;
            c.producer = step(c.peer_consumer, written, 8);
            for head in 0..=4 {
                for body in 0..=4 {
                    list.record(1, c);
                    list.gather(1, random.bytes(head), random.bytes(body));
                }
            }
            if written > 0 {
                c.urgent_sent = Some(c.producer);
                list.record(1, c);
                list.gather(1, random.bytes(2), random.bytes(1));
                list.gather(1, Vec::new(), Vec::new());
            }
        }
    }
    list.table();
}
