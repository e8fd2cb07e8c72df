//! Lists for failover: the page's example, every state of the links by every way
//! in which one goes down, every mark before a move and before a heard F, numbers
//! and buffers at their edges.

use super::List;
use crate::links::Role;
use crate::llc::*;
use crate::random::Random;
use crate::replay::{set_marks, Line};
use crate::smcr::*;

pub fn exhaust(list: &mut List, random: &mut Random) {
    the_pages_example(list);
    every_way_down(list, random);
    every_mark_told(list, random);
    numbers_told(list, random);
    every_mark_heard(list, random);
    every_flag_heard(list, random);
    numbers_heard(list, random);
    buffers(list, random);
}

/// The lines of part 8, byte for byte.
fn the_pages_example(list: &mut List) {
    list.comment("failover: the page's example");
    list.group(3, 10_000);
    list.link(1, true);
    list.link(2, true);
    for (slot, own, peer) in [(1, 5, 0x0102_0304), (2, 6, 7), (3, 8, 9)] {
        list.opening(Opening {
            index: slot,
            keys: [11, 22, 0, 0],
            bases: [0, 4_096, 0, 0],
            ..Opening::at_base_0(slot, own, peer, 1, 10_000)
        });
    }
    list.send(1, vec![0xAB]);
    list.abort(3);
    list.add(Line::Link {
        link: 1,
        up: false,
        room: Some(131),
    });
    list.link(1, false);
    list.shutdown(1);
    list.send(2, vec![0xCD]);
    let mut heard = Message {
        token: 6,
        blocked: true,
        urgent_present: true,
        update_requested: true,
        failover: true,
        done: true,
        closed: true,
        ..Message::default()
    };
    list.hear(heard.write().to_vec());
    heard = Message {
        sequence: 1,
        token: 6,
        failover: true,
        ..Message::default()
    };
    list.hear(heard.write().to_vec());
    list.link_send(2, Fields::zero(DELETE_LINK).with("A", 1));
    list.link(1, true);
    list.link(2, false);
    list.shutdown(2);
    list.table();
}

/// A coherent record of elements of 12 bytes at both ends, every cursor apart
/// from the others.
fn record(random: &mut Random, own: u32, link: u8) -> Connection {
    Connection {
        open: true,
        own_token: own,
        peer_token: random.between(1, 0xFFFF_FFFF) as u32,
        link,
        peer_size: 12,
        index: 3,
        keys: [0, 1, 2, 3].map(|key| 100 + key),
        bases: [0, 1, 2, 3].map(|base| 4_096 * base),
        told: cursor(5, 3),
        consumer: cursor(7, 3),
        peer_producer: cursor(8, 3),
        peer_consumer: cursor(9, 65_535),
        producer: cursor(4, 0),
        next_sequence: *random.pick(&[0, 1, 2, 255, 256, 65_534, 65_535]),
        heard_sequence: random.draw() as u16,
        ..Connection::default()
    }
}

fn with_marks(mut c: Connection, marks: u16) -> Connection {
    set_marks(&mut c, marks);
    c
}

/// Lays the records that do not stand so already.
fn lay(list: &mut List, records: &[Connection]) {
    for (index, c) in records.iter().enumerate() {
        if list.replay.group.table[index] != *c {
            list.record(index + 1, *c);
        }
    }
}

/// All sixteen states of the links, each link, each way: a slot on each link, one
/// that sent A and one that is not coherent on the link named, one on no link.
fn every_way_down(list: &mut List, random: &mut Random) {
    list.comment("failover: every state of the links, every way down");
    list.group(7, 12);
    for way in 0..6 {
        let role = if way == 1 { Role::Client } else { Role::Server };
        list.role(role);
        for link in 1..=4u8 {
            // The whole group is named whatever the link.
            if way > 3 && link > 1 {
                break;
            }
            let mut records: Vec<Connection> = (1..=4)
                .map(|on| record(random, u32::from(on), on))
                .collect();
            records.push(with_marks(record(random, 5, link), 32));
            records.push(Connection {
                peer_token: 0,
                ..record(random, 6, link)
            });
            let none = *random.pick(&[0, 5, 255]);
            records.push(record(random, 7, none));
            for states in 0..16u8 {
                let active = [0, 1, 2, 3].map(|bit| states & (1 << bit) != 0);
                let over = (1..=4).find(|&on| active[usize::from(on) - 1]);
                lay(list, &records);
                list.lay_links(active);
                let delete = Fields::zero(DELETE_LINK).with("link", u64::from(link));
                match (way, over) {
                    (0, _) => {
                        list.link(link, false);
                    }
                    (1, Some(over)) => {
                        list.link_message(over, delete.write().to_vec());
                    }
                    (2, Some(over)) => {
                        list.exchange(5, over, link);
                        list.link_message(over, delete.with("R", 1).write().to_vec());
                    }
                    (3, _) => {
                        list.link(link, true);
                    }
                    (4, Some(over)) => {
                        list.link_message(over, delete.with("A", 1).write().to_vec());
                    }
                    (5, Some(over)) => {
                        list.link_send(over, delete.with("A", 1));
                    }
                    _ => {}
                }
                if random.chance(1, 8) {
                    list.table();
                }
            }
        }
    }
}

/// Every mark that a message may carry or that keeps a slot silent, in one table
/// that moves: slots 128 to 255, urgent places here and there.
fn every_mark_told(list: &mut List, random: &mut Random) {
    list.comment("failover: every mark in a table of 255 slots");
    list.group(255, 12);
    for slot in 128..=255u16 {
        let heard = 128 * random.below(4) as u16;
        let mut c = with_marks(record(random, u32::from(slot), 3), slot - 128 + heard);
        if random.chance(1, 4) {
            c.urgent_sent = Some(c.producer);
        }
        list.record(usize::from(slot), c);
    }
    list.lay_links([false, true, true, true]);
    list.link(3, false);
    list.table();
}

/// Next numbers around 0, each told.
fn numbers_told(list: &mut List, random: &mut Random) {
    list.comment("failover: numbers told");
    list.group(8, 12);
    let numbers = [0, 1, 2, 255, 256, 257, 65_534, 65_535];
    let records: Vec<Connection> = numbers
        .iter()
        .zip(1..)
        .map(|(&next, own)| Connection {
            next_sequence: next,
            ..record(random, own, 4)
        })
        .collect();
    lay(list, &records);
    list.lay_links([true, false, false, true]);
    list.link(4, false);
    // The number is not used up: the next message carries the next one.
    for slot in 1..=8 {
        list.send(slot, vec![slot as u8]);
    }
    list.table();
}

fn failover(c: &Connection, sequence: u16) -> Message {
    Message {
        sequence,
        token: c.own_token,
        producer: c.peer_producer,
        consumer: c.peer_consumer,
        failover: true,
        ..Message::default()
    }
}

/// All rows of the close marks, with and without the abort mark, before an F with
/// the last number and with another one, any other flag and cursor in it.
fn every_mark_heard(list: &mut List, random: &mut Random) {
    list.comment("failover: every mark before a heard F");
    list.group(1, 12);
    list.link(2, true);
    for marks in 0..64 {
        for off in [0, *random.pick(&[1, 2, 65_535])] {
            let c = with_marks(record(random, 9, 2), marks + 64 * random.below(8) as u16);
            list.record(1, c);
            let mut message = failover(&c, c.heard_sequence.wrapping_add(off));
            if random.chance(1, 2) {
                message.producer = cursor(random.draw() as u32, random.draw() as u16);
                message.consumer = cursor(random.draw() as u32, random.draw() as u16);
            }
            let mut bytes = message.write().to_vec();
            bytes[24] |= random.draw() as u8;
            bytes[25] |= random.draw() as u8 & !FLAG_ABORT;
            list.hear(bytes);
            if random.chance(1, 6) {
                list.table();
            }
        }
    }
}

/// Each other flag alone beside F, the number right and wrong; then what is next
/// without F.
fn every_flag_heard(list: &mut List, random: &mut Random) {
    list.comment("failover: every flag beside F");
    let flags = [(24, 0x80), (24, 0x40), (24, 0x20), (24, 0x10), (25, 0x80)];
    let flags = flags.into_iter().chain([(25, 0x40), (25, 0x20), (25, 0)]);
    for (at, bit) in flags {
        for (marks, off) in [(0, 0), (0, 1), (2, 0), (2, 1), (8, 0), (8, 2), (32, 1)] {
            let mut c = with_marks(record(random, 9, 2), marks);
            c.urgent_sent = Some(c.producer);
            c.urgent_heard = Some(c.peer_producer);
            list.record(1, c);
            let mut message = failover(&c, c.heard_sequence.wrapping_add(off));
            if marks == 0 {
                // Ahead of P, and R past our own place.
                message.producer = cursor(10, 3);
                message.consumer = cursor(4, 0);
            }
            let mut bytes = message.write().to_vec();
            bytes[at] |= bit;
            list.hear(bytes.clone());
            // Once more, and the next number without F.
            list.hear(bytes);
            message = failover(&c, c.heard_sequence.wrapping_add(1));
            message.failover = false;
            list.hear(message.write().to_vec());
            list.table();
        }
    }
}

/// Numbers equal and not, around 65,535 and by their bytes.
fn numbers_heard(list: &mut List, random: &mut Random) {
    list.comment("failover: numbers heard");
    for heard in [0u16, 1, 255, 256, 32_768, 65_534, 65_535] {
        let mut numbers = vec![heard, heard.wrapping_add(1), heard.wrapping_sub(1)];
        numbers.extend([0, 65_535, heard.swap_bytes(), heard ^ 0x8000, heard ^ 1]);
        for number in numbers {
            let c = Connection {
                heard_sequence: heard,
                ..record(random, 9, 2)
            };
            list.record(1, c);
            list.hear(failover(&c, number).write().to_vec());
        }
    }
    list.table();
}

/// Buffers of just 44 x S bytes, a byte less and more, of what the messages alone
/// would need, of none and of the most, in each of the three calls.
fn buffers(list: &mut List, random: &mut Random) {
    list.comment("failover: buffers");
    let whole = Fields::zero(DELETE_LINK).with("A", 1);
    for elements in [1, 2, 3, 255] {
        list.group(elements, 12);
        list.role(Role::Client);
        let right = MESSAGE_BYTES * elements as usize;
        let c = record(random, 5, 2);
        let rooms = [0, 43, 44, right - 1, right, right + 1, right + 44, 65_600];
        for room in rooms.map(Some) {
            for way in 0..5 {
                if list.replay.group.table[elements as usize - 1] != c {
                    list.record(elements as usize, c);
                }
                let active = [false, true, true, false];
                if list.replay.group.links != active {
                    list.lay_links(active);
                }
                list.add(match way {
                    0 => Line::Link {
                        link: 2,
                        up: false,
                        room,
                    },
                    1 => Line::Link {
                        link: 1,
                        up: true,
                        room,
                    },
                    2 => Line::LinkMsg {
                        link: 3,
                        bytes: Fields::zero(DELETE_LINK).with("link", 2).write().to_vec(),
                        room,
                    },
                    3 => Line::LinkMsg {
                        link: 3,
                        bytes: vec![0x80; MESSAGE_BYTES],
                        room,
                    },
                    _ => Line::LinkSend {
                        link: 3,
                        fields: whole.clone(),
                        room,
                    },
                });
            }
        }
        list.table();
    }
}
