//! Lists for link messages: every stage by role by arriving and sent message,
//! queues, every field at its row's edges, and two ends whose exchanges collide.

use std::collections::VecDeque;

use super::List;
use crate::links::{Exchange, Queue, Queued, Role, PLACES};
use crate::llc::*;
use crate::random::Random;
use crate::replay::{Answer, Line, Replay};
use crate::smcr::{Bytes44, LENGTH_BYTE, MESSAGE_BYTES};

impl List {
    pub fn link_send(&mut self, link: u8, fields: Fields) -> Answer {
        self.add(Line::LinkSend {
            link,
            fields,
            room: None,
        })
    }

    pub fn role(&mut self, role: Role) {
        self.add(Line::Role { role });
    }

    pub fn exchange(&mut self, stage: u8, v: u8, w: u8) {
        let exchange = Exchange { stage, v, w };
        self.add(Line::Exchange { exchange });
    }

    fn queue(&mut self, queue: Queue) {
        let queue = Box::new(queue);
        self.add(Line::Queue { queue });
    }

    /// Puts the links as asked, where they are not so already.
    fn links(&mut self, active: [bool; 4]) {
        for link in 1..=4 {
            let place = usize::from(link) - 1;
            if self.replay.group.links[place] != active[place] {
                self.link(link, active[place]);
            }
        }
    }

    /// An exchange with an empty queue, where it does not stand so already.
    fn at_stage(&mut self, exchange: Exchange) {
        if self.replay.group.queue != Queue::EMPTY {
            self.queue(Queue::EMPTY);
        }
        if self.replay.group.exchange != exchange {
            self.exchange(exchange.stage, exchange.v, exchange.w);
        }
    }
}

/// The exchange that stands at a stage: over link 1; link 4 is added, link 2
/// deleted.
fn usual(stage: u8) -> Exchange {
    let w = match stage {
        1..=4 => 4,
        5 => 2,
        _ => 0,
    };
    let v = if stage == 0 { 0 } else { 1 };
    Exchange { stage, v, w }
}

/// Links 1 to 3 are active, 4 is down.
const USUAL_LINKS: [bool; 4] = [true, true, true, false];

/// Every message that a stage or the table of collisions tells apart: requests
/// and replies, flags on and off, the link named w or another.
fn messages(random: &mut Random, w: u8) -> Vec<Fields> {
    let mut all = Vec::new();
    for kind in KINDS {
        let rows = layout(kind);
        let has = |name: &str| rows.iter().any(|row| row.name == name);
        let links: &[u64] = if has("link") { &[0, 3] } else { &[0] };
        for reply in [0, 1] {
            for &link in links {
                let flags: &[u64] = match kind {
                    ADD_LINK | DELETE_LINK => &[0, 1],
                    CONFIRM_RKEY | CONFIRM_RKEY_CONTINUATION if reply == 1 => &[0, 1],
                    _ => &[0],
                };
                for &flag in flags {
                    let mut fields = Fields::zero(kind);
                    for (value, row) in fields.values.iter_mut().zip(rows) {
                        *value = random.draw() & row.most() & 0xFFFF;
                    }
                    let named = if w == 0 { 4 } else { w };
                    let link = if link == 0 { u64::from(named) } else { link };
                    // The flag is A of 04, Z of a reply, a bad MTU of an 02 request.
                    let z = if reply == 1 { flag } else { 0 };
                    let mtu = if reply == 0 && flag == 1 { 6 } else { 5 };
                    fields = fields
                        .with("R", reply)
                        .with("Z", z)
                        .with("A", flag)
                        .with("mtu", mtu)
                        .with("link", link);
                    all.push(fields);
                }
            }
        }
    }
    all
}

pub fn exhaust(list: &mut List, random: &mut Random) {
    the_pages_example(list);
    rows_at_their_edges(list, random);
    list.comment("link messages: every stage, role and arriving message");
    list.group(1, 8);
    for role in Role::ALL {
        list.role(role);
        for stage in 0..=11 {
            let exchange = usual(stage);
            for fields in messages(random, exchange.w) {
                hear_at(list, exchange, exchange.v.max(1), &fields);
                if fields.kind == CONFIRM_LINK && exchange.w != 0 {
                    hear_at(list, exchange, exchange.w, &fields);
                } else if fields.is_reply() && random.chance(1, 3) {
                    hear_at(list, exchange, 3, &fields);
                }
            }
            list.table();
        }
    }
    list.comment("link messages: every stage, role and message to send");
    for role in Role::ALL {
        list.role(role);
        for stage in 0..=11 {
            let exchange = usual(stage);
            for mut fields in messages(random, exchange.w) {
                if fields.kind == CONFIRM_RKEY || fields.kind == CONFIRM_RKEY_CONTINUATION {
                    let num = *random.pick(&[0, 2, 3, 4, 255]);
                    fields = fields.with("num", num);
                }
                let over = exchange.v.max(1);
                send_at(list, exchange, over, &fields);
                if fields.kind == CONFIRM_LINK && exchange.w != 0 {
                    send_at(list, exchange, exchange.w, &fields);
                }
            }
            list.table();
        }
    }
    names_outside(list, random);
    counts_of_keys(list, random);
    queues(list, random);
    links_going_down(list, random);
}

fn hear_at(list: &mut List, exchange: Exchange, over: u8, fields: &Fields) {
    list.links(USUAL_LINKS);
    list.at_stage(exchange);
    list.link_message(over, fields.write().to_vec());
}

fn send_at(list: &mut List, exchange: Exchange, over: u8, fields: &Fields) {
    list.links(USUAL_LINKS);
    list.at_stage(exchange);
    list.link_send(over, fields.clone());
}

/// The lines of part 10, byte for byte.
fn the_pages_example(list: &mut List) {
    list.comment("link messages: the page's example");
    list.group(1, 8);
    list.role(Role::Server);
    list.link(1, true);
    let add = Fields {
        kind: ADD_LINK,
        values: vec![
            0,
            0,
            0,
            2_199_023_255_553,
            18_338_657_682_652_659_712,
            1,
            9,
            2,
            5,
            77,
        ],
    };
    list.link_send(1, add);
    list.link_send(1, Fields::zero(ADD_LINK).with("link", 3).with("mtu", 5));
    let delete = Fields::zero(DELETE_LINK)
        .with("O", 1)
        .with("link", 2)
        .with("reason", 131_072);
    list.link_message(1, delete.write().to_vec());
    let rkey = Fields::zero(CONFIRM_RKEY).with("num", 1).with("key", 5);
    list.link_message(1, rkey.write().to_vec());
    let accepted = Fields::zero(ADD_LINK)
        .with("R", 1)
        .with("qp", 65)
        .with("link", 2)
        .with("mtu", 5);
    list.link_message(1, accepted.write().to_vec());
    let confirm = Fields::zero(CONFIRM_LINK).with("link", 2).with("max", 4);
    list.link_send(2, confirm.clone());
    list.link_message(2, confirm.with("R", 1).write().to_vec());
    list.table();
}

/// Each row alone at its largest value, heard and sent; what is sent is cut to
/// its width. The bits that no row names are set once for each kind.
fn rows_at_their_edges(list: &mut List, random: &mut Random) {
    list.comment("link messages: every row at its edges");
    list.group(1, 8);
    for kind in KINDS {
        // A stage at which a request of the kind is due or may begin.
        let (role, stage) = match kind {
            CONFIRM_LINK | ADD_LINK_CONTINUATION => (Role::Server, 2),
            CONFIRM_RKEY_CONTINUATION => (Role::Server, 8),
            DELETE_LINK => (Role::Client, 0),
            _ => (Role::Server, 0),
        };
        let exchange = usual(stage);
        let over = match kind {
            CONFIRM_LINK => exchange.w,
            _ => 1,
        };
        let plain = Fields::zero(kind)
            .with("link", u64::from(exchange.w.max(2)))
            .with("mtu", 5);
        list.role(Role::Client);
        for row in layout(kind) {
            let fields = plain.clone().with(row.name, row.most());
            hear_at(list, usual(0), 1, &fields);
        }
        let mut reserved = [0xFF; MESSAGE_BYTES];
        reserved[0] = kind;
        reserved[1] = LENGTH_BYTE;
        for row in layout(kind) {
            let named = Fields::zero(kind).with(row.name, row.most()).write();
            for at in 2..MESSAGE_BYTES {
                reserved[at] &= !named[at];
            }
        }
        list.at_stage(usual(0));
        list.link_message(1, reserved.to_vec());
        list.role(role);
        for row in layout(kind) {
            if row.name == "R" {
                continue;
            }
            let high = u64::MAX << (row.bits % 64);
            for value in [u64::MAX, high, random.draw()] {
                let mut value = value;
                if row.name == "link" || row.name == "A" {
                    // Cut to the link that may be named, or to no A.
                    value = value << row.bits | plain.get(row.name);
                }
                let fields = plain.clone().with(row.name, value);
                send_at(list, exchange, over, &fields);
            }
        }
    }
}

/// Exchanges laid with a w that is no link, and messages that name it.
fn names_outside(list: &mut List, random: &mut Random) {
    list.comment("link messages: exchanges that name no link");
    for role in Role::ALL {
        list.role(role);
        for stage in 0..=6 {
            let w = *random.pick(&[0, 5, 9, 255]);
            let exchange = Exchange { stage, v: 1, w };
            for kind in [CONFIRM_LINK, ADD_LINK, ADD_LINK_CONTINUATION, DELETE_LINK] {
                for reply in [0, 1] {
                    let fields = Fields::zero(kind)
                        .with("R", reply)
                        .with("link", u64::from(w))
                        .with("mtu", 5);
                    hear_at(list, exchange, 1, &fields);
                    send_at(list, exchange, 1, &fields);
                }
            }
        }
    }
}

/// How many keys are to come: 06 goes on above 2, 08 above 3.
fn counts_of_keys(list: &mut List, random: &mut Random) {
    list.comment("link messages: counts of keys");
    for role in Role::ALL {
        list.role(role);
        for num in [0, 1, 2, 3, 4, 5, 255, 256 + 3] {
            for (kind, stage) in [(CONFIRM_RKEY, 0), (CONFIRM_RKEY_CONTINUATION, 8)] {
                let fields = Fields::zero(kind)
                    .with("num", num)
                    .with("key1", random.draw());
                send_at(list, usual(stage), 1, &fields);
                let negative = u64::from(random.chance(1, 3));
                let reply = fields.reduced().with("R", 1).with("Z", negative);
                list.link_message(1, reply.write().to_vec());
                if num > 2 {
                    let more = Fields::zero(CONFIRM_RKEY_CONTINUATION).with("num", num);
                    list.link_send(1, more);
                }
            }
            list.table();
        }
    }
}

fn place(link: u8, fields: &Fields) -> Queued {
    Queued {
        link,
        bytes: fields.write(),
    }
}

/// Queues that fill, overflow and are taken up; queues that are laid.
fn queues(list: &mut List, random: &mut Random) {
    list.comment("link messages: queues");
    list.group(1, 8);
    list.role(Role::Server);
    for stage in [1, 2, 5, 6, 11] {
        list.links(USUAL_LINKS);
        list.at_stage(usual(stage));
        for round in 0..6 {
            let link = *random.pick(&[1, 2, 3, 4]);
            let fields = match round % 3 {
                1 if stage > 4 => Fields::zero(ADD_LINK).with("mtu", 5),
                2 if stage > 5 => Fields::zero(CONFIRM_LINK).with("link", link),
                _ => Fields::zero(DELETE_LINK)
                    .with("link", link)
                    .with("reason", 7),
            };
            list.link_message(*random.pick(&[1, 2, 3]), fields.write().to_vec());
        }
        list.table();
        // End it again and again: each end takes up one.
        for _ in 0..5 {
            list.links(USUAL_LINKS);
            let Exchange { stage, v, w } = usual(if stage == 2 { 4 } else { stage });
            list.exchange(stage, v, w);
            let (over, ends) = ending(usual(stage));
            list.link_message(over, ends.write().to_vec());
        }
        list.table();
    }
    let contents = [
        place(1, &Fields::zero(ADD_LINK).with("link", 9)),
        place(2, &Fields::zero(ADD_LINK).with("R", 1)),
        place(3, &Fields::zero(DELETE_LINK).with("link", 3)),
        place(4, &Fields::zero(DELETE_LINK).with("link", 4)),
        place(1, &Fields::zero(DELETE_LINK).with("link", 1).with("A", 1)),
        place(1, &Fields::zero(DELETE_LINK).with("link", 1).with("R", 1)),
        place(1, &Fields::zero(DELETE_LINK).with("link", 2)),
        place(255, &Fields::zero(CONFIRM_LINK).with("link", 2)),
        place(0, &Fields::zero(TEST_LINK)),
        place(7, &Fields::zero(DELETE_LINK).with("link", 0)),
        Queued {
            link: 5,
            bytes: [0; MESSAGE_BYTES],
        },
        Queued {
            link: 6,
            bytes: [0xFE; MESSAGE_BYTES],
        },
        Queued {
            link: 2,
            bytes: [0x04; MESSAGE_BYTES],
        },
    ];
    for role in Role::ALL {
        list.role(role);
        for (number, &oldest) in contents.iter().enumerate() {
            let stages: &[u8] = match role {
                Role::Server => &[4, 5, 6],
                Role::Client => &[6, 9, 11],
            };
            let stage = stages[number % 3];
            list.links(USUAL_LINKS);
            let mut queue = Queue {
                count: *random.pick(&[1, 2, 3, 4, 5, 255]),
                ..Queue::EMPTY
            };
            queue.places[0] = oldest;
            for place in 1..PLACES {
                queue.places[place] = *random.pick(&contents);
            }
            list.queue(queue);
            let exchange = usual(stage);
            list.exchange(exchange.stage, exchange.v, exchange.w);
            let (over, ends) = ending(exchange);
            list.link_message(over, ends.write().to_vec());
            list.table();
        }
        // Count 0 with something in the places, and an end by a send.
        list.queue(Queue {
            count: 0,
            places: [contents[2]; PLACES],
        });
        list.links(USUAL_LINKS);
        list.exchange(6, 1, 0);
        list.link_message(1, Fields::zero(CONFIRM_RKEY).with("R", 1).write().to_vec());
        list.table();
    }
    // A client's own sends end an add.
    list.role(Role::Client);
    for (stage, fields) in [
        (4, Fields::zero(CONFIRM_LINK).with("R", 1).with("link", 4)),
        (
            1,
            Fields::zero(ADD_LINK)
                .with("R", 1)
                .with("Z", 1)
                .with("link", 9),
        ),
    ] {
        list.links(USUAL_LINKS);
        let mut queue = Queue {
            count: 2,
            ..Queue::EMPTY
        };
        queue.places[0] = contents[0];
        queue.places[1] = contents[3];
        list.queue(queue);
        let Exchange { v, w, .. } = usual(stage);
        list.exchange(stage, v, w);
        list.link_send(if stage == 4 { w } else { v }, fields);
        list.table();
    }
    list.role(Role::Server);
    list.queue(Queue::EMPTY);
}

/// The message that ends an exchange when it is heard, and its link.
fn ending(exchange: Exchange) -> (u8, Fields) {
    let Exchange { stage, v, w } = exchange;
    let reply = |kind: u8| {
        Fields::zero(kind)
            .with("R", 1)
            .with("Z", 1)
            .with("link", u64::from(w))
    };
    match stage {
        1..=3 => (v, reply(ADD_LINK)),
        4 => (w, reply(CONFIRM_LINK)),
        5 => (v, reply(DELETE_LINK)),
        6 | 7 => (v, reply(CONFIRM_RKEY)),
        11 => (v, reply(DELETE_RKEY)),
        _ => (v, reply(CONFIRM_RKEY_CONTINUATION)),
    }
}

/// Each link taken down by each way while each sort of exchange runs, something
/// queued.
fn links_going_down(list: &mut List, random: &mut Random) {
    list.comment("link messages: links that go down");
    list.group(2, 8);
    list.link(1, true);
    list.open(1, 5, 6, 1, 8);
    let waiting = place(3, &Fields::zero(DELETE_LINK).with("link", 3));
    for stage in [0, 2, 5, 6] {
        for link in 1..=4 {
            for way in 0..4 {
                // 04 from the server is taken by a client without an add or delete.
                let role = if way == 1 { Role::Client } else { Role::Server };
                if list.replay.group.role != role {
                    list.role(role);
                }
                list.links([true, true, true, link == 4]);
                list.sample(link, random.below(90) as u32);
                let mut queue = Queue {
                    count: 2,
                    ..Queue::EMPTY
                };
                queue.places[0] = waiting;
                queue.places[1] = waiting;
                list.queue(queue);
                let Exchange { stage, v, w } = usual(stage);
                list.exchange(stage, v, w);
                let delete = Fields::zero(DELETE_LINK).with("link", u64::from(link));
                match way {
                    0 => {
                        list.link(link, false);
                    }
                    1 => {
                        let over = *random.pick(&[1, 2, 3]);
                        list.link_message(over, delete.write().to_vec());
                    }
                    2 if link == 1 => {
                        list.link_message(2, delete.with("A", 1).write().to_vec());
                    }
                    3 if link == 1 => {
                        list.link_send(2, delete.with("A", 1).with("link", 77));
                    }
                    _ => {
                        // A delete over v that ends by its reply.
                        list.exchange(5, 1, link);
                        let reply = delete.with("R", 1);
                        list.link_message(1, reply.write().to_vec());
                    }
                }
                if random.chance(1, 3) || way > 1 {
                    list.table();
                }
            }
        }
    }
    // A delete over the very link that it deletes has ended by its reply.
    list.role(Role::Server);
    list.links(USUAL_LINKS);
    let mut queue = Queue {
        count: 3,
        ..Queue::EMPTY
    };
    queue.places[0] = place(3, &Fields::zero(DELETE_LINK).with("link", 1));
    queue.places[1] = waiting;
    queue.places[2] = waiting;
    list.queue(queue);
    list.exchange(5, 1, 1);
    let reply = Fields::zero(DELETE_LINK).with("R", 1).with("link", 1);
    list.link_message(1, reply.write().to_vec());
    list.table();
    // Down already: it goes down all the same, and the reply says so.
    list.role(Role::Client);
    list.links(USUAL_LINKS);
    for link in [4, 1, 1] {
        let delete = Fields::zero(DELETE_LINK).with("link", link);
        list.exchange(6, 4, 0);
        list.link_message(2, delete.write().to_vec());
    }
    list.table();
}

/// Any exchange, queue and role laid; messages heard and sent by the dozen.
pub fn hostile(list: &mut List, random: &mut Random) {
    // Connections on all links, so that what goes down moves some.
    let slots = random.between(1, 6) as u32;
    list.group(slots, 8);
    list.all_links_up();
    for slot in 1..=slots {
        list.open(slot, slot, 7, random.between(1, 4) as u8, 8);
    }
    for _ in 0..90 {
        if random.chance(1, 4) {
            list.role(*random.pick(&Role::ALL));
        }
        if random.chance(1, 5) {
            let link = random.between(1, 4) as u8;
            let up = random.chance(2, 3);
            list.link(link, up);
        }
        if random.chance(1, 3) {
            let (v, w) = (any_link(random), any_link(random));
            list.exchange(random.below(12) as u8, v, w);
        }
        if random.chance(1, 6) {
            let queue = any_queue(random);
            list.queue(queue);
        }
        let Exchange { v, w, .. } = list.replay.group.exchange;
        let link = match random.below(4) {
            0 => any_link(random),
            1 => w,
            _ => v,
        };
        let fields = any_fields(random, w);
        if random.chance(1, 2) {
            let mut bytes = fields.write().to_vec();
            if random.chance(1, 6) {
                let at = random.below(MESSAGE_BYTES as u64) as usize;
                bytes[at] = random.draw() as u8;
            }
            list.link_message(link, bytes);
        } else {
            list.link_send(link, fields);
        }
        if random.chance(1, 14) {
            list.table();
        }
    }
    let mut ends = Ends::new(list, random);
    for _ in 0..250 {
        ends.act(list, random);
    }
    list.table();
}

fn any_link(random: &mut Random) -> u8 {
    match random.below(12) {
        0 => 0,
        1 => 5,
        2 => random.draw() as u8,
        _ => random.between(1, 4) as u8,
    }
}

/// Fields of any kind, the values often small, its link often w.
pub fn any_fields(random: &mut Random, w: u8) -> Fields {
    let kind = *random.pick(&KINDS);
    let mut fields = Fields::zero(kind);
    for (value, row) in fields.values.iter_mut().zip(layout(kind)) {
        *value = match random.below(4) {
            0 => 0,
            1 => random.below(6),
            2 => random.draw() & row.most(),
            _ => random.draw() >> random.below(64),
        };
    }
    let link = match random.below(5) {
        0 => u64::from(any_link(random)),
        1 => random.below(4) + 1,
        _ => u64::from(w),
    };
    fields = fields
        .with("link", link)
        .with("R", random.below(2))
        .with("A", u64::from(random.chance(1, 6)))
        .with("mtu", random.below(8));
    fields
}

fn any_queue(random: &mut Random) -> Queue {
    let mut queue = Queue {
        count: *random.pick(&[0, 1, 2, 3, 4, 5, 255]),
        ..Queue::EMPTY
    };
    for place in &mut queue.places {
        place.link = any_link(random);
        let link = any_link(random);
        if random.chance(3, 4) {
            place.bytes = any_fields(random, link).write();
        }
    }
    queue
}

/// Two ends of one group of links: the list's, and one behind the scenes.
/// Messages of a link arrive in order.
pub struct Ends {
    far: Replay,
    /// To the near end and to the far one, link by link.
    flights: [[VecDeque<Bytes44>; 4]; 2],
}

impl Ends {
    /// The near end gets a role, the far one the other; link 1 is active at both.
    pub fn new(list: &mut List, random: &mut Random) -> Ends {
        let role = *random.pick(&Role::ALL);
        list.role(role);
        list.at_stage(Exchange::default());
        list.link(1, true);
        let mut far = Replay::new();
        far.group.role = role.other();
        far.group.links = list.replay.group.links;
        Ends {
            far,
            flights: Default::default(),
        }
    }

    fn call(&mut self, list: &mut List, far: bool, line: Line) -> Answer {
        if far {
            self.far.execute(&line)
        } else {
            list.add(line)
        }
    }

    pub fn act(&mut self, list: &mut List, random: &mut Random) {
        let far = random.chance(1, 2);
        match random.below(24) {
            0..=12 => self.deliver(list, random, far),
            13 if random.chance(1, 3) => {
                let link = random.between(1, 4) as u8;
                let up = random.chance(1, 2);
                self.change_both(list, link, up);
            }
            _ => self.send(list, random, far),
        }
    }

    /// A link that goes down or comes up does so at both ends, and what was on
    /// its way over it is lost.
    pub fn change_both(&mut self, list: &mut List, link: u8, up: bool) {
        for far in [false, true] {
            let room = None;
            self.call(list, far, Line::Link { link, up, room });
            self.flights[usize::from(far)][usize::from(link) - 1].clear();
        }
    }

    fn deliver(&mut self, list: &mut List, random: &mut Random, far: bool) {
        let queues = &self.flights[usize::from(far)];
        let waiting: Vec<usize> = (0..4).filter(|&link| !queues[link].is_empty()).collect();
        if waiting.is_empty() {
            return;
        }
        let place = *random.pick(&waiting);
        let Some(bytes) = self.flights[usize::from(far)][place].pop_front() else {
            return;
        };
        let link = place as u8 + 1;
        let line = Line::LinkMsg {
            link,
            bytes: bytes.to_vec(),
            room: None,
        };
        if let Answer::LinkMsg(answer, _) = self.call(list, far, line) {
            self.flights[usize::from(!far)][place].extend(answer.reply);
        }
    }

    /// What the stage asks for, or something new.
    fn send(&mut self, list: &mut List, random: &mut Random, far: bool) {
        let group = if far {
            &self.far.group
        } else {
            &list.replay.group
        };
        let Exchange { stage, v, w } = group.exchange;
        let server = group.role == Role::Server;
        let active: Vec<u8> = (1..=4)
            .filter(|&link| group.links[usize::from(link) - 1])
            .collect();
        let down: Vec<u8> = (1..=4).filter(|link| !active.contains(link)).collect();
        let named = u64::from(w);
        let mut any = Fields::zero(*random.pick(&KINDS));
        for (value, row) in any.values.iter_mut().zip(layout(any.kind)) {
            *value = random.draw() & row.most();
        }
        let with = |kind: u8, reply: u64| {
            Fields::zero(kind)
                .with("R", reply)
                .with("link", named)
                .with("mtu", 5)
        };
        let (link, fields) = match stage {
            1 if !server && random.chance(4, 5) => {
                let rejected = u64::from(random.chance(1, 5));
                let reply = with(ADD_LINK, 1)
                    .with("Z", rejected)
                    .with("reason", rejected);
                (v, reply)
            }
            2 if server && random.chance(2, 5) => (v, with(ADD_LINK_CONTINUATION, 0)),
            2 if server => (w, with(CONFIRM_LINK, 0).with("max", 4)),
            3 if !server => (v, with(ADD_LINK_CONTINUATION, 1)),
            4 if !server => (w, with(CONFIRM_LINK, 1)),
            8 => {
                let num = random.between(1, 6) as u64;
                (v, with(CONFIRM_RKEY_CONTINUATION, 0).with("num", num))
            }
            _ => {
                let over = match active[..] {
                    [] => 1,
                    _ => *random.pick(&active),
                };
                let some = |links: &[u8], random: &mut Random| match links {
                    [] => 2,
                    _ => u64::from(*random.pick(links)),
                };
                let fields = match random.below(12) {
                    0..=3 => {
                        let mtu = if random.chance(1, 8) { 0 } else { 4 };
                        with(ADD_LINK, 0)
                            .with("link", some(&down, random))
                            .with("mtu", mtu)
                    }
                    4..=5 => with(DELETE_LINK, 0)
                        .with("link", some(&active, random))
                        .with("reason", 65_536),
                    6..=7 => with(CONFIRM_RKEY, 0).with("num", random.below(4)),
                    8 => with(DELETE_RKEY, 0).with("count", 1),
                    9 if random.chance(1, 9) => with(DELETE_LINK, 0).with("A", 1),
                    10 => with(TEST_LINK, 0).with("user1", random.draw()),
                    _ => any,
                };
                (over, fields)
            }
        };
        let line = Line::LinkSend {
            link,
            fields,
            room: None,
        };
        if let Answer::LinkSent(sent, _) = self.call(list, far, line) {
            let place = usize::from(link) - 1;
            self.flights[usize::from(!far)][place].push_back(sent.bytes);
        }
    }
}
