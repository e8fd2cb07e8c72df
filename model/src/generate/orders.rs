//! Two orders of one list of calls, as demand 3 and "Who sees what" allow them.
//!
//! Both lists start from the same fresh group, whose closed slots may hold
//! anything. No call is moved across an open, free, link or linkmsg, refused
//! or not; within a span each connection's calls keep their order, and the calls
//! that nobody owns stand anywhere.

use std::collections::{BTreeMap, VecDeque};

use super::traffic::{Habits, World};
use super::List;
use crate::random::Random;
use crate::replay::{lines, print_line, set_marks, Line};
use crate::smcr::*;

/// How many calls a pair has unless asked otherwise.
pub const COUNT: usize = 2_000;

pub struct Pair {
    pub first: Vec<u8>,
    pub second: Vec<u8>,
    /// For each line of the first list, counted from 0, its place in the
    /// second.
    pub permutation: Vec<usize>,
}

impl Pair {
    /// One line for each line of the first list: its line number in the second,
    /// counted from 1.
    pub fn permutation_text(&self) -> String {
        let mut text = String::new();
        for place in &self.permutation {
            text.push_str(&format!("{}\n", place + 1));
        }
        text
    }
}

/// A pair of lists.
pub fn pair(seed: u64, count: usize) -> Pair {
    let mut random = Random::new(seed.wrapping_mul(4).wrapping_add(2));
    let first = first_order(&mut random, count);
    second_order(&mut random, first)
}

fn first_order(random: &mut Random, count: usize) -> Vec<u8> {
    let elements = if random.chance(1, 6) {
        random.between(17, 255)
    } else {
        random.between(1, 16)
    } as u32;
    let size = random.between(8, 40) as u32;
    let habits = Habits {
        strangers: false,
        looks: false,
        noise: true,
        beside: false,
    };
    let mut world = World::new(Random::new(random.draw()), elements, size, habits);
    while world.list.count < count {
        world.act();
    }
    let mut list = List::new();
    list.group(elements, size);
    lay_closed_records(random, &mut list);
    for line in lines(&world.list.text).into_iter().skip(1) {
        list.raw(line);
    }
    list.table();
    list.whole_memory();
    list.text
}

/// "Both orders start from the same fresh group, whatever else its closed slots
/// hold."
fn lay_closed_records(random: &mut Random, list: &mut List) {
    for slot in 1..=list.replay.group.table.len() {
        if random.chance(1, 2) {
            continue;
        }
        let mut any = || cursor(random.draw() as u32, random.draw() as u16);
        let mut record = Connection {
            peer_producer: any(),
            consumer: any(),
            told: any(),
            producer: any(),
            peer_consumer: any(),
            ..Connection::default()
        };
        record.own_token = random.draw() as u32;
        record.peer_token = random.draw() as u32;
        record.link = random.draw() as u8;
        record.peer_size = random.draw() as u32;
        record.index = random.draw() as u8;
        record.keys[0] = random.draw() as u32;
        record.bases[3] = random.draw();
        if random.chance(1, 2) {
            record.urgent_sent = Some(record.told);
            record.urgent_heard = Some(record.producer);
        }
        record.next_sequence = random.draw() as u16;
        record.heard_sequence = random.draw() as u16;
        set_marks(&mut record, random.below(512) as u16);
        list.record(slot, record);
    }
}

/// Who owns a connection's call.
#[derive(Clone, Copy, PartialEq, Eq)]
enum Owner {
    Slot(usize),
    Nobody,
}

enum Kind {
    /// Keeps its place: the group, its records, `table`, `memory`, and every
    /// call that ends a span.
    Fixed,
    Owned(Owner),
}

/// A call's kind, judged on the group as it was when the span began.
fn kind(line: &Line, span_start: &Group) -> Kind {
    match line {
        Line::Send { slot, .. }
        | Line::Urgent { slot, .. }
        | Line::Gather { slot, .. }
        | Line::Place { slot, .. }
        | Line::Read { slot, .. }
        | Line::Shutdown { slot }
        | Line::Close { slot }
        | Line::Abort { slot } => Kind::Owned(if span_start.slot_not_open(*slot) {
            Owner::Nobody
        } else {
            Owner::Slot(*slot as usize - 1)
        }),
        Line::Hear { bytes } => Kind::Owned(
            match Message::read(bytes).and_then(|message| span_start.slot_with_token(message.token))
            {
                Some(index) => Owner::Slot(index),
                None => Owner::Nobody,
            },
        ),
        _ => Kind::Fixed,
    }
}

fn second_order(random: &mut Random, first: Vec<u8>) -> Pair {
    let all: Vec<Line> = {
        let mut list = List::new();
        lines(&first)
            .into_iter()
            .map(|line| {
                let call = list.replay.parse(line).expect("a list of good lines");
                list.add(call.clone());
                call
            })
            .collect()
    };
    let mut shadow = List::new();
    let mut span_start = shadow.replay.group.clone();
    let mut order: Vec<usize> = Vec::new();
    let mut span: Vec<(usize, Owner)> = Vec::new();
    for (place, line) in all.iter().enumerate() {
        match kind(line, &span_start) {
            Kind::Owned(owner) => {
                span.push((place, owner));
                shadow.add(line.clone());
            }
            Kind::Fixed => {
                order.extend(merge(random, &span));
                span.clear();
                order.push(place);
                shadow.add(line.clone());
                span_start = shadow.replay.group.clone();
            }
        }
    }
    order.extend(merge(random, &span));
    let mut permutation = vec![0; all.len()];
    let mut second = Vec::new();
    for (place, &from) in order.iter().enumerate() {
        permutation[from] = place;
        print_line(&mut second, &all[from]);
        second.push(b'\n');
    }
    Pair {
        first,
        second,
        permutation,
    }
}

/// One more order of a span: each owner's calls in their order, nobody's calls
/// anywhere.
fn merge(random: &mut Random, span: &[(usize, Owner)]) -> Vec<usize> {
    let mut owned: BTreeMap<usize, VecDeque<usize>> = BTreeMap::new();
    let mut queues: Vec<VecDeque<usize>> = Vec::new();
    for &(place, owner) in span {
        match owner {
            Owner::Slot(index) => owned.entry(index).or_default().push_back(place),
            Owner::Nobody => queues.push(VecDeque::from([place])),
        }
    }
    queues.extend(owned.into_values());
    let mut merged = Vec::new();
    let bursts = random.chance(1, 2);
    while merged.len() < span.len() {
        let which = random.below(queues.len() as u64) as usize;
        let turns = if bursts { random.between(1, 30) } else { 1 };
        for _ in 0..turns {
            match queues[which].pop_front() {
                Some(place) => merged.push(place),
                None => break,
            }
        }
        if queues[which].is_empty() {
            queues.swap_remove(which);
        }
    }
    merged
}
