//! Who is at the two sides of each line of a list: the slot that it concerns and
//! that slot's peer, where the peer is a slot of the group too.

use std::collections::{BTreeMap, BTreeSet};

use crate::replay::Line;
use crate::smcr::*;
use crate::walk::{walk, Made};

/// The slots at the left and at the right, counted from 0. Where the left one is
/// missing, the peer is not in the group; without both, no slot is drawn.
pub type Ends = [Option<usize>; 2];

/// What is known of each line before any is drawn.
struct Seen {
    /// Which group it works on: a `group` line begins one.
    group: usize,
    records: usize,
    /// The slot that it concerns, and which of its connections that is.
    concerns: Option<(usize, usize)>,
}

/// Two slots whose connections name each other by their tokens, from a line on.
struct Pair {
    place: usize,
    group: usize,
    mates: [(usize, usize); 2],
}

pub struct Cast {
    ends: Vec<Ends>,
    seen: Vec<Seen>,
    pairs: Vec<Pair>,
    begun: Vec<Begun>,
}

/// A slot's connection begins at a line.
struct Begun {
    place: usize,
    group: usize,
    connection: (usize, usize),
}

impl Cast {
    pub fn of(input: &[u8]) -> Cast {
        let (seen, pairs, begun) = look(input);
        let mut ends = Vec::new();
        for place in 0..seen.len() {
            let now = match seen[place].concerns {
                Some(connection) => pair_of(&pairs, place, seen[place].group, connection),
                None => bystanders(&seen, &pairs, &ends, place),
            };
            ends.push(now);
        }
        Cast {
            ends,
            seen,
            pairs,
            begun,
        }
    }

    /// The two ends of the connection that a slot has at a line, counted from 0.
    pub fn ends_of(&self, place: usize, slot: usize) -> Ends {
        let group = self.seen[place].group;
        let until = self.begun.partition_point(|begun| begun.place <= place);
        let fits = |begun: &&Begun| begun.group == group && begun.connection.0 == slot;
        let number = self.begun[..until].iter().rev().find(fits);
        let connection = number.map_or((slot, 0), |begun| begun.connection);
        pair_of(&self.pairs, place, group, connection)
    }

    pub fn ends(&self, place: usize) -> Ends {
        self.ends[place]
    }

    /// The slots of a line's group that are never at the sides, counted from 1.
    pub fn never_at_the_sides(&self, place: usize) -> Vec<usize> {
        let group = self.seen[place].group;
        let of_group = (0..self.seen.len()).filter(|&line| self.seen[line].group == group);
        let shown: BTreeSet<usize> = of_group
            .flat_map(|line| self.ends[line])
            .flatten()
            .collect();
        let slots = 0..self.seen[place].records;
        slots
            .filter(|slot| !shown.contains(slot))
            .map(|slot| slot + 1)
            .collect()
    }
}

/// What each line concerns, and which connections name each other.
fn look(input: &[u8]) -> (Vec<Seen>, Vec<Pair>, Vec<Begun>) {
    let mut seen: Vec<Seen> = Vec::new();
    let mut pairs: Vec<Pair> = Vec::new();
    let mut begun: Vec<Begun> = Vec::new();
    let mut group = 0;
    // How often each slot was opened or laid, and with whom it was last seen.
    let mut connections: Vec<usize> = Vec::new();
    let mut latest: BTreeMap<usize, [(usize, usize); 2]> = BTreeMap::new();
    walk(input, |place, _, made, before, after| {
        let table = &after.group.table;
        let mut concerns = None;
        if let Made::Call(call, answer) = made {
            if matches!(call, Line::Group { .. }) {
                group += 1;
                connections.clear();
                latest.clear();
            }
            connections.resize(table.len(), 0);
            let index = concerned(call, &before.table, &after.group);
            let begins = matches!(call, Line::Open { .. } | Line::Record { .. });
            if let Some(index) = index {
                if begins && answer.refusal().is_none() {
                    connections[index] += 1;
                    begun.push(Begun {
                        place,
                        group,
                        connection: (index, connections[index]),
                    });
                }
                concerns = Some((index, connections[index]));
                if let Some(mate) = mate(table, index) {
                    let mates = [index.min(mate), index.max(mate)];
                    let mates = mates.map(|slot| (slot, connections[slot]));
                    if latest.insert(index, mates) != Some(mates) {
                        pairs.push(Pair {
                            place,
                            group,
                            mates,
                        });
                    }
                }
            }
        }
        seen.push(Seen {
            group,
            records: table.len(),
            concerns,
        });
    });
    (seen, pairs, begun)
}

/// The slot that a call is made on, or whose element it looks at or lays.
fn concerned(call: &Line, before: &[Connection], after: &Group) -> Option<usize> {
    let index = match call {
        Line::Open { opening } => (opening.slot as usize).checked_sub(1),
        Line::Free { slot }
        | Line::Send { slot, .. }
        | Line::Urgent { slot, .. }
        | Line::Gather { slot, .. }
        | Line::Place { slot, .. }
        | Line::Read { slot, .. }
        | Line::Shutdown { slot }
        | Line::Close { slot }
        | Line::Abort { slot } => (*slot as usize).checked_sub(1),
        Line::Record { slot, .. } => slot.checked_sub(1),
        Line::Hear { bytes } => heard_at(bytes, before),
        Line::Poke { at, bytes } => element_of(after, *at, bytes.len()),
        Line::Memory { at, count } => element_of(after, *at, *count),
        _ => None,
    };
    index.filter(|&index| index < after.table.len())
}

/// "Hear finds the lowest slot with the token."
pub fn heard_at(bytes: &[u8], table: &[Connection]) -> Option<usize> {
    let message = Message::read(bytes)?;
    let holds = |c: &Connection| c.open && c.own_token == message.token;
    table.iter().position(holds)
}

/// The element in which some bytes of the memory lie, if it is one.
pub fn element_of(group: &Group, at: usize, count: usize) -> Option<usize> {
    let n = group.size as usize;
    let index = at.checked_div(n)?;
    let within = count >= 1 && at + count <= (index + 1) * n;
    (within && index < group.table.len()).then_some(index)
}

/// The lowest other open slot that a slot's connection names, and that names it.
fn mate(table: &[Connection], index: usize) -> Option<usize> {
    let c = &table[index];
    let names = |other: usize| {
        let peer = &table[other];
        peer.open && c.own_token == peer.peer_token && c.peer_token == peer.own_token
    };
    (0..table.len()).find(|&other| c.open && other != index && names(other))
}

/// A connection and its mate, as they last named each other or will first do.
fn pair_of(pairs: &[Pair], place: usize, group: usize, connection: (usize, usize)) -> Ends {
    let fits = |pair: &&Pair| pair.group == group && pair.mates.contains(&connection);
    let until = pairs.partition_point(|pair| pair.place <= place);
    let last = pairs[..until].iter().rev().find(fits);
    match last.or_else(|| pairs[until..].iter().find(fits)) {
        Some(pair) => pair.mates.map(|(index, _)| Some(index)),
        None => [None, Some(connection.0)],
    }
}

/// Who is at the sides of a line that concerns no slot: who was there, with a new group
/// who will come, and nobody where no line of the group concerns a slot.
fn bystanders(seen: &[Seen], pairs: &[Pair], ends: &[Ends], place: usize) -> Ends {
    let group = seen[place].group;
    let same = |line: usize| seen[line].group == group;
    if place > 0 && same(place - 1) && ends[place - 1] != [None, None] {
        return ends[place - 1];
    }
    let next = (place..seen.len())
        .take_while(|&line| same(line))
        .find_map(|line| Some((line, seen[line].concerns?)));
    match next {
        Some((line, connection)) => pair_of(pairs, line, group, connection),
        None => [None, None],
    }
}
