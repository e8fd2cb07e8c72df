//! Random lists of calls at both ends that keep to the premises, and what they
//! reach. Connections come one after the other and beside each other, in slots that
//! others used before; every one of them has a course of its own, which sees all
//! calls at an end from its beginning until its slot there closes.

use std::collections::VecDeque;
use std::time::{Duration, Instant};

use super::course::{Coming, Course, Premise};
use super::{other, Event, Names, FAR, NEAR};
use crate::generate::{message_of, told_in};
use crate::links::Role;
use crate::llc::{Fields, DELETE_LINK, TEST_LINK};
use crate::random::Random;
use crate::replay::{Answer, Line, Replay};
use crate::smcr::*;

/// How many calls a list has, but for the run-up of a long one.
pub const EVENTS: usize = 1_500;
/// One list in so many passes wrap number and sequence number 65,535.
pub const LONG: u64 = 150;
/// The last calls that a failure shows.
const RECENT: usize = 30;

macro_rules! counts {
    ($($name:ident: $text:literal,)*) => {
        /// What lists reached.
        #[derive(Clone, Debug, Default, PartialEq, Eq)]
        pub struct Counts {
            $(pub $name: u64,)*
        }

        impl Counts {
            pub fn rows(&self) -> Vec<(&'static str, u64)> {
                vec![$(($text, self.$name),)*]
            }

            pub fn add(&mut self, more: &Counts) {
                $(self.$name += more.$name;)*
            }
        }
    };
}

counts! {
    lists: "lists",
    events: "calls",
    elsewhere: "calls on other slots, links, messages of strangers",
    connections: "connections opened at both ends",
    early_sends: "sends before the other end was open",
    taken: "bytes taken",
    read: "bytes read",
    sends: "sends that took bytes",
    urgent: "urgent sends taken whole",
    waits: "sends that took nothing while an urgent place stood",
    gathers: "gathers that took bytes",
    pieces: "gathers of three pieces",
    cut_short: "sends cut short",
    places: "places",
    parts: "places of a part of what a message announces",
    joined: "places over what two messages announce",
    again: "places of a byte placed before",
    ahead: "places of what a later message announces",
    out_of_order: "places of a byte before an earlier one",
    empty: "places of no bytes",
    refused_7: "places refused with 7",
    heard: "messages heard",
    reserved: "messages heard with reserved bits on",
    failovers: "F messages heard",
    updates: "messages made by reads",
    urged: "messages made by hears",
    told_near: "moves of near that tell",
    told_far: "moves of far that tell",
    silent: "moves that do not tell",
    by_message: "moves by link message",
    several: "link calls that moved two slots or more",
    moved_often: "connections that moved three times or more",
    down: "calls refused while the own link was down",
    laps: "laps of an element",
    wraps: "directions past wrap number 65,535",
    numbers: "ends past sequence number 65,535",
    shutdowns: "shutdowns",
    resets: "closes that reset",
    closed_by_c: "slots closed by both C",
    closed_by_a: "slots closed by A heard",
    freed: "slots freed",
    left_behind: "bytes under way to a slot when it was freed",
    again_safe: "opens in a slot that closed safely",
    again_freed: "opens in a slot that was freed, what was under way known gone",
    again_same: "opens in the same slots with the same tokens, nothing under way",
    again_early: "opens in a slot whose old peer is still open",
    struck: "strangers' calls on the connection, refused, that changed nothing",
    nothing_lost: "points at which all that was taken was read",
    none_to_come: "points at which a closed slot had nothing to come",
}

impl Counts {
    /// The rows, one to a line.
    pub fn text(&self) -> String {
        let row = |(name, count): (&str, u64)| format!("{count:>12} {name}\n");
        self.rows().into_iter().map(row).collect()
    }

    pub fn missing(&self) -> Vec<&'static str> {
        let none = |(_, count): &(&str, u64)| *count == 0;
        let missing = self.rows().into_iter().filter(none);
        missing.map(|(name, _)| name).collect()
    }
}

/// How the ends of a connection go, once its life is over.
#[derive(Clone, Copy, Debug, PartialEq, Eq)]
enum Ending {
    Orderly,
    Abort,
    Free,
}

/// A connection and what the lists need to know of it.
struct Live {
    course: Course,
    ending: Ending,
    /// Calls left before it begins to end.
    life: i64,
    moves: [u64; 2],
    counted: bool,
}

/// What was in a slot before.
#[derive(Clone, Copy)]
struct Past {
    freed: bool,
    /// Both names where both ends closed safely with nothing under way.
    quiet: Option<[Names; 2]>,
}

struct World {
    random: Random,
    ends: [Replay; 2],
    /// The keys and bases of each group's memory, by links of the other.
    reach: [[(u32, u64); LINKS]; 2],
    lives: Vec<Live>,
    past: [Vec<Option<Past>>; 2],
    next_token: u32,
    /// Old messages, which no slot hears any more.
    stale: Vec<(usize, Bytes44)>,
    recent: VecDeque<Event>,
    counts: Counts,
}

/// A list from a seed: what it reached, or what came out wrong.
pub fn list(seed: u64, events: usize) -> Result<Counts, String> {
    let long = seed % LONG == 0;
    let mut world = World::new(seed, long);
    let mut run = || {
        if long {
            world.run_up()?;
        }
        let start = world.counts.events;
        while world.counts.events < start + events as u64 {
            world.act()?;
        }
        Ok(())
    };
    run().map_err(|wrong: String| {
        let recent: Vec<String> = world.recent.iter().map(Event::text).collect();
        format!("seed {seed}: {wrong}\n{}\n", recent.join("\n"))
    })?;
    world.counts.lists = 1;
    for which in (0..world.lives.len()).rev() {
        world.count_course(which);
    }
    Ok(world.counts)
}

/// `model pair SECONDS [SEED]`: lists from a seed on for so long.
pub fn run_for(seconds: u64, first: u64) -> Result<Counts, String> {
    let end = Instant::now() + Duration::from_secs(seconds);
    let mut counts = Counts::default();
    for seed in first.. {
        counts.add(&list(seed, EVENTS)?);
        if Instant::now() >= end {
            break;
        }
    }
    Ok(counts)
}

fn active(group: &Group, link: u8) -> bool {
    group.links[usize::from(link) - 1]
}

impl World {
    fn new(seed: u64, long: bool) -> World {
        let mut random = Random::new(seed);
        let roles = if random.chance(1, 2) {
            [Role::Client, Role::Server]
        } else {
            [Role::Server, Role::Client]
        };
        let sizes = [0, 1].map(|_| match random.below(8) {
            _ if long => random.between(8, 9),
            0 => 8,
            1 => random.between(100, 300),
            _ => random.between(8, 40),
        } as u32);
        let slots = [0, 1].map(|_| random.between(1, 5) as u32);
        let ends = [0, 1].map(|side: usize| {
            let (slots, size) = (slots[side], sizes[side]);
            let mut replay = Replay::new();
            replay.group =
                Group::fresh(slots, size, slots as usize * size as usize, slots as usize);
            replay.group.role = roles[side];
            replay
        });
        let reach = [0, 1].map(|side: usize| {
            let length = u64::from(slots[side]) * u64::from(sizes[side]);
            [0; LINKS].map(|_| {
                let base = match random.below(4) {
                    0 => 0,
                    1 => u64::MAX - length + 1,
                    _ => random.draw() >> 16,
                };
                (random.draw() as u32 >> random.below(32), base)
            })
        });
        World {
            random,
            past: [0, 1].map(|side: usize| vec![None; slots[side] as usize]),
            ends,
            reach,
            lives: Vec::new(),
            next_token: 1,
            stale: Vec::new(),
            recent: VecDeque::new(),
            counts: Counts::default(),
        }
    }

    fn group(&self, side: usize) -> &Group {
        &self.ends[side].group
    }

    /// Makes a call and shows it to every course that is not over at that end.
    fn make(&mut self, side: usize, line: Line) -> Result<Answer, String> {
        let before = self.ends[side].group.clone();
        let answer = self.ends[side].execute(&line);
        let after = &self.ends[side].group;
        if self.recent.len() == RECENT {
            self.recent.pop_front();
        }
        self.recent.push_back(Event {
            side,
            line: line.clone(),
            answer: answer.clone(),
        });
        self.counts.events += 1;
        for live in &mut self.lives {
            let course = &mut live.course;
            if course.ends[side].is_closed() {
                continue;
            }
            let was = course.ends[side].record;
            course.see(side, &line, &answer, &before, after);
            if !course.met_until_each() {
                let broken: Vec<&Premise> = course.broken.iter().collect();
                return Err(format!("the list breaks {broken:?}"));
            }
            if let Some(wrong) = course.wrong.first() {
                return Err(wrong.words());
            }
            let end = &course.ends[side];
            if was.open && was.link != end.record.link && end.is_open() {
                live.moves[side] += 1;
                match (was.abort_sent, side) {
                    (true, _) => self.counts.silent += 1,
                    (false, NEAR) => self.counts.told_near += 1,
                    (false, _) => self.counts.told_far += 1,
                }
                self.counts.by_message += u64::from(matches!(line, Line::LinkMsg { .. }));
            }
            if end.is_closed() {
                let counts = &mut self.counts;
                if end.freed {
                    counts.freed += 1;
                    counts.left_behind += end.owed().count() as u64;
                } else if matches!(&line, Line::Hear { bytes } if bytes[25] & FLAG_ABORT != 0) {
                    counts.closed_by_a += 1;
                } else {
                    counts.closed_by_c += 1;
                }
                self.past[side][end.index()] = Some(Past {
                    freed: end.freed,
                    quiet: None,
                });
            }
            if !live.counted && live.course.ends.iter().all(|end| end.opened) {
                live.counted = true;
                self.counts.connections += 1;
            }
        }
        self.counts.several += u64::from(told_in(&answer).len() >= 2);
        self.retire();
        Ok(answer)
    }

    /// Takes out the courses that are over at both ends.
    fn retire(&mut self) {
        for which in (0..self.lives.len()).rev() {
            let ends = &self.lives[which].course.ends;
            if !ends.iter().all(|end| end.is_closed()) {
                continue;
            }
            let safe = ends.iter().all(|end| !end.freed && end.coming.is_empty());
            if safe {
                let names = [ends[NEAR].names, ends[FAR].names];
                for side in 0..2 {
                    if let Some(past) = &mut self.past[side][ends[side].index()] {
                        past.quiet = Some(names);
                    }
                }
            }
            for side in 0..2 {
                let first = ends[side].first_message().copied();
                self.stale.extend(first.map(|bytes| (side, bytes)));
            }
            self.count_course(which);
        }
    }

    fn count_course(&mut self, which: usize) {
        let live = self.lives.swap_remove(which);
        let counts = &mut self.counts;
        counts.nothing_lost += live.course.nothing_lost;
        counts.none_to_come += live.course.none_to_come;
        counts.moved_often += u64::from(live.moves.iter().sum::<u64>() >= 3);
        for side in 0..2 {
            let (end, peer) = (&live.course.ends[side], &live.course.ends[other(side)]);
            counts.taken += end.took.len() as u64;
            counts.read += end.got.len() as u64;
            let laps = end.plain.q / peer.d();
            counts.laps += laps as u64;
            counts.wraps += u64::from(laps >= WRAPS);
            counts.numbers += u64::from(end.plain.made >= WRAPS);
        }
    }

    /// One thing more.
    fn act(&mut self) -> Result<(), String> {
        let side = self.random.below(2) as usize;
        match self.random.below(100) {
            0..=3 => self.change_links(side),
            4..=9 => self.elsewhere(side),
            10..=11 => {
                if self.lives.len() < 4 {
                    self.begin();
                }
                Ok(())
            }
            12..=14 => self.stranger(side),
            _ if self.lives.is_empty() => {
                self.begin();
                self.change_links(side)
            }
            _ => {
                let which = self.random.below(self.lives.len() as u64) as usize;
                self.go_on(which, side)
            }
        }
    }

    /// Slots that no course has, or will have.
    fn spare_slots(&self, side: usize) -> Vec<u32> {
        let spare = |slot: &u32| {
            let has = |live: &Live| {
                let end = &live.course.ends[side];
                end.names.slot == *slot && !end.is_closed()
            };
            !self.lives.iter().any(has)
        };
        let slots = 1..=self.group(side).elements;
        slots.filter(spare).collect()
    }

    /// Names two closed slots, for a connection that neither end has opened yet.
    fn begin(&mut self) {
        let mut names = Vec::new();
        for side in 0..2 {
            let closed = |slot: &u32| !self.group(side).table[*slot as usize - 1].open;
            let slots: Vec<u32> = self.spare_slots(side).into_iter().filter(closed).collect();
            if slots.is_empty() {
                return;
            }
            self.next_token += 1;
            names.push(Names {
                slot: *self.random.pick(&slots),
                own: self.next_token,
                link: self.random.between(1, 4) as u8,
                reach: self.reach[side],
            });
        }
        let mut names = [names[NEAR], names[FAR]];
        let quiet = self.past[NEAR][names[NEAR].slot as usize - 1].and_then(|past| past.quiet);
        if let Some(old) = quiet.filter(|_| self.random.chance(1, 2)) {
            let far = self.past[FAR][old[FAR].slot as usize - 1].and_then(|past| past.quiet);
            let free = self.spare_slots(FAR).contains(&old[FAR].slot)
                && !self.group(FAR).table[old[FAR].slot as usize - 1].open;
            if far == quiet && free {
                for side in 0..2 {
                    names[side].slot = old[side].slot;
                    names[side].own = old[side].own;
                }
            }
        }
        let sizes = [self.group(NEAR).size, self.group(FAR).size];
        self.lives.push(Live {
            course: Course::new(names, sizes),
            ending: *self
                .random
                .pick(&[Ending::Orderly, Ending::Abort, Ending::Free]),
            life: self.random.between(20, 300),
            moves: [0; 2],
            counted: false,
        });
    }

    /// Opens an end: the link that was named may be down, and is then named anew.
    fn open(&mut self, which: usize, side: usize) -> Result<(), String> {
        let links: Vec<u8> = (1..=4)
            .filter(|&link| active(self.group(side), link))
            .collect();
        let Some(&link) = links.get(self.random.below(links.len() as u64) as usize) else {
            return Ok(());
        };
        self.lives[which].course.ends[side].names.link = link;
        let opening = self.lives[which].course.opening(side);
        let index = opening.slot as usize - 1;
        let old_peer = self.lives.iter().any(|live| {
            let ends = &live.course.ends;
            ends[side].index() == index && ends[side].is_closed() && ends[other(side)].is_open()
        });
        let answer = self.make(side, Line::Open { opening })?;
        if answer != Answer::Word("open") {
            return Err(format!("an open was refused: {answer:?}"));
        }
        if let Some(past) = self.past[side][index].take() {
            let tokens = |names: [Names; 2]| names[side].own == opening.own_token;
            self.counts.again_safe += u64::from(!past.freed);
            self.counts.again_freed += u64::from(past.freed);
            self.counts.again_same += u64::from(past.quiet.is_some_and(tokens));
            self.counts.again_early += u64::from(old_peer);
        }
        Ok(())
    }

    /// A call of a connection at an end, or what stands in for it.
    fn go_on(&mut self, which: usize, side: usize) -> Result<(), String> {
        let end = &self.lives[which].course.ends[side];
        if end.is_closed() {
            return Ok(());
        }
        if !end.opened {
            if self.random.chance(1, 6) {
                return self.open(which, side);
            }
            return self.too_early(which, side);
        }
        let record = end.record;
        let link_up = active(self.group(side), record.link);
        self.lives[which].life -= 1;
        if self.lives[which].life < 0 && self.random.chance(1, 6) {
            return self.end(which, side);
        }
        match self.random.below(100) {
            0..=29 => self.send(which, side),
            30..=54 if link_up => self.perform(which, side),
            55..=77 if link_up => self.hear(which, side),
            78..=97 => self.read(which, side),
            98 if link_up => self.place_nothing(which, side),
            99 if self.random.chance(1, 40) => self.end(which, side),
            _ => Ok(()),
        }
    }

    /// What reaches a slot before its open is refused and counts for nothing.
    fn too_early(&mut self, which: usize, side: usize) -> Result<(), String> {
        let end = &self.lives[which].course.ends[side];
        let line = match end.coming.front() {
            Some(_) if self.random.chance(1, 8) => match end.first_message() {
                Some(bytes) if self.random.chance(1, 2) => Line::Hear {
                    bytes: bytes.to_vec(),
                },
                _ => Line::Place {
                    slot: end.names.slot,
                    offset: 4,
                    bytes: vec![9],
                },
            },
            _ => return Ok(()),
        };
        self.counts.elsewhere += 1;
        self.make(side, line).map(|_| ())
    }

    fn count_down(&mut self, answer: &Answer) {
        self.counts.down += u64::from(answer.refusal() == Some(6));
    }

    fn send(&mut self, which: usize, side: usize) -> Result<(), String> {
        let ends = &self.lives[which].course.ends;
        let (slot, stood) = (
            ends[side].names.slot,
            ends[side].record.urgent_sent.is_some(),
        );
        let early = !ends[other(side)].opened;
        let most = ends[other(side)].d() + 3;
        let length = self.random.between(0, most) as usize;
        let bytes = self.random.bytes(length);
        let line = match self.random.below(6) {
            0 => Line::Urgent { slot, bytes },
            1 | 2 => {
                let at = self.random.below(length as u64 + 1) as usize;
                Line::Gather {
                    slot,
                    head: bytes[..at].to_vec(),
                    body: bytes[at..].to_vec(),
                }
            }
            _ => Line::Send { slot, bytes },
        };
        let answer = self.make(side, line)?;
        self.count_down(&answer);
        let counts = &mut self.counts;
        let taken = match &answer {
            Answer::Sent(sent) => sent.taken,
            Answer::Urgent(sent) => {
                counts.urgent += u64::from(sent.taken > 0 && sent.taken == length as i64);
                sent.taken
            }
            Answer::Gathered(gathered) => {
                counts.gathers += u64::from(gathered.taken > 0);
                counts.pieces += u64::from(gathered.pieces.len() == 4);
                gathered.taken
            }
            _ => return Ok(()),
        };
        counts.sends += u64::from(taken > 0);
        counts.waits += u64::from(stood && length > 0);
        counts.cut_short += u64::from(!stood && taken < length as i64);
        counts.early_sends += u64::from(early && taken > 0);
        Ok(())
    }

    /// Performs some of what is under way: a run of offsets to each of which a byte
    /// is under way, performed already or not.
    fn perform(&mut self, which: usize, side: usize) -> Result<(), String> {
        let end = &self.lives[which].course.ends[side];
        let data = |offset: &u64| 4 <= *offset && *offset < u64::from(end.size);
        let owed: Option<Vec<_>> = end
            .owed()
            .map(|(messages, lands, owed)| Some((messages, lands.filter(data)?, *owed)))
            .collect();
        let owed = owed.ok_or("a byte under way does not land in the element's data")?;
        if owed.is_empty() {
            return Ok(());
        }
        let slot = end.names.slot;
        let mut at_offset = vec![None; end.size as usize];
        for (place, (_, offset, _)) in owed.iter().enumerate() {
            at_offset[*offset as usize] = Some(place);
        }
        let due: Vec<usize> = (0..owed.len())
            .filter(|&place| owed[place].0 == 0 && !owed[place].2.performed)
            .collect();
        let from = if due.is_empty() || self.random.chance(1, 5) {
            self.random.below(owed.len() as u64) as usize
        } else {
            *self.random.pick(&due)
        };
        let mut first = owed[from].1 as usize;
        while self.random.chance(2, 3) && at_offset[first - 1].is_some() {
            first -= 1;
        }
        let run = at_offset[first..].iter().take_while(|at| at.is_some());
        let longest = run.count();
        let length = if self.random.chance(1, 2) {
            longest
        } else {
            self.random.between(1, longest as i64) as usize
        };
        let placed: Vec<usize> = at_offset[first..first + length]
            .iter()
            .flatten()
            .copied()
            .collect();
        let counts = &mut self.counts;
        counts.places += 1;
        let groups = |place: &usize| owed[*place].0;
        let lowest = placed.iter().map(groups).min().unwrap_or(0);
        let highest = placed.iter().map(groups).max().unwrap_or(0);
        let whole = owed.iter().filter(|byte| byte.0 == highest).count();
        counts.parts += u64::from(lowest == highest && placed.len() < whole);
        counts.joined += u64::from(lowest < highest);
        counts.ahead += u64::from(highest > 0);
        counts.again += u64::from(placed.iter().any(|&place| owed[place].2.performed));
        let earliest = placed.iter().min().copied().unwrap_or(0);
        counts.out_of_order += u64::from(owed[..earliest].iter().any(|byte| !byte.2.performed));
        let line = Line::Place {
            slot,
            offset: first as u32,
            bytes: placed.iter().map(|&place| owed[place].2.value).collect(),
        };
        self.place(side, line)
    }

    fn place_nothing(&mut self, which: usize, side: usize) -> Result<(), String> {
        self.counts.empty += 1;
        let line = Line::Place {
            slot: self.lives[which].course.ends[side].names.slot,
            offset: self.random.draw() as u32 >> self.random.below(32),
            bytes: Vec::new(),
        };
        self.place(side, line)
    }

    fn place(&mut self, side: usize, line: Line) -> Result<(), String> {
        let answer = self.make(side, line)?;
        self.counts.refused_7 += u64::from(answer.refusal() == Some(7));
        Ok(())
    }

    /// Hears the first message under way, once all before it is performed.
    fn hear(&mut self, which: usize, side: usize) -> Result<(), String> {
        let end = &self.lives[which].course.ends[side];
        let Some(mut bytes) = end.first_message().copied() else {
            return Ok(());
        };
        if !end.all_performed() {
            return self.perform(which, side);
        }
        let message = Message::read(&bytes);
        if self.random.chance(1, 8) {
            for at in [8, 9, 16, 17].into_iter().chain(26..MESSAGE_BYTES) {
                bytes[at] = self.random.draw() as u8;
            }
            bytes[24] |= self.random.below(8) as u8;
            bytes[25] |= self.random.below(32) as u8;
            self.counts.reserved += 1;
        }
        let failover = message.is_some_and(|message| message.failover);
        let bytes = bytes.to_vec();
        let answer = self.make(side, Line::Hear { bytes })?;
        self.counts.heard += 1;
        self.counts.failovers += u64::from(failover);
        self.counts.urged += u64::from(message_of(&answer).is_some());
        Ok(())
    }

    fn read(&mut self, which: usize, side: usize) -> Result<(), String> {
        let end = &self.lives[which].course.ends[side];
        let slot = end.names.slot;
        let room = self.random.between(0, end.d() + 2) as usize;
        let answer = self.make(side, Line::Read { slot, room })?;
        self.count_down(&answer);
        self.counts.updates += u64::from(message_of(&answer).is_some());
        Ok(())
    }

    /// A call that ends the connection at this end, or brings its end nearer.
    fn end(&mut self, which: usize, side: usize) -> Result<(), String> {
        let live = &self.lives[which];
        let end = &live.course.ends[side];
        let slot = end.names.slot;
        let unread = end.record.unread(end.n());
        let line = match live.ending {
            _ if end.record.abort_sent => {
                if live.ending == Ending::Free && self.random.chance(1, 3) {
                    Line::Free { slot }
                } else {
                    return Ok(());
                }
            }
            Ending::Orderly if unread > 0 && self.random.chance(9, 10) => Line::Read {
                slot,
                room: unread as usize,
            },
            Ending::Orderly if self.random.chance(1, 3) => Line::Shutdown { slot },
            Ending::Orderly => Line::Close { slot },
            _ if self.random.chance(1, 4) => Line::Shutdown { slot },
            _ if self.random.chance(1, 6) => Line::Close { slot },
            _ => Line::Abort { slot },
        };
        let answer = self.make(side, line)?;
        self.count_down(&answer);
        self.counts.shutdowns += u64::from(matches!(answer, Answer::Made("shutdown", _)));
        self.counts.resets += u64::from(matches!(answer, Answer::Made("reset", _)));
        Ok(())
    }

    /// A link comes up or goes down, now and then the last one; a connection whose
    /// link is down waits until that one is up again.
    fn change_links(&mut self, side: usize) -> Result<(), String> {
        let group = self.group(side);
        let up: Vec<u8> = (1..=4).filter(|&link| active(group, link)).collect();
        let stranded = |c: &&Connection| c.open && !active(group, c.link);
        let stranded = group.table.iter().find(stranded).map(|c| c.link);
        let link = match stranded {
            Some(link) if self.random.chance(2, 3) => link,
            _ => self.random.between(1, 4) as u8,
        };
        let goes_up = !up.contains(&link);
        if !goes_up && up == [link] && self.random.chance(4, 5) {
            return Ok(());
        }
        let lines = match (goes_up, self.random.below(4)) {
            (false, 0) if up.len() >= 2 => self.delete_link(side, link, &up),
            _ => vec![Line::Link {
                link,
                up: goes_up,
                room: None,
            }],
        };
        for line in lines {
            self.make(side, line)?;
            self.counts.elsewhere += 1;
        }
        Ok(())
    }

    /// DELETE LINK, over a link that stays; rarely of the whole group.
    fn delete_link(&mut self, side: usize, link: u8, up: &[u8]) -> Vec<Line> {
        let over = up.iter().copied().find(|&over| over != link).unwrap_or(0);
        let whole = u64::from(self.random.chance(1, 20));
        let delete = Fields::zero(DELETE_LINK)
            .with("link", u64::from(link))
            .with("A", whole);
        let heard = |fields: &Fields| Line::LinkMsg {
            link: over,
            bytes: fields.write().to_vec(),
            room: None,
        };
        match self.group(side).role {
            Role::Client => vec![heard(&delete)],
            Role::Server => vec![
                Line::LinkSend {
                    link: over,
                    fields: delete.clone(),
                    room: None,
                },
                heard(&delete.with("R", 1)),
            ],
        }
    }

    /// A call that is of no connection followed here: on slots of others, on links,
    /// an old message, a malformed one.
    fn elsewhere(&mut self, side: usize) -> Result<(), String> {
        self.counts.elsewhere += 1;
        let slots = self.spare_slots(side);
        let slot = if slots.is_empty() {
            self.group(side).elements + 1
        } else {
            *self.random.pick(&slots)
        };
        let record = self.group(side).table.get(slot as usize - 1).copied();
        let record = record.unwrap_or_default();
        let size = self.group(side).size;
        let length = self.random.below(6) as usize;
        let bytes = self.random.bytes(length);
        let line = match self.random.below(15) {
            0 | 1 => {
                self.next_token += 1;
                let link = self.random.between(1, 4) as u8;
                Line::Open {
                    opening: Opening::at_base_0(slot, self.next_token, 7, link, size),
                }
            }
            2 => Line::Send { slot, bytes },
            3 => Line::Urgent { slot, bytes },
            4 | 5 => Line::Place {
                slot,
                offset: self.random.below(u64::from(size) + 2) as u32,
                bytes,
            },
            6 | 7 if record.open => Line::Hear {
                bytes: self.forged(&record, size).to_vec(),
            },
            8 => Line::Read { slot, room: 9 },
            9 => Line::Close { slot },
            10 => Line::Abort { slot },
            11 => Line::Free { slot },
            12 => Line::LinkMsg {
                link: self.random.between(1, 4) as u8,
                bytes: Fields::zero(TEST_LINK).write().to_vec(),
                room: None,
            },
            13 => Line::Sample {
                link: self.random.between(1, 4) as u8,
                milliseconds: self.random.below(100) as u32,
            },
            _ => match self.stale.pop() {
                // Its token may be in use again, which would make it another's.
                Some((at, bytes)) if !self.token_named(at, &bytes) => {
                    self.make(
                        at,
                        Line::Hear {
                            bytes: bytes.into(),
                        },
                    )?;
                    return Ok(());
                }
                _ => Line::Hear { bytes },
            },
        };
        self.make(side, line).map(|_| ())
    }

    fn token_named(&self, side: usize, bytes: &Bytes44) -> bool {
        let token = Message::read(bytes).map(|message| message.token);
        self.lives
            .iter()
            .any(|live| Some(live.course.ends[side].names.own) == token)
    }

    /// What a peer that is not here might say.
    fn forged(&mut self, record: &Connection, size: u32) -> Bytes44 {
        let window = record.peer_window(i64::from(size));
        let by = self.random.between(0, window);
        Message {
            sequence: record.heard_sequence.wrapping_add(1),
            token: record.own_token,
            producer: step(record.peer_producer, by, i64::from(size)),
            consumer: record.producer,
            update_requested: self.random.chance(1, 2),
            abort: self.random.chance(1, 10),
            ..Message::default()
        }
        .write()
    }

    /// A stranger's call on a connection, or a late duplicate, tried on a copy. One
    /// that is refused may stand in the list, and must leave everything as it was; any
    /// other is not made.
    fn stranger(&mut self, side: usize) -> Result<(), String> {
        if self.lives.is_empty() {
            return Ok(());
        }
        let which = self.random.below(self.lives.len() as u64) as usize;
        let end = &self.lives[which].course.ends[side];
        if !end.is_open() {
            return Ok(());
        }
        let messages: Vec<Bytes44> = end
            .coming
            .iter()
            .filter_map(|coming| match coming {
                Coming::Message(bytes) => Some(*bytes),
                Coming::Byte(_) => None,
            })
            .collect();
        let (slot, record, size) = (end.names.slot, end.record, end.size);
        let line = match self.random.below(3) {
            0 => {
                let length = self.random.between(1, 5) as usize;
                Line::Place {
                    slot,
                    offset: self.random.below(u64::from(size) + 2) as u32,
                    bytes: self.random.bytes(length),
                }
            }
            1 if messages.len() >= 2 => {
                let later = self.random.between(1, messages.len() as i64 - 1) as usize;
                Line::Hear {
                    bytes: messages[later].to_vec(),
                }
            }
            _ => {
                let mut again = Message::read(&self.forged(&record, size)).unwrap_or_default();
                again.sequence = again
                    .sequence
                    .wrapping_sub(self.random.between(1, 3) as u16);
                Line::Hear {
                    bytes: again.write().to_vec(),
                }
            }
        };
        let mut tried = self.ends[side].clone();
        if tried.execute(&line).refusal().is_some() {
            if tried != self.ends[side] {
                return Err(format!("a refused call changed something: {line:?}"));
            }
            self.counts.struck += 1;
        }
        Ok(())
    }

    /// Brings a connection to within a few laps of wrap number 65,535, by the calls
    /// themselves: each lap fills an element and empties it.
    fn run_up(&mut self) -> Result<(), String> {
        for side in 0..2 {
            let (link, up, room) = (1 + side as u8, true, None);
            self.make(side, Line::Link { link, up, room })?;
        }
        self.begin();
        self.lives[0].life = 400;
        self.open(0, NEAR)?;
        self.open(0, FAR)?;
        let both = self.random.chance(1, 2);
        let first = self.random.below(2) as usize;
        let near_it =
            (WRAPS - self.random.between(1, 8)) * self.lives[0].course.ends[other(first)].d();
        while self.lives[0].course.ends[first].plain.q < near_it {
            self.lap(first)?;
            if both {
                self.lap(other(first))?;
            }
        }
        Ok(())
    }

    fn lap(&mut self, side: usize) -> Result<(), String> {
        let ends = &self.lives[0].course.ends;
        let (slot, to) = (ends[side].names.slot, ends[other(side)].names.slot);
        let length = ends[other(side)].d() as usize;
        let bytes = self.random.bytes(length);
        let Answer::Sent(sent) = self.make(side, Line::Send { slot, bytes })? else {
            return Err("a lap's send was refused".to_string());
        };
        self.counts.sends += u64::from(sent.taken > 0);
        while !self.lives[0].course.ends[other(side)].all_performed() {
            self.perform(0, other(side))?;
        }
        self.hear(0, other(side))?;
        let room = length;
        let answer = self.make(other(side), Line::Read { slot: to, room })?;
        self.counts.updates += u64::from(message_of(&answer).is_some());
        self.hear(0, side)
    }
}
