//! What happens next: random steps, by what the ends have come to.

use crate::breaks::Fault;
use crate::call::{other, How};
use crate::plain::WRAPS;
use crate::random::Random;
use crate::world::{Act, Setup, Step, World};
use fordlinnet::RToken;

/// How a connection goes, once its time has come.
#[derive(Clone, Copy, Debug, PartialEq, Eq)]
enum Ending {
    Orderly,
    Abort,
    Free,
}

#[derive(Clone, Copy, Debug)]
struct Plan {
    id: usize,
    /// Steps left before it begins to end.
    life: i64,
    ending: Ending,
}

pub struct Traffic {
    random: Random,
    next_id: usize,
    plans: Vec<Plan>,
    /// Steps that are to come before others.
    due: Vec<Step>,
    /// Laps to be run before anything else, and the side that sends them.
    laps: u64,
    runner: usize,
    faults: bool,
}

/// One list in so many takes a connection past wrap number and sequence number 65,535.
pub const LONG: u64 = 2_000;

/// Groups for a list of a seed.
pub fn setup(seed: u64) -> Setup {
    let mut random = Random::new(seed ^ 0xA5A5_0000);
    let long = seed % LONG == 0;
    let sizes = [0, 1].map(|_| match random.below(16) {
        _ if long => random.between(8, 9),
        0 | 1 => 8,
        _ if seed % LONG == 1 => 65_540,
        2 => random.between(41, 300),
        3 if random.chance(1, 4) => random.between(301, 2_000),
        _ => random.between(8, 40),
    });
    let slots = [0, 1].map(|_| if long { 1 } else { random.between(1, 5) });
    let reach = [0, 1].map(|side: usize| {
        let length = u64::from(slots[side]) * u64::from(sizes[side]);
        [0; 4].map(|_| {
            let base = match random.below(4) {
                0 => 0,
                1 => u64::MAX - length + 1,
                _ => random.draw() >> 16,
            };
            RToken { key: random.draw() as u32 >> random.below(32), base }
        })
    });
    Setup { slots, sizes, reach, server: random.index(2), seed: Some(seed), fault: None, mended: false }
}

/// Small groups for a list in which a premise is broken.
pub fn small_setup(seed: u64, fault: Fault) -> Setup {
    let mut random = Random::new(seed ^ 0x5A5A_0000);
    let sizes = if fault == Fault::Size { [random.between(8, 9), random.between(8, 9)] } else { [8, 8] };
    let slots = [0, 1].map(|_| random.between(1, 2));
    let reach = [0u32, 1]
        .map(|side| [1u32, 2, 3, 4].map(|link| RToken { key: 10 * (side + 1) + link, base: 1000 * u64::from(10 * (side + 1) + link) }));
    Setup { slots, sizes, reach, server: 0, seed: None, fault: Some(fault), mended: false }
}

impl Traffic {
    pub fn new(seed: u64, faults: bool) -> Traffic {
        let mut random = Random::new(seed);
        let laps = if !faults && seed % LONG == 0 { WRAPS - random.below(8) } else { 0 };
        let runner = random.index(2);
        Traffic { random, next_id: 1, plans: Vec::new(), due: Vec::new(), laps, runner, faults }
    }

    /// Whether laps are still to be run.
    pub fn runs_up(&self) -> bool {
        self.laps > 0
    }

    pub fn next(&mut self, world: &World) -> Step {
        if let Some(step) = self.due.pop() {
            return step;
        }
        if self.laps > 0 {
            return self.lap(world);
        }
        let side = self.random.index(2);
        let most = if self.faults { 2 } else { 4 };
        let count = world.lives.len();
        match self.random.below(100) {
            0..=2 => return self.links(world, side),
            3..=8 if count < most => {
                if let Some(step) = self.begin(world) {
                    return step;
                }
            }
            9..=12 => {
                let freed: Vec<u32> = world.freed(side).collect();
                if !freed.is_empty() {
                    return Step { side, id: 0, act: Act::Gone { slot: self.random.pick(&freed) } };
                }
            }
            13..=27 if self.faults && count > 0 => {
                let id = world.lives[self.random.index(count)].id;
                let act = Act::Fault { a: self.random.below(16) as u32, b: self.random.below(4) as u32 };
                return Step { side, id, act };
            }
            _ => {}
        }
        if count == 0 {
            return self.begin(world).unwrap_or_else(|| self.links(world, side));
        }
        let books = &world.lives[self.random.index(count)];
        let id = books.id;
        let side = if books.ends[side].closed.is_some() { other(side) } else { side };
        Step { side, id, act: self.go_on(world, id, side) }
    }

    fn begin(&mut self, world: &World) -> Option<Step> {
        let slots = [0, 1].map(|side: usize| {
            let may: Vec<u32> = (1..=world.setup.slots[side]).filter(|slot| world.may_begin(side, *slot)).collect();
            if may.is_empty() {
                0
            } else {
                self.random.pick(&may)
            }
        });
        if slots.contains(&0) {
            return None;
        }
        let id = self.next_id;
        self.next_id += 1;
        let ending = match world.setup.fault {
            Some(Fault::ReuseAfterFree | Fault::SameToken) => Ending::Free,
            Some(Fault::AbortFirst) => Ending::Abort,
            _ => self.random.pick(&[Ending::Orderly, Ending::Abort, Ending::Free]),
        };
        let life = match world.setup.fault {
            Some(Fault::ReuseAfterFree | Fault::SameToken | Fault::AbortFirst) => self.random.between(1, 12),
            Some(_) => self.random.between(3, 40),
            None => self.random.between(20, 300),
        };
        self.plans.retain(|plan| world.live(plan.id).is_some());
        self.plans.push(Plan { id, life: i64::from(life), ending });
        Some(Step { side: 0, id, act: Act::Begin { slots } })
    }

    /// A link comes up or goes down, now and then the last one.
    fn links(&mut self, world: &World, side: usize) -> Step {
        let up: Vec<u8> = (1..=4).filter(|link| world.active(side, *link)).collect();
        let stranded = world.groups[side].table().iter().find(|record| record.id.opened && !world.active(side, record.id.link));
        let link = match stranded {
            Some(record) if self.random.chance(2, 3) => record.id.link,
            _ => self.random.between(1, 4) as u8,
        };
        let goes_up = !up.contains(&link);
        if !goes_up && up == [link] && self.random.chance(4, 5) {
            return Step { side, id: 0, act: Act::Link { link: link % 4 + 1, up: true } };
        }
        let over = up.iter().copied().find(|over| *over != link);
        let act = match over {
            Some(over) if !goes_up && self.random.chance(1, 4) => Act::Delete { link, over },
            _ => Act::Link { link, up: goes_up },
        };
        Step { side, id: 0, act }
    }

    fn go_on(&mut self, world: &World, id: usize, side: usize) -> Act {
        let Some(books) = world.live(id) else { return Act::Repeat };
        let end = &books.ends[side];
        if !end.opened {
            let links: Vec<u8> = (1..=4).filter(|link| world.active(side, *link)).collect();
            return match () {
                () if links.is_empty() => Act::Link { link: self.random.between(1, 4) as u8, up: true },
                () if self.random.chance(1, 4) => Act::Open { link: self.random.pick(&links) },
                () => Act::Hear { noise: 0 },
            };
        }
        let Some(at) = self.plans.iter().position(|plan| plan.id == id) else { return Act::Repeat };
        self.plans[at].life -= 1;
        if self.plans[at].life < 0 && self.random.chance(1, 6) {
            return self.end(end, self.plans[at].ending);
        }
        match self.random.below(100) {
            0..=21 => self.send(books.ends[other(side)].d() as u32),
            22..=47 => self.write(end),
            48..=75 if end.all_performed() => self.hear(),
            48..=75 => self.write(end),
            76..=95 => Act::Read { room: self.random.between(0, end.size - 2) },
            96 => Act::Nothing { offset: self.random.draw() as u32 >> self.random.below(32) },
            97 | 98 => Act::Repeat,
            _ => self.end(end, Ending::Orderly),
        }
    }

    fn send(&mut self, d: u32) -> Act {
        let len = self.random.between(0, d + 3);
        let how = match self.random.below(6) {
            0 => How::Urgent,
            1 | 2 => How::Parted(self.random.between(0, len)),
            _ => How::Plain,
        };
        Act::Send { len, how }
    }

    fn write(&mut self, end: &crate::books::End) -> Act {
        if end.bytes.is_empty() {
            return self.hear();
        }
        let again = self.random.chance(1, 6);
        let pick = if self.random.chance(1, 2) { 0 } else { self.random.below(end.bytes.len() as u64) as u32 };
        let back = if self.random.chance(2, 3) { 0 } else { self.random.between(1, 8) };
        let len = if self.random.chance(1, 2) { 0 } else { self.random.between(1, end.size - 4) };
        Act::Write { pick, back, len, again }
    }

    fn hear(&mut self) -> Act {
        let noise = if !self.faults && self.random.chance(1, 8) { self.random.draw() } else { 0 };
        Act::Hear { noise }
    }

    /// A call that ends the connection here, or brings its end nearer.
    fn end(&mut self, end: &crate::books::End, ending: Ending) -> Act {
        let unread = end.unread();
        match ending {
            _ if end.record.marks.abort => {
                if ending == Ending::Free && self.random.chance(1, 3) {
                    Act::Free
                } else {
                    Act::Hear { noise: 0 }
                }
            }
            Ending::Orderly if unread > 0 && self.random.chance(9, 10) => Act::Read { room: unread },
            Ending::Orderly if self.random.chance(1, 3) => Act::Shutdown,
            Ending::Orderly => Act::Close,
            _ if self.random.chance(1, 4) => Act::Shutdown,
            _ if self.random.chance(1, 6) => Act::Close,
            _ => Act::Abort,
        }
    }

    /// Fills an element, empties it and tells, until a wrap number is near its end.
    fn lap(&mut self, world: &World) -> Step {
        let (from, to) = (self.runner, other(self.runner));
        let at = |side, act| Step { side, id: 1, act };
        let Some(books) = world.live(1) else {
            self.next_id = 2;
            self.plans.push(Plan { id: 1, life: i64::MAX, ending: Ending::Orderly });
            for side in [0, 1] {
                let link = self.random.between(1, 4) as u8;
                self.due.push(at(side, Act::Open { link }));
                self.due.push(at(side, Act::Link { link, up: true }));
            }
            return at(0, Act::Begin { slots: [1, 1] });
        };
        let d = books.ends[to].d() as u32;
        self.laps -= 1;
        if self.laps == 0 {
            self.plans[0].life = 400;
        }
        let write = Act::Write { pick: 0, back: 0, len: 0, again: false };
        let hear = Act::Hear { noise: 0 };
        self.due.extend([at(from, hear), at(to, Act::Read { room: d }), at(to, hear), at(to, write), at(to, write)]);
        at(from, Act::Send { len: d, how: How::Plain })
    }
}
