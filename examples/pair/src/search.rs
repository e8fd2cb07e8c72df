//! Lists of random steps, and the smallest list that shows the same.

use crate::books::{Premise, Wrong};
use crate::breaks::{Break, Harm};
use crate::counts::Counts;
use crate::traffic::{setup, small_setup, Traffic};
use crate::world::{Act, Line, Setup, Step, World};

/// How many calls a list has, but for the run-up of a long one.
pub const CALLS: u64 = 1_500;
/// How many lists are tried for a broken premise, and how many calls each has at most.
const LISTS: u64 = 400;
const SMALL_CALLS: u64 = 150;
/// Longer lists are not made smaller.
const TOO_LONG: usize = 20_000;

/// A list in which something came out wrong.
pub struct Failed {
    pub seed: u64,
    /// How many steps it had before it was made smaller.
    pub steps: usize,
    pub wrong: String,
    pub lines: Vec<Line>,
}

/// A list from a seed.
pub fn list(seed: u64) -> Result<Counts, Failed> {
    let setup = setup(seed);
    let mut world = World::new(setup.clone());
    let mut traffic = Traffic::new(seed, false);
    let mut steps = Vec::new();
    let mut end = CALLS;
    while world.counts.calls() < end {
        if traffic.runs_up() {
            end = world.counts.calls() + CALLS;
        }
        let step = traffic.next(&world);
        if world.step(&step) {
            steps.push(step);
        }
        if let Some(wrong) = amiss(&world) {
            let count = steps.len();
            let same = |world: &World| amiss(world).as_deref().map(first_words) == Some(first_words(&wrong));
            let (setup, steps) = if count > TOO_LONG { (setup, steps) } else { smallest(setup, steps, &same) };
            let (world, lines) = told(setup, &steps, &same);
            let wrong = amiss(&world).unwrap_or(wrong);
            return Err(Failed { seed, steps: count, wrong, lines });
        }
    }
    Ok(world.finish())
}

/// What is amiss where no premise was to be broken.
fn amiss(world: &World) -> Option<String> {
    match world.found.broken.first() {
        Some(premise) => Some(format!("this program broke {premise:?}, which it should keep")),
        None => world.found.wrong.first().map(Wrong::words),
    }
}

/// Two faults are the same where they are said in the same words.
fn first_words(wrong: &str) -> String {
    wrong.chars().filter(|letter| !letter.is_ascii_hexdigit()).collect()
}

/// The smallest run found that breaks a premise alone, and what came of it.
pub struct Shown {
    pub seed: u64,
    pub steps: usize,
    pub lists: u64,
    /// In how many lists it was found.
    pub found: u64,
    pub wrong: Wrong,
    /// The premises that it breaks.
    pub broken: Vec<Premise>,
    pub lines: Vec<Line>,
    /// The same steps without the fault: how many bytes were read.
    pub mended: Result<u64, String>,
}

impl Shown {
    fn calls(&self) -> usize {
        self.lines.len()
    }
}

/// Breaks a premise in many lists, and keeps the smallest.
pub fn show(broken: &Break, first: u64) -> Option<Shown> {
    let mut best: Option<Shown> = None;
    let mut found = 0;
    for seed in first..first + LISTS {
        let Some((setup, steps)) = harmed(broken, seed) else { continue };
        found += 1;
        let count = steps.len();
        let shows = |world: &World| harm_in(broken, world).is_some();
        let (mut setup, mut steps) = smallest(setup, steps, &shows);
        let (mut world, mut lines) = told(setup.clone(), &steps, &shows);
        if harm_in(broken, &world).is_some_and(|wrong| wrong.side == 0) {
            // near sends and far reads
            let (other_setup, other_steps) = exchanged(&setup, &steps);
            if played(&other_setup, &other_steps, &shows) {
                (setup, steps) = (other_setup, other_steps);
                (world, lines) = told(setup.clone(), &steps, &shows);
            }
        }
        let Some(wrong) = harm_in(broken, &world).cloned() else { continue };
        if best.as_ref().is_none_or(|best| lines.len() < best.calls()) {
            let mended = without_fault(setup, &steps);
            best = Some(Shown { seed, steps: count, lists: LISTS, found: 0, wrong, broken: world.found.broken, lines, mended });
        }
    }
    best.map(|best| Shown { found, ..best })
}

/// A list from a seed up to where the harm is done, if it is.
fn harmed(broken: &Break, seed: u64) -> Option<(Setup, Vec<Step>)> {
    let setup = small_setup(seed, broken.fault);
    let mut world = World::new(setup.clone());
    let mut traffic = Traffic::new(seed, true);
    let mut steps = Vec::new();
    for _ in 0..20 * SMALL_CALLS {
        let step = traffic.next(&world);
        if world.step(&step) {
            steps.push(step);
        }
        if harm_in(broken, &world).is_some() {
            return Some((setup, steps));
        }
        if world.counts.calls() >= SMALL_CALLS {
            break;
        }
    }
    None
}

/// The harm, where this premise alone was broken.
fn harm_in<'a>(broken: &Break, world: &'a World) -> Option<&'a Wrong> {
    let harm = world.found.wrong.iter().find(|wrong| Harm::of(&wrong.what) == Some(broken.harm))?;
    broken.fault.alone(&world.found.broken).then_some(harm)
}

fn without_fault(setup: Setup, steps: &[Step]) -> Result<u64, String> {
    let mut world = World::new(Setup { mended: true, ..setup });
    for step in steps {
        world.step(step);
        if let Some(wrong) = amiss(&world) {
            return Err(wrong);
        }
    }
    Ok(world.counts.read)
}

/// Runs the steps until it shows.
fn played(setup: &Setup, steps: &[Step], shows: &dyn Fn(&World) -> bool) -> bool {
    let mut world = World::new(setup.clone());
    steps.iter().any(|step| world.step(step) && shows(&world))
}

/// Runs the steps with every call written down.
fn told(setup: Setup, steps: &[Step], shows: &dyn Fn(&World) -> bool) -> (World, Vec<Line>) {
    let mut world = World::new(setup);
    world.log = Some(Vec::new());
    for step in steps {
        if world.step(step) && shows(&world) {
            break;
        }
    }
    let lines = world.told();
    (world, lines)
}

/// Makes a list smaller as long as it still shows: leaves out runs of steps, shorter and shorter ones, then makes single steps and the
/// groups simpler; and all that again until nothing helps.
fn smallest(mut setup: Setup, mut steps: Vec<Step>, shows: &dyn Fn(&World) -> bool) -> (Setup, Vec<Step>) {
    loop {
        let before = steps.clone();
        let mut size = steps.len().div_ceil(2);
        while size > 0 {
            let mut end = steps.len();
            while end > 0 {
                let start = end.saturating_sub(size);
                let mut fewer = steps.clone();
                fewer.drain(start..end);
                if played(&setup, &fewer, shows) {
                    steps = fewer;
                }
                end = start.min(steps.len());
            }
            size /= 2;
        }
        for place in 0..steps.len() {
            for act in simpler(steps[place].act) {
                let mut changed = steps.clone();
                changed[place].act = act;
                if played(&setup, &changed, shows) {
                    steps = changed;
                    break;
                }
            }
        }
        if steps == before {
            break;
        }
    }
    for (other_setup, other_steps) in renamed(&setup, &steps) {
        if played(&other_setup, &other_steps, shows) {
            (setup, steps) = (other_setup, other_steps);
        }
    }
    (setup, steps)
}

/// Simpler forms of a step, the simplest first. Each is simpler in some part and in none more involved, so this ends.
fn simpler(act: Act) -> Vec<Act> {
    let plain = crate::call::How::Plain;
    let all = match act {
        Act::Begin { slots: [near, far] } => [[1, 1], [1, far], [near, 1]].map(|slots| Act::Begin { slots }).to_vec(),
        Act::Open { link } => (1..link).map(|link| Act::Open { link }).collect(),
        Act::Send { len, how } => {
            let shorter = |how| (1..len).map(move |len| Act::Send { len, how });
            shorter(plain).chain([Act::Send { len, how: plain }]).chain(shorter(how)).collect()
        }
        Act::Write { pick, back, .. } => {
            [(0, 0), (pick, 0), (pick, back)].map(|(pick, back)| Act::Write { pick, back, len: 0, again: false }).to_vec()
        }
        Act::Hear { .. } => vec![Act::Hear { noise: 0 }],
        Act::Read { room } => (1..room).map(|room| Act::Read { room }).collect(),
        Act::Delete { link, .. } => vec![Act::Link { link, up: false }],
        Act::Fault { a, b } => {
            // of an open that does not match: one that does
            let opens = (1..=4).map(|link| Act::Open { link });
            opens.chain([(0, 0), (0, b), (a, 0)].map(|(a, b)| Act::Fault { a, b })).collect()
        }
        _ => Vec::new(),
    };
    all.into_iter().filter(|other| *other != act).collect()
}

/// The same with other names: links and connections numbered from 1, fewer slots.
fn renamed(setup: &Setup, steps: &[Step]) -> Vec<(Setup, Vec<Step>)> {
    let mut all = Vec::new();
    let mut ids: Vec<usize> = Vec::new();
    for step in steps {
        if matches!(step.act, Act::Begin { .. }) && !ids.contains(&step.id) {
            ids.push(step.id);
        }
    }
    let number = |id: usize| ids.iter().position(|known| *known == id).map_or(0, |place| place + 1);
    let mut steps: Vec<Step> = steps.iter().map(|step| Step { id: number(step.id), ..*step }).collect();
    all.push((setup.clone(), steps.clone()));
    // each end's links in the order in which they come up
    let mut used: [Vec<u8>; 2] = [Vec::new(), Vec::new()];
    for step in &mut steps {
        let used = &mut used[step.side];
        if let Act::Link { link, .. } | Act::Open { link } = &mut step.act {
            let place = used.iter().position(|known| known == link).unwrap_or_else(|| {
                used.push(*link);
                used.len() - 1
            });
            *link = place as u8 + 1;
        }
    }
    all.push((setup.clone(), steps.clone()));
    all.push((Setup { slots: [1, 1], ..setup.clone() }, steps));
    all
}

/// The other way round: near and far exchanged.
fn exchanged(setup: &Setup, steps: &[Step]) -> (Setup, Vec<Step>) {
    let turned = |step: &Step| {
        let act = match step.act {
            Act::Begin { slots: [near, far] } => Act::Begin { slots: [far, near] },
            act => act,
        };
        Step { side: crate::call::other(step.side), act, ..*step }
    };
    let mut setup = setup.clone();
    setup.slots.swap(0, 1);
    setup.sizes.swap(0, 1);
    (setup, steps.iter().map(turned).collect())
}
