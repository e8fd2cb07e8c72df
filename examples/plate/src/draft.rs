//! A draft that is aborted in the middle, and a shorter job in the elements where it lies.
//!
//! The draft fills every element of the host, which reads half an element of each, lets them be filled up again, and aborts. The slots are
//! closed in the two ways that there are: of odd slots by the composer's A, of even ones by free at once. The first answers with the right
//! to open the slot again; of the second the caller has to know that nothing can be written any more, which the composer says in a note
//! behind all its messages. Then the shorter job is sent. On purpose the card loses every second piece of it: those bytes are announced,
//! read, and were never written. What lies there is what open left.

use crate::end::{End, Ended, Trouble};
use crate::plan::{Board, Plan, Role};
use crate::{composer, host};
use std::fmt::Write;

/// What the jobs say: no byte is in both, and neither has a zero.
pub const DRAFT: &[u8] = b"draft-three-metres-under-the-keel;";
pub const PLATE: &[u8] = b"PLATE 0417 DEPTH 12 M ";

/// Pieces of an element: the job that follows has five of its eight.
pub const PIECES: usize = 8;
pub const WRITTEN: usize = 5;

/// An element's data.
fn data(plan: &Plan) -> usize {
    plan.element as usize - 4
}

pub fn piece(plan: &Plan) -> usize {
    data(plan) / PIECES
}

/// The bytes of the shorter job.
fn job(plan: &Plan) -> usize {
    plan.connections as usize * WRITTEN * piece(plan)
}

/// Of each connection: what the draft would have been, and what of it is sent before the abort.
fn drafted(plan: &Plan) -> (usize, usize) {
    (2 * data(plan), data(plan) + data(plan) / 2)
}

/// The output: the plate, then the elements at the abort, after they were opened again, and at the end.
pub fn room(plan: &Plan) -> usize {
    job(plan) + 3 * plan.memory()
}

fn text(of: &[u8], len: usize) -> Vec<u8> {
    of.iter().copied().cycle().take(len).collect()
}

/// Hears until something holds.
fn hear_until(end: &mut End, done: impl Fn(&End) -> bool) -> Result<(), Trouble> {
    while !done(end) {
        end.wire.flush()?;
        let mut news = false;
        while let Some((link, bytes)) = end.wire.next() {
            news = true;
            end.hear(link, &bytes)?;
        }
        if end.wire.lost && !done(end) {
            return Err(Trouble::Other("the other process has gone".to_string()));
        }
        if !news {
            end.wait()?;
        }
    }
    end.wire.flush()
}

pub fn composer(plan: &Plan) -> Result<Ended, Trouble> {
    let map = plan.map_shared()?;
    let mut end = End::new(Role::Composer, plan, &map)?;
    end.board.begin(Role::Composer);
    let (whole, sent) = drafted(plan);
    let draft = text(DRAFT, whole);
    let mut next = vec![0; plan.connections as usize];
    // as much as is taken: an element, and when half of it was read, another half
    for goal in [data(plan), sent] {
        for slot in 1..=plan.connections {
            let at = &mut next[slot as usize - 1];
            while *at < goal {
                let count = end.send(slot, &draft[*at..])?;
                *at += count;
                Board::add(end.board.taken(slot), count as u64);
                if count == 0 {
                    let room = end.record(slot).outbound.consumer;
                    hear_until(&mut end, |end| end.record(slot).outbound.consumer != room)?;
                }
            }
        }
    }
    // A is heard on every connection: nothing of it is under way, and the rights to open are here
    hear_until(&mut end, |end| end.quiet.len() == plan.connections as usize)?;
    end.note();
    for quiet in std::mem::take(&mut end.quiet) {
        end.open(quiet, 1)?;
    }
    hear_until(&mut end, |end| end.notes == 1)?;
    end.lose(piece(plan));
    composer::deliver(&mut end, plan, &text(PLATE, job(plan)))
}

/// The host: with the proved open, or with the stand-in for one that does not zero.
pub fn host(plan: &Plan, zeroes: bool) -> Result<Ended, Trouble> {
    let map = plan.map_shared()?;
    let output = plan.map_output()?;
    // SAFETY: this process alone writes the output, and holds no other slice of it.
    let (plate, mut seen) = unsafe { output.own_bytes() }.split_at_mut(job(plan));
    let mut see = |end: &End| {
        let (first, rest) = std::mem::take(&mut seen).split_at_mut(plan.memory());
        end.elements(first);
        seen = rest;
    };
    let mut end = End::new(Role::Host, plan, &map)?;
    end.board.begin(Role::Host);
    let announced = |bytes: usize| move |end: &End| end.announced.iter().all(|&all| all == bytes as u64);
    hear_until(&mut end, announced(data(plan)))?;
    let mut half = vec![0; data(plan) / 2];
    for slot in 1..=plan.connections {
        let count = end.read(slot, &mut half)?;
        Board::add(end.board.read(slot), count as u64);
    }
    hear_until(&mut end, announced(drafted(plan).1))?;
    see(&end);
    for slot in 1..=plan.connections {
        end.abort_one(slot)?;
        if slot % 2 == 0 {
            end.free(slot)?;
        }
    }
    // the composer's A for the odd slots, and its word that it writes no more for the even ones
    hear_until(&mut end, |end| end.notes == 1)?;
    let mut quiet = std::mem::take(&mut end.quiet);
    quiet.extend(std::mem::take(&mut end.freed).into_iter().map(|freed| freed.no_write_can_arrive()));
    if quiet.len() != plan.connections as usize {
        return Err(Trouble::Other(format!("{} of {} slots may be opened again", quiet.len(), plan.connections)));
    }
    for quiet in quiet {
        if zeroes {
            end.open(quiet, 1)?;
        } else {
            end.open_without_zeroing(quiet, 1)?;
        }
    }
    see(&end);
    end.note();
    let ended = host::receive(&mut end, plan, plate)?;
    see(&end);
    Ok(ended)
}

/// What a byte is of.
#[derive(Clone, Copy, Debug, PartialEq, Eq)]
pub enum Of {
    Nobody,
    Draft,
    Plate,
    /// The eye catcher, or anything that neither job has.
    Else,
}

pub fn of(byte: u8) -> Of {
    match byte {
        0 => Of::Nobody,
        byte if DRAFT.contains(&byte) => Of::Draft,
        byte if PLATE.contains(&byte) => Of::Plate,
        _ => Of::Else,
    }
}

fn count(bytes: &[u8], which: Of) -> usize {
    bytes.iter().filter(|&&byte| of(byte) == which).count()
}

/// What a run left: the plate, and the elements' data at three times.
pub struct Drafted {
    pub plate: Vec<u8>,
    pub elements: [Vec<Vec<u8>>; 3],
    /// What should have arrived, and whether the card lost it.
    meant: Vec<(u8, bool)>,
}

impl Drafted {
    pub fn of(plan: &Plan, output: &[u8]) -> Drafted {
        let (plate, seen) = output.split_at(job(plan));
        let elements = |time: usize| {
            let memory = &seen[time * plan.memory()..][..plan.memory()];
            memory.chunks(plan.element as usize).map(|element| element[4..].to_vec()).collect()
        };
        let part = WRITTEN * piece(plan);
        let meant = text(PLATE, job(plan)).into_iter().enumerate().map(|(at, byte)| (byte, at % part / piece(plan) % 2 == 1));
        Drafted { plate: plate.to_vec(), elements: [0, 1, 2].map(elements), meant: meant.collect() }
    }

    fn lay(&self, time: usize) -> usize {
        self.elements[time].iter().map(|element| count(element, Of::Draft)).sum()
    }

    fn lost(&self) -> usize {
        self.meant.iter().filter(|(_, lost)| *lost).count()
    }

    /// The first place of the plate that is the draft's.
    fn first(&self) -> Option<usize> {
        self.plate.iter().position(|&byte| of(byte) == Of::Draft)
    }

    /// The written bytes are the job's; the lost ones are zeros, or without zeroing the draft's.
    pub fn as_it_should_be(&self, zeroed: bool) -> bool {
        let left = if zeroed { Of::Nobody } else { Of::Draft };
        let pairs = || self.plate.iter().zip(&self.meant);
        self.lost() > 0 && pairs().all(|(&got, &(meant, lost))| if lost { of(got) == left } else { got == meant })
    }
}

/// The bytes about a place, as an editor would see them: a dot for nothing.
pub fn about(bytes: &[u8], at: usize) -> String {
    let bytes = &bytes[at.saturating_sub(22)..bytes.len().min(at + 34)];
    bytes.iter().map(|&byte| if of(byte) == Of::Nobody { '.' } else { char::from(byte) }).collect()
}

pub fn summary(plan: &Plan, proved: &Drafted, control: &Drafted) -> String {
    let k = plan.connections as usize;
    let ((whole, sent), half) = (drafted(plan), data(plan) / 2);
    let mut text = String::new();
    let mut line = |line: String| writeln!(text, "{line}").expect("a string");
    line(format!("the draft, over {k} connections with elements of {} bytes: {} bytes", plan.element, k * whole));
    line(format!("  aborted by the host when {} bytes were sent and {} were read", k * sent, k * half));
    line(format!("  bytes of the draft in the elements then: {} of {}", proved.lay(0), k * data(plan)));
    line("opened again: the odd slots by A heard; the even ones by free, and the composer's word that it writes no more".to_string());
    line(format!("the job that follows: {} bytes, of which the card loses {} on purpose", proved.plate.len(), proved.lost()));
    for (name, run) in [("with the proved open", proved), ("with an open that does not zero (a stand-in, not the proved one)", control)] {
        line(format!("{name}:"));
        line(format!("  bytes of the draft in the elements after it: {}", run.lay(1)));
        line(format!("  bytes of the draft in the plate: {}", count(&run.plate, Of::Draft)));
        let (at, what) = match run.first() {
            Some(at) => (at, "the first is byte"),
            None => (run.plate.iter().position(|&byte| of(byte) == Of::Nobody).unwrap_or(0), "the lost bytes are blank, from byte"),
        };
        line(format!("  {what} {at}: {}", about(&run.plate, at)));
    }
    text
}
