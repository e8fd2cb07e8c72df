//! Draws a list of calls as SVG: a ladder of RDMA writes and messages with time
//! running downward, and beside it what two ends hold after each step. The ends
//! at the sides are those of the connection that a call concerns: two slots of
//! the group, or one, whose peer is somewhere else. Every line of the list that
//! is not skipped has its words in the picture, a line that does not parse too.
//!
//! Here is what is drawn; `crate::cast` says who is at the sides, `tell` has the
//! words, `draw` says how, and `svg` writes the marks.

mod draw;
mod svg;
mod tell;

use std::collections::BTreeSet;
use std::ops::Range;
use std::rc::Rc;

use crate::cast::{self, Cast, Ends};
use crate::pool::Books;
use crate::replay::{Answer, Line, Replay};
use crate::smcr::*;
use crate::walk::{walk, Before, Made};
use crate::words::listed;

/// One thing to draw, from the top down.
enum Row {
    Caption(String),
    /// From here on these are at the sides, with elements of so many bytes.
    Ends(Ends, u32),
    Step(Step),
}

struct Step {
    /// What stands in the ladder.
    what: What,
    /// The two ends after the step.
    ends: [Option<Shot>; 2],
    /// The bytes that the step wrote: at which end, and the offsets.
    written: Option<(usize, Range<usize>)>,
}

/// A line of text, and what stands below it.
#[derive(Clone, Default)]
struct Said {
    text: String,
    below: String,
    refused: bool,
}

enum What {
    /// A call at one side.
    Call { side: usize, said: Said },
    /// An arrow from the other side to this one.
    Arrow {
        to: usize,
        said: Said,
        message: bool,
    },
    /// Bytes of the memory, shown at the end whose element they are, or in the middle.
    Bytes {
        side: Option<usize>,
        said: Said,
        hex: Vec<String>,
    },
    /// Something of the group, its links or what stands beside it: in the middle.
    Middle { said: Said, pool: Option<Books> },
    /// A call on a link that moves connections: text in the middle, and beside each
    /// line where its end goes and what it tells.
    Move {
        said: Said,
        sides: [Option<(String, String)>; 2],
    },
}

impl What {
    fn said(&self) -> &Said {
        match self {
            What::Call { said, .. }
            | What::Arrow { said, .. }
            | What::Bytes { said, .. }
            | What::Middle { said, .. }
            | What::Move { said, .. } => said,
        }
    }
}

/// An end as it stands after a step.
#[derive(Clone, PartialEq)]
struct Shot {
    record: Connection,
    element: Rc<Vec<u8>>,
    /// It moved to another link since its open.
    moved: bool,
}

/// The picture of a list.
pub fn picture(input: &[u8]) -> String {
    drawn(input).finish()
}

/// The texts of a list's picture that leave it at a side or meet another.
pub fn crowded(input: &[u8]) -> Vec<String> {
    drawn(input).crowded()
}

fn drawn(input: &[u8]) -> svg::Svg {
    let cast = Cast::of(input);
    let rows = collect(input, &cast);
    draw::draw(&rows, &alternative(&rows))
}

/// What the picture knows while it goes through the list.
struct Stage<'a> {
    cast: &'a Cast,
    rows: Vec<Row>,
    /// Who is at the sides, and the bytes of an element.
    shown: Option<(Ends, u32)>,
    /// The slots that moved since their open, and the elements as last drawn.
    moved: BTreeSet<usize>,
    elements: Vec<Rc<Vec<u8>>>,
}

fn collect(input: &[u8], cast: &Cast) -> Vec<Row> {
    let mut stage = Stage {
        cast,
        rows: Vec::new(),
        shown: None,
        moved: BTreeSet::new(),
        elements: Vec::new(),
    };
    walk(input, |place, line, made, before, after| match made {
        Made::Skipped => {
            let text = String::from_utf8_lossy(line);
            let text = text.trim_start_matches('#').trim();
            if !text.is_empty() {
                stage.rows.push(Row::Caption(text.to_string()));
            }
        }
        Made::Bad(reason) => {
            let what = tell::bad(line, reason);
            stage.step(place, what, None, &after.group);
        }
        Made::Call(call, answer) => stage.call(place, call, answer, before, after),
    });
    stage.rows
}

impl Stage<'_> {
    fn call(
        &mut self,
        place: usize,
        call: &Line,
        answer: &Answer,
        before: &Before,
        after: &Replay,
    ) {
        for index in 0..before.table.len().max(after.group.table.len()) {
            let record = |table: &[Connection]| table.get(index).copied().unwrap_or_default();
            let (old, new) = (record(&before.table), record(&after.group.table));
            let laid = matches!(call, Line::Record { slot, .. } if slot - 1 == index);
            if !old.open || !new.open || laid || matches!(call, Line::Group { .. }) {
                self.moved.remove(&index);
            } else if old.link != new.link {
                self.moved.insert(index);
            }
        }
        let ends = self.cast.ends(place);
        let mut what = tell::tell(call, answer, ends, before, after, &self.moved);
        if let (Line::Group { .. }, What::Middle { said, .. }) = (call, &mut what) {
            said.below = tell::joined(&[&said.below, &self.not_drawn(place)], "; ");
        }
        let written = written(call, answer, ends, &after.group);
        self.step(place, what, written, &after.group);
    }

    /// Which slots of a fresh group have no call, and so are not at the sides.
    fn not_drawn(&self, place: usize) -> String {
        let slots = self.cast.never_at_the_sides(place);
        match slots[..] {
            [] => String::new(),
            [slot] => format!("slot {slot} is not drawn: no call concerns it"),
            _ => format!(
                "slots {} are not drawn: no call concerns them",
                listed(&slots)
            ),
        }
    }

    fn step(
        &mut self,
        place: usize,
        what: What,
        written: Option<(usize, Range<usize>)>,
        group: &Group,
    ) {
        let ends = self.cast.ends(place);
        let ends = ends.map(|end| end.filter(|&index| index < group.table.len()));
        if self.shown != Some((ends, group.size)) {
            self.shown = Some((ends, group.size));
            self.rows.push(Row::Ends(ends, group.size));
        }
        let shots = ends.map(|end| end.map(|index| self.shot(group, index)));
        // What concerns the group goes into one row as long as nothing else happens
        // and the row has room.
        if let (Some(Row::Step(last)), What::Middle { said, pool: None }) =
            (self.rows.last_mut(), &what)
        {
            if let What::Middle {
                said: earlier,
                pool: None,
            } = &mut last.what
            {
                let both = format!("{}; {}", earlier.text, said.text);
                let plain = |said: &Said| !said.refused && said.below.is_empty();
                if plain(earlier) && plain(said) && draw::fits(&both) {
                    earlier.text = both;
                    last.ends = shots;
                    return;
                }
            }
        }
        self.rows.push(Row::Step(Step {
            what,
            ends: shots,
            written,
        }));
    }

    fn shot(&mut self, group: &Group, index: usize) -> Shot {
        let n = group.size as usize;
        let range = index.saturating_mul(n)..(index + 1).saturating_mul(n);
        let element = group.memory.get(range).unwrap_or(&[]);
        if self.elements.len() <= index {
            self.elements.resize(index + 1, Rc::default());
        }
        if *self.elements[index] != element {
            self.elements[index] = Rc::new(element.to_vec());
        }
        Shot {
            record: group.table.get(index).copied().unwrap_or_default(),
            element: Rc::clone(&self.elements[index]),
            moved: self.moved.contains(&index),
        }
    }
}

fn side_of(ends: Ends, slot: u32) -> Option<usize> {
    ends.iter()
        .position(|end| end.is_some_and(|index| index + 1 == slot as usize))
}

/// The bytes that a call wrote into an end's element: those that it placed or laid, or
/// all of them at an open.
fn written(
    line: &Line,
    answer: &Answer,
    ends: Ends,
    group: &Group,
) -> Option<(usize, Range<usize>)> {
    let accepted = matches!(answer, Answer::Word(_));
    match line {
        Line::Open { opening } if accepted => {
            Some((side_of(ends, opening.slot)?, 0..group.size as usize))
        }
        Line::Place {
            slot,
            offset,
            bytes,
        } if accepted => {
            let start = *offset as usize;
            Some((side_of(ends, *slot)?, start..start + bytes.len()))
        }
        Line::Poke { at, bytes } => {
            let index = cast::element_of(group, *at, bytes.len())?;
            let start = at - index * group.size as usize;
            Some((side_of(ends, index as u32 + 1)?, start..start + bytes.len()))
        }
        _ => None,
    }
}

/// What a picture is called, and its words from the first step on.
struct Alternative {
    title: String,
    words: Vec<String>,
    /// What the picture shows in part only.
    left_out: Vec<String>,
}

fn alternative(rows: &[Row]) -> Alternative {
    let first = rows.iter().find_map(|row| match row {
        Row::Caption(text) => Some(text.clone()),
        _ => None,
    });
    let steps = || {
        rows.iter().filter_map(|row| match row {
            Row::Step(step) => Some(step),
            _ => None,
        })
    };
    let mut left_out = Vec::new();
    let wide = |shot: &Shot| draw::without_bytes(shot.element.len());
    if steps().any(|step| step.ends.iter().flatten().any(wide)) {
        left_out.push("the single bytes of an element of more than 40".to_string());
    }
    if steps().any(|step| step.what.said().text.contains(tell::NOT_QUOTED)) {
        left_out.push("those bytes of a call beyond the first 24".to_string());
    }
    if rows.is_empty() {
        left_out.push("anything: the list has no lines".to_string());
    }
    let mut ends: Ends = [None, None];
    let words = rows.iter().map(|row| match row {
        Row::Caption(text) => text.trim_end_matches('.').to_string(),
        Row::Ends(now, _) => {
            ends = *now;
            match now {
                [None, None] => "At the sides: nobody".to_string(),
                _ => format!("At the sides: {} and {}", name(ends[0]), name(ends[1])),
            }
        }
        Row::Step(step) => spoken(&step.what, ends),
    });
    Alternative {
        title: first.unwrap_or("A list of calls".to_string()),
        words: words.collect(),
        left_out,
    }
}

/// An end's name; who has no slot here is the peer.
fn name(end: Option<usize>) -> String {
    end.map_or("the peer".to_string(), |index| {
        format!("slot {}", index + 1)
    })
}

/// A step in words, with who does it.
fn spoken(what: &What, ends: Ends) -> String {
    let said = what.said();
    let words = tell::joined(&[&said.text, &said.below], "; ");
    match what {
        What::Call { side, .. } => format!("{}: {words}", name(ends[*side])),
        What::Arrow { to, .. } => format!("to {}: {words}", name(ends[*to])),
        What::Bytes { hex, .. } => format!("{words}: {}", hex.join(" ")),
        What::Middle { .. } => words,
        What::Move { sides, .. } => {
            let told = (0..2).filter_map(|side| {
                let (goes, tells) = sides[side].as_ref()?;
                Some(format!("{}: {goes}, {tells}", name(ends[side])))
            });
            let told: Vec<String> = std::iter::once(words).chain(told).collect();
            told.join("; ")
        }
    }
}
