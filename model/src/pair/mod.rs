//! Only what was sent (2026-14): two groups, near and far, and a connection opened
//! at both.
//!
//! `course` follows a list of calls at both ends and keeps beside the groups what
//! is under way and the books; it asks the premises of each call and checks the
//! claims after it. `plain` is the plain engine. `lists` makes random lists within
//! the premises, `breaks` lists that break one of them.

pub mod breaks;
pub mod course;
pub mod lists;
pub mod plain;

use crate::replay::{print_line, Answer, Line, Replay};
use crate::smcr::{Group, LINKS};
use course::Course;

/// The two ends, by place in an array of two.
pub const NEAR: usize = 0;
pub const FAR: usize = 1;
pub const SIDES: [&str; 2] = ["near", "far"];

pub fn other(side: usize) -> usize {
    1 - side
}

/// What names an end: "a slot, an own token, a link, and `reach`: for each link of
/// the other end, the key and base of this end's memory there".
#[derive(Clone, Copy, Debug, PartialEq, Eq)]
pub struct Names {
    pub slot: u32,
    pub own: u32,
    pub link: u8,
    pub reach: [(u32, u64); LINKS],
}

/// A call at an end, with its answer.
#[derive(Clone, Debug, PartialEq)]
pub struct Event {
    pub side: usize,
    pub line: Line,
    pub answer: Answer,
}

impl Event {
    /// `near send 1 01 -> send 1 placings ..`; the answers of `table` and `memory`
    /// are not asked for here.
    pub fn text(&self) -> String {
        let mut text = format!("{:4} ", SIDES[self.side]).into_bytes();
        print_line(&mut text, &self.line);
        text.extend_from_slice(b" -> ");
        Replay::new().print_answer(&mut text, &self.answer);
        String::from_utf8_lossy(&text).trim_end().to_string()
    }
}

/// A list of calls at both ends, and the courses that follow it: one for each
/// connection, from where it is taken up.
#[derive(Clone, Debug)]
pub struct Run {
    ends: [Replay; 2],
    pub courses: Vec<Course>,
    pub events: Vec<Event>,
}

impl Run {
    /// Two fresh groups: how many elements, and their sizes.
    pub fn new(slots: [u32; 2], sizes: [u32; 2]) -> Run {
        let mut run = Run {
            ends: [Replay::new(), Replay::new()],
            courses: Vec::new(),
            events: Vec::new(),
        };
        for side in [NEAR, FAR] {
            let line = Line::Group {
                elements: slots[side],
                size: sizes[side],
                length: slots[side] as usize * sizes[side] as usize,
                records: None,
            };
            run.at(side, line);
        }
        run
    }

    pub fn follow(&mut self, course: Course) {
        self.courses.push(course);
    }

    /// The last one taken up.
    pub fn course(&self) -> &Course {
        &self.courses[self.courses.len() - 1]
    }

    pub fn group(&self, side: usize) -> &Group {
        &self.ends[side].group
    }

    /// Makes a call and shows it to the courses.
    pub fn at(&mut self, side: usize, line: Line) -> Answer {
        let before = self.ends[side].group.clone();
        let answer = self.ends[side].execute(&line);
        let after = &self.ends[side].group;
        for course in &mut self.courses {
            course.see(side, &line, &answer, &before, after);
        }
        self.events.push(Event {
            side,
            line,
            answer: answer.clone(),
        });
        answer
    }

    pub fn link(&mut self, side: usize, link: u8, up: bool) -> Answer {
        let room = None;
        self.at(side, Line::Link { link, up, room })
    }

    /// The same calls without one of them, followed anew. A message is heard with
    /// the bytes that it had.
    pub fn without(&self, call: usize) -> Run {
        let mut run = Run {
            ends: [Replay::new(), Replay::new()],
            courses: Vec::new(),
            events: Vec::new(),
        };
        for (place, event) in self.events.iter().enumerate() {
            if place == 2 {
                // Both groups are there.
                run.courses = self.courses.iter().map(Course::anew).collect();
            }
            if place != call {
                run.at(event.side, event.line.clone());
            }
        }
        run
    }
}
