//! Goes through a list of calls and shows each with what was before and after it.

use crate::links::{Exchange, Queue};
use crate::replay::{lines, skipped, Answer, BadLine, Line, Replay};
use crate::smcr::{Connection, LINKS};

/// What the calls may change beside the memory, as it was before one.
pub struct Before {
    pub table: Vec<Connection>,
    pub links: [bool; LINKS],
    pub exchange: Exchange,
    pub queue: Queue,
}

/// A line of the list: skipped, one that does not parse, or a call with its answer.
pub enum Made<'a> {
    Skipped,
    Bad(BadLine),
    Call(&'a Line, &'a Answer),
}

/// Makes the calls of a list one after the other. `each` gets the line's place in
/// the list, the line, what became of it, what was before and all that is after.
pub fn walk(input: &[u8], mut each: impl FnMut(usize, &[u8], Made, &Before, &Replay)) {
    let mut replay = Replay::new();
    for (place, line) in lines(input).into_iter().enumerate() {
        let group = &replay.group;
        let before = Before {
            table: group.table.to_vec(),
            links: group.links,
            exchange: group.exchange,
            queue: group.queue,
        };
        if skipped(line) {
            each(place, line, Made::Skipped, &before, &replay);
            continue;
        }
        match replay.parse(line) {
            Ok(call) => {
                let answer = replay.execute(&call);
                each(place, line, Made::Call(&call, &answer), &before, &replay);
            }
            Err(reason) => each(place, line, Made::Bad(reason), &before, &replay),
        }
    }
}
