//! Counts what a list of calls reaches, cell by cell.
//!
//! Every cell is declared before the list is run. A cell that cannot arise
//! stands in a table here with its reason; any other that stays at zero is
//! named at the end. On the way the order of refusals is checked against
//! `ORDERS`: the refusal given must be the first of those that hold.

mod answers;
mod cells;
mod failover;
mod gather;
mod gauges;
mod links;
mod order;
mod pool;
mod refusals;
mod setup;
mod tables;
mod urgent;

pub use cells::Cells;

use answers::count_answer;
use order::{count_order, holding};
use refusals::count_refusal;

use crate::gauge::Gauge;
use crate::links::{Exchange, Queue, Role};
use crate::replay::{lines, skipped, Line, Replay};
use crate::smcr::*;

fn row_name(row: u16) -> String {
    let names = ["D sent", "C sent", "D heard", "C heard", "ours first"];
    let on: Vec<&str> = (0..5)
        .filter(|bit| row & (1 << bit) != 0)
        .map(|bit| names[bit])
        .collect();
    if on.is_empty() {
        "none".to_string()
    } else {
        on.join(", ")
    }
}

/// Runs a list and counts.
pub fn count(input: &[u8]) -> Cells {
    let mut cells = Cells::new();
    let mut replay = Replay::new();
    for line in lines(input) {
        if skipped(line) {
            cells.hit(if line.is_empty() {
                "skipped: empty line"
            } else {
                "skipped: comment"
            });
            continue;
        }
        cells.calls += 1;
        match replay.parse(line) {
            Err(reason) => cells.hit(&format!("bad line: {}", reason.name())),
            Ok(call) => count_call(&mut cells, &mut replay, &call),
        }
    }
    cells
}

fn count_call(cells: &mut Cells, replay: &mut Replay, line: &Line) {
    let word = word_of(line);
    match line {
        Line::Group { .. } | Line::Record { .. } | Line::Poke { .. } => {
            cells.hit(&format!("{word}: line"));
            cells.forget(line);
            replay.execute(line);
            return;
        }
        Line::Table => return cells.hit("table: line"),
        Line::Memory { count, .. } => {
            cells.hit_if(*count == 0, "memory: no bytes");
            return cells.hit("memory: line");
        }
        Line::Pool => {
            cells.hit("pool: line");
            replay.execute(line);
            return;
        }
        Line::Books { .. } => {
            cells.hit("books: laid");
            replay.execute(line);
            return;
        }
        Line::BooksShown => return cells.hit("books: shown"),
        Line::Settings { .. } | Line::Setup { .. } | Line::Clc { .. } => {
            let before = replay.settings;
            let answer = replay.execute(line);
            if let Line::Setup { due, bytes } = line {
                let holding = setup::holding(&before, *due, bytes);
                count_order(cells, word, &holding, answer.refusal());
            }
            return setup::count(cells, line, &answer, &before);
        }
        Line::Take { .. } | Line::Return { .. } => {
            let before = replay.pool;
            let answer = replay.execute(line);
            count_order(cells, word, &pool::holding(&before, line), answer.refusal());
            return pool::count(cells, line, &answer, &before, &replay.pool);
        }
        _ => {}
    }
    let group = &replay.group;
    let holding = holding(group, line);
    let table = group.table.clone();
    let element_used = match line {
        Line::Open { opening } if !group.sizes_wrong() && !group.slot_outside(opening.slot) => {
            let n = group.size as usize;
            let start = (opening.slot as usize - 1) * n;
            group.memory[start..start + n].iter().any(|&byte| byte != 0)
        }
        _ => false,
    };
    let details = Details {
        table,
        n: group.n(),
        s: group.s(),
        length: group.memory.len() as i64,
        links: group.links,
        gauges: group.gauges,
        role: group.role,
        exchange: group.exchange,
        queue: group.queue,
        element_used,
    };
    let answer = replay.execute(line);
    let refusal = answer.refusal();
    count_order(cells, word, &holding, refusal);
    match refusal {
        Some(number) => count_refusal(cells, number, line, &details),
        None => count_answer(cells, line, &answer, &replay.group, &details),
    }
    gauges::count(cells, line, &answer, &details, &replay.group);
    urgent::count(cells, line, &answer, &details, &replay.group);
    gather::count(cells, line, &answer, &details, &replay.group);
    links::count(cells, line, &answer, &details, &replay.group);
    failover::count(cells, line, &answer, &details, &replay.group);
}

/// What stood before the call.
struct Details {
    table: Vec<Connection>,
    n: i64,
    s: i64,
    length: i64,
    links: [bool; LINKS],
    gauges: [Gauge; LINKS],
    role: Role,
    exchange: Exchange,
    queue: Queue,
    element_used: bool,
}

fn word_of(line: &Line) -> &'static str {
    match line {
        Line::Group { .. } => "group",
        Line::Open { .. } => "open",
        Line::Free { .. } => "free",
        Line::Link { .. } => "link",
        Line::LinkMsg { .. } => "linkmsg",
        Line::Send { .. } => "send",
        Line::Urgent { .. } => "urgent",
        Line::Gather { .. } => "gather",
        Line::Place { .. } => "place",
        Line::Read { .. } => "read",
        Line::Hear { .. } => "hear",
        Line::Shutdown { .. } => "shutdown",
        Line::Close { .. } => "close",
        Line::Abort { .. } => "abort",
        Line::Record { .. } => "record",
        Line::Poke { .. } => "poke",
        Line::Table => "table",
        Line::Memory { .. } => "memory",
        Line::Pool => "pool",
        Line::Take { .. } => "take",
        Line::Return { .. } => "return",
        Line::Books { .. } | Line::BooksShown => "books",
        Line::Settings { .. } => "settings",
        Line::Setup { .. } => "setup",
        Line::Clc { .. } => "clc",
        Line::LinkSend { .. } => "linksend",
        Line::Links { .. } => "links",
        Line::Role { .. } => "role",
        Line::Exchange { .. } => "exchange",
        Line::Queue { .. } => "queue",
        Line::Sample { .. } => "sample",
        Line::Health { .. } => "health",
        Line::Gauge { .. } => "gauge",
    }
}

fn row(c: &Connection) -> u16 {
    crate::replay::marks(c) & 31
}
