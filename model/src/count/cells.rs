//! The cells and their counts.

use std::collections::{BTreeMap, BTreeSet};

use super::row_name;
use super::tables::*;
use crate::replay::{BadLine, Line};
use crate::smcr::*;

/// The cells and their counts, in the order of declaration.
pub struct Cells {
    names: Vec<String>,
    counts: BTreeMap<String, u64>,
    cannot: BTreeMap<String, &'static str>,
    faults: Vec<String>,
    pub calls: u64,
    /// The slots that moved since they were opened or laid, counted from 0.
    pub(super) moved: BTreeSet<usize>,
    /// The slot that heard an F message in the last hear.
    pub(super) last_failover: Option<usize>,
}

impl Cells {
    pub(super) fn new() -> Cells {
        let mut cells = Cells {
            names: Vec::new(),
            counts: BTreeMap::new(),
            cannot: BTreeMap::new(),
            faults: Vec::new(),
            calls: 0,
            moved: BTreeSet::new(),
            last_failover: None,
        };
        cells.declare_refusals();
        cells.declare_pairs();
        for state in State::ALL {
            cells.can(format!("hear: state {}", state.name()));
        }
        for row in 0..32 {
            cells.can(format!("hear: marks {}", row_name(row)));
            let with_abort = format!("hear: marks {} and A sent", row_name(row));
            if row & 10 == 10 {
                cells.cannot(with_abort, ROW_NOT_WITH_ABORT);
            } else {
                cells.can(with_abort);
            }
        }
        for clause in COHERENCE {
            cells.can(format!("refused 3: {clause}"));
        }
        for (clause, reason) in NOT_ALONE {
            cells.cannot(format!("refused 3: {clause}"), reason);
        }
        for reason in BARRED_OPENINGS {
            cells.can(format!("refused 12: {reason}"));
        }
        for rule in HEAR_RULES {
            cells.can(format!("refused 8: {rule}"));
        }
        for (rule, reason) in HEAR_NOT_ALONE {
            cells.cannot(format!("refused 8: {rule}"), reason);
        }
        for name in NOT_NEXT {
            cells.can(format!("refused 16: {name}"));
        }
        for reason in ["length", "unknown first byte", "FE", "byte 1"] {
            cells.can(format!("linkmsg: refused 4, {reason}"));
        }
        for reason in ["length", "byte 0", "byte 1"] {
            cells.can(format!("hear: refused 4, {reason}"));
        }
        for reason in [
            "S",
            "S 256",
            "N",
            "LEN",
            "table too short",
            "table too long",
        ] {
            cells.can(format!("refused 1: {reason}"));
        }
        for reason in BadLine::ALL {
            cells.can(format!("bad line: {}", reason.name()));
        }
        super::pool::declare(&mut cells);
        super::gauges::declare(&mut cells);
        super::setup::declare(&mut cells);
        super::urgent::declare(&mut cells);
        super::gather::declare(&mut cells);
        super::links::declare(&mut cells);
        super::failover::declare(&mut cells);
        for name in FURTHER {
            cells.can(name.to_string());
        }
        cells
    }

    fn declare_refusals(&mut self) {
        for (call, tested) in ORDERS {
            for number in *tested {
                self.can(format!("{call}: refused {number}"));
            }
            for (number, reason) in NOT_TESTED {
                if !tested.contains(number) && !BESIDE.contains(call) {
                    self.cannot(format!("{call}: refused {number}"), reason);
                }
            }
        }
    }

    fn declare_pairs(&mut self) {
        for (call, tested) in ORDERS {
            for (at, &first) in tested.iter().enumerate() {
                for &second in &tested[at + 1..] {
                    let name = format!("{call}: {first} given while {second} holds");
                    let barred = NOT_AT_ONCE.iter().find(|(calls, one, others, _)| {
                        calls.contains(call) && *one == first && others.contains(&second)
                    });
                    match barred {
                        Some((_, _, _, reason)) => self.cannot(name, reason),
                        None => self.can(name),
                    }
                }
            }
        }
    }

    pub(super) fn can(&mut self, name: String) {
        self.counts.insert(name.clone(), 0);
        self.names.push(name);
    }

    pub(super) fn cannot(&mut self, name: String, reason: &'static str) {
        self.cannot.insert(name.clone(), reason);
        self.can(name);
    }

    pub(super) fn hit(&mut self, name: &str) {
        match self.counts.get_mut(name) {
            Some(count) => *count += 1,
            None => self.faults.push(format!("undeclared cell {name}")),
        }
    }

    pub(super) fn hit_if(&mut self, on: bool, name: &str) {
        if on {
            self.hit(name);
        }
    }

    /// What is laid anew did not move.
    pub(super) fn forget(&mut self, line: &Line) {
        self.last_failover = None;
        match line {
            Line::Group { .. } => self.moved.clear(),
            Line::Record { slot, .. } => {
                self.moved.remove(&(slot - 1));
            }
            _ => {}
        }
    }

    pub(super) fn fault(&mut self, text: String) {
        self.faults.push(text);
    }

    /// The table as text.
    pub fn text(&self) -> String {
        let mut text = format!("{:>9}  calls\n", self.calls);
        for name in &self.names {
            match self.cannot.get(name) {
                Some(reason) => text.push_str(&format!("{:>9}  {name} ({reason})\n", "-")),
                None => text.push_str(&format!("{:>9}  {name}\n", self.counts[name])),
            }
        }
        text
    }

    /// What is wrong: reachable cells at zero, cells that were said not to
    /// arise and did, and refusals out of order.
    pub fn missing(&self) -> Vec<String> {
        let mut missing = self.faults.clone();
        for name in &self.names {
            match (self.cannot.get(name), self.counts[name]) {
                (None, 0) => missing.push(name.clone()),
                (Some(_), count) if count > 0 => {
                    missing.push(format!("{name}: said not to arise, seen {count} times"))
                }
                _ => {}
            }
        }
        missing
    }
}
