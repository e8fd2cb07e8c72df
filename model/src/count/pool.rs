//! The cells of the pool.

use super::cells::Cells;
use crate::pool::{Books, SIZES, UNITS};
use crate::replay::{Answer, Line};

/// Ways in which books are wrong.
const WRONG: &[&str] = &[
    "blocks overlap",
    "another size",
    "off a multiple",
    "several ways",
];

const FURTHER: &[&str] = &[
    "pool: line",
    "books: laid",
    "books: shown",
    "take: the lowest of several",
    "take: above a free unit that is too small",
    "take: the whole pool",
    "take: refused 18, 0 units",
    "take: refused 18, between two sizes",
    "take: refused 18, above 64",
    "take: refused 18, a size and 256",
    "take: refused 19, units enough but apart",
    "take: refused 19, a run long enough but off its multiple",
    "take: refused 19, no unit free",
    "return: refused 20, no units",
    "return: refused 20, none starts there",
    "return: refused 20, inside a block",
    "return: refused 20, another size",
    "return: refused 20, start outside the pool",
    "return: the last block",
];

pub(super) fn declare(cells: &mut Cells) {
    for way in WRONG {
        cells.can(format!("refused 3: books, {way}"));
    }
    cells.cannot(
        "refused 3: books, leaves the pool".to_string(),
        "a block of a right size at its multiple ends within the pool",
    );
    for size in SIZES {
        cells.can(format!("take: {size} units"));
        cells.can(format!("return: {size} units"));
    }
    for name in FURTHER {
        cells.can(name.to_string());
    }
}

/// The refusals that hold, each judged on its own.
pub(super) fn holding(books: &Books, line: &Line) -> Vec<u8> {
    let mut holds = Vec::new();
    if books.wrong() {
        holds.push(3);
    }
    match line {
        Line::Take { units } if !SIZES.contains(units) => holds.push(18),
        Line::Take { units } if books.lowest_free(*units as usize).is_none() => holds.push(19),
        Line::Return { start, units } if !books.given_out(*start, *units) => holds.push(20),
        _ => {}
    }
    holds
}

/// What a take or return did, by the books before it.
pub(super) fn count(
    cells: &mut Cells,
    line: &Line,
    answer: &Answer,
    before: &Books,
    after: &Books,
) {
    if let Answer::Refused(number) = answer {
        if before != after {
            cells.fault("a refused call changed the books".to_string());
        }
        return count_refusal(cells, line, *number, before);
    }
    let change = match line {
        Line::Take { units } => {
            cells.hit(&format!("take: {units} units"));
            i64::from(*units)
        }
        Line::Return { units, .. } => {
            cells.hit(&format!("return: {units} units"));
            -i64::from(*units)
        }
        _ => return,
    };
    if before.units_held() as i64 + change != after.units_held() as i64 {
        cells.fault("the tally of the pool does not hold".to_string());
    }
    cells.hit_if(
        change < 0 && after.units_held() == 0,
        "return: the last block",
    );
    if let (Line::Take { units }, Answer::Taken(start)) = (line, answer) {
        let free = (0..*start as usize).any(|unit| !before.held(unit));
        cells.hit_if(free, "take: above a free unit that is too small");
        let more = after.lowest_free(*units as usize).is_some();
        cells.hit_if(more, "take: the lowest of several");
        cells.hit_if(*units == UNITS as u32, "take: the whole pool");
    }
}

fn count_refusal(cells: &mut Cells, line: &Line, number: u8, before: &Books) {
    match (number, line) {
        (3, _) => count_wrong(cells, before),
        (18, Line::Take { units }) => {
            cells.hit_if(*units == 0, "take: refused 18, 0 units");
            let between = *units > 0 && *units < UNITS as u32;
            cells.hit_if(between, "take: refused 18, between two sizes");
            cells.hit_if(*units > UNITS as u32, "take: refused 18, above 64");
            let cut = SIZES.contains(&(*units % 256));
            cells.hit_if(cut, "take: refused 18, a size and 256");
        }
        (19, Line::Take { units }) => {
            let free: Vec<usize> = (0..UNITS).filter(|&unit| !before.held(unit)).collect();
            let size = *units as usize;
            cells.hit_if(
                free.len() >= size,
                "take: refused 19, units enough but apart",
            );
            let run = (0..=UNITS - size).any(|at| (at..at + size).all(|unit| free.contains(&unit)));
            cells.hit_if(
                run,
                "take: refused 19, a run long enough but off its multiple",
            );
            cells.hit_if(free.is_empty(), "take: refused 19, no unit free");
        }
        (20, Line::Return { start, units }) => {
            let start = *start as usize;
            let blocks = before.blocks();
            let starts = blocks.iter().any(|block| block.start == start);
            let inside = blocks.iter().any(|block| block.covers(start));
            cells.hit_if(*units == 0, "return: refused 20, no units");
            cells.hit_if(start >= UNITS, "return: refused 20, start outside the pool");
            cells.hit_if(
                start < UNITS && !inside && *units > 0,
                "return: refused 20, none starts there",
            );
            cells.hit_if(inside && !starts, "return: refused 20, inside a block");
            cells.hit_if(starts && *units > 0, "return: refused 20, another size");
        }
        _ => {}
    }
}

/// In which way books are wrong: it alone, or several.
fn count_wrong(cells: &mut Cells, books: &Books) {
    let blocks = books.blocks();
    let overlap = blocks.iter().any(|one| {
        blocks
            .iter()
            .any(|other| one != other && one.overlaps(other))
    });
    let ways = [
        (overlap, "blocks overlap"),
        (
            blocks.iter().any(|block| block.leaves_the_pool()),
            "leaves the pool",
        ),
        (
            blocks.iter().any(|block| block.has_another_size()),
            "another size",
        ),
        (
            blocks.iter().any(|block| block.starts_off_a_multiple()),
            "off a multiple",
        ),
    ];
    let on: Vec<&str> = ways
        .iter()
        .filter(|(holds, _)| *holds)
        .map(|(_, name)| *name)
        .collect();
    match on[..] {
        [one] => cells.hit(&format!("refused 3: books, {one}")),
        _ => cells.hit("refused 3: books, several ways"),
    }
}
