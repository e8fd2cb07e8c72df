//! Lists for the pool: what can be gone through, books that are wrong, and a
//! house that takes and returns blocks.

use super::List;
use crate::pool::{Books, SIZES, UNITS};
use crate::random::Random;
use crate::replay::Line;

/// Numbers at edges: no sizes, and some that are sizes when they are cut.
const EDGES: [u32; 14] = [
    0,
    3,
    65,
    96,
    127,
    128,
    256,
    257,
    320,
    0x0001_0000,
    0x0001_0001,
    0x8000_0000,
    0xFFFF_FF40,
    u32::MAX,
];

/// Books with the blocks named as start and size.
fn books(blocks: &[(usize, u8)]) -> Books {
    let mut books = Books::free();
    for &(start, size) in blocks {
        books.0[start] = size;
    }
    books
}

/// From a free pool every size until none is left, and back again; then one free
/// block among held units, at its multiple and off it.
pub fn exhaust(list: &mut List, random: &mut Random) {
    list.comment("the pool: every size until none is left");
    list.add(Line::BooksShown);
    for size in SIZES {
        list.add(Line::Pool);
        let count = UNITS as u32 / size;
        for _ in 0..count.min(9) {
            list.take(size);
        }
        for other in SIZES {
            list.take(other);
        }
        list.add(Line::BooksShown);
        list.give_back(size, size);
        list.give_back(0, size);
        list.take(1);
        list.take(size);
        list.add(Line::BooksShown);
    }
    list.comment("the pool: numbers that no request has");
    list.add(Line::Pool);
    for units in (0..=65).chain(EDGES) {
        if !SIZES.contains(&units) {
            list.take(units);
        }
    }
    for start in (0..=64).chain(EDGES) {
        list.give_back(start, 0);
    }
    list.comment("the pool: one gap among held units");
    for size in SIZES.map(|size| size as usize) {
        gap(list, random, size, 0);
        if size > 1 && size < UNITS {
            gap(list, random, size, size / 2);
        }
    }
}

/// Single units held but for a gap, which starts so far off a multiple.
fn gap(list: &mut List, random: &mut Random, size: usize, shift: usize) {
    let places = (UNITS - shift) / size;
    let start = random.below(places as u64) as usize * size + shift;
    let held: Vec<(usize, u8)> = (0..UNITS)
        .filter(|unit| !(start..start + size).contains(unit))
        .map(|unit| (unit, 1))
        .collect();
    list.lay_books(books(&held));
    list.take(size as u32);
    list.take(size as u32);
    list.take(1);
    list.add(Line::BooksShown);
}

/// Books wrong in each way, alone where that can be, and numbers at every edge.
pub fn hostile(list: &mut List, random: &mut Random) {
    let wrong: [&[(usize, u8)]; 24] = [
        &[(0, 3)],
        &[(0, 5)],
        &[(60, 6)],
        &[(0, 65)],
        &[(0, 128)],
        &[(0, 255)],
        &[(63, 3)],
        &[(63, 255)],
        &[(1, 2)],
        &[(63, 2)],
        &[(2, 4)],
        &[(62, 4)],
        &[(4, 8)],
        &[(8, 16)],
        &[(16, 32)],
        &[(32, 64)],
        &[(1, 64)],
        &[(0, 2), (1, 1)],
        &[(0, 4), (2, 2)],
        &[(0, 64), (63, 1)],
        &[(0, 64), (32, 32)],
        &[(32, 32), (48, 1)],
        &[(0, 8), (4, 4), (6, 2)],
        &[(0, 1), (1, 1), (2, 3)],
    ];
    for blocks in wrong {
        list.lay_books(books(blocks));
        numbers(list, random, 3);
        list.give_back(blocks[0].0 as u32, u32::from(blocks[0].1));
        list.add(Line::BooksShown);
    }
    // Neighbours that touch and do not overlap.
    let right: [&[(usize, u8)]; 6] = [
        &[(0, 64)],
        &[(0, 32), (32, 32)],
        &[(0, 2), (2, 1), (3, 1), (4, 4), (8, 8)],
        &[(1, 1), (63, 1)],
        &[(16, 16), (32, 8), (40, 2)],
        &[(62, 2), (60, 2), (56, 4), (48, 8), (32, 16), (0, 32)],
    ];
    for blocks in right {
        list.lay_books(books(blocks));
        numbers(list, random, 10);
        for &(start, size) in blocks {
            let (start, size) = (start as u32, u32::from(size));
            for (at, units) in [
                (start, 0),
                (start, size / 2),
                (start, 2 * size),
                (start, size + 256),
                (start + 64, size),
                (start + 256, size),
                (start + 1, size),
                (start, size),
                (start, size),
            ] {
                list.give_back(at, units);
            }
        }
        list.add(Line::BooksShown);
    }
    // Any bytes at all, and a single block of any size anywhere.
    for _ in 0..12 {
        let mut any = Books::free();
        for _ in 0..random.between(1, 4) {
            let size = match random.below(3) {
                0 => random.draw() as u8,
                _ => *random.pick(&SIZES) as u8,
            };
            any.0[random.below(UNITS as u64) as usize] = size;
        }
        list.lay_books(any);
        numbers(list, random, 2);
    }
    list.add(Line::BooksShown);
    list.add(Line::Pool);
}

/// Takes and returns of numbers at edges.
fn numbers(list: &mut List, random: &mut Random, count: usize) {
    for _ in 0..count {
        let units = if random.chance(2, 3) {
            *random.pick(&SIZES)
        } else {
            *random.pick(&EDGES)
        };
        if random.chance(2, 3) {
            list.take(units);
        } else {
            let start = match random.below(3) {
                0 => *random.pick(&EDGES),
                _ => random.below(64) as u32,
            };
            list.give_back(start, units);
        }
    }
}

/// One step of a house that takes and returns: it keeps its blocks in mind and
/// errs now and then.
pub fn act(list: &mut List, random: &mut Random) {
    let given: Vec<(u32, u32)> = list
        .replay
        .pool
        .blocks()
        .iter()
        .map(|block| (block.start as u32, block.size as u32))
        .collect();
    match random.below(40) {
        0 => {
            list.add(Line::BooksShown);
        }
        1 => numbers(list, random, 1),
        2..=18 if !given.is_empty() => {
            let &(start, units) = random.pick(&given);
            list.give_back(start, units);
        }
        _ => {
            let units = SIZES[random.below(5) as usize + random.below(3) as usize];
            list.take(units);
        }
    }
}
