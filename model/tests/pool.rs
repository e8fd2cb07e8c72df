//! Carving the pool, 2026-12.

use model::pool::{Books, SIZES, UNITS};
use model::random::Random;
use model::replay::answer_all;

fn answers(input: &str) -> Vec<String> {
    String::from_utf8(answer_all(input.as_bytes()))
        .unwrap()
        .lines()
        .map(str::to_string)
        .collect()
}

/// Books with the blocks named as start and size.
fn books(blocks: &[(usize, u8)]) -> Books {
    let mut books = Books::free();
    for &(start, size) in blocks {
        books.0[start] = size;
    }
    books
}

#[test]
fn lowest_block_at_its_multiple() {
    let mut pool = Books::free();
    // 1 goes to 0, 2 not to 1 but to 2, 4 to 4, 1 to 1, 8 to 8, 32 to 32, 16 to 16.
    let requests = [(1, 0), (2, 2), (4, 4), (1, 1), (8, 8), (32, 32), (16, 16)];
    for (units, start) in requests {
        assert_eq!(pool.take(units), Ok(start));
    }
    for units in SIZES {
        assert_eq!(pool.take(units), Err(19));
    }
    pool.give_back(4, 4).unwrap();
    assert_eq!(pool.take(8), Err(19));
    assert_eq!(pool.take(2), Ok(4));
    assert_eq!(pool.take(4), Err(19));
    assert_eq!(pool.take(2), Ok(6));
    for size in SIZES {
        let mut pool = Books::free();
        for start in (0..64).step_by(size as usize) {
            assert_eq!(pool.take(size), Ok(start));
        }
        assert_eq!(pool.take(size), Err(19));
    }
}

#[test]
fn numbers_18_19_and_20() {
    for units in [0, 3, 5, 6, 7, 9, 63, 65, 128, 256, 257, 320, u32::MAX] {
        assert_eq!(Books::free().take(units), Err(18), "{units}");
    }
    // Two free units in a row, off a multiple of two.
    let held: Vec<(usize, u8)> = (0..64)
        .filter(|unit| !(1..=2).contains(unit))
        .map(|unit| (unit, 1))
        .collect();
    let mut pool = books(&held);
    assert_eq!(pool.take(2), Err(19));
    assert_eq!(pool.take(1), Ok(1));
    let before = books(&[(8, 8), (32, 32)]);
    for (start, units) in [
        (8, 4),
        (8, 16),
        (8, 0),
        (8, 8 + 256),
        (8 + 64, 8),
        (8 + 256, 8),
        (10, 2),
        (0, 8),
        (0, 0),
        (64, 0),
        (32, 64),
        (u32::MAX, u32::MAX),
    ] {
        let mut pool = before;
        assert_eq!(pool.give_back(start, units), Err(20), "{start} {units}");
        assert_eq!(pool, before);
    }
    let mut pool = before;
    assert_eq!(pool.give_back(8, 8), Ok(()));
    assert_eq!(pool, books(&[(32, 32)]));
    assert_eq!(pool.give_back(8, 8), Err(20));
}

#[test]
fn wrong_books() {
    for blocks in [
        &[(0usize, 3u8)][..],
        &[(0, 128)],
        &[(60, 8)],
        &[(63, 2)],
        &[(1, 2)],
        &[(32, 64)],
        &[(0, 4), (2, 2)],
        &[(0, 64), (63, 1)],
        &[(0, 2), (1, 1)],
    ] {
        let mut pool = books(blocks);
        // Before all else.
        assert_eq!(pool.take(1), Err(3), "{blocks:?}");
        assert_eq!(pool.take(3), Err(3));
        let (start, size) = blocks[0];
        assert_eq!(pool.give_back(start as u32, u32::from(size)), Err(3));
        assert_eq!(pool.give_back(0, 0), Err(3));
        assert_eq!(pool, books(blocks));
    }
    for blocks in [
        &[(0usize, 64u8)][..],
        &[(0, 4), (4, 1)],
        &[(63, 1)],
        &[(62, 2)],
    ] {
        assert!(!books(blocks).wrong(), "{blocks:?}");
    }
}

#[test]
fn tally_from_a_free_pool() {
    for seed in 0..20 {
        let mut random = Random::new(seed);
        let mut pool = Books::free();
        let mut given: Vec<(u32, u32)> = Vec::new();
        let (mut out, mut back) = (0, 0);
        for _ in 0..2_000 {
            if random.chance(1, 2) {
                let units = random.below(70) as u32;
                if let Ok(start) = pool.take(units) {
                    given.push((start, units));
                    out += units;
                }
            } else {
                let known = !given.is_empty() && random.chance(3, 4);
                let (start, units) = if known {
                    given[random.below(given.len() as u64) as usize]
                } else {
                    (random.below(70) as u32, random.below(70) as u32)
                };
                if pool.give_back(start, units).is_ok() {
                    let at = given
                        .iter()
                        .position(|&block| block == (start, units))
                        .unwrap();
                    given.swap_remove(at);
                    back += units;
                }
            }
            assert_eq!((out - back) as usize, pool.units_held());
            assert_eq!(given.len(), pool.blocks().len());
            assert!(pool.units_held() <= UNITS && !pool.wrong());
        }
    }
}

#[test]
fn replay_lines() {
    let free = "00".repeat(64);
    let laid = format!("{}04{}", "00".repeat(4), "00".repeat(59));
    let lines = answers(&format!(
        "books\ntake 4\ngroup 1 8 8\ntake 4\nreturn 0 4\nbooks\npool\nbooks\nbooks {laid}\n\
         return 4 4\nreturn 4 4\ntake 3\ntake 64\ntake 1\n"
    ));
    assert_eq!(
        lines,
        [
            &format!("books {free}"),
            "take 0",
            "group",
            "take 4",
            "return",
            &format!("books {laid}"),
            "pool",
            &format!("books {free}"),
            "books",
            "return",
            "refused 20",
            "refused 18",
            "take 0",
            "refused 19",
        ]
    );
    for line in [
        "pool 1",
        "take",
        "take 1 1",
        "take 4294967296",
        "take -",
        "return 1",
        "return 1 1 1",
        "return 4294967296 1",
        "books -",
        "books 00",
        "books ",
        &format!("books {free}00"),
        &format!("books {}", &free[..126]),
        &format!("books {}", &free[..127]),
        &format!("books {}", "aa".repeat(64)),
    ] {
        assert_eq!(answers(line), ["bad line"], "{line:?}");
    }
}
