//! The stored traces: one input of lists from fixed seeds, and its answers.

use std::fs;
use std::io;
use std::path::Path;

use crate::generate::{exhaust, hostile, traffic};
use crate::replay;

/// Each list starts with a `group` line of its own.
pub fn input() -> Vec<u8> {
    let mut text = Vec::new();
    let mut part = |name: &str, list: Vec<u8>| {
        text.extend_from_slice(format!("# {name}\n").as_bytes());
        text.extend_from_slice(&list);
    };
    part("exhaust 1", exhaust::list(1));
    part("hostile 8", hostile::list(8, None));
    part("hostile 9, in part", hostile::list(9, Some(HOSTILE)));
    for seed in TRAFFIC {
        let count = if seed % 16 == 5 || seed % 8 == 3 {
            40
        } else {
            1_100
        };
        part(&format!("traffic {seed}"), traffic::list(seed, count));
    }
    text
}

/// How far the second hostile list goes.
const HOSTILE: usize = 1_000;
/// Seeds of traffic with elements of 8, of 10,000, of 65,540 bytes, and small.
const TRAFFIC: [u64; 10] = [1, 2, 3, 4, 5, 6, 7, 8, 9, 10];

pub fn write(directory: &str) -> io::Result<()> {
    let directory = Path::new(directory);
    fs::create_dir_all(directory)?;
    let input = input();
    fs::write(directory.join("stdin"), &input)?;
    fs::write(directory.join("stdout"), replay::answer_all(&input))
}
