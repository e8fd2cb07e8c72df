//! The words that the program is called with.

use crate::plan::Role;
use std::ops::RangeInclusive;
use std::path::PathBuf;
use std::slice::Iter;

pub const USAGE: &str = "plate [FILE] [--size BYTES] [--connections K] [--element N] [--out PATH] [--rounds R] [--alone]
      [--failover] [--kill composer|host] [--at PERCENT] [--pace MICROSECONDS]
plate --draft [--connections K] [--element N] [--picture PATH]

Moves FILE (or BYTES made-up bytes) from a composer to a plate host through the proved core, K connections over elements of N bytes, and
compares what arrives; then the same over a plain Unix socket and by a bare copy through shared memory, unless --alone. With --failover
the host takes link 1 down once PERCENT of the file was read, and its connections go on over link 2. With --kill one of the two is killed
then; the other aborts, and what was read of each part is compared.

With --draft a job is aborted in the middle, its elements are opened again, and a shorter job follows in them: no byte of the draft is in
the plate that is received. Beside it the same with an open that does not zero. --picture draws both.";

pub struct Options {
    pub file: Option<PathBuf>,
    pub size: usize,
    pub out: Option<PathBuf>,
    pub connections: u32,
    pub element: u32,
    pub rounds: u32,
    pub alone: bool,
    pub failover: bool,
    pub kill: Option<Role>,
    pub at: u64,
    pub pace: u64,
    pub draft: bool,
    pub picture: Option<PathBuf>,
}

/// What the words ask for.
pub enum Asked {
    Help,
    Work(Options),
}

fn word<'a>(option: &str, words: &mut Iter<'a, String>) -> Result<&'a str, String> {
    words.next().map(String::as_str).ok_or(format!("{option} wants a word after it"))
}

fn number(option: &str, words: &mut Iter<String>, good: RangeInclusive<u64>) -> Result<u64, String> {
    let given = word(option, words)?;
    match given.parse() {
        Ok(number) if good.contains(&number) => Ok(number),
        _ => Err(format!("{option} wants a number from {} to {}, and was given \"{given}\"", good.start(), good.end())),
    }
}

pub fn options(words: &[String]) -> Result<Asked, String> {
    let mut o = Options {
        file: None,
        size: 256 << 20,
        out: None,
        connections: 16,
        element: 65_540,
        rounds: 3,
        alone: false,
        failover: false,
        kill: None,
        at: 50,
        pace: 0,
        draft: false,
        picture: None,
    };
    // what the draft has no use for, and sizes that it draws well where none are given
    let (mut file_moves, mut sized) = (None, [false; 2]);
    let mut words = words.iter();
    let mut only_files = false;
    while let Some(given) = words.next() {
        let option = given.as_str();
        if only_files || option == "-" || !option.starts_with('-') {
            if let Some(first) = o.file.replace(option.into()) {
                return Err(format!("one FILE is moved, and two are named: {} and {option}", first.display()));
            }
            file_moves = Some("FILE");
            continue;
        }
        match option {
            "-h" | "--help" => return Ok(Asked::Help),
            "--" => only_files = true,
            "--connections" => (o.connections, sized[0]) = (number(option, &mut words, 1..=255)? as u32, true),
            "--element" => (o.element, sized[1]) = (number(option, &mut words, 12..=65_540)? as u32, true),
            "--draft" => o.draft = true,
            "--picture" => o.picture = Some(word(option, &mut words)?.into()),
            "--size" | "--out" | "--rounds" | "--at" | "--pace" | "--alone" | "--failover" | "--kill" => {
                file_moves = Some(option);
                match option {
                    "--size" => o.size = number(option, &mut words, 0..=1 << 40)? as usize,
                    "--out" => o.out = Some(word(option, &mut words)?.into()),
                    "--rounds" => o.rounds = number(option, &mut words, 1..=1_000_000)? as u32,
                    "--at" => o.at = number(option, &mut words, 0..=100)?,
                    "--pace" => o.pace = number(option, &mut words, 0..=1_000_000)?,
                    "--alone" => o.alone = true,
                    "--failover" => o.failover = true,
                    _ => {
                        o.kill = Some(match word(option, &mut words)? {
                            "composer" => Role::Composer,
                            "host" => Role::Host,
                            other => return Err(format!("--kill wants composer or host, and was given \"{other}\"")),
                        })
                    }
                }
            }
            _ => return Err(format!("{option} is no option")),
        }
    }
    match file_moves {
        Some(option) if o.draft => return Err(format!("--draft moves jobs of its own, and {option} is for files")),
        None if !o.draft && o.picture.is_some() => return Err("--picture draws what --draft does".to_string()),
        Some(_) if o.picture.is_some() => return Err("--picture draws what --draft does".to_string()),
        _ => {}
    }
    if o.draft {
        o.connections = if sized[0] { o.connections } else { 4 };
        o.element = if sized[1] { o.element } else { 4100 };
        if o.element < 260 || o.connections > 16 {
            return Err("--draft wants elements of at least 260 bytes and at most 16 connections".to_string());
        }
    }
    Ok(Asked::Work(o))
}
