//! Two groups of the proved core in one process, with random traffic between them: delays, writes reordered and repeated, links that fail
//! over, aborts, closes, slots used again. Request 2026-14's claim is checked byte for byte. See README.md.

mod books;
mod breaks;
mod call;
mod counts;
mod plain;
mod random;
mod search;
#[cfg(test)]
mod tests;
mod traffic;
mod world;

use breaks::{Break, BREAKS};
use counts::{grouped, Counts};
use search::{Failed, Shown};
use std::io::{self, IsTerminal, Write};
use std::process::exit;
use std::time::{Duration, Instant, SystemTime, UNIX_EPOCH};

const USAGE: &str = "pair [--calls N] [--seed N]
pair --break NAME [--seed N]
pair -h

Two groups of the proved core in one process, random traffic between them within the premises of request 2026-14, and its claim checked
byte for byte at every call. With --break one premise is broken, alone, in many lists; the smallest run found that then does harm is shown.

  --calls N     at least so many calls (2,000,000)
  --seed N      the first seed (by the clock; with --break 1)
  --break NAME  the premise that is broken, or \"all\":
";

/// Prints a line; where nobody reads any more there is nothing more to do.
macro_rules! say {
    ($($words:tt)*) => {
        if writeln!(io::stdout(), $($words)*).is_err() {
            exit(0);
        }
    };
}

enum What {
    Run { calls: u64, seed: u64 },
    Break { which: Vec<&'static Break>, seed: u64 },
    Help,
}

fn options(words: &[String]) -> Result<What, String> {
    let (mut calls, mut seed, mut which) = (None, None, None);
    let mut words = words.iter();
    while let Some(word) = words.next() {
        let mut value = |what: &str| words.next().ok_or(format!("{word} wants {what}"));
        match word.as_str() {
            "-h" | "--help" => return Ok(What::Help),
            "--calls" => calls = Some(number(word, value("a number of calls")?)?.max(1)),
            "--seed" => seed = Some(number(word, value("a number")?)?),
            "--break" => which = Some(named(value("the name of a premise, or \"all\"")?)?),
            _ => return Err(format!("what is {word:?}?")),
        }
    }
    match which {
        Some(_) if calls.is_some() => Err("--calls and --break do not go together".to_string()),
        Some(which) => Ok(What::Break { which, seed: seed.unwrap_or(1) }),
        None => {
            let clock = || SystemTime::now().duration_since(UNIX_EPOCH).map_or(1, |since| since.as_secs());
            Ok(What::Run { calls: calls.unwrap_or(2_000_000), seed: seed.unwrap_or_else(clock) })
        }
    }
}

fn number(option: &str, word: &str) -> Result<u64, String> {
    let digits = word.replace([',', '_'], "");
    digits.parse().map_err(|_| format!("{option} wants a number, and {word:?} is none"))
}

fn named(name: &str) -> Result<Vec<&'static Break>, String> {
    let which: Vec<&Break> = BREAKS.iter().filter(|broken| name == "all" || broken.name == name).collect();
    if which.is_empty() {
        let names: Vec<&str> = BREAKS.iter().map(|broken| broken.name).collect();
        return Err(format!("there is no --break {name}; there are all, {}", names.join(", ")));
    }
    Ok(which)
}

/// A bar on a terminal, and nothing elsewhere.
struct Bar {
    shown: bool,
    start: Instant,
    last: Instant,
}

impl Bar {
    fn new() -> Bar {
        let now = Instant::now();
        Bar { shown: io::stderr().is_terminal(), start: now, last: now - Duration::from_secs(1) }
    }

    fn at(&mut self, done: u64, of: u64, words: &str) {
        if !self.shown || self.last.elapsed() < Duration::from_millis(100) {
            return;
        }
        self.last = Instant::now();
        let part = (done * 30 / of.max(1)).min(30) as usize;
        eprint!("\r[{}{}] {:3} %  {words}\x1b[K", "#".repeat(part), ".".repeat(30 - part), (done * 100 / of.max(1)).min(100));
        _ = io::stderr().flush();
    }

    fn clear(&self) {
        if self.shown {
            eprint!("\r\x1b[K");
        }
    }
}

/// Random lists, until so many calls were made.
fn run(calls: u64, seed: u64) -> i32 {
    say!("seed {seed}");
    let mut bar = Bar::new();
    let mut counts = Counts::default();
    let mut lists = 0;
    while counts.calls() < calls {
        let list_seed = seed.wrapping_add(lists);
        match search::list(list_seed) {
            Ok(more) => counts.add(&more),
            Err(failed) => {
                bar.clear();
                print_failed(&failed);
                return 1;
            }
        }
        lists += 1;
        let speed = counts.calls() as f64 / bar.start.elapsed().as_secs_f64();
        bar.at(counts.calls(), calls, &format!("{} calls, {} a second", grouped(counts.calls()), grouped(speed as u64)));
    }
    bar.clear();
    let seconds = bar.start.elapsed().as_secs_f64();
    say!("What was read is what was sent: {} bytes, each the next of those taken at the other end, and each", grouped(counts.read));
    say!("from the place where its own write had put it. No write or message of a connection was turned away,");
    say!("none was lost, and no slot was used again while something was under way to it.");
    say!("");
    let speed = grouped((counts.calls() as f64 / seconds) as u64);
    let last = seed.wrapping_add(lists - 1);
    say!("{} calls in {} lists (seeds {seed} to {last}), {seconds:.1} s, {speed} calls a second", grouped(counts.calls()), grouped(lists));
    say!("{}", counts.text().trim_end());
    let missing = counts.missing();
    if !missing.is_empty() {
        say!("\nNot reached: {}", missing.join("; "));
    }
    0
}

fn print_failed(failed: &Failed) {
    say!("WRONG, with seed {}: {}", failed.seed, failed.wrong);
    say!("The smallest run found, from {} steps:", failed.steps);
    for (place, line) in failed.lines.iter().enumerate() {
        say!("{:5}  {}", place + 1, line.words());
    }
}

/// Breaks premises, each alone.
fn break_all(which: &[&'static Break], seed: u64) -> i32 {
    let mut bar = Bar::new();
    let mut status = 0;
    for (place, broken) in which.iter().enumerate() {
        bar.at(place as u64, which.len() as u64, broken.name);
        let shown = search::show(broken, seed);
        bar.clear();
        match shown {
            Some(shown) => {
                print_shown(broken, &shown);
                status = status.max(i32::from(shown.mended.is_err()));
            }
            None => {
                say!("--break {}: {}\n  no run found in which {}\n", broken.name, broken.story, broken.harm.words());
                status = 1;
            }
        }
    }
    status
}

fn print_shown(broken: &Break, shown: &Shown) {
    say!("--break {}: {}", broken.name, broken.story);
    let premises: Vec<String> = shown.broken.iter().map(|premise| format!("{premise:?}")).collect();
    say!("  Broken, and nothing else: {}. What comes of it: {}.", premises.join(", "), broken.harm.words());
    let calls = shown.lines.iter().filter(|line| !line.said.is_empty()).count();
    say!(
        "  The smallest run found: {calls} calls, of seed {} (from {} steps; it came out in {} of {} lists).",
        shown.seed,
        shown.steps,
        shown.found,
        shown.lists
    );
    for (place, line) in shown.lines.iter().enumerate() {
        say!("  {:4}  {}", place + 1, line.words());
    }
    say!("  WRONG: {}", shown.wrong.words());
    match &shown.mended {
        Ok(0) => say!("  With the premise kept the same run reads nothing."),
        Ok(1) => say!("  With the premise kept the same run reads 1 byte, the right one."),
        Ok(read) => say!("  With the premise kept the same run reads {read} bytes, all of them right."),
        Err(wrong) => say!("  And with the premise kept, which should not be: {wrong}"),
    }
    say!("");
}

fn main() {
    let words: Vec<String> = std::env::args().skip(1).collect();
    exit(match options(&words) {
        Ok(What::Help) => {
            say!("{}", USAGE.trim_end());
            for broken in &BREAKS {
                say!("      {:18} {}", broken.name, broken.story);
            }
            0
        }
        Ok(What::Run { calls, seed }) => run(calls, seed),
        Ok(What::Break { which, seed }) => break_all(&which, seed),
        Err(wrong) => {
            eprintln!("pair: {wrong}\nTry pair -h.");
            2
        }
    });
}
