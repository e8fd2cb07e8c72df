//! Runs another program beside the model, list after list.

use std::io::{self, Write};
use std::process::{Command, Stdio};
use std::thread;
use std::time::{Duration, Instant};

use crate::generate::{exhaust, hostile, orders, traffic};
use crate::replay::{lines, Replay};

/// How long to compare.
#[derive(Clone, Copy, Debug)]
pub enum Goal {
    Seconds(u64),
    Calls(u64),
}

/// How many lines before a difference are shown.
const SHOWN: usize = 20;
/// Longer lines are cut in what is shown.
const WIDTH: usize = 400;

/// One list's answers, line by line of its input.
struct Answered {
    calls: Vec<(Vec<u8>, Vec<u8>)>,
}

/// Each line that is not skipped, with the text of its answer.
fn answer_each(input: &[u8]) -> Answered {
    let mut replay = Replay::new();
    let mut calls = Vec::new();
    for line in lines(input) {
        let mut out = Vec::new();
        replay.answer_line(line, &mut out);
        if !out.is_empty() {
            calls.push((line.to_vec(), out));
        }
    }
    Answered { calls }
}

/// Gives the input to the program and takes all it prints.
fn run_program(program: &str, input: &[u8]) -> io::Result<Vec<u8>> {
    let mut child = Command::new(program)
        .stdin(Stdio::piped())
        .stdout(Stdio::piped())
        // why a line is bad is not compared
        .stderr(Stdio::null())
        .spawn()?;
    let mut stdin = child
        .stdin
        .take()
        .ok_or_else(|| io::Error::other("no standard input"))?;
    let input = input.to_vec();
    // A program that stops reading shows itself by what it printed.
    let writer = thread::spawn(move || {
        let _ = stdin.write_all(&input);
    });
    let output = child.wait_with_output()?;
    let _ = writer.join();
    if !output.status.success() {
        eprintln!("the program ended with {}", output.status);
    }
    Ok(output.stdout)
}

/// Compares the program with the model on one input. The program's output comes
/// back if it is the same.
fn same(program: &str, name: &str, input: &[u8]) -> io::Result<Option<Vec<u8>>> {
    let expected = answer_each(input);
    let given = run_program(program, input)?;
    let mut at = 0;
    for (call, (line, answer)) in expected.calls.iter().enumerate() {
        if given[at..].starts_with(answer) {
            at += answer.len();
            continue;
        }
        println!("difference in {name}, call {}", call + 1);
        show_calls(&expected, call);
        println!("the call:    {}", shown(line));
        println!("the model:   {}", shown(answer));
        let count = answer.iter().filter(|&&byte| byte == b'\n').count();
        let other = first_lines(&given[at..], count);
        println!("the program: {}", shown(other));
        show_where(answer, other);
        return Ok(None);
    }
    if at != given.len() {
        println!("difference in {name}: the program printed more than the model");
        println!("the program: {}", shown(first_lines(&given[at..], 3)));
        return Ok(None);
    }
    Ok(Some(given))
}

fn show_calls(expected: &Answered, call: usize) {
    for (line, answer) in &expected.calls[call.saturating_sub(SHOWN)..call] {
        println!("    {}", shown(line));
        println!("        -> {}", shown(answer));
    }
}

/// Where two answers part, if that is far from their start.
fn show_where(answer: &[u8], other: &[u8]) {
    let at = answer.iter().zip(other).take_while(|(a, b)| a == b).count();
    if at < WIDTH / 2 {
        return;
    }
    let around = |text: &[u8]| {
        let end = text.len().min(at + 40);
        String::from_utf8_lossy(&text[(at - 40).min(end)..end]).into_owned()
    };
    println!("they part at character {}:", at + 1);
    println!("    the model:   ... {}", around(answer));
    println!("    the program: ... {}", around(other));
}

fn first_lines(text: &[u8], count: usize) -> &[u8] {
    let end = text
        .iter()
        .enumerate()
        .filter(|(_, &byte)| byte == b'\n')
        .nth(count.max(1) - 1)
        .map_or(text.len(), |(at, _)| at + 1);
    &text[..end]
}

fn shown(text: &[u8]) -> String {
    let text = text.strip_suffix(b"\n").unwrap_or(text);
    let whole = String::from_utf8_lossy(text).replace('\n', "\n             ");
    if whole.len() > WIDTH && text.iter().all(|byte| byte.is_ascii() && *byte != b'\n') {
        let (start, end) = (&whole[..WIDTH / 2], &whole[whole.len() - WIDTH / 2..]);
        return format!("{start} ... {end} ({} characters)", whole.len());
    }
    whole
}

/// A pair of orders: each as the model answers it, and the program with itself
/// through the permutation.
fn same_orders(program: &str, seed: u64, pair: &orders::Pair) -> io::Result<bool> {
    let first = same(program, &format!("orders {seed}, first"), &pair.first)?;
    let second = same(program, &format!("orders {seed}, second"), &pair.second)?;
    let (Some(first), Some(second)) = (first, second) else {
        return Ok(false);
    };
    let calls = lines(&pair.first);
    let first = lines(&first);
    let second = lines(&second);
    // `table` prints seventeen lines and stands behind all calls that move.
    let moving = calls.iter().position(|line| line == b"table").unwrap_or(0);
    for (call, &place) in pair.permutation.iter().enumerate().take(moving) {
        if first[call] != second[place] {
            println!("orders {seed}: call {} answers differently", call + 1);
            println!("the call:         {}", shown(calls[call]));
            println!("in the first:     {}", shown(first[call]));
            println!("in the second:    {}", shown(second[place]));
            return Ok(false);
        }
    }
    if first[moving..] != second[moving..] {
        println!("orders {seed}: tables or memory end differently");
        return Ok(false);
    }
    Ok(true)
}

/// Compares until the goal is reached or a difference is found.
pub fn compare(program: &str, goal: Goal, first_seed: u64) -> io::Result<bool> {
    let start = Instant::now();
    let mut compared = 0u64;
    let mut lists = 0u64;
    let mut seed = first_seed;
    let reached = |compared: u64| match goal {
        Goal::Seconds(seconds) => start.elapsed() >= Duration::from_secs(seconds),
        Goal::Calls(calls) => compared >= calls,
    };
    let count = |text: &[u8]| lines(text).len() as u64;
    'lists: loop {
        for kind in 0..6 {
            let good = if kind == 5 {
                let pair = orders::pair(seed, orders::COUNT);
                compared += count(&pair.first) + count(&pair.second);
                lists += 2;
                same_orders(program, seed, &pair)?
            } else {
                let (name, list) = match kind {
                    0 if seed % 16 == first_seed % 16 => {
                        (format!("exhaust {seed}"), exhaust::list(seed))
                    }
                    0 | 1 => {
                        let seed = seed.wrapping_mul(2).wrapping_add(kind);
                        (format!("hostile {seed}"), hostile::list(seed, None))
                    }
                    _ => {
                        let seed = seed.wrapping_mul(4).wrapping_add(kind);
                        let list = traffic::list(seed, traffic::COUNT);
                        (format!("traffic {seed}"), list)
                    }
                };
                compared += count(&list);
                lists += 1;
                same(program, &name, &list)?.is_some()
            };
            if !good {
                println!("{compared} calls in {lists} lists, the last one with a difference");
                return Ok(false);
            }
            if reached(compared) {
                break 'lists;
            }
        }
        seed += 1;
    }
    println!("{compared} calls in {lists} lists, no difference");
    Ok(true)
}
