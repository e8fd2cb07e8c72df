//! Read, send, urgent send, hear, place, shutdown, close, abort and link change of the proved archive, through the Rust crate, beside the
//! same in ordinary Rust. First both are compared on random calls, then timed by turns; a table of nanoseconds a call goes to standard
//! output. Ends with status 1 where a target is missed. Gather has rows of its own, beside joining too, and so have open, the pool and the
//! link calls (`rest`). With the word `tables` it times 64 bytes over tables of three sizes instead, with a call's name only that call; with
//! `link-message` it hears a thousand TEST LINKs, with `rest-count` it makes one call of `rest` so many times, for a tool that counts
//! instructions.

mod check;
mod gather;
mod links;
mod open;
#[path = "../../../bindings/rust/tests/model/ours.rs"]
#[allow(dead_code)]
mod ours;
mod plain;
mod pool;
mod rest;

use fordlinnet::{Closed, Cursor, Group, Links, Message, Opening, RToken, Read, Record, Remote};
use std::hint::black_box;
use std::time::Instant;

const N: u32 = 65_540;
const D: usize = 65_536;
const ROUNDS: usize = 41;
/// At most so many times plain Rust's time; and from 1 KB up.
const TARGET: f64 = 2.0;
const TARGET_1K: f64 = 1.1;
/// The same of a failover; and of shutdown, close and abort.
const TARGET_MOVE: f64 = 2.0;
const TARGET_FINISH: f64 = 1.3;
/// The same of an urgent send.
const TARGET_URGENT: f64 = 1.35;

#[derive(Clone, Copy, PartialEq)]
enum What {
    Read,
    Place,
    Send,
    Urgent,
    Hear,
    Shutdown,
    Close,
    Abort,
    /// Link 1 goes down.
    Change,
}

/// One row: the group before the call, and what the call is given.
struct Case {
    what: What,
    words: &'static str,
    wrapped: bool,
    tells: bool,
    count: usize,
    s: u32,
    slot: u32,
    offset: u32,
    message: [u8; 44],
    before: Record,
}

/// What a call is lent. Every page of it has been written.
struct Bench {
    memory: Vec<u8>,
    table: Vec<Record>,
    links: Links,
    bytes: Vec<u8>,
    out: Vec<u8>,
}

fn run(len: usize, a: usize) -> Vec<u8> {
    (0..len).map(|i| (i * a + 11) as u8).collect()
}

impl Bench {
    fn new(case: &Case) -> Bench {
        let s = case.s as usize;
        let mut memory = run(s * N as usize, 31);
        for element in memory.chunks_exact_mut(N as usize) {
            element[..4].copy_from_slice(&plain::EYE_CATCHER);
        }
        let mut table = vec![case.before; s];
        for (k, record) in table.iter_mut().enumerate() {
            record.id.own = 1000 + k as u32;
        }
        table[case.slot as usize - 1] = case.before;
        let links = Links { active: [true; 4], ..Links::default() };
        Bench { memory, table, links, bytes: run(D, 17), out: run(D, 7) }
    }

    fn lay(&mut self, case: &Case) {
        if case.what == What::Change {
            self.links.active = [true; 4];
            self.table.iter_mut().for_each(|record| record.id.link = case.before.id.link);
            return;
        }
        self.table[case.slot as usize - 1] = case.before;
    }

    /// The call alone: its answer is laid where all of it can be seen, and not looked at.
    #[inline(never)]
    fn ours(&mut self, case: &Case) {
        let mut group = Group::lend(case.s, N, &mut self.memory[..], &mut self.table[..], &mut self.links);
        match case.what {
            What::Read => drop(black_box(&group.read(case.slot, &mut self.out[..]))),
            What::Place => drop(black_box(&group.place(case.slot, case.offset, &self.bytes[..case.count]))),
            What::Send => drop(black_box(&group.send(case.slot, &self.bytes[..case.count]))),
            What::Urgent => drop(black_box(&group.urgent_send(case.slot, &self.bytes[..case.count]))),
            What::Hear => drop(black_box(&group.hear(&case.message))),
            What::Shutdown => drop(black_box(&group.shutdown(case.slot))),
            What::Close => drop(black_box(&group.close(case.slot))),
            What::Abort => drop(black_box(&group.abort(case.slot))),
            What::Change => drop(black_box(group.link_change_into(1, false, &mut self.out[..44 * case.s as usize]))),
        }
    }

    #[inline(never)]
    fn plain(&mut self, case: &Case) {
        let mut group = plain::Group { s: case.s, n: N, memory: &mut self.memory, table: &mut self.table, links: &mut self.links };
        match case.what {
            What::Read => drop(black_box(&group.read(case.slot, &mut self.out[..]))),
            What::Place => drop(black_box(&group.place(case.slot, case.offset, &self.bytes[..case.count]))),
            What::Send => drop(black_box(&group.send(case.slot, &self.bytes[..case.count]))),
            What::Urgent => drop(black_box(&group.urgent_send(case.slot, &self.bytes[..case.count]))),
            What::Hear => drop(black_box(&group.hear(&case.message))),
            What::Shutdown => drop(black_box(&group.shutdown(case.slot))),
            What::Close => drop(black_box(&group.close(case.slot))),
            What::Abort => drop(black_box(&group.abort(case.slot))),
            What::Change => drop(black_box(group.link_change(1, false, &mut self.out[..44 * case.s as usize]))),
        }
    }

    /// What our answer says, as numbers.
    fn our_answer(&mut self, case: &Case) -> (u64, Option<[u8; 44]>) {
        let mut group = Group::lend(case.s, N, &mut self.memory[..], &mut self.table[..], &mut self.links);
        match case.what {
            What::Read => match group.read(case.slot, &mut self.out[..]) {
                Ok(Read::Bytes { count, message }) => (count as u64, message.map(Into::into)),
                Ok(Read::Torn { message }) => (0, Some(message.into())),
                Err(_) => (u64::MAX, None),
            },
            What::Place => {
                let placed = group.place(case.slot, case.offset, &self.bytes[..case.count]);
                (u64::from(placed.is_ok()), None)
            }
            What::Send => {
                let sent = group.send(case.slot, &self.bytes[..case.count]);
                sent.map_or((u64::MAX, None), |s| (s.taken as u64, s.message.map(Into::into)))
            }
            What::Urgent => {
                let sent = group.urgent_send(case.slot, &self.bytes[..case.count]);
                sent.map_or((u64::MAX, None), |s| (s.taken as u64, s.message.map(Into::into)))
            }
            What::Hear => group.hear(&case.message).map_or((u64::MAX, None), |h| (h.moved, h.message.map(Into::into))),
            What::Shutdown => group.shutdown(case.slot).map_or((u64::MAX, None), |m| (0, Some(m.into()))),
            What::Close => match group.close(case.slot) {
                Ok(Closed::InOrder { message, .. }) => (0, Some(message.into())),
                Ok(Closed::Reset { message }) => (1, Some(message.into())),
                Err(_) => (u64::MAX, None),
            },
            What::Abort => group.abort(case.slot).map_or((u64::MAX, None), |m| (0, Some(m.into()))),
            What::Change => {
                let moved = group.link_change_into(1, false, &mut self.out).map_or(Vec::new(), |changed| changed.moved);
                (moved.len() as u64, moved.last().map(|message: &Message| *message.as_bytes()))
            }
        }
    }

    fn plain_answer(&mut self, case: &Case) -> (u64, Option<[u8; 44]>) {
        let mut group = plain::Group { s: case.s, n: N, memory: &mut self.memory, table: &mut self.table, links: &mut self.links };
        match case.what {
            What::Read => match group.read(case.slot, &mut self.out[..]) {
                Ok(plain::Read::Bytes { count, message }) => (count.into(), message),
                Ok(plain::Read::Torn { message }) => (0, Some(message)),
                Err(_) => (u64::MAX, None),
            },
            What::Place => {
                let placed = group.place(case.slot, case.offset, &self.bytes[..case.count]);
                (u64::from(placed.is_ok()), None)
            }
            What::Send => {
                let sent = group.send(case.slot, &self.bytes[..case.count]);
                sent.map_or((u64::MAX, None), |s| (s.taken.into(), s.message))
            }
            What::Urgent => {
                let sent = group.urgent_send(case.slot, &self.bytes[..case.count]);
                sent.map_or((u64::MAX, None), |s| (s.taken.into(), s.message))
            }
            What::Hear => group.hear(&case.message).map_or((u64::MAX, None), |h| (h.moved, h.message)),
            What::Shutdown => group.shutdown(case.slot).map_or((u64::MAX, None), |m| (0, Some(m))),
            What::Close => match group.close(case.slot) {
                Ok(plain::Closed::InOrder(message)) => (0, Some(message)),
                Ok(plain::Closed::Reset(message)) => (1, Some(message)),
                Err(_) => (u64::MAX, None),
            },
            What::Abort => group.abort(case.slot).map_or((u64::MAX, None), |m| (0, Some(m))),
            What::Change => {
                let count = group.link_change(1, false, &mut self.out).unwrap_or(0);
                let messages: Vec<[u8; 44]> = self.out.chunks_exact(44).take(count).map(|m| m.try_into().expect("44 bytes")).collect();
                (count as u64, messages.last().copied())
            }
        }
    }
}

/// A connection's record as open leaves it, with its five cursors moved.
fn opened(slot: u32, own: u32) -> Record {
    let mut group = Group::fresh(slot, N).expect("sizes in range");
    group.link_change(1, true).expect("a link");
    let remote = Remote { size: N, index: 3, rtokens: [RToken { key: 7, base: 1 << 40 }; 4] };
    let quiet = group.never_opened(slot).expect("a fresh group");
    group.open(quiet, &Opening { own, peer: 6, link: 1, remote }).expect("an open");
    group.table()[slot as usize - 1]
}

fn step(c: Cursor, by: usize) -> Cursor {
    let at = c.offset as usize - 4 + by;
    Cursor { offset: (4 + at % D) as u32, wrap: c.wrap + (at / D) as u16 }
}

/// Where a run of `count` bytes begins: in the middle, or so that half of it lies before the end.
fn start(count: usize, wrapped: bool) -> Cursor {
    let offset = if wrapped { N as usize - count.div_ceil(2) } else { 4 };
    Cursor { offset: offset as u32, wrap: 9 }
}

/// The peer's first message: its producer so many bytes on, and byte 24.
fn message(token: u32, count: u32, asks: u8) -> [u8; 44] {
    let mut m = [0; 44];
    m[..4].copy_from_slice(&[0xFE, 0x2C, 0, 1]);
    m[4..8].copy_from_slice(&token.to_be_bytes());
    m[12..16].copy_from_slice(&(4 + count).to_be_bytes());
    m[20..24].copy_from_slice(&4_u32.to_be_bytes());
    m[24] = asks;
    m
}

fn rows() -> Vec<Case> {
    let (s, slot, own) = (3, 2, 5);
    let base = Case {
        what: What::Read,
        words: "",
        wrapped: false,
        tells: false,
        count: 0,
        s,
        slot,
        offset: 4,
        message: [0; 44],
        before: opened(slot, own),
    };
    let mut rows = Vec::new();
    let sizes = [0, 1, 64, 256, 1024, 4096, 16_384, 32_768, 65_536];
    for tells in [false, true] {
        for wrapped in [false, true] {
            for count in sizes {
                // nothing is told of no bytes; all of them are always told; one byte cannot wrap
                if (count == 0 && (tells || wrapped)) || (count == D && !tells) || (count == 1 && wrapped) {
                    continue;
                }
                let mut before = base.before;
                let c = start(count, wrapped);
                before.inbound.consumer = c;
                before.inbound.told = c;
                before.inbound.producer = step(c, count);
                before.inbound.blocked = tells;
                rows.push(Case { wrapped, tells, count, before, ..base });
            }
        }
    }
    let mut down = base.before;
    down.id.link = 2;
    down.marks.abort = true;
    rows.push(Case { words: "refused", before: down, ..base });

    for count in sizes {
        rows.push(Case { what: What::Place, count, ..base });
    }
    for (count, wrapped) in sizes.into_iter().flat_map(|count| [(count, false), (count, true)]) {
        if count < 2 && wrapped {
            continue;
        }
        let mut before = base.before;
        before.outbound.producer = start(count, wrapped);
        before.outbound.consumer = before.outbound.producer;
        rows.push(Case { what: What::Send, wrapped, tells: count > 0, count, before, ..base });
    }
    let mut full = base.before;
    full.outbound.producer = step(full.outbound.consumer, D);
    full.outbound.blocked = true;
    rows.push(Case { what: What::Send, words: "no room", count: 1024, before: full, ..base });

    for (count, wrapped) in [(0, false), (1, false), (64, false), (64, true), (1024, false), (1024, true), (65_536, false)] {
        let mut before = base.before;
        before.outbound.producer = start(count, wrapped);
        before.outbound.consumer = before.outbound.producer;
        rows.push(Case { what: What::Urgent, wrapped, tells: count > 0, count, before, ..base });
    }
    rows.push(Case { what: What::Urgent, words: "no room", tells: true, count: 1024, before: full, ..base });
    let mut half = base.before;
    half.outbound.producer = step(half.outbound.consumer, D - 512);
    rows.push(Case { what: What::Urgent, words: "cut short", tells: true, count: 1024, before: half, ..base });

    let hears = Case { what: What::Hear, words: "3 records", count: 1024, message: message(own, 1024, 0), ..base };
    let mut read = base.before;
    read.inbound.consumer = step(read.inbound.consumer, 512);
    read.inbound.producer = read.inbound.consumer;
    rows.push(Case { tells: true, message: message(own, 1024, 0x10), before: read, ..hears });
    rows.push(Case { words: "255 records, the last", s: 255, slot: 255, before: opened(255, own), ..hears });
    rows.push(hears);

    let ends = Case { tells: true, ..base };
    rows.push(Case { what: What::Shutdown, words: "D", ..ends });
    rows.push(Case { what: What::Close, words: "C", ..ends });
    let (mut heard, mut unread) = (base.before, base.before);
    heard.marks.heard.closed = true;
    rows.push(Case { what: What::Close, words: "C, and the slot closes", before: heard, ..ends });
    unread.inbound.producer = step(unread.inbound.consumer, 64);
    rows.push(Case { what: What::Close, words: "A, with unread bytes", before: unread, ..ends });
    rows.push(Case { what: What::Abort, words: "A", ..ends });

    // every slot is on link 1: all move, or all have another link
    let all = Case { what: What::Change, s: 255, slot: 255, before: opened(255, own), ..base };
    let mut elsewhere = all.before;
    elsewhere.id.link = 4;
    rows.push(Case { words: "255 slots move", tells: true, count: 255 * 44, ..all });
    rows.push(Case { words: "255 slots, none moves", before: elsewhere, ..all });
    rows
}

/// A thousand TEST LINKs are heard and answered.
fn link_message() {
    let mut group = Group::fresh(3, 64).expect("sizes in range");
    group.link_change(1, true).expect("a link");
    let mut test = [0; 44];
    test[..2].copy_from_slice(&[0x07, 0x2C]);
    for _ in 0..1000 {
        let heard = black_box(&mut group).link_message(1, black_box(&test)).expect("an active link");
        assert!(black_box(heard).reply.is_some());
    }
}

/// Send, hear and read of 64 bytes over tables of 1, 16 and 255 records; the connection stands in the last slot, so that hear's search by
/// token goes through the whole table.
fn tables() {
    println!("| records | send, ns | plain | hear, ns | plain | read, ns | plain |");
    println!("|---:|---:|---:|---:|---:|---:|---:|");
    for s in [1, 16, 255] {
        let before = opened(s, 5);
        let mut unread = before;
        unread.inbound.producer = step(before.inbound.consumer, 64);
        let base = Case { s, slot: s, count: 64, before, message: message(5, 64, 0), ..rows().swap_remove(0) };
        let cases = [Case { what: What::Send, ..base }, Case { what: What::Hear, ..base }, Case { before: unread, ..base }];
        let cells = cases.map(|case| {
            let [laid, ours, plain] = time(&case, &mut Bench::new(&case));
            format!("{:.1} | {:.1}", ours - laid, plain - laid)
        });
        println!("| {s} | {} |", cells.join(" | "));
    }
}

/// Nanoseconds of laying the record back alone, of the proved call and of the plain one: the best of the rounds, taken by turns.
fn time(case: &Case, bench: &mut Bench) -> [f64; 3] {
    let turns = (3_000_000 / (case.count + 300)).max(32);
    let mut best = [f64::MAX; 3];
    for round in 0..ROUNDS {
        for k in 0..3 {
            let way = (round + k) % 3;
            let start = Instant::now();
            for _ in 0..turns {
                let (bench, case) = (black_box(&mut *bench), black_box(case));
                bench.lay(case);
                match way {
                    0 => {}
                    1 => bench.ours(case),
                    _ => bench.plain(case),
                }
            }
            best[way] = best[way].min(start.elapsed().as_nanos() as f64 / turns as f64);
        }
    }
    best
}

fn main() {
    let only = std::env::args().nth(1);
    match only.as_deref() {
        Some("tables") => return tables(),
        Some("link-message") => return link_message(),
        Some("gather") => std::process::exit(i32::from(gather::rows() > 0)),
        Some("rest-names") => return rest::names().iter().for_each(|name| println!("{name}")),
        Some("rest-count") => {
            let word = |k: usize| std::env::args().nth(k).expect("rest-count ROW ours|plain|none TURNS");
            return rest::count(word(2).parse().expect("a row"), &word(3), word(4).parse().expect("how often"));
        }
        _ => {}
    }
    if only.is_none() {
        let calls = check::check(100_000) + rest::check(400_000);
        eprintln!("{calls} random calls: the plain calls answer and leave the same");
    }
    println!("| call | run | message | bytes | ours, ns | plain, ns | ratio |");
    println!("|---|---|---|---:|---:|---:|---:|");
    let (mut worst, mut worst_1k, mut worst_move, mut over) = (0.0_f64, 0.0_f64, 0.0_f64, 0);
    let (mut worst_finish, mut worst_urgent) = (0.0_f64, 0.0_f64);
    for case in rows() {
        let what = match case.what {
            What::Read => "read",
            What::Place => "place",
            What::Send => "send",
            What::Urgent => "urgent send",
            What::Hear => "hear",
            What::Shutdown => "shutdown",
            What::Close => "close",
            What::Abort => "abort",
            What::Change => "link change",
        };
        if only.as_ref().is_some_and(|only| only != what) {
            continue;
        }
        let mut bench = Bench::new(&case);
        let ours = bench.our_answer(&case);
        bench.lay(&case);
        assert!(ours == bench.plain_answer(&case), "{what}: not the same answer");
        let expected = if case.words == "refused" { u64::MAX } else { ours.0 };
        assert!(ours.0 == expected && ours.1.is_some() == case.tells, "{what} {}: another answer", case.count);
        let [laid, ours, plain] = time(&case, &mut bench);
        let (ours, plain) = (ours - laid, plain - laid);
        let ratio = ours / plain;
        // place, send and hear have no target, nor has an urgent send of no bytes; they are measured beside the others
        let (worst, target) = match case.what {
            What::Read if case.count >= 1024 => (&mut worst_1k, TARGET_1K),
            What::Read => (&mut worst, TARGET),
            What::Change if case.tells => (&mut worst_move, TARGET_MOVE),
            What::Shutdown | What::Close | What::Abort => (&mut worst_finish, TARGET_FINISH),
            What::Urgent if case.tells => (&mut worst_urgent, TARGET_URGENT),
            _ => (&mut 0.0, f64::MAX),
        };
        *worst = worst.max(ratio);
        let missed = ratio > target;
        over += u32::from(missed);
        let run = if case.words.is_empty() {
            if case.wrapped {
                "wrapped"
            } else {
                "unwrapped"
            }
        } else {
            case.words
        };
        let tells = if case.tells { "yes" } else { "no" };
        let mark = if missed { " (over)" } else { "" };
        println!("| {what} | {run} | {tells} | {} | {ours:.1} | {plain:.1} | {ratio:.2}{mark} |", case.count);
    }
    println!();
    println!(
        "read: worst ratio {worst:.2} below 1 KB (target {TARGET}), {worst_1k:.2} from 1 KB up (target {TARGET_1K});
failover: {worst_move:.2} (target {TARGET_MOVE}); shutdown, close and abort: {worst_finish:.2} (target {TARGET_FINISH});
urgent send: {worst_urgent:.2} (target {TARGET_URGENT}); {over} rows over"
    );
    if only.is_none() {
        over += gather::rows();
    }
    println!();
    over += rest::table(only.as_deref());
    if over > 0 {
        std::process::exit(1);
    }
}
