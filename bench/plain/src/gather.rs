//! A head and a body: gather and its pieces beside the same in ordinary Rust, and beside copying the two into one buffer and sending that.

use crate::{opened, plain, start, N, ROUNDS};
use fordlinnet::{Group, Links, Record};
use std::hint::black_box;
use std::time::Instant;

/// At most so many times plain Rust's time.
const TARGET: f64 = 1.4;
/// From here on at most joining's time.
const JOINS: usize = 1024;
const HEAD: usize = 64;
const SLOT: u32 = 2;

struct Bench {
    memory: Vec<u8>,
    table: Vec<Record>,
    links: Links,
    before: Record,
    head: Vec<u8>,
    body: Vec<u8>,
    joined: Vec<u8>,
}

impl Bench {
    fn new(count: usize, wrapped: bool) -> Bench {
        let mut before = opened(SLOT, 5);
        before.outbound.producer = start(count, wrapped);
        before.outbound.consumer = before.outbound.producer;
        let links = Links { active: [true; 4], ..Links::default() };
        let bytes = |len| (0..len).map(|i: usize| (i * 17 + 11) as u8).collect::<Vec<u8>>();
        let (head, body) = (bytes(HEAD.min(count)), bytes(count - HEAD.min(count)));
        Bench { memory: vec![0; 3 * N as usize], table: vec![before; 3], links, before, head, body, joined: vec![1; count] }
    }

    fn lay(&mut self) {
        self.table[SLOT as usize - 1] = self.before;
    }

    fn group(&mut self) -> (Group<&mut [u8], &mut [Record], &mut Links>, &[u8], &[u8], &mut [u8]) {
        let group = Group::lend(3, N, &mut self.memory[..], &mut self.table[..], &mut self.links);
        (group, &self.head, &self.body, &mut self.joined)
    }

    #[inline(never)]
    fn ours(&mut self) {
        let (mut group, head, body, _) = self.group();
        let gathered = group.gather(SLOT, head, body);
        if let Ok(gathered) = black_box(&gathered) {
            for piece in gathered.pieces() {
                black_box(&piece);
            }
        }
    }

    #[inline(never)]
    fn plain(&mut self) {
        let mut group = plain::Group { s: 3, n: N, memory: &mut self.memory, table: &mut self.table, links: &mut self.links };
        let gathered = group.gather(SLOT, &self.head, &self.body);
        if let Ok(gathered) = black_box(&gathered) {
            for piece in gathered.pieces.iter().take_while(|piece| !piece.bytes.is_empty()) {
                black_box(piece);
            }
        }
    }

    #[inline(never)]
    fn joining(&mut self) {
        let (mut group, head, body, joined) = self.group();
        let (front, rest) = joined.split_at_mut(head.len());
        front.copy_from_slice(head);
        rest.copy_from_slice(body);
        let sent = group.send(SLOT, joined);
        if let Ok(sent) = black_box(&sent) {
            for placing in &sent.placings {
                black_box(placing);
            }
        }
    }
}

/// Nanoseconds of laying the record back, of gather, of plain Rust's and of joining: the best of the rounds, taken by turns.
fn time(bench: &mut Bench, count: usize) -> [f64; 4] {
    let turns = (3_000_000 / (count + 300)).max(32);
    let mut best = [f64::MAX; 4];
    for round in 0..ROUNDS {
        for k in 0..4 {
            let way = (round + k) % 4;
            let start = Instant::now();
            for _ in 0..turns {
                let bench = black_box(&mut *bench);
                bench.lay();
                match way {
                    0 => {}
                    1 => bench.ours(),
                    2 => bench.plain(),
                    _ => bench.joining(),
                }
            }
            best[way] = best[way].min(start.elapsed().as_nanos() as f64 / turns as f64);
        }
    }
    best
}

/// Prints the rows; how many are over.
pub fn rows() -> u32 {
    let (mut worst, mut over) = (0.0_f64, 0);
    println!();
    println!("| gather, its pieces | pieces | bytes | ours, ns | plain, ns | ratio | joining and sending, ns | ratio |");
    println!("|---|---:|---:|---:|---:|---:|---:|---:|");
    for (count, wrapped) in [64, 256, 1024, 4096, 16_384, 65_536].into_iter().flat_map(|count| [(count, false), (count, true)]) {
        let mut bench = Bench::new(count, wrapped);
        let (mut group, head, body, _) = bench.group();
        let pieces = group.gather(SLOT, head, body).expect("room for all").pieces().count();
        let [laid, ours, plain, joining] = time(&mut bench, count);
        let (ours, plain, joining) = (ours - laid, plain - laid, joining - laid);
        let (ratio, joins) = (ours / plain, ours / joining);
        let missed = ratio > TARGET || (count >= JOINS && joins > 1.0);
        worst = worst.max(ratio);
        over += u32::from(missed);
        let (run, mark) = (if wrapped { "wrapped" } else { "unwrapped" }, if missed { " (over)" } else { "" });
        println!("| {run} | {pieces} | {count} | {ours:.1} | {plain:.1} | {ratio:.2}{mark} | {joining:.1} | {joins:.2} |");
    }
    println!();
    println!("gather: worst ratio {worst:.2} (target {TARGET}); from {JOINS} bytes up not over joining; {over} rows over");
    over
}
