//! Two tables, in nanoseconds. Send, hear and read of 64 bytes through the proved `group_make::make`, over lent tables of 1, 16 and 255 records.
//! The connection stands in the last slot, so that hear's search goes through the whole table. Before each call its record is laid back,
//! a copy of its 168 bytes, so that every call does the same work; "laid" is the time of that alone. Then the send of a head and a body
//! through the proved `group_gather::gather` and `pieces`, against joining them in a buffer and sending that.

use std::hint::black_box;
use std::time::Instant;

#[link(name = "group_c", kind = "static")]
extern "C" {
    fn group_call(
        s: u32,
        n: u32,
        mem: *mut u8,
        len: usize,
        table: *mut u8,
        count: usize,
        kind: u32,
        slot: u32,
        bytes: *const u8,
        lent: usize,
        out: *mut u8,
        room: usize,
    ) -> u32;

    fn group_gather(
        s: u32,
        n: u32,
        mem: *const u8,
        len: usize,
        table: *mut u8,
        count: usize,
        slot: u32,
        head: *const u8,
        head_len: usize,
        body: *const u8,
        body_len: usize,
    ) -> u32;

    fn group_piece(
        rec: Rec,
        head: *const u8,
        head_len: usize,
        body: *const u8,
        body_len: usize,
        n: u32,
        k: u32,
    ) -> Cut;
}

/// A record as the library lays it out.
#[repr(C)]
#[derive(Clone, Copy)]
struct Rec([u64; RECORD / 8]);

impl TryFrom<Vec<u64>> for Rec {
    type Error = Vec<u64>;
    fn try_from(words: Vec<u64>) -> Result<Rec, Vec<u64>> {
        words.try_into().map(Rec)
    }
}

#[repr(C)]
struct Cut {
    len: u32,
    key: u32,
    address: u64,
}

const RECORD: usize = 168;
const BYTES: usize = 64;
const OPEN: u32 = 0;
const HEAR: u32 = 1;
const READ: u32 = 2;
const SEND: u32 = 3;

struct Group {
    s: u32,
    n: u32,
    memory: Vec<u8>,
    table: Vec<u64>, // aligned for a record
    out: [u8; BYTES],
}

impl Group {
    fn call(&mut self, kind: u32, bytes: &[u8]) -> u32 {
        unsafe {
            group_call(
                self.s,
                self.n,
                self.memory.as_mut_ptr(),
                self.memory.len(),
                self.table.as_mut_ptr().cast(),
                self.s as usize,
                kind,
                self.s,
                bytes.as_ptr(),
                bytes.len(),
                self.out.as_mut_ptr(),
                self.out.len(),
            )
        }
    }

    fn gather(&mut self, head: &[u8], body: &[u8]) -> u32 {
        unsafe {
            group_gather(
                self.s,
                self.n,
                self.memory.as_ptr(),
                self.memory.len(),
                self.table.as_mut_ptr().cast(),
                self.s as usize,
                self.s,
                head.as_ptr(),
                head.len(),
                body.as_ptr(),
                body.len(),
            )
        }
    }

    fn record(&mut self) -> &mut [u64] {
        let words = RECORD / 8;
        let at = (self.s as usize - 1) * words;
        &mut self.table[at..at + words]
    }
}

/// The peer's first message: its producer 64 bytes on, to our token 5.
fn message() -> [u8; 44] {
    let mut m = [0; 44];
    m[..4].copy_from_slice(&[0xFE, 0x2C, 0, 1]);
    m[7] = 5;
    m[15] = 4 + BYTES as u8;
    m[23] = 4;
    m
}

/// The best of 41 rounds of 20,000 calls, in nanoseconds; `kind` none: only laying the record back.
fn time(group: &mut Group, before: &[u64], kind: Option<u32>, bytes: &[u8], wanted: u32) -> f64 {
    let mut best = f64::MAX;
    for _ in 0..41 {
        let start = Instant::now();
        for _ in 0..20_000 {
            group.record().copy_from_slice(black_box(before));
            if let Some(kind) = kind {
                assert_eq!(group.call(black_box(kind), black_box(bytes)), wanted);
            }
            black_box(&group.table);
        }
        best = best.min(start.elapsed().as_nanos() as f64 / 20_000.0);
    }
    best
}

/// A group of s slots of n bytes, with a connection open in the last one.
fn group(s: u32, n: u32) -> Group {
    let mut group = Group {
        s,
        n,
        memory: vec![0; (s * n) as usize],
        table: vec![0; s as usize * RECORD / 8],
        out: [0xA5; BYTES],
    };
    assert_eq!(group.call(OPEN, &[]), 1, "open");
    group
}

fn calls() {
    println!("| records | send, ns | hear, ns | read, ns | laid, ns |\n|---:|---:|---:|---:|---:|");
    for s in [1, 16, 255] {
        let mut group = group(s, 4096);
        let opened = group.record().to_vec();
        let m = message();
        assert_eq!(group.call(HEAR, &m), 1, "hear");
        let heard = group.record().to_vec();
        let bytes = [7; BYTES];
        let send = time(&mut group, &opened, Some(SEND), &bytes, BYTES as u32);
        let hear = time(&mut group, &opened, Some(HEAR), &m, 1);
        let read = time(&mut group, &heard, Some(READ), &[], BYTES as u32);
        let laid = time(&mut group, &opened, None, &[], 0);
        println!("| {s} | {send:.1} | {hear:.1} | {read:.1} | {laid:.1} |");
    }
}

/// The best of 41 rounds of `turns` calls, in nanoseconds. Before each call the record is laid back.
fn best(group: &mut Group, before: &[u64], turns: u32, mut call: impl FnMut(&mut Group) -> u32, wanted: u32) -> f64 {
    let mut best = f64::MAX;
    for _ in 0..41 {
        let start = Instant::now();
        for _ in 0..turns {
            group.record().copy_from_slice(black_box(before));
            assert_eq!(call(group), wanted);
            black_box(&group.table);
        }
        best = best.min(start.elapsed().as_nanos() as f64 / turns as f64);
    }
    best
}

/// A head of 64 bytes and a body: gathered, its pieces asked for one at a time; and joined in a buffer, then sent.
fn gathers() {
    println!("\n| body, bytes | gather and its pieces, ns | join and send, ns | the send alone, ns |\n|---:|---:|---:|---:|");
    let mut group = group(1, 65_540);
    let opened = group.record().to_vec();
    let head = vec![3u8; 64];
    let mut joined = vec![1u8; 64 + 65_536];
    for k in 0..7 {
        let body = vec![5u8; 1024 << k];
        let all = head.len() + body.len();
        let n = all.min(65_536) as u32;
        let turns = 4_000_000 / (all as u32 + 400);
        let rec: Rec = opened.clone().try_into().unwrap();
        let gathered = best(
            &mut group,
            &opened,
            turns,
            |g| {
                let n = g.gather(black_box(&head), black_box(&body));
                let mut at = 0;
                loop {
                    let cut = unsafe {
                        group_piece(black_box(rec), head.as_ptr(), head.len(), body.as_ptr(), body.len(), n, at)
                    };
                    black_box(cut.key);
                    black_box(cut.address);
                    if cut.len == 0 {
                        break at;
                    }
                    at += cut.len;
                }
            },
            n,
        );
        let sent = best(
            &mut group,
            &opened,
            turns,
            |g| {
                joined[..head.len()].copy_from_slice(black_box(&head));
                joined[head.len()..all].copy_from_slice(black_box(&body));
                g.call(black_box(SEND), black_box(&joined[..all]))
            },
            n,
        );
        let alone = best(&mut group, &opened, turns, |g| g.call(black_box(SEND), black_box(&joined[..all])), n);
        println!("| {} | {gathered:.1} | {sent:.1} | {alone:.1} |", body.len());
    }
}

fn main() {
    calls();
    gathers();
}
