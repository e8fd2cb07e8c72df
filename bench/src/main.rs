//! Store, read and clear of the proved library against ordinary Rust, in one run: a table of nanoseconds per call and the ratios.
//! "Step" is the same call in ordinary Rust, unproved; "copy" is only its `copy_from_slice` or `fill`, with every choice made beforehand.
//! Ends with status 1 where a ratio to either, from 1 KB up, is above 1.2.

use std::hint::black_box;
use std::time::Instant;

/// The library's functions, which ask for nothing: a slice is its pointer and its length.
mod element {
    #[link(name = "bench_element", kind = "static")]
    extern "C" {
        fn element_store(mem: *mut u8, len: usize, at: usize, bytes: *const u8, n: usize);
        fn element_read(
            mem: *const u8,
            len: usize,
            base: usize,
            size: usize,
            offset: usize,
            count: usize,
            out: *mut u8,
            room: usize,
        );
        fn element_clear(mem: *mut u8, len: usize, base: usize, size: usize);
    }

    pub fn store(mem: &mut [u8], at: usize, bytes: &[u8]) {
        unsafe { element_store(mem.as_mut_ptr(), mem.len(), at, bytes.as_ptr(), bytes.len()) }
    }

    pub fn read(mem: &[u8], base: usize, size: usize, offset: usize, count: usize, out: &mut [u8]) {
        unsafe {
            element_read(mem.as_ptr(), mem.len(), base, size, offset, count, out.as_mut_ptr(), out.len())
        }
    }

    pub fn clear(mem: &mut [u8], base: usize, size: usize) {
        unsafe { element_clear(mem.as_mut_ptr(), mem.len(), base, size) }
    }
}

/// The cursor step: as it is, as it was before request 2026-02 (the wrap number by a remainder), and by dividing in ordinary Rust.
mod cursor {
    #[repr(C)]
    #[derive(Clone, Copy, Debug, PartialEq)]
    pub struct Cursor {
        pub offset: u32,
        pub wrap: u16,
    }

    #[link(name = "bench_cursor", kind = "static")]
    extern "C" {
        fn cursor_step(n: u32, offset: u32, wrap: u16, k: u32) -> Cursor;
        fn cursor_step_by_remainder(n: u32, offset: u32, wrap: u16, k: u32) -> Cursor;
    }

    pub fn after(n: u32, c: Cursor, k: u32) -> Cursor {
        unsafe { cursor_step(n, c.offset, c.wrap, k) }
    }

    pub fn before(n: u32, c: Cursor, k: u32) -> Cursor {
        unsafe { cursor_step_by_remainder(n, c.offset, c.wrap, k) }
    }

    #[inline(never)]
    pub fn dividing(n: u32, c: Cursor, k: u32) -> Cursor {
        let d = n - 4;
        let x = c.offset - 4 + k;
        Cursor { offset: 4 + x % d, wrap: ((c.wrap as u32 + x / d) % 65_536) as u16 }
    }
}

/// The same in ordinary Rust, where a wrong index panics.
mod step {
    #[inline(never)]
    pub fn store(mem: &mut [u8], at: usize, bytes: &[u8]) {
        mem[at..at + bytes.len()].copy_from_slice(bytes)
    }

    #[inline(never)]
    pub fn read(mem: &[u8], base: usize, size: usize, offset: usize, count: usize, out: &mut [u8]) {
        let element = &mem[base..base + size];
        let room = size - offset;
        if count <= room {
            out[..count].copy_from_slice(&element[offset..offset + count]);
        } else {
            out[..room].copy_from_slice(&element[offset..]);
            out[room..count].copy_from_slice(&element[4..4 + count - room]);
        }
    }

    #[inline(never)]
    pub fn clear(mem: &mut [u8], base: usize, size: usize) {
        let element = &mut mem[base..base + size];
        element.fill(0);
        element[..4].copy_from_slice(&[0xE2, 0xD4, 0xC3, 0xD9]);
    }
}

/// An element of the largest size, the second of three in the memory.
const N: usize = 65_540;
const ROUNDS: usize = 61;
const TARGET: f64 = 1.2;

/// What a call is given. Each turn hides it from the compiler, so nothing of it is known beforehand.
struct Case {
    mem: Vec<u8>,
    bytes: Vec<u8>,
    out: Vec<u8>,
    base: usize,
    size: usize,
    offset: usize,
    count: usize,
    /// How many of `count` bytes stand before the element's end.
    first: usize,
}

/// Buffers with other contents each, so that every page has been written.
fn touched(size: usize, offset: usize, count: usize) -> Case {
    let run = |len: usize, a: usize| (0..len).map(|i| (i * a + 11) as u8).collect();
    let first = count.min(size - offset);
    Case { mem: run(3 * N, 31), bytes: run(65_536, 17), out: run(65_536, 7), base: N, size, offset, count, first }
}

/// Nanoseconds of one call of each: the best of the rounds, all by turns, so that they meet the same machine.
fn measure(c: &mut Case, calls: [&dyn Fn(&mut Case, usize); 3]) -> [f64; 3] {
    let turns = (2_000_000 / (c.count + 200)).max(32);
    let mut best = [f64::MAX; 3];
    for round in 0..ROUNDS {
        for k in 0..3 {
            let i = (round + k) % 3;
            let start = Instant::now();
            calls[i](c, turns);
            best[i] = best[i].min(start.elapsed().as_nanos() as f64 / turns as f64);
        }
    }
    best
}

fn turns(f: impl Fn(&mut Case)) -> impl Fn(&mut Case, usize) {
    move |c, k| (0..k).for_each(|_| f(black_box(c)))
}

struct Table {
    worst: f64,
}

impl Table {
    /// One row: all three must leave the same bytes, then they are timed.
    fn row(
        &mut self,
        what: &str,
        wrapped: &str,
        make: impl Fn() -> Case,
        ours: impl Fn(&mut Case),
        step: impl Fn(&mut Case),
        copy: impl Fn(&mut Case),
    ) {
        let (mut a, mut b, mut c, before) = (make(), make(), make(), make());
        ours(&mut a);
        step(&mut b);
        copy(&mut c);
        assert!(a.mem == b.mem && a.out == b.out && a.mem == c.mem && a.out == c.out, "{what}: not the same bytes");
        assert!(a.mem != before.mem || a.out != before.out, "{what}: nothing done");
        let n = a.count;
        let [x, y, z] = measure(&mut a, [&turns(ours), &turns(step), &turns(copy)]);
        if n >= 1024 {
            self.worst = self.worst.max(x / y).max(x / z);
        }
        println!("| {what} | {wrapped} | {n} | {x:.1} | {y:.1} | {:.2} | {z:.1} | {:.2} |", x / y, x / z);
    }
}

/// Nanoseconds of one cursor step, each step from where the last one ended: the best of the rounds, the three by turns.
fn cursor_steps() {
    use cursor::{after, before, dividing, Cursor};
    println!("| cursor step of | after, ns | before, ns | dividing in Rust, ns |");
    println!("|---|---:|---:|---:|");
    let ways: [fn(u32, Cursor, u32) -> Cursor; 3] = [after, before, dividing];
    for (name, n, k) in [("1 of 65,536", 65_540, 1), ("1,000 of 9,996", 10_000, 1_000), ("D, every step wraps", 65_540, 65_536)] {
        let steps = 200_000;
        let mut best = [f64::MAX; 3];
        for round in 0..ROUNDS {
            let mut ends = [Cursor { offset: 4, wrap: 65_530 }; 3];
            for turn in 0..3 {
                let i = (round + turn) % 3;
                let start = Instant::now();
                for _ in 0..steps {
                    ends[i] = ways[i](black_box(n), ends[i], black_box(k));
                }
                best[i] = best[i].min(start.elapsed().as_nanos() as f64 / steps as f64);
            }
            assert!(ends[0] == ends[1] && ends[0] == ends[2], "{name}: not the same cursor");
        }
        println!("| {name} | {:.2} | {:.2} | {:.2} |", best[0], best[1], best[2]);
    }
    println!();
}

fn main() {
    cursor_steps();
    println!("| call | wrapped | bytes | ours, ns | step, ns | ratio | copy, ns | ratio |");
    println!("|---|---|---:|---:|---:|---:|---:|---:|");
    let mut table = Table { worst: 0.0 };
    let sizes = [64, 128, 256, 512, 1024, 2048, 4096, 8192, 16_384, 32_768, 65_536];

    for n in sizes {
        table.row(
            "store",
            "no",
            || touched(N, 4, n),
            |c| element::store(&mut c.mem, c.base + c.offset, &c.bytes[..c.count]),
            |c| step::store(&mut c.mem, c.base + c.offset, &c.bytes[..c.count]),
            |c| {
                let at = c.base + c.offset;
                c.mem[at..at + c.count].copy_from_slice(&c.bytes[..c.count])
            },
        );
    }
    // a wrapped send names two placings, each a store: half up to the element's end, half from 4
    for n in sizes {
        table.row(
            "store",
            "yes",
            || touched(N, N - n / 2, n),
            |c| {
                element::store(&mut c.mem, c.base + c.offset, &c.bytes[..c.first]);
                element::store(&mut c.mem, c.base + 4, &c.bytes[c.first..c.count]);
            },
            |c| {
                step::store(&mut c.mem, c.base + c.offset, &c.bytes[..c.first]);
                step::store(&mut c.mem, c.base + 4, &c.bytes[c.first..c.count]);
            },
            |c| {
                let (at, from) = (c.base + c.offset, c.base + 4);
                c.mem[at..at + c.first].copy_from_slice(&c.bytes[..c.first]);
                c.mem[from..from + c.count - c.first].copy_from_slice(&c.bytes[c.first..c.count]);
            },
        );
    }
    for n in sizes {
        table.row(
            "read",
            "no",
            || touched(N, 4, n),
            |c| element::read(&c.mem, c.base, c.size, c.offset, c.count, &mut c.out),
            |c| step::read(&c.mem, c.base, c.size, c.offset, c.count, &mut c.out),
            |c| {
                let at = c.base + c.offset;
                c.out[..c.count].copy_from_slice(&c.mem[at..at + c.count])
            },
        );
    }
    for n in sizes {
        table.row(
            "read",
            "yes",
            || touched(N, N - n / 2, n),
            |c| element::read(&c.mem, c.base, c.size, c.offset, c.count, &mut c.out),
            |c| step::read(&c.mem, c.base, c.size, c.offset, c.count, &mut c.out),
            |c| {
                let (at, from) = (c.base + c.offset, c.base + 4);
                c.out[..c.first].copy_from_slice(&c.mem[at..at + c.first]);
                c.out[c.first..c.count].copy_from_slice(&c.mem[from..from + c.count - c.first]);
            },
        );
    }
    for n in sizes {
        table.row(
            "clear",
            "",
            || touched(n, 4, n),
            |c| element::clear(&mut c.mem, c.base, c.size),
            |c| step::clear(&mut c.mem, c.base, c.size),
            |c| {
                c.mem[c.base..c.base + c.size].fill(0);
                c.mem[c.base..c.base + 4].copy_from_slice(&[0xE2, 0xD4, 0xC3, 0xD9]);
            },
        );
    }

    println!();
    println!("worst ratio from 1 KB up: {:.2} (target: at most {TARGET})", table.worst);
    if table.worst > TARGET {
        std::process::exit(1);
    }
}
