//! What the core is set beside, in processes of the same kind: a plain Unix socket, and a bare copy through shared memory.

use crate::end::{Ended, Tried, Trouble};
use crate::plan::{Board, Mark, Plan, Role};
use crate::system::Patience;
use crate::wire::{self, SOCKET};
use std::io::{ErrorKind, Read, Write};
use std::ptr;
use std::time::Instant;

const PIECE: usize = 65_536;

/// The whole file over one stream socket, 64 KiB to a write and to a read.
pub fn socket(role: Role, plan: &Plan) -> Result<Ended, Trouble> {
    let map = plan.map_shared()?;
    let board = Board::of(&map);
    let mut stream = wire::given()?;
    match role {
        Role::Composer => {
            let input = plan.map_input()?;
            // SAFETY: nobody writes the input while it is sent.
            let file = unsafe { input.bytes() };
            board.begin(role);
            let mut at = 0;
            for piece in file.chunks(PIECE) {
                stream.write_all(piece).tried("write to", SOCKET)?;
                at += piece.len();
                board.set(Mark::Head, at as u64);
            }
        }
        Role::Host => {
            let output = plan.map_output()?;
            // SAFETY: this process alone writes the output.
            let file = unsafe { output.own_bytes() };
            board.begin(role);
            let start = Instant::now();
            let mut at = 0;
            while at < file.len() {
                let end = file.len().min(at + PIECE);
                match stream.read(&mut file[at..end]) {
                    Ok(0) => return Ok(Ended::Aborted),
                    Ok(n) => {
                        at += n;
                        board.set(Mark::Tail, at as u64);
                    }
                    Err(e) if e.kind() == ErrorKind::Interrupted => {}
                    failed => return failed.map(|_| Ended::Aborted).tried("read", SOCKET),
                }
            }
            board.set(Mark::Nanoseconds, start.elapsed().as_nanos() as u64);
        }
    }
    Ok(Ended::InOrder)
}

/// The whole file through a ring in the host's memory, as large as all its elements: two counters, no message, no system call.
pub fn copy(role: Role, plan: &Plan) -> Result<Ended, Trouble> {
    let map = plan.map_shared()?;
    let board = Board::of(&map);
    let (ring, len) = (map.part(plan.start(Role::Host), plan.memory()), plan.memory());
    let piece = (plan.element as usize - 4).min(len);
    // how many of `left` bytes lie before the ring's end, from a position on
    let run = |at: usize, left: usize| left.min(len - at % len).min(piece);
    let mut patience = Patience::default();
    match role {
        Role::Composer => {
            let input = plan.map_input()?;
            // SAFETY: nobody writes the input while it is sent.
            let file = unsafe { input.bytes() };
            board.begin(role);
            let mut at = 0;
            while at < file.len() {
                let room = len - (at - board.get(Mark::Tail) as usize);
                let n = run(at, (file.len() - at).min(room));
                if n == 0 {
                    patience.wait();
                    continue;
                }
                patience.again();
                // SAFETY: n bytes of the ring from `at` on are free until the head is moved.
                unsafe { ptr::copy_nonoverlapping(file[at..].as_ptr(), ring.add(at % len), n) };
                at += n;
                board.set(Mark::Head, at as u64);
            }
        }
        Role::Host => {
            let output = plan.map_output()?;
            // SAFETY: this process alone writes the output.
            let file = unsafe { output.own_bytes() };
            board.begin(role);
            let start = Instant::now();
            let mut at = 0;
            while at < file.len() {
                let n = run(at, board.get(Mark::Head) as usize - at);
                if n == 0 {
                    patience.wait();
                    continue;
                }
                patience.again();
                // SAFETY: n bytes of the ring from `at` on were written before the head was moved.
                unsafe { ptr::copy_nonoverlapping(ring.add(at % len), file[at..].as_mut_ptr(), n) };
                at += n;
                board.set(Mark::Tail, at as u64);
            }
            board.set(Mark::Nanoseconds, start.elapsed().as_nanos() as u64);
        }
    }
    Ok(Ended::InOrder)
}
