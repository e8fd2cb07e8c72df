//! The composer: sends the file, a part of it on each connection, and takes a receipt for each.

use crate::end::{End, Ended, Trouble};
use crate::plan::{Board, Count, Plan, Role};
use std::thread;
use std::time::Duration;

#[derive(Clone, Copy)]
struct Part {
    next: usize,
    end: usize,
    /// Nothing is taken before something is heard.
    waits: bool,
    done: bool,
}

pub fn run(plan: &Plan) -> Result<Ended, Trouble> {
    let map = plan.map_shared()?;
    let input = plan.map_input()?;
    // SAFETY: nobody writes the input while it is sent.
    let file = unsafe { input.bytes() };
    let mut end = End::new(Role::Composer, plan, &map)?;
    end.board.begin(Role::Composer);
    deliver(&mut end, plan, file)
}

/// Sends a whole file, takes the receipts, and closes.
pub fn deliver(end: &mut End, plan: &Plan, file: &[u8]) -> Result<Ended, Trouble> {
    let slots = 1..=plan.connections;
    let part = |slot| {
        let part = plan.part(slot, file.len());
        Part { next: part.start, end: part.end, waits: false, done: false }
    };
    let mut parts: Vec<Part> = slots.clone().map(part).collect();

    while !(end.over() && end.wire.idle()) {
        let mut worked = false;
        for slot in slots.clone() {
            let part = &mut parts[slot as usize - 1];
            if part.done || part.waits {
                continue;
            }
            if part.next == part.end {
                end.shutdown(slot)?;
                part.done = true;
                continue;
            }
            let bytes = &file[part.next..part.end.min(part.next + plan.piece(Role::Composer, end.wire.quick()))];
            let taken = end.send(slot, bytes)?;
            part.next += taken;
            part.waits = taken < bytes.len();
            worked |= taken > 0;
            Board::add(end.board.taken(slot), taken as u64);
            if part.waits {
                end.count(Count::Blocked, 1);
            }
        }
        end.wire.flush()?;
        while let Some((link, bytes)) = end.wire.next() {
            worked = true;
            let Some(slot) = end.hear(link, &bytes)? else { continue };
            parts[slot as usize - 1].waits = false;
            if end.record(slot).marks.heard.closed {
                receipt(end, slot, plan.part(slot, file.len()).len())?;
            }
        }
        if end.wire.lost && !end.over() {
            end.abort()?;
            return Ok(Ended::Aborted);
        }
        if plan.pace > 0 {
            thread::sleep(Duration::from_micros(plan.pace));
        }
        if !worked && !end.over() {
            end.wait()?;
        }
        if end.over() {
            end.wire.flush()?;
        }
    }
    Ok(Ended::InOrder)
}

/// The host has closed: its receipt is read, and we close too.
fn receipt(end: &mut End, slot: u32, sent: usize) -> Result<(), Trouble> {
    let mut out = [0; 8];
    let count = end.read(slot, &mut out)?;
    if count != 8 || u64::from_be_bytes(out) != sent as u64 {
        return Err(Trouble::Other(format!("slot {slot}: a receipt for {} bytes", u64::from_be_bytes(out))));
    }
    end.close(slot)
}
