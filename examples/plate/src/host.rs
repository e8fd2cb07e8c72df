//! The plate host: reads each connection's part of the file into the output, sends a receipt, and closes.

use crate::end::{End, Ended, Trouble};
use crate::plan::{Board, Mark, Plan, Role, FAILING};
use std::time::Instant;

pub fn run(plan: &Plan) -> Result<Ended, Trouble> {
    let map = plan.map_shared()?;
    let output = plan.map_output()?;
    // SAFETY: this process alone writes the output, and holds no other slice of it.
    let file = unsafe { output.own_bytes() };
    let mut end = End::new(Role::Host, plan, &map)?;
    end.board.begin(Role::Host);
    receive(&mut end, plan, file)
}

/// Reads a whole file into its place, and closes.
pub fn receive(end: &mut End, plan: &Plan, file: &mut [u8]) -> Result<Ended, Trouble> {
    let slots = 1..=plan.connections;
    let mut next: Vec<usize> = slots.clone().map(|slot| plan.part(slot, file.len()).start).collect();
    let mut news = vec![false; plan.connections as usize];
    let mut missing = file.len();
    let mut fails = plan.failover;
    let start = Instant::now();

    while !(end.over() && end.wire.idle()) {
        while let Some((link, bytes)) = end.wire.next() {
            if let Some(slot) = end.hear(link, &bytes)? {
                news[slot as usize - 1] = true;
            }
        }
        for slot in slots.clone() {
            if !std::mem::take(&mut news[slot as usize - 1]) || !end.record(slot).id.opened {
                continue;
            }
            let (at, part) = (&mut next[slot as usize - 1], plan.part(slot, file.len()));
            if end.record(slot).marks.sent.closed {
                continue;
            }
            let most = plan.piece(Role::Host, end.wire.quick());
            let count = end.read(slot, &mut file[*at..part.end.min(*at + most)])?;
            *at += count;
            // there may be more
            news[slot as usize - 1] = count == most;
            missing -= count;
            Board::add(end.board.read(slot), count as u64);
            if end.record(slot).marks.heard.done && *at == part.end {
                end.send(slot, &(part.len() as u64).to_be_bytes())?;
                end.close(slot)?;
            }
        }
        if fails.is_some_and(|at| (file.len() - missing) as u64 * 100 >= at * file.len() as u64) {
            fails = None;
            end.delete_link(FAILING)?;
        }
        if missing == 0 && end.board.get(Mark::Nanoseconds) == 0 {
            end.board.set(Mark::Nanoseconds, start.elapsed().as_nanos() as u64);
        }
        end.wire.flush()?;
        if end.wire.lost && !end.over() {
            end.abort()?;
            return Ok(Ended::Aborted);
        }
        if !end.over() && !news.contains(&true) {
            end.wait()?;
        }
    }
    Ok(Ended::InOrder)
}
