//! Messages through shared memory, as through a card's queues: each process has a ring of frames in which it posts and the other takes. The
//! socket wakes one that sleeps, and tells when the other has gone.

use crate::end::{Tried, Trouble};
use crate::plan::{Plan, Role};
use crate::system::{self, Map};
use fordlinnet::Message;
use std::collections::VecDeque;
use std::hint;
use std::io::{self, ErrorKind, Read, Write};
use std::os::fd::{AsFd, AsRawFd};
use std::os::unix::net::UnixStream;
use std::sync::atomic::{fence, AtomicU64, Ordering};
use std::time::{Duration, Instant};

/// A cache line, in words.
const LINE: usize = 8;

/// The link's number and a message, in words; the last one of a frame's line is its number, from 1.
const FRAME: usize = (1 + Message::SIZE).div_ceil(8);
type Frame = [u64; FRAME];
const NUMBER: usize = LINE - 1;

/// How many frames a ring holds, and after how many the one that takes them says so.
const FRAMES: u64 = 512;
const TOLD: u64 = 64;

/// How long a wait looks at the ring before it sleeps.
const LOOK: Duration = Duration::from_micros(80);

/// From one look at the clock to the next so much time passes only where another program was given this processor.
const GAP: Duration = Duration::from_micros(500);

/// After how many waits at most a look is tried again.
const RESTS: u32 = 1024;

/// What errors call it.
pub const SOCKET: &str = "the socket between the processes";

/// A ring of the one that posts in it, and what it says of itself; each line is written by one process, but that the other puts out a flag.
#[derive(Clone, Copy)]
struct Ring<'a>(&'a [AtomicU64]);

impl<'a> Ring<'a> {
    /// In words.
    const SIZE: usize = (3 + FRAMES as usize) * LINE;

    /// How many frames the other has taken, as far as it has said.
    fn taken(self) -> &'a AtomicU64 {
        &self.0[0]
    }

    /// Whether the one that posts sleeps, until the other wakes it.
    fn asleep(self) -> &'a AtomicU64 {
        &self.0[LINE]
    }

    /// The processor that it had when it last waited.
    fn processor(self) -> &'a AtomicU64 {
        &self.0[2 * LINE]
    }

    /// The line of a frame; frames count from 0.
    fn frame(self, count: u64) -> &'a [AtomicU64] {
        &self.0[(3 + (count % FRAMES) as usize) * LINE..][..LINE]
    }
}

/// The bytes of a ring.
pub const RING: usize = Ring::SIZE * 8;

pub struct Wire<'a> {
    stream: UnixStream,
    /// The rings, and how many frames were posted and taken.
    ours: Ring<'a>,
    posted: u64,
    theirs: Ring<'a>,
    taken: u64,
    /// What found no room.
    going: VecDeque<Frame>,
    /// The peer has gone, and all that it sent is in its ring.
    pub lost: bool,
    /// How many waits will not look before they sleep, and how many will not after the next look that is of no use.
    rest: u32,
    rests: u32,
    /// The processor that we had when we last waited.
    here: u64,
    /// When we last looked at the clock.
    since: Instant,
}

/// The socket that this process was given as its standard input.
pub fn given() -> Result<UnixStream, Trouble> {
    let given = io::stdin().as_fd().try_clone_to_owned().tried("take over", SOCKET)?;
    Ok(UnixStream::from(given))
}

impl<'a> Wire<'a> {
    pub fn new(stream: UnixStream, role: Role, plan: &Plan, map: &'a Map) -> Result<Wire<'a>, Trouble> {
        stream.set_nonblocking(true).tried("set up", SOCKET)?;
        let [ours, theirs] = [role, role.other()].map(|role| Ring(map.counters(plan.ring(role), Ring::SIZE)));
        Ok(Wire {
            stream,
            ours,
            posted: 0,
            theirs,
            taken: 0,
            going: VecDeque::new(),
            lost: false,
            rest: 0,
            rests: 1,
            here: 0,
            since: Instant::now(),
        })
    }

    fn room(&self) -> bool {
        self.posted - self.ours.taken().load(Ordering::Acquire) < FRAMES
    }

    /// Every placing that a message announces, and every read that it tells of, is done before it leaves: the fence keeps the copies before
    /// the frame's number.
    fn put(&mut self, frame: Frame) {
        let line = self.ours.frame(self.posted);
        line.iter().zip(frame).for_each(|(word, value)| word.store(value, Ordering::Relaxed));
        self.posted += 1;
        fence(Ordering::Release);
        line[NUMBER].store(self.posted, Ordering::Relaxed);
    }

    pub fn post(&mut self, link: u8, message: &[u8; Message::SIZE]) {
        let mut bytes = [0; 8 * FRAME];
        bytes[0] = link;
        bytes[1..=Message::SIZE].copy_from_slice(message);
        let mut frame = [0; FRAME];
        frame.iter_mut().zip(bytes.chunks_exact(8)).for_each(|(word, bytes)| *word = u64::from_le_bytes(bytes.try_into().unwrap()));
        if self.going.is_empty() && self.room() {
            self.put(frame);
        } else {
            self.going.push_back(frame);
        }
    }

    /// Nothing waits to be posted.
    pub fn idle(&self) -> bool {
        self.going.is_empty()
    }

    /// Posts what found no room before, and wakes the peer where it is seen to sleep.
    pub fn flush(&mut self) -> Result<(), Trouble> {
        while !self.going.is_empty() && self.room() {
            let frame = self.going.pop_front();
            frame.into_iter().for_each(|frame| self.put(frame));
        }
        if self.lost {
            self.going.clear();
        }
        if self.gap() {
            self.rest();
        }
        self.wake()
    }

    fn wake(&mut self) -> Result<(), Trouble> {
        if self.theirs.asleep().load(Ordering::Relaxed) == 1 && self.theirs.asleep().swap(0, Ordering::AcqRel) == 1 {
            match self.stream.write(&[0]) {
                // the peer has gone: a wait will see it; what it sent before is still to be taken
                Err(e) if matches!(e.kind(), ErrorKind::BrokenPipe | ErrorKind::ConnectionReset) => {}
                Err(e) if matches!(e.kind(), ErrorKind::WouldBlock | ErrorKind::Interrupted) => {}
                written => return written.map(drop).tried("write to", SOCKET),
            }
        }
        Ok(())
    }

    fn comes(&self) -> bool {
        self.theirs.frame(self.taken)[NUMBER].load(Ordering::Relaxed) == self.taken + 1
    }

    /// The next message, and the link that carried it. The fence keeps later reads of the element behind the message that announced its
    /// bytes.
    pub fn next(&mut self) -> Option<(u8, [u8; Message::SIZE])> {
        if !self.comes() {
            return None;
        }
        fence(Ordering::Acquire);
        let mut bytes = [0; 8 * FRAME];
        let words = self.theirs.frame(self.taken).iter();
        bytes.chunks_exact_mut(8).zip(words).for_each(|(bytes, word)| bytes.copy_from_slice(&word.load(Ordering::Relaxed).to_le_bytes()));
        self.taken += 1;
        if self.taken % TOLD == 0 {
            self.theirs.taken().store(self.taken, Ordering::Release);
        }
        Some((bytes[0], bytes[1..=Message::SIZE].try_into().ok()?))
    }

    /// Something has come, or what found no room has room now.
    fn news(&self) -> bool {
        self.comes() || !self.going.is_empty() && self.room()
    }

    /// Says which processor we have.
    fn here(&mut self) {
        let here = system::processor();
        if here != self.here {
            self.here = here;
            self.ours.processor().store(here, Ordering::Relaxed);
        }
    }

    /// Whether it is of use to look: the peer has another processor, and no other program has wanted ours.
    pub fn quick(&self) -> bool {
        self.rest == 0 && self.theirs.processor().load(Ordering::Relaxed) != self.here
    }

    /// Whether another program was given this processor since we last looked at the clock.
    fn gap(&mut self) -> bool {
        let before = std::mem::replace(&mut self.since, Instant::now());
        self.since - before > GAP
    }

    /// To look is of no use: the next waits sleep at once, twice as many as the last time.
    fn rest(&mut self) {
        self.rests = (2 * self.rests).min(RESTS);
        self.rest = self.rests;
    }

    /// Looks for news until they come, or it is of no use.
    fn look(&mut self) -> bool {
        let begun = self.since;
        while !self.news() {
            hint::spin_loop();
            if self.gap() || self.since - begun > LOOK {
                self.rest();
                return false;
            }
        }
        self.rests = (self.rests - 1).max(1);
        true
    }

    /// Waits for the peer; whether it slept. To be woken takes longer than to move an element's bytes, so that the ring is first looked at
    /// again and again, as long as that is of use.
    pub fn wait(&mut self) -> Result<bool, Trouble> {
        self.flush()?;
        // Our frames first, then a last look whether the peer sleeps: it says so first, then looks for frames. No flush needs this fence: a
        // sleeper that it missed is seen by the next one, or here.
        fence(Ordering::SeqCst);
        self.wake()?;
        self.here();
        if self.quick() && self.look() {
            return Ok(false);
        }
        self.rest = self.rest.saturating_sub(1);
        self.ours.asleep().store(1, Ordering::Relaxed);
        fence(Ordering::SeqCst);
        let sleeps = !self.news();
        if sleeps {
            system::wait(self.stream.as_raw_fd());
            let mut calls = [0; 64];
            match self.stream.read(&mut calls) {
                Ok(0) => self.lost = true,
                Ok(_) => {}
                Err(e) if matches!(e.kind(), ErrorKind::WouldBlock | ErrorKind::Interrupted) => {}
                Err(e) if e.kind() == ErrorKind::ConnectionReset => self.lost = true,
                failed => return failed.map(|_| true).tried("read", SOCKET),
            }
        }
        self.ours.asleep().store(0, Ordering::Relaxed);
        self.here();
        self.since = Instant::now();
        Ok(sleeps)
    }
}
