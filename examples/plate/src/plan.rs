//! What both processes are told, and the board on which they write how far they are.

use crate::end::{Tried, Trouble};
use crate::system::{Map, Patience};
use crate::wire::RING;
use std::fs::{File, OpenOptions};
use std::ops::Range;
use std::path::{Path, PathBuf};
use std::sync::atomic::{AtomicU64, Ordering};

/// Who a process is. Each has a memory of its own, which the other writes.
#[derive(Clone, Copy, Debug, PartialEq, Eq)]
pub enum Role {
    Composer,
    Host,
}

impl Role {
    pub fn other(self) -> Role {
        match self {
            Role::Composer => Role::Host,
            Role::Host => Role::Composer,
        }
    }

    pub fn word(self) -> &'static str {
        match self {
            Role::Composer => "composer",
            Role::Host => "host",
        }
    }
}

fn map(path: &Path, writes: bool) -> Result<Map, Trouble> {
    let file = if writes { OpenOptions::new().read(true).write(true).open(path) } else { File::open(path) };
    Map::of(&file.tried("open", path.display())?, writes).tried("map", path.display())
}

/// The arguments that the processes share.
#[derive(Clone, Debug)]
pub struct Plan {
    /// The file of the memories and the board.
    pub shared: PathBuf,
    pub input: PathBuf,
    pub output: PathBuf,
    pub connections: u32,
    /// N, of every element.
    pub element: u32,
    /// Microseconds that the composer rests in every round, so that there is time to kill somebody.
    pub pace: u64,
    /// The percentage of the file after which a link is taken down.
    pub failover: Option<u64>,
}

/// The link that is taken down.
pub const FAILING: u8 = 1;

/// The board: so many bytes of counters, in pages of its own.
const BOARD: usize = 8192;

impl Plan {
    pub fn words(&self) -> Vec<String> {
        let path = |p: &PathBuf| p.to_string_lossy().into_owned();
        let (connections, element, pace) = (self.connections.to_string(), self.element.to_string(), self.pace.to_string());
        let failover = self.failover.map_or("never".to_string(), |at| at.to_string());
        vec![path(&self.shared), path(&self.input), path(&self.output), connections, element, pace, failover]
    }

    pub fn from_words(words: &[String]) -> Option<Plan> {
        let [shared, input, output, connections, element, pace, failover] = words else { return None };
        Some(Plan {
            shared: shared.into(),
            input: input.into(),
            output: output.into(),
            connections: connections.parse().ok()?,
            element: element.parse().ok()?,
            pace: pace.parse().ok()?,
            failover: failover.parse().ok(),
        })
    }

    /// The bytes of one group's memory.
    pub fn memory(&self) -> usize {
        self.connections as usize * self.element as usize
    }

    /// Where the memory of a process begins in the shared file.
    pub fn start(&self, role: Role) -> usize {
        let before = if role == Role::Composer { 0 } else { self.memory() };
        BOARD + 2 * RING.next_multiple_of(4096) + before.next_multiple_of(4096)
    }

    /// Where the ring begins in which a process posts its messages.
    pub fn ring(&self, role: Role) -> usize {
        let before = if role == Role::Composer { 0 } else { RING };
        BOARD + before.next_multiple_of(4096)
    }

    pub fn shared_bytes(&self) -> usize {
        self.start(Role::Host) + self.memory()
    }

    /// What is offered or read at once at most: half the peer's element, so that the host reads one half while the other is written. One
    /// connection whose ends look for each other does better with quarters at both: the host's update leaves while it has more to read.
    pub fn piece(&self, role: Role, quick: bool) -> usize {
        let pieces = match (self.connections, role) {
            (1, _) if quick => 4,
            (_, Role::Composer) => 2,
            (_, Role::Host) => 1,
        };
        (self.element as usize - 4).div_ceil(pieces)
    }

    /// The part of a file that a connection carries; slots count from 1.
    pub fn part(&self, slot: u32, len: usize) -> Range<usize> {
        let k = self.connections as usize;
        let slot = slot as usize;
        len * (slot - 1) / k..len * slot / k
    }

    pub fn map_shared(&self) -> Result<Map, Trouble> {
        map(&self.shared, true)
    }

    pub fn map_input(&self) -> Result<Map, Trouble> {
        map(&self.input, false)
    }

    pub fn map_output(&self) -> Result<Map, Trouble> {
        map(&self.output, true)
    }
}

/// Names of the board's numbers.
#[derive(Clone, Copy)]
#[repr(usize)]
pub enum Mark {
    Go,
    ComposerReady,
    HostReady,
    /// Nanoseconds until the host had read the last byte.
    Nanoseconds,
    /// Beside the core: bytes written, bytes read.
    Head,
    Tail,
}

/// What each process counts for itself.
#[derive(Clone, Copy)]
#[repr(usize)]
pub enum Count {
    Messages,
    /// Messages that reads made.
    Updates,
    /// Sends that were cut short.
    Blocked,
    /// Waits until the other process woke it.
    Sleeps,
    /// Messages with F that it made and heard.
    Moved,
    FailoversHeard,
}

/// A mark and a count have a cache line of their own, so that neither process waits for the other's.
const LINE: usize = 8;

/// Where the counts begin, and the counters of slots.
const COUNTS: usize = 64;
const READ: usize = 192;
const TAKEN: usize = 512;

/// Counters that all processes see, and that outlive one that is killed.
#[derive(Clone, Copy)]
pub struct Board<'a> {
    all: &'a [AtomicU64],
}

impl<'a> Board<'a> {
    pub fn of(map: &'a Map) -> Board<'a> {
        Board { all: map.counters(0, BOARD / 8) }
    }

    fn at(&self, mark: Mark) -> &'a AtomicU64 {
        &self.all[LINE * mark as usize]
    }

    pub fn get(&self, mark: Mark) -> u64 {
        self.at(mark).load(Ordering::Acquire)
    }

    pub fn set(&self, mark: Mark, value: u64) {
        self.at(mark).store(value, Ordering::Release);
    }

    /// Adds to a counter that no other process writes. It is no locked addition: that would wait until all that was just copied is written.
    pub fn add(counter: &AtomicU64, value: u64) {
        counter.store(counter.load(Ordering::Relaxed) + value, Ordering::Release);
    }

    pub fn count(&self, role: Role, count: Count) -> &'a AtomicU64 {
        &self.all[COUNTS + LINE * (2 * count as usize + role as usize)]
    }

    /// What the composer and the host have counted.
    pub fn counted(&self, count: Count) -> [u64; 2] {
        [Role::Composer, Role::Host].map(|role| self.count(role, count).load(Ordering::Acquire))
    }

    /// How many bytes of its part a connection has read.
    pub fn read(&self, slot: u32) -> &'a AtomicU64 {
        &self.all[READ + slot as usize]
    }

    /// How many bytes of its part were taken by sends.
    pub fn taken(&self, slot: u32) -> &'a AtomicU64 {
        &self.all[TAKEN + slot as usize]
    }

    /// How many bytes were taken by sends and how many were read, of all connections.
    pub fn moved(&self, connections: u32) -> [u64; 2] {
        let sum = |first: usize| self.all[first + 1..=first + connections as usize].iter().map(|n| n.load(Ordering::Acquire)).sum();
        [sum(TAKEN), sum(READ)]
    }

    /// Says that this process is ready, and waits until it may begin.
    pub fn begin(&self, role: Role) {
        self.set(if role == Role::Composer { Mark::ComposerReady } else { Mark::HostReady }, 1);
        let mut patience = Patience::default();
        while self.get(Mark::Go) == 0 {
            patience.wait();
        }
    }
}
