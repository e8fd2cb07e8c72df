//! One end: a group whose elements the other process writes, the card that writes into the other's, and the wire between them.

use crate::links::{self, Keys};
use crate::plan::{Board, Count, Plan, Role};
use crate::system::Map;
use crate::wire::{self, Wire};
use fordlinnet::{
    Closed, Fate, Freed, Group, LinkFields, LinkKind, Links, Message, Opening, Placing, Quiet, RToken, Read, Record, Refusal, Remote, Row,
    SharedMemory, State,
};
use std::fmt;
use std::io;
use std::ptr;

/// What went wrong, other than the peer's going.
#[derive(Debug)]
pub enum Trouble {
    /// What was tried, and with which file.
    System(String, io::Error),
    Refused(&'static str, Refusal),
    Other(String),
}

/// An answer of the system, with what was asked of it.
pub trait Tried<T> {
    fn tried(self, what: &str, of: impl fmt::Display) -> Result<T, Trouble>;
}

impl<T> Tried<T> for io::Result<T> {
    fn tried(self, what: &str, of: impl fmt::Display) -> Result<T, Trouble> {
        self.map_err(|e| Trouble::System(format!("cannot {what} {of}"), e))
    }
}

impl fmt::Display for Trouble {
    fn fmt(&self, f: &mut fmt::Formatter<'_>) -> fmt::Result {
        match self {
            Trouble::System(tried, e) => write!(f, "{tried}: {e}"),
            Trouble::Refused(call, refusal) => write!(f, "{call}: {refusal}"),
            Trouble::Other(text) => write!(f, "{text}"),
        }
    }
}

/// How an end came to its end.
#[derive(Clone, Copy, Debug, PartialEq, Eq)]
pub enum Ended {
    InOrder,
    /// The peer has gone: every connection that was still open was aborted and freed.
    Aborted,
}

/// A process's memory as the other's card knows it: a key and a base for each link.
fn registered(role: Role, link: u8) -> RToken {
    let who = if role == Role::Composer { 1 } else { 2 };
    RToken { key: 256 * who + u32::from(link), base: u64::from(who) << 40 | u64::from(link) << 32 }
}

/// The card: performs placings in the other process's memory over active links, and no others.
struct Card<'a> {
    map: &'a Map,
    start: usize,
    len: usize,
    of: Role,
    /// Of an element's data, every second piece of so many bytes is lost; none where it is 0.
    loses: usize,
    element: usize,
}

impl Card<'_> {
    /// Copies to an offset in the peer's memory, unless the card is told to lose it.
    fn copy(&self, at: usize, bytes: &[u8]) {
        if self.loses > 0 && (at % self.element - 4) / self.loses % 2 == 1 {
            return;
        }
        let to = self.map.part(self.start + at, bytes.len());
        // SAFETY: within the peer's memory, where the core has found these bytes free; the peer reads them once it is told.
        unsafe { ptr::copy_nonoverlapping(bytes.as_ptr(), to, bytes.len()) };
    }

    fn write(&self, links: &Links, placing: &Placing, sent: &[u8]) -> Result<(), Trouble> {
        let bytes = placing.of(sent);
        let active = (1..=4).filter(|link| links.active[usize::from(link - 1)]);
        let token = active.map(|link| registered(self.of, link)).find(|token| token.key == placing.key);
        let at = token.and_then(|token| placing.address.checked_sub(token.base));
        match at {
            Some(at) if at as usize <= self.len && bytes.len() <= self.len - at as usize => {
                let at = at as usize;
                if self.loses == 0 {
                    self.copy(at, bytes);
                } else {
                    bytes.iter().enumerate().for_each(|(k, byte)| self.copy(at + k, std::slice::from_ref(byte)));
                }
                Ok(())
            }
            _ => Err(Trouble::Other(format!("the card knows no {placing:?}"))),
        }
    }
}

/// Token and link of a slot: all four links are used, and a second job's connections have tokens of their own.
fn token(role: Role, job: u32, slot: u32) -> u32 {
    let who = if role == Role::Composer { 1 } else { 2 };
    0x1000 * (2 * job + who) + slot
}

fn link(slot: u32) -> u8 {
    ((slot - 1) % 4) as u8 + 1
}

/// A frame of no link: a note between the hosts of the two cards, which is no part of the protocol.
const NOTE: u8 = 0;

pub struct End<'a> {
    role: Role,
    group: Group<SharedMemory<'a>, Vec<Record>, Links>,
    card: Card<'a>,
    pub wire: Wire<'a>,
    pub board: Board<'a>,
    /// The peer's keys, and where our own memory begins.
    peer: [RToken; 4],
    start: usize,
    /// The rights to open slots again, of calls that closed them.
    pub quiet: Vec<Quiet>,
    /// Slots that were freed: writes may still be under way.
    pub freed: Vec<Freed>,
    /// Of every slot, how many bytes were announced.
    pub announced: Vec<u64>,
    /// How many notes came.
    pub notes: u32,
}

impl<'a> End<'a> {
    /// Opens every slot of a group, over memory that the other process writes.
    pub fn new(role: Role, plan: &Plan, map: &'a Map) -> Result<End<'a>, Trouble> {
        let memory = map.part(plan.start(role), plan.memory());
        // SAFETY: a part of the mapping that nobody else in this process uses.
        let memory = unsafe { SharedMemory::new(memory, plan.memory()) };
        let s = plan.connections;
        let smc_role = if role == Role::Composer { fordlinnet::Role::Client } else { fordlinnet::Role::Server };
        let fresh = Links { role: smc_role, ..Links::default() };
        let mut group = Group::lend(s, plan.element, memory, vec![Record::default(); s as usize], fresh);
        let other = role.other();
        let stream = wire::given()?;
        let mut keys = Keys { own: [1, 2, 3, 4].map(|link| registered(role, link)), peer: [registered(other, 1); 4] };
        links::bring_up(&mut group, &mut keys, &stream)?;
        let card = Card { map, start: plan.start(other), len: plan.memory(), of: other, loses: 0, element: plan.element as usize };
        let (wire, board, announced) = (Wire::new(stream, role, plan, map)?, Board::of(map), vec![0; s as usize]);
        let (peer, start, quiet, freed) = (keys.peer, plan.start(role), Vec::new(), Vec::new());
        let mut end = End { role, group, card, wire, board, peer, start, quiet, freed, announced, notes: 0 };
        for slot in 1..=s {
            // the memory is new: nobody has written into it
            end.open(Quiet::no_write_can_arrive(slot), 0)?;
        }
        Ok(end)
    }

    /// Opens a slot for a job, with the right to use its element.
    pub fn open(&mut self, quiet: Quiet, job: u32) -> Result<(), Trouble> {
        let slot = quiet.slot();
        let remote = Remote { size: self.group.element_size(), index: slot, rtokens: self.peer };
        let opening = Opening { own: token(self.role, job, slot), peer: token(self.role.other(), job, slot), link: link(slot), remote };
        self.group.open(quiet, &opening).map_err(|no| Trouble::Refused("open", no.refusal))?;
        self.announced[slot as usize - 1] = 0;
        Ok(())
    }

    /// **Not the proved open**: a stand-in for one that does not zero. It opens the slot, then lays back what lay in the element.
    pub fn open_without_zeroing(&mut self, quiet: Quiet, job: u32) -> Result<(), Trouble> {
        let (slot, n) = (quiet.slot() as usize, self.card.element);
        let data = self.card.map.part(self.start + (slot - 1) * n + 4, n - 4);
        let mut old = vec![0; n - 4];
        // SAFETY: the element's data, within our memory, while no call runs and the peer writes nothing.
        unsafe { ptr::copy_nonoverlapping(data, old.as_mut_ptr(), n - 4) };
        self.open(quiet, job)?;
        // SAFETY: as above.
        unsafe { ptr::copy_nonoverlapping(old.as_ptr(), data, n - 4) };
        Ok(())
    }

    /// What lies in our elements.
    pub fn elements(&self, out: &mut [u8]) {
        let memory = self.card.map.part(self.start, out.len());
        // SAFETY: our memory, while no call runs and the peer writes nothing.
        unsafe { ptr::copy_nonoverlapping(memory, out.as_mut_ptr(), out.len()) };
    }

    /// From now on the card loses every second piece of an element's data.
    pub fn lose(&mut self, piece: usize) {
        self.card.loses = piece;
    }

    /// Tells the other process that we are through: every write before this was performed, and every message is ahead of it.
    pub fn note(&mut self) {
        self.wire.post(NOTE, &[0; Message::SIZE]);
    }

    /// Counts for this end.
    pub fn count(&self, count: Count, value: u64) {
        Board::add(self.board.count(self.role, count), value);
    }

    /// Waits for the other process.
    pub fn wait(&mut self) -> Result<(), Trouble> {
        if self.wire.wait()? {
            self.count(Count::Sleeps, 1);
        }
        Ok(())
    }

    /// A message goes out on the link that its connection had when it was made.
    fn post(&mut self, link: u8, message: Option<&Message>) {
        if let Some(message) = message {
            self.wire.post(link, message.as_bytes());
            self.count(Count::Messages, 1);
        }
    }

    /// Sends bytes: the card writes them, then the message may leave.
    pub fn send(&mut self, slot: u32, bytes: &[u8]) -> Result<usize, Trouble> {
        let link = self.record(slot).id.link;
        let sent = self.group.send(slot, bytes).map_err(|no| Trouble::Refused("send", no))?;
        for placing in &sent.placings {
            self.card.write(self.group.links(), placing, bytes)?;
        }
        self.post(link, sent.message.as_ref());
        Ok(sent.taken)
    }

    pub fn read(&mut self, slot: u32, out: &mut [u8]) -> Result<usize, Trouble> {
        let link = self.record(slot).id.link;
        let read = self.group.read(slot, out).map_err(|no| Trouble::Refused("read", no))?;
        if let Read::Torn { .. } = read {
            return Err(Trouble::Other(format!("element {slot} is torn")));
        }
        if read.message().is_some() {
            self.count(Count::Updates, 1);
        }
        self.post(link, read.message());
        Ok(read.count())
    }

    /// Hears a message that a link has carried; the slot that it is for, or none for a link message.
    pub fn hear(&mut self, link: u8, bytes: &[u8; 44]) -> Result<Option<u32>, Trouble> {
        if link == NOTE {
            self.notes += 1;
            return Ok(None);
        }
        let Ok(message) = Message::try_from(&bytes[..]) else {
            self.hear_link(link, bytes)?;
            return Ok(None);
        };
        let slot = message.token() & 0xFFF;
        if !(1..=self.group.elements()).contains(&slot) {
            return Err(Trouble::Other(format!("a message for token {:#x}", message.token())));
        }
        // its connection was freed meanwhile: nobody's
        if self.freed.iter().any(|freed| freed.slot() == slot) {
            return Ok(None);
        }
        if message.flags().failover {
            self.count(Count::FailoversHeard, 1);
            // both have said C meanwhile: nothing is left to move
            if !self.record(slot).id.opened {
                return Ok(None);
            }
        }
        let heard = self.group.hear(bytes).map_err(|no| Trouble::Refused("hear", no))?;
        if heard.state == State::PeerAbortWait {
            return Err(Trouble::Other(format!("slot {slot}: a message is missing")));
        }
        self.post(link, heard.message.as_ref());
        self.announced[slot as usize - 1] += heard.moved;
        self.quiet.extend(heard.quiet);
        Ok(Some(slot))
    }

    /// The server's way to take a link down: the client replies, and the link is down at both ends.
    pub fn delete_link(&mut self, link: u8) -> Result<(), Trouble> {
        let over = (1..=4).find(|&over| over != link && self.group.links().active[usize::from(over) - 1]);
        let over = over.ok_or(Trouble::Other("no other link is active".to_string()))?;
        let delete = LinkFields::new(LinkKind::DeleteLink).with(Row::O, 1).with(Row::Link, link.into());
        let sent = self.group.link_send(over, &delete).map_err(|no| Trouble::Refused("link send", no))?;
        self.wire.post(over, &sent.message);
        Ok(())
    }

    /// A link message while the file is moved. Where it takes a link down, connections move: all that went over the old link is in the one
    /// ring before the messages with F, so that these come last at the other end too.
    fn hear_link(&mut self, link: u8, bytes: &[u8; 44]) -> Result<(), Trouble> {
        let heard = self.group.link_message(link, bytes).map_err(|no| Trouble::Refused("link message", no))?;
        if heard.fate != Fate::Taken {
            return Err(Trouble::Other(format!("a link message was not taken: {heard:?}")));
        }
        if let Some(reply) = &heard.reply {
            self.wire.post(link, reply);
        }
        if let Some(target) = self.group.links().lowest_active() {
            for message in &heard.moved {
                self.wire.post(target, message.as_bytes());
                self.count(Count::Moved, 1);
            }
        }
        Ok(())
    }

    pub fn shutdown(&mut self, slot: u32) -> Result<(), Trouble> {
        let message = self.group.shutdown(slot).map_err(|no| Trouble::Refused("shutdown", no))?;
        self.post(self.record(slot).id.link, Some(&message));
        Ok(())
    }

    pub fn close(&mut self, slot: u32) -> Result<(), Trouble> {
        let link = self.record(slot).id.link;
        let closed = self.group.close(slot).map_err(|no| Trouble::Refused("close", no))?;
        self.post(link, Some(closed.message()));
        match closed {
            Closed::InOrder { .. } => Ok(()),
            Closed::Reset { .. } => Err(Trouble::Other(format!("slot {slot} was closed with unread bytes"))),
        }
    }

    pub fn record(&self, slot: u32) -> &Record {
        &self.group.table()[slot as usize - 1]
    }

    /// Whether every slot is closed.
    pub fn over(&self) -> bool {
        self.group.table().iter().all(|record| !record.id.opened)
    }

    /// Aborts a connection; the other end closes it when it hears of it.
    pub fn abort_one(&mut self, slot: u32) -> Result<(), Trouble> {
        let link = self.record(slot).id.link;
        let message = self.group.abort(slot).map_err(|no| Trouble::Refused("abort", no))?;
        self.post(link, Some(&message));
        Ok(())
    }

    /// Closes an aborted connection without waiting for the peer's A.
    pub fn free(&mut self, slot: u32) -> Result<(), Trouble> {
        self.freed.push(self.group.free(slot).map_err(|no| Trouble::Refused("free", no))?);
        Ok(())
    }

    /// The peer has gone: aborts and frees what is open.
    pub fn abort(&mut self) -> Result<(), Trouble> {
        for slot in 1..=self.group.elements() {
            if self.record(slot).id.opened {
                self.group.abort(slot).map_err(|no| Trouble::Refused("abort", no))?;
                // the slot is not opened again
                let _ = self.group.free(slot).map_err(|no| Trouble::Refused("free", no))?;
            }
        }
        Ok(())
    }
}
