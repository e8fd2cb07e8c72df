//! A group, and its calls.

use crate::border::{self, health, said, Answer, Command, Lent, LinkCommand, Memory, Number, RawLinkAnswer};
use crate::quiet::{Freed, NotOpened, Quiet, Unasked};
use crate::trace::{Trace, Tracer};
use crate::{
    Closed, Exchange, Gathered, Health, Heard, LinkChanged, LinkFields, LinkHeard, LinkSent, Links, Message, Opening, Queue, Read, Record,
    Refusal, Role, Sent, State,
};
use alloc::boxed::Box;
use alloc::vec;
use alloc::vec::Vec;
use core::borrow::BorrowMut;
use core::fmt;

/// A group: a memory of S elements of N bytes, a table of S records, and four links with what link messages need.
///
/// It owns all three ([`Group::fresh`]), or borrows any of them ([`Group::lend`]): the memory is any [`Memory`], the table anything
/// that gives a slice of records, the links a [`Links`] or a borrowed one. Slots and elements count from 1, links from 1 to 4.
///
/// Any numbers, bytes and tables may be handed in at any time. Every call comes back, and does its work or gives one [`Refusal`]; a refused
/// call has changed nothing. Messages are for the caller to carry, placings for the card to write.
#[derive(Clone, Debug, PartialEq)]
pub struct Group<M = Vec<u8>, T = Vec<Record>, L = Links> {
    s: u32,
    n: u32,
    memory: M,
    table: T,
    links: L,
    room: Room,
    unasked: Unasked,
    trace: Trace,
}

/// Room for a message of every slot, which the calls on links are lent. What it holds is no part of the group, and it is made when it is
/// first wanted.
#[derive(Default)]
struct Room(Vec<[u8; Message::SIZE]>);

impl Room {
    #[inline]
    fn of(&mut self, s: u32) -> &mut [u8] {
        // a larger S is refused in any case
        let slots = s.min(Group::MOST_ELEMENTS) as usize;
        if self.0.len() != slots {
            self.0 = vec![[0; Message::SIZE]; slots];
        }
        self.0.as_flattened_mut()
    }
}

impl Clone for Room {
    fn clone(&self) -> Room {
        Room::default()
    }
}

impl PartialEq for Room {
    fn eq(&self, _: &Room) -> bool {
        true
    }
}

impl fmt::Debug for Room {
    fn fmt(&self, f: &mut fmt::Formatter<'_>) -> fmt::Result {
        f.write_str("..")
    }
}

impl Group {
    /// The most elements that a group has.
    pub const MOST_ELEMENTS: u32 = 255;
    /// The least and the most bytes of an element.
    pub const ELEMENT_SIZES: core::ops::RangeInclusive<u32> = 8..=65_540;

    /// A fresh group of its own, as a client: every slot closed, every link down, memory all zeros.
    ///
    /// # Errors
    ///
    /// [`Refusal::Sizes`] where S is not from 1 to 255 or N not from 8 to 65,540.
    ///
    /// ```
    /// use fordlinnet::{Group, Refusal};
    ///
    /// let mut group = Group::fresh(16, 65_540)?;
    /// assert_eq!(group.memory().len(), 16 * 65_540);
    /// assert_eq!(group.shutdown(1), Err(Refusal::Slot));
    /// # Ok::<(), Refusal>(())
    /// ```
    pub fn fresh(s: u32, n: u32) -> Result<Group, Refusal> {
        Group::fresh_as(Role::Client, s, n)
    }

    /// A fresh group as a server, and all else as [`Group::fresh`].
    ///
    /// # Errors
    ///
    /// As [`Group::fresh`].
    ///
    /// ```
    /// use fordlinnet::{Group, Role};
    ///
    /// let (client, server) = (Group::fresh(1, 64)?, Group::fresh_server(1, 64)?);
    /// assert_eq!((client.role(), server.role()), (Role::Client, Role::Server));
    /// # Ok::<(), fordlinnet::Refusal>(())
    /// ```
    pub fn fresh_server(s: u32, n: u32) -> Result<Group, Refusal> {
        Group::fresh_as(Role::Server, s, n)
    }

    fn fresh_as(role: Role, s: u32, n: u32) -> Result<Group, Refusal> {
        if !(1..=Group::MOST_ELEMENTS).contains(&s) || !Group::ELEMENT_SIZES.contains(&n) {
            return Err(Refusal::Sizes);
        }
        let memory = vec![0; s as usize * n as usize];
        let table = vec![border::closed_record(); s as usize];
        let unasked = Unasked::first(s);
        Ok(Group { s, n, memory, table, links: border::links_down(role), room: Room::default(), unasked, trace: Trace::from_environment() })
    }
}

impl<M, T, L> Group<M, T, L> {
    /// A group of parts that somebody lends, whatever they hold. Wrong sizes are not tested here: every call but sample does.
    ///
    /// ```
    /// use fordlinnet::{Group, Links, Record, Refusal};
    ///
    /// let mut memory = vec![0; 2 * 1000];
    /// let mut table = [Record::default(); 2];
    /// let mut links = Links::default();
    /// let mut group = Group::lend(2, 1000, &mut memory[..], &mut table[..], &mut links);
    /// group.link_change(1, true)?;
    /// assert!(links.active[0]);
    /// # Ok::<(), Refusal>(())
    /// ```
    pub fn lend(s: u32, n: u32, memory: M, table: T, links: L) -> Group<M, T, L> {
        let (room, unasked, trace) = (Room::default(), Unasked::default(), Trace::from_environment());
        Group { s, n, memory, table, links, room, unasked, trace }
    }

    /// The right to open a slot for the first time: of a fresh group ([`Group::fresh`]) once for each slot, then `None`. A group over lent
    /// parts has none: see [`Quiet::no_write_can_arrive`].
    ///
    /// ```
    /// use fordlinnet::{Group, Refusal};
    ///
    /// let mut group = Group::fresh(2, 64)?;
    /// assert_eq!(group.never_opened(2).map(|quiet| quiet.slot()), Some(2));
    /// assert_eq!((group.never_opened(2), group.never_opened(0), group.never_opened(3)), (None, None, None));
    /// # Ok::<(), Refusal>(())
    /// ```
    pub fn never_opened(&mut self, slot: u32) -> Option<Quiet> {
        self.unasked.take(slot)
    }

    /// Tells of every call from now on, in the lines that the program `replay` reads: first the group as it is, then each call, and below
    /// it its answer behind `#> `, as replay prints it. What is changed by hand or by a card between calls is laid in by lines of its own.
    /// A clone of the group is not traced.
    ///
    /// With the features `trace` and `std` the variable `FORDLINNET_TRACE` does the same to every group of a program: it names files, to
    /// which the process's number and the group's are added.
    ///
    /// ```
    /// use fordlinnet::Group;
    /// use std::sync::{Arc, Mutex};
    ///
    /// let mut group = Group::fresh(1, 64)?;
    /// let lines = Arc::new(Mutex::new(Vec::new()));
    /// let kept = lines.clone();
    /// group.trace(move |line| kept.lock().unwrap().push(line.to_string()));
    /// group.link_change(2, true)?;
    /// assert!(group.shutdown(1).is_err());
    /// let lines = lines.lock().unwrap();
    /// assert_eq!(lines[..4], ["group 1 64 64 1", "#> group", "link 2 1", "#> link count 0 out -"]);
    /// assert_eq!(lines[4..], ["shutdown 1", "#> refused 2"]);
    /// # Ok::<(), fordlinnet::Refusal>(())
    /// ```
    #[cfg(feature = "trace")]
    pub fn trace(&mut self, line: impl FnMut(&str) + Send + Sync + 'static) {
        self.trace = Trace::to(line);
    }

    /// S, the elements and slots.
    pub fn elements(&self) -> u32 {
        self.s
    }

    /// N, the bytes of an element.
    pub fn element_size(&self) -> u32 {
        self.n
    }

    /// The memory.
    pub fn memory(&self) -> &M {
        &self.memory
    }

    /// The memory, to be changed: a card writes there.
    pub fn memory_mut(&mut self) -> &mut M {
        &mut self.memory
    }

    /// The table, to be changed: nothing bars a stranger's records, and the rights to open slots do not know of them.
    pub fn table_mut(&mut self) -> &mut T {
        &mut self.table
    }

    /// The links, to be changed; [`Group::link_change`] is the call.
    pub fn links_mut(&mut self) -> &mut L {
        &mut self.links
    }

    /// The memory, the table and the links.
    pub fn into_parts(self) -> (M, T, L) {
        (self.memory, self.table, self.links)
    }
}

impl<M, T, L> Group<M, T, L>
where
    T: AsRef<[Record]>,
    L: BorrowMut<Links>,
{
    /// The table.
    pub fn table(&self) -> &[Record] {
        self.table.as_ref()
    }

    /// The record of a slot; `None` for a slot that the table does not have.
    pub fn record(&self, slot: u32) -> Option<&Record> {
        self.table.as_ref().get((slot as usize).checked_sub(1)?)
    }

    /// The links and their gauges, the role, the exchange and the queue.
    pub fn links(&self) -> &Links {
        self.links.borrow()
    }

    /// Our role.
    pub fn role(&self) -> Role {
        self.links().role
    }

    /// The exchange of link messages that runs.
    pub fn exchange(&self) -> &Exchange {
        &self.links().exchange
    }

    /// The link messages that wait for it to end.
    pub fn queue(&self) -> &Queue {
        &self.links().queue
    }

    /// What a console shows of a link; of a number outside 1 to 4 as of a link with no sample.
    pub fn health(&self, link: u8) -> Health {
        let view = border::view(self.links.borrow(), link);
        health_of(view.health, view.mean, view.worst)
    }
}

/// The calls of management.
impl<M, T, L> Group<M, T, L>
where
    M: Memory,
    T: AsMut<[Record]>,
    L: BorrowMut<Links>,
{
    /// Opens a closed slot, and answers its number: zeroes its element, writes the eye catcher, and lays down a record whose cursors are
    /// all at the beginning.
    ///
    /// It asks for the right to use the element, [`Quiet`]: a fresh group has one for each slot, a close that proves it makes one, and
    /// after [`Group::free`] the caller's word does. A refused open gives it back. With a right that was sworn falsely the bytes of the old
    /// connection are read as the new one's, and no call is refused.
    ///
    /// The peer's keys of all four links are to be settled before: a connection that later moves to another link
    /// ([`Group::link_change`]) goes on with what it was given here.
    ///
    /// # Errors
    ///
    /// Tested in this order: [`Sizes`](Refusal::Sizes), [`Slot`](Refusal::Slot), [`AlreadyOpen`](Refusal::AlreadyOpen),
    /// [`Opening`](Refusal::Opening), [`LinkNumber`](Refusal::LinkNumber), [`LinkDown`](Refusal::LinkDown),
    /// [`TokenHeld`](Refusal::TokenHeld).
    ///
    /// ```
    /// use fordlinnet::{Group, Opening, RToken, Refusal, Remote};
    ///
    /// let mut group = Group::fresh(1, 64)?;
    /// let remote = Remote { size: 64, index: 1, rtokens: [RToken { key: 7, base: 4096 }; 4] };
    /// let opening = Opening { own: 5, peer: 6, link: 1, remote };
    /// let slot = group.never_opened(1).expect("a fresh group");
    /// let no = group.open(slot, &opening).unwrap_err();
    /// assert_eq!(no.refusal, Refusal::LinkDown);
    /// group.link_change(1, true)?;
    /// assert_eq!(group.open(no.quiet, &opening)?, 1);
    /// # Ok::<(), Refusal>(())
    /// ```
    pub fn open(&mut self, quiet: Quiet, opening: &Opening) -> Result<u32, NotOpened> {
        match self.open_at_any_time(quiet.slot(), opening) {
            Ok(()) => Ok(quiet.slot()),
            Err(refusal) => Err(NotOpened { refusal, quiet }),
        }
    }

    /// Open as the rules have it, with no word about the element: for tests that make any call at any time. [`Group::open`] is the call.
    #[doc(hidden)]
    pub fn open_at_any_time(&mut self, slot: u32, opening: &Opening) -> Result<(), Refusal> {
        if self.trace.on() {
            let line = |t: &mut Tracer| t.opens(slot, opening);
            return self.traced(None, line, |g| g.open_at_any_time(slot, opening), |t, a| t.opened(slot, a));
        }
        let command = Command { opening: *opening, ..command(Number::Open, slot) };
        refused(&self.call(command, &[], &mut []))
    }

    /// Closes a slot in [`State::PeerAbortWait`].
    ///
    /// It does not say that nothing is under way to the element: the slot may be opened again only when no write of its connection can
    /// arrive, because the queue pair is down or the key is revoked, and the answer asks for the caller's word
    /// ([`Freed::no_write_can_arrive`]). Hearing the peer's A closes the slot too, and does say so.
    ///
    /// # Errors
    ///
    /// [`Sizes`](Refusal::Sizes), [`Slot`](Refusal::Slot), [`Incoherent`](Refusal::Incoherent), [`State`](Refusal::State).
    pub fn free(&mut self, slot: u32) -> Result<Freed, Refusal> {
        if self.trace.on() {
            let line = |t: &mut Tracer| t.call(format_args!("free {slot}"));
            return self.traced(None, line, |g| g.free(slot), |t, a| t.word("free", a));
        }
        refused(&self.call(command(Number::Free, slot), &[], &mut []))?;
        Ok(Freed::new(slot))
    }

    /// Hands a link's gauge an answer time of TEST LINK, in milliseconds.
    ///
    /// # Errors
    ///
    /// [`LinkNumber`](Refusal::LinkNumber), [`LinkDown`](Refusal::LinkDown), [`Sample`](Refusal::Sample).
    ///
    /// ```
    /// use fordlinnet::{Group, Health};
    ///
    /// let mut group = Group::fresh(1, 64)?;
    /// group.link_change(1, true)?;
    /// assert_eq!(group.sample(1, 10)?, Health::Steady(10.0));
    /// assert_eq!(group.sample(1, 90)?, Health::Late(20.0, 90.0));
    /// # Ok::<(), fordlinnet::Refusal>(())
    /// ```
    pub fn sample(&mut self, link: u8, milliseconds: u32) -> Result<Health, Refusal> {
        if self.trace.on() {
            let line = |t: &mut Tracer| t.call(format_args!("sample {link} {milliseconds}"));
            return self.traced(None, line, |g| g.sample(link, milliseconds), |t, a| t.sampled(a));
        }
        let command = Command { link, ms: milliseconds, ..command(Number::Sample, 0) };
        let answer = self.call(command, &[], &mut []);
        refused(&answer)?;
        Ok(health_of(answer.health, answer.mean, answer.worst))
    }
}

/// The calls on links: a link change, and link messages, which add further links and tell of memory keys. Of the memory they look at the
/// length alone, and of the records they change links at most.
///
/// A server with link 1 active adds link 2. The lines of [`Group::link_message`]'s answer say what became of what is heard; what needs an
/// address or a key of ours goes out by [`Group::link_send`].
///
/// ```
/// use fordlinnet::{Fate, Group, LinkFields, LinkKind, Row};
///
/// let (mut server, mut client) = (Group::fresh_server(1, 64)?, Group::fresh(1, 64)?);
/// for group in [&mut server, &mut client] {
///     group.link_change(1, true)?;
/// }
/// let add = LinkFields::new(LinkKind::AddLink).with(Row::Link, 2).with(Row::Mtu, 5);
/// let confirm = LinkFields::new(LinkKind::ConfirmLink).with(Row::Link, 2);
///
/// let request = server.link_send(1, &add)?.message; // with our MAC, GID, queue pair and PSN
/// assert_eq!(client.link_message(1, &request)?.fate, Fate::Taken);
/// let reply = client.link_send(1, &add.with(Row::R, 1))?.message;
/// assert_eq!(server.link_message(1, &reply)?.fate, Fate::Taken);
/// let request = server.link_send(2, &confirm)?.message; // over the link being added
/// assert_eq!(client.link_message(2, &request)?.fate, Fate::Taken);
/// let reply = client.link_send(2, &confirm.with(Row::R, 1))?.message;
/// assert_eq!(server.link_message(2, &reply)?.fate, Fate::Taken);
///
/// assert!(server.links().active[1] && client.links().active[1]);
/// assert_eq!(server.exchange().sort(), None);
/// # Ok::<(), fordlinnet::Refusal>(())
/// ```
///
/// # When a link goes down
///
/// Where one of these calls takes a link down that was active, and another is active after it, every open, coherent connection on that link
/// **moves**: its record names the lowest active link ([`Links::lowest_active`]) from then on, and nothing else of it changes. The answer's
/// `moved` has a message with F for each of them in slot order, but for those that we aborted. Where no link is active after the call,
/// nothing moves, and the connections wait for theirs.
///
/// A message with F says which message was the last, and a peer that has not heard that one aborts the connection. So it is for the caller
/// to keep the order:
///
/// - Put a message with F on the new link only when all that was put on the old one before has arrived there; what may be lost is put on
///   the new link again first, writes and messages, in their order.
/// - Placings, and the pieces of a [`Gathered`], name the link that the connection had when they were answered, also those asked for after
///   the move: written again over another link they need that link's key and base ([`Remote::rtokens`](crate::Remote::rtokens)).
/// - Later calls answer with the new link's. The peer is told of the move by the message alone; it moves by itself when its own link goes
///   down.
///
/// ```
/// use fordlinnet::{Group, Opening, RToken, Remote};
///
/// let mut group = Group::fresh(2, 64)?;
/// group.link_change(1, true)?;
/// group.link_change(2, true)?;
/// let rtokens = [7, 8, 0, 0].map(|key| RToken { key, base: 4096 });
/// let slot = group.never_opened(1).unwrap();
/// group.open(slot, &Opening { own: 5, peer: 6, link: 1, remote: Remote { size: 64, index: 1, rtokens } })?;
/// let sent = group.send(1, b"depths ")?;
/// assert_eq!((sent.placings[0].key, sent.message.map(|message| message.sequence())), (7, Some(1)));
///
/// let moved = group.link_change(1, false)?.moved;
/// assert_eq!((group.table()[0].id.link, group.links().lowest_active()), (2, Some(2)));
/// assert_eq!((moved.len(), moved[0].token(), moved[0].sequence()), (1, 6, 1));
/// assert!(moved[0].flags().failover);
/// assert_eq!(group.send(1, b"in metres")?.placings[0].key, 8);
/// # Ok::<(), fordlinnet::Refusal>(())
/// ```
///
/// # Whose buffer
///
/// A group lends these calls a buffer of its own, 44 bytes a slot. [`Group::link_change_into`] and its like take the caller's instead: the
/// messages with F stand at its front as well, and its rest stays. One with less than 44 x S bytes is refused
/// ([`Sizes`](Refusal::Sizes)), whether or not anything would move, and a refused call leaves it as it was.
impl<M, T, L> Group<M, T, L>
where
    M: Memory,
    T: AsMut<[Record]>,
    L: BorrowMut<Links>,
{
    /// Sets a link, active or down. One that goes down loses its gauge; an exchange that is run over it ends, and the queue is emptied; and
    /// connections move, as said above.
    ///
    /// # Errors
    ///
    /// [`Sizes`](Refusal::Sizes), [`LinkNumber`](Refusal::LinkNumber).
    pub fn link_change(&mut self, link: u8, up: bool) -> Result<LinkChanged, Refusal> {
        if self.trace.on() {
            let s = self.s;
            let line = |t: &mut Tracer| t.on_links(format_args!("link {link} {}", u8::from(up)), s, None);
            return self.traced(None, line, |g| g.link_change(link, up), |t, a| t.link_changed(a));
        }
        self.own_desk().change(link, up)
    }

    /// [`Group::link_change`] with the caller's buffer.
    ///
    /// # Errors
    ///
    /// As [`Group::link_change`].
    pub fn link_change_into(&mut self, link: u8, up: bool, out: &mut [u8]) -> Result<LinkChanged, Refusal> {
        if self.trace.on() {
            let (s, room) = (self.s, Some(out.len()));
            let line = |t: &mut Tracer| t.on_links(format_args!("link {link} {}", u8::from(up)), s, room);
            return self.traced(None, line, |g| g.link_change_into(link, up, out), |t, a| t.link_changed(a));
        }
        self.desk(out).change(link, up)
    }

    /// Takes a link message's bytes. A reply that is made is to be sent back on the link.
    ///
    /// A message is taken if it is due in the exchange that runs; else exchange and message decide (RFC 7609, 3.5.5.3). Where the exchange
    /// ends, the oldest of the queue is taken up. Where a link goes down, connections move, as said above.
    ///
    /// # Errors
    ///
    /// Tested in this order: [`Sizes`](Refusal::Sizes), [`LinkNumber`](Refusal::LinkNumber), [`LinkDown`](Refusal::LinkDown),
    /// [`Malformed`](Refusal::Malformed), [`CarriedLink`](Refusal::CarriedLink), [`Barred`](Refusal::Barred).
    ///
    /// ```
    /// use fordlinnet::{Fate, Group, LinkKind};
    ///
    /// let mut group = Group::fresh(1, 64)?;
    /// group.link_change(2, true)?;
    /// let mut request = [0; 44];
    /// request[..6].copy_from_slice(&[0x07, 0x2C, 0, 0, 0xAB, 0xCD]);
    /// let heard = group.link_message(2, &request)?;
    /// assert_eq!((heard.fields.map(|fields| fields.kind()), heard.fate), (Some(LinkKind::TestLink), Fate::Taken));
    /// let reply = heard.reply.expect("a request is answered");
    /// assert_eq!(reply[..6], [0x07, 0x2C, 0, 0x80, 0xAB, 0xCD]);
    /// # Ok::<(), fordlinnet::Refusal>(())
    /// ```
    pub fn link_message(&mut self, link: u8, bytes: &[u8]) -> Result<LinkHeard, Refusal> {
        if self.trace.on() {
            let s = self.s;
            let line = |t: &mut Tracer| t.link_hears(link, bytes, s, None);
            return self.traced(None, line, |g| g.link_message(link, bytes), |t, a| t.link_heard(a));
        }
        self.own_desk().message(link, bytes)
    }

    /// [`Group::link_message`] with the caller's buffer.
    ///
    /// # Errors
    ///
    /// As [`Group::link_message`].
    pub fn link_message_into(&mut self, link: u8, bytes: &[u8], out: &mut [u8]) -> Result<LinkHeard, Refusal> {
        if self.trace.on() {
            let (s, room) = (self.s, Some(out.len()));
            let line = |t: &mut Tracer| t.link_hears(link, bytes, s, room);
            return self.traced(None, line, |g| g.link_message_into(link, bytes, out), |t, a| t.link_heard(a));
        }
        self.desk(out).message(link, bytes)
    }

    /// Sends a link message: the answer has its bytes, to go out on the link. Values are cut to their rows' bits.
    ///
    /// # Errors
    ///
    /// Tested in this order: [`Sizes`](Refusal::Sizes), [`LinkNumber`](Refusal::LinkNumber), [`LinkDown`](Refusal::LinkDown),
    /// [`CarriedLink`](Refusal::CarriedLink), [`Barred`](Refusal::Barred).
    ///
    /// ```
    /// use fordlinnet::{Group, LinkFields, LinkKind, Refusal, Row};
    ///
    /// let mut group = Group::fresh(1, 64)?;
    /// group.link_change(1, true)?;
    /// let test = LinkFields::new(LinkKind::TestLink).with(Row::User1, 0x0102_0304_0506_0708);
    /// let sent = group.link_send(1, &test)?;
    /// assert_eq!(sent.message[..12], [0x07, 0x2C, 0, 0, 1, 2, 3, 4, 5, 6, 7, 8]);
    /// let unasked = LinkFields::new(LinkKind::DeleteRkey).with(Row::R, 1);
    /// assert_eq!(group.link_send(1, &unasked), Err(Refusal::Barred));
    /// # Ok::<(), Refusal>(())
    /// ```
    pub fn link_send(&mut self, link: u8, fields: &LinkFields) -> Result<LinkSent, Refusal> {
        if self.trace.on() {
            let s = self.s;
            let line = |t: &mut Tracer| t.link_sends(link, fields, s, None);
            return self.traced(None, line, |g| g.link_send(link, fields), |t, a| t.link_sent(a));
        }
        self.own_desk().send(link, fields)
    }

    /// [`Group::link_send`] with the caller's buffer.
    ///
    /// # Errors
    ///
    /// As [`Group::link_send`].
    pub fn link_send_into(&mut self, link: u8, fields: &LinkFields, out: &mut [u8]) -> Result<LinkSent, Refusal> {
        if self.trace.on() {
            let (s, room) = (self.s, Some(out.len()));
            let line = |t: &mut Tracer| t.link_sends(link, fields, s, room);
            return self.traced(None, line, |g| g.link_send_into(link, fields, out), |t, a| t.link_sent(a));
        }
        self.desk(out).send(link, fields)
    }

    #[inline]
    fn desk<'a>(&'a mut self, out: &'a mut [u8]) -> Desk<'a, M> {
        let lent = Lent { s: self.s, n: self.n, memory: &mut self.memory, table: self.table.as_mut() };
        Desk { lent, links: self.links.borrow_mut(), out }
    }

    #[inline]
    fn own_desk(&mut self) -> Desk<'_, M> {
        let lent = Lent { s: self.s, n: self.n, memory: &mut self.memory, table: self.table.as_mut() };
        Desk { lent, links: self.links.borrow_mut(), out: self.room.of(self.s) }
    }
}

/// What a call on links is lent.
struct Desk<'a, M> {
    lent: Lent<'a, M>,
    links: &'a mut Links,
    out: &'a mut [u8],
}

impl<M: Memory> Desk<'_, M> {
    #[inline]
    fn change(self, link: u8, up: bool) -> Result<LinkChanged, Refusal> {
        let command = LinkCommand { up, ..link_command(Number::LinkChange, link) };
        let answer = border::make_link(self.lent, self.links, command, &[], self.out);
        link_refused(&answer)?;
        Ok(LinkChanged::given(&answer, self.out))
    }

    #[inline]
    fn message(self, link: u8, bytes: &[u8]) -> Result<LinkHeard, Refusal> {
        let answer = border::make_link(self.lent, self.links, link_command(Number::LinkMessage, link), bytes, self.out);
        link_refused(&answer)?;
        Ok(LinkHeard::given(&answer, self.out))
    }

    #[inline]
    fn send(self, link: u8, fields: &LinkFields) -> Result<LinkSent, Refusal> {
        let command = LinkCommand { fields: fields.raw(), ..link_command(Number::LinkSend, link) };
        let answer = border::make_link(self.lent, self.links, command, &[], self.out);
        link_refused(&answer)?;
        Ok(LinkSent::given(&answer, self.out))
    }
}

/// The calls of a connection. Each tests [`Sizes`](Refusal::Sizes), [`Slot`](Refusal::Slot), [`Incoherent`](Refusal::Incoherent),
/// [`LinkDown`](Refusal::LinkDown) and, hear aside, [`State`](Refusal::State) first, in this order.
impl<M, T, L> Group<M, T, L>
where
    M: Memory,
    T: AsMut<[Record]>,
    L: BorrowMut<Links>,
{
    /// Sends bytes: as many as the peer has room for are taken. The card is to write the placings, then the message is to be carried.
    ///
    /// # Errors
    ///
    /// [`State`](Refusal::State) after D, C or A sent or C heard; and what every call tests.
    #[inline]
    pub fn send(&mut self, slot: u32, bytes: &[u8]) -> Result<Sent, Refusal> {
        if self.trace.on() {
            return *self.send_traced(slot, bytes);
        }
        let lent = Lent { s: self.s, n: self.n, memory: &mut self.memory, table: self.table.as_mut() };
        let links: &Links = self.links.borrow();
        border::send(lent, links.active, slot, bytes)
    }

    /// Sends urgent bytes. Taken whole, they hold back later sends until the peer has read them.
    ///
    /// # Errors
    ///
    /// As [`Group::send`].
    #[inline]
    pub fn urgent_send(&mut self, slot: u32, bytes: &[u8]) -> Result<Sent, Refusal> {
        if self.trace.on() {
            return *self.urgent_traced(slot, bytes);
        }
        let lent = Lent { s: self.s, n: self.n, memory: &mut self.memory, table: self.table.as_mut() };
        let links: &Links = self.links.borrow();
        border::urgent_send(lent, links.active, slot, bytes)
    }

    /// Sends a head and a body as if joined, head first. Its pieces are parts of the two, never copies.
    ///
    /// # Errors
    ///
    /// As [`Group::send`] of the joined bytes.
    ///
    /// ```
    /// # use fordlinnet::{Group, Opening, RToken, Remote};
    /// # let mut group = Group::fresh(1, 64)?;
    /// # group.link_change(1, true)?;
    /// # let rtokens = [RToken { key: 7, base: 4096 }; 4];
    /// # let slot = group.never_opened(1).unwrap();
    /// # group.open(slot, &Opening { own: 5, peer: 6, link: 1, remote: Remote { size: 64, index: 1, rtokens } })?;
    /// let sent = group.gather(1, b"head", b"and the body")?;
    /// let joined: Vec<u8> = sent.pieces().flat_map(|piece| piece.bytes.to_vec()).collect();
    /// assert_eq!(joined, b"headand the body");
    /// # Ok::<(), fordlinnet::Refusal>(())
    /// ```
    #[inline]
    pub fn gather<'a>(&mut self, slot: u32, head: &'a [u8], body: &'a [u8]) -> Result<Gathered<'a>, Refusal> {
        if self.trace.on() {
            return *self.gather_traced(slot, head, body);
        }
        let lent = Lent { s: self.s, n: self.n, memory: &mut self.memory, table: self.table.as_mut() };
        let links: &Links = self.links.borrow();
        border::gather(lent, links.active, slot, head, body)
    }

    /// What the card does for the peer: stores bytes at an offset of the slot's element. Only where no card does it.
    ///
    /// # Errors
    ///
    /// [`State`](Refusal::State) after A sent or D or C heard; [`Placing`](Refusal::Placing); and what every call tests.
    #[inline]
    pub fn place(&mut self, slot: u32, offset: u32, bytes: &[u8]) -> Result<(), Refusal> {
        if self.trace.on() {
            return self.place_traced(slot, offset, bytes);
        }
        let lent = Lent { s: self.s, n: self.n, memory: &mut self.memory, table: self.table.as_mut() };
        let links: &Links = self.links.borrow();
        match border::place(lent, links.active, slot, offset, bytes) {
            0 => Ok(()),
            number => Err(crate::refusal::given(number.into())),
        }
    }

    /// Reads the first unread bytes, as many as `out` has room for. A message made is the window update that the peer waits for.
    ///
    /// # Errors
    ///
    /// [`State`](Refusal::State) after C or A sent; and what every call tests.
    #[inline]
    pub fn read(&mut self, slot: u32, out: &mut [u8]) -> Result<Read, Refusal> {
        if self.trace.on() {
            return *self.read_traced(slot, out);
        }
        let lent = Lent { s: self.s, n: self.n, memory: &mut self.memory, table: self.table.as_mut() };
        let links: &Links = self.links.borrow();
        border::read(lent, links.active, slot, out)
    }

    /// Takes a message from the peer, for the slot whose token it carries.
    ///
    /// One with F (failover) changes nothing where it carries the last number heard. With any other number a message is missing: the
    /// connection is aborted, and the answer has [`State::PeerAbortWait`](crate::State::PeerAbortWait) and the abort message.
    ///
    /// A message with C, where C was sent, and one with A closes the slot, and the answer has the right to open it again.
    ///
    /// # Errors
    ///
    /// Tested in this order: [`Sizes`](Refusal::Sizes), [`Malformed`](Refusal::Malformed), [`Token`](Refusal::Token),
    /// [`Incoherent`](Refusal::Incoherent), [`LinkDown`](Refusal::LinkDown); and, of a message without F, [`Sequence`](Refusal::Sequence)
    /// and [`CursorRule`](Refusal::CursorRule).
    #[inline]
    pub fn hear(&mut self, bytes: &[u8]) -> Result<Heard, Refusal> {
        if self.trace.on() {
            return *self.hear_traced(bytes);
        }
        // the slot that a message with C or A is for, while its record still names the token
        let named = if Message::may_close(bytes) { self.slot_of(bytes) } else { None };
        let lent = Lent { s: self.s, n: self.n, memory: &mut self.memory, table: self.table.as_mut() };
        let links: &Links = self.links.borrow();
        let mut heard = border::hear(lent, links.active, bytes)?;
        if heard.state == State::Closed {
            heard.quiet = named.and_then(|slot| self.closed(slot));
        }
        Ok(heard)
    }

    /// The open slot whose token a message carries, as hear finds it.
    #[cold]
    fn slot_of(&mut self, bytes: &[u8]) -> Option<u32> {
        let token = Message::try_from(bytes).ok()?.token();
        let place = self.table.as_mut().iter().position(|record| record.id.opened && record.id.own == token)?;
        Some(place as u32 + 1)
    }

    /// The right to open a slot that was open before a call, where the call has closed it.
    fn closed(&mut self, slot: u32) -> Option<Quiet> {
        let record = self.table.as_mut().get((slot as usize).checked_sub(1)?)?;
        (!record.id.opened).then(|| Quiet::proved(slot))
    }

    /// Sends D: we are done writing.
    ///
    /// # Errors
    ///
    /// [`State`](Refusal::State) after D, C or A sent; and what every call tests.
    #[inline]
    pub fn shutdown(&mut self, slot: u32) -> Result<Message, Refusal> {
        if self.trace.on() {
            let line = |t: &mut Tracer| t.call(format_args!("shutdown {slot}"));
            return self.traced(None, line, |g| g.shutdown(slot), |t, a| t.told("shutdown", a));
        }
        let lent = Lent { s: self.s, n: self.n, memory: &mut self.memory, table: self.table.as_mut() };
        let links: &Links = self.links.borrow();
        border::shutdown(lent, links.active, slot)
    }

    /// Sends C; the slot is closed where C was heard, and may be opened again. With unread bytes it sends A instead: nothing is dropped in
    /// silence.
    ///
    /// # Errors
    ///
    /// [`State`](Refusal::State) after C or A sent; and what every call tests.
    #[inline]
    pub fn close(&mut self, slot: u32) -> Result<Closed, Refusal> {
        if self.trace.on() {
            let line = |t: &mut Tracer| t.call(format_args!("close {slot}"));
            return self.traced(None, line, |g| g.close(slot), |t, a| t.closed(a));
        }
        let lent = Lent { s: self.s, n: self.n, memory: &mut self.memory, table: self.table.as_mut() };
        let links: &Links = self.links.borrow();
        border::close(lent, links.active, slot)
    }

    /// Sends A. The slot then waits for the peer's A, or for [`Group::free`].
    ///
    /// # Errors
    ///
    /// [`State`](Refusal::State) after A sent; and what every call tests.
    #[inline]
    pub fn abort(&mut self, slot: u32) -> Result<Message, Refusal> {
        if self.trace.on() {
            let line = |t: &mut Tracer| t.call(format_args!("abort {slot}"));
            return self.traced(None, line, |g| g.abort(slot), |t, a| t.told("abort", a));
        }
        let lent = Lent { s: self.s, n: self.n, memory: &mut self.memory, table: self.table.as_mut() };
        let links: &Links = self.links.borrow();
        border::abort(lent, links.active, slot)
    }

    #[inline]
    fn call(&mut self, command: Command, bytes: &[u8], out: &mut [u8]) -> Answer {
        let lent = Lent { s: self.s, n: self.n, memory: &mut self.memory, table: self.table.as_mut() };
        border::make(lent, self.links.borrow_mut(), command, bytes, out)
    }
}

/// What a traced call does: its line, the call itself with the hook out of its way, and the answer. `reads` is the slot whose element the
/// call reads. An answer of the fast calls comes in a box, so that without a trace it need not lie in memory.
impl<M, T, L> Group<M, T, L>
where
    M: Memory,
    T: AsMut<[Record]>,
    L: BorrowMut<Links>,
{
    #[cold]
    #[inline(never)]
    fn send_traced(&mut self, slot: u32, bytes: &[u8]) -> Box<Result<Sent, Refusal>> {
        let line = |t: &mut Tracer| t.bytes(format_args!("send {slot}"), bytes);
        Box::new(self.traced(None, line, |g| g.send(slot, bytes), |t, a| t.sent("send", a)))
    }

    #[cold]
    #[inline(never)]
    fn urgent_traced(&mut self, slot: u32, bytes: &[u8]) -> Box<Result<Sent, Refusal>> {
        let line = |t: &mut Tracer| t.bytes(format_args!("urgent {slot}"), bytes);
        Box::new(self.traced(None, line, |g| g.urgent_send(slot, bytes), |t, a| t.sent("urgent", a)))
    }

    #[cold]
    #[inline(never)]
    fn gather_traced<'a>(&mut self, slot: u32, head: &'a [u8], body: &'a [u8]) -> Box<Result<Gathered<'a>, Refusal>> {
        let line = |t: &mut Tracer| t.gathers(slot, head, body);
        Box::new(self.traced(None, line, |g| g.gather(slot, head, body), |t, a| t.gathered(a)))
    }

    #[cold]
    #[inline(never)]
    fn place_traced(&mut self, slot: u32, offset: u32, bytes: &[u8]) -> Result<(), Refusal> {
        let line = |t: &mut Tracer| t.bytes(format_args!("place {slot} {offset}"), bytes);
        self.traced(None, line, |g| g.place(slot, offset, bytes), |t, a| t.placed(slot, offset, bytes, a))
    }

    #[cold]
    #[inline(never)]
    fn read_traced(&mut self, slot: u32, out: &mut [u8]) -> Box<Result<Read, Refusal>> {
        let room = out.len();
        let call = |g: &mut Self| {
            let read = g.read(slot, out);
            (read, out)
        };
        Box::new(self.traced(Some(slot), |t| t.reads(slot, room), call, |t, (a, out)| t.read(a, out)).0)
    }

    #[cold]
    #[inline(never)]
    fn hear_traced(&mut self, bytes: &[u8]) -> Box<Result<Heard, Refusal>> {
        Box::new(self.traced(None, |t| t.bytes(format_args!("hear"), bytes), |g| g.hear(bytes), |t, a| t.heard(a)))
    }

    #[cold]
    #[inline(never)]
    fn traced<A>(
        &mut self,
        reads: Option<u32>,
        line: impl FnOnce(&mut Tracer),
        call: impl FnOnce(&mut Self) -> A,
        answered: impl FnOnce(&mut Tracer, &A),
    ) -> A {
        let Some(mut tracer) = self.trace.take() else { return call(self) };
        let length = self.memory.parts().1;
        let element = reads.and_then(|slot| border::element(&mut self.memory, self.n, slot));
        tracer.before((self.s, self.n), length, self.table.as_mut(), self.links.borrow_mut(), element);
        line(&mut tracer);
        let answer = call(self);
        answered(&mut tracer, &answer);
        tracer.after(self.table.as_mut(), self.links.borrow_mut());
        self.trace.put(tracer);
        answer
    }
}

fn command(number: Number, slot: u32) -> Command {
    Command { number: number as u32, slot, ..Command::default() }
}

#[inline]
fn link_command(number: Number, link: u8) -> LinkCommand {
    LinkCommand { number: number as u32, link, ..LinkCommand::default() }
}

#[inline]
fn refused(answer: &Answer) -> Result<(), Refusal> {
    if answer.said == said::REFUSED {
        return Err(crate::refusal::given(answer.refusal));
    }
    Ok(())
}

fn link_refused(answer: &RawLinkAnswer) -> Result<(), Refusal> {
    if answer.said == said::REFUSED {
        return Err(crate::refusal::given(answer.refusal));
    }
    Ok(())
}

fn health_of(number: u32, mean: f64, worst: f64) -> Health {
    match number {
        health::STEADY => Health::Steady(mean),
        health::LATE => Health::Late(mean, worst),
        _ => Health::Unheard,
    }
}
