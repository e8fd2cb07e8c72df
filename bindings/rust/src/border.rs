//! The border: the proved functions as the archive exports them, and the only `unsafe` of the crate.
//!
//! The proved side asks nothing of the numbers and bytes that it is handed. What it does ask is C's: pointers that are not null and are
//! valid for their lengths, buffers that do not overlap, and bools that are 0 or 1. Rust's own types keep all of this, and whoever
//! implements [`Memory`] by hand promises it.

use crate::{Closed, Gathered, Heard, Links, Message, Opening, Placing, Placings, Quiet, Read, Record, Refusal, Role, Sent, State};
use alloc::boxed::Box;
use alloc::vec::Vec;
use core::marker::PhantomData;
use core::mem::MaybeUninit;

#[cfg(test)]
mod shapes;

/// Memory that a group can be lent: S elements of N bytes.
///
/// Vectors, boxed slices, arrays and borrowed slices are such memory. [`SharedMemory`] is for memory that others write too, as a card does.
///
/// # Safety
///
/// The pointer is not null and valid for reading and writing as many bytes as the length says while the value is borrowed, and
/// overlaps neither the table nor the bytes and buffers that are lent with it.
pub unsafe trait Memory {
    /// Where the bytes begin, and how many there are.
    fn parts(&mut self) -> (*mut u8, usize);
}

// SAFETY: a slice's pointer is not null, and a mutable borrow of it is alone.
unsafe impl Memory for [u8] {
    fn parts(&mut self) -> (*mut u8, usize) {
        (self.as_mut_ptr(), self.len())
    }
}

// SAFETY: as for a slice.
unsafe impl Memory for Vec<u8> {
    fn parts(&mut self) -> (*mut u8, usize) {
        (self.as_mut_ptr(), self.len())
    }
}

// SAFETY: as for a slice.
unsafe impl<const LENGTH: usize> Memory for [u8; LENGTH] {
    fn parts(&mut self) -> (*mut u8, usize) {
        (self.as_mut_ptr(), LENGTH)
    }
}

// SAFETY: as for what is borrowed.
unsafe impl<M: Memory + ?Sized> Memory for &mut M {
    fn parts(&mut self) -> (*mut u8, usize) {
        (**self).parts()
    }
}

// SAFETY: as for what is boxed.
unsafe impl<M: Memory + ?Sized> Memory for Box<M> {
    fn parts(&mut self) -> (*mut u8, usize) {
        (**self).parts()
    }
}

/// Memory that others write too: a mapping that the peer's process shares, or memory that a card writes.
///
/// No Rust reference to its bytes is ever made. The proofs are about memory that nobody else writes while a call runs. A peer that keeps
/// the rules writes only free bytes, and a call reads the eye catcher and bytes that were announced, so that they hold beside such a peer
/// as well; the messages carry the order. Nothing is proved about a peer that writes bytes while they are read.
#[derive(Debug)]
pub struct SharedMemory<'a> {
    start: *mut u8,
    length: usize,
    kept: PhantomData<&'a ()>,
}

impl<'a> SharedMemory<'a> {
    /// Memory at an address.
    ///
    /// # Safety
    ///
    /// `start` is not null and valid for reading and writing `length` bytes during `'a`; none of the slices lent to the group's calls
    /// overlaps them, and no reference to any of them is held while a call runs.
    pub unsafe fn new(start: *mut u8, length: usize) -> SharedMemory<'a> {
        SharedMemory { start, length, kept: PhantomData }
    }
}

// SAFETY: the bytes belong to no thread, and a call has the value alone.
unsafe impl Send for SharedMemory<'_> {}

// SAFETY: promised to `new`.
unsafe impl Memory for SharedMemory<'_> {
    fn parts(&mut self) -> (*mut u8, usize) {
        (self.start, self.length)
    }
}

/// What a command asks.
#[derive(Clone, Copy)]
#[repr(u32)]
pub(crate) enum Number {
    Open = 1,
    Free = 2,
    LinkChange = 3,
    Sample = 4,
    LinkMessage = 13,
    LinkSend = 14,
}

/// What an answer says, as far as it is looked at.
pub(crate) mod said {
    pub const REFUSED: u32 = 1;
    pub const LINK_HEARD: u32 = 13;
    pub const LINK_SENT: u32 = 14;
    pub const LINK_CHANGED: u32 = 15;
}

/// The buffer of a piece; the body is any other.
pub(crate) const HEAD: u32 = 0;

/// The health of a link; any other number is a link that was not heard.
pub(crate) mod health {
    pub const STEADY: u32 = 2;
    pub const LATE: u32 = 3;
}

/// Any one call but gather and the three on links, with its numbers.
#[derive(Clone, Copy, Default)]
#[cfg_attr(test, derive(Debug, PartialEq))]
#[repr(C)]
pub(crate) struct Command {
    pub number: u32,
    pub slot: u32,
    pub offset: u32,
    pub ms: u32,
    pub link: u8,
    pub opening: Opening,
}

/// The answer of a group's call; what `said` does not name is zero.
#[derive(Clone, Copy)]
#[cfg_attr(test, derive(Debug, PartialEq))]
#[repr(C)]
pub(crate) struct Answer {
    pub said: u32,
    pub refusal: u32,
    pub n: u32,
    pub state: u32,
    pub moved: u64,
    pub health: u32,
    pub placings: u32,
    pub both: [Placing; 2],
    pub mean: f64,
    pub worst: f64,
    pub made: bool,
    pub message: [u8; 44],
    pub links: Links,
}

/// The links' states, without what link messages need.
#[derive(Clone, Copy)]
#[cfg_attr(test, derive(Debug, PartialEq))]
#[repr(C)]
pub(crate) struct LinkStates {
    pub active: [bool; 4],
}

/// The answer of a read: a refusal's number or 0, whether the element was torn, whether a message was made, and how many bytes were read.
#[derive(Clone, Copy)]
#[cfg_attr(test, derive(Debug, PartialEq))]
#[repr(C)]
pub(crate) struct ReadAnswer {
    pub refusal: u8,
    pub torn: bool,
    pub made: bool,
    pub count: u32,
}

/// The answer of a send or an urgent send: a refusal's number or 0, whether a message was made, how many of the placings are named, and
/// how many bytes were taken.
#[derive(Clone, Copy)]
#[cfg_attr(test, derive(Debug, PartialEq))]
#[repr(C)]
pub(crate) struct SendAnswer {
    pub refusal: u8,
    pub made: bool,
    pub placings: u8,
    pub taken: u32,
    pub both: [Placing; 2],
}

/// The answer of hear: a refusal's number or 0, whether a message was made, the state's number, and how far P moved.
#[derive(Clone, Copy)]
#[cfg_attr(test, derive(Debug, PartialEq))]
#[repr(C)]
pub(crate) struct HearAnswer {
    pub refusal: u8,
    pub made: bool,
    pub state: u8,
    pub moved: u64,
}

/// The answer of shutdown, close and abort: a refusal's number or 0, whether a message was made, and whether a close met unread bytes.
#[derive(Clone, Copy)]
#[cfg_attr(test, derive(Debug, PartialEq))]
#[repr(C)]
pub(crate) struct FinishAnswer {
    pub refusal: u8,
    pub made: bool,
    pub reset: bool,
}

/// The answer of a gather: a refusal's number or 0, whether a message was made, how many bytes were taken, the pieces, zeros where there is
/// none, and an empty placing where Q is after it.
#[derive(Clone, Copy, Debug, PartialEq, Eq)]
#[repr(C)]
pub(crate) struct GatherAnswer {
    pub refusal: u8,
    pub made: bool,
    pub taken: u32,
    pub pieces: [RawPiece; 3],
    pub last: Placing,
}

/// A link message's kind, by its first byte, and its values in row order; kind 0 and zeros are none.
#[derive(Clone, Copy, Default)]
#[cfg_attr(test, derive(Debug, PartialEq))]
#[repr(C)]
pub(crate) struct RawFields {
    pub kind: u8,
    pub values: [u64; 12],
}

/// Link change, link message or link send, with its numbers.
#[derive(Clone, Copy, Default)]
#[cfg_attr(test, derive(Debug, PartialEq))]
#[repr(C)]
pub(crate) struct LinkCommand {
    pub number: u32,
    pub link: u8,
    pub up: bool,
    pub fields: RawFields,
}

/// A message taken up from the queue; zeros where none was.
#[derive(Clone, Copy)]
#[cfg_attr(test, derive(Debug, PartialEq))]
#[repr(C)]
pub(crate) struct RawTakenUp {
    pub some: bool,
    pub link: u8,
    pub fate: u32,
    pub fields: RawFields,
}

/// The answer of link change, link message and link send; `count` messages with F stand in the lent buffer.
#[derive(Clone, Copy)]
#[cfg_attr(test, derive(Debug, PartialEq))]
#[repr(C)]
pub(crate) struct RawLinkAnswer {
    pub said: u32,
    pub refusal: u32,
    pub fate: u32,
    pub fields: RawFields,
    pub up: RawTakenUp,
    pub count: u32,
    pub made: bool,
    pub message: [u8; 44],
    pub links: Links,
}

/// A part of the head (buffer 0) or of the body (1), and where it goes.
#[derive(Clone, Copy, Debug, PartialEq, Eq)]
#[repr(C)]
pub(crate) struct RawPiece {
    pub buffer: u32,
    pub start: u32,
    pub len: u32,
    pub key: u32,
    pub address: u64,
}

/// What a console shows of a link.
#[derive(Clone, Copy)]
#[cfg_attr(test, derive(Debug, PartialEq))]
#[repr(C)]
pub(crate) struct View {
    pub health: u32,
    pub shown: u32,
    pub mean: f64,
    pub worst: f64,
}

/// The pool's books.
#[derive(Clone, Copy)]
#[cfg_attr(test, derive(Debug, PartialEq))]
#[repr(C)]
pub(crate) struct RawBooks {
    pub sizes: [u8; 64],
}

/// The answer of a call on the pool's books.
#[derive(Clone, Copy)]
#[cfg_attr(test, derive(Debug, PartialEq))]
#[repr(C)]
pub(crate) struct PoolAnswer {
    pub said: u32,
    pub refusal: u32,
    pub start: u32,
    pub books: RawBooks,
}

/// Our settings for set-up, in the proved side's layout.
#[derive(Clone, Copy)]
#[cfg_attr(test, derive(Debug, PartialEq))]
#[repr(C)]
pub(crate) struct RawSettings {
    pub size: u32,
    pub peer: [u8; 8],
    pub gid: [u8; 16],
    pub mac: [u8; 6],
    pub mask: [u8; 4],
    pub masklen: u8,
    pub count: u8,
    pub prefixes: [u8; 136],
    pub first: bool,
    pub qp: u32,
    pub mtu: u8,
    pub psn: u32,
    pub key: u32,
    pub base: u64,
    pub slot: u8,
    pub own: u32,
    pub link: u8,
    pub key1: u32,
    pub base1: u64,
    pub key2: u32,
    pub base2: u64,
    pub key3: u32,
    pub base3: u64,
    pub key4: u32,
    pub base4: u64,
}

/// The arguments of an open, as set-up gives them.
#[derive(Clone, Copy)]
#[cfg_attr(test, derive(Debug, PartialEq))]
#[repr(C)]
pub(crate) struct Arguments {
    pub slot: u8,
    pub own: u32,
    pub token: u32,
    pub link: u8,
    pub size: u32,
    pub index: u8,
    pub key1: u32,
    pub base1: u64,
    pub key2: u32,
    pub base2: u64,
    pub key3: u32,
    pub base3: u64,
    pub key4: u32,
    pub base4: u64,
}

/// The answer of set-up.
#[derive(Clone, Copy)]
#[cfg_attr(test, derive(Debug, PartialEq))]
#[repr(C)]
pub(crate) struct SetupAnswer {
    pub said: u32,
    pub refusal: u32,
    pub opens: bool,
    pub declined: bool,
    pub diagnosis: u32,
    pub count: usize,
    pub arguments: Arguments,
    pub message: [u8; 188],
}

extern "C" {
    fn fordlinnet_make(
        s: u32,
        n: u32,
        memory: *mut u8,
        memory_length: usize,
        table: *mut Record,
        table_length: usize,
        links: Links,
        command: Command,
        bytes: *const u8,
        bytes_length: usize,
        out: *mut u8,
        out_length: usize,
    ) -> Answer;

    fn fordlinnet_make_read(
        s: u32,
        n: u32,
        memory: *const u8,
        memory_length: usize,
        table: *mut Record,
        table_length: usize,
        links: LinkStates,
        slot: u32,
        out: *mut u8,
        out_length: usize,
        message: *mut [u8; Message::SIZE],
    ) -> ReadAnswer;

    fn fordlinnet_make_place(
        s: u32,
        n: u32,
        memory: *mut u8,
        memory_length: usize,
        table: *const Record,
        table_length: usize,
        links: LinkStates,
        slot: u32,
        offset: u32,
        bytes: *const u8,
        bytes_length: usize,
    ) -> u8;

    fn fordlinnet_make_send(
        s: u32,
        n: u32,
        memory: *const u8,
        memory_length: usize,
        table: *mut Record,
        table_length: usize,
        links: LinkStates,
        slot: u32,
        bytes: *const u8,
        bytes_length: usize,
        message: *mut [u8; Message::SIZE],
    ) -> SendAnswer;

    fn fordlinnet_make_urgent_send(
        s: u32,
        n: u32,
        memory: *const u8,
        memory_length: usize,
        table: *mut Record,
        table_length: usize,
        links: LinkStates,
        slot: u32,
        bytes: *const u8,
        bytes_length: usize,
        message: *mut [u8; Message::SIZE],
    ) -> SendAnswer;

    fn fordlinnet_make_hear(
        s: u32,
        n: u32,
        memory: *const u8,
        memory_length: usize,
        table: *mut Record,
        table_length: usize,
        links: LinkStates,
        bytes: *const u8,
        bytes_length: usize,
        message: *mut [u8; Message::SIZE],
    ) -> HearAnswer;

    fn fordlinnet_make_shutdown(
        s: u32,
        n: u32,
        memory: *const u8,
        memory_length: usize,
        table: *mut Record,
        table_length: usize,
        links: LinkStates,
        slot: u32,
        message: *mut [u8; Message::SIZE],
    ) -> FinishAnswer;

    fn fordlinnet_make_close(
        s: u32,
        n: u32,
        memory: *const u8,
        memory_length: usize,
        table: *mut Record,
        table_length: usize,
        links: LinkStates,
        slot: u32,
        message: *mut [u8; Message::SIZE],
    ) -> FinishAnswer;

    fn fordlinnet_make_abort(
        s: u32,
        n: u32,
        memory: *const u8,
        memory_length: usize,
        table: *mut Record,
        table_length: usize,
        links: LinkStates,
        slot: u32,
        message: *mut [u8; Message::SIZE],
    ) -> FinishAnswer;

    fn fordlinnet_make_gather(
        s: u32,
        n: u32,
        memory: *const u8,
        memory_length: usize,
        table: *mut Record,
        table_length: usize,
        links: LinkStates,
        slot: u32,
        head: *const u8,
        head_length: usize,
        body: *const u8,
        body_length: usize,
        message: *mut [u8; Message::SIZE],
    ) -> GatherAnswer;

    fn fordlinnet_make_link(
        s: u32,
        n: u32,
        memory: *const u8,
        memory_length: usize,
        table: *mut Record,
        table_length: usize,
        links: Links,
        command: LinkCommand,
        bytes: *const u8,
        bytes_length: usize,
        out: *mut u8,
        out_length: usize,
    ) -> RawLinkAnswer;

    fn fordlinnet_view_link(links: Links, link: u8) -> View;
    fn fordlinnet_closed_record() -> Record;
    fn fordlinnet_links_down(server: bool) -> Links;
    fn fordlinnet_pool_free() -> RawBooks;
    fn fordlinnet_pool_take(books: RawBooks, units: u32) -> PoolAnswer;
    fn fordlinnet_pool_return(books: RawBooks, start: u32, units: u32) -> PoolAnswer;
    fn fordlinnet_make_setup(settings: RawSettings, due: u32, bytes: *const u8, bytes_length: usize) -> SetupAnswer;
}

/// What a group lends to every call, its links aside.
pub(crate) struct Lent<'a, M: ?Sized> {
    pub s: u32,
    pub n: u32,
    pub memory: &'a mut M,
    pub table: &'a mut [Record],
}

/// Makes any one call but gather and the three on links. The links are brought up to date.
#[inline]
pub(crate) fn make<M: Memory + ?Sized>(lent: Lent<'_, M>, links: &mut Links, command: Command, bytes: &[u8], out: &mut [u8]) -> Answer {
    let (memory, length) = lent.memory.parts();
    // SAFETY: slices and `Memory` give pointers that are valid for their lengths and not null; mutable borrows do not overlap.
    let answer = unsafe {
        fordlinnet_make(
            lent.s,
            lent.n,
            memory,
            length,
            lent.table.as_mut_ptr(),
            lent.table.len(),
            *links,
            command,
            bytes.as_ptr(),
            bytes.len(),
            out.as_mut_ptr(),
            out.len(),
        )
    };
    *links = answer.links;
    answer
}

/// Where a call lays the message that it makes: it writes all 44 bytes, and none where it makes no message.
struct Unwritten(MaybeUninit<[u8; Message::SIZE]>);

impl Unwritten {
    #[inline]
    fn new() -> Unwritten {
        Unwritten(MaybeUninit::uninit())
    }

    #[inline]
    fn as_mut_ptr(&mut self) -> *mut [u8; Message::SIZE] {
        self.0.as_mut_ptr()
    }

    /// # Safety
    ///
    /// The call that was lent the buffer has said that it made a message.
    #[inline]
    unsafe fn message(self) -> Message {
        // SAFETY: a call that says so has written every byte.
        Message::made(unsafe { self.0.assume_init() })
    }
}

/// Reads, on the table itself.
#[inline]
pub(crate) fn read<M: Memory + ?Sized>(lent: Lent<'_, M>, active: [bool; 4], slot: u32, out: &mut [u8]) -> Result<Read, Refusal> {
    let (memory, length) = lent.memory.parts();
    let mut message = Unwritten::new();
    // SAFETY: as in `make`.
    let answer = unsafe {
        fordlinnet_make_read(
            lent.s,
            lent.n,
            memory,
            length,
            lent.table.as_mut_ptr(),
            lent.table.len(),
            LinkStates { active },
            slot,
            out.as_mut_ptr(),
            out.len(),
            message.as_mut_ptr(),
        )
    };
    if answer.refusal != 0 {
        return Err(crate::refusal::given(answer.refusal.into()));
    }
    if answer.torn {
        // SAFETY: a torn element is always told.
        return Ok(Read::Torn { message: unsafe { message.message() } });
    }
    let count = answer.count as usize;
    if answer.made {
        // SAFETY: it has said so.
        return Ok(Read::Bytes { count, message: Some(unsafe { message.message() }) });
    }
    Ok(Read::Bytes { count, message: None })
}

/// Places, on the table itself: a refusal's number, or 0 where the bytes are stored.
#[inline]
pub(crate) fn place<M: Memory + ?Sized>(lent: Lent<'_, M>, active: [bool; 4], slot: u32, offset: u32, bytes: &[u8]) -> u8 {
    let (memory, length) = lent.memory.parts();
    // SAFETY: as in `make`.
    unsafe {
        fordlinnet_make_place(
            lent.s,
            lent.n,
            memory,
            length,
            lent.table.as_ptr(),
            lent.table.len(),
            LinkStates { active },
            slot,
            offset,
            bytes.as_ptr(),
            bytes.len(),
        )
    }
}

type SendCall = unsafe extern "C" fn(
    u32,
    u32,
    *const u8,
    usize,
    *mut Record,
    usize,
    LinkStates,
    u32,
    *const u8,
    usize,
    *mut [u8; Message::SIZE],
) -> SendAnswer;

/// A send or an urgent send, on the table itself.
#[inline(always)]
fn sent<M: Memory + ?Sized>(call: SendCall, lent: Lent<'_, M>, active: [bool; 4], slot: u32, bytes: &[u8]) -> Result<Sent, Refusal> {
    let (memory, length) = lent.memory.parts();
    let mut message = Unwritten::new();
    // SAFETY: as in `make`.
    let answer = unsafe {
        call(
            lent.s,
            lent.n,
            memory,
            length,
            lent.table.as_mut_ptr(),
            lent.table.len(),
            LinkStates { active },
            slot,
            bytes.as_ptr(),
            bytes.len(),
            message.as_mut_ptr(),
        )
    };
    if answer.refusal != 0 {
        return Err(crate::refusal::given(answer.refusal.into()));
    }
    let (taken, placings) = (answer.taken as usize, Placings::new(answer.both, answer.placings.into()));
    if answer.made {
        // SAFETY: it has said so.
        return Ok(Sent { taken, placings, message: Some(unsafe { message.message() }) });
    }
    Ok(Sent { taken, placings, message: None })
}

#[inline]
pub(crate) fn send<M: Memory + ?Sized>(lent: Lent<'_, M>, active: [bool; 4], slot: u32, bytes: &[u8]) -> Result<Sent, Refusal> {
    sent(fordlinnet_make_send, lent, active, slot, bytes)
}

#[inline]
pub(crate) fn urgent_send<M: Memory + ?Sized>(lent: Lent<'_, M>, active: [bool; 4], slot: u32, bytes: &[u8]) -> Result<Sent, Refusal> {
    sent(fordlinnet_make_urgent_send, lent, active, slot, bytes)
}

/// Hears, on the table itself.
#[inline]
pub(crate) fn hear<M: Memory + ?Sized>(lent: Lent<'_, M>, active: [bool; 4], bytes: &[u8]) -> Result<Heard, Refusal> {
    let (memory, length) = lent.memory.parts();
    let mut message = Unwritten::new();
    // SAFETY: as in `make`.
    let answer = unsafe {
        fordlinnet_make_hear(
            lent.s,
            lent.n,
            memory,
            length,
            lent.table.as_mut_ptr(),
            lent.table.len(),
            LinkStates { active },
            bytes.as_ptr(),
            bytes.len(),
            message.as_mut_ptr(),
        )
    };
    if answer.refusal != 0 {
        return Err(crate::refusal::given(answer.refusal.into()));
    }
    let (moved, state) = (answer.moved, State::ALL[answer.state as usize]);
    if answer.made {
        // SAFETY: it has said so.
        return Ok(Heard { moved, state, message: Some(unsafe { message.message() }), quiet: None });
    }
    Ok(Heard { moved, state, message: None, quiet: None })
}

type Finish =
    unsafe extern "C" fn(u32, u32, *const u8, usize, *mut Record, usize, LinkStates, u32, *mut [u8; Message::SIZE]) -> FinishAnswer;

/// Shutdown, close or abort, on the table itself.
#[inline(always)]
fn finish<M: Memory + ?Sized>(
    call: Finish,
    lent: &mut Lent<'_, M>,
    active: [bool; 4],
    slot: u32,
    message: &mut Unwritten,
) -> Result<FinishAnswer, Refusal> {
    let (memory, length) = lent.memory.parts();
    let (table, records) = (lent.table.as_mut_ptr(), lent.table.len());
    // SAFETY: as in `make`.
    let answer = unsafe { call(lent.s, lent.n, memory, length, table, records, LinkStates { active }, slot, message.as_mut_ptr()) };
    if answer.refusal != 0 {
        return Err(crate::refusal::given(answer.refusal.into()));
    }
    Ok(answer)
}

#[inline]
pub(crate) fn shutdown<M: Memory + ?Sized>(mut lent: Lent<'_, M>, active: [bool; 4], slot: u32) -> Result<Message, Refusal> {
    let mut message = Unwritten::new();
    finish(fordlinnet_make_shutdown, &mut lent, active, slot, &mut message)?;
    // SAFETY: one that is not refused makes a message.
    Ok(unsafe { message.message() })
}

/// With the right to open the slot again, where the call has closed it. Each answer is made by itself: a message that is part of another
/// answer first is copied once more.
#[inline]
pub(crate) fn close<M: Memory + ?Sized>(mut lent: Lent<'_, M>, active: [bool; 4], slot: u32) -> Result<Closed, Refusal> {
    let mut message = Unwritten::new();
    let answer = finish(fordlinnet_make_close, &mut lent, active, slot, &mut message)?;
    if answer.reset {
        // SAFETY: as in `shutdown`.
        return Ok(Closed::Reset { message: unsafe { message.message() } });
    }
    // one that is not refused names a slot of the table
    if lent.table.get((slot as usize).wrapping_sub(1)).is_some_and(|record| !record.id.opened) {
        // SAFETY: as in `shutdown`.
        return Ok(Closed::InOrder { message: unsafe { message.message() }, quiet: Some(Quiet::proved(slot)) });
    }
    // SAFETY: as in `shutdown`.
    Ok(Closed::InOrder { message: unsafe { message.message() }, quiet: None })
}

#[inline]
pub(crate) fn abort<M: Memory + ?Sized>(mut lent: Lent<'_, M>, active: [bool; 4], slot: u32) -> Result<Message, Refusal> {
    let mut message = Unwritten::new();
    finish(fordlinnet_make_abort, &mut lent, active, slot, &mut message)?;
    // SAFETY: as in `shutdown`.
    Ok(unsafe { message.message() })
}

/// Sends a head and a body as if joined, on the table itself.
#[inline]
pub(crate) fn gather<'a, M: Memory + ?Sized>(
    lent: Lent<'_, M>,
    active: [bool; 4],
    slot: u32,
    head: &'a [u8],
    body: &'a [u8],
) -> Result<Gathered<'a>, Refusal> {
    let (memory, length) = lent.memory.parts();
    let mut message = Unwritten::new();
    // SAFETY: as in `make`.
    let answer = unsafe {
        fordlinnet_make_gather(
            lent.s,
            lent.n,
            memory,
            length,
            lent.table.as_mut_ptr(),
            lent.table.len(),
            LinkStates { active },
            slot,
            head.as_ptr(),
            head.len(),
            body.as_ptr(),
            body.len(),
            message.as_mut_ptr(),
        )
    };
    if answer.refusal != 0 {
        return Err(crate::refusal::given(answer.refusal.into()));
    }
    if answer.made {
        // SAFETY: it has said so.
        return Ok(Gathered::new(head, body, answer, Some(unsafe { message.message() })));
    }
    Ok(Gathered::new(head, body, answer, None))
}

/// Makes a link change, link message or link send. The links are brought up to date.
#[inline]
pub(crate) fn make_link<M: Memory + ?Sized>(
    lent: Lent<'_, M>,
    links: &mut Links,
    command: LinkCommand,
    bytes: &[u8],
    out: &mut [u8],
) -> RawLinkAnswer {
    let (memory, length) = lent.memory.parts();
    // SAFETY: as in `make`.
    let answer = unsafe {
        fordlinnet_make_link(
            lent.s,
            lent.n,
            memory,
            length,
            lent.table.as_mut_ptr(),
            lent.table.len(),
            *links,
            command,
            bytes.as_ptr(),
            bytes.len(),
            out.as_mut_ptr(),
            out.len(),
        )
    };
    *links = answer.links;
    answer
}

/// A copy of a slot's element, and where it begins; `None` where the memory does not have it.
pub(crate) fn element<M: Memory + ?Sized>(memory: &mut M, n: u32, slot: u32) -> Option<(usize, Vec<u8>)> {
    let (start, length) = memory.parts();
    let (at, size) = ((slot as usize).checked_sub(1)?.checked_mul(n as usize)?, n as usize);
    if at.checked_add(size)? > length {
        return None;
    }
    let mut bytes = alloc::vec![0; size];
    // SAFETY: the memory is valid for its length, and the copy is new.
    unsafe { core::ptr::copy_nonoverlapping(start.add(at), bytes.as_mut_ptr(), size) };
    Some((at, bytes))
}

/// What a console shows of a link.
pub(crate) fn view(links: &Links, link: u8) -> View {
    // SAFETY: values alone.
    unsafe { fordlinnet_view_link(*links, link) }
}

/// A closed slot's record.
pub(crate) fn closed_record() -> Record {
    // SAFETY: values alone.
    unsafe { fordlinnet_closed_record() }
}

/// A fresh group's links.
pub(crate) fn links_down(role: Role) -> Links {
    // SAFETY: values alone.
    unsafe { fordlinnet_links_down(role == Role::Server) }
}

/// Books with nothing given out.
pub(crate) fn pool_free() -> RawBooks {
    // SAFETY: values alone.
    unsafe { fordlinnet_pool_free() }
}

/// Takes a block from the pool.
pub(crate) fn pool_take(books: RawBooks, units: u32) -> PoolAnswer {
    // SAFETY: values alone.
    unsafe { fordlinnet_pool_take(books, units) }
}

/// Returns a block to the pool.
pub(crate) fn pool_return(books: RawBooks, start: u32, units: u32) -> PoolAnswer {
    // SAFETY: values alone.
    unsafe { fordlinnet_pool_return(books, start, units) }
}

/// Sets up a connection.
pub(crate) fn setup(settings: &RawSettings, due: u32, bytes: &[u8]) -> SetupAnswer {
    // SAFETY: values, and a slice's pointer.
    unsafe { fordlinnet_make_setup(*settings, due, bytes.as_ptr(), bytes.len()) }
}
