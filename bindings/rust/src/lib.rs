//! The proved core of SMC-R (RFC 7609, Shared Memory Communications over RDMA), called from Rust.
//!
//! Fordlinnet keeps the cursors, messages, window updates, closing and aborting of connections whose peers write straight into each
//! other's memory. It is written in Rattle, and every function of it is proved to meet its contract. This crate is ordinary Rust around
//! the proved archive: it owns or borrows what a call is lent, and turns answers into enums and structs. It has no dependency.
//!
//! # In ten lines
//!
//! Two groups in one process, with a copy in place of the card:
//!
//! ```
//! use fordlinnet::{Group, Opening, RToken, Remote};
//!
//! let (mut ours, mut theirs) = (Group::fresh(1, 10_000)?, Group::fresh(1, 10_000)?);
//! let remote = Remote { size: 10_000, index: 1, rtokens: [RToken { key: 7, base: 0 }; 4] };
//! for (group, own, peer) in [(&mut ours, 5, 6), (&mut theirs, 6, 5)] {
//!     group.link_change(1, true)?;
//!     let slot = group.never_opened(1).expect("a fresh group");
//!     group.open(slot, &Opening { own, peer, link: 1, remote })?;
//! }
//! let sent = ours.send(1, b"depths in metres")?;
//! for placing in &sent.placings {
//!     theirs.place(1, placing.address as u32, placing.of(b"depths in metres"))?; // what the card does
//! }
//! let heard = theirs.hear(sent.message.unwrap().as_ref())?;
//! let mut out = [0; 64];
//! let read = theirs.read(1, &mut out)?;
//! assert_eq!((heard.moved, &out[..read.count()]), (16, &b"depths in metres"[..]));
//! # Ok::<(), fordlinnet::Refusal>(())
//! ```
//!
//! # What there is
//!
//! - A [`Group`] has S elements of N bytes of memory, a table of S [`Record`]s, and four [`Links`]. [`Group::fresh`] owns them,
//!   [`Group::lend`] borrows them; memory that a peer or a card writes is a [`SharedMemory`].
//! - A connection is a slot of the table. [`Group::open`] makes one, of what [`set_up`] settled over TCP or the caller knows, with the
//!   right to use the slot's element ([`Quiet`]).
//! - [`Group::send`], [`Group::urgent_send`] and [`Group::gather`] take bytes. They answer with [`Placing`]s, which the card writes into
//!   the peer's memory, and a [`Message`], which is then carried to the peer. The order matters: the message announces the bytes.
//! - [`Group::hear`] takes the peer's message, [`Group::read`] the bytes that it announced. Read answers with a message where the peer is
//!   to be told of the room.
//! - [`Group::shutdown`], [`Group::close`] and [`Group::abort`] end it; [`Group::free`] closes a slot after an abort. The marks sent and
//!   heard name the [`State`].
//! - [`Group::link_change`] and [`Group::sample`] keep the links and their [`Health`]. [`Group::link_message`] takes the peer's link
//!   messages and [`Group::link_send`] makes ours: further links and memory keys, in one [`Exchange`] at a time. Where a link goes down its
//!   connections move to another one, and the answer has a message for each. [`Books`] are a pool's.
//!
//! # What is promised
//!
//! Any bytes, numbers and tables may be handed in at any time. Every call comes back. It does its work, or gives one [`Refusal`], exactly
//! when the list says so; a refused call has changed nothing that it was lent. That, and what each answer is, is proved of the archive;
//! this crate is tested against it and against a second program, and its only `unsafe` is where it meets the archive.
//!
//! # The message is the order
//!
//! Between two processes the placings must be seen before the message that announces them. Write the bytes, then a release fence, then
//! the message to the socket; on the other side the message, an acquire fence, then hear and read. `examples/plate` does so.
//!
//! # When an element may be used again
//!
//! A slot that closed by C sent and C heard, or by A heard, has nothing of its connection under way to it, if the peer keeps the order of
//! writes and messages. That is proved (`NothingUnderWay`, in `crates/thm_sent/specs/Reuse.antt`). A slot closed by [`Group::free`] may
//! be opened again only when no write of the old connection can arrive: the queue pair is down, or the key was revoked. No call can know
//! that. A write that does arrive is read as the new connection's bytes, and no call is refused.
//!
//! The types carry it. [`Group::open`] asks for a [`Quiet`], the right to use the slot's element: a fresh group has one for each slot, the
//! [`close`](Group::close) or [`hear`](Group::hear) that closes a slot answers with one, and [`Group::free`] answers with a [`Freed`],
//! which becomes one by the caller's word ([`Freed::no_write_can_arrive`]).
//!
//! # Traces
//!
//! With the feature `trace`, `Group::trace` or the variable `FORDLINNET_TRACE` writes a group's calls and answers down as the program
//! `replay` reads them, so that a run can be made again by the proved program, compared, and drawn. The variable, or `trace_beside`, does
//! so of the calls that stand beside the groups too: the pool's and set-up.
//!
//! # Building
//!
//! `bindings/archive` at the top of the repository proves the archive and leaves it in `target/staticlib`, where the build script looks;
//! `FORDLINNET_LIB` names another directory.

#![no_std]
#![warn(missing_docs)]
#![deny(unsafe_code, unsafe_op_in_unsafe_fn)]

/// The programs of the two pages that show one.
#[cfg(doctest)]
#[doc = include_str!("../README.md")]
#[doc = include_str!("../../../docs/CALLING.md")]
struct Pages;

extern crate alloc;
#[cfg(any(test, feature = "std"))]
extern crate std;

mod answer;
#[cfg(all(feature = "std", feature = "trace"))]
mod beside;
#[allow(unsafe_code)]
mod border;
mod gather;
mod group;
mod link;
mod message;
mod pool;
mod quiet;
mod record;
mod refusal;
mod setup;
mod trace;

pub use answer::{Closed, Health, Heard, Placing, Placings, Read, Sent, State};
#[cfg(all(feature = "std", feature = "trace"))]
pub use beside::trace_beside;
pub use border::{Memory, SharedMemory};
pub use gather::{Gathered, Piece, Pieces};
pub use group::Group;
pub use link::{Fate, LinkChanged, LinkFields, LinkHeard, LinkKind, LinkSent, Row, TakenUp};
pub use message::{Flags, Message};
pub use pool::Books;
pub use quiet::{Freed, NotOpened, Quiet};
pub use record::{
    Cursor, Exchange, Gauge, Identity, Inbound, Links, Marks, Opening, Outbound, Queue, RToken, Record, Remote, Role, Side, Sort, Urgent,
    Waiting,
};
pub use refusal::Refusal;
pub use setup::{set_up, Due, Prefix, SetUp, SetUpRefusal, Settings};
