//! What the calls answer.

use crate::{Message, Quiet};
use core::fmt;

/// The state of a connection, by its marks (RFC 7609, Figure 22).
#[derive(Clone, Copy, Debug, PartialEq, Eq, Hash)]
#[repr(u8)]
pub enum State {
    /// No mark was sent or heard.
    Active = 0,
    /// Only ours: we sent D or C.
    PeerCloseWait1 = 1,
    /// Both sides marked: we sent C and heard D, or each sent D, ours first.
    PeerCloseWait2 = 2,
    /// Only heard: the peer sent D or C.
    AppCloseWait1 = 3,
    /// Both sides marked: we heard C and sent D, or each sent D, the peer's first.
    AppCloseWait2 = 4,
    /// We sent A; [`free`](crate::Group::free) or a heard A closes the slot.
    PeerAbortWait = 5,
    /// C each way, or A heard: the slot is closed.
    Closed = 6,
}

impl State {
    /// Every state, by its number.
    pub const ALL: [State; 7] = [
        State::Active,
        State::PeerCloseWait1,
        State::PeerCloseWait2,
        State::AppCloseWait1,
        State::AppCloseWait2,
        State::PeerAbortWait,
        State::Closed,
    ];
}

impl fmt::Display for State {
    fn fmt(&self, f: &mut fmt::Formatter<'_>) -> fmt::Result {
        fmt::Debug::fmt(self, f)
    }
}

/// Bytes for the card to write into the peer's memory: a key and an address there, a start in the bytes sent, and a length.
#[derive(Clone, Copy, Debug, Default, PartialEq, Eq, Hash)]
#[repr(C)]
pub struct Placing {
    /// The peer's 32-bit memory key on the connection's link.
    pub key: u32,
    /// Base + (index - 1) x N' + offset.
    pub address: u64,
    /// Where the bytes begin, in what was sent.
    pub start: u32,
    /// How many; never 0 in an answer.
    pub len: u32,
}

impl Placing {
    /// The bytes of it, out of what was sent.
    ///
    /// # Panics
    ///
    /// Where `sent` is shorter than what the send was lent.
    pub fn of<'a>(&self, sent: &'a [u8]) -> &'a [u8] {
        &sent[self.start as usize..][..self.len as usize]
    }
}

/// The placings of a send: none, one, or two where the bytes go on from the element's end to its beginning.
#[derive(Clone, Copy, Debug, Default, PartialEq, Eq, Hash)]
pub struct Placings {
    both: [Placing; 2],
    count: usize,
}

impl Placings {
    #[inline]
    pub(crate) fn new(both: [Placing; 2], count: usize) -> Placings {
        Placings { both, count }
    }

    /// In the order in which they are to be written.
    pub fn as_slice(&self) -> &[Placing] {
        &self.both[..self.count]
    }
}

impl core::ops::Deref for Placings {
    type Target = [Placing];

    fn deref(&self) -> &[Placing] {
        self.as_slice()
    }
}

impl<'a> IntoIterator for &'a Placings {
    type Item = &'a Placing;
    type IntoIter = core::slice::Iter<'a, Placing>;

    fn into_iter(self) -> Self::IntoIter {
        self.as_slice().iter()
    }
}

/// What a send answers. Write the placings, then carry the message to the peer: it announces them.
#[derive(Clone, Copy, Debug, PartialEq, Eq)]
#[must_use]
pub struct Sent {
    /// How many of the bytes were taken, from the first on.
    pub taken: usize,
    /// Where they go.
    pub placings: Placings,
    /// The message made, if one was.
    pub message: Option<Message>,
}

/// What a read answers.
#[derive(Clone, Copy, Debug, PartialEq, Eq)]
#[must_use]
pub enum Read {
    /// So many bytes stand at the front of the out buffer, whose rest is as it was.
    Bytes {
        /// How many; 0 where nothing is unread.
        count: usize,
        /// The window update, where one is due.
        message: Option<Message>,
    },
    /// The element's eye catcher is damaged: the connection is aborted and the out buffer untouched.
    Torn {
        /// The abort message.
        message: Message,
    },
}

impl Read {
    /// How many bytes were read; 0 where the element is torn.
    #[inline]
    pub fn count(&self) -> usize {
        match self {
            Read::Bytes { count, .. } => *count,
            Read::Torn { .. } => 0,
        }
    }

    /// The message made, if one was.
    #[inline]
    pub fn message(&self) -> Option<&Message> {
        match self {
            Read::Bytes { message, .. } => message.as_ref(),
            Read::Torn { message } => Some(message),
        }
    }
}

/// What hear answers.
#[derive(Debug, PartialEq, Eq)]
#[must_use]
pub struct Heard {
    /// How far P moved: so many bytes more can be read.
    pub moved: u64,
    /// The state that the marks name now.
    pub state: State,
    /// The message made in answer, if one was.
    pub message: Option<Message>,
    /// The right to open the slot again, where this message has closed it ([`State::Closed`]).
    pub quiet: Option<Quiet>,
}

/// What close answers.
#[derive(Debug, PartialEq, Eq)]
#[must_use]
pub enum Closed {
    /// C was sent.
    InOrder {
        /// The message.
        message: Message,
        /// The right to open the slot again, where C had been heard: the slot is closed. Else the peer's C is still to come.
        quiet: Option<Quiet>,
    },
    /// Bytes were unread, so A was sent and no C; the slot stays open in [`State::PeerAbortWait`].
    Reset {
        /// The abort message.
        message: Message,
    },
}

impl Closed {
    /// The message made.
    pub fn message(&self) -> &Message {
        match self {
            Closed::InOrder { message, .. } | Closed::Reset { message } => message,
        }
    }

    /// The right to open the slot again, where it is closed.
    pub fn quiet(self) -> Option<Quiet> {
        match self {
            Closed::InOrder { quiet, .. } => quiet,
            Closed::Reset { .. } => None,
        }
    }
}

/// The health of a link, by its answer times in milliseconds.
#[derive(Clone, Copy, Debug, PartialEq)]
pub enum Health {
    /// No sample yet.
    Unheard,
    /// The mean.
    Steady(f64),
    /// The latest sample was late: the mean, and the worst.
    Late(f64, f64),
}

impl fmt::Display for Health {
    fn fmt(&self, f: &mut fmt::Formatter<'_>) -> fmt::Result {
        match self {
            Health::Unheard => write!(f, "unheard"),
            Health::Steady(mean) => write!(f, "steady, {mean:.1} ms"),
            Health::Late(mean, worst) => write!(f, "late, {mean:.1} ms, at worst {worst:.0} ms"),
        }
    }
}
