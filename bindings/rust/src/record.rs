//! The connection table's records and the links: plain data, laid out as the proved core has them.

use crate::State;

/// A cursor: an offset in an element, from 4 on, and a wrap number.
#[derive(Clone, Copy, Debug, Default, PartialEq, Eq, Hash)]
#[repr(C)]
pub struct Cursor {
    /// From 4 to N-1 where it is in range.
    pub offset: u32,
    /// Counted modulo 65,536.
    pub wrap: u16,
}

/// Who the connection is.
#[derive(Clone, Copy, Debug, Default, PartialEq, Eq, Hash)]
#[repr(C)]
pub struct Identity {
    /// The mark by which a slot is open or closed.
    pub opened: bool,
    /// Our alert token, by which hear finds the connection.
    pub own: u32,
    /// The peer's alert token, which every message carries.
    pub peer: u32,
    /// The connection's link, 1 to 4: open names it, and it changes where the connection moves.
    pub link: u8,
}

/// The peer's memory as one link reaches it: its key, and the address of its first byte.
#[derive(Clone, Copy, Debug, Default, PartialEq, Eq, Hash)]
#[repr(C)]
pub struct RToken {
    /// The 32-bit memory key.
    pub key: u32,
    /// The address of the memory's first byte.
    pub base: u64,
}

/// What is fixed at open about the peer's element.
#[derive(Clone, Copy, Debug, Default, PartialEq, Eq, Hash)]
#[repr(C)]
pub struct Remote {
    /// N', the bytes of the peer's element, its eye catcher included.
    pub size: u32,
    /// The number of the element in the peer's memory, from 1.
    pub index: u32,
    /// The peer's memory on each of the four links.
    pub rtokens: [RToken; 4],
}

/// An urgent place: whether one stands, and where. All zeros where none does.
#[derive(Clone, Copy, Debug, Default, PartialEq, Eq, Hash)]
#[repr(C)]
pub struct Urgent {
    /// Whether a place stands.
    pub standing: bool,
    /// One byte beyond the urgent bytes.
    pub place: Cursor,
}

/// What comes in, in our own element.
#[derive(Clone, Copy, Debug, Default, PartialEq, Eq, Hash)]
#[repr(C)]
pub struct Inbound {
    /// P, the peer's producer as last heard.
    pub producer: Cursor,
    /// C, our consumer.
    pub consumer: Cursor,
    /// T, the consumer last told to the peer.
    pub told: Cursor,
    /// The last sequence number heard.
    pub last: u16,
    /// B of the last message heard.
    pub blocked: bool,
    /// R of the last message heard.
    pub request: bool,
    /// The urgent place of the peer's sends.
    pub urgent: Urgent,
}

/// What goes out, in the peer's element.
#[derive(Clone, Copy, Debug, Default, PartialEq, Eq, Hash)]
#[repr(C)]
pub struct Outbound {
    /// Q, our producer.
    pub producer: Cursor,
    /// R, the peer's consumer as last heard.
    pub consumer: Cursor,
    /// The next sequence number.
    pub next: u16,
    /// Our present B.
    pub blocked: bool,
    /// The urgent place of our own sends.
    pub urgent: Urgent,
}

/// One side's close marks.
#[derive(Clone, Copy, Debug, Default, PartialEq, Eq, Hash)]
#[repr(C)]
pub struct Side {
    /// D, done writing.
    pub done: bool,
    /// C, closed.
    pub closed: bool,
}

/// The marks of a connection, which name its [`State`](crate::State).
#[derive(Clone, Copy, Debug, Default, PartialEq, Eq, Hash)]
#[repr(C)]
pub struct Marks {
    /// Those we have sent.
    pub sent: Side,
    /// Those we have heard.
    pub heard: Side,
    /// Ours came first: set with our first D or C if none was heard.
    pub first: bool,
    /// A sent.
    pub abort: bool,
}

impl Marks {
    /// The state that they name. Rows that cannot arise have the rule's state all the same.
    ///
    /// ```
    /// use fordlinnet::{Marks, Side, State};
    ///
    /// let heard = Side { done: true, closed: false };
    /// assert_eq!(Marks { heard, ..Marks::default() }.state(), State::AppCloseWait1);
    /// ```
    pub fn state(&self) -> State {
        let (ours, theirs) = (self.sent.done || self.sent.closed, self.heard.done || self.heard.closed);
        match (ours, theirs) {
            _ if self.abort => State::PeerAbortWait,
            (false, false) => State::Active,
            (true, false) => State::PeerCloseWait1,
            (false, true) => State::AppCloseWait1,
            (true, true) => match (self.sent.closed, self.heard.closed) {
                (true, true) => State::Closed,
                (true, false) => State::PeerCloseWait2,
                (false, true) => State::AppCloseWait2,
                (false, false) if self.first => State::PeerCloseWait2,
                (false, false) => State::AppCloseWait2,
            },
        }
    }
}

/// A connection's record, one for each slot of the table. Closed slots are all zeros, which is the default.
///
/// Any values may be lent to a call; one that is not coherent is refused ([`Refusal::Incoherent`](crate::Refusal::Incoherent)).
#[derive(Clone, Copy, Debug, Default, PartialEq, Eq, Hash)]
#[repr(C)]
pub struct Record {
    /// Who the connection is.
    pub id: Identity,
    /// What is fixed about the peer.
    pub remote: Remote,
    /// What comes in.
    pub inbound: Inbound,
    /// What goes out.
    pub outbound: Outbound,
    /// The close marks.
    pub marks: Marks,
}

/// What open is given for a connection. The slot is named beside it.
#[derive(Clone, Copy, Debug, Default, PartialEq, Eq, Hash)]
#[repr(C)]
pub struct Opening {
    /// Our alert token.
    pub own: u32,
    /// The peer's alert token.
    pub peer: u32,
    /// The connection's link, 1 to 4.
    pub link: u8,
    /// The peer's element.
    pub remote: Remote,
}

/// A link's gauge: how long TEST LINK was unanswered, in milliseconds.
#[derive(Clone, Copy, Debug, Default, PartialEq)]
#[repr(C)]
pub struct Gauge {
    /// The smoothed mean.
    pub mean: f64,
    /// The worst answer time.
    pub worst: f64,
    /// How many samples; eight stands for eight or more.
    pub count: u8,
    /// Whether the latest sample was late.
    pub late: bool,
}

/// The two ends of a group: the server decides which links there are.
// At the border it stands for a bool, whether we are the server.
#[derive(Clone, Copy, Debug, Default, PartialEq, Eq, Hash)]
#[repr(u8)]
pub enum Role {
    /// The end that began the first contact.
    #[default]
    Client = 0,
    /// The end that was asked.
    Server = 1,
}

/// The exchange of link messages that runs, at most one at a time; one that has ended is all zeros.
#[derive(Clone, Copy, Debug, Default, PartialEq, Eq, Hash)]
#[repr(C)]
pub struct Exchange {
    /// From 1 to 11 by what is due next; 0 where none runs.
    pub stage: u8,
    /// The link that it is run over.
    pub v: u8,
    /// The link that it names.
    pub w: u8,
}

/// The sorts of exchanges.
#[derive(Clone, Copy, Debug, PartialEq, Eq, Hash)]
pub enum Sort {
    /// Adds link w: ADD LINK, its continuations and CONFIRM LINK.
    Add,
    /// Deletes link w, at the server: DELETE LINK.
    Delete,
    /// Tells of memory keys, at the end that began it: CONFIRM RKEY and its continuations, or DELETE RKEY.
    Rkey,
}

impl Exchange {
    /// What sort of exchange runs; `None` where none does.
    ///
    /// ```
    /// use fordlinnet::{Exchange, Sort};
    ///
    /// assert_eq!(Exchange { stage: 2, v: 1, w: 3 }.sort(), Some(Sort::Add));
    /// assert_eq!(Exchange::default().sort(), None);
    /// ```
    pub const fn sort(&self) -> Option<Sort> {
        match self.stage {
            0 => None,
            1..=4 => Some(Sort::Add),
            5 => Some(Sort::Delete),
            _ => Some(Sort::Rkey),
        }
    }
}

/// A link message that waits in the queue, as it was heard.
#[derive(Clone, Copy, Debug, PartialEq, Eq, Hash)]
#[repr(C)]
pub struct Waiting {
    /// The link that it was heard on.
    pub link: u8,
    /// Its bytes.
    pub bytes: [u8; 44],
}

impl Default for Waiting {
    fn default() -> Waiting {
        Waiting { link: 0, bytes: [0; 44] }
    }
}

/// The link messages that wait for the exchange to end, at most four.
#[derive(Clone, Copy, Debug, Default, PartialEq, Eq, Hash)]
#[repr(C)]
pub struct Queue {
    /// How many; above 4 counts as 4.
    pub count: u8,
    /// The oldest first.
    pub places: [Waiting; 4],
}

impl Queue {
    /// Those that wait, the oldest first.
    pub fn waiting(&self) -> &[Waiting] {
        &self.places[..usize::from(self.count).min(4)]
    }
}

/// The four links, active or down, a gauge for each, and what link messages need: the role, the exchange and the queue.
///
/// The default is a fresh client's: all down, nothing heard, no exchange, nothing queued. A fresh server's is
/// `Links { role: Role::Server, ..Links::default() }`. Any values may be lent to a call.
#[derive(Clone, Copy, Debug, Default, PartialEq)]
#[repr(C)]
pub struct Links {
    /// Whether link k+1 is active.
    pub active: [bool; 4],
    /// Their gauges.
    pub gauges: [Gauge; 4],
    /// Our role, which no call changes.
    pub role: Role,
    /// The exchange that runs.
    pub exchange: Exchange,
    /// What waits until it ends.
    pub queue: Queue,
}

impl Links {
    /// The lowest-numbered active link; `None` where all are down. Connections whose link goes down move to it, and their messages with F
    /// go out on it.
    ///
    /// ```
    /// use fordlinnet::Links;
    ///
    /// let links = Links { active: [false, false, true, true], ..Links::default() };
    /// assert_eq!((links.lowest_active(), Links::default().lowest_active()), (Some(3), None));
    /// ```
    pub fn lowest_active(&self) -> Option<u8> {
        (1..=4).zip(self.active).find_map(|(link, active)| active.then_some(link))
    }
}
