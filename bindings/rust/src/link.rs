//! Link messages: their kinds and fields, and what link change, link message and link send answer.

use crate::border::{said, RawFields, RawLinkAnswer, RawTakenUp};
use crate::Message;
use alloc::vec::Vec;
use core::fmt;

/// The named kinds of link messages (RFC 7609, Appendix A.3), by their first byte.
///
/// A kind's fields stand in rows, in this order; each row is a number of so many bits:
///
/// | kind | rows |
/// |---|---|
/// | [`ConfirmLink`](LinkKind::ConfirmLink) | R, mac 48, gid1 64, gid2 64, qp 24, link 8, user 32, max 8 |
/// | [`AddLink`](LinkKind::AddLink) | R, Z, reason 4, mac 48, gid1 64, gid2 64, qp 24, link 8, mtu 4, psn 24 |
/// | [`AddLinkContinuation`](LinkKind::AddLinkContinuation) | R, link 8, num 8, ref1 32, key1 32, addr1 64, ref2 32, key2 32, addr2 64 |
/// | [`DeleteLink`](LinkKind::DeleteLink) | R, A, O, link 8, reason 32 |
/// | [`ConfirmRkey`](LinkKind::ConfirmRkey) | R, Z, C, num 8, key 32, addr 64, link1 8, key1 32, addr1 64, link2 8, key2 32, addr2 64 |
/// | [`TestLink`](LinkKind::TestLink) | R, user1 64, user2 64 |
/// | [`ConfirmRkeyContinuation`](LinkKind::ConfirmRkeyContinuation) | R, Z, num 8, then link 8, key 32 and addr 64 three times |
/// | [`DeleteRkey`](LinkKind::DeleteRkey) | R, Z, count 8, mask 8, key1 to key8 32 |
///
/// A capital letter is one bit. The 16 bytes of a GID and of TEST LINK's user data are two rows, the high half first.
#[derive(Clone, Copy, Debug, PartialEq, Eq, Hash, PartialOrd, Ord)]
#[repr(u8)]
pub enum LinkKind {
    /// CONFIRM LINK: the first message over a link, which shows that it works.
    ConfirmLink = 1,
    /// ADD LINK: brings a further link into the group.
    AddLink = 2,
    /// ADD LINK CONTINUATION: the memory keys for the new link.
    AddLinkContinuation = 3,
    /// DELETE LINK: takes a link, or with A the whole group, down.
    DeleteLink = 4,
    /// CONFIRM RKEY: a new memory key, on every link.
    ConfirmRkey = 6,
    /// TEST LINK: is the link alive?
    TestLink = 7,
    /// CONFIRM RKEY CONTINUATION: the keys that did not fit.
    ConfirmRkeyContinuation = 8,
    /// DELETE RKEY: memory keys that are no longer in use.
    DeleteRkey = 9,
}

impl LinkKind {
    /// Every kind, by its first byte.
    pub const ALL: [LinkKind; 8] = [
        LinkKind::ConfirmLink,
        LinkKind::AddLink,
        LinkKind::AddLinkContinuation,
        LinkKind::DeleteLink,
        LinkKind::ConfirmRkey,
        LinkKind::TestLink,
        LinkKind::ConfirmRkeyContinuation,
        LinkKind::DeleteRkey,
    ];

    /// The message's first byte.
    pub const fn code(self) -> u8 {
        self as u8
    }

    /// The kind of a first byte; `None` where it is no named kind's.
    pub fn from_code(code: u8) -> Option<LinkKind> {
        LinkKind::ALL.into_iter().find(|kind| kind.code() == code)
    }

    /// RFC 7609's name.
    pub const fn name(self) -> &'static str {
        match self {
            LinkKind::ConfirmLink => "CONFIRM LINK",
            LinkKind::AddLink => "ADD LINK",
            LinkKind::AddLinkContinuation => "ADD LINK CONTINUATION",
            LinkKind::DeleteLink => "DELETE LINK",
            LinkKind::ConfirmRkey => "CONFIRM RKEY",
            LinkKind::TestLink => "TEST LINK",
            LinkKind::ConfirmRkeyContinuation => "CONFIRM RKEY CONTINUATION",
            LinkKind::DeleteRkey => "DELETE RKEY",
        }
    }

    /// Its rows, in their order.
    pub const fn rows(self) -> &'static [Row] {
        use Row::*;
        match self {
            LinkKind::ConfirmLink => &[R, Mac, Gid1, Gid2, Qp, Link, User, Max],
            LinkKind::AddLink => &[R, Z, Reason, Mac, Gid1, Gid2, Qp, Link, Mtu, Psn],
            LinkKind::AddLinkContinuation => &[R, Link, Num, Ref1, Key1, Addr1, Ref2, Key2, Addr2],
            LinkKind::DeleteLink => &[R, A, O, Link, Reason],
            LinkKind::ConfirmRkey => &[R, Z, C, Num, Key, Addr, Link1, Key1, Addr1, Link2, Key2, Addr2],
            LinkKind::TestLink => &[R, User1, User2],
            LinkKind::ConfirmRkeyContinuation => &[R, Z, Num, Link1, Key1, Addr1, Link2, Key2, Addr2, Link3, Key3, Addr3],
            LinkKind::DeleteRkey => &[R, Z, Count, Mask, Key1, Key2, Key3, Key4, Key5, Key6, Key7, Key8],
        }
    }
}

impl fmt::Display for LinkKind {
    fn fmt(&self, f: &mut fmt::Formatter<'_>) -> fmt::Result {
        f.write_str(self.name())
    }
}

macro_rules! rows {
    ($($(#[doc = $doc:literal])+ $row:ident $name:literal)+) => {
        /// The fields of link messages. [`LinkKind::rows`] says which a kind has.
        #[derive(Clone, Copy, Debug, PartialEq, Eq, Hash)]
        pub enum Row {
            $($(#[doc = $doc])+ $row),+
        }

        impl Row {
            /// Its name.
            pub const fn name(self) -> &'static str {
                match self {
                    $(Row::$row => $name),+
                }
            }
        }
    };
}

rows! {
    /// 0 a request, 1 a reply.
    R "R"
    /// Negative or rejected.
    Z "Z"
    /// DELETE LINK: the whole group.
    A "A"
    /// DELETE LINK: in order, not at once.
    O "O"
    /// CONFIRM RKEY: to be tried again (configuration retry).
    C "C"
    /// ADD LINK: why it was rejected. DELETE LINK: why the link goes.
    Reason "reason"
    /// The sender's MAC.
    Mac "mac"
    /// The high half of the sender's GID.
    Gid1 "gid1"
    /// The low half of it.
    Gid2 "gid2"
    /// The sender's queue pair.
    Qp "qp"
    /// The link's number.
    Link "link"
    /// The link user ID.
    User "user"
    /// How many links the sender takes at most.
    Max "max"
    /// The code of the queue pair's MTU.
    Mtu "mtu"
    /// The first packet sequence number.
    Psn "psn"
    /// How many keys there are: on other links, or of the group.
    Num "num"
    /// The key that stands for the first memory on an old link.
    Ref1 "ref1"
    /// The same of the second.
    Ref2 "ref2"
    /// The memory's key on the link that carries the message.
    Key "key"
    /// The memory's address there.
    Addr "addr"
    /// The first key's link.
    Link1 "link1"
    /// The second key's link.
    Link2 "link2"
    /// The third key's link.
    Link3 "link3"
    /// The first key.
    Key1 "key1"
    /// The second key.
    Key2 "key2"
    /// The third key.
    Key3 "key3"
    /// The fourth key.
    Key4 "key4"
    /// The fifth key.
    Key5 "key5"
    /// The sixth key.
    Key6 "key6"
    /// The seventh key.
    Key7 "key7"
    /// The eighth key.
    Key8 "key8"
    /// The first key's address.
    Addr1 "addr1"
    /// The second key's address.
    Addr2 "addr2"
    /// The third key's address.
    Addr3 "addr3"
    /// DELETE RKEY: how many keys.
    Count "count"
    /// DELETE RKEY: which of them could not be deleted.
    Mask "mask"
    /// The high half of TEST LINK's user data.
    User1 "user1"
    /// The low half of it.
    User2 "user2"
}

impl fmt::Display for Row {
    fn fmt(&self, f: &mut fmt::Formatter<'_>) -> fmt::Result {
        f.write_str(self.name())
    }
}

/// The fields of a link message: its kind, and a value for each of the kind's rows.
///
/// [`Group::link_message`](crate::Group::link_message) answers them and [`Group::link_send`](crate::Group::link_send) is given them. There
/// a value is cut to its row's bits.
///
/// ```
/// use fordlinnet::{LinkFields, LinkKind, Row};
///
/// let fields = LinkFields::new(LinkKind::DeleteLink).with(Row::O, 1).with(Row::Link, 2).with(Row::Reason, 0x0002_0000);
/// assert_eq!(fields, LinkFields::of(LinkKind::DeleteLink, &[0, 0, 1, 2, 131_072]));
/// assert_eq!((fields.get(Row::Link), fields.get(Row::Mtu)), (Some(2), None));
/// assert!(!fields.is_reply());
/// assert_eq!(fields.to_string(), "DELETE LINK: R 0, A 0, O 1, link 2, reason 131072");
/// ```
#[derive(Clone, Copy, Debug, PartialEq, Eq, Hash)]
pub struct LinkFields {
    kind: LinkKind,
    values: [u64; 12],
}

impl LinkFields {
    /// A request of a kind, with every value 0.
    pub const fn new(kind: LinkKind) -> LinkFields {
        LinkFields { kind, values: [0; 12] }
    }

    /// A kind and its values in the order of its rows; missing ones are 0, surplus ones ignored.
    pub fn of(kind: LinkKind, values: &[u64]) -> LinkFields {
        let mut fields = LinkFields::new(kind);
        for (to, from) in fields.values[..kind.rows().len()].iter_mut().zip(values) {
            *to = *from;
        }
        fields
    }

    /// The kind.
    pub const fn kind(&self) -> LinkKind {
        self.kind
    }

    /// The values, in the order of the kind's rows.
    pub fn values(&self) -> &[u64] {
        &self.values[..self.kind.rows().len()]
    }

    /// A row's value; `None` where the kind has no such row.
    pub fn get(&self, row: Row) -> Option<u64> {
        self.place(row).map(|place| self.values[place])
    }

    /// The same with one value set.
    ///
    /// # Panics
    ///
    /// Where the kind has no such row.
    #[must_use]
    pub fn with(mut self, row: Row, value: u64) -> LinkFields {
        let Some(place) = self.place(row) else { panic!("{} has no {row}", self.kind) };
        self.values[place] = value;
        self
    }

    /// Whether R is 1.
    pub fn is_reply(&self) -> bool {
        self.values[0] == 1
    }

    fn place(&self, row: Row) -> Option<usize> {
        self.kind.rows().iter().position(|of| *of == row)
    }

    pub(crate) fn raw(&self) -> RawFields {
        RawFields { kind: self.kind.code(), values: self.values }
    }

    /// The fields that the proved side gave; kind 0 is none.
    fn given(raw: &RawFields) -> Option<LinkFields> {
        LinkKind::from_code(raw.kind).map(|kind| LinkFields { kind, values: raw.values })
    }
}

impl fmt::Display for LinkFields {
    fn fmt(&self, f: &mut fmt::Formatter<'_>) -> fmt::Result {
        write!(f, "{}", self.kind)?;
        for (place, (row, value)) in self.kind.rows().iter().zip(self.values()).enumerate() {
            write!(f, "{} {row} {value}", if place == 0 { ":" } else { "," })?;
        }
        Ok(())
    }
}

/// What becomes of a link message.
#[derive(Clone, Copy, Debug, PartialEq, Eq, Hash)]
#[repr(u32)]
pub enum Fate {
    /// It was due, or there was nothing against it.
    Taken = 1,
    /// It waits until the exchange that runs has ended.
    Queued = 2,
    /// It is answered with a negative reply.
    Denied = 3,
    /// Nothing.
    Dropped = 4,
}

impl Fate {
    /// Every fate, by its number.
    pub const ALL: [Fate; 4] = [Fate::Taken, Fate::Queued, Fate::Denied, Fate::Dropped];

    /// The fate that the proved side gave; it gives no other number where it names one.
    fn given(number: u32) -> Fate {
        Fate::ALL.into_iter().find(|fate| *fate as u32 == number).expect("a fate's number")
    }
}

impl fmt::Display for Fate {
    fn fmt(&self, f: &mut fmt::Formatter<'_>) -> fmt::Result {
        f.write_str(match self {
            Fate::Taken => "taken",
            Fate::Queued => "queued",
            Fate::Denied => "denied",
            Fate::Dropped => "dropped",
        })
    }
}

/// A message taken up from the queue, because the exchange that it waited for has ended.
///
/// Taken is what a server is to follow: the client's ADD LINK or DELETE LINK request, by its own with
/// [`Group::link_send`](crate::Group::link_send).
#[derive(Clone, Copy, Debug, PartialEq, Eq, Hash)]
pub struct TakenUp {
    /// The link that it was heard on.
    pub link: u8,
    /// Its fields; `None` where the queue held bytes of no named kind.
    pub fields: Option<LinkFields>,
    /// Taken or dropped.
    pub fate: Fate,
}

/// What link change answers.
#[derive(Clone, Debug, PartialEq, Eq, Hash)]
pub struct LinkChanged {
    /// A message with F for each connection that moved, in slot order, to go out on the lowest active link
    /// ([`Links::lowest_active`](crate::Links::lowest_active)); [`Group`](crate::Group) says when.
    pub moved: Vec<Message>,
}

/// What link message answers.
#[derive(Clone, Debug, PartialEq, Eq, Hash)]
#[must_use]
pub struct LinkHeard {
    /// The message's fields; `None` for an optional message, which is dropped.
    pub fields: Option<LinkFields>,
    /// What becomes of it.
    pub fate: Fate,
    /// The reply, where one is made. It goes out on the link that the message came from.
    pub reply: Option<[u8; 44]>,
    /// The message taken up, if one was.
    pub taken_up: Option<TakenUp>,
    /// As [`LinkChanged::moved`].
    pub moved: Vec<Message>,
}

/// What link send answers.
#[derive(Clone, Debug, PartialEq, Eq, Hash)]
#[must_use]
pub struct LinkSent {
    /// The bytes, to go out on the link.
    pub message: [u8; 44],
    /// The message taken up, if one was.
    pub taken_up: Option<TakenUp>,
    /// Always empty: a message that we send takes no link down, or all of them.
    pub moved: Vec<Message>,
}

impl LinkChanged {
    pub(crate) fn given(answer: &RawLinkAnswer, out: &[u8]) -> LinkChanged {
        debug_assert_eq!(answer.said, said::LINK_CHANGED);
        LinkChanged { moved: moved(answer, out) }
    }
}

impl LinkHeard {
    pub(crate) fn given(answer: &RawLinkAnswer, out: &[u8]) -> LinkHeard {
        debug_assert_eq!(answer.said, said::LINK_HEARD);
        LinkHeard {
            fields: LinkFields::given(&answer.fields),
            fate: Fate::given(answer.fate),
            reply: answer.made.then_some(answer.message),
            taken_up: taken_up(&answer.up),
            moved: moved(answer, out),
        }
    }
}

impl LinkSent {
    pub(crate) fn given(answer: &RawLinkAnswer, out: &[u8]) -> LinkSent {
        debug_assert!(answer.said == said::LINK_SENT && answer.made);
        LinkSent { message: answer.message, taken_up: taken_up(&answer.up), moved: moved(answer, out) }
    }
}

/// The messages with F at the front of the buffer that the call was lent.
#[inline]
fn moved(answer: &RawLinkAnswer, out: &[u8]) -> Vec<Message> {
    if answer.count == 0 {
        return Vec::new();
    }
    let messages = out.chunks_exact(Message::SIZE).take(answer.count as usize);
    messages.map(|bytes| Message::made(bytes.try_into().expect("so many bytes"))).collect()
}

fn taken_up(up: &RawTakenUp) -> Option<TakenUp> {
    up.some.then(|| TakenUp { link: up.link, fields: LinkFields::given(&up.fields), fate: Fate::given(up.fate) })
}
