//! When the desk says no.

use core::error::Error;
use core::fmt;

/// Why a call was refused: one number of the list in document 01 and its change requests, in the list's words.
///
/// A refused call has changed no table, no memory and no out buffer.
///
/// ```
/// use fordlinnet::Refusal;
///
/// assert_eq!(Refusal::State.number(), 7);
/// assert_eq!(Refusal::from_number(7), Some(Refusal::State));
/// assert_eq!(Refusal::State.to_string(), "refusal 7: the state forbids");
/// ```
#[derive(Clone, Copy, Debug, PartialEq, Eq, Hash, PartialOrd, Ord)]
#[non_exhaustive]
#[repr(u8)]
pub enum Refusal {
    /// S, N, the memory's length or the table's is wrong; the calls on links: or the buffer has less than 44 x S bytes.
    Sizes = 1,
    /// The slot is outside 1 to S, or closed (for open: outside only).
    Slot = 2,
    /// The open record is not coherent.
    Incoherent = 3,
    /// Not 44 bytes, or their first or second byte is wrong.
    Malformed = 4,
    /// No open slot has the token, or it is 0.
    Token = 5,
    /// The connection's or named link is down (not for 01 on the link being added).
    LinkDown = 6,
    /// The state forbids the call.
    State = 7,
    /// A cursor rule of hear is broken.
    CursorRule = 8,
    /// A placed byte is outside the data or not free.
    Placing = 9,
    /// Open: the slot is already open.
    AlreadyOpen = 10,
    /// Open: the own token is held by another open slot.
    TokenHeld = 11,
    /// Open: a zero token, or the peer's element is out of range or out of reach.
    Opening = 12,
    /// The link number is outside 1 to 4.
    LinkNumber = 13,
    /// A carried link number that is acted on is outside 1 to 4.
    CarriedLink = 14,
    /// A fifth link message to queue; or a link send that the exchange bars, or a reply unasked.
    Barred = 15,
    /// The message heard, without F, does not carry the next sequence number.
    Sequence = 16,
    /// The answer time is no sample: above 60,000 milliseconds.
    Sample = 17,
    /// The pool: not 1, 2, 4, 8, 16, 32 or 64 units.
    NoSize = 18,
    /// The pool: no block of that size is free.
    NoBlock = 19,
    /// The pool: not given out in that place and size.
    NotGivenOut = 20,
    /// The pool: the books are not coherent, with blocks that overlap, leave the pool, have another size or start off a multiple of theirs.
    /// In the list it is number 3, as an incoherent record is.
    Books,
}

impl Refusal {
    /// Every refusal of the list, by its number; [`Refusal::Books`] is number 3 too.
    pub const ALL: [Refusal; 20] = [
        Refusal::Sizes,
        Refusal::Slot,
        Refusal::Incoherent,
        Refusal::Malformed,
        Refusal::Token,
        Refusal::LinkDown,
        Refusal::State,
        Refusal::CursorRule,
        Refusal::Placing,
        Refusal::AlreadyOpen,
        Refusal::TokenHeld,
        Refusal::Opening,
        Refusal::LinkNumber,
        Refusal::CarriedLink,
        Refusal::Barred,
        Refusal::Sequence,
        Refusal::Sample,
        Refusal::NoSize,
        Refusal::NoBlock,
        Refusal::NotGivenOut,
    ];

    /// Its number in the list.
    pub const fn number(self) -> u8 {
        match self {
            Refusal::Books => Refusal::Incoherent as u8,
            _ => self as u8,
        }
    }

    /// The refusal of a number, as a group's call gives it; `None` for a number that the list does not have.
    pub fn from_number(number: u8) -> Option<Refusal> {
        Refusal::ALL.into_iter().find(|refusal| refusal.number() == number)
    }

    /// The list's words.
    pub const fn words(self) -> &'static str {
        match self {
            Refusal::Sizes => "S, N, the memory's length or the table's is wrong, or a call on links is lent a short buffer",
            Refusal::Slot => "the slot is outside 1 to S, or closed",
            Refusal::Incoherent => "the open record is not coherent",
            Refusal::Malformed => "not 44 bytes, or their first or second byte is wrong",
            Refusal::Token => "no open slot has the token, or it is 0",
            Refusal::LinkDown => "the connection's or named link is down (not for 01 on the link being added)",
            Refusal::State => "the state forbids",
            Refusal::CursorRule => "a cursor rule of hear is broken",
            Refusal::Placing => "a placed byte is outside the data or not free",
            Refusal::AlreadyOpen => "the slot is already open",
            Refusal::TokenHeld => "the own token is held by another open slot",
            Refusal::Opening => "a zero token, or the peer's element is out of range",
            Refusal::LinkNumber => "the link number is outside 1 to 4",
            Refusal::CarriedLink => "a carried link number acted on is outside 1 to 4",
            Refusal::Barred => "a fifth link message to queue, or a link send that is barred or replies unasked",
            Refusal::Sequence => "the sequence number is not the next",
            Refusal::Sample => "the answer time is no sample",
            Refusal::NoSize => "not 1, 2, 4, 8, 16, 32 or 64 units",
            Refusal::NoBlock => "no block of that size is free",
            Refusal::NotGivenOut => "not given out in that place and size",
            Refusal::Books => "the pool's books are not coherent",
        }
    }
}

impl fmt::Display for Refusal {
    fn fmt(&self, f: &mut fmt::Formatter<'_>) -> fmt::Result {
        write!(f, "refusal {}: {}", self.number(), self.words())
    }
}

impl Error for Refusal {}

/// The refusal that the proved side gave; it gives no number that the list does not have.
pub(crate) fn given(number: u32) -> Refusal {
    u8::try_from(number).ok().and_then(Refusal::from_number).expect("a number of the list")
}
