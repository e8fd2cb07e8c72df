//! The pieces of a head and a body.

use crate::border::{self, GatherAnswer, RawPiece};
use crate::Message;

/// What a gather answers. Write the pieces, then carry the message to the peer. The pieces are those of the link that the connection had,
/// also where it has moved since.
#[derive(Clone, Copy, Debug, PartialEq, Eq)]
#[must_use]
pub struct Gathered<'a> {
    /// How many of the joined bytes were taken, from the first on.
    pub taken: usize,
    /// The message made, if one was.
    pub message: Option<Message>,
    head: &'a [u8],
    body: &'a [u8],
    answer: GatherAnswer,
}

/// Bytes for the card to write: a part of the head or of the body, never a copy, and where it goes.
#[derive(Clone, Copy, Debug, PartialEq, Eq)]
pub struct Piece<'a> {
    /// The peer's 32-bit memory key on the connection's link.
    pub key: u32,
    /// The address in the peer's memory.
    pub address: u64,
    /// The bytes.
    pub bytes: &'a [u8],
}

impl<'a> Gathered<'a> {
    #[inline]
    pub(crate) fn new(head: &'a [u8], body: &'a [u8], answer: GatherAnswer, message: Option<Message>) -> Gathered<'a> {
        Gathered { taken: answer.taken as usize, message, head, body, answer }
    }

    /// The pieces in their order, at most three, none empty.
    #[inline]
    pub fn pieces(&self) -> Pieces<'_, 'a> {
        Pieces { head: self.head, body: self.body, left: self.answer.pieces.iter() }
    }

    /// After the last piece: an empty one, where Q is now.
    pub fn last(&self) -> Piece<'a> {
        Piece { key: self.answer.last.key, address: self.answer.last.address, bytes: &[] }
    }
}

/// The pieces of a gather, one at a time.
#[derive(Clone, Debug)]
pub struct Pieces<'b, 'a> {
    head: &'a [u8],
    body: &'a [u8],
    left: core::slice::Iter<'b, RawPiece>,
}

impl<'a> Iterator for Pieces<'_, 'a> {
    type Item = Piece<'a>;

    #[inline]
    fn next(&mut self) -> Option<Piece<'a>> {
        let RawPiece { buffer, start, len, key, address } = *self.left.next()?;
        if len == 0 {
            return None;
        }
        let whole = if buffer == border::HEAD { self.head } else { self.body };
        Some(Piece { key, address, bytes: &whole[start as usize..][..len as usize] })
    }
}
