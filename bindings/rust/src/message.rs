//! The 44-byte message.

use crate::{Cursor, Refusal};
use core::fmt;

/// A CDC message: 44 bytes (RFC 7609, Appendix A.4).
///
/// Calls make messages, to be carried to the peer and heard there by [`Group::hear`](crate::Group::hear). Hear takes any bytes and refuses
/// what is none; this type is for the messages that the core made, and for looking at those that arrive.
///
/// ```
/// use fordlinnet::{Cursor, Message};
///
/// let mut bytes = [0; 44];
/// bytes[..8].copy_from_slice(&[0xFE, 0x2C, 0, 1, 1, 2, 3, 4]);
/// bytes[14..16].copy_from_slice(&[0x03, 0xEC]);
/// bytes[23] = 4;
/// let message = Message::try_from(&bytes[..])?;
/// assert_eq!((message.sequence(), message.token()), (1, 0x01020304));
/// assert_eq!(message.producer(), Cursor { offset: 1004, wrap: 0 });
/// assert!(!message.flags().blocked);
/// # Ok::<(), fordlinnet::Refusal>(())
/// ```
#[derive(Clone, Copy, PartialEq, Eq, Hash)]
#[repr(transparent)]
pub struct Message([u8; 44]);

/// The flags of a message: bytes 24 and 25, by RFC 7609's letters.
#[derive(Clone, Copy, Debug, Default, PartialEq, Eq, Hash)]
pub struct Flags {
    /// B, the writer is blocked.
    pub blocked: bool,
    /// P, urgent data pending.
    pub pending: bool,
    /// U, urgent data present.
    pub urgent: bool,
    /// R, a cursor update is requested.
    pub request: bool,
    /// F, failover: the connection has moved to the link that carries this, and the sequence number is that of the last message.
    pub failover: bool,
    /// D, done writing.
    pub done: bool,
    /// C, closed.
    pub closed: bool,
    /// A, abort.
    pub abort: bool,
}

impl Message {
    /// How many bytes a message has.
    pub const SIZE: usize = 44;

    #[inline]
    pub(crate) const fn made(bytes: [u8; 44]) -> Message {
        Message(bytes)
    }

    /// Whether hearing these bytes may close a slot: C or A is set.
    #[inline]
    pub(crate) fn may_close(bytes: &[u8]) -> bool {
        matches!(bytes.get(25), Some(flags) if flags & 0x60 != 0)
    }

    /// The bytes, as they go on the wire.
    #[inline]
    pub const fn as_bytes(&self) -> &[u8; 44] {
        &self.0
    }

    /// The sequence number.
    pub const fn sequence(&self) -> u16 {
        self.two(2)
    }

    /// The alert token of the receiver's connection.
    pub const fn token(&self) -> u32 {
        self.four(4)
    }

    /// The sender's producer cursor, in the receiver's element.
    pub const fn producer(&self) -> Cursor {
        Cursor { offset: self.four(12), wrap: self.two(10) }
    }

    /// The sender's consumer cursor, in its own element.
    pub const fn consumer(&self) -> Cursor {
        Cursor { offset: self.four(20), wrap: self.two(18) }
    }

    /// The flags.
    pub const fn flags(&self) -> Flags {
        let (a, b) = (self.0[24], self.0[25]);
        Flags {
            blocked: a & 0x80 != 0,
            pending: a & 0x40 != 0,
            urgent: a & 0x20 != 0,
            request: a & 0x10 != 0,
            failover: a & 0x08 != 0,
            done: b & 0x80 != 0,
            closed: b & 0x40 != 0,
            abort: b & 0x20 != 0,
        }
    }

    const fn two(&self, at: usize) -> u16 {
        u16::from_be_bytes([self.0[at], self.0[at + 1]])
    }

    const fn four(&self, at: usize) -> u32 {
        u32::from_be_bytes([self.0[at], self.0[at + 1], self.0[at + 2], self.0[at + 3]])
    }
}

/// [`Refusal::Malformed`] where the bytes are no CDC message.
impl TryFrom<&[u8]> for Message {
    type Error = Refusal;

    fn try_from(bytes: &[u8]) -> Result<Message, Refusal> {
        let bytes: [u8; 44] = bytes.try_into().map_err(|_| Refusal::Malformed)?;
        if bytes[0] == 0xFE && bytes[1] == 0x2C {
            Ok(Message(bytes))
        } else {
            Err(Refusal::Malformed)
        }
    }
}

impl AsRef<[u8]> for Message {
    fn as_ref(&self) -> &[u8] {
        &self.0
    }
}

impl From<Message> for [u8; 44] {
    #[inline]
    fn from(message: Message) -> [u8; 44] {
        message.0
    }
}

impl fmt::Debug for Message {
    fn fmt(&self, f: &mut fmt::Formatter<'_>) -> fmt::Result {
        f.debug_struct("Message")
            .field("sequence", &self.sequence())
            .field("token", &self.token())
            .field("producer", &self.producer())
            .field("consumer", &self.consumer())
            .field("flags", &self.flags())
            .finish()
    }
}
