//! Setting up a connection over TCP.

use crate::border::{self, said, RawSettings};
use crate::{Opening, RToken, Remote};
use alloc::vec::Vec;
use core::error::Error;
use core::fmt;

/// A prefix of an interface's address, and its length.
#[derive(Clone, Copy, Debug, Default, PartialEq, Eq, Hash)]
pub struct Prefix {
    /// The prefix.
    pub prefix: [u8; 16],
    /// Its bits.
    pub length: u8,
}

/// Our settings: what our messages carry, and what our open will be given.
#[derive(Clone, Copy, Debug, Default, PartialEq, Eq, Hash)]
pub struct Settings {
    /// N, our element size.
    pub size: u32,
    /// Our peer ID.
    pub peer_id: [u8; 8],
    /// Our GID.
    pub gid: [u8; 16],
    /// Our MAC.
    pub mac: [u8; 6],
    /// The subnet mask.
    pub mask: [u8; 4],
    /// Its significant bits.
    pub mask_length: u8,
    /// How many prefixes.
    pub prefix_count: u8,
    /// The prefixes.
    pub prefixes: [Prefix; 8],
    /// The server's first contact with this peer.
    pub first_contact: bool,
    /// Our queue pair.
    pub qp: u32,
    /// Its MTU.
    pub mtu: u8,
    /// Its initial packet sequence number.
    pub psn: u32,
    /// The key and the base of our memory.
    pub own_memory: RToken,
    /// Our slot, and the number of our element.
    pub slot: u8,
    /// Our alert token.
    pub own_token: u32,
    /// The link.
    pub link: u8,
    /// The peer's memory on the links; that on `link` is heard.
    pub peer_memory: [RToken; 4],
}

/// The message that is due.
#[derive(Clone, Copy, Debug, PartialEq, Eq, Hash)]
#[repr(u32)]
pub enum Due {
    /// The client's start: the bytes are not looked at.
    Nothing = 0,
    /// The client's Proposal, at the server.
    Proposal = 1,
    /// The server's Accept, at the client.
    Accept = 2,
    /// The client's Confirm, at the server.
    Confirm = 3,
}

/// What set-up answers.
#[derive(Clone, Debug, PartialEq, Eq)]
pub struct SetUp {
    /// The message to send; none where it is empty.
    pub message: Vec<u8>,
    /// Where a connection is to be opened: its slot, and what open is given.
    pub open: Option<(u32, Opening)>,
    /// The diagnosis of a decline, ours or the peer's.
    pub diagnosis: Option<u32>,
}

/// Why set-up refused; it has numbers of its own.
#[derive(Clone, Copy, Debug, PartialEq, Eq, Hash)]
#[repr(u8)]
pub enum SetUpRefusal {
    /// Our element size has no code.
    NoCode = 1,
    /// The bytes are no message of Appendix A.2.
    NoMessage = 2,
    /// A message that is not due, Decline aside.
    NotDue = 3,
}

impl SetUpRefusal {
    /// Its number.
    pub const fn number(self) -> u8 {
        self as u8
    }

    /// Its words.
    pub const fn words(self) -> &'static str {
        match self {
            SetUpRefusal::NoCode => "our element size has no code",
            SetUpRefusal::NoMessage => "the bytes are no message of A.2",
            SetUpRefusal::NotDue => "the message is not due",
        }
    }
}

impl fmt::Display for SetUpRefusal {
    fn fmt(&self, f: &mut fmt::Formatter<'_>) -> fmt::Result {
        write!(f, "set-up refusal {}: {}", self.number(), self.words())
    }
}

impl Error for SetUpRefusal {}

/// Answers the message to send, an open's arguments, a diagnosis: of our settings, the message due and the peer's bytes. It keeps nothing.
///
/// # Errors
///
/// Tested in this order: [`NoCode`](SetUpRefusal::NoCode), [`NoMessage`](SetUpRefusal::NoMessage), [`NotDue`](SetUpRefusal::NotDue).
///
/// ```
/// use fordlinnet::{set_up, Due, Settings};
///
/// let settings = |slot| Settings { size: 65_536, slot, own_token: slot.into(), link: 1, ..Settings::default() };
/// let (client, server) = (settings(1), settings(2));
/// let proposal = set_up(&client, Due::Nothing, &[])?;
/// let accept = set_up(&server, Due::Proposal, &proposal.message)?;
/// let confirm = set_up(&client, Due::Accept, &accept.message)?;
/// let done = set_up(&server, Due::Confirm, &confirm.message)?;
/// assert_eq!(confirm.open.map(|(slot, opening)| (slot, opening.peer)), Some((1, 2)));
/// assert_eq!(done.open.map(|(slot, opening)| (slot, opening.peer)), Some((2, 1)));
/// # Ok::<(), fordlinnet::SetUpRefusal>(())
/// ```
pub fn set_up(settings: &Settings, due: Due, bytes: &[u8]) -> Result<SetUp, SetUpRefusal> {
    let answer = answered(settings, due, bytes);
    #[cfg(all(feature = "std", feature = "trace"))]
    crate::beside::set_up(settings, due, bytes, &answer);
    answer
}

fn answered(settings: &Settings, due: Due, bytes: &[u8]) -> Result<SetUp, SetUpRefusal> {
    let answer = border::setup(&raw(settings), due as u32, bytes);
    if answer.said == said::REFUSED {
        return Err(match answer.refusal {
            1 => SetUpRefusal::NoCode,
            2 => SetUpRefusal::NoMessage,
            _ => SetUpRefusal::NotDue,
        });
    }
    let a = &answer.arguments;
    let rtokens = [(a.key1, a.base1), (a.key2, a.base2), (a.key3, a.base3), (a.key4, a.base4)].map(|(key, base)| RToken { key, base });
    let remote = Remote { size: a.size, index: a.index.into(), rtokens };
    let opening = Opening { own: a.own, peer: a.token, link: a.link, remote };
    Ok(SetUp {
        message: answer.message[..answer.count].to_vec(),
        open: answer.opens.then_some((a.slot.into(), opening)),
        diagnosis: answer.declined.then_some(answer.diagnosis),
    })
}

pub(crate) fn raw(settings: &Settings) -> RawSettings {
    let mut prefixes = [0; 136];
    for (to, from) in prefixes.chunks_exact_mut(17).zip(&settings.prefixes) {
        to[..16].copy_from_slice(&from.prefix);
        to[16] = from.length;
    }
    let [one, two, three, four] = settings.peer_memory;
    RawSettings {
        size: settings.size,
        peer: settings.peer_id,
        gid: settings.gid,
        mac: settings.mac,
        mask: settings.mask,
        masklen: settings.mask_length,
        count: settings.prefix_count,
        prefixes,
        first: settings.first_contact,
        qp: settings.qp,
        mtu: settings.mtu,
        psn: settings.psn,
        key: settings.own_memory.key,
        base: settings.own_memory.base,
        slot: settings.slot,
        own: settings.own_token,
        link: settings.link,
        key1: one.key,
        base1: one.base,
        key2: two.key,
        base2: two.base,
        key3: three.key,
        base3: three.base,
        key4: four.key,
        base4: four.base,
    }
}
