//! Setting up a connection (2026-05): our settings, the message due and the
//! peer's bytes in; the message to send, the arguments for an open, or a decline
//! with its diagnosis out. It keeps nothing.

use crate::clc::{Clc, Decline, Ends, Prefix, Proposal, MAX_PREFIXES};
use crate::smcr::{Opening, LINKS, MAX_SIZE};

/// The bytes of codes 0 to 5; the others mean nothing. "Actual buffer size value
/// is (2^(x + 4)) * 1K. [...] Largest size supported by this architecture is
/// 512K."
pub const CODED: [u32; 6] = [16_384, 32_768, 65_536, 131_072, 262_144, 524_288];

/// "The element size code of four bits is turned to bytes".
pub fn bytes_of_code(code: u8) -> Option<u32> {
    CODED.get(usize::from(code)).copied()
}

/// "and back".
pub fn code_of_bytes(size: u32) -> Option<u8> {
    let place = CODED.iter().position(|&bytes| bytes == size)?;
    Some(place as u8)
}

/// "A code from the peer that means more than 65,540 bytes, or nothing, is
/// declined with diagnosis 1, and nothing else is."
pub const DIAGNOSIS: u32 = 1;

/// Our settings.
#[derive(Clone, Copy, Debug, Default, PartialEq, Eq)]
pub struct Settings {
    /// N, our element size.
    pub size: u32,
    pub peer_id: [u8; 8],
    pub gid: [u8; 16],
    pub mac: [u8; 6],
    pub mask: [u8; 4],
    pub mask_length: u8,
    pub count: u8,
    pub prefixes: [Prefix; MAX_PREFIXES],
    pub first_contact: bool,
    pub qp: u32,
    pub mtu: u8,
    pub psn: u32,
    pub key: u32,
    pub base: u64,
    pub slot: u8,
    pub own_token: u32,
    pub link: u8,
    pub peer_keys: [u32; LINKS],
    pub peer_bases: [u64; LINKS],
}

/// The message due; `None` is the client's start.
#[derive(Clone, Copy, Debug, PartialEq, Eq)]
pub enum Due {
    None,
    Proposal,
    Accept,
    Confirm,
}

impl Due {
    pub const ALL: [Due; 4] = [Due::None, Due::Proposal, Due::Accept, Due::Confirm];

    pub fn name(self) -> &'static str {
        match self {
            Due::None => "none",
            Due::Proposal => "Proposal",
            Due::Accept => "Accept",
            Due::Confirm => "Confirm",
        }
    }
}

/// What the call answers.
#[derive(Clone, Debug, Default, PartialEq, Eq)]
pub struct SetUp {
    pub message: Option<Vec<u8>>,
    pub open: Option<Opening>,
    pub diagnosis: Option<u32>,
}

/// The call. Its own refusals are 1, 2 and 3, in this order.
pub fn set_up(settings: &Settings, due: Due, bytes: &[u8]) -> Result<SetUp, u8> {
    let code = code_of_bytes(settings.size).ok_or(1u8)?;
    if due == Due::None {
        return Ok(sends(proposal(settings)));
    }
    let heard = Clc::read(bytes).map_err(|_| 2u8)?;
    match (due, &heard) {
        (_, Clc::Decline(decline)) => Ok(SetUp {
            diagnosis: Some(decline.diagnosis),
            ..SetUp::default()
        }),
        (Due::Proposal, Clc::Proposal(_)) => Ok(sends(Clc::Accept {
            first_contact: settings.first_contact,
            ends: ends(settings, code),
        })),
        (Due::Accept, Clc::Accept { ends: peer, .. }) => Ok(match open(settings, peer) {
            Some(open) => SetUp {
                open: Some(open),
                ..sends(Clc::Confirm(ends(settings, code)))
            },
            None => declines(settings),
        }),
        (Due::Confirm, Clc::Confirm(peer)) => Ok(match open(settings, peer) {
            Some(open) => SetUp {
                open: Some(open),
                ..SetUp::default()
            },
            None => declines(settings),
        }),
        _ => Err(3),
    }
}

fn sends(message: Clc) -> SetUp {
    SetUp {
        message: message.write(),
        ..SetUp::default()
    }
}

/// "Proposal: with count 0 the mask and its length, else both zero and the first
/// min(count, 8) prefixes."
fn proposal(settings: &Settings) -> Clc {
    let count = usize::from(settings.count).min(MAX_PREFIXES);
    let ipv4 = count == 0;
    Clc::Proposal(Proposal {
        version: 1,
        peer_id: settings.peer_id,
        gid: settings.gid,
        mac: settings.mac,
        offset: 0,
        mask: if ipv4 { settings.mask } else { [0; 4] },
        mask_length: if ipv4 { settings.mask_length } else { 0 },
        prefixes: settings.prefixes[..count].to_vec(),
    })
}

/// What our Accept or Confirm says; QP number, MTU and PSN are cut to their bits.
fn ends(settings: &Settings, code: u8) -> Ends {
    Ends {
        version: 1,
        peer_id: settings.peer_id,
        gid: settings.gid,
        mac: settings.mac,
        qp: settings.qp % (1 << 24),
        key: settings.key,
        index: settings.slot,
        token: settings.own_token,
        code,
        mtu: settings.mtu % 16,
        base: settings.base,
        psn: settings.psn % (1 << 24),
    }
}

/// The arguments for an open, unless the peer's code is to be declined. "The
/// connection's link decides": key and base heard stand at our link, those of
/// the settings at the others.
fn open(settings: &Settings, peer: &Ends) -> Option<Opening> {
    let peer_size = bytes_of_code(peer.code).filter(|&bytes| i64::from(bytes) <= MAX_SIZE)?;
    let mut keys = settings.peer_keys;
    let mut bases = settings.peer_bases;
    for link in 1..=LINKS {
        if link == usize::from(settings.link) {
            keys[link - 1] = peer.key;
            bases[link - 1] = peer.base;
        }
    }
    Some(Opening {
        slot: u32::from(settings.slot),
        own_token: settings.own_token,
        peer_token: peer.token,
        link: settings.link,
        peer_size,
        index: u32::from(peer.index),
        keys,
        bases,
    })
}

/// "Decline: S off, our peer ID, diagnosis 1."
fn declines(settings: &Settings) -> SetUp {
    let decline = Clc::Decline(Decline {
        version: 1,
        out_of_sync: false,
        peer_id: settings.peer_id,
        diagnosis: DIAGNOSIS,
    });
    SetUp {
        diagnosis: Some(DIAGNOSIS),
        ..sends(decline)
    }
}
