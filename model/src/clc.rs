//! The messages exchanged over TCP (Appendix A.2): Proposal, Accept, Confirm
//! and Decline, read and written byte by byte as Figures 26 to 30 have them.

use crate::smcr::EYE_CATCHER;

/// The prefixes of a Proposal are at most 8.
pub const MAX_PREFIXES: usize = 8;
/// A prefix and its length.
pub const PREFIX_BYTES: usize = 17;
/// The most bytes that a message can have: its length has 16 bits.
pub const MAX_BYTES: usize = 65_535;

/// An IPv6 prefix and its length.
#[derive(Clone, Copy, Debug, Default, PartialEq, Eq)]
pub struct Prefix {
    pub prefix: [u8; 16],
    pub length: u8,
}

#[derive(Clone, Debug, Default, PartialEq, Eq)]
pub struct Proposal {
    pub version: u8,
    pub peer_id: [u8; 8],
    pub gid: [u8; 16],
    pub mac: [u8; 6],
    /// The bytes of the area for future growth.
    pub offset: u16,
    pub mask: [u8; 4],
    pub mask_length: u8,
    pub prefixes: Vec<Prefix>,
}

/// What Accept and Confirm have in common.
#[derive(Clone, Copy, Debug, Default, PartialEq, Eq)]
pub struct Ends {
    pub version: u8,
    pub peer_id: [u8; 8],
    pub gid: [u8; 16],
    pub mac: [u8; 6],
    /// 24 bits.
    pub qp: u32,
    pub key: u32,
    pub index: u8,
    pub token: u32,
    /// 4 bits: the element size.
    pub code: u8,
    /// 4 bits.
    pub mtu: u8,
    pub base: u64,
    /// 24 bits.
    pub psn: u32,
}

#[derive(Clone, Copy, Debug, Default, PartialEq, Eq)]
pub struct Decline {
    pub version: u8,
    pub out_of_sync: bool,
    pub peer_id: [u8; 8],
    pub diagnosis: u32,
}

#[derive(Clone, Debug, PartialEq, Eq)]
pub enum Clc {
    Proposal(Proposal),
    Accept { first_contact: bool, ends: Ends },
    Confirm(Ends),
    Decline(Decline),
}

/// Why bytes are no message of A.2, in the order in which they are looked at.
#[derive(Clone, Copy, Debug, PartialEq, Eq)]
pub enum NoMessage {
    Below28,
    EyeCatcher,
    Type,
    Version0,
    LengthField,
    FixedLength,
    Below52,
    LeavesNoRoomForGrowth,
    PrefixCount,
    NotTheSum,
    LastEyeCatcher,
}

impl NoMessage {
    pub const ALL: [NoMessage; 11] = [
        NoMessage::Below28,
        NoMessage::EyeCatcher,
        NoMessage::Type,
        NoMessage::Version0,
        NoMessage::LengthField,
        NoMessage::FixedLength,
        NoMessage::Below52,
        NoMessage::LeavesNoRoomForGrowth,
        NoMessage::PrefixCount,
        NoMessage::NotTheSum,
        NoMessage::LastEyeCatcher,
    ];

    pub fn name(self) -> &'static str {
        match self {
            NoMessage::Below28 => "below 28 bytes",
            NoMessage::EyeCatcher => "first eye catcher",
            NoMessage::Type => "type",
            NoMessage::Version0 => "version 0",
            NoMessage::LengthField => "length field",
            NoMessage::FixedLength => "not 68 or 28 bytes",
            NoMessage::Below52 => "Proposal below 52 bytes",
            NoMessage::LeavesNoRoomForGrowth => "Proposal below 52 + o bytes",
            NoMessage::PrefixCount => "more than 8 prefixes",
            NoMessage::NotTheSum => "Proposal not of 52 + o + 17p bytes",
            NoMessage::LastEyeCatcher => "last eye catcher",
        }
    }
}

/// Bytes from a place on, as an array.
fn part<const COUNT: usize>(bytes: &[u8], at: usize) -> [u8; COUNT] {
    let mut part = [0; COUNT];
    part.copy_from_slice(&bytes[at..at + COUNT]);
    part
}

fn two(bytes: &[u8], at: usize) -> u16 {
    u16::from_be_bytes(part(bytes, at))
}

fn three(bytes: &[u8], at: usize) -> u32 {
    u32::from_be_bytes([0, bytes[at], bytes[at + 1], bytes[at + 2]])
}

fn four(bytes: &[u8], at: usize) -> u32 {
    u32::from_be_bytes(part(bytes, at))
}

impl Clc {
    pub fn name(&self) -> &'static str {
        match self {
            Clc::Proposal(_) => "Proposal",
            Clc::Accept { .. } => "Accept",
            Clc::Confirm(_) => "Confirm",
            Clc::Decline(_) => "Decline",
        }
    }

    /// Reads a message; what is reserved is not looked at.
    pub fn read(bytes: &[u8]) -> Result<Clc, NoMessage> {
        let n = bytes.len();
        if n < 28 {
            return Err(NoMessage::Below28);
        }
        if bytes[..4] != EYE_CATCHER {
            return Err(NoMessage::EyeCatcher);
        }
        let kind = bytes[4];
        if !(1 <= kind && kind <= 4) {
            return Err(NoMessage::Type);
        }
        let version = bytes[7] >> 4;
        if version == 0 {
            return Err(NoMessage::Version0);
        }
        if usize::from(two(bytes, 5)) != n {
            return Err(NoMessage::LengthField);
        }
        match kind {
            1 => {
                if n < 52 {
                    return Err(NoMessage::Below52);
                }
                let o = usize::from(two(bytes, 38));
                if n < 52 + o {
                    return Err(NoMessage::LeavesNoRoomForGrowth);
                }
                let p = usize::from(bytes[47 + o]);
                if p > MAX_PREFIXES {
                    return Err(NoMessage::PrefixCount);
                }
                if n != 52 + o + PREFIX_BYTES * p {
                    return Err(NoMessage::NotTheSum);
                }
            }
            4 if n != 28 => return Err(NoMessage::FixedLength),
            2 | 3 if n != 68 => return Err(NoMessage::FixedLength),
            _ => {}
        }
        if bytes[n - 4..] != EYE_CATCHER {
            return Err(NoMessage::LastEyeCatcher);
        }
        Ok(match kind {
            1 => Clc::Proposal(read_proposal(bytes)),
            2 => Clc::Accept {
                first_contact: bytes[7] & 0x08 != 0,
                ends: read_ends(bytes),
            },
            3 => Clc::Confirm(read_ends(bytes)),
            _ => Clc::Decline(Decline {
                version,
                out_of_sync: bytes[7] & 0x08 != 0,
                peer_id: part(bytes, 8),
                diagnosis: four(bytes, 16),
            }),
        })
    }

    /// Writes a message, what is reserved as zeros. Fields that do not fit are
    /// not written.
    pub fn write(&self) -> Option<Vec<u8>> {
        let (kind, version, flag) = match self {
            Clc::Proposal(proposal) => (1, proposal.version, false),
            Clc::Accept {
                first_contact,
                ends,
            } => (2, ends.version, *first_contact),
            Clc::Confirm(ends) => (3, ends.version, false),
            Clc::Decline(decline) => (4, decline.version, decline.out_of_sync),
        };
        if !(1 <= version && version <= 15) {
            return None;
        }
        let mut bytes = EYE_CATCHER.to_vec();
        bytes.extend([kind, 0, 0, version << 4 | if flag { 0x08 } else { 0 }]);
        match self {
            Clc::Proposal(proposal) => write_proposal(&mut bytes, proposal)?,
            Clc::Accept { ends, .. } | Clc::Confirm(ends) => write_ends(&mut bytes, ends)?,
            Clc::Decline(decline) => {
                bytes.extend(decline.peer_id);
                bytes.extend(decline.diagnosis.to_be_bytes());
                bytes.extend([0; 4]);
            }
        }
        bytes.extend(EYE_CATCHER);
        if bytes.len() > MAX_BYTES {
            return None;
        }
        let length = bytes.len() as u16;
        bytes[5..7].copy_from_slice(&length.to_be_bytes());
        Some(bytes)
    }
}

fn read_proposal(bytes: &[u8]) -> Proposal {
    let offset = two(bytes, 38);
    let at = 40 + usize::from(offset);
    let count = usize::from(bytes[at + 7]);
    let prefix = |number: usize| {
        let start = at + 8 + PREFIX_BYTES * number;
        Prefix {
            prefix: part(bytes, start),
            length: bytes[start + 16],
        }
    };
    Proposal {
        version: bytes[7] >> 4,
        peer_id: part(bytes, 8),
        gid: part(bytes, 16),
        mac: part(bytes, 32),
        offset,
        mask: part(bytes, at),
        mask_length: bytes[at + 4],
        prefixes: (0..count).map(prefix).collect(),
    }
}

fn write_proposal(bytes: &mut Vec<u8>, proposal: &Proposal) -> Option<()> {
    if proposal.prefixes.len() > MAX_PREFIXES {
        return None;
    }
    bytes.extend(proposal.peer_id);
    bytes.extend(proposal.gid);
    bytes.extend(proposal.mac);
    bytes.extend(proposal.offset.to_be_bytes());
    bytes.extend(vec![0; usize::from(proposal.offset)]);
    bytes.extend(proposal.mask);
    bytes.extend([proposal.mask_length, 0, 0]);
    bytes.push(proposal.prefixes.len() as u8);
    for prefix in &proposal.prefixes {
        bytes.extend(prefix.prefix);
        bytes.push(prefix.length);
    }
    Some(())
}

fn read_ends(bytes: &[u8]) -> Ends {
    Ends {
        version: bytes[7] >> 4,
        peer_id: part(bytes, 8),
        gid: part(bytes, 16),
        mac: part(bytes, 32),
        qp: three(bytes, 38),
        key: four(bytes, 41),
        index: bytes[45],
        token: four(bytes, 46),
        code: bytes[50] >> 4,
        mtu: bytes[50] & 15,
        base: u64::from_be_bytes(part(bytes, 52)),
        psn: three(bytes, 61),
    }
}

fn write_ends(bytes: &mut Vec<u8>, ends: &Ends) -> Option<()> {
    let fits = ends.qp < 1 << 24 && ends.psn < 1 << 24 && ends.code < 16 && ends.mtu < 16;
    if !fits {
        return None;
    }
    bytes.extend(ends.peer_id);
    bytes.extend(ends.gid);
    bytes.extend(ends.mac);
    bytes.extend(&ends.qp.to_be_bytes()[1..]);
    bytes.extend(ends.key.to_be_bytes());
    bytes.push(ends.index);
    bytes.extend(ends.token.to_be_bytes());
    bytes.extend([ends.code << 4 | ends.mtu, 0]);
    bytes.extend(ends.base.to_be_bytes());
    bytes.push(0);
    bytes.extend(&ends.psn.to_be_bytes()[1..]);
    Some(())
}
