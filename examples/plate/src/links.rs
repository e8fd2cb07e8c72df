//! The links: the first is up from the beginning, the host adds the others by link messages. Only before the file is moved, so that each
//! can wait for the other; on the socket a link message follows the number of its link.

use crate::end::{Tried, Trouble};
use crate::wire::SOCKET;
use fordlinnet::{Fate, Group, LinkFields, LinkKind, Links, RToken, Record, Role, Row, SharedMemory};
use std::io::{Read, Write};
use std::os::unix::net::UnixStream;

/// The messages that add a link, each with its reply.
const STEPS: [LinkKind; 3] = [LinkKind::AddLink, LinkKind::AddLinkContinuation, LinkKind::ConfirmLink];

/// The code of an MTU of 4096 bytes.
const MTU: u64 = 5;

type Plates<'a> = Group<SharedMemory<'a>, Vec<Record>, Links>;

/// Both ends' memory as cards know it, a key and a base for each link.
pub struct Keys {
    pub own: [RToken; 4],
    /// The peer's: the first is known, the others are heard.
    pub peer: [RToken; 4],
}

impl Keys {
    /// What we say of a link in a message of a kind.
    fn fields(&self, kind: LinkKind, link: u8) -> LinkFields {
        let fields = LinkFields::new(kind).with(Row::Link, link.into());
        match kind {
            LinkKind::AddLink => fields.with(Row::Mtu, MTU),
            LinkKind::AddLinkContinuation => {
                let (old, new) = (self.own[0], self.own[usize::from(link) - 1]);
                fields.with(Row::Num, 1).with(Row::Ref1, old.key.into()).with(Row::Key1, new.key.into()).with(Row::Addr1, new.base)
            }
            _ => fields.with(Row::Max, 4),
        }
    }

    /// The core keeps no keys: open is to be given them.
    fn keep(&mut self, fields: &LinkFields) {
        if let (Some(link), Some(key), Some(base)) = (fields.get(Row::Link), fields.get(Row::Key1), fields.get(Row::Addr1)) {
            self.peer[link as usize - 1] = RToken { key: key as u32, base };
        }
    }
}

fn say(group: &mut Plates, mut stream: &UnixStream, link: u8, fields: &LinkFields) -> Result<(), Trouble> {
    let sent = group.link_send(link, fields).map_err(|no| Trouble::Refused("link send", no))?;
    let mut bytes = [link; 45];
    bytes[1..].copy_from_slice(&sent.message);
    stream.write_all(&bytes).tried("write to", SOCKET)
}

fn hear(group: &mut Plates, mut stream: &UnixStream) -> Result<(u8, LinkFields), Trouble> {
    let mut bytes = [0; 45];
    stream.read_exact(&mut bytes).tried("read", SOCKET)?;
    let heard = group.link_message(bytes[0], &bytes[1..]).map_err(|no| Trouble::Refused("link message", no))?;
    match (heard.fields, heard.fate) {
        (Some(fields), Fate::Taken) => Ok((bytes[0], fields)),
        _ => Err(Trouble::Other(format!("a link message was not taken: {heard:?}"))),
    }
}

/// Brings all four links up, and hears the peer's keys on them.
pub fn bring_up(group: &mut Plates, keys: &mut Keys, stream: &UnixStream) -> Result<(), Trouble> {
    group.link_change(1, true).map_err(|no| Trouble::Refused("link change", no))?;
    match group.role() {
        Role::Server => {
            for (link, kind) in (2..=4).flat_map(|link| STEPS.map(|kind| (link, kind))) {
                let over = if kind == LinkKind::ConfirmLink { link } else { 1 };
                say(group, stream, over, &keys.fields(kind, link))?;
                keys.keep(&hear(group, stream)?.1);
            }
        }
        Role::Client => {
            while group.links().active.contains(&false) {
                let (over, asked) = hear(group, stream)?;
                keys.keep(&asked);
                let link = asked.get(Row::Link).unwrap_or(0) as u8;
                say(group, stream, over, &keys.fields(asked.kind(), link).with(Row::R, 1))?;
            }
        }
    }
    Ok(())
}
