//! The calls at an end, what they answer, and both in words.

use fordlinnet::{Closed, Freed, Group, LinkFields, Message, Opening, Quiet, Read, Refusal};
use std::fmt::Write;

pub const SIDES: [&str; 2] = ["near", "far"];

pub fn other(side: usize) -> usize {
    1 - side
}

#[derive(Clone, Copy, Debug, PartialEq, Eq)]
pub enum How {
    Plain,
    Urgent,
    /// A head of so many bytes, and the rest as a body.
    Parted(u32),
}

#[derive(Clone, Debug)]
pub enum Call {
    Open { slot: u32, opening: Opening },
    Free { slot: u32 },
    Send { slot: u32, how: How, bytes: Vec<u8> },
    Place { slot: u32, offset: u32, bytes: Vec<u8> },
    Read { slot: u32, room: usize },
    Hear { bytes: [u8; 44] },
    Shutdown { slot: u32 },
    Close { slot: u32 },
    Abort { slot: u32 },
    Link { link: u8, up: bool },
    LinkMessage { link: u8, bytes: [u8; 44] },
    LinkSend { link: u8, fields: LinkFields },
}

/// Bytes for the card to write: where, and which of those offered.
#[derive(Clone, Copy, Debug)]
pub struct Named {
    pub key: u32,
    pub address: u64,
    pub start: usize,
    pub len: usize,
}

/// What a call answered; of most calls most of it is empty.
#[derive(Clone, Debug, Default)]
pub struct Answer {
    pub refusal: Option<Refusal>,
    /// Of a send: how many bytes were taken, and what the card is to write.
    pub taken: usize,
    pub named: Vec<Named>,
    pub read: Vec<u8>,
    pub torn: bool,
    pub reset: bool,
    /// The message made.
    pub message: Option<Message>,
    /// Of a call on links: the messages with F, and the link message made.
    pub told: Vec<Message>,
    pub link_message: Option<[u8; 44]>,
}

/// What is known of a slot's element.
#[derive(Debug)]
pub enum Right {
    /// The right to open it.
    Quiet(Quiet),
    /// It was freed, and writes may be under way to it.
    Freed(Freed),
    InUse,
}

/// The rights to the slots of a group.
#[derive(Debug)]
pub struct Rights(Vec<Right>);

impl Rights {
    /// All of a fresh group.
    pub fn of(group: &mut Group) -> Rights {
        let slots = 1..=group.elements();
        Rights(slots.map(|slot| group.never_opened(slot).map_or(Right::InUse, Right::Quiet)).collect())
    }

    pub fn get(&self, slot: u32) -> &Right {
        self.0.get((slot as usize).wrapping_sub(1)).unwrap_or(&Right::InUse)
    }

    fn put(&mut self, slot: u32, right: Right) {
        self.0[slot as usize - 1] = right;
    }

    fn take(&mut self, slot: u32) -> Right {
        std::mem::replace(&mut self.0[slot as usize - 1], Right::InUse)
    }

    fn put_quiet(&mut self, quiet: Option<Quiet>) {
        if let Some(quiet) = quiet {
            self.put(quiet.slot(), Right::Quiet(quiet));
        }
    }

    /// The caller's word that no write of the freed connection can arrive.
    pub fn swear(&mut self, slot: u32) {
        let right = match self.take(slot) {
            Right::Freed(freed) => Right::Quiet(freed.no_write_can_arrive()),
            right => right,
        };
        self.put(slot, right);
    }
}

/// Opens a slot, which takes the right to it.
fn open(group: &mut Group, rights: &mut Rights, slot: u32, opening: &Opening) -> Result<(), Refusal> {
    let quiet = match rights.take(slot) {
        Right::Quiet(quiet) => quiet,
        right => {
            rights.put(slot, right);
            return Err(Refusal::AlreadyOpen); // no right, so no call
        }
    };
    let opened = group.open(quiet, opening);
    opened.map(|_| ()).map_err(|no| {
        rights.put_quiet(Some(no.quiet));
        no.refusal
    })
}

/// Makes a call.
pub fn make(group: &mut Group, rights: &mut Rights, call: &Call) -> Answer {
    tried(group, rights, call).unwrap_or_else(|refusal| Answer { refusal: Some(refusal), ..Answer::default() })
}

fn tried(group: &mut Group, rights: &mut Rights, call: &Call) -> Result<Answer, Refusal> {
    let mut answer = Answer::default();
    match call {
        Call::Open { slot, opening } => open(group, rights, *slot, opening)?,
        Call::Free { slot } => {
            let freed = group.free(*slot)?;
            rights.put(*slot, Right::Freed(freed));
        }
        Call::Send { slot, how: How::Parted(at), bytes } => {
            let (head, body) = bytes.split_at(*at as usize);
            let sent = group.gather(*slot, head, body)?;
            let mut start = 0;
            for piece in sent.pieces() {
                let len = piece.bytes.len();
                answer.named.push(Named { key: piece.key, address: piece.address, start, len });
                start += len;
            }
            (answer.taken, answer.message) = (sent.taken, sent.message);
        }
        Call::Send { slot, how, bytes } => {
            let sent = if *how == How::Urgent { group.urgent_send(*slot, bytes)? } else { group.send(*slot, bytes)? };
            for placing in &sent.placings {
                let (start, len) = (placing.start as usize, placing.len as usize);
                answer.named.push(Named { key: placing.key, address: placing.address, start, len });
            }
            (answer.taken, answer.message) = (sent.taken, sent.message);
        }
        Call::Place { slot, offset, bytes } => group.place(*slot, *offset, bytes)?,
        Call::Read { slot, room } => {
            let mut out = vec![0xA5; *room];
            let read = group.read(*slot, &mut out)?;
            answer.torn = matches!(read, Read::Torn { .. });
            answer.message = read.message().copied();
            out.truncate(read.count());
            answer.read = out;
        }
        Call::Hear { bytes } => {
            let heard = group.hear(bytes)?;
            answer.message = heard.message;
            rights.put_quiet(heard.quiet);
        }
        Call::Shutdown { slot } => answer.message = Some(group.shutdown(*slot)?),
        Call::Close { slot } => {
            let closed = group.close(*slot)?;
            answer.reset = matches!(closed, Closed::Reset { .. });
            answer.message = Some(*closed.message());
            rights.put_quiet(closed.quiet());
        }
        Call::Abort { slot } => answer.message = Some(group.abort(*slot)?),
        Call::Link { link, up } => answer.told = group.link_change(*link, *up)?.moved,
        Call::LinkMessage { link, bytes } => {
            let heard = group.link_message(*link, bytes)?;
            (answer.told, answer.link_message) = (heard.moved, heard.reply);
        }
        Call::LinkSend { link, fields } => {
            let sent = group.link_send(*link, fields)?;
            (answer.told, answer.link_message) = (sent.moved, Some(sent.message));
        }
    }
    Ok(answer)
}

impl Call {
    /// Whether it may move connections to another link.
    pub fn on_links(&self) -> bool {
        matches!(self, Call::Link { .. } | Call::LinkMessage { .. } | Call::LinkSend { .. })
    }

    pub fn words(&self) -> String {
        match self {
            Call::Open { slot, opening } => {
                let remote = &opening.remote;
                let token = remote.rtokens[usize::from(opening.link) - 1];
                format!(
                    "open slot {slot}: token {}, link {}; peer: token {}, element {} of {} bytes, key {} from {}",
                    opening.own, opening.link, opening.peer, remote.index, remote.size, token.key, token.base
                )
            }
            Call::Free { slot } => format!("free slot {slot}"),
            Call::Send { slot, how: How::Plain, bytes } => format!("send on slot {slot}: {}", hex(bytes)),
            Call::Send { slot, how: How::Urgent, bytes } => format!("urgent send on slot {slot}: {}", hex(bytes)),
            Call::Send { slot, how: How::Parted(at), bytes } => {
                let (head, body) = bytes.split_at(*at as usize);
                format!("gather on slot {slot}: {} and {}", hex(head), hex(body))
            }
            Call::Place { slot, offset, bytes } => format!("write to slot {slot} at {offset}: {}", hex(bytes)),
            Call::Read { slot, room } => format!("read of slot {slot}, room for {room}"),
            Call::Hear { bytes } => format!("hear {}", message_words(bytes)),
            Call::Shutdown { slot } => format!("shutdown of slot {slot}"),
            Call::Close { slot } => format!("close of slot {slot}"),
            Call::Abort { slot } => format!("abort of slot {slot}"),
            Call::Link { link, up } => format!("link {link} {}", if *up { "comes up" } else { "goes down" }),
            Call::LinkMessage { link, bytes } => {
                let reply = if bytes[3] & 0x80 != 0 { "reply to DELETE LINK" } else { "DELETE LINK" };
                format!("{reply} {} heard over link {link}", bytes[4])
            }
            Call::LinkSend { link, fields } => format!("over link {link} goes {fields}"),
        }
    }
}

impl Answer {
    pub fn words(&self, call: &Call) -> String {
        if let Some(refusal) = self.refusal {
            return refusal.to_string();
        }
        let mut text = String::new();
        match call {
            Call::Send { bytes, .. } => {
                _ = write!(text, "takes {}", self.taken);
                for Named { key, address, start, len } in &self.named {
                    _ = write!(text, "; to be written: {} by key {key} at {address}", hex(&bytes[*start..][..*len]));
                }
            }
            Call::Read { .. } if self.torn => text += "torn",
            Call::Read { .. } => _ = write!(text, "gives {}", hex(&self.read)),
            Call::Close { .. } if self.reset => text += "reset",
            _ => text += "done",
        }
        for message in self.message.iter().chain(&self.told) {
            _ = write!(text, "; makes {}", message_words(message.as_bytes()));
        }
        text
    }
}

/// At most eight bytes of them.
fn hex(bytes: &[u8]) -> String {
    if bytes.is_empty() {
        return "nothing".to_string();
    }
    let shown: Vec<String> = bytes.iter().take(8).map(|byte| format!("{byte:02X}")).collect();
    let more = if bytes.len() > 8 { format!(" .. ({} bytes)", bytes.len()) } else { String::new() };
    shown.join(" ") + &more
}

fn message_words(bytes: &[u8]) -> String {
    let Ok(message) = Message::try_from(bytes) else { return "bytes that are no message".to_string() };
    let (q, c, flags) = (message.producer(), message.consumer(), message.flags());
    let mut letters = String::new();
    for (on, letter) in [
        (flags.blocked, 'B'),
        (flags.pending, 'P'),
        (flags.urgent, 'U'),
        (flags.request, 'R'),
        (flags.failover, 'F'),
        (flags.done, 'D'),
        (flags.closed, 'C'),
        (flags.abort, 'A'),
    ] {
        if on {
            letters.push(' ');
            letters.push(letter);
        }
    }
    let (sequence, token) = (message.sequence(), message.token());
    format!("message {sequence}{letters} to token {token} (producer {},{} consumer {},{})", q.offset, q.wrap, c.offset, c.wrap)
}
