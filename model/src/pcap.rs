//! The messages of a list as a capture that Wireshark opens: those over links as
//! SMC-R over RoCE v2, those of set-up over TCP. A packet's time is its line's
//! number, in seconds, and its comment says which call made it or heard it.
//!
//! A message that one call makes and another hears is one packet. RDMA writes
//! (`place`) are no messages and are not in it.

mod frames;

pub use frames::{checksum, invariant_crc, Side};

use std::collections::HashMap;

use crate::cast::{heard_at, Cast};
use crate::clc::Clc;
use crate::failover::tells;
use crate::generate::{message_of, told_in};
use crate::replay::{Answer, Line};
use crate::setup::Due;
use crate::smcr::*;
use crate::walk::{walk, Before, Made};
use crate::words::{counted, refusal_words};
use frames::*;

/// What sort of message it is, by the call that makes or hears it.
#[derive(Clone, Copy, Debug, PartialEq, Eq)]
pub enum Kind {
    /// With cursors: send and the like, hear.
    Cdc,
    /// On links: link message and link send.
    Llc,
    /// Of set-up.
    Clc,
}

/// A message, and the number of the packet that ends it, from 1 on.
#[derive(Clone, Debug, PartialEq, Eq)]
pub struct Carried {
    pub packet: usize,
    pub kind: Kind,
    pub bytes: Vec<u8>,
}

/// A capture: the file, what it carries, and how many messages are not in it: on a
/// link outside 1 to 4, longer than a packet, of no bytes over TCP.
#[derive(Clone, Debug, Default)]
pub struct Captured {
    pub file: Vec<u8>,
    pub packets: usize,
    pub carried: Vec<Carried>,
    pub no_link: usize,
    pub too_long: usize,
    pub empty: usize,
}

impl Captured {
    /// A line for what is there, and one for each reason to leave something out.
    pub fn text(&self) -> String {
        let of = |kind: Kind| self.carried.iter().filter(|one| one.kind == kind).count();
        let mut text = format!(
            "{}: {} with cursors (CDC), {} on links (LLC), {} of set-up (CLC)\n",
            counted(self.packets, "packet"),
            of(Kind::Cdc),
            of(Kind::Llc),
            of(Kind::Clc)
        );
        for (count, why) in [
            (self.no_link, "on a link outside 1 to 4"),
            (self.too_long, "longer than a packet can hold"),
            (self.empty, "of no bytes, over TCP"),
        ] {
            if count > 0 {
                let messages = counted(count, "message");
                text.push_str(&format!("left out: {messages} {why}\n"));
            }
        }
        text
    }
}

struct Packet {
    wire: u8,
    time: u64,
    frame: Vec<u8>,
    comment: String,
}

/// A TCP connection for one set-up.
struct Tcp {
    /// Which side is the client, and its port.
    client: Side,
    port: u16,
    /// The next number of the client and of the server.
    next: [u32; 2],
}

struct Capture<'a> {
    cast: &'a Cast,
    packets: Vec<Packet>,
    made: Captured,
    /// The packet numbers used on each link from each side.
    numbers: [[u32; 2]; LINKS],
    /// Messages made in the list and not heard yet: in which packets they are.
    under_way: HashMap<Vec<u8>, Vec<usize>>,
    tcp: Option<Tcp>,
    connections: u16,
    /// The line, counted from 1, and the packets that it has made so far.
    line: usize,
    within: u64,
}

/// The capture of a list, as a pcapng file.
pub fn capture(input: &[u8]) -> Captured {
    let cast = Cast::of(input);
    let mut capture = Capture {
        cast: &cast,
        packets: Vec::new(),
        made: Captured::default(),
        numbers: [[0; 2]; LINKS],
        under_way: HashMap::new(),
        tcp: None,
        connections: 0,
        line: 0,
        within: 0,
    };
    walk(input, |place, _, made, before, after| {
        capture.line = place + 1;
        capture.within = 0;
        if let Made::Call(call, answer) = made {
            capture.call(place, call, answer, before, &after.group);
        }
    });
    let mut file = file_head(&["tcp", "link 1", "link 2", "link 3", "link 4"]);
    for Packet {
        wire,
        time,
        frame,
        comment,
    } in &capture.packets
    {
        packet(&mut file, *wire, *time, frame, comment);
    }
    Captured {
        file,
        packets: capture.packets.len(),
        ..capture.made
    }
}

/// How a call ended, in words.
fn ending(call: &Line, answer: &Answer) -> String {
    match (answer.refusal(), answer) {
        (Some(number), _) => format!("refused {number}: {}", refusal_words(call, number)),
        (None, Answer::Heard(heard)) => {
            format!("heard, moved {}, {}", heard.moved, heard.state.name())
        }
        (None, Answer::LinkMsg(answer, _)) => answer.fate.name().to_string(),
        (None, Answer::SetUp(answer)) => match answer.diagnosis {
            Some(diagnosis) => format!("heard, declined with {diagnosis}"),
            None => "heard".to_string(),
        },
        _ => "heard".to_string(),
    }
}

impl Capture<'_> {
    fn call(&mut self, place: usize, call: &Line, answer: &Answer, before: &Before, after: &Group) {
        match call {
            Line::Hear { bytes } => {
                let slot = heard_at(bytes, &before.table);
                // Who hears nothing by its token hears it by the lowest active link.
                let lowest = before.links.iter().position(|&up| up);
                let link = match slot {
                    Some(slot) => before.table[slot].link,
                    None => lowest.map_or(1, |link| link as u8 + 1),
                };
                let to = slot.map_or(Side::Near, |slot| self.side(place, slot));
                // It is under way already, or it is from a peer that the list has not.
                let ending = ending(call, answer);
                if !self.arrived(bytes, &ending) {
                    self.on_link(Kind::Cdc, link, to.other(), bytes, ending);
                }
            }
            Line::LinkMsg { link, bytes, .. } => {
                self.on_link(Kind::Llc, *link, Side::Far, bytes, ending(call, answer));
            }
            Line::Setup { due, bytes } => self.set_up(*due, bytes, call, answer),
            Line::Clc { bytes } => {
                // No call: a message by itself, from whoever sends such.
                let from_server = bytes.get(4) == Some(&2);
                let running = self.tcp.take();
                self.begin(if from_server { Side::Near } else { Side::Far });
                self.over_tcp(usize::from(from_server), bytes, "read by clc".to_string());
                self.tcp = running;
            }
            _ => {}
        }
        let slot = self.slot_of(call, before);
        if let (Some(message), Some(slot)) = (message_of(answer), slot) {
            // The slot may be closed by now.
            let record = after.table.get(slot).filter(|c| c.open);
            let link = record.or(before.table.get(slot)).map_or(1, |c| c.link);
            self.makes(place, slot, link, &message, "made");
        }
        if let Answer::LinkMsg(answer, _) = answer {
            if let (Some(reply), Line::LinkMsg { link, .. }) = (answer.reply, call) {
                self.on_link(Kind::Llc, *link, Side::Near, &reply, "reply".to_string());
            }
        }
        if let (Answer::LinkSent(sent, _), Line::LinkSend { link, .. }) = (answer, call) {
            self.on_link(
                Kind::Llc,
                *link,
                Side::Near,
                &sent.bytes,
                "sent".to_string(),
            );
        }
        // The messages with F stand in slot order; they go by the new link.
        let slots = before.table.iter().zip(&after.table).enumerate();
        let movers = slots.filter(|(_, (old, new))| old.link != new.link && tells(old));
        let movers: Vec<(usize, u8)> = movers.map(|(slot, (_, new))| (slot, new.link)).collect();
        for (message, (slot, link)) in told_in(answer).iter().zip(movers) {
            self.makes(place, slot, link, message, "made, with F,");
        }
    }

    /// The slot that a call is made on.
    fn slot_of(&self, call: &Line, before: &Before) -> Option<usize> {
        let slot = match call {
            Line::Send { slot, .. }
            | Line::Urgent { slot, .. }
            | Line::Gather { slot, .. }
            | Line::Read { slot, .. }
            | Line::Shutdown { slot }
            | Line::Close { slot }
            | Line::Abort { slot } => *slot as usize,
            Line::Hear { bytes } => return heard_at(bytes, &before.table),
            _ => return None,
        };
        slot.checked_sub(1)
    }

    fn side(&self, place: usize, slot: usize) -> Side {
        match self.cast.ends_of(place, slot) {
            [Some(_), Some(high)] if high == slot => Side::Far,
            _ => Side::Near,
        }
    }

    /// A message that a slot makes; where its peer is a slot too, it is under way.
    fn makes(&mut self, place: usize, slot: usize, link: u8, message: &[u8], how: &str) {
        let from = self.side(place, slot);
        let comment = format!("{how} by slot {}", slot + 1);
        let packet = self.on_link(Kind::Cdc, link, from, message, comment);
        if let (Some(packet), [Some(_), _]) = (packet, self.cast.ends_of(place, slot)) {
            self.under_way
                .entry(message.to_vec())
                .or_default()
                .push(packet);
        }
    }

    /// Whether a message was under way; its packet then says where it was heard.
    fn arrived(&mut self, message: &[u8], ending: &str) -> bool {
        let Some(packets) = self.under_way.get_mut(message) else {
            return false;
        };
        if packets.is_empty() {
            return false;
        }
        let packet = packets.remove(0);
        let heard = format!("; line {}: {ending}", self.line);
        self.packets[packet].comment.push_str(&heard);
        true
    }

    /// Puts a message on a link: as one SEND.
    fn on_link(
        &mut self,
        kind: Kind,
        link: u8,
        from: Side,
        message: &[u8],
        how: String,
    ) -> Option<usize> {
        if !link_in_range(link) {
            self.made.no_link += 1;
            return None;
        }
        if message.len() > MOST_SENT {
            self.made.too_long += 1;
            return None;
        }
        let number = &mut self.numbers[usize::from(link) - 1][usize::from(from == Side::Far)];
        let frame = send(link, from, *number, message);
        *number = (*number + 1) % (1 << 24);
        let packet = self.put(link, frame, how);
        self.carry(kind, message);
        Some(packet)
    }

    /// The message whose last packet was just put.
    fn carry(&mut self, kind: Kind, bytes: &[u8]) {
        self.made.carried.push(Carried {
            packet: self.packets.len(),
            kind,
            bytes: bytes.to_vec(),
        });
    }

    fn put(&mut self, wire: u8, frame: Vec<u8>, how: String) -> usize {
        let time = self.line as u64 * 1_000_000 + self.within;
        self.within += 1;
        self.packets.push(Packet {
            wire,
            time,
            frame,
            comment: format!("line {}: {how}", self.line),
        });
        self.packets.len() - 1
    }

    /// Set-up: what is heard, then what is sent. A Proposal begins a TCP connection.
    fn set_up(&mut self, due: Due, bytes: &[u8], call: &Line, answer: &Answer) {
        // Who waits for an Accept, or for nothing, is the client: 0 is the client's side.
        let us = usize::from(matches!(due, Due::Proposal | Due::Confirm));
        if due == Due::None {
            self.begin(Side::Near);
        } else {
            let ending = ending(call, answer);
            if !self.arrived(bytes, &ending) {
                if due == Due::Proposal || self.tcp.is_none() {
                    self.begin(if us == 0 { Side::Near } else { Side::Far });
                }
                self.over_tcp(1 - us, bytes, ending);
            }
        }
        if let Answer::SetUp(answer) = answer {
            if let Some(message) = &answer.message {
                if self.tcp.is_none() {
                    self.begin(if us == 0 { Side::Near } else { Side::Far });
                }
                let packet = self.over_tcp(us, message, "made by set-up".to_string());
                if let Some(packet) = packet {
                    self.under_way
                        .entry(message.clone())
                        .or_default()
                        .push(packet);
                }
            }
        }
    }

    /// A TCP connection's handshake.
    fn begin(&mut self, client: Side) {
        let port = CLIENT_PORT + self.connections % 16_384;
        self.connections = self.connections.wrapping_add(1);
        self.tcp = Some(Tcp {
            client,
            port,
            next: [1_000, 2_000],
        });
        self.one(0, SYN, &[], "TCP's handshake".to_string());
        self.one(1, SYN | ACK, &[], "TCP's handshake".to_string());
        self.one(0, ACK, &[], "TCP's handshake".to_string());
    }

    /// Bytes from the client (0) or the server (1), in as many segments as they need.
    fn over_tcp(&mut self, from: usize, bytes: &[u8], how: String) -> Option<usize> {
        if bytes.is_empty() {
            self.made.empty += 1;
            return None;
        }
        let mut first = None;
        for part in bytes.chunks(1_460) {
            let packet = self.one(from, PUSH | ACK, part, how.clone());
            first = first.or(packet);
        }
        self.carry(Kind::Clc, bytes);
        // Behind bytes that are no message nothing can be read.
        if Clc::read(bytes).is_err() {
            self.tcp = None;
        }
        first
    }

    fn one(&mut self, from: usize, flags: u8, bytes: &[u8], how: String) -> Option<usize> {
        let tcp = self.tcp.as_mut()?;
        let (ports, side) = match from {
            0 => ([tcp.port, SERVER_PORT], tcp.client),
            _ => ([SERVER_PORT, tcp.port], tcp.client.other()),
        };
        let acknowledged = if flags & ACK != 0 {
            tcp.next[1 - from]
        } else {
            0
        };
        let frame = segment(side, ports, [tcp.next[from], acknowledged], flags, bytes);
        let used = bytes.len() as u32 + u32::from(flags & SYN != 0);
        tcp.next[from] = tcp.next[from].wrapping_add(used);
        Some(self.put(0, frame, how))
    }
}
