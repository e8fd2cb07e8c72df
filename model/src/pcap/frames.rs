//! The bytes of packets: Ethernet, IPv4, UDP and TCP, InfiniBand's headers over
//! UDP (RoCE v2), and the blocks of a pcapng file.

/// Who sends a packet, or gets it: the group, or whoever is at the other end. Where both
/// ends of a connection are in the group, near is the lower slot's.
#[derive(Clone, Copy, Debug, PartialEq, Eq)]
pub enum Side {
    Near,
    Far,
}

impl Side {
    pub fn other(self) -> Side {
        match self {
            Side::Near => Side::Far,
            Side::Far => Side::Near,
        }
    }

    fn number(self) -> u8 {
        match self {
            Side::Near => 1,
            Side::Far => 2,
        }
    }
}

/// Where a packet is seen: 0 is the network of TCP, 1 to 4 are the links.
pub type Wire = u8;

/// The addresses for documentation (RFC 5737): 192.0.2.1 and .2 for TCP, .11 and .12 for
/// link 1, and so on.
fn address(wire: Wire, side: Side) -> [u8; 4] {
    [192, 0, 2, 10 * wire + side.number()]
}

fn mac(wire: Wire, side: Side) -> [u8; 6] {
    [2, 0, 0, 0, wire, side.number()]
}

/// The port of RoCE v2.
pub const ROCE_PORT: u16 = 4791;
/// The server's port, and the client's first.
pub const SERVER_PORT: u16 = 7609;
pub const CLIENT_PORT: u16 = 49_152;
/// What an IPv4 packet can hold behind its header and UDP's, and a SEND within it: without the
/// base transport header, the invariant CRC and up to three bytes of padding.
pub const MOST_SENT: usize = (65_535 - 20 - 8 - BTH - 4) & !3;
const BTH: usize = 12;

/// The sum of 16-bit words that IPv4 and TCP have, over some bytes after others.
pub fn checksum(parts: &[&[u8]]) -> u16 {
    let bytes: Vec<u8> = parts.concat();
    let words = bytes.chunks(2).map(|word| {
        let low = word.get(1).copied().unwrap_or(0);
        u32::from(u16::from_be_bytes([word[0], low]))
    });
    let mut sum: u32 = 0;
    for word in words {
        sum += word;
        sum = (sum & 0xFFFF) + (sum >> 16);
    }
    !(sum as u16)
}

const UDP: u8 = 17;
const TCP: u8 = 6;

fn ethernet(wire: Wire, from: Side, packet: &[u8]) -> Vec<u8> {
    let mut frame = mac(wire, from.other()).to_vec();
    frame.extend(mac(wire, from));
    frame.extend([0x08, 0x00]);
    frame.extend(packet);
    frame
}

fn ipv4(wire: Wire, from: Side, protocol: u8, payload: &[u8]) -> Vec<u8> {
    let length = (20 + payload.len()) as u16;
    let mut packet = vec![0x45, 0];
    packet.extend(length.to_be_bytes());
    // No fragments: identification 0, "don't fragment"; 64 hops.
    packet.extend([0, 0, 0x40, 0, 64, protocol, 0, 0]);
    packet.extend(address(wire, from));
    packet.extend(address(wire, from.other()));
    let sum = checksum(&[&packet]);
    packet[10..12].copy_from_slice(&sum.to_be_bytes());
    packet.extend(payload);
    packet
}

/// The CRC of Ethernet, which the invariant CRC is too: over more bytes, from a state.
fn crc(state: u32, bytes: &[u8]) -> u32 {
    bytes.iter().fold(state, |state, &byte| {
        (0..8).fold(state ^ u32::from(byte), |state, _| {
            if state & 1 == 1 {
                state >> 1 ^ 0xEDB8_8320
            } else {
                state >> 1
            }
        })
    })
}

/// The invariant CRC of a RoCE v2 packet, from IPv4's header on and without its last four
/// bytes: eight bytes FF first, and what routers may change read as FF.
pub fn invariant_crc(packet: &[u8]) -> [u8; 4] {
    let mut masked = packet.to_vec();
    // Type of service, hops and checksum; UDP's checksum; the reserved byte of the BTH.
    for byte in [1, 8, 10, 11, 26, 27, 32] {
        masked[byte] = 0xFF;
    }
    let state = crc(crc(u32::MAX, &[0xFF; 8]), &masked);
    (!state).to_le_bytes()
}

/// The queue pair of a side on a link.
pub fn queue_pair(link: Wire, side: Side) -> u32 {
    256 * u32::from(side.number()) + u32::from(link)
}

/// A message sent whole over a reliable connection: BTH opcode 4, SEND Only.
pub fn send(link: Wire, from: Side, number: u32, message: &[u8]) -> Vec<u8> {
    let padding = message.len().wrapping_neg() % 4;
    let mut payload = vec![4, 0x40 | (padding as u8) << 4, 0xFF, 0xFF, 0];
    payload.extend(&queue_pair(link, from.other()).to_be_bytes()[1..]);
    payload.push(0x80);
    payload.extend(&number.to_be_bytes()[1..]);
    payload.extend(message);
    payload.extend(vec![0; padding]);
    let length = (8 + payload.len() + 4) as u16;
    let mut udp = (CLIENT_PORT + u16::from(link)).to_be_bytes().to_vec();
    udp.extend(ROCE_PORT.to_be_bytes());
    udp.extend(length.to_be_bytes());
    // RoCE v2 has no checksum here, the invariant CRC stands for it.
    udp.extend([0, 0]);
    udp.extend(payload);
    // The CRC is over a header that counts its four bytes.
    udp.extend([0; 4]);
    let mut packet = ipv4(link, from, UDP, &udp);
    let end = packet.len() - 4;
    let crc = invariant_crc(&packet[..end]);
    packet[end..].copy_from_slice(&crc);
    ethernet(link, from, &packet)
}

pub const SYN: u8 = 0x02;
pub const ACK: u8 = 0x10;
pub const PUSH: u8 = 0x08;

/// A TCP segment; those that open a connection carry the SMC-R option (A.1).
pub fn segment(from: Side, ports: [u16; 2], numbers: [u32; 2], flags: u8, bytes: &[u8]) -> Vec<u8> {
    let options: &[u8] = if flags & SYN != 0 {
        // The largest segment, 1,460; kind 254 with its eye catcher; two fillers.
        &[2, 4, 0x05, 0xB4, 254, 6, 0xE2, 0xD4, 0xC3, 0xD9, 1, 1]
    } else {
        &[]
    };
    let mut segment = ports[0].to_be_bytes().to_vec();
    segment.extend(ports[1].to_be_bytes());
    segment.extend(numbers[0].to_be_bytes());
    segment.extend(numbers[1].to_be_bytes());
    let words = (20 + options.len()) / 4;
    segment.extend([(words as u8) << 4, flags, 0xFF, 0xFF, 0, 0, 0, 0]);
    segment.extend(options);
    segment.extend(bytes);
    let length = (segment.len() as u16).to_be_bytes();
    let pseudo = [0, TCP, length[0], length[1]];
    let sum = checksum(&[
        &address(0, from),
        &address(0, from.other()),
        &pseudo,
        &segment,
    ]);
    segment[16..18].copy_from_slice(&sum.to_be_bytes());
    ethernet(0, from, &ipv4(0, from, TCP, &segment))
}

// The file: blocks of little-endian words, each with its length before and behind.

fn block(file: &mut Vec<u8>, kind: u32, body: &[u8]) {
    let length = (12 + body.len() as u32).to_le_bytes();
    file.extend(kind.to_le_bytes());
    file.extend(length);
    file.extend(body);
    file.extend(length);
}

fn padded(bytes: &mut Vec<u8>, more: &[u8]) {
    bytes.extend(more);
    bytes.extend(vec![0; more.len().wrapping_neg() % 4]);
}

/// An option, and the one that ends them.
fn option(body: &mut Vec<u8>, code: u16, text: &str) {
    let text = &text.as_bytes()[..text.len().min(60_000)];
    body.extend(code.to_le_bytes());
    body.extend((text.len() as u16).to_le_bytes());
    padded(body, text);
    body.extend([0; 4]);
}

/// What a file begins with: its section, and an interface for TCP and for each link.
pub fn file_head(wires: &[&str]) -> Vec<u8> {
    let mut file = Vec::new();
    let mut body = 0x1A2B_3C4Du32.to_le_bytes().to_vec();
    body.extend([1, 0, 0, 0]);
    body.extend([0xFF; 8]);
    block(&mut file, 0x0A0D_0D0A, &body);
    for name in wires {
        // Ethernet, and no packet is cut.
        let mut body = vec![1, 0, 0, 0, 0, 0, 0, 0];
        option(&mut body, 2, name);
        block(&mut file, 1, &body);
    }
    file
}

/// A packet with its time in microseconds and a comment.
pub fn packet(file: &mut Vec<u8>, wire: Wire, time: u64, frame: &[u8], comment: &str) {
    let mut body = u32::from(wire).to_le_bytes().to_vec();
    body.extend(((time >> 32) as u32).to_le_bytes());
    body.extend((time as u32).to_le_bytes());
    body.extend((frame.len() as u32).to_le_bytes());
    body.extend((frame.len() as u32).to_le_bytes());
    padded(&mut body, frame);
    option(&mut body, 1, comment);
    block(file, 6, &body);
}
