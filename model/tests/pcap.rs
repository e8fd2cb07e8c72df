//! Captures: the file's own bytes, what is in it and what is not, and what tshark
//! reads in it where tshark is installed.

use std::collections::BTreeMap;
use std::io::Write;
use std::net::Ipv6Addr;
use std::process::{Command, Stdio};
use std::sync::Once;

use model::clc::Clc;
use model::llc::{layout, Fields, KINDS};
use model::pcap::{capture, checksum, invariant_crc, Captured, Carried, Kind};
use model::smcr::Message;
use model::traces;

const EVERY: &str = include_str!("../../examples/every.txt");
const PLATE: &str = include_str!("../../examples/plate.txt");

fn examples() -> Vec<u8> {
    let lists: [&str; 5] = [
        PLATE,
        EVERY,
        include_str!("../../examples/reuse.txt"),
        include_str!("../../examples/urgent.txt"),
        include_str!("../../examples/failover.txt"),
    ];
    lists.concat().into_bytes()
}

struct Frame {
    wire: u32,
    /// In microseconds.
    time: u64,
    bytes: Vec<u8>,
    comment: String,
}

fn word(bytes: &[u8], at: usize) -> u32 {
    u32::from_le_bytes(bytes[at..at + 4].try_into().unwrap())
}

fn two(bytes: &[u8], at: usize) -> u16 {
    u16::from_be_bytes([bytes[at], bytes[at + 1]])
}

/// The packets of a pcapng file; every block must be as long as it says, twice.
fn frames(file: &[u8]) -> Vec<Frame> {
    let mut frames = Vec::new();
    let mut kinds = Vec::new();
    let mut at = 0;
    while at < file.len() {
        let (kind, length) = (word(file, at), word(file, at + 4) as usize);
        assert_eq!(length % 4, 0);
        let block = &file[at..at + length];
        assert_eq!(word(block, length - 4) as usize, length);
        kinds.push(kind);
        match kind {
            0x0A0D_0D0A => {
                assert_eq!(word(block, 8), 0x1A2B_3C4D);
                assert_eq!(block[12..16], [1, 0, 0, 0]);
            }
            // Ethernet, packets of any length.
            1 => assert_eq!((word(block, 8), word(block, 12)), (1, 0)),
            6 => {
                let captured = word(block, 20) as usize;
                assert_eq!(captured, word(block, 24) as usize);
                let option = 28 + captured.div_ceil(4) * 4;
                assert_eq!(block[option..option + 2], [1, 0]);
                let text = usize::from(block[option + 2]) + 256 * usize::from(block[option + 3]);
                let text = &block[option + 4..option + 4 + text];
                frames.push(Frame {
                    wire: word(block, 8),
                    time: u64::from(word(block, 12)) << 32 | u64::from(word(block, 16)),
                    bytes: block[28..28 + captured].to_vec(),
                    comment: String::from_utf8(text.to_vec()).unwrap(),
                });
            }
            _ => panic!("a block of kind {kind}"),
        }
        at += length;
    }
    assert_eq!(kinds[..6], [0x0A0D_0D0A, 1, 1, 1, 1, 1]);
    assert!(kinds[6..].iter().all(|&kind| kind == 6));
    frames
}

/// What a frame carries, once its headers, lengths and sums were found right.
fn payload(frame: &Frame) -> Vec<u8> {
    let bytes = &frame.bytes;
    assert_eq!(two(bytes, 12), 0x0800);
    let packet = &bytes[14..];
    assert_eq!(packet[0], 0x45);
    assert_eq!(usize::from(two(packet, 2)), packet.len());
    assert_eq!(checksum(&[&packet[..20]]), 0);
    let inside = &packet[20..];
    match packet[9] {
        17 => {
            assert_eq!(two(inside, 2), 4791);
            assert_eq!(usize::from(two(inside, 4)), inside.len());
            assert_eq!(two(inside, 6), 0);
            let end = packet.len() - 4;
            assert_eq!(packet[end..], invariant_crc(&packet[..end]));
            let transport = &inside[8..inside.len() - 4];
            // RC SEND Only, the default partition.
            assert_eq!((transport[0], two(transport, 2)), (4, 0xFFFF));
            let padding = usize::from(transport[1] >> 4 & 3);
            assert_eq!((transport.len() - 12) % 4, 0);
            transport[12..transport.len() - padding].to_vec()
        }
        6 => {
            let length = (inside.len() as u16).to_be_bytes();
            let pseudo = [0, 6, length[0], length[1]];
            assert_eq!(checksum(&[&packet[12..20], &pseudo, inside]), 0);
            let header = 4 * usize::from(inside[12] >> 4);
            let opens = inside[13] & 2 != 0;
            let option = [254, 6, 0xE2, 0xD4, 0xC3, 0xD9];
            let there = inside[20..header].windows(6).any(|part| part == option);
            assert_eq!(opens, there);
            inside[header..].to_vec()
        }
        other => panic!("protocol {other}"),
    }
}

/// The worked example of the invariant CRC that Scapy's tests have for RoCE v2.
#[test]
fn the_invariant_crc() {
    let packet = [
        0x45, 0x01, 0, 64, 0x04, 0x78, 0x40, 0, 64, 17, 0, 0, 192, 168, 0, 7, 192, 168, 0,
        7, //
        0xC0, 0, 0x12, 0xB7, 0, 44, 0, 0, //
        0x24, 0x60, 0xFF, 0xFF, 0, 0, 0, 211, 0, 0xCF, 0x17, 0x10, //
        0x46, 0x30, 0x81, 0x8B, 0xE2, 0x89, 0x35, 0xD9, 0x0E, 0x9A, 0x95, 0x50, 0x54, 0x01, //
        0xBE, 0x88, 0x5E, 0x50, 0, 0,
    ];
    assert_eq!(invariant_crc(&packet), [0x78, 0xF3, 0x53, 0xF3]);
}

/// The sum of RFC 1071, section 3's example words.
#[test]
fn the_checksum() {
    let words = [0x00, 0x01, 0xF2, 0x03, 0xF4, 0xF5, 0xF6, 0xF7];
    assert_eq!(checksum(&[&words]), !0xDDF2);
    assert_eq!(checksum(&[&words[..2], &words[2..]]), !0xDDF2);
}

/// The first packet of the example `plate`, its headers by hand.
#[test]
fn the_first_message_of_plate() {
    let frames = frames(&capture(PLATE.as_bytes()).file);
    let first = &frames[0];
    let mut expected = vec![2, 0, 0, 0, 1, 2, 2, 0, 0, 0, 1, 1, 0x08, 0x00];
    expected.extend([0x45, 0, 0, 88, 0, 0, 0x40, 0, 64, 17]);
    assert_eq!(first.bytes[..24], expected);
    assert_eq!(first.bytes[26..34], [192, 0, 2, 11, 192, 0, 2, 12]);
    assert_eq!(first.bytes[34..42], [0xC0, 1, 0x12, 0xB7, 0, 68, 0, 0]);
    // SEND Only without padding to the far queue pair of link 1, an answer asked for, number 0.
    assert_eq!(
        first.bytes[42..54],
        [4, 0x40, 0xFF, 0xFF, 0, 0, 2, 1, 0x80, 0, 0, 0]
    );
    assert_eq!(first.bytes.len(), 54 + 44 + 4);
    assert_eq!(
        payload(first)[..16],
        [0xFE, 0x2C, 0, 1, 0, 0, 0, 22, 0, 0, 0, 0, 0, 0, 0, 12]
    );
    assert_eq!(first.wire, 1);
    let line = PLATE
        .lines()
        .position(|line| line.starts_with("send"))
        .unwrap();
    assert_eq!(first.time, (line as u64 + 1) * 1_000_000);
    let heard = PLATE
        .lines()
        .position(|line| line.starts_with("hear"))
        .unwrap();
    let comment = format!(
        "line {}: made by slot 1; line {}: heard, moved 8, Active",
        line + 1,
        heard + 1
    );
    assert_eq!(first.comment, comment);
}

/// Every packet is well-formed, and the messages in them are those of the calls.
#[test]
fn the_packets_carry_the_messages() {
    for list in [examples(), traces::input()] {
        let captured = capture(&list);
        let frames = frames(&captured.file);
        assert_eq!(frames.len(), captured.packets);
        let payloads: Vec<Vec<u8>> = frames.iter().map(payload).collect();
        for Carried {
            packet,
            kind,
            bytes,
        } in &captured.carried
        {
            let frame = &frames[packet - 1];
            assert_eq!(frame.wire == 0, *kind == Kind::Clc);
            // One over TCP may need several segments; this one ends it.
            assert!(bytes.ends_with(&payloads[packet - 1]));
            assert!(*kind == Kind::Clc || payloads[packet - 1] == *bytes);
        }
        // A queue pair's numbers go up by one.
        let mut last: BTreeMap<[u8; 3], u32> = BTreeMap::new();
        for frame in frames.iter().filter(|frame| frame.wire != 0) {
            let pair: [u8; 3] = frame.bytes[47..50].try_into().unwrap();
            let number = &frame.bytes[51..54];
            let number = u32::from_be_bytes([0, number[0], number[1], number[2]]);
            let expected = last.insert(pair, number).map_or(0, |last| last + 1);
            assert_eq!(number, expected);
        }
        assert!(frames.windows(2).all(|pair| pair[0].time < pair[1].time));
    }
}

/// A message made at one end and heard at the other is one packet, from the one to the
/// other; one heard again is another.
#[test]
fn two_ends() {
    let list = "group 2 24 48\nlink 1 1\nopen 1 11 22 1 24 2 0 0 0 0 0 0 0 0\n\
                open 2 22 11 1 24 1 0 0 0 0 0 0 0 0\nshutdown 1\nshutdown 2\n";
    let sent = "FE2C0001000000160000000000000004000000000000000400800000000000000000\
                00000000000000000000";
    let list = format!("{list}hear {sent}\nhear {sent}\n");
    let captured = capture(list.as_bytes());
    let frames = frames(&captured.file);
    let ends = |frame: &Frame| (frame.bytes[29], frame.bytes[33]);
    let comments: Vec<&str> = frames.iter().map(|frame| frame.comment.as_str()).collect();
    // Slot 2 sent its D before it heard one: ours came first.
    assert_eq!(
        comments,
        [
            "line 5: made by slot 1; line 7: heard, moved 0, PeerCloseWait2",
            "line 6: made by slot 2",
            "line 8: refused 16: not the last number heard plus one",
        ]
    );
    assert_eq!(ends(&frames[0]), (11, 12));
    assert_eq!(ends(&frames[1]), (12, 11));
    assert_eq!(ends(&frames[2]), (11, 12));
}

/// What cannot be in a packet is counted and said.
#[test]
fn what_is_left_out() {
    let long = "00".repeat(65_500);
    let list =
        format!("link 1 1\nlinkmsg 5 -\nhear {long}\nsetup Proposal -\nclc -\nlinkmsg 1 -\n");
    let captured = capture(list.as_bytes());
    assert_eq!(captured.no_link, 1);
    assert_eq!(captured.too_long, 1);
    // `setup` is refused before it reads: the settings are zero. Its bytes came all the same.
    assert_eq!(captured.empty, 2);
    assert_eq!(captured.carried.len(), 1);
    let text = captured.text();
    assert!(text.contains("left out: 1 message on a link outside 1 to 4\n"));
    assert!(text.contains("left out: 1 message longer than a packet can hold\n"));
    assert!(text.contains("left out: 2 messages of no bytes, over TCP\n"));
}

// What tshark reads.

/// The version whose fields and slips these tests know.
const VERSION: &str = "4.0.";

/// Says once, past the capture of passing tests' words, why tshark is not asked.
fn not_asked(why: &str) {
    static SAID: Once = Once::new();
    SAID.call_once(|| {
        let _ = writeln!(
            std::io::stderr(),
            "{why}: what Wireshark reads is not tested"
        );
    });
}

/// What tshark says of a file, or nothing where it is not installed or of another version.
fn tshark(file: &[u8], arguments: &[&str]) -> Option<String> {
    let Ok(version) = Command::new("tshark").arg("--version").output() else {
        not_asked("tshark is not installed");
        return None;
    };
    let version = String::from_utf8_lossy(&version.stdout).into_owned();
    let first = version.lines().next().unwrap_or("tshark says no version");
    if !first.contains(&format!(" {VERSION}")) {
        not_asked(&format!("{first} (not {VERSION}x)"));
        return None;
    }
    let mut child = Command::new("tshark")
        .args(["-r", "-"])
        .args(arguments)
        .stdin(Stdio::piped())
        .stdout(Stdio::piped())
        .stderr(Stdio::null())
        .spawn()
        .unwrap();
    let mut input = child.stdin.take().unwrap();
    let file = file.to_vec();
    let writer = std::thread::spawn(move || input.write_all(&file));
    let output = child.wait_with_output().unwrap();
    writer.join().unwrap().unwrap();
    assert!(
        output.status.success(),
        "tshark ended with {}",
        output.status
    );
    Some(String::from_utf8(output.stdout).unwrap())
}

/// Some fields of every packet, as tshark prints them: all of one name parted by commas.
fn fields_of(captured: &Captured, names: &[&str]) -> Option<Vec<Vec<String>>> {
    let mut arguments = vec!["-T", "fields", "-E", "occurrence=a", "-E", "separator=|"];
    for name in names {
        arguments.extend(["-e", name]);
    }
    let text = tshark(&captured.file, &arguments)?;
    let rows: Vec<Vec<String>> = text
        .lines()
        .map(|line| line.split('|').map(str::to_string).collect())
        .collect();
    assert_eq!(rows.len(), captured.packets);
    Some(rows)
}

/// tshark takes every cursor message as SMC-R and reads the fields that we mean, in the
/// examples and in the stored traces; and every link message of a named kind.
#[test]
fn tshark_reads_the_messages() {
    let names = [
        "frame.protocols",
        "_ws.malformed",
        "smc.llc_msg",
        "smc.clc_msg",
        "smc.rmbe.ctrl.seqno",
        "smc.rmbe.ctrl.alert.token",
        "smc.rmbe.ctrl.prod.wrap.seq",
        "smc.rmbe.ctrl.peer.prod.curs",
        "smc.rmbe.ctrl.conn.rw.status.flags",
        "smc.rmbe.ctrl.peer.conn.state.flags",
        "ip.checksum.status",
        "tcp.checksum.status",
    ];
    for (name, list) in [
        ("the examples", examples()),
        ("the stored traces", traces::input()),
    ] {
        let captured = capture(&list);
        let Some(rows) = fields_of(&captured, &names) else {
            return;
        };
        let mut counts: BTreeMap<String, [usize; 3]> = BTreeMap::new();
        for Carried {
            packet,
            kind,
            bytes,
        } in &captured.carried
        {
            let row = &rows[packet - 1];
            let smc = row[0].ends_with(":smc");
            let whole = smc && row[1].is_empty();
            let what = describe(*kind, bytes);
            let count = counts.entry(what.clone()).or_default();
            count[0] += 1;
            count[1] += usize::from(smc);
            count[2] += usize::from(whole);
            if *kind == Kind::Cdc && Message::read(bytes).is_some() {
                assert!(whole, "packet {packet}");
                assert_eq!(row[2], "0xfe");
                let message = Message::read(bytes).unwrap();
                assert_eq!(row[4], format!("{:#06x}", message.sequence));
                assert_eq!(row[5], format!("{:#010x}", message.token));
                let (producer, consumer) = (message.producer, message.consumer);
                let wraps = format!("{:#06x},{:#06x}", producer.wrap, consumer.wrap);
                assert_eq!(row[6], wraps);
                let offsets = format!("{:#010x},{:#010x}", producer.offset, consumer.offset);
                assert_eq!(row[7], offsets);
                assert_eq!(row[8], format!("{:#04x}", bytes[24]));
                assert_eq!(row[9], format!("{:#04x}", bytes[25]));
            }
            let named = *kind == Kind::Llc && what.starts_with("LLC ") && !what.contains("other");
            if named && !what.contains("count above 8") {
                assert!(whole, "packet {packet}: {what}");
                assert_eq!(row[2], format!("{:#04x}", bytes[0]));
            }
            if what.starts_with("CLC version 1") && !what.contains("Proposal") {
                assert!(whole, "packet {packet}: {what}");
                assert_eq!(row[3], bytes[4].to_string());
            }
        }
        println!("{name}: messages, read as SMC, read without complaint");
        for (what, [all, smc, whole]) in &counts {
            println!("{all:6} {smc:6} {whole:6}  {what}");
        }
    }
}

/// What we take a message for.
fn describe(kind: Kind, bytes: &[u8]) -> String {
    match kind {
        Kind::Cdc => match Message::read(bytes) {
            Some(_) => "CDC".to_string(),
            None => "CDC, no message".to_string(),
        },
        Kind::Llc => {
            let whole: Option<&[u8; 44]> = bytes.try_into().ok();
            let fields = whole
                .filter(|bytes| bytes[1] == 0x2C)
                .and_then(Fields::read);
            match (fields, bytes.first()) {
                (Some(fields), _) if fields.kind == 9 && fields.get("count") > 8 => {
                    "LLC 09, count above 8".to_string()
                }
                (Some(fields), _) => format!("LLC {:02X}", fields.kind),
                (None, Some(0x80..=0xBF)) => "LLC other: optional".to_string(),
                (None, _) => "LLC other: refused".to_string(),
            }
        }
        Kind::Clc => match Clc::read(bytes) {
            Ok(Clc::Proposal(proposal)) => {
                let version = if proposal.version == 1 {
                    "1"
                } else {
                    "above 1"
                };
                let growth = match proposal.offset {
                    40 => "growth 40",
                    0 => "no growth",
                    _ => "growth other than 0 and 40",
                };
                format!("CLC version {version}, Proposal, {growth}")
            }
            Ok(message) => {
                let version = if bytes[7] >> 4 == 1 { "1" } else { "above 1" };
                format!("CLC version {version}, {}", message.name())
            }
            Err(_) => "CLC, no message".to_string(),
        },
    }
}

/// Where tshark sees the fields of a message: its names, and the bytes from the message's
/// first on. What it calls reserved, flags and their single bits are left aside.
fn places(file: &[u8]) -> Option<Vec<Vec<(String, usize, usize)>>> {
    let text = tshark(file, &["-T", "pdml"])?;
    let attribute = |line: &str, name: &str| -> Option<String> {
        let start = line.find(&format!(" {name}=\""))? + name.len() + 3;
        let length = line[start..].find('"')?;
        Some(line[start..start + length].to_string())
    };
    let mut all: Vec<Vec<(String, usize, usize)>> = Vec::new();
    let mut base = 0;
    for line in text.lines() {
        let Some(name) = attribute(line, "name") else {
            continue;
        };
        let number = |name: &str| -> usize { attribute(line, name).unwrap().parse().unwrap() };
        if name == "smc" && line.contains("<proto") {
            base = number("pos");
            all.push(Vec::new());
        } else if name.starts_with("smc.") {
            let aside = ["smc.llc_msg", "smc.clc_msg", "smc.length", "smc.reserved"];
            let flags = [
                "flags",
                "response",
                "smc.delete.link.all",
                "orderly",
                "retry",
            ];
            let skipped = aside.contains(&name.as_str())
                || flags.iter().any(|flag| name.contains(flag))
                || name.ends_with("smc.version")
                || name.ends_with("first.contact")
                || name.ends_with("osync");
            if !skipped {
                let place = (name, number("pos") - base, number("size"));
                all.last_mut().unwrap().push(place);
            }
        }
    }
    Some(all)
}

/// tshark's places of the fields of every link message are our rows, but for ADD LINK, where
/// it has two bytes more before the GID, and ADD LINK CONTINUATION, where it has not the
/// two reserved bytes of Figure 33.
#[test]
fn tshark_sees_the_rows_of_link_messages() {
    let mut list = "group 1 24 24\nlink 1 1\n".to_string();
    // As many keys as each kind can have: 2, 2, 3 and 8.
    let counts = [(3, 5, 2), (6, 4, 2), (8, 4, 3), (9, 4, 8)];
    for kind in KINDS {
        let mut bytes = [0u8; 44];
        bytes[0] = kind;
        bytes[1] = 0x2C;
        // A reply: none is made to it.
        bytes[3] = 0x80;
        for (of, at, count) in counts {
            if of == kind {
                bytes[at] = count;
            }
        }
        let hex: String = bytes.iter().map(|byte| format!("{byte:02X}")).collect();
        list.push_str(&format!("linkmsg 1 {hex}\n"));
    }
    let Some(all) = places(&capture(list.as_bytes()).file) else {
        return;
    };
    assert_eq!(all.len(), KINDS.len());
    for (kind, places) in KINDS.into_iter().zip(all) {
        let theirs: Vec<(usize, usize)> = places.iter().map(|place| (place.1, place.2)).collect();
        // Our rows of whole bytes, and the MTU, which has a byte to itself; the GID is one.
        let rows = layout(kind).iter();
        let rows = rows.filter(|row| row.bits % 8 == 0 || row.name == "mtu");
        let mut ours: Vec<(usize, usize)> = Vec::new();
        for row in rows {
            match row.name {
                "gid2" => ours.last_mut().unwrap().1 += row.bytes,
                // tshark does not show TEST LINK's sixteen bytes.
                "user1" | "user2" => {}
                _ => ours.push((row.first, row.bytes)),
            }
        }
        // ADD LINK has two bytes more from 10 on, ADD LINK CONTINUATION two less from 8 on.
        let shift: Option<(usize, isize)> = match kind {
            2 => Some((10, 2)),
            3 => Some((8, -2)),
            _ => None,
        };
        if let Some((from, by)) = shift {
            assert_ne!(theirs, ours);
            for (first, _) in ours.iter_mut().filter(|(first, _)| *first >= from) {
                *first = first.wrapping_add_signed(by);
            }
        }
        assert_eq!(theirs, ours, "kind {kind:02X}: {places:?}");
    }
}

/// What tshark reads in an Accept and a Confirm is what we wrote.
#[test]
fn tshark_reads_the_fields_of_set_up() {
    let captured = capture(EVERY.as_bytes());
    let names = [
        "smc.accept.sender.server.peer.id",
        "smc.accept.server.preferred.gid",
        "smc.accept.server.preferred.mac",
        "smc.accept.server.qp.number",
        "smc.accept.server.rmb.rkey",
        "smc.accept.server.tcp.conn.index",
        "smc.accept.server.rmb.element.alert.token",
        "smc.accept.rmb.buffer.size",
        "smc.accept.qp.mtu.value",
        "smc.accept.server.rmb.virtual.address",
        "smc.accept.initial.psn",
        "smc.confirm.sender.client.peer.id",
        "smc.client.gid",
        "smc.confirm.client.mac",
        "smc.confirm.client.qp.number",
        "smc.confirm.client.rmb.rkey",
        "smc.confirm.client.tcp.conn.index",
        "smc.client.rmb.element.alert.token",
        "smc.confirm.rmb.buffer.size",
        "smc.confirm.qp.mtu.value",
        "smc.client.rmb.virtual.address",
        "smc.initial.psn",
        "smc.sender.peer.id",
        "smc.peer.diag.info",
    ];
    let Some(rows) = fields_of(&captured, &names) else {
        return;
    };
    let mut compared = [0; 3];
    for one in &captured.carried {
        if one.kind != Kind::Clc {
            continue;
        }
        let row = &rows[one.packet - 1];
        let (first, ends, which) = match Clc::read(&one.bytes) {
            Ok(Clc::Accept { ends, .. }) => (0, ends, 0),
            Ok(Clc::Confirm(ends)) => (11, ends, 1),
            Ok(Clc::Decline(decline)) => {
                let id = u64::from_be_bytes(decline.peer_id);
                assert_eq!(row[22], format!("{id:#018x}"));
                assert_eq!(row[23], format!("{:#010x}", decline.diagnosis));
                compared[2] += 1;
                continue;
            }
            _ => continue,
        };
        let mac: Vec<String> = ends.mac.iter().map(|byte| format!("{byte:02x}")).collect();
        let read = &row[first..first + 11];
        assert_eq!(
            read[0],
            format!("{:#018x}", u64::from_be_bytes(ends.peer_id))
        );
        assert_eq!(read[1].parse::<Ipv6Addr>().unwrap().octets(), ends.gid);
        assert_eq!(read[2], mac.join(":"));
        assert_eq!(read[3], format!("{:#08x}", ends.qp));
        assert_eq!(read[4], format!("{:#010x}", ends.key));
        assert_eq!(read[5], ends.index.to_string());
        assert_eq!(read[6], format!("{:#010x}", ends.token));
        assert_eq!(read[7], ends.code.to_string());
        assert_eq!(read[8], ends.mtu.to_string());
        assert_eq!(read[9], format!("{:#018x}", ends.base));
        assert_eq!(read[10], format!("{:#08x}", ends.psn));
        compared[which] += 1;
    }
    // The list has two Accepts, the second refused, a Confirm and a Decline.
    assert_eq!(compared, [2, 1, 1]);
}
