//! Lists for setting up a connection: exchanges of two ends, each bit of each
//! message, and bytes that are damaged.

use super::List;
use crate::clc::{Clc, Decline, Ends, Prefix, Proposal, MAX_PREFIXES};
use crate::random::Random;
use crate::replay::{Answer, Line};
use crate::setup::{Due, SetUp, Settings, CODED};
use crate::smcr::EYE_CATCHER;

fn array<const COUNT: usize>(random: &mut Random) -> [u8; COUNT] {
    let mut array = [0; COUNT];
    array.copy_from_slice(&random.bytes(COUNT));
    array
}

fn prefix(random: &mut Random) -> Prefix {
    Prefix {
        prefix: array(random),
        length: random.draw() as u8,
    }
}

/// A number of so many bits, often at an end.
fn number(random: &mut Random, bits: u32) -> u64 {
    let most = u64::MAX >> (64 - bits);
    match random.below(5) {
        0 => 0,
        1 => most,
        2 => 1 << random.below(u64::from(bits)),
        _ => random.draw() & most,
    }
}

/// Settings of an end whose element size has a code.
fn settings(random: &mut Random) -> Settings {
    let size = match random.below(6) {
        0 => *random.pick(&CODED),
        _ => CODED[random.below(3) as usize],
    };
    let mut settings = Settings {
        size,
        peer_id: array(random),
        gid: array(random),
        mac: array(random),
        mask: array(random),
        mask_length: random.draw() as u8,
        count: *random.pick(&[0, 0, 0, 1, 2, 7, 8, 9, 255]),
        first_contact: random.chance(1, 2),
        qp: number(random, 32) as u32,
        mtu: number(random, 8) as u8,
        psn: number(random, 32) as u32,
        key: number(random, 32) as u32,
        base: number(random, 64),
        slot: number(random, 8) as u8,
        own_token: number(random, 32) as u32,
        link: match random.below(6) {
            0 => *random.pick(&[0, 5, 255]),
            _ => random.between(1, 4) as u8,
        },
        ..Settings::default()
    };
    for place in 0..random.below(MAX_PREFIXES as u64 + 1) as usize {
        settings.prefixes[place] = prefix(random);
    }
    for link in 0..4 {
        settings.peer_keys[link] = number(random, 32) as u32;
        settings.peer_bases[link] = number(random, 64);
    }
    settings
}

fn ends(random: &mut Random) -> Ends {
    Ends {
        version: random.between(1, 15) as u8,
        peer_id: array(random),
        gid: array(random),
        mac: array(random),
        qp: number(random, 24) as u32,
        key: number(random, 32) as u32,
        index: number(random, 8) as u8,
        token: number(random, 32) as u32,
        code: random.below(16) as u8,
        mtu: random.below(16) as u8,
        base: number(random, 64),
        psn: number(random, 24) as u32,
    }
}

fn proposal(random: &mut Random, offset: u16, count: usize) -> Clc {
    Clc::Proposal(Proposal {
        version: random.between(1, 15) as u8,
        peer_id: array(random),
        gid: array(random),
        mac: array(random),
        offset,
        mask: array(random),
        mask_length: random.draw() as u8,
        prefixes: (0..count).map(|_| prefix(random)).collect(),
    })
}

/// A message of the kind that has this number.
fn message(random: &mut Random, kind: u8) -> Clc {
    match kind {
        1 => {
            let offset = *random.pick(&[0, 0, 0, 1, 2, 17, 40, 100]);
            let count = random.below(9) as usize;
            proposal(random, offset, count)
        }
        2 => Clc::Accept {
            first_contact: random.chance(1, 2),
            ends: ends(random),
        },
        3 => Clc::Confirm(ends(random)),
        _ => Clc::Decline(Decline {
            version: random.between(1, 15) as u8,
            out_of_sync: random.chance(1, 2),
            peer_id: array(random),
            diagnosis: number(random, 32) as u32,
        }),
    }
}

fn bytes_of(message: &Clc) -> Vec<u8> {
    message.write().unwrap_or_default()
}

impl List {
    fn settings(&mut self, settings: Settings) {
        self.add(Line::Settings {
            settings: Box::new(settings),
        });
    }

    fn setup(&mut self, due: Due, bytes: Vec<u8>) -> SetUp {
        match self.add(Line::Setup { due, bytes }) {
            Answer::SetUp(answer) => answer,
            _ => SetUp::default(),
        }
    }

    fn clc(&mut self, bytes: Vec<u8>) {
        self.add(Line::Clc { bytes });
    }
}

/// The four steps of two ends; what is heard may be changed on its way.
fn exchange(
    list: &mut List,
    client: &Settings,
    server: &Settings,
    mut on_the_way: impl FnMut(Vec<u8>) -> Vec<u8>,
) {
    list.settings(*client);
    let mut bytes = list.setup(Due::None, Vec::new()).message;
    for (settings, due) in [
        (server, Due::Proposal),
        (client, Due::Accept),
        (server, Due::Confirm),
        (client, Due::Accept),
    ] {
        let Some(heard) = bytes else {
            return;
        };
        list.settings(*settings);
        bytes = list.setup(due, on_the_way(heard)).message;
    }
}

/// The page's own example, every code, every bit of each message.
pub fn exhaust(list: &mut List, random: &mut Random) {
    list.comment("set-up: the page's example");
    let client = Settings {
        size: 65_536,
        peer_id: [0, 1, 2, 0, 0, 0, 0, 1],
        gid: [0xFE, 0x80, 0, 0, 0, 0, 0, 0, 2, 0, 0, 0, 0, 0, 0, 1],
        mac: [2, 0, 0, 0, 0, 1],
        mask: [255, 255, 255, 0],
        mask_length: 24,
        qp: 64,
        mtu: 5,
        psn: 1_000,
        key: 2_711_790_500,
        base: 4_294_967_296,
        slot: 3,
        own_token: 5,
        link: 1,
        peer_keys: [0, 11, 0, 0],
        peer_bases: [0, 4_096, 0, 0],
        ..Settings::default()
    };
    let server = Settings {
        size: 16_384,
        peer_id: [0, 2, 2, 0, 0, 0, 0, 2],
        gid: [0xFE, 0x80, 0, 0, 0, 0, 0, 0, 2, 0, 0, 0, 0, 0, 0, 2],
        mac: [2, 0, 0, 0, 0, 2],
        first_contact: true,
        qp: 8,
        mtu: 4,
        psn: 2_000,
        key: 2_981_278_644,
        base: 8_589_934_592,
        slot: 7,
        own_token: 16_909_060,
        link: 1,
        peer_keys: [0, 22, 0, 0],
        peer_bases: [0, 8_192, 0, 0],
        ..Settings::default()
    };
    exchange(list, &client, &server, |bytes| bytes);
    list.comment("set-up: every code from the peer, in an Accept and in a Confirm");
    list.settings(client);
    for code in 0..16 {
        for kind in [2, 3] {
            let ends = Ends {
                code,
                ..ends(random)
            };
            let heard = if kind == 2 {
                Clc::Accept {
                    first_contact: code % 2 == 0,
                    ends,
                }
            } else {
                Clc::Confirm(ends)
            };
            let due = if kind == 2 { Due::Accept } else { Due::Confirm };
            list.setup(due, bytes_of(&heard));
        }
    }
    list.comment("set-up: every size of ours that has a code and some that have none");
    for size in CODED
        .into_iter()
        .flat_map(|size| [size - 1, size, size + 1])
    {
        list.settings(Settings { size, ..server });
        list.setup(Due::None, Vec::new());
    }
    for size in [
        0,
        1,
        8,
        10_000,
        8_192,
        65_540,
        1_048_576,
        0x0001_0000,
        u32::MAX,
    ] {
        list.settings(Settings { size, ..server });
        for due in Due::ALL {
            let kind = random.between(0, 4) as u8;
            let bytes = if kind == 0 {
                Vec::new()
            } else {
                bytes_of(&message(random, kind))
            };
            list.setup(due, bytes);
        }
    }
    list.comment("set-up: each message while each is due");
    list.settings(server);
    for due in Due::ALL {
        for kind in 1..=4 {
            let heard = bytes_of(&message(random, kind));
            list.setup(due, heard);
        }
        list.setup(due, Vec::new());
        list.setup(due, EYE_CATCHER.to_vec());
    }
    list.comment("set-up: each bit that is tested or reserved, in each message");
    for kind in 1..=4 {
        let base = match kind {
            1 => bytes_of(&proposal(random, 2, 1)),
            _ => bytes_of(&message(random, kind)),
        };
        let n = base.len();
        let mut places: Vec<usize> = (0..8).chain(n - 4..n).collect();
        places.extend(match kind {
            1 => vec![38, 39, 40, 41, 47, 48, 49],
            4 => vec![20, 21, 22, 23],
            _ => vec![50, 51, 60],
        });
        for at in places {
            for bit in 0..8 {
                let mut bytes = base.clone();
                bytes[at] ^= 1 << bit;
                list.clc(bytes);
            }
        }
    }
    list.comment("set-up: lengths");
    for kind in 1..=4 {
        let base = bytes_of(&match kind {
            1 => proposal(random, 0, 0),
            _ => message(random, kind),
        });
        for length in [0, 1, 7, 8, 27, 28, 29, 51, 52, 53, 67, 68, 69] {
            lengths(list, &base, length);
        }
    }
    for (offset, count) in [(0, 8), (1, 0), (40, 0), (40, 8), (300, 3)] {
        let base = bytes_of(&proposal(random, offset, count));
        for length in [base.len() - 17, base.len() - 1, base.len(), base.len() + 1] {
            lengths(list, &base, length);
        }
    }
    list.comment("set-up: versions");
    for version in 0..16 {
        for kind in 1..=4 {
            let mut bytes = bytes_of(&message(random, kind));
            bytes[7] = version << 4 | bytes[7] & 15;
            list.clc(bytes);
        }
    }
    list.comment("set-up: counts of prefixes");
    for count in (0..=9).chain([15, 255]) {
        let mut bytes = bytes_of(&proposal(random, 0, 0));
        bytes.truncate(48);
        bytes[47] = count;
        bytes.extend(random.bytes(17 * usize::from(count)));
        bytes.extend(EYE_CATCHER);
        set_length(&mut bytes);
        list.clc(bytes);
        list.settings(Settings { count, ..client });
        list.setup(Due::None, Vec::new());
    }
}

fn set_length(bytes: &mut [u8]) {
    if bytes.len() >= 7 {
        let length = bytes.len() as u16;
        bytes[5..7].copy_from_slice(&length.to_be_bytes());
    }
}

/// A message cut or made longer, with its length as it was and as it is.
fn lengths(list: &mut List, base: &[u8], length: usize) {
    let mut bytes = base.to_vec();
    bytes.resize(length, 0);
    list.clc(bytes.clone());
    set_length(&mut bytes);
    list.clc(bytes.clone());
    if length >= 8 {
        bytes[length - 4..].copy_from_slice(&EYE_CATCHER);
        list.clc(bytes);
    }
}

/// Bytes damaged in one or several places, cut, or of no kind at all.
fn damaged(random: &mut Random, mut bytes: Vec<u8>) -> Vec<u8> {
    match random.below(8) {
        0 => {
            bytes.truncate(random.below(bytes.len() as u64 + 1) as usize);
        }
        1 => bytes.extend(random.bytes(3)),
        2 => {
            let at = random.below(bytes.len() as u64) as usize;
            bytes[at] ^= 1 << random.below(8);
        }
        3 => bytes[4] = random.below(7) as u8,
        4 => bytes[7] = random.draw() as u8,
        5 if bytes.len() > 50 => bytes[50] = random.draw() as u8,
        6 if bytes[4] == 1 => {
            let at = *random.pick(&[38, 39, 47]);
            bytes[at] = random.below(12) as u8;
        }
        _ => {
            let length = bytes.len();
            let last = *random.pick(&[1, 2, 3, 4]);
            bytes[length - last] ^= 0x20;
        }
    }
    bytes
}

/// Exchanges of any two ends, damaged on their way, and messages read again.
pub fn hostile(list: &mut List, random: &mut Random) {
    for _ in 0..5 {
        let (client, server) = (settings(random), settings(random));
        exchange(list, &client, &server, |bytes| bytes);
        exchange(list, &client, &server, |bytes| {
            if random.chance(1, 3) {
                damaged(random, bytes)
            } else {
                bytes
            }
        });
    }
    for _ in 0..40 {
        let kind = random.between(1, 4) as u8;
        let bytes = bytes_of(&message(random, kind));
        let bytes = match random.below(4) {
            0 => bytes,
            1 => {
                // Reserved bits and fields as they come.
                let mut bytes = bytes;
                let at = random.below(bytes.len() as u64) as usize;
                bytes[at] = random.draw() as u8;
                bytes
            }
            _ => damaged(random, bytes),
        };
        if random.chance(1, 2) {
            let due = *random.pick(&Due::ALL);
            list.setup(due, bytes);
        } else {
            list.clc(bytes);
        }
    }
    for _ in 0..6 {
        let length = random.below(90) as usize;
        let mut bytes = random.bytes(length);
        if length > 8 && random.chance(2, 3) {
            bytes[..4].copy_from_slice(&EYE_CATCHER);
            bytes[4] = random.between(1, 4) as u8;
            set_length(&mut bytes);
        }
        list.clc(bytes);
    }
}

/// One exchange among the traffic, now and then declined by the other end.
pub fn act(list: &mut List, random: &mut Random) {
    let (client, server) = (settings(random), settings(random));
    let mut step = 0;
    let declined = random.below(9);
    exchange(list, &client, &server, |bytes| {
        step += 1;
        if step == declined {
            bytes_of(&message(random, 4))
        } else {
            bytes
        }
    });
}

/// The longest Proposal.
pub fn longest(list: &mut List, random: &mut Random) {
    let bytes = bytes_of(&proposal(random, 65_535 - 52 - 17, 1));
    list.clc(bytes);
}
