//! Setting up a connection, 2026-05. The examples are the rules page's own.

use model::clc::{Clc, Decline, Ends, Prefix, Proposal};
use model::random::Random;
use model::replay::answer_all;
use model::setup::*;
use model::smcr::Opening;

fn answers(input: &str) -> Vec<String> {
    String::from_utf8(answer_all(input.as_bytes()))
        .unwrap()
        .lines()
        .map(str::to_string)
        .collect()
}

fn last(input: &str) -> String {
    answers(input).pop().unwrap()
}

const CLIENT: &str =
    "settings 65536 0001020000000001 FE800000000000000200000000000001 020000000001 \
                      FFFFFF00 24 0 - 0 64 5 1000 2711790500 4294967296 3 5 1 0 0 11 4096 0 0 0 0";
const SERVER: &str = "settings 16384 0002020000000002 FE800000000000000200000000000002 020000000002 \
                      00000000 0 0 - 1 8 4 2000 2981278644 8589934592 7 16909060 1 0 0 22 8192 0 0 0 0";
const PROPOSAL: &str =
    "E2D4C3D9010034100001020000000001FE800000000000000200000000000001020000000001\
                        0000FFFFFF0018000000E2D4C3D9";
const ACCEPT: &str =
    "E2D4C3D9020044180002020000000002FE80000000000000020000000000000202000000000200\
                      0008B1B2B3B4070102030404000000000200000000000007D0E2D4C3D9";
const CONFIRM: &str =
    "E2D4C3D9030044100001020000000001FE80000000000000020000000000000102000000000100\
                       0040A1A2A3A4030000000525000000000100000000000003E8E2D4C3D9";
const DECLINE: &str = "E2D4C3D904001C1000010200000000010000000100000000E2D4C3D9";

#[test]
fn the_page_s_example() {
    assert_eq!(
        last(&format!("{CLIENT}\nsetup none -")),
        format!("setup message {PROPOSAL} open - decline -")
    );
    assert_eq!(
        last(&format!("{SERVER}\nsetup Proposal {PROPOSAL}")),
        format!("setup message {ACCEPT} open - decline -")
    );
    assert_eq!(
        last(&format!("{CLIENT}\nsetup Accept {ACCEPT}")),
        format!(
            "setup message {CONFIRM} open 3,5,16909060,1,16384,7,2981278644,8589934592,11,4096,\
             0,0,0,0 decline -"
        )
    );
    assert_eq!(
        last(&format!("{SERVER}\nsetup Confirm {CONFIRM}")),
        "setup message - open 7,16909060,5,1,65536,3,2711790500,4294967296,22,8192,0,0,0,0 \
         decline -"
    );
    // Byte 50 of the Accept as 35: code 3.
    let three = format!("{}35{}", &ACCEPT[..100], &ACCEPT[102..]);
    assert_eq!(
        last(&format!("{CLIENT}\nsetup Accept {three}")),
        format!("setup message {DECLINE} open - decline 1")
    );
    let uncoded = CLIENT.replacen("65536", "65540", 1);
    for setup in [
        "none -".to_string(),
        format!("Accept {ACCEPT}"),
        "Proposal 00".to_string(),
    ] {
        assert_eq!(last(&format!("{uncoded}\nsetup {setup}")), "refused 1");
    }
    // A heard Decline has no answer but its own diagnosis.
    for due in ["Proposal", "Accept", "Confirm"] {
        let heard = format!("{}DEADBEEF{}", &DECLINE[..32], &DECLINE[40..]);
        assert_eq!(
            last(&format!("{CLIENT}\nsetup {due} {heard}")),
            "setup message - open - decline 3735928559"
        );
    }
}

#[test]
fn refusals_in_order() {
    // 2: no message; 3: another message than the one due.
    assert_eq!(last(&format!("{CLIENT}\nsetup Accept -")), "refused 2");
    assert_eq!(
        last(&format!("{CLIENT}\nsetup Accept {CONFIRM}")),
        "refused 3"
    );
    assert_eq!(
        last(&format!("{CLIENT}\nsetup Proposal {ACCEPT}")),
        "refused 3"
    );
    let damaged = format!("{}D8", &CONFIRM[..134]);
    assert_eq!(
        last(&format!("{CLIENT}\nsetup Accept {damaged}")),
        "refused 2"
    );
    // At the start the bytes are not read.
    let start = last(&format!("{CLIENT}\nsetup none -"));
    for bytes in [CONFIRM, DECLINE, "00"] {
        assert_eq!(last(&format!("{CLIENT}\nsetup none {bytes}")), start);
    }
}

#[test]
fn codes() {
    for (code, bytes) in [(0, 16), (1, 32), (2, 64), (3, 128), (4, 256), (5, 512)] {
        assert_eq!(bytes_of_code(code), Some(bytes * 1_024));
        assert_eq!(code_of_bytes(bytes * 1_024), Some(code));
    }
    for code in 6..=255 {
        assert_eq!(bytes_of_code(code), None);
    }
    for size in [0, 1, 8, 10_000, 16_383, 16_385, 65_540, 1_048_576, u32::MAX] {
        assert_eq!(code_of_bytes(size), None);
    }
}

fn random_ends(random: &mut Random) -> Ends {
    let array8 = random.draw().to_be_bytes();
    Ends {
        version: random.between(1, 15) as u8,
        peer_id: array8,
        gid: [random.draw() as u8; 16],
        mac: [random.draw() as u8; 6],
        qp: random.draw() as u32 >> 8,
        key: random.draw() as u32,
        index: random.draw() as u8,
        token: random.draw() as u32,
        code: random.below(16) as u8,
        mtu: random.below(16) as u8,
        base: random.draw(),
        psn: random.draw() as u32 >> 8,
    }
}

#[test]
fn messages_read_back() {
    let mut random = Random::new(5);
    for round in 0..400 {
        let message = match round % 4 {
            0 => Clc::Proposal(Proposal {
                version: random.between(1, 15) as u8,
                peer_id: random.draw().to_be_bytes(),
                gid: [random.draw() as u8; 16],
                mac: [random.draw() as u8; 6],
                offset: random.below(90) as u16,
                mask: [1, 2, 3, random.draw() as u8],
                mask_length: random.draw() as u8,
                prefixes: (0..random.below(9))
                    .map(|_| Prefix {
                        prefix: [random.draw() as u8; 16],
                        length: random.draw() as u8,
                    })
                    .collect(),
            }),
            1 => Clc::Accept {
                first_contact: random.chance(1, 2),
                ends: random_ends(&mut random),
            },
            2 => Clc::Confirm(random_ends(&mut random)),
            _ => Clc::Decline(Decline {
                version: random.between(1, 15) as u8,
                out_of_sync: random.chance(1, 2),
                peer_id: random.draw().to_be_bytes(),
                diagnosis: random.draw() as u32,
            }),
        };
        let bytes = message.write().expect("fields that fit");
        assert_eq!(Clc::read(&bytes), Ok(message));
        // A byte too few or too many, or another byte 5 or 6, makes it none.
        assert!(Clc::read(&bytes[..bytes.len() - 1]).is_err());
        assert!(Clc::read(&[&bytes[..], &[0]].concat()).is_err());
        for at in [0, 1, 2, 3, 5, 6, bytes.len() - 4, bytes.len() - 1] {
            let mut wrong = bytes.clone();
            wrong[at] ^= 1;
            assert!(Clc::read(&wrong).is_err(), "{at}");
        }
        let mut wrong = bytes.clone();
        wrong[7] &= 15;
        assert!(Clc::read(&wrong).is_err());
    }
}

#[test]
fn fields_that_do_not_fit_are_not_written() {
    let ends = Ends {
        version: 1,
        ..Ends::default()
    };
    assert!(Clc::Confirm(ends).write().is_some());
    for wrong in [
        Ends { version: 0, ..ends },
        Ends {
            version: 16,
            ..ends
        },
        Ends {
            qp: 1 << 24,
            ..ends
        },
        Ends {
            psn: 1 << 24,
            ..ends
        },
        Ends { code: 16, ..ends },
        Ends { mtu: 16, ..ends },
    ] {
        assert_eq!(Clc::Confirm(wrong).write(), None);
    }
    let mut proposal = Proposal {
        version: 1,
        offset: 65_483,
        ..Proposal::default()
    };
    assert_eq!(
        Clc::Proposal(proposal.clone()).write().unwrap().len(),
        65_535
    );
    proposal.offset += 1;
    assert_eq!(Clc::Proposal(proposal.clone()).write(), None);
    proposal.offset = 0;
    proposal.prefixes = vec![Prefix::default(); 9];
    assert_eq!(Clc::Proposal(proposal).write(), None);
}

#[test]
fn what_clc_prints() {
    assert_eq!(
        last(&format!("clc {PROPOSAL}")),
        format!(
            "clc Proposal 1 0001020000000001 FE800000000000000200000000000001 020000000001 0 \
             FFFFFF00 24 0 - again {PROPOSAL}"
        )
    );
    assert_eq!(
        last(&format!("clc {ACCEPT}")),
        format!(
            "clc Accept 1 1 0002020000000002 FE800000000000000200000000000002 020000000002 8 \
             2981278644 7 16909060 0 4 8589934592 2000 again {ACCEPT}"
        )
    );
    assert_eq!(
        last(&format!("clc {CONFIRM}")),
        format!(
            "clc Confirm 1 0001020000000001 FE800000000000000200000000000001 020000000001 64 \
             2711790500 3 5 2 5 4294967296 1000 again {CONFIRM}"
        )
    );
    assert_eq!(
        last(&format!("clc {DECLINE}")),
        format!("clc Decline 1 0 0001020000000001 1 again {DECLINE}")
    );
    assert_eq!(last("clc -"), "clc none");
    // Reserved bits are not looked at and written zero: bytes 20-23 of a Decline.
    let other = DECLINE.replacen("0000000100000000E2", "00000001FFFFFFFFE2", 1);
    assert_eq!(
        last(&format!("clc {other}")),
        format!("clc Decline 1 0 0001020000000001 1 again {DECLINE}")
    );
    let prefix = "20010DB8000000000000000000000000";
    let two = format!(
        "E2D4C3D9010058100001020000000001FE8000000000000002000000000000010200000000010002ABCD\
         0000000000FFFF02{prefix}40{prefix}30E2D4C3D9"
    );
    assert_eq!(two.len() / 2, 88);
    assert_eq!(
        last(&format!("clc {two}")),
        format!(
            "clc Proposal 1 0001020000000001 FE800000000000000200000000000001 020000000001 2 \
             00000000 0 2 {prefix}40{prefix}30 again {}",
            two.replacen("0002ABCD0000000000FFFF02", "000200000000000000000002", 1)
        )
    );
}

#[test]
fn the_exchange() {
    // "Two settings, four steps, both ends' open arguments match."
    let mut random = Random::new(9);
    for _ in 0..200 {
        let mut any = |size: u32| Settings {
            size,
            slot: random.draw() as u8,
            own_token: random.draw() as u32,
            link: random.between(1, 4) as u8,
            key: random.draw() as u32,
            base: random.draw(),
            qp: random.draw() as u32,
            count: random.draw() as u8,
            peer_keys: [1, 2, 3, 4],
            peer_bases: [5, 6, 7, 8],
            ..Settings::default()
        };
        let (c, s) = (any(65_536), any(16_384));
        let proposal = set_up(&c, Due::None, &[]).unwrap().message.unwrap();
        let accept = set_up(&s, Due::Proposal, &proposal)
            .unwrap()
            .message
            .unwrap();
        let at_client = set_up(&c, Due::Accept, &accept).unwrap();
        let confirm = at_client.message.unwrap();
        let at_server = set_up(&s, Due::Confirm, &confirm).unwrap();
        assert_eq!(at_server.message, None);
        for (open, us, peer) in [(at_client.open, c, s), (at_server.open, s, c)] {
            let mut expected = Opening {
                slot: u32::from(us.slot),
                own_token: us.own_token,
                peer_token: peer.own_token,
                link: us.link,
                peer_size: peer.size,
                index: u32::from(peer.slot),
                keys: us.peer_keys,
                bases: us.peer_bases,
            };
            expected.keys[usize::from(us.link) - 1] = peer.key;
            expected.bases[usize::from(us.link) - 1] = peer.base;
            assert_eq!(open, Some(expected));
        }
        // The server's size is too large: the client declines, and the server hears it.
        let large = Settings { size: 524_288, ..s };
        let accept = set_up(&large, Due::Proposal, &proposal)
            .unwrap()
            .message
            .unwrap();
        let declined = set_up(&c, Due::Accept, &accept).unwrap();
        assert_eq!((declined.open, declined.diagnosis), (None, Some(1)));
        let heard = set_up(&large, Due::Confirm, &declined.message.unwrap()).unwrap();
        assert_eq!(
            (heard.message, heard.open, heard.diagnosis),
            (None, None, Some(1))
        );
    }
}
