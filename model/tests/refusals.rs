//! The table of refusals, one row after another, and the order of the tests.

use model::replay::answer_all;

/// The last answer to some lines.
fn last(input: &str) -> String {
    let answers = String::from_utf8(answer_all(input.as_bytes())).unwrap();
    answers.lines().last().unwrap_or("").to_string()
}

/// Two elements of 16 bytes, link 1 active, slot 1 open: all cursors (4,0).
const START: &str = "group 2 16 32\nlink 1 1\nopen 1 5 6 1 16 1 0 0 0 0 0 0 0 0\n";

/// An index, and a key and a base for each link: an address is the offset.
const AT: &str = "1 0 0 0 0 0 0 0 0";

/// A record of slot 1 with the given marks; P (10,0), C (8,0), T (6,0), Q and R
/// (4,0).
fn marked(marks: u16) -> String {
    format!("{START}record 1 1 5 6 1 16 10 0 8 0 6 0 4 0 4 0 1 0 {marks} {AT} - -\n")
}

/// A message to slot 1 in hex.
fn message(producer: (u32, u16), consumer: (u32, u16), flags: u16) -> String {
    format!(
        "FE2C0001000000050000{:04X}{:08X}0000{:04X}{:08X}{:04X}{}",
        producer.1,
        producer.0,
        consumer.1,
        consumer.0,
        flags,
        "0".repeat(36)
    )
}

#[test]
fn number_1() {
    for group in [
        "0 16 0",
        "256 16 4096",
        "256 16 4096 255",
        "255 8 2040 254",
        "255 8 2040 256",
        "2 16 32 1",
        "2 16 32 3",
        "2 16 32 0",
        "2 16 32 258",
        "2 7 14",
        "2 65541 131082",
        "2 16 31",
        "2 16 33",
    ] {
        for call in [
            "send 1 00",
            "place 1 4 00",
            "shutdown 1",
            "close 1",
            "abort 1",
            "free 1",
        ] {
            assert_eq!(last(&format!("group {group}\n{call}")), "refused 1");
        }
        assert_eq!(last(&format!("group {group}\nread 1 0")), "refused 1 out -");
        assert_eq!(last(&format!("group {group}\nhear 00")), "refused 1");
        assert_eq!(
            last(&format!("group {group}\nopen 0 0 0 0 0 {AT}")),
            "refused 1"
        );
        // 2026-13: the three calls on links too, before all else; sample does not.
        for call in [
            "link 4 1",
            "link 5 0",
            "linkmsg 9 00",
            "linksend 9 01:0,0,0,0,0,0,0,0",
        ] {
            assert_eq!(last(&format!("group {group}\n{call}")), "refused 1 out -");
        }
        assert_eq!(
            last(&format!("group {group}\nlink 4 1 65600")),
            "refused 1 out -"
        );
        assert_eq!(last(&format!("group {group}\nsample 9 1")), "refused 13");
    }
    assert_eq!(
        last(&format!(
            "group 16 65540 1048640\nlink 1 1\nopen 16 1 1 1 8 {AT}"
        )),
        "open"
    );
    // 2026-06: up to 255, and the table may be named.
    for group in ["17 16 272", "255 4112 1048560", "255 8 2040 255"] {
        let slot = group.split(' ').next().unwrap();
        let open = format!("group {group}\nlink 1 1\nopen {slot} 1 1 1 8 {AT}");
        assert_eq!(last(&open), "open");
        let closed = last(&format!("{open}\nclose {slot}"));
        assert!(closed.starts_with("close message FE2C0001"));
    }
}

#[test]
fn number_2() {
    for slot in ["0", "2", "3", "17", "4294967295"] {
        assert_eq!(last(&format!("{START}send {slot} 00")), "refused 2");
        assert_eq!(last(&format!("{START}free {slot}")), "refused 2");
    }
    assert_eq!(last(&format!("{START}open 3 7 8 1 16 {AT}")), "refused 2");
    assert_eq!(last(&format!("{START}open 2 7 8 1 16 {AT}")), "open");
    // Closed by its mark, whatever else it holds.
    let junk = "record 2 0 7 8 1 16 10 0 8 0 6 0 4 0 4 0 1 0 32 1 0 0 0 0 0 0 0 0 - -\n";
    assert_eq!(last(&format!("{START}{junk}free 2")), "refused 2");
}

#[test]
fn number_3() {
    let broken = [
        "0 6 1 16 10 0 8 0 6 0 4 0 4 0",
        "5 0 1 16 10 0 8 0 6 0 4 0 4 0",
        "5 6 0 16 10 0 8 0 6 0 4 0 4 0",
        "5 6 5 16 10 0 8 0 6 0 4 0 4 0",
        "5 6 1 7 10 0 8 0 6 0 4 0 4 0",
        "5 6 1 65541 10 0 8 0 6 0 4 0 4 0",
        "5 6 1 16 3 1 4 0 4 0 4 0 4 0",
        "5 6 1 16 16 0 4 0 4 0 4 0 4 0",
        "5 6 1 16 4 0 4 0 3 0 4 0 4 0",
        "5 6 1 16 4 1 4 1 16 0 4 0 4 0",
        "5 6 1 16 10 0 5 0 6 0 4 0 4 0",
        "5 6 1 16 7 0 8 0 6 0 4 0 4 0",
        "5 6 1 16 7 1 7 0 6 0 4 0 4 0",
        "5 6 1 16 10 0 8 0 6 0 4 0 5 0",
        "5 6 1 16 10 0 8 0 6 0 5 1 4 0",
        "5 6 1 16 10 0 8 0 6 0 3 1 4 0",
        "5 6 1 16 10 0 8 0 6 0 4 1 16 0",
    ];
    for record in broken {
        let start = format!("{START}record 1 1 {record} 1 0 0 {AT} - -\n");
        assert_eq!(last(&format!("{start}send 1 00")), "refused 3", "{record}");
        assert_eq!(last(&format!("{start}free 1")), "refused 3", "{record}");
    }
    assert_eq!(last(&format!("{}close 1", marked(10))), "refused 3");
    // The same cursors, coherent: T to C 2, C to P 2; a full turn is coherent.
    assert!(last(&format!("{}close 1", marked(0))).starts_with("reset message FE2C"));
    assert!(last(&format!("{START}close 1")).starts_with("close message FE2C"));
    let full = "record 1 1 5 6 1 16 6 1 6 0 6 0 4 1 4 0 1 0 0 1 0 0 0 0 0 0 0 0 - -\n";
    assert_eq!(
        last(&format!("{START}{full}send 1 -")),
        "send 0 placings - message -"
    );
}

#[test]
fn numbers_4_and_5() {
    let good = message((10, 0), (4, 0), 0);
    assert_eq!(
        last(&format!("{}hear {good}", marked(0))),
        "hear 0 Active message -"
    );
    let longer = format!("{good}00");
    for bad in [&good[..86], &longer, "-"] {
        assert_eq!(last(&format!("{}hear {bad}", marked(0))), "refused 4");
    }
    let first = good.replacen("FE", "FF", 1);
    let second = good.replacen("2C", "2D", 1);
    assert_eq!(last(&format!("{}hear {first}", marked(0))), "refused 4");
    assert_eq!(last(&format!("{}hear {second}", marked(0))), "refused 4");
    let unknown = good.replacen("00000005", "00000007", 1);
    let zero = good.replacen("00000005", "00000000", 1);
    assert_eq!(last(&format!("{}hear {unknown}", marked(0))), "refused 5");
    assert_eq!(last(&format!("{}hear {zero}", marked(0))), "refused 5");
    // 4 comes before 5, 5 before 3.
    let both = unknown.replacen("2C", "2D", 1);
    assert_eq!(last(&format!("{}hear {both}", marked(0))), "refused 4");
    let zero_held = "record 1 1 0 6 1 16 10 0 8 0 6 0 4 0 4 0 1 0 0 1 0 0 0 0 0 0 0 0 - -\n";
    assert_eq!(last(&format!("{START}{zero_held}hear {zero}")), "refused 5");
}

#[test]
fn number_6_and_link_messages() {
    for call in ["send 1 00", "place 1 3 00", "shutdown 1", "abort 1"] {
        assert_eq!(last(&format!("{START}link 1 0\n{call}")), "refused 6");
    }
    assert_eq!(
        last(&format!("{START}link 1 0\nread 1 1")),
        "refused 6 out A5"
    );
    assert_eq!(last(&format!("{START}open 2 7 8 2 16 {AT}")), "refused 6");
    assert_eq!(last(&format!("{START}linkmsg 2 00")), "refused 6 out -");
    assert_eq!(last(&format!("{START}linkmsg 5 00")), "refused 13 out -");
    let rest = "0".repeat(84);
    for (first, answer) in [
        (
            "072C",
            format!(
                "linkmsg 07:0,0,0 taken reply 072C0080{} count 0 out -",
                "0".repeat(80)
            ),
        ),
        ("072D", "refused 4 out -".to_string()),
        ("042C", "refused 14 out -".to_string()),
        ("042D", "refused 4 out -".to_string()),
        ("052C", "refused 4 out -".to_string()),
        ("FE2C", "refused 4 out -".to_string()),
        ("C02C", "refused 4 out -".to_string()),
        (
            "8000",
            "linkmsg - dropped reply - count 0 out -".to_string(),
        ),
        (
            "BF2C",
            "linkmsg - dropped reply - count 0 out -".to_string(),
        ),
    ] {
        assert_eq!(
            last(&format!("{START}linkmsg 1 {first}{rest}")),
            answer,
            "{first}"
        );
    }
    assert_eq!(
        last(&format!("{START}linkmsg 1 80{}", "0".repeat(84))),
        "refused 4 out -"
    );
}

#[test]
fn number_7() {
    // D sent 1, C sent 2, D heard 4, C heard 8, A sent 32.
    for (call, forbidden) in [
        ("send 1 00", [1, 2, 32, 8].as_slice()),
        ("place 1 10 00", &[32, 4, 8]),
        ("shutdown 1", &[1, 2, 32]),
        ("close 1", &[2, 32]),
        ("abort 1", &[32]),
        ("free 1", &[0, 1, 2, 4, 8]),
        ("read 1 1", &[2, 32]),
    ] {
        for marks in [0, 1, 2, 4, 8, 32] {
            let answer = last(&format!("{}{call}", marked(marks)));
            let is_refused = answer.starts_with("refused 7");
            assert_eq!(
                is_refused,
                forbidden.contains(&marks),
                "{call} with {marks}"
            );
        }
    }
}

#[test]
fn number_8() {
    // T (6,0), P (10,0): the new P may go from (10,0) to (6,1). Q and R (4,0).
    for (producer, consumer, answer) in [
        ((10, 0), (4, 0), "hear 0 Active message -"),
        ((6, 1), (4, 0), "hear 8 Active message -"),
        ((7, 1), (4, 0), "refused 8"),
        ((9, 0), (4, 0), "refused 8"),
        ((5, 0), (4, 0), "refused 8"),
        ((16, 0), (4, 0), "refused 8"),
        ((3, 1), (4, 0), "refused 8"),
        ((10, 0), (5, 0), "refused 8"),
        ((10, 0), (15, 65_535), "refused 8"),
        ((10, 0), (4, 65_535), "refused 8"),
        ((10, 0), (16, 65_535), "refused 8"),
    ] {
        let hear = format!("hear {}", message(producer, consumer, 0));
        assert_eq!(
            last(&format!("{}{hear}", marked(0))),
            answer,
            "{producer:?} {consumer:?}"
        );
    }
    for heard in [4, 8] {
        let still = format!("hear {}", message((10, 0), (4, 0), 0));
        let moves = format!("hear {}", message((11, 0), (4, 0), 0));
        assert_eq!(
            last(&format!("{}{still}", marked(heard))),
            "hear 0 AppCloseWait1 message -"
        );
        assert_eq!(last(&format!("{}{moves}", marked(heard))), "refused 8");
    }
    // Not looked at with A, nor after A sent.
    let wild = format!("hear {}", message((0, 0), (0, 0), 0));
    assert_eq!(
        last(&format!("{}{wild}", marked(32))),
        "hear 0 PeerAbortWait message -"
    );
    let abort = format!("hear {}", message((0, 0), (0, 0), 0x0020));
    assert_eq!(
        last(&format!("{}{abort}", marked(32))),
        "hear 0 Closed message -"
    );
    assert!(last(&format!("{}{abort}", marked(0))).starts_with("hear 0 Closed message FE2C"));
}

#[test]
fn number_16() {
    // The last number heard and the one in the message; T (6,0), P (10,0).
    let heard = |last: u16, marks: u16| {
        format!("{START}record 1 1 5 6 1 16 10 0 8 0 6 0 4 0 4 0 1 {last} {marks} {AT} - -\n")
    };
    let hear = |sequence: u16, producer: (u32, u16), flags: u16| {
        let one = message(producer, (4, 0), flags);
        format!("hear FE2C{sequence:04X}{}", &one[8..])
    };
    for (last_number, number, next) in [
        (0, 1, true),
        (0, 0, false),
        (0, 2, false),
        (0, 65_535, false),
        (7, 8, true),
        (7, 7, false),
        (7, 6, false),
        (7, 9, false),
        (65_534, 65_535, true),
        (65_534, 0, false),
        (65_535, 0, true),
        (65_535, 1, false),
        (65_535, 65_535, false),
    ] {
        let answer = last(&format!(
            "{}{}",
            heard(last_number, 0),
            hear(number, (10, 0), 0)
        ));
        let expected = if next {
            "hear 0 Active message -"
        } else {
            "refused 16"
        };
        assert_eq!(answer, expected, "{last_number} {number}");
        // Before 8, after 6.
        let answer = last(&format!(
            "{}{}",
            heard(last_number, 0),
            hear(number, (3, 0), 0)
        ));
        assert_eq!(answer, if next { "refused 8" } else { "refused 16" });
        let down = format!("{}link 1 0\n", heard(last_number, 0));
        let answer = last(&format!("{down}{}", hear(number, (3, 0), 0)));
        assert_eq!(answer, "refused 6");
        // A is exempt, and so is any message after our A.
        let answer = last(&format!(
            "{}{}",
            heard(last_number, 0),
            hear(number, (3, 0), 0x20)
        ));
        assert!(answer.starts_with("hear 0 Closed message FE2C"));
        for (flags, state) in [(0, "PeerAbortWait"), (0x20, "Closed")] {
            let laid = heard(last_number, 32);
            let answer = last(&format!("{laid}{}", hear(number, (3, 0), flags)));
            assert_eq!(answer, format!("hear 0 {state} message -"));
        }
    }
}

#[test]
fn a_refused_number_changes_nothing() {
    let table = |calls: &str| {
        let answers = answer_all(format!("{START}{calls}table\n").as_bytes());
        let lines = String::from_utf8(answers).unwrap();
        lines[lines.find("slot 1 ").unwrap()..].to_string()
    };
    let before = table("");
    for sequence in ["0000", "0002", "FFFF"] {
        let one = message((4, 0), (4, 0), 0).replacen("FE2C0001", &format!("FE2C{sequence}"), 1);
        assert_eq!(last(&format!("{START}hear {one}")), "refused 16");
        assert_eq!(table(&format!("hear {one}\n")), before);
        let next = message((4, 0), (4, 0), 0);
        let after = last(&format!("{START}hear {one}\nhear {next}"));
        assert_eq!(after, "hear 0 Active message -");
    }
}

#[test]
fn number_9() {
    // D 12, T to P 4, so eight bytes are free: 10 to 15, then 4 and 5.
    for (place, answer) in [
        ("10 010203040506", "place"),
        ("10 01020304050607", "refused 9"),
        ("4 0102", "place"),
        ("4 010203", "refused 9"),
        ("6 01", "refused 9"),
        ("8 01", "refused 9"),
        ("9 01", "refused 9"),
        ("3 01", "refused 9"),
        ("16 01", "refused 9"),
        ("15 01", "place"),
        ("0 -", "place"),
        ("4294967295 -", "place"),
        ("4294967295 01", "refused 9"),
    ] {
        assert_eq!(
            last(&format!("{}place 1 {place}", marked(0))),
            answer,
            "{place}"
        );
    }
}

#[test]
fn numbers_of_open() {
    for (open, answer) in [
        ("1 9 9 1 16", "refused 10"),
        ("1 0 0 0 0", "refused 10"),
        ("2 0 9 1 16", "refused 12"),
        ("2 9 0 1 16", "refused 12"),
        ("2 9 9 1 7", "refused 12"),
        ("2 9 9 1 65541", "refused 12"),
        ("2 0 9 9 16", "refused 12"),
        ("2 5 9 0 16", "refused 13"),
        ("2 5 9 5 16", "refused 13"),
        ("2 5 9 2 16", "refused 6"),
        ("2 5 9 1 16", "refused 11"),
        ("2 6 9 1 65540", "open"),
        ("2 6 9 1 8", "open"),
    ] {
        assert_eq!(last(&format!("{START}open {open} {AT}")), answer, "{open}");
    }
}

#[test]
fn elements_out_of_reach() {
    // 2026-09. N' is 16; with index 255 the last byte is base + 4,079.
    let top = u64::MAX - 4_079;
    for (index, bases, answer) in [
        (1, [0; 4], "open"),
        (0, [0; 4], "refused 12"),
        (255, [0; 4], "open"),
        (256, [0; 4], "refused 12"),
        (257, [0; 4], "refused 12"),
        (255, [top, top, top, top], "open"),
        (255, [top + 1, 0, 0, 0], "refused 12"),
        (255, [0, top + 1, 0, 0], "refused 12"),
        (255, [0, 0, 0, top + 1], "refused 12"),
        (1, [u64::MAX - 15, 0, 0, u64::MAX - 15], "open"),
        (1, [0, 0, u64::MAX - 14, 0], "refused 12"),
        (1, [u64::MAX, 0, 0, 0], "refused 12"),
    ] {
        let at = format!(
            "{index} 1 {} 2 {} 3 {} 4 {}",
            bases[0], bases[1], bases[2], bases[3]
        );
        let open = last(&format!("{START}open 2 7 8 1 16 {at}"));
        assert_eq!(open, answer, "{at}");
        // 12 comes before 13.
        if answer != "open" {
            assert_eq!(last(&format!("{START}open 2 7 8 9 16 {at}")), "refused 12");
        }
        if index < 256 {
            let record = format!("record 1 1 5 6 1 16 10 0 8 0 6 0 4 0 4 0 1 0 0 {at} - -\n");
            let send = last(&format!("{START}{record}send 1 0102"));
            if answer == "open" {
                let address = bases[0] + (index as u64 - 1) * 16 + 4;
                assert!(send.starts_with(&format!("send 2 placings 1,{address},0,2 message")));
            } else {
                assert_eq!(send, "refused 3", "{at}");
            }
        }
    }
}

#[test]
fn order_of_slot_calls() {
    // Incoherent and its link down: 3. Link down and forbidden: 6. Forbidden and
    // not free: 7.
    let broken = "record 1 1 0 6 2 16 10 0 8 0 6 0 4 0 4 0 1 0 32 1 0 0 0 0 0 0 0 0 - -\n";
    assert_eq!(last(&format!("{START}{broken}place 1 3 00")), "refused 3");
    let down = "record 1 1 5 6 2 16 10 0 8 0 6 0 4 0 4 0 1 0 32 1 0 0 0 0 0 0 0 0 - -\n";
    assert_eq!(last(&format!("{START}{down}place 1 3 00")), "refused 6");
    let forbidden = "record 1 1 5 6 1 16 10 0 8 0 6 0 4 0 4 0 1 0 32 1 0 0 0 0 0 0 0 0 - -\n";
    assert_eq!(
        last(&format!("{START}{forbidden}place 1 3 00")),
        "refused 7"
    );
    // Hear gives no 7, and 6 comes before 8.
    let hear = format!("hear {}", message((0, 0), (0, 0), 0));
    let down = "record 1 1 5 6 2 16 10 0 8 0 6 0 4 0 4 0 1 0 0 1 0 0 0 0 0 0 0 0 - -\n";
    assert_eq!(last(&format!("{START}{down}{hear}")), "refused 6");
}
