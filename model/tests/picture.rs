//! The picture: old bytes can be seen until an open removes them, and so can a
//! blocked writer. The gate holds the stored pictures to the program.

use model::generate::{exhaust, hostile, traffic};
use model::picture::{crowded, picture};
use model::replay::answer_all;

const STALE_INK: &str = "#8c2f24";
const WRITTEN: &str = "#2b8a3e";

fn drawn(lines: &[&str]) -> String {
    picture(lines.join("\n").as_bytes())
}

/// What the last of some lines adds to the picture. A row is drawn after the
/// rows before it, and only the size of the whole changes above.
fn added(lines: &[&str]) -> String {
    let (last, before) = lines.split_last().unwrap();
    let (whole, part) = (drawn(lines), drawn(before));
    let above = part.lines().count() - 1;
    let row: Vec<&str> = whole.lines().skip(above).collect();
    assert!(!row.is_empty(), "{last}");
    row.join("\n")
}

/// The cells of a row in one colour that hold a sign.
fn cells(row: &str, colour: &str, sign: char) -> usize {
    row.lines()
        .filter(|line| line.starts_with("<g font-size") && line.contains(colour))
        .map(|line| line.matches(&format!(">{sign}</text>")).count())
        .sum()
}

const ONE_END: [&str; 5] = [
    "group 1 24 24",
    "link 1 1",
    "open 1 11 22 1 24 1 0 0 0 0 0 0 0 0",
    "place 1 4 6F6C64",
    "abort 1",
];

#[test]
fn old_bytes_lie_in_a_closed_element() {
    let mut lines = ONE_END.to_vec();
    lines.push("free 1");
    let row = added(&lines);
    assert!(row.contains("closed: the bytes lie here until the next open"));
    for sign in "old".chars() {
        assert_eq!(cells(&row, STALE_INK, sign), 1, "{sign}");
    }
    lines.push("memory 0 8");
    let row = added(&lines);
    assert!(row.contains("E2 D4 C3 D9 6F 6C 64 00"));
    assert_eq!(cells(&row, STALE_INK, 'o'), 1);
}

#[test]
fn an_open_is_seen_to_zero_the_element() {
    let mut lines = ONE_END.to_vec();
    lines.extend(["free 1", "open 1 33 44 1 24 1 0 0 0 0 0 0 0 0"]);
    let row = added(&lines);
    for sign in "old".chars() {
        assert!(!row.contains(&format!(">{sign}</text>")), "{sign}");
    }
    assert!(row.contains(WRITTEN));
    assert_eq!(row.matches(">\u{b7}</text>").count(), 20);
    lines.push("memory 0 8");
    assert!(added(&lines).contains("E2 D4 C3 D9 00 00 00 00"));
}

#[test]
fn a_blocked_writer_is_seen() {
    let twenty = format!("send 1 {}", "41".repeat(20));
    let mut lines = vec![
        "group 2 24 48",
        "link 1 1",
        "open 1 11 22 1 24 1 0 0 0 0 0 0 0 0",
        "open 2 22 11 1 24 1 0 0 0 0 0 0 0 0",
        "send 1 4142",
    ];
    let row = added(&lines);
    assert!(row.contains("R (4,0)") && row.contains("Q (6,0)") && row.contains("room 18"));
    assert!(!row.contains("blocked"));
    lines.push(&twenty);
    let row = added(&lines);
    assert!(row.contains("Q (4,1)") && row.contains("room 0, blocked"));
}

#[test]
fn a_move_is_seen() {
    let mut lines = vec![
        "group 2 24 48",
        "link 1 1",
        "link 3 1",
        "open 1 11 22 1 24 2 7 0 0 0 9 0 0 0",
        "open 2 22 11 1 24 1 7 0 0 0 9 0 0 0",
        "abort 2",
        "link 1 0",
    ];
    let row = added(&lines);
    assert!(row.contains(">link 1 down</text>"));
    assert_eq!(row.matches("link 1 \u{2192} link 3").count(), 2);
    assert!(row.contains("makes message 0 with F") && row.contains("silent: A was sent"));
    assert_eq!(row.matches(">link 3</text>").count(), 2);
    lines.push("send 1 4142");
    assert!(added(&lines).contains("by link 3, key 9, makes message 1"));
}

#[test]
fn one_end_or_two() {
    let one = drawn(&ONE_END);
    assert!(one.contains(">the peer</text>") && one.contains(">slot 1</text>"));
    let two = drawn(&[
        "group 2 24 48",
        "link 1 1",
        "open 2 5 6 1 24 1 0 0 0 0 0 0 0 0",
        "open 1 6 5 1 24 1 0 0 0 0 0 0 0 0",
    ]);
    assert!(two.contains(">slot 1</text>") && two.contains(">slot 2</text>"));
    assert!(!two.contains(">the peer</text>"));
}

/// Lists of every kind are drawn, and each mark that is opened is closed.
#[test]
fn any_list_is_drawn() {
    let lists = [
        traffic::list(3, 200),
        hostile::list(1, Some(300)),
        exhaust::list(1),
        Vec::new(),
        b"group 0 0 0\nopen 1 1 1 1 8\nmemory 0 0\n".to_vec(),
    ];
    for list in lists {
        let svg = picture(&list);
        assert!(svg.starts_with("<svg ") && svg.ends_with("</svg>\n"));
        for mark in ["g", "text"] {
            let opened = svg.matches(&format!("<{mark} ")).count();
            assert_eq!(opened, svg.matches(&format!("</{mark}>")).count(), "{mark}");
        }
    }
}

const EVERY: &str = include_str!("../../examples/every.txt");

/// The words of the format, and what each says in the picture of the example that has
/// them all.
#[test]
fn every_kind_of_line_is_drawn() {
    let words = [
        ("group", "a fresh group: 5 elements of 24 bytes"),
        ("open", "open: own token 55, peer token 66"),
        ("free", ">free<"),
        ("link", ">link 1 down<"),
        ("linkmsg", "on link 1 heard: DELETE LINK request"),
        ("send", "send 21 bytes, 20 taken: 15.2"),
        ("urgent", "urgent send 1 byte, 1 taken: !"),
        ("gather", "gather 4 + 4 bytes, 8 taken: 12.4"),
        ("place", "RDMA write to 4..6: old"),
        ("read", "read into 2: 2 bytes: ol"),
        ("hear", "message 1: producer (7,0), consumer (4,0)"),
        ("shutdown", ">shutdown<"),
        ("close", "close: reset, bytes are unread"),
        ("abort", ">abort<"),
        ("record", "record laid: open, link 2"),
        ("poke", "poke: 1 byte laid from 0 on"),
        ("table", "table printed"),
        ("memory", "memory, 24 bytes from 24 on"),
        ("pool", "pool: all units free"),
        ("take", "take 16 units: from unit 0 on"),
        ("return", "return 16 units from unit 0 on"),
        ("books", "books laid: 2 blocks, 36 of 64 units"),
        ("sample", "link 1 answered in 400 ms"),
        (
            "health",
            "health of link 1: late, mean 67.5 ms, worst 400 ms",
        ),
        ("gauge", "mean 10 ms, worst 20 ms, 2 samples"),
        ("settings", "settings laid"),
        ("setup", "set-up, Accept due: hears Accept, 68 bytes"),
        ("clc", "set-up message read: Decline, 28 bytes"),
        ("linksend", "on link 2 sent: CONFIRM LINK request"),
        ("links", "links laid: 2\u{a0}and\u{a0}3\u{a0}active"),
        ("role", "role: server"),
        ("exchange", "exchange laid: stage 5 over link 2, for link 3"),
        ("queue", "queue laid: 1 message"),
    ];
    let svg = picture(EVERY.as_bytes());
    for (word, text) in words {
        let there = |line: &str| line.split(' ').next() == Some(word);
        assert!(EVERY.lines().any(there), "the example has no {word}");
        assert!(svg.contains(text), "{word}: {text}");
    }
    assert!(svg.contains("bad line: unknown word"));
    for slot in 1..=5 {
        assert!(svg.contains(&format!(">slot {slot}</text>")), "slot {slot}");
    }
}

/// No line of the example can go without a change to the picture.
#[test]
fn no_line_vanishes() {
    let whole = picture(EVERY.as_bytes());
    let lines: Vec<&str> = EVERY.lines().collect();
    for place in 0..lines.len() {
        let mut without = lines.clone();
        let line = without.remove(place);
        assert_ne!(picture(without.join("\n").as_bytes()), whole, "{line}");
    }
}

/// A gather's step of Q stands in the gather's own row.
#[test]
fn a_gather_moves_q_in_its_own_row() {
    let row = added(&[
        "group 2 24 48",
        "link 1 1",
        "open 1 11 22 1 24 1 0 0 0 0 0 0 0 0",
        "open 2 22 11 1 24 1 0 0 0 0 0 0 0 0",
        "gather 1 4142 434445",
    ]);
    assert!(row.contains("gather 2 + 3 bytes, 5 taken: ABCDE"));
    assert!(row.contains("Q (9,0)") && row.contains("room 15"));
}

/// Every refused call says which number, and what the list says of it.
#[test]
fn refusals_have_their_words() {
    let lists = [
        EVERY.as_bytes().to_vec(),
        hostile::list(1, Some(600)),
        exhaust::list(1),
    ];
    for list in lists {
        let answers = String::from_utf8(answer_all(&list)).unwrap();
        let refused = |line: &&str| line.starts_with("refused ");
        let svg = picture(&list);
        let said = svg.matches(">refused ").count();
        assert_eq!(said, answers.lines().filter(refused).count());
        assert!(!svg.contains("not in the list"));
    }
    let svg = picture(EVERY.as_bytes());
    for words in [
        "refused 2: slot outside 1 to S, or closed",
        "refused 3: a message not due, Decline aside",
        "refused 5: no open slot has the token, or it is 0",
        "refused 16: not the last number heard plus one",
        "refused 18: not 1, 2, 4, 8, 16, 32 or 64 units",
    ] {
        assert!(svg.contains(words), "{words}");
    }
}

#[test]
fn a_picture_has_a_title_and_its_words() {
    let svg = picture(EVERY.as_bytes());
    let head: Vec<&str> = svg.lines().take(3).collect();
    assert!(head[0].contains("role=\"img\" aria-labelledby=\"title description\""));
    let first = EVERY.lines().next().unwrap().trim_start_matches("# ");
    assert_eq!(head[1], format!("<title id=\"title\">{first}</title>"));
    assert!(head[2].starts_with("<desc id=\"description\">Time runs downward. "));
    for words in [
        "slot 1: gather 4 + 4 bytes, 8 taken: 12.4\u{2423}8.9; in 2 pieces, makes message 1.",
        "to slot 2: RDMA write to 4..11: 12.4\u{2423}8.9.",
        "refused 18: not 1, 2, 4, 8, 16, 32 or 64 units.",
    ] {
        assert!(head[2].contains(words), "{words}");
    }
    let svg = picture(b"link 1 1\n");
    assert!(svg.contains("<title id=\"title\">A list of calls</title>"));
    // A long list is told in part, and says so.
    let long = "free 1\n".repeat(1_000);
    let svg = picture(long.as_bytes());
    assert!(svg.contains(" more rows are drawn and not told here</desc>"));
    assert_eq!(svg.matches(">free</text>").count(), 1_000);
}

/// With 255 slots those that a call concerns are drawn, and the group's row names the
/// others.
#[test]
fn many_slots() {
    let mut lines = vec!["group 255 8 2040".to_string(), "link 1 1".to_string()];
    for (slot, own, peer) in [(1, 11, 22), (2, 22, 11), (128, 33, 44), (255, 55, 66)] {
        lines.push(format!("open {slot} {own} {peer} 1 8 1 0 0 0 0 0 0 0 0"));
    }
    lines.push("link 2 1".to_string());
    lines.push("link 1 0".to_string());
    let svg = picture(lines.join("\n").as_bytes());
    for slot in [1, 2, 128, 255] {
        assert!(svg.contains(&format!(">slot {slot}</text>")), "slot {slot}");
    }
    assert!(svg.contains("slots 3 to 127 and 129 to 254 are not drawn: no call concerns them"));
    // All four move, and the picture says it of those that are not at the sides.
    for slot in [1, 2, 128] {
        let moves = format!("slot {slot}: link 1 \u{2192} link 2, makes message 0 with F");
        assert!(svg.lines().nth(2).unwrap().contains(&moves), "slot {slot}");
    }
    let open_all: Vec<String> = (1..=255)
        .map(|slot| format!("open {slot} {slot} 999 1 8 1 0 0 0 0 0 0 0 0"))
        .collect();
    let list = format!("group 255 8 2040\nlink 1 1\n{}", open_all.join("\n"));
    let svg = picture(list.as_bytes());
    for slot in 1..=255 {
        assert!(svg.contains(&format!(">slot {slot}</text>")), "slot {slot}");
    }
    assert!(!svg.contains("not drawn"));
}

/// What is shown in part says so.
#[test]
fn what_is_left_out_is_said() {
    let long = "41".repeat(25);
    let send = format!("send 1 {long}");
    let lines = [
        "group 1 41 41",
        "link 1 1",
        "open 1 11 22 1 41 1 0 0 0 0 0 0 0 0",
        &send,
        "memory 0 41",
    ];
    let svg = drawn(&lines);
    assert!(svg.contains("Not drawn: the single bytes of an element of more than 40;"));
    assert!(svg.contains("AAAAAAAAAAAAAAAAAAAAAAAA \u{2026} and more"));
    assert!(svg.contains("\u{2026} and 9 bytes more, not shown"));
    let svg = drawn(&["group 1 40 40", "link 1 1", "memory 0 32"]);
    assert!(!svg.contains("Not drawn") && !svg.contains('\u{2026}'));
    assert!(drawn(&[]).contains("Not drawn: anything: the list has no lines"));
}

/// No text leaves the picture or meets another: large numbers, long messages, many slots.
#[test]
fn texts_keep_clear_of_each_other() {
    let lists = [
        EVERY.as_bytes().to_vec(),
        traffic::list(1, 400),
        traffic::list(5, 200),
        traffic::list(6, 400),
        traffic::list(7, 300),
        hostile::list(1, Some(900)),
        exhaust::list(1),
    ];
    for list in lists {
        assert_eq!(crowded(&list), Vec::<String>::new());
    }
}
