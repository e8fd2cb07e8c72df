//! The replay format: its example, what it skips, what does not parse, and what
//! each line prints.

use std::collections::{BTreeMap, BTreeSet};

use model::replay::{answer_all, WORDS};

/// An index, and a key and a base for each link: an address is the offset.
const AT: &str = "1 0 0 0 0 0 0 0 0";

fn answers(input: &str) -> Vec<String> {
    String::from_utf8(answer_all(input.as_bytes()))
        .unwrap()
        .lines()
        .map(str::to_string)
        .collect()
}

#[test]
fn example() {
    let input =
        "group 1 10000 10000\nlink 1 1\nopen 1 5 16909060 1 10000 1 0 0 0 0 0 0 0 0\nshutdown 1\n";
    let output = "group\nlink count 0 out -\nopen\nshutdown message FE2C0001010203040000000000000004000000000000\
                  00040080000000000000000000000000000000000000\n";
    assert_eq!(answer_all(input.as_bytes()), output.as_bytes());
}

#[test]
fn last_line_without_its_end() {
    assert_eq!(answers("link 1 1"), ["link count 0 out -"]);
    assert_eq!(answers("link 1 1\n"), ["link count 0 out -"]);
    assert_eq!(answers("\n\n# nothing\n#\n"), Vec::<String>::new());
    assert_eq!(answers(""), Vec::<String>::new());
}

#[test]
fn the_group_before_the_first_group_line() {
    assert_eq!(answers("memory 0 8"), ["memory 0000000000000000"]);
    assert_eq!(answers("memory 0 9"), ["bad line"]);
    assert_eq!(
        answers(&format!("link 1 1\nopen 1 1 1 1 8 {AT}\nmemory 0 8")),
        ["link count 0 out -", "open", "memory E2D4C3D900000000"]
    );
    let beyond = format!("link 1 1\nopen 2 1 1 1 8 {AT}");
    assert_eq!(answers(&beyond), ["link count 0 out -", "refused 2"]);
}

#[test]
fn lines_that_do_not_parse() {
    for line in [
        " link 1 1",
        "link 1 1 ",
        "link  1 1",
        "link 1\t1",
        "link 1 1\r",
        "\r",
        " ",
        "Link 1 1",
        "links 1 1",
        "link 1",
        "link 1 1 44 1",
        "link 1 1 65601",
        "link 1 1 -",
        "linkmsg 1 - 44 1",
        "linkmsg 1 - 65601",
        "linksend 1 07:0,1,2 44 1",
        "linksend 1 07:0,1,2 65601",
        "links",
        "links 1 0 0",
        "links 1 0 0 2",
        "links 1 0 0 0 0",
        "link 256 1",
        "link 1 2",
        "link -1 1",
        "link +1 1",
        "link 1 -",
        "link  1",
        "send 1 ",
        "send 1",
        "send 1 A",
        "send 1 abcd",
        "send 1 AG",
        "send 1 --",
        "send 4294967296 AA",
        "read 1 65601",
        "hear",
        "hear ",
        "group 1 8 1048705",
        "group 1 8",
        "group 4294967296 8 8",
        "table 1",
        "record 0 0 0 0 0 0 0 0 0 0 0 0 0 0 0 0 0 0 0 0 0 0 0 0 0 0 0 0 - -",
        "record 2 0 0 0 0 0 0 0 0 0 0 0 0 0 0 0 0 0 0 0 0 0 0 0 0 0 0 0 - -",
        "group 1 8 8 301",
        "group 1 8 8 1 1",
        "group 1 8 8 -",
        "record 1 0 0 0 0 0 0 0 0 0 0 0 0 0 0 0 0 0 512 0 0 0 0 0 0 0 0 0 - -",
        "record 1 0 0 0 0 0 0 65536 0 0 0 0 0 0 0 0 0 0 0 0 0 0 0 0 0 0 0 0 - -",
        "record 1 2 0 0 0 0 0 0 0 0 0 0 0 0 0 0 0 0 0 0 0 0 0 0 0 0 0 0 - -",
        "record 1 0 0 0 256 0 0 0 0 0 0 0 0 0 0 0 0 0 0 0 0 0 0 0 0 0 0 0 - -",
        "record 1 0 0 0 0 0 0 0 0 0 0 0 0 0 0 0 0 0 0",
        "record 1 0 0 0 0 0 0 0 0 0 0 0 0 0 0 0 0 0 0 0 0 0 0 0 0 0 0 - -",
        "record 1 0 0 0 0 0 0 0 0 0 0 0 0 0 0 0 0 0 0 0 0 0 0 0 0 0 0 0 0 - -",
        "record 1 0 0 0 0 0 0 0 0 0 0 0 0 0 0 0 0 0 0 256 0 0 0 0 0 0 0 0",
        "record 1 0 0 0 0 0 0 0 0 0 0 0 0 0 0 0 0 0 0 0 4294967296 0 0 0 0 0 0 0",
        "record 1 0 0 0 0 0 0 0 0 0 0 0 0 0 0 0 0 0 0 0 0 18446744073709551616 0 0 0 0 0 0",
        "open 1 1 1 1 8",
        "open 1 1 1 1 8 4294967296 0 0 0 0 0 0 0 0",
        "open 1 1 1 1 8 1 0 18446744073709551616 0 0 0 0 0 0",
        "open 1 1 1 1 8 1 0 0 0 0 0 0 0",
        "poke 8 00",
        "poke 7 0000",
        "memory 8 1",
        "memory 9 0",
    ] {
        assert_eq!(answers(line), ["bad line"], "{line:?}");
    }
    let long = "0".repeat(140_000);
    assert_eq!(answers(&format!("hear {long}")), ["refused 4"]);
    assert_eq!(answers(&format!("hear {long}00")), ["bad line"]);
}

#[test]
fn lines_that_parse() {
    for (line, answer) in [
        ("link 0001 01", "link count 0 out -"),
        (
            "link 00000000000000000000000000000000000000000005 1",
            "refused 13 out -",
        ),
        ("link 255 1", "refused 13 out -"),
        ("link 1 1 44", "link count 0 out -"),
        ("link 1 1 65600", "link count 0 out -"),
        ("link 1 1 1", "refused 1 out -"),
        ("link 5 1 43", "refused 1 out -"),
        ("linkmsg 1 00 0", "refused 1 out -"),
        ("linksend 9 07:0,1,2 0", "refused 1 out -"),
        ("linksend 9 07:0,1,2", "refused 13 out -"),
        ("links 1 0 01 0", "links"),
        ("send 4294967295 -", "refused 2"),
        ("read 1 0", "refused 2 out -"),
        ("read 1 3", "refused 2 out A5A5A5"),
        ("hear -", "refused 4"),
        ("poke 8 -", "poke"),
        ("poke 7 FF", "poke"),
        ("memory 8 0", "memory -"),
        ("memory 0 1", "memory 00"),
        ("group 0 4294967295 1048704", "group"),
        ("linkmsg 1 00", "refused 6 out -"),
        ("free 1", "refused 2"),
    ] {
        assert_eq!(answers(line), [answer], "{line:?}");
    }
}

#[test]
fn table() {
    let record = "1 2 3 4 5 6 7 8 9 10 11 12 13 14 15 16 17 511 255 18 19 20 21 22 23 \
                  4294967295 18446744073709551615 0:0 4294967295:65535";
    let none = "0 0 0 0 0 0 0 0 0 0 0 0 0 0 0 0 0 0 0 0 0 0 0 0 0 0 0 - -";
    for (group, count) in [
        ("group 16 8 128", 16),
        ("group 0 8 0 16", 16),
        ("group 16 8 128 2", 2),
        ("group 255 8 2040", 255),
        ("group 300 8 8", 300),
        ("group 301 8 8", 300),
        ("group 4294967295 8 8", 300),
    ] {
        let lines = answers(&format!(
            "{group}\nlinks 0 0 1 0\nrecord {count} {record}\nrecord {} {record}\ntable\n",
            count + 1
        ));
        assert_eq!(lines.len(), 4 + count + 8, "{group}");
        assert_eq!(lines[2..4], ["record", "bad line"]);
        assert_eq!(lines[4], format!("slot 1 {none}"));
        assert_eq!(lines[3 + count], format!("slot {count} {record}"));
        assert_eq!(lines[4 + count], "links 0 0 1 0");
    }
    let lines = answers(&format!("group 0 8 0\nrecord 1 {none}\ntable\n"));
    assert_eq!(lines[..3], ["group", "bad line", "links 0 0 0 0"]);
    let lines = answers("group 2 8 16 0\ntable\n");
    assert_eq!(lines[..2], ["group", "links 0 0 0 0"]);
    assert_eq!(answers("table").len(), 9);
}

#[test]
fn what_calls_print() {
    let lines = answers(
        "group 1 8 8\nlink 2 1\nopen 1 1 2 2 8 1 0 0 0 0 0 0 0 0\n\
         record 1 1 1 2 2 8 7 0 4 0 4 0 7 0 7 0 65535 0 0 2 1 1000 9 100 3 3000 4 4000 - -\n\
         send 1 010203040506\nsend 1 07\nsend 1 -\nplace 1 7 AB\nread 1 5\n\
         linkmsg 2 072C00000102030405060708090A0B0C0D0E0F10FFFFFFFFFFFFFFFFFFFFFFFFFFFFFFFFFFFFFFFFFFFFFFFF\n\
         linkmsg 2 072C00800102030405060708090A0B0C0D0E0F10000000000000000000000000000000000000000000000000\n\
         poke 2 00\nread 1 1\n",
    );
    assert_eq!(
        lines[4..],
        [
            "send 4 placings 9,115,0,1;9,112,1,3 message FE2CFFFF0000000200000001000000070000000000000004\
             8000000000000000000000000000000000000000",
            "send 0 placings - message -",
            "send 0 placings - message -",
            "place",
            "read 3 out 000000A5A5 message FE2C000000000002000000010000000700000000000000078000000000\
             000000000000000000000000000000",
            "linkmsg 07:0,72623859790382856,651345242494996240 taken reply 072C00800102030405060708090A0B0C0D0E0F10000000000000000000000000000000000000\
             000000000000 count 0 out -",
            "linkmsg 07:1,72623859790382856,651345242494996240 taken reply - count 0 out -",
            "poke",
            "torn out A5 message FE2C00010000000200000001000000070000000000000007802000000000000000\
             0000000000000000000000",
        ]
    );
}

#[test]
fn what_urgent_prints() {
    let lines = answers(
        "link 1 1\nopen 1 1 2 1 8 1 0 0 0 0 0 0 0 0\nurgent 1 0102\nurgent 1 -\nsend 1 03\ntable\n",
    );
    assert_eq!(
        lines[2..6],
        [
            "urgent 2 placings 0,4,0,2 message FE2C00010000000200000000000000060000000000000004600000\
             0000000000000000000000000000000000",
            "urgent 0 placings - message -",
            "send 0 placings - message -",
            "slot 1 1 1 2 1 8 4 0 4 0 4 0 6 0 4 0 2 0 0 1 0 0 0 0 0 0 0 0 6:0 -",
        ]
    );
    let record = "record 1 1 1 2 1 8 5 0 4 0 4 0 4 0 4 0 2 0 0 1 0 0 0 0 0 0 0 0";
    for place in [
        "--",
        "4",
        "4:",
        ":0",
        "4:0:0",
        "4:65536",
        "4294967296:0",
        "+4:0",
    ] {
        assert_eq!(answers(&format!("{record} - {place}")), ["bad line"]);
        assert_eq!(answers(&format!("{record} {place} -")), ["bad line"]);
    }
    let lines = answers(&format!(
        "poke 0 E2D4C3D9\nlink 1 1\n{record} - 05:00\nread 1 1\ntable\n"
    ));
    assert_eq!(lines[2], "record");
    assert!(lines[3].starts_with("read 1 out 00 message FE2C0002"));
    assert!(lines[4].ends_with(" - -"));
}

#[test]
fn what_close_prints() {
    // C (4,0), P (6,0), C heard: two bytes unread; then none.
    let head = "link 1 1\nrecord 1 1 1 2 1 8";
    let lines = answers(&format!(
        "{head} 6 0 4 0 4 0 4 0 4 0 7 0 9 {AT} - -\nclose 1\ntable\n"
    ));
    assert_eq!(
        lines[2..4],
        [
            "reset message FE2C0007000000020000000000000004000000000000000400A0000000000000000000000000\
             000000000000",
            "slot 1 1 1 2 1 8 6 0 4 0 4 0 4 0 4 0 8 0 41 1 0 0 0 0 0 0 0 0 - -",
        ]
    );
    let lines = answers(&format!(
        "{head} 4 0 4 0 4 0 4 0 4 0 7 0 9 {AT} - -\nclose 1\ntable\n"
    ));
    assert_eq!(
        lines[2..4],
        [
            "close message FE2C0007000000020000000000000004000000000000000400C0000000000000000000000000\
             000000000000",
            "slot 1 0 0 0 0 0 0 0 0 0 0 0 0 0 0 0 0 0 0 0 0 0 0 0 0 0 0 0 - -",
        ]
    );
}

#[test]
fn the_plate_example() {
    let folder = concat!(env!("CARGO_MANIFEST_DIR"), "/../examples");
    let input = std::fs::read(format!("{folder}/plate.txt")).unwrap();
    let output = std::fs::read_to_string(format!("{folder}/plate.expected.txt")).unwrap();
    assert_eq!(String::from_utf8(answer_all(&input)).unwrap(), output);
}

const PAGE: &str = include_str!("../../docs/replay-format.md");

/// The words of which a longer one on the page stands for: `NAME` in its block, then
/// words, on lines indented further until the next name.
fn longer_words() -> BTreeMap<String, Vec<String>> {
    let block = PAGE.split("The longer words are\n").nth(1).unwrap();
    let mut names: BTreeMap<String, Vec<String>> = BTreeMap::new();
    let mut name = String::new();
    let lines = block.lines().skip(1);
    for line in lines.take_while(|line| line.starts_with("    ")) {
        let mut words = line.split_whitespace();
        if !line.starts_with("     ") {
            name = words.next().unwrap().to_string();
        }
        names
            .entry(name.clone())
            .or_default()
            .extend(words.map(str::to_string));
    }
    names
}

/// The page's first table has just the lines that parse, with their counts of words.
#[test]
fn the_page_has_every_line() {
    let longer = longer_words();
    assert_eq!(longer.len(), 3);
    let table = PAGE.split("## Output").next().unwrap();
    let mut said: BTreeMap<String, BTreeSet<usize>> = BTreeMap::new();
    let rows = table.lines().filter(|line| line.starts_with("| `"));
    for row in rows {
        let form = row.split('`').nth(1).unwrap();
        let mut words = form.split(' ');
        let first = words.next().unwrap();
        let mut counts = BTreeSet::from([1]);
        for word in words {
            let more = longer.get(word).map_or(1, Vec::len);
            let longer: BTreeSet<usize> = counts.iter().map(|count| count + more).collect();
            if word.starts_with('[') {
                counts.extend(longer);
            } else {
                counts = longer;
            }
        }
        assert_eq!(said.insert(first.to_string(), counts), None, "{first}");
    }
    let parsed: BTreeMap<String, BTreeSet<usize>> = WORDS
        .iter()
        .map(|(word, counts)| (word.to_string(), counts.iter().copied().collect()))
        .collect();
    assert_eq!(said, parsed);
}

/// What the page says that its examples print is what they print.
#[test]
fn the_page_has_the_answers() {
    let examples = PAGE.split("## Examples").nth(1).unwrap();
    let mut blocks: Vec<String> = Vec::new();
    let mut inside = false;
    for line in examples.lines() {
        match line.strip_prefix("    ") {
            Some(code) if inside => blocks.last_mut().unwrap().push_str(&format!("{code}\n")),
            Some(code) => blocks.push(format!("{code}\n")),
            None => {}
        }
        inside = line.starts_with("    ");
    }
    assert_eq!(blocks.len(), 6);
    for pair in blocks.chunks(2) {
        let printed = String::from_utf8(answer_all(pair[0].as_bytes())).unwrap();
        assert_eq!(printed, pair[1]);
    }
}

/// Every kind of line prints as the page's table says: its own word first.
#[test]
fn every_line_prints_its_word() {
    let list = include_str!("../../examples/every.txt");
    let mut printed: BTreeSet<String> = BTreeSet::new();
    let mut replay = model::replay::Replay::new();
    for line in list.lines().filter(|line| !line.starts_with('#')) {
        let mut out = Vec::new();
        replay.answer_line(line.as_bytes(), &mut out);
        let answer = String::from_utf8(out).unwrap();
        let first = |text: &str| text.split([' ', '\n']).next().unwrap().to_string();
        let (word, begins) = (first(line), first(&answer));
        let expected = match word.as_str() {
            "table" => "slot",
            word => word,
        };
        let other = match word.as_str() {
            "close" => begins == "reset",
            "read" => begins == "torn",
            "noise" => answer == "bad line\n",
            _ => false,
        };
        assert!(
            begins == expected || begins == "refused" || other,
            "{line}: {answer}"
        );
        if begins != "refused" {
            printed.insert(word);
        }
    }
    for (word, _) in WORDS {
        assert!(
            printed.contains(*word),
            "{word} is refused wherever it stands"
        );
    }
}
