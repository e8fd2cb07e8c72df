//! Lines that do not parse, and the longest that do.

use super::Bench;
use crate::generate::setup;

impl Bench {
    pub(super) fn bad_lines(&mut self) {
        self.list.group(2, 16);
        self.list.link(1, true);
        self.list.open(1, 5, 6, 1, 16);
        for form in FORMS {
            self.bad_line(form);
        }
        for line in [
            &b" "[..],
            b"  ",
            b"\t",
            b"\r",
            b"\x00",
            b"table\r",
            b" table",
            b"table ",
            b"table 1",
            b"TABLE",
            b"Table",
            b"tables",
            b" # no comment",
            b"#a comment",
            b"#",
            b"",
            b"close1",
            b"close 1\r",
            b"-",
            b"1",
            b"\xC3\xA9",
            b"send 1 \xC3\xA9",
            b"hear",
            b"hear ",
            b"hear - -",
            b"poke 32 -",
            b"poke 33 -",
            b"poke 31 00",
            b"poke 32 00",
            b"poke 31 0000",
            b"poke 0 -",
            b"memory 32 0",
            b"memory 33 0",
            b"memory 31 1",
            b"memory 32 1",
            b"memory 0 32",
            b"memory 0 33",
            b"memory 1 32",
            b"memory 0 0",
            b"memory 18446744073709551615 2",
            b"memory 1048704 0",
            b"poke 18446744073709551615 0000",
            b"read 1 65601",
            b"group 1 8 1048705",
            b"group 1 8",
            b"group 1 8 8 301",
            b"open 2 7 8 1 16",
            b"record 1 0 0 0 0 0 0 0 0 0 0 0 0 0 0 0 0 0 0 - -",
            b"record 1 0 0 0 0 0 0 0 0 0 0 0 0 0 0 0 0 0 0 256 0 0 0 0 0 0 0 0",
            b"open 2 7 8 1 16 1 0 18446744073709551616 0 0 0 0 0 0",
            b"group 1 8 8 1 1",
            b"record 3 0 0 0 0 0 0 0 0 0 0 0 0 0 0 0 0 0 0 0 0 0 0 0 0 0 0 0 - -",
            b"record 0 0 0 0 0 0 0 0 0 0 0 0 0 0 0 0 0 0 0 0 0 0 0 0 0 0 0 0 - -",
            b"record 17 0 0 0 0 0 0 0 0 0 0 0 0 0 0 0 0 0 0 0 0 0 0 0 0 0 0 0 - -",
            b"record 1 0 0 0 0 0 0 0 0 0 0 0 0 0 0 0 0 0 0 0 0 0 0 0 0 0 0 - -",
            b"record 1 0 0 0 0 0 0 0 0 0 0 0 0 0 0 0 0 0 0 0 0 0 0 0 0 0 0 0 0 - -",
            b"record 1 0 0 0 0 0 0 0 0 0 0 0 0 0 0 0 0 0 512 0 0 0 0 0 0 0 0 0 - -",
            b"record 1 2 0 0 0 0 0 0 0 0 0 0 0 0 0 0 0 0 0 0 0 0 0 0 0 0 0 0 - -",
            b"books 00",
            b"books - -",
            b"take",
            b"take -1",
            b"return 1",
            b"pool 1",
            b"setup none",
            b"setup none -",
            b"setup none 0",
            b"setup none 00G0",
            b"setup Proposal -",
            b"setup Decline -",
            b"setup decline -",
            b"clc -",
            b"clc",
            b"clc 0",
            b"settings",
            b"health 0",
            b"health 5",
            b"health",
            b"sample 0 1",
            b"sample 256 1",
            b"sample 1",
            b"gauge 0 0000000000000000 0000000000000000 0 0",
            b"gauge 5 0000000000000000 0000000000000000 0 0",
            b"gauge 1 7FF0000000000000 0000000000000000 0 0",
            b"gauge 1 FFF0000000000000 0000000000000000 0 0",
            b"gauge 1 0000000000000000 7FF0000000000000 0 0",
            b"gauge 1 0000000000000000 7FF8000000000000 0 0",
            b"gauge 1 0000000000000000 FFFFFFFFFFFFFFFF 0 0",
            b"gauge 1 7FF0000000000001 0000000000000000 0 0",
            b"gauge 1 7FEFFFFFFFFFFFFF FFEFFFFFFFFFFFFF 255 1",
            b"gauge 1 0 0 0 0",
            b"gauge 1 - - 0 0",
            b"gauge 1 0000000000000000 0000000000000000 256 0",
            b"gauge 1 0000000000000000 0000000000000000 0 2",
            b"gauge 1 0000000000000000 0000000000000000 0",
            b"health 1",
            b"link 1 1 88 1",
            b"link 1 1 65600",
            b"link 1 1 65601",
            b"linkmsg 1 - 87",
            b"linksend 1 07:0,1,2 65601",
            b"links 1",
            b"links 1 0 0",
            b"links 1 0 0 2",
            b"links 1 0 0 0 0",
            b"group 2 16 32 0",
            b"record 1 0 0 0 0 0 0 0 0 0 0 0 0 0 0 0 0 0 0 0 0 0 0 0 0 0 0 0 - -",
            b"table",
            b"group 301 8 2408",
            b"record 300 0 0 0 0 0 0 0 0 0 0 0 0 0 0 0 0 0 0 0 0 0 0 0 0 0 0 0 - -",
            b"record 301 0 0 0 0 0 0 0 0 0 0 0 0 0 0 0 0 0 0 0 0 0 0 0 0 0 0 0 - -",
            b"group 1 16 16 300",
            b"record 300 0 0 0 0 0 0 0 0 0 0 0 0 0 0 0 0 0 0 0 0 0 0 0 0 0 0 0 - -",
            b"group 2 16 32",
        ] {
            self.list.raw(line);
        }
        for bytes in [0, 1, 16, 17, 135, 136, 137, 200] {
            let prefixes = "00".repeat(bytes);
            let prefixes = if bytes == 0 { "-" } else { &prefixes };
            let line = format!(
                "settings 16384 {id} {id}{id} 000000000000 00000000 0 9 {prefixes} 0 0 0 0 0 0 0 0 0{}",
                " 0".repeat(8),
                id = "0".repeat(16)
            );
            self.list.raw(line.as_bytes());
            self.list.raw(b"setup none -");
        }
        self.list.table();
    }

    /// Every word of a good line spoiled in every way, and the line itself.
    fn bad_line(&mut self, form: &str) {
        let words: Vec<&str> = form.split(' ').collect();
        let restore = words[0] == "group" || words[0] == "record";
        let line = |words: &[String]| words.join(" ").into_bytes();
        let plain: Vec<String> = words.iter().map(|word| value(word)).collect();
        let mut lines: Vec<Vec<u8>> = Vec::new();
        let good = line(&plain);
        lines.push(good.clone());
        lines.push([&good[..], b" "].concat());
        lines.push([b" ", &good[..]].concat());
        lines.push([&good[..], b"\r"].concat());
        lines.push([&good[..], b"\t"].concat());
        lines.push([&good[..], b" 0"].concat());
        lines.push(line(&plain[..plain.len() - 1]));
        lines.push(good.to_ascii_uppercase());
        if let Some(at) = good.iter().position(|&byte| byte == b' ') {
            let mut tabbed = good.clone();
            tabbed[at] = b'\t';
            lines.push(tabbed);
            let mut doubled = good.clone();
            doubled.insert(at, b' ');
            lines.push(doubled);
        }
        for at in 1..words.len() {
            // Of the many words of a long line some are left alone.
            if words.len() > 12 && self.random.chance(1, 2) {
                continue;
            }
            for spoiled in self.spoiled_words(words[at]) {
                let mut changed = plain.clone();
                changed[at] = spoiled;
                lines.push(line(&changed));
            }
        }
        for line in lines {
            self.list.raw(&line);
            if restore && self.random.chance(1, 3) {
                self.list.raw(b"group 2 16 32");
                self.list.raw(b"link 1 1");
                self.list.raw(b"open 1 5 6 1 16 1 0 0 0 0 0 0 0 0");
            }
        }
    }

    /// Some ways to write a word wrongly, and some odd ways to write it rightly.
    fn spoiled_words(&mut self, word: &str) -> Vec<String> {
        let mut all: Vec<String> = if word.starts_with("HEX*") {
            let digits = 2 * bytes_word(word);
            let mut all: Vec<String> = [digits - 2, digits - 1, digits + 1, digits + 2]
                .map(|count| "0".repeat(count))
                .to_vec();
            all.extend(["-".to_string(), String::new()]);
            all.extend(["g", "a", "-"].map(|digit| "0".repeat(digits - 1) + digit));
            all
        } else if word == "HEX" {
            [
                "", "0", "abcd", "aB", "0G", "0x00", "000", "--", "-0", "A5", "00FF", "+1", "_0",
            ]
            .iter()
            .map(|text| text.to_string())
            .collect()
        } else if word == "FIELDS" {
            [
                "",
                "07",
                "07:",
                "07:0,1",
                "07:0,1,2,3",
                "07:0,1,2,",
                "07:,1,2",
                "07:0,1,18446744073709551616",
                "07:0,1,18446744073709551615",
                "07:00,01,02",
                "7:0,1,2",
                "007:0,1,2",
                "05:0,1,2",
                "FE:0,1,2",
                "0g:0,1,2",
                "07:0,1,-",
                "07:0;1;2",
                "07,0,1,2",
                "-",
                "04:0,0,0,1,0",
            ]
            .map(str::to_string)
            .to_vec()
        } else if word == "PLACE" {
            [
                "",
                "--",
                "4",
                "4:",
                ":0",
                "4:0",
                "4:0:0",
                "4;0",
                "4:-",
                "4:65536",
                "4:65535",
                "4294967296:0",
                "4294967295:65535",
                "04:00",
                "0:0",
                "+4:0",
                "4,0",
                "A:0",
            ]
            .map(str::to_string)
            .to_vec()
        } else if !word.contains('=') {
            [
                "",
                "server",
                "Server",
                "None",
                "proposal",
                "Proposal ",
                "Decline",
                "1",
                "-",
                "Accept",
                "Confirm",
            ]
            .map(str::to_string)
            .to_vec()
        } else {
            let (most, given) = number_word(word);
            // The largest out buffer is kept for the long lines.
            let largest = if most == 65_600 { 70 } else { most };
            vec![
                String::new(),
                "-".to_string(),
                "-1".to_string(),
                "+1".to_string(),
                "1.0".to_string(),
                "0x1".to_string(),
                "A".to_string(),
                "1_0".to_string(),
                "1,0".to_string(),
                format!("{}", most + 1),
                format!("{largest}"),
                format!("0000000000000000000000000000000{given}"),
                "99999999999999999999999999999999".to_string(),
                "18446744073709551616".to_string(),
                "4294967296".to_string(),
            ]
        };
        self.random.shuffle(&mut all);
        let keep = if all.len() > 6 && word != "HEX" { 6 } else { 8 };
        all.truncate(keep);
        all
    }

    /// Hex of 70,000 bytes and one more, the largest out buffer, `memory` and
    /// Proposal.
    pub(super) fn long_lines(&mut self) {
        if !self.long_lines {
            return;
        }
        self.list.group(2, 65_540);
        self.list.link(1, true);
        self.list.open(1, 5, 6, 1, 65_540);
        let fill = self.random.draw() as u8;
        self.list.send(1, vec![fill; 70_000]);
        let too_long = [&b"send 1 "[..], &vec![b'0'; 140_002][..]].concat();
        self.list.raw(&too_long);
        self.list.read(1, 65_600);
        self.list.raw(b"read 1 65601");
        self.list.memory(131_080 - 65_600, 65_600);
        self.list.raw(b"memory 0 65601");
        self.list.raw(b"memory 65481 65600");
        let very_long = [&b"table "[..], &vec![b' '; 300_000][..]].concat();
        self.list.raw(&very_long[..1_000]);
        let zeros = [&b"close "[..], &vec![b'0'; 2_000][..], &b"1"[..]].concat();
        self.list.raw(&zeros);
        setup::longest(&mut self.list, &mut self.random);
    }
}

/// A good line of each kind: words with their largest value and a value that is
/// good here, HEX, HEX of just so many bytes, or an urgent place.
const FORMS: [&str; 38] = [
    "group 4294967295=2 4294967295=16 1048704=32",
    "group 4294967295=2 4294967295=16 1048704=32 300=2",
    "open 4294967295=2 4294967295=7 4294967295=8 255=1 4294967295=16 4294967295=1 4294967295=0 \
     18446744073709551615=0 4294967295=0 18446744073709551615=0 4294967295=0 \
     18446744073709551615=0 4294967295=0 18446744073709551615=0",
    "free 4294967295=1",
    "link 255=1 1=1",
    "link 255=1 1=1 65600=88",
    "linkmsg 255=1 HEX",
    "linkmsg 255=1 HEX 65600=88",
    "send 4294967295=1 HEX",
    "urgent 4294967295=1 HEX",
    "gather 4294967295=1 HEX HEX",
    "place 4294967295=1 4294967295=4 HEX",
    "read 4294967295=1 65600=3",
    "hear HEX",
    "shutdown 4294967295=2",
    "close 4294967295=2",
    "abort 4294967295=2",
    "record 2=2 1=0 4294967295=1 4294967295=2 255=3 4294967295=16 4294967295=4 65535=0 \
     4294967295=4 65535=0 4294967295=4 65535=0 4294967295=4 65535=0 4294967295=4 65535=0 65535=1 \
     65535=0 511=0 255=1 4294967295=0 18446744073709551615=0 4294967295=0 18446744073709551615=0 \
     4294967295=0 18446744073709551615=0 4294967295=0 18446744073709551615=0 PLACE PLACE",
    "poke 32=5 HEX",
    "table",
    "memory 32=6 26=9",
    "pool",
    "take 4294967295=4",
    "return 4294967295=0 4294967295=4",
    "books",
    "books HEX*64",
    "sample 255=1 4294967295=60000",
    "health 4=1",
    "gauge 4=1 HEX*8 HEX*8 255=3 1=0",
    "settings 4294967295=16384 HEX*8 HEX*16 HEX*6 HEX*4 255=24 255=0 HEX 1=1 4294967295=64 255=5 \
     4294967295=1 4294967295=2 18446744073709551615=3 255=1 4294967295=5 255=1 4294967295=0 \
     18446744073709551615=0 4294967295=0 18446744073709551615=0 4294967295=0 \
     18446744073709551615=0 4294967295=0 18446744073709551615=0",
    "setup none HEX",
    "clc HEX",
    "linksend 255=1 FIELDS",
    "linksend 255=1 FIELDS 65600=88",
    "links 1=1 1=0 1=0 1=0",
    "role client",
    "exchange 11=0 255=1 255=2",
    "queue 255=0 255=0 HEX*44 255=0 HEX*44 255=0 HEX*44 255=0 HEX*44",
];

/// The largest value and the good value of a number's word.
fn number_word(word: &str) -> (u128, u128) {
    let (most, given) = word.split_once('=').expect("a number's word");
    (most.parse().unwrap_or(0), given.parse().unwrap_or(0))
}

/// The count of bytes of a word of hex.
fn bytes_word(word: &str) -> usize {
    word["HEX*".len()..].parse().unwrap_or(0)
}

fn value(word: &str) -> String {
    match word.split_once('=') {
        Some((_, given)) => given.to_string(),
        None if word == "HEX" => "C0FFEE".to_string(),
        None if word == "PLACE" => "-".to_string(),
        None if word == "FIELDS" => "07:0,1,2".to_string(),
        None if word.starts_with("HEX*") => "00".repeat(bytes_word(word)),
        None => word.to_string(),
    }
}
