//! What runs reached.

macro_rules! counts {
    ($($heading:literal { $($name:ident: $words:literal,)* })*) => {
        #[derive(Clone, Debug, Default)]
        pub struct Counts {
            $($(pub $name: u64,)*)*
        }

        impl Counts {
            /// The rows, by headings.
            fn rows(&self) -> Vec<(&'static str, Vec<(&'static str, u64)>)> {
                vec![$(($heading, vec![$(($words, self.$name)),*])),*]
            }

            pub fn add(&mut self, more: &Counts) {
                $($(self.$name += more.$name;)*)*
            }
        }
    };
}

counts! {
    "Calls of the proved core" {
        opens: "open",
        sends: "send",
        urgent: "urgent send",
        gathers: "gather (head and body)",
        places: "place (a write as the card makes it)",
        hears: "hear",
        reads: "read",
        endings: "shutdown, close and abort",
        frees: "free",
        link_calls: "link change, link message and link send",
    }
    "Bytes" {
        taken: "taken by sends",
        read: "read, each compared",
        placed: "written, those written again included",
        laps: "times that a producer passed its element's end",
        wraps: "directions that went past wrap number 65,535",
        numbers: "ends that went past sequence number 65,535",
    }
    "Done to writes and messages, within the premises" {
        parts: "a part of what a message announces written",
        joined: "what several messages announce written at once",
        ahead: "written before an earlier message was heard",
        out_of_order: "written before an earlier byte",
        again: "written again",
        empty: "writes of no bytes",
        early: "messages that came before the open: refused, and heard later",
        repeated: "messages heard, and put once more: refused with 16",
        reserved: "messages with reserved bits on",
        cut_short: "sends cut short",
        waits: "sends that waited for urgent bytes to be read",
        down: "calls refused with 6, the link being down",
        refused_7: "writes refused with 7, after an abort",
    }
    "Links" {
        told: "connections that moved to another link and told",
        silent: "that moved and did not tell, having sent A",
        several: "link calls that moved several",
        failovers: "messages with F heard",
    }
    "Connections" {
        connections: "opened at both ends",
        early_sends: "sends before the other end was open",
        closed_by_c: "slots closed by C sent and C heard",
        closed_by_a: "slots closed by A heard",
        freed: "slots freed",
        left_behind: "bytes under way to a slot when it was freed",
        again_safe: "slots used again after C and C, or A heard",
        again_gone: "slots used again after free, once nothing could arrive",
        again_early: "of both, while the old peer was still open",
    }
    "Points at which" {
        nothing_lost: "nothing was under way or unread: all that was taken was read",
        none_to_come: "a slot had closed by C or A: nothing was under way to it",
    }
}

impl Counts {
    pub fn calls(&self) -> u64 {
        let bytes = self.opens + self.sends + self.urgent + self.gathers + self.places + self.hears + self.reads;
        bytes + self.endings + self.frees + self.link_calls
    }

    pub fn text(&self) -> String {
        let mut text = String::new();
        for (heading, rows) in self.rows() {
            text += &format!("\n{heading}\n");
            for (words, count) in rows {
                text += &format!("{:>15}  {words}\n", grouped(count));
            }
        }
        text
    }

    /// What was not reached.
    pub fn missing(&self) -> Vec<&'static str> {
        let all = self.rows().into_iter().flat_map(|(_, rows)| rows);
        all.filter(|(_, count)| *count == 0).map(|(words, _)| words).collect()
    }
}

/// 20,000,000.
pub fn grouped(number: u64) -> String {
    let digits = number.to_string();
    let mut text = String::new();
    for (place, digit) in digits.chars().enumerate() {
        if place > 0 && (digits.len() - place) % 3 == 0 {
            text.push(',');
        }
        text.push(digit);
    }
    text
}
