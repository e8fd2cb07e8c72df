//! Writing lines and answers.

use super::parse::marks;
use super::{Answer, Line, Replay, OUT_FILL};
use crate::clc::{Clc, Ends, NoMessage, Prefix};
use crate::gauge::{Gauge, Health};
use crate::links::{Exchange, Queue, TakenUp};
use crate::llc::Fields;
use crate::setup::{SetUp, Settings};
use crate::smcr::*;

const DIGITS: &[u8; 16] = b"0123456789ABCDEF";

pub fn push_hex(out: &mut Vec<u8>, bytes: &[u8]) {
    if bytes.is_empty() {
        out.push(b'-');
        return;
    }
    out.reserve(2 * bytes.len());
    for &byte in bytes {
        out.push(DIGITS[usize::from(byte >> 4)]);
        out.push(DIGITS[usize::from(byte & 15)]);
    }
}

fn push_hex_word(out: &mut Vec<u8>, bytes: &[u8]) {
    out.push(b' ');
    push_hex(out, bytes);
}

fn push_message(out: &mut Vec<u8>, message: Option<&Bytes44>) {
    match message {
        Some(bytes) => push_hex(out, bytes),
        None => out.push(b'-'),
    }
}

fn push(out: &mut Vec<u8>, text: &str) {
    out.extend_from_slice(text.as_bytes());
}

fn push_record(out: &mut Vec<u8>, c: &Connection) {
    let fields = [
        u64::from(c.open),
        u64::from(c.own_token),
        u64::from(c.peer_token),
        u64::from(c.link),
        u64::from(c.peer_size),
        u64::from(c.peer_producer.offset),
        u64::from(c.peer_producer.wrap),
        u64::from(c.consumer.offset),
        u64::from(c.consumer.wrap),
        u64::from(c.told.offset),
        u64::from(c.told.wrap),
        u64::from(c.producer.offset),
        u64::from(c.producer.wrap),
        u64::from(c.peer_consumer.offset),
        u64::from(c.peer_consumer.wrap),
        u64::from(c.next_sequence),
        u64::from(c.heard_sequence),
        u64::from(marks(c)),
        u64::from(c.index),
    ];
    push_words(out, &fields);
    push_words(out, &keys_and_bases(&c.keys, &c.bases));
    for place in [c.urgent_sent, c.urgent_heard] {
        match place {
            Some(place) => push(out, &format!(" {}:{}", place.offset, place.wrap)),
            None => push(out, " -"),
        }
    }
}

fn push_words(out: &mut Vec<u8>, numbers: &[u64]) {
    for number in numbers {
        push(out, &format!(" {number}"));
    }
}

/// A key and a base for each link, in turn.
fn keys_and_bases(keys: &[u32; LINKS], bases: &[u64; LINKS]) -> Vec<u64> {
    let pairs = keys.iter().zip(bases);
    pairs
        .flat_map(|(key, base)| [u64::from(*key), *base])
        .collect()
}

/// The fourteen numbers of an `open` line.
fn opening_numbers(opening: &Opening) -> Vec<u64> {
    let mut numbers = vec![
        u64::from(opening.slot),
        u64::from(opening.own_token),
        u64::from(opening.peer_token),
        u64::from(opening.link),
        u64::from(opening.peer_size),
        u64::from(opening.index),
    ];
    numbers.extend(keys_and_bases(&opening.keys, &opening.bases));
    numbers
}

fn bits(double: f64) -> String {
    format!("{:016X}", double.to_bits())
}

fn push_gauge(out: &mut Vec<u8>, link: usize, gauge: &Gauge) {
    let (mean, worst) = (bits(gauge.mean), bits(gauge.worst));
    let late = u8::from(gauge.late);
    push(
        out,
        &format!("gauge {link} {mean} {worst} {} {late}", gauge.count),
    );
}

fn push_health(out: &mut Vec<u8>, word: &str, health: &Health) {
    let text = match health {
        Health::Unheard => "unheard".to_string(),
        Health::Steady(mean) => format!("steady {}", bits(*mean)),
        Health::Late(mean, worst) => format!("late {} {}", bits(*mean), bits(*worst)),
    };
    push(out, &format!("{word} {text}"));
}

/// "Each `-` for none; LIST is the fourteen numbers of an `open` line, without
/// the word, parted by `,`; D decimal."
fn push_set_up(out: &mut Vec<u8>, answer: &SetUp) {
    push(out, "setup message ");
    push_hex(out, answer.message.as_deref().unwrap_or(&[]));
    push(out, " open ");
    match &answer.open {
        Some(opening) => {
            let words: Vec<String> = opening_numbers(opening)
                .iter()
                .map(u64::to_string)
                .collect();
            push(out, &words.join(","));
        }
        None => out.push(b'-'),
    }
    push(out, " decline ");
    match answer.diagnosis {
        Some(diagnosis) => push(out, &diagnosis.to_string()),
        None => out.push(b'-'),
    }
}

/// "`clc none`, or `clc`, the kind, its fields in the table's order [...],
/// `again` and the HEX written."
fn push_clc(out: &mut Vec<u8>, read: &Result<Clc, NoMessage>) {
    let Ok(message) = read else {
        return push(out, "clc none");
    };
    push(out, &format!("clc {}", message.name()));
    match message {
        Clc::Proposal(proposal) => {
            push(out, &format!(" {}", proposal.version));
            push_hex_word(out, &proposal.peer_id);
            push_hex_word(out, &proposal.gid);
            push_hex_word(out, &proposal.mac);
            push(out, &format!(" {}", proposal.offset));
            push_hex_word(out, &proposal.mask);
            push(out, &format!(" {}", proposal.mask_length));
            push(out, &format!(" {}", proposal.prefixes.len()));
            push_hex_word(out, &prefix_bytes(&proposal.prefixes));
        }
        Clc::Accept {
            first_contact,
            ends,
        } => push_ends(out, ends, Some(*first_contact)),
        Clc::Confirm(ends) => push_ends(out, ends, None),
        Clc::Decline(decline) => {
            let out_of_sync = u8::from(decline.out_of_sync);
            push(out, &format!(" {} {out_of_sync}", decline.version));
            push_hex_word(out, &decline.peer_id);
            push(out, &format!(" {}", decline.diagnosis));
        }
    }
    push(out, " again");
    push_hex_word(out, &message.write().unwrap_or_default());
}

fn push_ends(out: &mut Vec<u8>, ends: &Ends, first_contact: Option<bool>) {
    push(out, &format!(" {}", ends.version));
    if let Some(first_contact) = first_contact {
        push(out, &format!(" {}", u8::from(first_contact)));
    }
    push_hex_word(out, &ends.peer_id);
    push_hex_word(out, &ends.gid);
    push_hex_word(out, &ends.mac);
    let numbers = [
        u64::from(ends.qp),
        u64::from(ends.key),
        u64::from(ends.index),
        u64::from(ends.token),
        u64::from(ends.code),
        u64::from(ends.mtu),
        ends.base,
        u64::from(ends.psn),
    ];
    push_words(out, &numbers);
}

fn prefix_bytes(prefixes: &[Prefix]) -> Vec<u8> {
    let mut bytes = Vec::new();
    for prefix in prefixes {
        bytes.extend(prefix.prefix);
        bytes.push(prefix.length);
    }
    bytes
}

fn push_settings(out: &mut Vec<u8>, settings: &Settings) {
    push(out, &format!("settings {}", settings.size));
    push_hex_word(out, &settings.peer_id);
    push_hex_word(out, &settings.gid);
    push_hex_word(out, &settings.mac);
    push_hex_word(out, &settings.mask);
    push(
        out,
        &format!(" {} {}", settings.mask_length, settings.count),
    );
    // Zeros behind are added again on reading.
    let used = settings
        .prefixes
        .iter()
        .rposition(|prefix| *prefix != Prefix::default());
    let prefixes = &settings.prefixes[..used.map_or(0, |last| last + 1)];
    push_hex_word(out, &prefix_bytes(prefixes));
    let numbers = [
        u64::from(settings.first_contact),
        u64::from(settings.qp),
        u64::from(settings.mtu),
        u64::from(settings.psn),
        u64::from(settings.key),
        settings.base,
        u64::from(settings.slot),
        u64::from(settings.own_token),
        u64::from(settings.link),
    ];
    push_words(out, &numbers);
    push_words(
        out,
        &keys_and_bases(&settings.peer_keys, &settings.peer_bases),
    );
}

/// "LIST is `-`, or `key,address,start,length`, two of them parted by `;`."
fn push_sent(out: &mut Vec<u8>, word: &str, sent: &Sent) {
    push(out, &format!("{word} {} placings ", sent.taken));
    if sent.placings.is_empty() {
        out.push(b'-');
    }
    for (place, placing) in sent.placings.iter().enumerate() {
        if place > 0 {
            out.push(b';');
        }
        let Placing {
            key,
            address,
            start,
            length,
        } = placing;
        push(out, &format!("{key},{address},{start},{length}"));
    }
    push(out, " message ");
    push_message(out, sent.message.as_ref());
}

/// "LIST has each piece as `key,address,HEX`, parted by `;`, and the empty one,
/// `key,address,-`, as its last."
fn push_gathered(out: &mut Vec<u8>, gathered: &Gathered) {
    push(out, &format!("gather {} pieces ", gathered.taken));
    for (place, piece) in gathered.pieces.iter().enumerate() {
        if place > 0 {
            out.push(b';');
        }
        push(out, &format!("{},{},", piece.key, piece.address));
        push_hex(out, &piece.bytes);
    }
    push(out, " message ");
    push_message(out, gathered.message.as_ref());
}

fn push_fields(out: &mut Vec<u8>, fields: Option<&Fields>) {
    let Some(fields) = fields else {
        return out.push(b'-');
    };
    let values: Vec<String> = fields.values.iter().map(u64::to_string).collect();
    push(out, &format!("{:02X}:{}", fields.kind, values.join(",")));
}

fn push_taken_up(out: &mut Vec<u8>, taken_up: Option<&TakenUp>) {
    if let Some(taken_up) = taken_up {
        push(out, &format!(" then {} ", taken_up.link));
        push_fields(out, taken_up.fields.as_ref());
        push(out, &format!(" {}", taken_up.fate.name()));
    }
}

/// "HEX is the buffer after the call without the A5 bytes at its end, `-` if none
/// is left."
fn push_buffer(out: &mut Vec<u8>, buffer: &[u8]) {
    let last = buffer.iter().rposition(|&byte| byte != OUT_FILL);
    push(out, " out");
    push_hex_word(out, &buffer[..last.map_or(0, |last| last + 1)]);
}

fn push_count(out: &mut Vec<u8>, count: usize, buffer: &[u8]) {
    push(out, &format!(" count {count}"));
    push_buffer(out, buffer);
}

fn push_room(out: &mut Vec<u8>, room: Option<usize>) {
    if let Some(room) = room {
        push(out, &format!(" {room}"));
    }
}

fn push_exchange(out: &mut Vec<u8>, exchange: &Exchange) {
    let Exchange { stage, v, w } = exchange;
    push(out, &format!("exchange {stage} {v} {w}"));
}

fn push_links(out: &mut Vec<u8>, links: &[bool; LINKS]) {
    push(out, "links");
    for active in links {
        push(out, if *active { " 1" } else { " 0" });
    }
}

fn push_queue(out: &mut Vec<u8>, queue: &Queue) {
    push(out, &format!("queue {}", queue.count));
    for place in &queue.places {
        push(out, &format!(" {}", place.link));
        let zeros = place.bytes == [0; MESSAGE_BYTES];
        push_hex_word(out, if zeros { &[] } else { &place.bytes });
    }
}

impl Replay {
    /// Writes an answer with its line ends, after the call.
    pub fn print_answer(&self, out: &mut Vec<u8>, answer: &Answer) {
        let group = &self.group;
        match answer {
            Answer::Bad => push(out, "bad line"),
            Answer::Refused(number) => push(out, &format!("refused {number}")),
            Answer::RefusedRead(number, buffer) => {
                push(out, &format!("refused {number} out "));
                push_hex(out, buffer);
            }
            Answer::Word(word) => push(out, word),
            Answer::Sent(sent) => push_sent(out, "send", sent),
            Answer::Urgent(sent) => push_sent(out, "urgent", sent),
            Answer::Gathered(gathered) => push_gathered(out, gathered),
            Answer::Read(ReadAnswer::Read { taken, message }, buffer) => {
                push(out, &format!("read {taken} out "));
                push_hex(out, buffer);
                push(out, " message ");
                push_message(out, message.as_ref());
            }
            Answer::Read(ReadAnswer::Torn { message }, buffer) => {
                push(out, "torn out ");
                push_hex(out, buffer);
                push(out, " message ");
                push_hex(out, message);
            }
            Answer::Heard(heard) => {
                push(
                    out,
                    &format!("hear {} {} message ", heard.moved, heard.state.name()),
                );
                push_message(out, heard.message.as_ref());
            }
            Answer::Made(word, message) => {
                push(out, word);
                push(out, " message ");
                push_hex(out, message);
            }
            Answer::Link(count, buffer) => {
                push(out, "link");
                push_count(out, *count, buffer);
            }
            Answer::RefusedLink(number, buffer) => {
                push(out, &format!("refused {number}"));
                push_buffer(out, buffer);
            }
            Answer::LinkMsg(answer, buffer) => {
                push(out, "linkmsg ");
                push_fields(out, answer.fields.as_ref());
                push(out, &format!(" {} reply ", answer.fate.name()));
                push_message(out, answer.reply.as_ref());
                push_taken_up(out, answer.taken_up.as_ref());
                push_count(out, answer.count, buffer);
            }
            Answer::LinkSent(sent, buffer) => {
                push(out, "linksend ");
                push_hex(out, &sent.bytes);
                push_taken_up(out, sent.taken_up.as_ref());
                push_count(out, sent.count, buffer);
            }
            Answer::Table => {
                for (index, record) in group.table.iter().enumerate() {
                    push(out, &format!("slot {}", index + 1));
                    push_record(out, record);
                    out.push(b'\n');
                }
                push_links(out, &group.links);
                for (index, gauge) in group.gauges.iter().enumerate() {
                    out.push(b'\n');
                    push_gauge(out, index + 1, gauge);
                }
                push(out, &format!("\nrole {}\n", group.role.name()));
                push_exchange(out, &group.exchange);
                out.push(b'\n');
                push_queue(out, &group.queue);
            }
            Answer::Memory { at, count } => {
                push(out, "memory ");
                push_hex(out, &group.memory[*at..at + count]);
            }
            Answer::Taken(start) => push(out, &format!("take {start}")),
            Answer::Health(word, health) => push_health(out, word, health),
            Answer::SetUp(answer) => push_set_up(out, answer),
            Answer::Clc(read) => push_clc(out, read),
            Answer::Books => {
                push(out, "books ");
                push_hex(out, &self.pool.0);
            }
        }
        out.push(b'\n');
    }
}

/// Writes a line without its line end, as `parse` reads it.
pub fn print_line(out: &mut Vec<u8>, line: &Line) {
    match line {
        Line::Group {
            elements,
            size,
            length,
            records,
        } => {
            push(out, &format!("group {elements} {size} {length}"));
            if let Some(records) = records {
                push(out, &format!(" {records}"));
            }
        }
        Line::Open { opening } => {
            push(out, "open");
            push_words(out, &opening_numbers(opening));
        }
        Line::Free { slot } => push(out, &format!("free {slot}")),
        Line::Link { link, up, room } => {
            push(out, &format!("link {link} {}", u8::from(*up)));
            push_room(out, *room);
        }
        Line::LinkMsg { link, bytes, room } => {
            push(out, &format!("linkmsg {link} "));
            push_hex(out, bytes);
            push_room(out, *room);
        }
        Line::Send { slot, bytes } => {
            push(out, &format!("send {slot} "));
            push_hex(out, bytes);
        }
        Line::Urgent { slot, bytes } => {
            push(out, &format!("urgent {slot} "));
            push_hex(out, bytes);
        }
        Line::Gather { slot, head, body } => {
            push(out, &format!("gather {slot}"));
            push_hex_word(out, head);
            push_hex_word(out, body);
        }
        Line::Place {
            slot,
            offset,
            bytes,
        } => {
            push(out, &format!("place {slot} {offset} "));
            push_hex(out, bytes);
        }
        Line::Read { slot, room } => push(out, &format!("read {slot} {room}")),
        Line::Hear { bytes } => {
            push(out, "hear ");
            push_hex(out, bytes);
        }
        Line::Shutdown { slot } => push(out, &format!("shutdown {slot}")),
        Line::Close { slot } => push(out, &format!("close {slot}")),
        Line::Abort { slot } => push(out, &format!("abort {slot}")),
        Line::Record { slot, record } => {
            push(out, &format!("record {slot}"));
            push_record(out, record);
        }
        Line::Poke { at, bytes } => {
            push(out, &format!("poke {at} "));
            push_hex(out, bytes);
        }
        Line::Table => push(out, "table"),
        Line::Memory { at, count } => push(out, &format!("memory {at} {count}")),
        Line::Pool => push(out, "pool"),
        Line::Take { units } => push(out, &format!("take {units}")),
        Line::Return { start, units } => push(out, &format!("return {start} {units}")),
        Line::Books { books } => {
            push(out, "books ");
            push_hex(out, &books.0);
        }
        Line::BooksShown => push(out, "books"),
        Line::Settings { settings } => push_settings(out, settings),
        Line::Setup { due, bytes } => {
            push(out, &format!("setup {} ", due.name()));
            push_hex(out, bytes);
        }
        Line::Clc { bytes } => {
            push(out, "clc ");
            push_hex(out, bytes);
        }
        Line::Sample { link, milliseconds } => push(out, &format!("sample {link} {milliseconds}")),
        Line::Health { link } => push(out, &format!("health {link}")),
        Line::LinkSend { link, fields, room } => {
            push(out, &format!("linksend {link} "));
            push_fields(out, Some(fields));
            push_room(out, *room);
        }
        Line::Links { active } => push_links(out, active),
        Line::Role { role } => push(out, &format!("role {}", role.name())),
        Line::Exchange { exchange } => push_exchange(out, exchange),
        Line::Queue { queue } => push_queue(out, queue),
        Line::Gauge { link, gauge } => push_gauge(out, usize::from(*link), gauge),
    }
}
