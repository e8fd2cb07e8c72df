//! A group's calls, written down as the program `replay` reads them.

use crate::{Closed, Gathered, Health, Heard, LinkChanged, LinkFields, LinkHeard, LinkSent, Links, Message, Opening};
use crate::{Read, Record, Refusal, Role, Sent, TakenUp, Urgent};
use alloc::boxed::Box;
use alloc::string::String;
use alloc::vec::Vec;
use core::fmt::{self, Write};

/// The most that a line of the format takes: bytes of hexadecimal, of an out buffer, of memory, and records.
const BYTES: usize = 70_000;
const ROOM: usize = 65_600;
const MEMORY: usize = 1_048_704;
const RECORDS: usize = 300;

pub(crate) type Sink = Box<dyn FnMut(&str) + Send + Sync>;

/// Where `FORDLINNET_TRACE` names a file, a new one of that name, the process's number and this one.
#[cfg(all(feature = "std", feature = "trace"))]
pub(crate) fn file(number: u32) -> Option<Sink> {
    use std::ffi::OsString;
    use std::io::Write;
    use std::sync::OnceLock;
    static NAMED: OnceLock<Option<OsString>> = OnceLock::new();
    let mut name = NAMED.get_or_init(|| std::env::var_os("FORDLINNET_TRACE").filter(|name| !name.is_empty())).clone()?;
    name.push(std::format!(".{}.{number}", std::process::id()));
    match std::fs::File::create(&name) {
        Ok(file) => {
            let mut file = std::io::LineWriter::new(file);
            Some(Box::new(move |line| {
                // a trace that cannot be written ends; the run goes on
                let _ = writeln!(file, "{line}");
            }))
        }
        Err(trouble) => {
            std::eprintln!("fordlinnet: no trace in {}: {trouble}", name.to_string_lossy());
            None
        }
    }
}

/// The hook of a group: nothing, or who is told. It is no part of the group.
#[derive(Default)]
pub(crate) struct Trace(Option<Box<Tracer>>);

impl Trace {
    #[cfg(feature = "trace")]
    pub(crate) fn to(sink: impl FnMut(&str) + Send + Sync + 'static) -> Trace {
        Trace(Some(Box::new(Tracer { sink: Box::new(sink), text: String::new(), known: None })))
    }

    #[inline]
    pub(crate) fn on(&self) -> bool {
        cfg!(feature = "trace") && self.0.is_some()
    }

    pub(crate) fn take(&mut self) -> Option<Box<Tracer>> {
        self.0.take()
    }

    pub(crate) fn put(&mut self, tracer: Box<Tracer>) {
        self.0 = Some(tracer);
    }

    /// Where `FORDLINNET_TRACE` names a file, one of that name, the process's number and the group's is made for each group.
    #[cfg(all(feature = "std", feature = "trace"))]
    pub(crate) fn from_environment() -> Trace {
        use std::sync::atomic::{AtomicU32, Ordering};
        static GROUPS: AtomicU32 = AtomicU32::new(0);
        match file(GROUPS.fetch_add(1, Ordering::Relaxed) + 1) {
            Some(sink) => Trace::to(sink),
            None => Trace::default(),
        }
    }

    #[cfg(not(all(feature = "std", feature = "trace")))]
    pub(crate) fn from_environment() -> Trace {
        Trace::default()
    }
}

impl Clone for Trace {
    fn clone(&self) -> Trace {
        Trace::default()
    }
}

impl PartialEq for Trace {
    fn eq(&self, _: &Trace) -> bool {
        true
    }
}

impl fmt::Debug for Trace {
    fn fmt(&self, f: &mut fmt::Formatter<'_>) -> fmt::Result {
        f.write_str(if self.on() { "on" } else { "off" })
    }
}

/// What the replay would have by now: memory, table and links as its lines left them.
struct Known {
    n: usize,
    memory: Vec<u8>,
    table: Vec<Record>,
    links: Links,
}

/// Writes lines: each call with its answer below it, behind `#> `. What was changed by hand or by a card since the last call is laid in
/// before it.
pub(crate) struct Tracer {
    sink: Sink,
    text: String,
    known: Option<Known>,
}

/// Bytes in hexadecimal; `-` for none.
pub(crate) struct Hex<'a>(pub(crate) &'a [u8]);

impl fmt::Display for Hex<'_> {
    fn fmt(&self, f: &mut fmt::Formatter<'_>) -> fmt::Result {
        if self.0.is_empty() {
            return f.write_str("-");
        }
        self.0.iter().try_for_each(|byte| write!(f, "{byte:02X}"))
    }
}

fn made(message: Option<&Message>) -> Hex<'_> {
    Hex(message.map_or(&[], |message| message.as_bytes()))
}

pub(crate) fn cut(bytes: &[u8]) -> Hex<'_> {
    Hex(&bytes[..bytes.len().min(BYTES)])
}

struct Named<'a>(Option<&'a LinkFields>);

impl fmt::Display for Named<'_> {
    fn fmt(&self, f: &mut fmt::Formatter<'_>) -> fmt::Result {
        let Some(fields) = self.0 else { return f.write_str("-") };
        write!(f, "{:02X}", fields.kind().code())?;
        for (place, value) in fields.values().iter().enumerate() {
            write!(f, "{}{value}", if place == 0 { ':' } else { ',' })?;
        }
        Ok(())
    }
}

struct Then<'a>(Option<&'a TakenUp>);

impl fmt::Display for Then<'_> {
    fn fmt(&self, f: &mut fmt::Formatter<'_>) -> fmt::Result {
        match self.0 {
            Some(up) => write!(f, " then {} {} {}", up.link, Named(up.fields.as_ref()), up.fate),
            None => Ok(()),
        }
    }
}

/// The messages with F, as they stand in the buffer.
struct Moved<'a>(&'a [Message]);

impl fmt::Display for Moved<'_> {
    fn fmt(&self, f: &mut fmt::Formatter<'_>) -> fmt::Result {
        write!(f, " count {} out ", self.0.len())?;
        if self.0.is_empty() {
            return f.write_str("-");
        }
        self.0.iter().try_for_each(|message| write!(f, "{}", Hex(message.as_bytes())))
    }
}

/// A buffer after a read: the bytes read, and A5 behind.
struct Out<'a>(&'a [u8], usize);

impl fmt::Display for Out<'_> {
    fn fmt(&self, f: &mut fmt::Formatter<'_>) -> fmt::Result {
        let room = self.1.min(ROOM);
        if room == 0 {
            return f.write_str("-");
        }
        self.0.iter().try_for_each(|byte| write!(f, "{byte:02X}"))?;
        (self.0.len()..room).try_for_each(|_| f.write_str("A5"))
    }
}

struct Place(Urgent);

impl fmt::Display for Place {
    fn fmt(&self, f: &mut fmt::Formatter<'_>) -> fmt::Result {
        match self.0.standing {
            true => write!(f, "{}:{}", self.0.place.offset, self.0.place.wrap),
            false => f.write_str("-"),
        }
    }
}

struct Fields<'a>(&'a Record);

impl fmt::Display for Fields<'_> {
    fn fmt(&self, f: &mut fmt::Formatter<'_>) -> fmt::Result {
        let Record { id, remote, inbound, outbound, marks } = self.0;
        write!(f, "{} {} {} {} {}", u8::from(id.opened), id.own, id.peer, id.link, remote.size)?;
        for cursor in [inbound.producer, inbound.consumer, inbound.told, outbound.producer, outbound.consumer] {
            write!(f, " {} {}", cursor.offset, cursor.wrap)?;
        }
        let bits = [
            marks.sent.done,
            marks.sent.closed,
            marks.heard.done,
            marks.heard.closed,
            marks.first,
            marks.abort,
            outbound.blocked,
            inbound.blocked,
            inbound.request,
        ];
        let sum: u32 = bits.iter().enumerate().map(|(place, bit)| u32::from(*bit) << place).sum();
        write!(f, " {} {} {sum} {}", outbound.next, inbound.last, remote.index)?;
        for rtoken in remote.rtokens {
            write!(f, " {} {}", rtoken.key, rtoken.base)?;
        }
        write!(f, " {} {}", Place(outbound.urgent), Place(inbound.urgent))
    }
}

impl Tracer {
    fn line(&mut self, text: fmt::Arguments<'_>) {
        self.text.clear();
        // a string takes everything
        let _ = self.text.write_fmt(text);
        (self.sink)(&self.text);
    }

    fn said(&mut self, text: fmt::Arguments<'_>) {
        self.line(format_args!("#> {text}"));
    }

    /// Something that is no call, and what the replay says of it: its first word.
    fn lay(&mut self, word: &str, text: fmt::Arguments<'_>) {
        self.line(format_args!("{word} {text}"));
        self.said(format_args!("{word}"));
    }

    /// Before a call: what it is lent, where that is not what the last one left. Of the memory, the element that a call is to read.
    pub(crate) fn before(&mut self, sizes: (u32, u32), length: usize, table: &[Record], links: &Links, element: Option<(usize, Vec<u8>)>) {
        let mut known = match self.known.take() {
            Some(known) => known,
            None => {
                let (s, n) = sizes;
                if length > MEMORY || table.len() > RECORDS {
                    self.line(format_args!("# {length} bytes of memory and {} records: more than replay takes", table.len()));
                }
                self.lay("group", format_args!("{s} {n} {length} {}", table.len()));
                let (memory, table) = (alloc::vec![0; length], alloc::vec![Record::default(); table.len()]);
                Known { n: n as usize, memory, table, links: Links::default() }
            }
        };
        for (place, (record, last)) in table.iter().zip(&known.table).enumerate() {
            if record != last {
                self.lay("record", format_args!("{} {}", place + 1, Fields(record)));
            }
        }
        self.links(links, &known.links);
        known.links = *links;
        known.table.copy_from_slice(table);
        if let Some((at, bytes)) = element {
            for (from, to) in unlike(&known.memory[at..][..bytes.len()], &bytes) {
                self.lay("poke", format_args!("{} {}", at + from, Hex(&bytes[from..to])));
            }
            known.memory[at..][..bytes.len()].copy_from_slice(&bytes);
        }
        self.known = Some(known);
    }

    fn links(&mut self, links: &Links, last: &Links) {
        if links.role != last.role {
            let role = if links.role == Role::Server { "server" } else { "client" };
            self.lay("role", format_args!("{role}"));
        }
        if links.active != last.active {
            let [a, b, c, d] = links.active.map(u8::from);
            self.lay("links", format_args!("{a} {b} {c} {d}"));
        }
        for (place, (gauge, last)) in links.gauges.iter().zip(&last.gauges).enumerate() {
            let bits = [gauge.mean.to_bits(), gauge.worst.to_bits()];
            if bits != [last.mean.to_bits(), last.worst.to_bits()] || (gauge.count, gauge.late) != (last.count, last.late) {
                let (number, [mean, worst], late) = (place + 1, bits, u8::from(gauge.late));
                self.lay("gauge", format_args!("{number} {mean:016X} {worst:016X} {} {late}", gauge.count));
            }
        }
        if links.exchange != last.exchange {
            let exchange = links.exchange;
            self.lay("exchange", format_args!("{} {} {}", exchange.stage, exchange.v, exchange.w));
        }
        if links.queue != last.queue {
            let mut places = String::new();
            for place in &links.queue.places {
                let bytes: &[u8] = if place.bytes == [0; 44] { &[] } else { &place.bytes };
                let _ = write!(places, " {} {}", place.link, Hex(bytes));
            }
            self.lay("queue", format_args!("{}{places}", links.queue.count));
        }
    }

    /// After a call: what it has left.
    pub(crate) fn after(&mut self, table: &[Record], links: &Links) {
        if let Some(known) = &mut self.known {
            known.table.copy_from_slice(table);
            known.links = *links;
        }
    }

    pub(crate) fn call(&mut self, text: fmt::Arguments<'_>) {
        self.line(text);
    }

    pub(crate) fn refused(&mut self, refusal: Refusal) {
        self.said(format_args!("refused {}", refusal.number()));
    }

    pub(crate) fn word<A>(&mut self, word: &str, answer: &Result<A, Refusal>) {
        match answer {
            Ok(_) => self.said(format_args!("{word}")),
            Err(refusal) => self.refused(*refusal),
        }
    }

    pub(crate) fn opens(&mut self, slot: u32, o: &Opening) {
        let mut keys = String::new();
        for rtoken in o.remote.rtokens {
            let _ = write!(keys, " {} {}", rtoken.key, rtoken.base);
        }
        let (size, index) = (o.remote.size, o.remote.index);
        self.line(format_args!("open {slot} {} {} {} {size} {index}{keys}", o.own, o.peer, o.link));
    }

    /// An open that was accepted has zeroed the element and written the eye catcher.
    pub(crate) fn opened(&mut self, slot: u32, answer: &Result<(), Refusal>) {
        self.word("open", answer);
        if let (Ok(()), Some(known)) = (answer, &mut self.known) {
            let element = &mut known.memory[(slot as usize - 1) * known.n..][..known.n];
            element.fill(0);
            element[..4].copy_from_slice(&[0xE2, 0xD4, 0xC3, 0xD9]);
        }
    }

    /// A place that was accepted has stored its bytes.
    pub(crate) fn placed(&mut self, slot: u32, offset: u32, bytes: &[u8], answer: &Result<(), Refusal>) {
        self.word("place", answer);
        if let (Ok(()), Some(known)) = (answer, &mut self.known) {
            if !bytes.is_empty() {
                known.memory[(slot as usize - 1) * known.n + offset as usize..][..bytes.len()].copy_from_slice(bytes);
            }
        }
    }

    pub(crate) fn bytes(&mut self, call: fmt::Arguments<'_>, bytes: &[u8]) {
        self.line(format_args!("{call} {}", cut(bytes)));
    }

    pub(crate) fn gathers(&mut self, slot: u32, head: &[u8], body: &[u8]) {
        self.line(format_args!("gather {slot} {} {}", cut(head), cut(body)));
    }

    pub(crate) fn reads(&mut self, slot: u32, room: usize) {
        self.line(format_args!("read {slot} {}", room.min(ROOM)));
    }

    /// A buffer of another length than the usual is named.
    pub(crate) fn on_links(&mut self, call: fmt::Arguments<'_>, s: u32, room: Option<usize>) {
        match room {
            Some(room) if room != Message::SIZE * (s as usize).min(RECORDS) => self.line(format_args!("{call} {}", room.min(ROOM))),
            _ => self.line(call),
        }
    }

    pub(crate) fn link_sends(&mut self, link: u8, fields: &LinkFields, s: u32, room: Option<usize>) {
        self.on_links(format_args!("linksend {link} {}", Named(Some(fields))), s, room);
    }

    pub(crate) fn link_hears(&mut self, link: u8, bytes: &[u8], s: u32, room: Option<usize>) {
        self.on_links(format_args!("linkmsg {link} {}", cut(bytes)), s, room);
    }

    pub(crate) fn sampled(&mut self, answer: &Result<Health, Refusal>) {
        match answer {
            Ok(Health::Unheard) => self.said(format_args!("sample unheard")),
            Ok(Health::Steady(mean)) => self.said(format_args!("sample steady {:016X}", mean.to_bits())),
            Ok(Health::Late(mean, worst)) => self.said(format_args!("sample late {:016X} {:016X}", mean.to_bits(), worst.to_bits())),
            Err(refusal) => self.refused(*refusal),
        }
    }

    pub(crate) fn sent(&mut self, word: &str, answer: &Result<Sent, Refusal>) {
        let sent = match answer {
            Ok(sent) => sent,
            Err(refusal) => return self.refused(*refusal),
        };
        let mut placings = String::new();
        for p in &sent.placings {
            let _ = write!(placings, "{}{},{},{},{}", if placings.is_empty() { "" } else { ";" }, p.key, p.address, p.start, p.len);
        }
        let placings = if placings.is_empty() { "-" } else { &placings };
        self.said(format_args!("{word} {} placings {placings} message {}", sent.taken, made(sent.message.as_ref())));
    }

    pub(crate) fn gathered(&mut self, answer: &Result<Gathered<'_>, Refusal>) {
        let gathered = match answer {
            Ok(gathered) => gathered,
            Err(refusal) => return self.refused(*refusal),
        };
        let mut pieces = String::new();
        for piece in gathered.pieces() {
            let _ = write!(pieces, "{},{},{};", piece.key, piece.address, Hex(piece.bytes));
        }
        let last = gathered.last();
        let (n, message) = (gathered.taken, made(gathered.message.as_ref()));
        self.said(format_args!("gather {n} pieces {pieces}{},{},- message {message}", last.key, last.address));
    }

    pub(crate) fn read(&mut self, answer: &Result<Read, Refusal>, out: &[u8]) {
        match answer {
            Ok(Read::Bytes { count, message }) => {
                self.said(format_args!("read {count} out {} message {}", Out(&out[..*count], out.len()), made(message.as_ref())));
            }
            Ok(Read::Torn { message }) => {
                self.said(format_args!("torn out {} message {}", Out(&[], out.len()), Hex(message.as_bytes())));
            }
            Err(refusal) => self.said(format_args!("refused {} out {}", refusal.number(), Out(&[], out.len()))),
        }
    }

    pub(crate) fn heard(&mut self, answer: &Result<Heard, Refusal>) {
        match answer {
            Ok(heard) => self.said(format_args!("hear {} {} message {}", heard.moved, heard.state, made(heard.message.as_ref()))),
            Err(refusal) => self.refused(*refusal),
        }
    }

    pub(crate) fn told(&mut self, word: &str, answer: &Result<Message, Refusal>) {
        match answer {
            Ok(message) => self.said(format_args!("{word} message {}", Hex(message.as_bytes()))),
            Err(refusal) => self.refused(*refusal),
        }
    }

    pub(crate) fn closed(&mut self, answer: &Result<Closed, Refusal>) {
        match answer {
            Ok(Closed::InOrder { message, .. }) => self.said(format_args!("close message {}", Hex(message.as_bytes()))),
            Ok(Closed::Reset { message }) => self.said(format_args!("reset message {}", Hex(message.as_bytes()))),
            Err(refusal) => self.refused(*refusal),
        }
    }

    fn refused_on_links(&mut self, refusal: Refusal) {
        self.said(format_args!("refused {} out -", refusal.number()));
    }

    pub(crate) fn link_changed(&mut self, answer: &Result<LinkChanged, Refusal>) {
        match answer {
            Ok(changed) => self.said(format_args!("link{}", Moved(&changed.moved))),
            Err(refusal) => self.refused_on_links(*refusal),
        }
    }

    pub(crate) fn link_heard(&mut self, answer: &Result<LinkHeard, Refusal>) {
        match answer {
            Ok(heard) => {
                let (fields, reply) = (Named(heard.fields.as_ref()), Hex(heard.reply.as_ref().map_or(&[], |reply| reply)));
                let (then, moved) = (Then(heard.taken_up.as_ref()), Moved(&heard.moved));
                self.said(format_args!("linkmsg {fields} {} reply {reply}{then}{moved}", heard.fate));
            }
            Err(refusal) => self.refused_on_links(*refusal),
        }
    }

    pub(crate) fn link_sent(&mut self, answer: &Result<LinkSent, Refusal>) {
        match answer {
            Ok(sent) => {
                let (then, moved) = (Then(sent.taken_up.as_ref()), Moved(&sent.moved));
                self.said(format_args!("linksend {}{then}{moved}", Hex(&sent.message)));
            }
            Err(refusal) => self.refused_on_links(*refusal),
        }
    }
}

/// The runs in which two slices of one length differ; runs that lie close together are one.
fn unlike(a: &[u8], b: &[u8]) -> Vec<(usize, usize)> {
    let mut runs: Vec<(usize, usize)> = Vec::new();
    for at in (0..a.len()).filter(|&at| a[at] != b[at]) {
        match runs.last_mut() {
            Some((_, to)) if at < *to + 16 => *to = at + 1,
            _ => runs.push((at, at + 1)),
        }
    }
    runs
}
