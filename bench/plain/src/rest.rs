//! Open, the pool's calls, link message and link send: both sides on random calls, then timed by turns.

use crate::links::{Fields, Heard, Sent, TakenUp};
use crate::{opened, plain, pool, N, ROUNDS};
use fordlinnet::{
    Books, Exchange, Group, LinkFields, LinkKind, Links, Opening, Queue, RToken, Record, Refusal, Remote, Role, Row, Waiting,
};
use model::generate::links::any_fields;
use model::random::Random;
use std::fmt::Debug;
use std::hint::black_box;
use std::time::Instant;

/// At most so many times plain Rust's time.
const TAKE: f64 = 2.0;
const OPEN: f64 = 1.1;
const LINK: f64 = 3.0;

#[derive(Clone, Copy)]
enum Call {
    Take(u32),
    Return(u32, u32),
    Open(Opening),
    Message([u8; 44]),
    Send(LinkFields),
}

/// What a call is lent: one slot of three, the links, the books, a buffer.
#[derive(Clone)]
struct Lent {
    n: u32,
    memory: Vec<u8>,
    table: Vec<Record>,
    links: Links,
    out: Vec<u8>,
    books: [u8; 64],
}

/// The slot of open, and the link of link message and link send.
const SLOT: u32 = 2;
const LINK_1: u8 = 1;

fn fields(f: &LinkFields) -> Fields {
    let mut values = [0; 12];
    values[..f.values().len()].copy_from_slice(f.values());
    Fields { kind: f.kind().code(), values }
}

fn taken_up(t: fordlinnet::TakenUp) -> TakenUp {
    TakenUp { link: t.link, fields: t.fields.as_ref().map(fields), fate: t.fate }
}

fn heard(h: fordlinnet::LinkHeard) -> Heard {
    let (fields, taken_up) = (h.fields.as_ref().map(fields), h.taken_up.map(taken_up));
    Heard { fields, fate: h.fate, reply: h.reply, taken_up, moved: h.moved.len() }
}

fn sent(s: fordlinnet::LinkSent) -> Sent {
    Sent { message: s.message, taken_up: s.taken_up.map(taken_up), moved: s.moved.len() }
}

impl Lent {
    fn new(n: u32) -> Lent {
        let s = 3;
        let links = Links { active: [true; 4], ..Links::default() };
        let table = (1..=s).map(|slot| if slot == SLOT { Record::default() } else { opened(slot, 1000 + slot) }).collect();
        Lent { n, memory: vec![7; (s * n) as usize], table, links, out: vec![9; 44 * s as usize], books: [0; 64] }
    }

    fn group(&mut self) -> (Group<&mut [u8], &mut [Record], &mut Links>, &mut [u8]) {
        let s = self.table.len() as u32;
        (Group::lend(s, self.n, &mut self.memory[..], &mut self.table[..], &mut self.links), &mut self.out)
    }

    fn plain_group(&mut self) -> (plain::Group<'_>, &mut [u8]) {
        let s = self.table.len() as u32;
        (plain::Group { s, n: self.n, memory: &mut self.memory, table: &mut self.table, links: &mut self.links }, &mut self.out)
    }

    fn lay(&mut self, call: &Call, before: &Lent) {
        match call {
            Call::Take(_) | Call::Return(..) => self.books = before.books,
            Call::Open(_) => self.table[SLOT as usize - 1].id.opened = false,
            Call::Message(_) | Call::Send(_) => {
                self.links = before.links;
                self.table[0].id.link = before.table[0].id.link;
            }
        }
    }

    /// The call alone: its answer is laid where all of it can be seen, and not looked at.
    #[inline(never)]
    fn ours(&mut self, call: &Call) {
        match call {
            Call::Take(units) => {
                let mut books = Books::of(self.books);
                let _ = black_box(&books.take(*units));
                self.books = *books.sizes();
            }
            Call::Return(start, units) => {
                let mut books = Books::of(self.books);
                let _ = black_box(&books.give_back(*start, *units));
                self.books = *books.sizes();
            }
            Call::Open(opening) => {
                let _ = black_box(&self.group().0.open_at_any_time(SLOT, opening));
            }
            Call::Message(bytes) => {
                let (mut group, out) = self.group();
                let _ = black_box(&group.link_message_into(LINK_1, bytes, out));
            }
            Call::Send(fields) => {
                let (mut group, out) = self.group();
                let _ = black_box(&group.link_send_into(LINK_1, fields, out));
            }
        }
    }

    #[inline(never)]
    fn plain(&mut self, call: &Call) {
        match call {
            Call::Take(units) => {
                let mut books = pool::Books { sizes: self.books };
                let _ = black_box(&books.take(*units));
                self.books = books.sizes;
            }
            Call::Return(start, units) => {
                let mut books = pool::Books { sizes: self.books };
                let _ = black_box(&books.give_back(*start, *units));
                self.books = books.sizes;
            }
            Call::Open(opening) => {
                let _ = black_box(&self.plain_group().0.open(SLOT, opening));
            }
            Call::Message(bytes) => {
                let (mut group, out) = self.plain_group();
                let _ = black_box(&group.link_message(LINK_1, bytes, out));
            }
            Call::Send(given) => {
                let given = fields(given);
                let (mut group, out) = self.plain_group();
                let _ = black_box(&group.link_send(LINK_1, &given, out));
            }
        }
    }
}

fn same<T: Debug + PartialEq>(ours: Result<T, Refusal>, plain: Result<T, Refusal>, refusals: &mut [u32; 21]) {
    assert!(ours == plain, "proved: {ours:?}\nplain: {plain:?}");
    refusals[ours.err().map_or(0, |refusal| refusal.number() as usize)] += 1;
}

fn books_of(random: &mut Random) -> [u8; 64] {
    let mut books = pool::Books { sizes: [0; 64] };
    for _ in 0..random.below(40) {
        let _ = books.take(1 << random.below(7));
        let at = random.below(64) as usize;
        if random.chance(1, 3) {
            books.sizes[at] = 0;
        }
    }
    if random.chance(1, 6) {
        books.sizes[random.below(64) as usize] = random.draw() as u8 >> random.below(8);
    }
    books.sizes
}

fn link_of(random: &mut Random) -> u8 {
    match random.below(12) {
        0 => 0,
        1 => 5,
        2 => random.draw() as u8,
        _ => random.between(1, 4) as u8,
    }
}

fn links_of(random: &mut Random) -> Links {
    let active = [(); 4].map(|()| random.chance(3, 4));
    let role = if random.chance(1, 2) { Role::Server } else { Role::Client };
    let exchange = Exchange { stage: random.below(12) as u8, v: link_of(random), w: link_of(random) };
    let mut queue = Queue { count: [0, 1, 2, 3, 4, 5, 255][random.below(7) as usize], ..Queue::default() };
    for place in &mut queue.places {
        let link = link_of(random);
        *place = Waiting { link: link_of(random), bytes: if random.chance(3, 4) { any_fields(random, link).write() } else { [0; 44] } };
    }
    Links { active, role, exchange, queue, ..Links::default() }
}

/// Both sides on so many random calls. Each refusal that these calls know must have come up.
pub fn check(wanted: usize) -> usize {
    let random = &mut Random::new(32);
    let mut refusals = [0; 21];
    let start = Lent::new(64);
    for round in 0..wanted {
        let mut ours = start.clone();
        for record in &mut ours.table {
            record.id.link = link_of(random);
        }
        ours.links = links_of(random);
        if random.chance(1, 40) {
            ours.out.truncate(131);
        }
        let mut theirs = ours.clone();
        match round % 4 {
            0 => {
                let sizes = books_of(random);
                let (mut a, mut b) = (Books::of(sizes), pool::Books { sizes });
                let units = if random.chance(1, 6) { random.below(70) as u32 } else { 1 << random.below(7) };
                if random.chance(1, 2) {
                    same(a.take(units), b.take(units), &mut refusals);
                } else {
                    let at = random.below(66) as u32;
                    let given = if random.chance(1, 3) { units } else { sizes.get(at as usize).map_or(units, |size| u32::from(*size)) };
                    same(a.give_back(at, given), b.give_back(at, given), &mut refusals);
                }
                assert!(*a.sizes() == b.sizes, "other books");
            }
            1 => {
                let size = [7, 8, 64, 65_540, 65_541][random.below(5) as usize];
                let high = if random.chance(1, 8) { u64::MAX } else { 1 << 40 };
                let rtokens = [(); 4].map(|()| RToken { key: random.draw() as u32, base: random.below(high) });
                let remote = Remote { size, index: random.below(258) as u32, rtokens };
                let (own, peer) = (1000 + random.below(5) as u32, random.below(9) as u32);
                let opening = Opening { own: if random.chance(1, 9) { 0 } else { own }, peer, link: link_of(random), remote };
                let slot = if random.chance(1, 2) { SLOT } else { random.below(6) as u32 };
                same(ours.group().0.open_at_any_time(slot, &opening), theirs.plain_group().0.open(slot, &opening), &mut refusals);
            }
            k => {
                let x = ours.links.exchange;
                let link = [x.v, x.v, x.w, link_of(random)][random.below(4) as usize];
                let named = any_fields(random, x.w);
                let ((mut a, out), (mut b, plain_out)) = (ours.group(), theirs.plain_group());
                if k == 2 {
                    let mut bytes = named.write().to_vec();
                    if random.chance(1, 6) {
                        bytes[random.below(44) as usize] = random.draw() as u8;
                    }
                    bytes.truncate(if random.chance(1, 30) { 43 } else { 44 });
                    same(a.link_message_into(link, &bytes, out).map(heard), b.link_message(link, &bytes, plain_out), &mut refusals);
                } else {
                    let given = LinkFields::of(LinkKind::from_code(named.kind).expect("a kind"), &named.values);
                    same(a.link_send_into(link, &given, out).map(sent), b.link_send(link, &fields(&given), plain_out), &mut refusals);
                }
            }
        }
        assert!(ours.table == theirs.table && ours.memory == theirs.memory && ours.out == theirs.out, "another table, memory or buffer");
        assert!(ours.links == theirs.links, "other links");
    }
    for number in [0, 1, 2, 3, 4, 6, 10, 11, 12, 13, 14, 15, 18, 19, 20] {
        assert!(refusals[number] > 0, "{number} did not come up");
    }
    wanted
}

struct Case {
    what: &'static str,
    words: &'static str,
    target: f64,
    call: Call,
    before: Lent,
}

fn rows() -> Vec<Case> {
    let base = Lent::new(64);
    let mut rows = Vec::new();
    let books = |blocks: &[(usize, u8)]| {
        let mut sizes = [0; 64];
        blocks.iter().for_each(|(at, size)| sizes[*at] = *size);
        sizes
    };
    let ones: Vec<(usize, u8)> = (0..64).map(|at| (at, 1)).collect();
    let mixed = [(0, 4), (4, 1), (6, 2), (8, 8), (16, 16), (34, 2), (36, 1), (40, 8)];
    for (words, units, sizes) in [
        ("1 unit, nothing given out", 1, books(&[])),
        ("16 units, blocks of all sizes", 16, books(&mixed)),
        ("1 unit, 63 of one", 1, books(&ones[..63])),
        ("1 unit, none free", 1, books(&ones)),
        ("64 units, one given out", 64, books(&ones[63..])),
    ] {
        rows.push(Case { what: "pool take", words, target: TAKE, call: Call::Take(units), before: Lent { books: sizes, ..base.clone() } });
    }
    let given = Lent { books: books(&mixed), ..base.clone() };
    rows.push(Case { what: "pool return", words: "8 units, blocks of all sizes", target: TAKE, call: Call::Return(40, 8), before: given });

    let remote = Remote { size: N, index: 3, rtokens: [RToken { key: 7, base: 1 << 40 }; 4] };
    let opening = Call::Open(Opening { own: 5, peer: 6, link: 1, remote });
    rows.push(Case { what: "open", words: "65,540 bytes zeroed", target: OPEN, call: opening, before: Lent::new(N) });
    rows.push(Case { what: "open", words: "64 bytes zeroed", target: f64::MAX, call: opening, before: base.clone() });

    let new = LinkFields::new;
    let (test, add) = (new(LinkKind::TestLink).with(Row::User1, 1 << 60), new(LinkKind::AddLink).with(Row::Link, 2).with(Row::Mtu, 5));
    let delete = new(LinkKind::DeleteLink).with(Row::O, 1).with(Row::Link, 2);
    let keys = new(LinkKind::ConfirmRkey).with(Row::Num, 2).with(Row::Key, 77).with(Row::Addr, 1 << 50);
    let end = |role: Role, link_2: bool| {
        let mut lent = base.clone();
        lent.links = Links { active: [true, link_2, false, true], role, ..Links::default() };
        lent.table.iter_mut().for_each(|record| record.id.link = 1);
        lent
    };
    let (client, server) = (end(Role::Client, true), end(Role::Server, true));
    let mut moving = client.clone();
    moving.table[0].id.link = 2;
    let heard = [
        ("TEST LINK, answered", test, &client),
        ("ADD LINK, an exchange begins", add, &end(Role::Client, false)),
        ("DELETE LINK, a link goes down", delete, &client),
        ("DELETE LINK, and one of two connections moves", delete, &moving),
        ("CONFIRM RKEY, answered", keys, &client),
    ];
    for (words, fields, before) in heard {
        let message = server.clone().group().0.link_send(LINK_1, &fields).expect("it is not barred").message;
        let call = Call::Message(message);
        rows.push(Case { what: "link message", words, target: LINK, call, before: before.clone() });
    }
    let mut adding = end(Role::Client, false);
    adding.links.exchange = Exchange { stage: 1, v: 1, w: 2 };
    let sends = [
        ("TEST LINK", test, &server),
        ("ADD LINK, an exchange begins", add, &server),
        ("ADD LINK, the reply that is due", add.with(Row::R, 1), &adding),
        ("DELETE LINK, an exchange begins", delete, &server),
        ("CONFIRM RKEY, an exchange begins", keys, &server),
    ];
    for (words, fields, before) in sends {
        rows.push(Case { what: "link send", words, target: LINK, call: Call::Send(fields), before: before.clone() });
    }
    rows
}

/// Nanoseconds of laying back alone, of the proved call and of the plain one: the best of the rounds, taken by turns.
fn time(case: &Case) -> [f64; 3] {
    let turns = if case.before.n == N { 500 } else { 3000 };
    let mut lent = case.before.clone();
    let mut best = [f64::MAX; 3];
    for round in 0..3 * ROUNDS {
        let way = (round + round / 3) % 3;
        let start = Instant::now();
        for _ in 0..turns {
            let (lent, case) = (black_box(&mut lent), black_box(case));
            lent.lay(&case.call, &case.before);
            match way {
                0 => {}
                1 => lent.ours(&case.call),
                _ => lent.plain(&case.call),
            }
        }
        best[way] = best[way].min(start.elapsed().as_nanos() as f64 / turns as f64);
    }
    best
}

/// Both sides leave the same, and are not refused but where the row says so.
fn agree(case: &Case) {
    let (mut ours, mut plain) = (case.before.clone(), case.before.clone());
    ours.ours(&case.call);
    plain.plain(&case.call);
    let same = ours.table == plain.table && ours.memory == plain.memory && ours.links == plain.links && ours.books == plain.books;
    assert!(same, "{} {}: not the same", case.what, case.words);
}

/// The table; how many rows are over what is asked.
pub fn table(only: Option<&str>) -> u32 {
    let mut over = 0;
    println!("| call | case | ours, ns | plain, ns | ratio | asked |");
    println!("|---|---|---:|---:|---:|---:|");
    for case in rows().into_iter().filter(|case| only.is_none_or(|only| only == case.what)) {
        agree(&case);
        let [laid, ours, plain] = time(&case);
        let (ours, plain) = (ours - laid, plain - laid);
        let ratio = ours / plain;
        let missed = ratio > case.target;
        over += u32::from(missed);
        let mark = if missed { " (over)" } else { "" };
        let asked = if case.target == f64::MAX { String::new() } else { format!("{:.1}", case.target) };
        println!("| {} | {} | {ours:.1} | {plain:.1} | {ratio:.2}{mark} | {asked} |", case.what, case.words);
    }
    println!();
    over
}

/// One side of one row so many times, for a tool that counts instructions.
pub fn count(row: usize, way: &str, turns: usize) {
    let case = rows().swap_remove(row);
    let mut lent = case.before.clone();
    for _ in 0..turns {
        let (lent, case) = (black_box(&mut lent), black_box(&case));
        lent.lay(&case.call, &case.before);
        match way {
            "ours" => lent.ours(&case.call),
            "plain" => lent.plain(&case.call),
            _ => {}
        }
    }
}

/// The rows' names, in the order of `count`.
pub fn names() -> Vec<String> {
    rows().iter().map(|case| format!("{}: {}", case.what, case.words)).collect()
}
