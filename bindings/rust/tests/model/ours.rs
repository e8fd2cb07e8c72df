//! The crate driven by the second program's lines, with the second program's answers.

use fordlinnet::{
    set_up, Books, Closed, Cursor, Due, Exchange, Fate, Gauge, Group, Health, Identity, Inbound, LinkFields, LinkKind, Links, Marks,
    Message, Opening, Outbound, Prefix, Queue, RToken, Read, Record, Refusal, Remote, Role, Sent, Settings, Side, TakenUp, Urgent, Waiting,
};
use model::random::Random;
use model::replay::{lent_bytes, Answer, Line, Replay, OUT_FILL};
use model::{gauge, links, llc, setup, smcr};
use std::sync::{Arc, Mutex};

fn cursor(c: smcr::Cursor) -> Cursor {
    Cursor { offset: c.offset, wrap: c.wrap }
}

fn urgent(place: Option<smcr::Cursor>) -> Urgent {
    place.map_or(Urgent::default(), |place| Urgent { standing: true, place: cursor(place) })
}

fn rtokens(keys: &[u32; 4], bases: &[u64; 4]) -> [RToken; 4] {
    std::array::from_fn(|k| RToken { key: keys[k], base: bases[k] })
}

pub fn record(c: &smcr::Connection) -> Record {
    Record {
        id: Identity { opened: c.open, own: c.own_token, peer: c.peer_token, link: c.link },
        remote: Remote { size: c.peer_size, index: c.index.into(), rtokens: rtokens(&c.keys, &c.bases) },
        inbound: Inbound {
            producer: cursor(c.peer_producer),
            consumer: cursor(c.consumer),
            told: cursor(c.told),
            last: c.heard_sequence,
            blocked: c.peer_blocked,
            request: c.update_requested,
            urgent: urgent(c.urgent_heard),
        },
        outbound: Outbound {
            producer: cursor(c.producer),
            consumer: cursor(c.peer_consumer),
            next: c.next_sequence,
            blocked: c.blocked,
            urgent: urgent(c.urgent_sent),
        },
        marks: Marks {
            sent: Side { done: c.done_sent, closed: c.closed_sent },
            heard: Side { done: c.done_heard, closed: c.closed_heard },
            first: c.ours_first,
            abort: c.abort_sent,
        },
    }
}

fn gauge(g: &gauge::Gauge) -> Gauge {
    Gauge { mean: g.mean, worst: g.worst, count: g.count, late: g.late }
}

fn role(r: links::Role) -> Role {
    match r {
        links::Role::Client => Role::Client,
        links::Role::Server => Role::Server,
    }
}

fn exchange(e: links::Exchange) -> Exchange {
    Exchange { stage: e.stage, v: e.v, w: e.w }
}

fn queue(q: &links::Queue) -> Queue {
    Queue { count: q.count, places: q.places.map(|place| Waiting { link: place.link, bytes: place.bytes }) }
}

fn fields(f: &LinkFields) -> llc::Fields {
    llc::Fields { kind: f.kind().code(), values: f.values().to_vec() }
}

fn fate(f: Fate) -> links::Fate {
    let found = links::Fate::ALL.into_iter().find(|of| of.name() == f.to_string());
    found.expect("the model's names")
}

fn taken_up(t: &TakenUp) -> links::TakenUp {
    links::TakenUp { link: t.link, fields: t.fields.as_ref().map(fields), fate: fate(t.fate) }
}

fn opening(o: &smcr::Opening) -> (u32, Opening) {
    let remote = Remote { size: o.peer_size, index: o.index, rtokens: rtokens(&o.keys, &o.bases) };
    (o.slot, Opening { own: o.own_token, peer: o.peer_token, link: o.link, remote })
}

fn settings(s: &setup::Settings) -> Settings {
    Settings {
        size: s.size,
        peer_id: s.peer_id,
        gid: s.gid,
        mac: s.mac,
        mask: s.mask,
        mask_length: s.mask_length,
        prefix_count: s.count,
        prefixes: s.prefixes.map(|p| Prefix { prefix: p.prefix, length: p.length }),
        first_contact: s.first_contact,
        qp: s.qp,
        mtu: s.mtu,
        psn: s.psn,
        own_memory: RToken { key: s.key, base: s.base },
        slot: s.slot,
        own_token: s.own_token,
        link: s.link,
        peer_memory: rtokens(&s.peer_keys, &s.peer_bases),
    }
}

/// The crate's side of a replay.
pub struct Ours {
    pub group: Group,
    pub books: Books,
    settings: Settings,
    random: Random,
    pub gathers: usize,
    /// Messages with F that calls on links made.
    pub moved: usize,
    /// Where the group's calls are told, if they are.
    #[cfg_attr(not(feature = "trace"), allow(dead_code))]
    trace: Option<Arc<Mutex<String>>>,
}

/// The model's answers are what both sides are turned into.
impl Ours {
    pub fn new() -> Ours {
        let group = Group::fresh(1, 8).expect("sizes in range");
        let settings = settings(&setup::Settings::default());
        Ours { group, books: Books::free(), settings, random: Random::new(7), gathers: 0, moved: 0, trace: None }
    }

    /// The same, with every call of the group written down.
    #[cfg(feature = "trace")]
    pub fn traced(to: &Arc<Mutex<String>>) -> Ours {
        let mut ours = Ours { trace: Some(to.clone()), ..Ours::new() };
        ours.begin_trace();
        ours
    }

    fn begin_trace(&mut self) {
        #[cfg(feature = "trace")]
        if let Some(to) = self.trace.clone() {
            self.group.trace(move |line| {
                let mut text = to.lock().expect("no panic while it is held");
                text.push_str(line);
                text.push('\n');
            });
        }
    }

    pub fn execute(&mut self, line: &Line) -> Option<Answer> {
        let group = &mut self.group;
        Some(match line {
            Line::Group { elements, size, length, records } => {
                let records = records.unwrap_or(model::replay::usual_records(*elements));
                *group = Group::lend(*elements, *size, vec![0; *length], vec![Record::default(); records], Links::default());
                self.begin_trace();
                Answer::Word("group")
            }
            Line::Open { opening: o } => {
                let (slot, opening) = opening(o);
                answered(group.open_at_any_time(slot, &opening), |()| Answer::Word("open"))
            }
            Line::Free { slot } => answered(group.free(*slot), |_| Answer::Word("free")),
            Line::Link { link, up, room } => {
                let mut own = self.group.clone();
                let (changed, out) = self.lending(*room, |group, out| group.link_change_into(*link, *up, out));
                self.own_room(*room, &changed, own.link_change(*link, *up), own);
                match changed {
                    Ok(changed) => Answer::Link(self.in_front(&changed.moved, &out), out),
                    Err(refusal) => Answer::RefusedLink(refusal.number(), out),
                }
            }
            Line::LinkMsg { link, bytes, room } => {
                let mut own = self.group.clone();
                let (heard, out) = self.lending(*room, |group, out| group.link_message_into(*link, bytes, out));
                self.own_room(*room, &heard, own.link_message(*link, bytes), own);
                match heard {
                    Ok(heard) => {
                        let answer = links::LinkAnswer {
                            fields: heard.fields.as_ref().map(fields),
                            fate: fate(heard.fate),
                            reply: heard.reply,
                            taken_up: heard.taken_up.as_ref().map(taken_up),
                            count: self.in_front(&heard.moved, &out),
                        };
                        Answer::LinkMsg(answer, out)
                    }
                    Err(refusal) => Answer::RefusedLink(refusal.number(), out),
                }
            }
            Line::LinkSend { link, fields: f, room } => {
                let kind = LinkKind::from_code(f.kind).expect("a named kind");
                let fields = LinkFields::of(kind, &f.values);
                let mut own = self.group.clone();
                let (sent, out) = self.lending(*room, |group, out| group.link_send_into(*link, &fields, out));
                self.own_room(*room, &sent, own.link_send(*link, &fields), own);
                match sent {
                    Ok(sent) => {
                        let (bytes, taken_up) = (sent.message, sent.taken_up.as_ref().map(taken_up));
                        Answer::LinkSent(links::LinkSent { bytes, taken_up, count: self.in_front(&sent.moved, &out) }, out)
                    }
                    Err(refusal) => Answer::RefusedLink(refusal.number(), out),
                }
            }
            Line::Links { active } => {
                group.links_mut().active = *active;
                Answer::Word("links")
            }
            Line::Role { role: r } => {
                group.links_mut().role = role(*r);
                Answer::Word("role")
            }
            Line::Exchange { exchange: e } => {
                group.links_mut().exchange = exchange(*e);
                Answer::Word("exchange")
            }
            Line::Queue { queue: q } => {
                group.links_mut().queue = queue(q);
                Answer::Word("queue")
            }
            Line::Send { slot, bytes } => {
                self.gather_beside(*slot, bytes);
                answered(self.group.send(*slot, bytes), |s| Answer::Sent(sent(&s)))
            }
            Line::Urgent { slot, bytes } => answered(group.urgent_send(*slot, bytes), |s| Answer::Urgent(sent(&s))),
            Line::Gather { slot, head, body } => answered(group.gather(*slot, head, body), |g| {
                let piece = |p: fordlinnet::Piece| smcr::Piece { key: p.key, address: p.address, bytes: p.bytes.to_vec() };
                let last = g.last();
                let pieces = g.pieces().chain([last]).map(piece).collect();
                Answer::Gathered(smcr::Gathered { taken: g.taken as i64, pieces, message: g.message.map(Into::into) })
            }),
            Line::Place { slot, offset, bytes } => answered(group.place(*slot, *offset, bytes), |()| Answer::Word("place")),
            Line::Read { slot, room } => {
                let mut out = vec![OUT_FILL; *room];
                match group.read(*slot, &mut out) {
                    Ok(Read::Bytes { count, message }) => {
                        let message = message.map(Into::into);
                        Answer::Read(smcr::ReadAnswer::Read { taken: count as i64, message }, out)
                    }
                    Ok(Read::Torn { message }) => Answer::Read(smcr::ReadAnswer::Torn { message: message.into() }, out),
                    Err(refusal) => Answer::RefusedRead(refusal.number(), out),
                }
            }
            Line::Hear { bytes } => {
                let before = open_slots(group);
                answered(group.hear(bytes), |heard| {
                    assert_eq!(heard.quiet.map(|quiet| quiet.slot()), closed_since(&before, group));
                    let state = smcr::State::ALL[heard.state as usize];
                    assert_eq!(state.name(), heard.state.to_string());
                    Answer::Heard(smcr::Heard { moved: heard.moved as i64, state, message: heard.message.map(Into::into) })
                })
            }
            Line::Shutdown { slot } => answered(group.shutdown(*slot), |m| Answer::Made("shutdown", m.into())),
            Line::Close { slot } => {
                let before = open_slots(group);
                answered(group.close(*slot), |closed| {
                    let answer = match &closed {
                        Closed::InOrder { message, .. } => Answer::Made("close", (*message).into()),
                        Closed::Reset { message } => Answer::Made("reset", (*message).into()),
                    };
                    assert_eq!(closed.quiet().map(|quiet| quiet.slot()), closed_since(&before, group));
                    answer
                })
            }
            Line::Abort { slot } => answered(group.abort(*slot), |m| Answer::Made("abort", m.into())),
            Line::Record { slot, record: r } => {
                group.table_mut()[slot - 1] = record(r);
                Answer::Word("record")
            }
            Line::Poke { at, bytes } => {
                group.memory_mut()[*at..at + bytes.len()].copy_from_slice(bytes);
                Answer::Word("poke")
            }
            Line::Pool => {
                self.books = Books::free();
                Answer::Word("pool")
            }
            Line::Take { units } => answered(self.books.take(*units), Answer::Taken),
            Line::Return { start, units } => answered(self.books.give_back(*start, *units), |()| Answer::Word("return")),
            Line::Books { books } => {
                self.books = Books::of(books.0);
                Answer::Word("books")
            }
            Line::Sample { link, milliseconds } => answered(group.sample(*link, *milliseconds), |h| Answer::Health("sample", health(h))),
            Line::Health { link } => Answer::Health("health", health(group.health(*link))),
            Line::Gauge { link, gauge: g } => {
                group.links_mut().gauges[usize::from(*link) - 1] = gauge(g);
                Answer::Word("gauge")
            }
            Line::Settings { settings: s } => {
                self.settings = settings(s);
                Answer::Word("settings")
            }
            Line::Setup { due, bytes } => {
                let due = match due {
                    setup::Due::None => Due::Nothing,
                    setup::Due::Proposal => Due::Proposal,
                    setup::Due::Accept => Due::Accept,
                    setup::Due::Confirm => Due::Confirm,
                };
                match set_up(&self.settings, due, bytes) {
                    Ok(up) => {
                        let open = up.open.map(|(slot, o)| smcr::Opening {
                            slot,
                            own_token: o.own,
                            peer_token: o.peer,
                            link: o.link,
                            peer_size: o.remote.size,
                            index: o.remote.index,
                            keys: o.remote.rtokens.map(|t| t.key),
                            bases: o.remote.rtokens.map(|t| t.base),
                        });
                        let message = (!up.message.is_empty()).then_some(up.message);
                        Answer::SetUp(setup::SetUp { message, open, diagnosis: up.diagnosis })
                    }
                    Err(refusal) => Answer::Refused(refusal.number()),
                }
            }
            // what only looks, and the text of a set-up message
            Line::Table | Line::Memory { .. } | Line::BooksShown | Line::Clc { .. } => return None,
        })
    }

    /// Makes a call on links with a buffer as the line asks for it; what it leaves there comes back too.
    fn lending<A>(&mut self, room: Option<usize>, call: impl FnOnce(&mut Group, &mut [u8]) -> A) -> (A, Vec<u8>) {
        let mut out = vec![OUT_FILL; lent_bytes(self.group.elements(), room)];
        (call(&mut self.group, &mut out), out)
    }

    /// With the group's own buffer the call answers and leaves the same, but where the line's is too short.
    fn own_room<A: std::fmt::Debug + PartialEq>(
        &self,
        room: Option<usize>,
        lent: &Result<A, Refusal>,
        own: Result<A, Refusal>,
        left: Group,
    ) {
        if room.is_none_or(|room| Message::SIZE * self.group.elements() as usize <= room) {
            assert!(*lent == own && self.group == left, "with the group's own buffer: {own:?}, with the line's: {lent:?}");
        }
    }

    /// The messages with F stand at the front of the buffer; how many.
    fn in_front(&mut self, moved: &[Message], out: &[u8]) -> usize {
        let bytes: Vec<u8> = moved.iter().flat_map(|message| *message.as_bytes()).collect();
        assert!(out.starts_with(&bytes) && moved.iter().all(|message| message.flags().failover));
        self.moved += moved.len();
        moved.len()
    }

    /// A head and a body on a copy of the group: all as a plain send of the joined bytes, and the pieces are those bytes.
    fn gather_beside(&mut self, slot: u32, bytes: &[u8]) {
        let (head, body) = bytes.split_at(self.random.below(bytes.len() as u64 + 1) as usize);
        let (mut joined, mut parted) = (self.group.clone(), self.group.clone());
        let plain = joined.send(slot, bytes);
        let gathered = parted.gather(slot, head, body);
        match (&plain, &gathered) {
            (Ok(sent), Ok(gathered)) => {
                assert_eq!((sent.taken, sent.message), (gathered.taken, gathered.message));
                let mut at = 0;
                for piece in gathered.pieces() {
                    let source = if at < head.len() { &head[at..] } else { &body[at - head.len()..] };
                    assert!(std::ptr::eq(source.as_ptr(), piece.bytes.as_ptr()), "a piece is no copy");
                    let inside = sent.placings.iter().find(|p| (p.start as usize..(p.start + p.len) as usize).contains(&at));
                    let placing = inside.expect("every piece lies in a placing");
                    let ahead = at as u64 - u64::from(placing.start);
                    assert_eq!((piece.key, piece.address), (placing.key, placing.address + ahead));
                    assert!(at + piece.bytes.len() <= (placing.start + placing.len) as usize);
                    at += piece.bytes.len();
                }
                assert_eq!(at, sent.taken);
                assert!(gathered.pieces().count() <= 3);
            }
            (Err(a), Err(b)) => assert_eq!(a, b),
            _ => panic!("a gather is refused as a send is: {plain:?}, {gathered:?}"),
        }
        assert!(joined == parted, "a gather leaves what a send leaves");
        self.gathers += 1;
    }

    pub fn same_as(&self, theirs: &Replay) -> bool {
        let bits = |g: Gauge| (g.mean.to_bits(), g.worst.to_bits(), g.count, g.late);
        let links = self.group.links().active == theirs.group.links
            && self.group.links().gauges.map(bits) == theirs.group.gauges.map(|g| bits(gauge(&g)))
            && self.group.role() == role(theirs.group.role)
            && *self.group.exchange() == exchange(theirs.group.exchange)
            && *self.group.queue() == queue(&theirs.group.queue);
        let table = self.group.table().len() == theirs.group.table.len()
            && self.group.table().iter().zip(&theirs.group.table).all(|(ours, c)| *ours == record(c));
        table && links && *self.group.memory() == theirs.group.memory && *self.books.sizes() == theirs.pool.0
    }
}

fn open_slots(group: &Group) -> Vec<bool> {
    group.table().iter().map(|record| record.id.opened).collect()
}

/// The slot that a call has closed; the right to open it again is made for that one.
fn closed_since(before: &[bool], group: &Group) -> Option<u32> {
    let closed = before.iter().zip(group.table()).position(|(open, record)| *open && !record.id.opened);
    closed.map(|place| place as u32 + 1)
}

fn answered<T>(answer: Result<T, Refusal>, then: impl FnOnce(T) -> Answer) -> Answer {
    match answer {
        Ok(value) => then(value),
        Err(refusal) => Answer::Refused(refusal.number()),
    }
}

fn sent(s: &Sent) -> smcr::Sent {
    let placing = |p: &fordlinnet::Placing| smcr::Placing { key: p.key, address: p.address, start: p.start.into(), length: p.len.into() };
    let placings = s.placings.iter().map(placing).collect();
    smcr::Sent { taken: s.taken as i64, placings, message: s.message.map(Into::into) }
}

fn health(h: Health) -> gauge::Health {
    match h {
        Health::Unheard => gauge::Health::Unheard,
        Health::Steady(mean) => gauge::Health::Steady(mean),
        Health::Late(mean, worst) => gauge::Health::Late(mean, worst),
    }
}
