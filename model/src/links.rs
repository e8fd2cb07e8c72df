//! Link change, link message and link send (2026-01), in the order in which the
//! rules page gives them: the exchange and its stages, collisions, the queue, the
//! links.

use crate::gauge::Gauge;
use crate::llc::*;
use crate::smcr::{link_in_range, Bytes44, Group, LENGTH_BYTE, LINKS, MESSAGE_BYTES};

/// "Role, client or server, given with the group."
#[derive(Clone, Copy, Debug, Default, PartialEq, Eq)]
pub enum Role {
    #[default]
    Client,
    Server,
}

impl Role {
    pub const ALL: [Role; 2] = [Role::Client, Role::Server];

    pub fn name(self) -> &'static str {
        match self {
            Role::Client => "client",
            Role::Server => "server",
        }
    }

    pub fn other(self) -> Role {
        match self {
            Role::Client => Role::Server,
            Role::Server => Role::Client,
        }
    }
}

/// "A stage 0 to 11, and two bytes v (the link it is run over) and w (the link it
/// names). [...] One that ends is written 0, 0, 0."
#[derive(Clone, Copy, Debug, Default, PartialEq, Eq)]
pub struct Exchange {
    pub stage: u8,
    pub v: u8,
    pub w: u8,
}

/// What sort of exchange a stage belongs to.
#[derive(Clone, Copy, Debug, PartialEq, Eq)]
pub enum Sort {
    None,
    Add,
    Delete,
    Rkey,
}

impl Sort {
    pub const ALL: [Sort; 4] = [Sort::None, Sort::Add, Sort::Delete, Sort::Rkey];

    pub fn name(self) -> &'static str {
        match self {
            Sort::None => "none",
            Sort::Add => "add",
            Sort::Delete => "delete",
            Sort::Rkey => "rkey",
        }
    }
}

impl Exchange {
    pub fn sort(&self) -> Sort {
        match self.stage {
            0 => Sort::None,
            1..=4 => Sort::Add,
            5 => Sort::Delete,
            _ => Sort::Rkey,
        }
    }

    /// "The link being added" is w while the sort is add.
    pub fn adds(&self, link: u8) -> bool {
        self.sort() == Sort::Add && link == self.w
    }

    /// "An exchange is run over v, an add over w too."
    pub fn runs_over(&self, link: u8) -> bool {
        self.sort() != Sort::None && (link == self.v || self.adds(link))
    }

    /// "A message is due if the stage's line names it, its sender and its link":
    /// the next stage then.
    pub fn next_if_due(&self, fields: &Fields, from: Role, heard: bool, over: u8) -> Option<u8> {
        let on_v = over == self.v;
        let on_w = over == self.w;
        let names_w = fields.get("link") == u64::from(self.w);
        let z = fields.get("Z") == 1;
        let reply = |kind: u8| fields.is_reply_of(kind);
        let request = |kind: u8| fields.is_request_of(kind);
        let client = from == Role::Client;
        let server = from == Role::Server;
        let rejected = |otherwise: u8| if z { 0 } else { otherwise };
        match self.stage {
            1 if reply(ADD_LINK) && client && on_v && (z || names_w) => Some(rejected(2)),
            2 if request(ADD_LINK_CONTINUATION) && server && on_v && names_w => Some(3),
            2 if request(CONFIRM_LINK) && server && on_w && names_w => Some(4),
            3 if reply(ADD_LINK_CONTINUATION) && client && on_v && names_w => Some(2),
            4 if reply(CONFIRM_LINK) && client && on_w && names_w => Some(0),
            5 if reply(DELETE_LINK) && fields.get("A") == 0 && heard && on_v && names_w => Some(0),
            6 if reply(CONFIRM_RKEY) && heard && on_v => Some(0),
            7 if reply(CONFIRM_RKEY) && heard && on_v => Some(rejected(8)),
            8 if request(CONFIRM_RKEY_CONTINUATION) && !heard && on_v => {
                Some(if fields.get("num") <= 3 { 9 } else { 10 })
            }
            9 if reply(CONFIRM_RKEY_CONTINUATION) && heard && on_v => Some(0),
            10 if reply(CONFIRM_RKEY_CONTINUATION) && heard && on_v => Some(rejected(8)),
            11 if reply(DELETE_RKEY) && heard && on_v => Some(0),
            _ => None,
        }
    }
}

/// A queued message: "a link and the 44 bytes as heard".
#[derive(Clone, Copy, Debug, PartialEq, Eq)]
pub struct Queued {
    pub link: u8,
    pub bytes: Bytes44,
}

const NOTHING_QUEUED: Queued = Queued {
    link: 0,
    bytes: [0; MESSAGE_BYTES],
};

/// "Queued messages number at most four."
pub const PLACES: usize = 4;

/// "A count (above 4 counts as 4) and four places, oldest first."
#[derive(Clone, Copy, Debug, PartialEq, Eq)]
pub struct Queue {
    pub count: u8,
    pub places: [Queued; PLACES],
}

impl Queue {
    pub const EMPTY: Queue = Queue {
        count: 0,
        places: [NOTHING_QUEUED; PLACES],
    };

    pub fn is_full(&self) -> bool {
        usize::from(self.count) >= PLACES
    }

    /// "Queueing writes place count + 1." Only asked where there is one.
    fn put(&mut self, link: u8, bytes: Bytes44) {
        self.places[usize::from(self.count)] = Queued { link, bytes };
        self.count += 1;
    }

    /// "Taking the oldest moves places 2 to 4 up by one and writes place 4 zeros."
    fn take_oldest(&mut self) -> Option<Queued> {
        if self.count == 0 {
            return None;
        }
        let oldest = self.places[0];
        self.places.rotate_left(1);
        self.places[PLACES - 1] = NOTHING_QUEUED;
        self.count = self.count.min(PLACES as u8) - 1;
        Some(oldest)
    }
}

/// "Their fate (taken, queued, denied, dropped)."
#[derive(Clone, Copy, Debug, PartialEq, Eq)]
pub enum Fate {
    Taken,
    Queued,
    Denied,
    Dropped,
}

impl Fate {
    pub const ALL: [Fate; 4] = [Fate::Taken, Fate::Queued, Fate::Denied, Fate::Dropped];

    pub fn name(self) -> &'static str {
        match self {
            Fate::Taken => "taken",
            Fate::Queued => "queued",
            Fate::Denied => "denied",
            Fate::Dropped => "dropped",
        }
    }
}

/// The rows of the table of collisions.
#[derive(Clone, Copy, Debug, PartialEq, Eq)]
pub enum Arriving {
    ConfirmLinkRequest,
    AddLinkFromClient,
    AddLinkFromServer,
    DeleteLinkFromClient,
    DeleteLinkFromServer,
    DeleteGroup,
    RkeyFromClient,
    RkeyFromServer,
    DeleteRkey,
    TestLink,
    AllElse,
}

impl Arriving {
    pub const ALL: [Arriving; 11] = [
        Arriving::ConfirmLinkRequest,
        Arriving::AddLinkFromClient,
        Arriving::AddLinkFromServer,
        Arriving::DeleteLinkFromClient,
        Arriving::DeleteLinkFromServer,
        Arriving::DeleteGroup,
        Arriving::RkeyFromClient,
        Arriving::RkeyFromServer,
        Arriving::DeleteRkey,
        Arriving::TestLink,
        Arriving::AllElse,
    ];

    pub fn name(self) -> &'static str {
        match self {
            Arriving::ConfirmLinkRequest => "01 request",
            Arriving::AddLinkFromClient => "02 request from client",
            Arriving::AddLinkFromServer => "02 request from server",
            Arriving::DeleteLinkFromClient => "04 request from client",
            Arriving::DeleteLinkFromServer => "04 request from server",
            Arriving::DeleteGroup => "04 request with A",
            Arriving::RkeyFromClient => "06, 08 request from client",
            Arriving::RkeyFromServer => "06, 08 request from server",
            Arriving::DeleteRkey => "09 request",
            Arriving::TestLink => "07",
            Arriving::AllElse => "all else",
        }
    }

    pub fn of(fields: &Fields, from: Role) -> Arriving {
        let by = |client: Arriving, server: Arriving| match from {
            Role::Client => client,
            Role::Server => server,
        };
        match (fields.kind, fields.is_reply()) {
            (TEST_LINK, _) => Arriving::TestLink,
            (_, true) => Arriving::AllElse,
            (CONFIRM_LINK, _) => Arriving::ConfirmLinkRequest,
            (ADD_LINK, _) => by(Arriving::AddLinkFromClient, Arriving::AddLinkFromServer),
            (DELETE_LINK, _) if fields.get("A") == 1 => Arriving::DeleteGroup,
            (DELETE_LINK, _) => by(
                Arriving::DeleteLinkFromClient,
                Arriving::DeleteLinkFromServer,
            ),
            (CONFIRM_RKEY | CONFIRM_RKEY_CONTINUATION, _) => {
                by(Arriving::RkeyFromClient, Arriving::RkeyFromServer)
            }
            (DELETE_RKEY, _) => Arriving::DeleteRkey,
            _ => Arriving::AllElse,
        }
    }
}

/// "Exchange against arriving message. [...] An empty place is dropped."
pub fn collision(arriving: Arriving, sort: Sort) -> Fate {
    use Fate::*;
    let [none, add, delete, rkey] = match arriving {
        Arriving::ConfirmLinkRequest => [Dropped, Dropped, Dropped, Queued],
        Arriving::AddLinkFromClient => [Taken, Dropped, Queued, Queued],
        Arriving::AddLinkFromServer => [Taken, Dropped, Dropped, Taken],
        Arriving::DeleteLinkFromClient => [Taken, Queued, Queued, Queued],
        Arriving::DeleteLinkFromServer => [Taken, Dropped, Dropped, Taken],
        Arriving::DeleteGroup => [Taken, Taken, Taken, Taken],
        Arriving::RkeyFromClient => [Taken, Denied, Denied, Taken],
        Arriving::RkeyFromServer => [Taken, Dropped, Dropped, Taken],
        Arriving::DeleteRkey => [Taken, Dropped, Dropped, Taken],
        Arriving::TestLink => [Taken, Taken, Taken, Taken],
        Arriving::AllElse => [Dropped, Dropped, Dropped, Dropped],
    };
    match sort {
        Sort::None => none,
        Sort::Add => add,
        Sort::Delete => delete,
        Sort::Rkey => rkey,
    }
}

/// DELETE LINK's reason for an unknown link (A.3.4).
pub const UNKNOWN_LINK: u64 = 0x0010_0000;
/// ADD LINK's reason for an MTU value that is none (A.3.2).
pub const INVALID_MTU: u64 = 2;

/// A message taken up from the queue.
#[derive(Clone, Debug, PartialEq, Eq)]
pub struct TakenUp {
    pub link: u8,
    pub fields: Option<Fields>,
    pub fate: Fate,
}

/// What link message answers.
#[derive(Clone, Debug, PartialEq, Eq)]
pub struct LinkAnswer {
    pub fields: Option<Fields>,
    pub fate: Fate,
    pub reply: Option<Bytes44>,
    pub taken_up: Option<TakenUp>,
    /// The F messages in the buffer (2026-13). "A reply stays in the answer and is
    /// not counted."
    pub count: usize,
}

/// What link send answers.
#[derive(Clone, Debug, PartialEq, Eq)]
pub struct LinkSent {
    pub bytes: Bytes44,
    pub taken_up: Option<TakenUp>,
    /// As in link message; 0 by the table of 2026-13's part 1.
    pub count: usize,
}

/// "The link field of 01, 02, 03 and 04, but not of an 02 request from the
/// client, an 02 reply with Z or an 04 with A."
pub fn number_acted_on(fields: &Fields, from: Role) -> Option<u64> {
    let exempt = match fields.kind {
        ADD_LINK if fields.is_reply() => fields.get("Z") == 1,
        ADD_LINK => from == Role::Client,
        DELETE_LINK => fields.get("A") == 1,
        CONFIRM_LINK | ADD_LINK_CONTINUATION => false,
        _ => true,
    };
    if exempt {
        None
    } else {
        Some(fields.get("link"))
    }
}

/// 14: "the number acted on is outside 1 to 4".
pub fn acts_outside(fields: &Fields, from: Role) -> bool {
    number_acted_on(fields, from).is_some_and(|link| !(1 <= link && link <= 4))
}

/// Whether an 02 request from the server carries an MTU value that is none.
fn mtu_invalid(fields: &Fields) -> bool {
    let mtu = fields.get("mtu");
    !(1 <= mtu && mtu <= 5)
}

impl Group {
    /// **Link change** sets one link. Tests 1, 13. It names the count of F
    /// messages alone (2026-13).
    pub fn link_change(&mut self, link: u8, active: bool, buffer: &mut [u8]) -> Result<usize, u8> {
        if self.sizes_or_buffer_wrong(buffer.len()) {
            return Err(1);
        }
        if !link_in_range(link) {
            return Err(13);
        }
        let before = self.links;
        if active {
            self.links[usize::from(link) - 1] = true;
        } else {
            self.set_down(&[link]);
        }
        Ok(self.fail_over(&before, buffer))
    }

    /// 6, but "not for 01 on the link being added".
    pub fn link_barred(&self, link: u8, first_byte: Option<u8>) -> bool {
        let exempt = first_byte == Some(CONFIRM_LINK) && self.exchange.adds(link);
        self.link_down(link) && !exempt
    }

    /// The fate of a heard message, "taken if the message is due, else the
    /// table's"; an 02 from the server that is taken outside an add is denied
    /// where its MTU value is none.
    pub fn fate_of(&self, fields: &Fields, over: u8) -> Fate {
        let from = self.role.other();
        if self
            .exchange
            .next_if_due(fields, from, true, over)
            .is_some()
        {
            return Fate::Taken;
        }
        let arriving = Arriving::of(fields, from);
        match collision(arriving, self.exchange.sort()) {
            Fate::Taken if arriving == Arriving::AddLinkFromServer && mtu_invalid(fields) => {
                Fate::Denied
            }
            fate => fate,
        }
    }

    /// 14 for a heard message: "a dropped or denied message acts on none".
    pub fn heard_acts_outside(&self, fields: &Fields, fate: Fate) -> bool {
        let acts = matches!(fate, Fate::Taken | Fate::Queued);
        acts && acts_outside(fields, self.role.other())
    }

    /// **Link message** (link, bytes). Tests "1, 13, 6, length 44, then optional,
    /// else 4, 14, 15". "An optional message is not refused and counts 0."
    pub fn link_message(
        &mut self,
        link: u8,
        bytes: &[u8],
        buffer: &mut [u8],
    ) -> Result<LinkAnswer, u8> {
        if self.sizes_or_buffer_wrong(buffer.len()) {
            return Err(1);
        }
        if !link_in_range(link) {
            return Err(13);
        }
        if self.link_barred(link, bytes.first().copied()) {
            return Err(6);
        }
        let bytes: Bytes44 = bytes.try_into().map_err(|_| 4u8)?;
        if llc_class(bytes[0]) == LlcClass::Optional {
            return Ok(LinkAnswer {
                fields: None,
                fate: Fate::Dropped,
                reply: None,
                taken_up: None,
                count: 0,
            });
        }
        let fields = Fields::read(&bytes).ok_or(4u8)?;
        if bytes[1] != LENGTH_BYTE {
            return Err(4);
        }
        let fate = self.fate_of(&fields, link);
        if self.heard_acts_outside(&fields, fate) {
            return Err(14);
        }
        if fate == Fate::Queued && self.queue.is_full() {
            return Err(15);
        }
        let before = self.links;
        let from = self.role.other();
        let mut reply = None;
        let mut taken_up = None;
        match self.exchange.next_if_due(&fields, from, true, link) {
            Some(next) => taken_up = self.go_on(next),
            None => match fate {
                Fate::Queued => self.queue.put(link, bytes),
                Fate::Dropped => {}
                Fate::Taken | Fate::Denied => reply = self.take(&fields, fate, link),
            },
        }
        Ok(LinkAnswer {
            fields: Some(fields),
            fate,
            reply: reply.map(|reply| reply.write()),
            taken_up,
            count: self.fail_over(&before, buffer),
        })
    }

    /// "Taken or denied, not due": what it does, and the reply. "A reply is the
    /// fields heard with R 1 and what is named."
    fn take(&mut self, fields: &Fields, fate: Fate, over: u8) -> Option<Fields> {
        let reply = fields.clone().with("R", 1);
        let link = fields.get("link");
        let active = 1 <= link && link <= 4 && self.links[link as usize - 1];
        match Arriving::of(fields, self.role.other()) {
            Arriving::AddLinkFromServer if fate == Fate::Denied => {
                Some(reply.with("Z", 1).with("reason", INVALID_MTU))
            }
            Arriving::AddLinkFromServer => {
                self.exchange = Exchange {
                    stage: 1,
                    v: over,
                    w: link as u8,
                };
                None
            }
            Arriving::DeleteLinkFromClient if active => None,
            Arriving::DeleteLinkFromClient => Some(reply.with("reason", UNKNOWN_LINK)),
            Arriving::DeleteLinkFromServer => {
                self.set_down(&[link as u8]);
                Some(reply.with("reason", if active { 0 } else { UNKNOWN_LINK }))
            }
            Arriving::DeleteGroup => {
                self.delete_group();
                None
            }
            Arriving::RkeyFromClient | Arriving::RkeyFromServer => {
                let negative = u64::from(fate == Fate::Denied);
                Some(reply.with("Z", negative).with("C", negative))
            }
            Arriving::DeleteRkey => Some(reply.with("Z", 0).with("mask", 0)),
            Arriving::TestLink if !fields.is_reply() => Some(reply),
            _ => None,
        }
    }

    /// **Link send** (link, kind, values). Tests 1, 13, 6, 14, 15.
    pub fn link_send(
        &mut self,
        link: u8,
        fields: &Fields,
        buffer: &mut [u8],
    ) -> Result<LinkSent, u8> {
        let fields = fields.reduced();
        if self.sizes_or_buffer_wrong(buffer.len()) {
            return Err(1);
        }
        if !link_in_range(link) {
            return Err(13);
        }
        if self.link_barred(link, Some(fields.kind)) {
            return Err(6);
        }
        if acts_outside(&fields, self.role) {
            return Err(14);
        }
        if self.send_barred(link, &fields) {
            return Err(15);
        }
        let before = self.links;
        let next = self.exchange.next_if_due(&fields, self.role, false, link);
        let taken_up = match next {
            Some(next) => self.go_on(next),
            None => {
                self.begin(link, &fields);
                None
            }
        };
        Ok(LinkSent {
            bytes: fields.write(),
            taken_up,
            count: self.fail_over(&before, buffer),
        })
    }

    /// 15: "given unless the send is one of these".
    pub fn send_barred(&self, link: u8, fields: &Fields) -> bool {
        let none_runs = self.exchange.sort() == Sort::None;
        let due = self.exchange.next_if_due(fields, self.role, false, link);
        let allowed = due.is_some()
            || match (fields.kind, fields.is_reply(), self.role) {
                (_, true, _) => false,
                (TEST_LINK, ..) => true,
                (DELETE_LINK, ..) if fields.get("A") == 1 => true,
                (DELETE_LINK, _, Role::Client) => true,
                (DELETE_LINK, _, Role::Server) => none_runs,
                (ADD_LINK, _, Role::Client) => self.exchange.sort() != Sort::Add,
                (ADD_LINK, _, Role::Server) => none_runs,
                (CONFIRM_RKEY | DELETE_RKEY, ..) => none_runs,
                _ => false,
            };
        !allowed
    }

    /// What a send that is not due does to the exchange.
    fn begin(&mut self, link: u8, fields: &Fields) {
        let named = fields.get("link") as u8;
        let (stage, w) = match (fields.kind, self.role) {
            (DELETE_LINK, _) if fields.get("A") == 1 => return self.delete_group(),
            (ADD_LINK, Role::Server) => (1, named),
            (DELETE_LINK, Role::Server) => (5, named),
            (CONFIRM_RKEY, _) if fields.get("num") <= 2 => (6, 0),
            (CONFIRM_RKEY, _) => (7, 0),
            (DELETE_RKEY, _) => (11, 0),
            _ => return,
        };
        self.exchange = Exchange { stage, v: link, w };
    }

    /// "Order within a call: stage, links, exchange ended by links, taking up."
    fn go_on(&mut self, next: u8) -> Option<TakenUp> {
        let Exchange { stage, w, .. } = self.exchange;
        self.exchange.stage = next;
        if next != 0 {
            return None;
        }
        self.exchange = Exchange::default();
        match stage {
            4 => self.links[usize::from(w) - 1] = true,
            5 => self.set_down(&[w]),
            _ => {}
        }
        self.take_up()
    }

    /// "Its oldest leaves it, one to a call. Its fate is taken if our role is
    /// server and it is an 02 request, or an 04 request without A whose link is
    /// active after the call's own work; otherwise dropped."
    fn take_up(&mut self) -> Option<TakenUp> {
        let oldest = self.queue.take_oldest()?;
        let fields = Fields::read(&oldest.bytes);
        let followed = fields.as_ref().is_some_and(|fields| {
            let link = fields.get("link");
            let active = 1 <= link && link <= 4 && self.links[link as usize - 1];
            fields.is_request_of(ADD_LINK)
                || (fields.is_request_of(DELETE_LINK) && fields.get("A") == 0 && active)
        });
        Some(TakenUp {
            link: oldest.link,
            fields,
            fate: if followed && self.role == Role::Server {
                Fate::Taken
            } else {
                Fate::Dropped
            },
        })
    }

    /// "A link goes down when a call sets it down, active before or not." Its
    /// gauge is cleared; an exchange run over it ends and the queue is emptied.
    fn set_down(&mut self, links: &[u8]) {
        for &link in links {
            self.links[usize::from(link) - 1] = false;
            self.gauges[usize::from(link) - 1] = Gauge::default();
        }
        if links.iter().any(|&link| self.exchange.runs_over(link)) {
            self.end_exchange();
        }
    }

    fn end_exchange(&mut self) {
        self.exchange = Exchange::default();
        self.queue = Queue::EMPTY;
    }

    /// "An 04 request with A writes the exchange 0, 0, 0 and empties the queue
    /// whatever ran, none too", and takes all four links down.
    fn delete_group(&mut self) {
        let all: Vec<u8> = (1..=LINKS as u8).collect();
        self.set_down(&all);
        self.end_exchange();
    }
}
