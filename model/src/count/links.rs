//! The cells of link messages.

use super::cells::Cells;
use super::Details;
use crate::gauge::Gauge;
use crate::links::*;
use crate::llc::*;
use crate::replay::{Answer, Line};
use crate::smcr::*;

/// The steps that a stage can take: from, to, and who may take them.
const STEPS: &[(u8, u8, &[&str])] = &[
    (1, 0, &["heard", "sent"]),
    (1, 2, &["heard", "sent"]),
    (2, 3, &["heard", "sent"]),
    (2, 4, &["heard", "sent"]),
    (3, 2, &["heard", "sent"]),
    (4, 0, &["heard", "sent"]),
    (5, 0, &["heard"]),
    (6, 0, &["heard"]),
    (7, 0, &["heard"]),
    (7, 8, &["heard"]),
    (8, 9, &["sent"]),
    (8, 10, &["sent"]),
    (9, 0, &["heard"]),
    (10, 0, &["heard"]),
    (10, 8, &["heard"]),
    (11, 0, &["heard"]),
];

const FURTHER: &[&str] = &[
    "role: line",
    "exchange: line",
    "queue: line",
    "linkmsg: optional dropped",
    "linkmsg: TEST LINK answered",
    "linkmsg: TEST LINK reply taken",
    "linkmsg: ADD LINK begins an exchange",
    "linkmsg: ADD LINK takes an rkey's place",
    "linkmsg: ADD LINK denied, MTU 0",
    "linkmsg: ADD LINK denied, MTU above 5",
    "linkmsg: ADD LINK denied, link outside",
    "linkmsg: client's DELETE LINK of an active link",
    "linkmsg: client's DELETE LINK of a link that is down",
    "linkmsg: server's DELETE LINK of an active link",
    "linkmsg: server's DELETE LINK of a link that is down",
    "linkmsg: server's DELETE LINK while an rkey waits on",
    "linkmsg: CONFIRM RKEY answered",
    "linkmsg: CONFIRM RKEY denied",
    "linkmsg: CONFIRM RKEY CONTINUATION answered",
    "linkmsg: CONFIRM RKEY CONTINUATION denied",
    "linkmsg: DELETE RKEY answered",
    "linkmsg: 01 on the link being added, which is down",
    "linkmsg: refused 4 for a first byte 01 on the link being added",
    "linkmsg: not due over another link",
    "linkmsg: not due, another link named",
    "linkmsg: dropped though its link is outside",
    "linkmsg: a reserved bit lost",
    "linksend: 07 request",
    "linksend: 04 request with A",
    "linksend: client's 04 request",
    "linksend: client's 02 request",
    "linksend: client's 02 request, link outside",
    "linksend: server's 02 request",
    "linksend: server's 04 request",
    "linksend: 06 request, num up to 2",
    "linksend: 06 request, num above 2",
    "linksend: 09 request",
    "linksend: 01 on the link being added, which is down",
    "linksend: a value cut",
    "queue: first place",
    "queue: second place",
    "queue: third place",
    "queue: fourth place",
    "queue: nothing taken up, it is empty",
    "queue: one taken up, others stay",
    "queue: a count above 4 becomes 3",
    "taken up: ADD LINK taken",
    "taken up: DELETE LINK taken",
    "taken up: DELETE LINK dropped, its link is down",
    "taken up: CONFIRM LINK dropped",
    "taken up: dropped at a client",
    "taken up: no named kind",
    "taken up after a send",
    "links: active by a reply heard",
    "links: active by a reply sent",
    "links: down by the reply to a DELETE LINK",
    "links: all down, heard",
    "links: all down, sent",
    "links: a gauge cleared by a link message",
    "links: the exchange ends by link change, over v",
    "links: the exchange ends by link change, over w",
    "links: the exchange ends by link message",
    "links: another link goes down, the exchange stands",
    "links: w of a delete goes down, the exchange stands",
    "links: a delete over its own link, the queue stands",
    "links: the queue emptied",
    "links: none runs, the queue stands",
];

pub(super) fn declare(cells: &mut Cells) {
    for arriving in Arriving::ALL {
        for sort in Sort::ALL {
            let fate = collision(arriving, sort);
            cells.can(collision_name(arriving, sort, fate));
        }
    }
    for (from, to, ways) in STEPS {
        for way in *ways {
            cells.can(format!("stage {from} goes on to {to}, {way}"));
        }
    }
    for kind in [CONFIRM_LINK, ADD_LINK, ADD_LINK_CONTINUATION, DELETE_LINK] {
        cells.can(format!("linksend: refused 14, kind {kind:02X}"));
    }
    for what in ["01", "02 from server", "03", "04"] {
        cells.can(format!("linkmsg: refused 14, {what}"));
    }
    for kind in KINDS {
        for what in ["request", "reply"] {
            let name = format!("linksend: refused 15, {kind:02X} {what}");
            if kind == TEST_LINK && what == "request" {
                cells.cannot(name, "a TEST LINK request may always be sent");
            } else {
                cells.can(name);
            }
        }
    }
    for name in FURTHER {
        cells.can(name.to_string());
    }
}

fn collision_name(arriving: Arriving, sort: Sort, fate: Fate) -> String {
    let (arriving, sort, fate) = (arriving.name(), sort.name(), fate.name());
    format!("linkmsg: {arriving} in {sort}, {fate}")
}

/// The refusals of a link message that hold, each judged on its own.
pub(super) fn holding_heard(group: &Group, link: u8, bytes: &[u8]) -> Vec<u8> {
    let mut holds = Vec::new();
    if !link_in_range(link) {
        holds.push(13);
    } else if group.link_barred(link, bytes.first().copied()) {
        holds.push(6);
    }
    let class = bytes.first().map(|&first| llc_class(first));
    let content_wrong = match class {
        Some(LlcClass::Unknown | LlcClass::Cdc) => true,
        Some(LlcClass::Named) => bytes.get(1) != Some(&LENGTH_BYTE),
        _ => false,
    };
    if bytes.len() != MESSAGE_BYTES || content_wrong {
        holds.push(4);
    }
    let read = bytes
        .try_into()
        .ok()
        .and_then(|bytes: Bytes44| Fields::read(&bytes));
    if let Some(fields) = read {
        let fate = group.fate_of(&fields, link);
        if group.heard_acts_outside(&fields, fate) {
            holds.push(14);
        }
        if fate == Fate::Queued && group.queue.is_full() {
            holds.push(15);
        }
    }
    holds
}

/// The refusals of a link send that hold, each judged on its own.
pub(super) fn holding_sent(group: &Group, link: u8, fields: &Fields) -> Vec<u8> {
    let fields = fields.reduced();
    let mut holds = Vec::new();
    if !link_in_range(link) {
        holds.push(13);
    } else if group.link_barred(link, Some(fields.kind)) {
        holds.push(6);
    }
    if acts_outside(&fields, group.role) {
        holds.push(14);
    }
    if group.send_barred(link, &fields) {
        holds.push(15);
    }
    holds
}

pub(super) fn count(
    cells: &mut Cells,
    line: &Line,
    answer: &Answer,
    before: &Details,
    after: &Group,
) {
    match (line, answer) {
        (Line::Role { .. }, _) => cells.hit("role: line"),
        (Line::Exchange { .. }, _) => cells.hit("exchange: line"),
        (Line::Queue { .. }, _) => cells.hit("queue: line"),
        (Line::LinkMsg { link, bytes, .. }, Answer::RefusedLink(number, _)) => {
            let adds = before.exchange.adds(*link) && bytes.first() == Some(&CONFIRM_LINK);
            cells.hit_if(
                *number == 4 && adds && !before.links[usize::from(*link) - 1],
                "linkmsg: refused 4 for a first byte 01 on the link being added",
            );
            if *number == 14 {
                let name = match bytes[0] {
                    ADD_LINK => "02 from server".to_string(),
                    kind => format!("{kind:02X}"),
                };
                cells.hit(&format!("linkmsg: refused 14, {name}"));
            }
        }
        (Line::LinkMsg { link, bytes, .. }, Answer::LinkMsg(heard, _)) => {
            count_heard(cells, *link, bytes, heard, before, after);
            count_taken_up(cells, heard.taken_up.as_ref(), before, after);
        }
        (Line::LinkSend { fields, .. }, Answer::RefusedLink(number, _)) => {
            let kind = fields.kind;
            if *number == 14 {
                cells.hit(&format!("linksend: refused 14, kind {kind:02X}"));
            }
            if *number == 15 {
                let reply = fields.reduced().is_reply();
                let what = if reply { "reply" } else { "request" };
                cells.hit(&format!("linksend: refused 15, {kind:02X} {what}"));
            }
        }
        (Line::LinkSend { link, fields, .. }, Answer::LinkSent(sent, _)) => {
            count_sent(cells, *link, fields, before, after);
            cells.hit_if(sent.taken_up.is_some(), "taken up after a send");
            count_taken_up(cells, sent.taken_up.as_ref(), before, after);
        }
        _ => {}
    }
    if matches!(
        line,
        Line::Link { .. } | Line::LinkMsg { .. } | Line::LinkSend { .. }
    ) {
        count_links(cells, line, answer, before, after);
    }
}

fn count_heard(
    cells: &mut Cells,
    link: u8,
    bytes: &[u8],
    heard: &LinkAnswer,
    before: &Details,
    after: &Group,
) {
    let Some(fields) = &heard.fields else {
        return cells.hit("linkmsg: optional dropped");
    };
    cells.hit_if(fields.write() != bytes, "linkmsg: a reserved bit lost");
    let down = !before.links[usize::from(link) - 1];
    cells.hit_if(
        down && fields.kind == CONFIRM_LINK,
        "linkmsg: 01 on the link being added, which is down",
    );
    let from = before.role.other();
    let exchange = &before.exchange;
    if let Some(next) = exchange.next_if_due(fields, from, true, link) {
        return cells.hit(&format!(
            "stage {} goes on to {next}, heard",
            exchange.stage
        ));
    }
    // Due, were it not for the link that it came over or the one it names.
    let over = |link: u8| exchange.next_if_due(fields, from, true, link).is_some();
    cells.hit_if(
        over(exchange.v) || over(exchange.w),
        "linkmsg: not due over another link",
    );
    let named = fields.clone().with("link", u64::from(exchange.w));
    cells.hit_if(
        exchange.next_if_due(&named, from, true, link).is_some(),
        "linkmsg: not due, another link named",
    );
    let arriving = Arriving::of(fields, from);
    let fate = collision(arriving, exchange.sort());
    cells.hit(&collision_name(arriving, exchange.sort(), fate));
    cells.hit_if(
        heard.fate == Fate::Dropped && acts_outside(fields, from),
        "linkmsg: dropped though its link is outside",
    );
    if heard.fate == Fate::Queued {
        cells.hit(match before.queue.count {
            0 => "queue: first place",
            1 => "queue: second place",
            2 => "queue: third place",
            _ => "queue: fourth place",
        });
    }
    if !matches!(heard.fate, Fate::Taken | Fate::Denied) {
        return;
    }
    let denied = heard.fate == Fate::Denied;
    let named = fields.get("link");
    let active = 1 <= named && named <= 4 && before.links[named as usize - 1];
    match arriving {
        Arriving::AddLinkFromServer if denied => {
            let mtu = fields.get("mtu");
            cells.hit_if(mtu == 0, "linkmsg: ADD LINK denied, MTU 0");
            cells.hit_if(mtu > 5, "linkmsg: ADD LINK denied, MTU above 5");
            let outside = !(1 <= named && named <= 4);
            cells.hit_if(outside, "linkmsg: ADD LINK denied, link outside");
        }
        Arriving::AddLinkFromServer => {
            cells.hit("linkmsg: ADD LINK begins an exchange");
            cells.hit_if(
                exchange.sort() == Sort::Rkey,
                "linkmsg: ADD LINK takes an rkey's place",
            );
        }
        Arriving::DeleteLinkFromClient => cells.hit(if active {
            "linkmsg: client's DELETE LINK of an active link"
        } else {
            "linkmsg: client's DELETE LINK of a link that is down"
        }),
        Arriving::DeleteLinkFromServer => {
            cells.hit(if active {
                "linkmsg: server's DELETE LINK of an active link"
            } else {
                "linkmsg: server's DELETE LINK of a link that is down"
            });
            cells.hit_if(
                exchange.sort() == Sort::Rkey && after.exchange == *exchange,
                "linkmsg: server's DELETE LINK while an rkey waits on",
            );
        }
        Arriving::RkeyFromClient | Arriving::RkeyFromServer => {
            let name = if fields.kind == CONFIRM_RKEY {
                "CONFIRM RKEY"
            } else {
                "CONFIRM RKEY CONTINUATION"
            };
            let what = if denied { "denied" } else { "answered" };
            cells.hit(&format!("linkmsg: {name} {what}"));
        }
        Arriving::DeleteRkey => cells.hit("linkmsg: DELETE RKEY answered"),
        Arriving::TestLink => cells.hit(if heard.reply.is_some() {
            "linkmsg: TEST LINK answered"
        } else {
            "linkmsg: TEST LINK reply taken"
        }),
        _ => {}
    }
}

fn count_sent(cells: &mut Cells, link: u8, given: &Fields, before: &Details, after: &Group) {
    let fields = given.reduced();
    cells.hit_if(fields != *given, "linksend: a value cut");
    let down = !before.links[usize::from(link) - 1];
    cells.hit_if(
        down && fields.kind == CONFIRM_LINK,
        "linksend: 01 on the link being added, which is down",
    );
    let exchange = &before.exchange;
    if let Some(next) = exchange.next_if_due(&fields, before.role, false, link) {
        return cells.hit(&format!("stage {} goes on to {next}, sent", exchange.stage));
    }
    let server = before.role == Role::Server;
    let name = match fields.kind {
        TEST_LINK => "linksend: 07 request",
        DELETE_LINK if fields.get("A") == 1 => "linksend: 04 request with A",
        DELETE_LINK if server => "linksend: server's 04 request",
        DELETE_LINK => "linksend: client's 04 request",
        ADD_LINK if server => "linksend: server's 02 request",
        ADD_LINK => {
            let named = fields.get("link");
            let outside = !(1 <= named && named <= 4);
            cells.hit_if(outside, "linksend: client's 02 request, link outside");
            "linksend: client's 02 request"
        }
        CONFIRM_RKEY if after.exchange.stage == 6 => "linksend: 06 request, num up to 2",
        CONFIRM_RKEY => "linksend: 06 request, num above 2",
        DELETE_RKEY => "linksend: 09 request",
        _ => "linksend: something else",
    };
    cells.hit(name);
}

fn count_taken_up(cells: &mut Cells, up: Option<&TakenUp>, before: &Details, after: &Group) {
    let ended = before.exchange.stage != 0 && after.exchange.stage == 0;
    let Some(up) = up else {
        let nothing = ended && before.queue.count == 0;
        return cells.hit_if(nothing, "queue: nothing taken up, it is empty");
    };
    cells.hit_if(after.queue.count > 0, "queue: one taken up, others stay");
    cells.hit_if(
        before.queue.count > 4 && after.queue.count == 3,
        "queue: a count above 4 becomes 3",
    );
    cells.hit_if(up.fields.is_none(), "taken up: no named kind");
    let Some(fields) = &up.fields else {
        return;
    };
    let taken = up.fate == Fate::Taken;
    let delete = fields.is_request_of(DELETE_LINK) && fields.get("A") == 0;
    let client = before.role == Role::Client;
    cells.hit_if(taken && fields.kind == ADD_LINK, "taken up: ADD LINK taken");
    cells.hit_if(taken && delete, "taken up: DELETE LINK taken");
    cells.hit_if(
        !taken && delete && !client,
        "taken up: DELETE LINK dropped, its link is down",
    );
    cells.hit_if(
        fields.kind == CONFIRM_LINK,
        "taken up: CONFIRM LINK dropped",
    );
    cells.hit_if(
        client && (delete || fields.is_request_of(ADD_LINK)),
        "taken up: dropped at a client",
    );
}

fn count_links(cells: &mut Cells, line: &Line, answer: &Answer, before: &Details, after: &Group) {
    if answer.refusal().is_some() {
        let same = before.links == after.links
            && before.exchange == after.exchange
            && before.queue == after.queue
            && before.gauges == after.gauges;
        if !same {
            cells.fault("a refused call on a link changed something".to_string());
        }
        return;
    }
    let heard = matches!(line, Line::LinkMsg { .. });
    let sent = matches!(line, Line::LinkSend { .. });
    let up = (0..4).any(|link| !before.links[link] && after.links[link]);
    cells.hit_if(heard && up, "links: active by a reply heard");
    cells.hit_if(sent && up, "links: active by a reply sent");
    let cleared = (0..4).any(|link| {
        before.gauges[link] != Gauge::default() && after.gauges[link] == Gauge::default()
    });
    cells.hit_if(heard && cleared, "links: a gauge cleared by a link message");
    let whole = after.links == [false; 4] && before.links.iter().filter(|up| **up).count() > 1;
    cells.hit_if(heard && whole, "links: all down, heard");
    cells.hit_if(sent && whole, "links: all down, sent");
    let exchange = &before.exchange;
    let queued = before.queue.count > 0;
    let emptied = after.queue == Queue::EMPTY;
    match line {
        Line::Link {
            link, up: false, ..
        } => {
            let ends = exchange.runs_over(*link);
            let on_v = *link == exchange.v;
            cells.hit_if(
                ends && on_v,
                "links: the exchange ends by link change, over v",
            );
            cells.hit_if(
                ends && !on_v,
                "links: the exchange ends by link change, over w",
            );
            cells.hit_if(ends && queued && emptied, "links: the queue emptied");
            let runs = exchange.stage != 0;
            cells.hit_if(
                runs && !ends && after.exchange == *exchange,
                "links: another link goes down, the exchange stands",
            );
            cells.hit_if(
                exchange.sort() == Sort::Delete && !ends && *link == exchange.w,
                "links: w of a delete goes down, the exchange stands",
            );
            cells.hit_if(
                !runs && queued && !emptied,
                "links: none runs, the queue stands",
            );
        }
        Line::LinkMsg { bytes, .. } if bytes[0] == DELETE_LINK => {
            let reply = bytes[3] & LLC_REPLY != 0;
            let ended = exchange.stage == 5 && after.exchange.stage == 0 && reply;
            cells.hit_if(ended, "links: down by the reply to a DELETE LINK");
            cells.hit_if(
                ended && exchange.v == exchange.w && before.queue.count > 1 && !emptied,
                "links: a delete over its own link, the queue stands",
            );
            cells.hit_if(
                !reply && exchange.stage != 0 && after.exchange.stage == 0,
                "links: the exchange ends by link message",
            );
        }
        _ => {}
    }
}
