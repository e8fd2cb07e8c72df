//! The rest of the link messages, 2026-01.

use model::gauge::Gauge;
use model::links::*;
use model::llc::*;
use model::random::Random;
use model::replay::answer_all;
use model::smcr::*;

fn answers(input: &str) -> Vec<String> {
    String::from_utf8(answer_all(input.as_bytes()))
        .unwrap()
        .lines()
        .map(str::to_string)
        .collect()
}

/// 44 bytes in hex: what is given, and zeros to byte 43.
fn padded(start: &str) -> String {
    let start = start.replace(' ', "");
    format!("{start}{}", "0".repeat(88 - start.len()))
}

#[test]
fn the_pages_example() {
    let zeros = |count: usize| "00".repeat(count);
    let add = padded("022C0000020000000001FE800000000000000000000000000001000009020500004D");
    let delete = padded("042C0020020002");
    let rkey = padded("062C00000100000005");
    let accepted = padded(&format!("022C0080{}0000410205", zeros(22)));
    let confirm = padded(&format!("012C0000{}020000000004", zeros(25)));
    let confirmed = padded(&format!("012C0080{}020000000004", zeros(25)));
    let input = format!(
        "group 1 8 8\nrole server\nlink 1 1\n\
         linksend 1 02:0,0,0,2199023255553,18338657682652659712,1,9,2,5,77\ntable\n\
         linksend 1 02:0,0,0,0,0,0,0,3,5,0\nlinkmsg 1 {delete}\nlinkmsg 1 {rkey}\n\
         linkmsg 1 {accepted}\ntable\nlinksend 2 01:0,0,0,0,0,2,0,4\ntable\n\
         linkmsg 2 {confirmed}\ntable\n"
    );
    let lines = answers(&input);
    let calls: Vec<&String> = lines
        .iter()
        .filter(|line| !line.starts_with("slot") && !line.starts_with("gauge"))
        .collect();
    let empty = "queue 0 0 - 0 - 0 - 0 -".to_string();
    let queued = format!("queue 1 1 {delete} 0 - 0 - 0 -");
    let denied = padded("062C00B00100000005");
    let expected = [
        "group".to_string(),
        "role".to_string(),
        "link count 0 out -".to_string(),
        format!("linksend {add} count 0 out -"),
        "links 1 0 0 0".to_string(),
        "role server".to_string(),
        "exchange 1 1 2".to_string(),
        empty.clone(),
        "refused 15 out -".to_string(),
        "linkmsg 04:0,0,1,2,131072 queued reply - count 0 out -".to_string(),
        format!("linkmsg 06:0,0,0,1,5,0,0,0,0,0,0,0 denied reply {denied} count 0 out -"),
        "linkmsg 02:1,0,0,0,0,0,65,2,5,0 taken reply - count 0 out -".to_string(),
        "links 1 0 0 0".to_string(),
        "role server".to_string(),
        "exchange 2 1 2".to_string(),
        queued.clone(),
        format!("linksend {confirm} count 0 out -"),
        "links 1 0 0 0".to_string(),
        "role server".to_string(),
        "exchange 4 1 2".to_string(),
        queued,
        "linkmsg 01:1,0,0,0,0,2,0,4 taken reply - then 1 04:0,0,1,2,131072 taken count 0 out -"
            .to_string(),
        "links 1 1 0 0".to_string(),
        "role server".to_string(),
        "exchange 0 0 0".to_string(),
        empty,
    ];
    assert_eq!(calls.len(), expected.len());
    for (call, expected) in calls.into_iter().zip(&expected) {
        assert_eq!(call, expected);
    }
}

#[test]
fn the_layouts_are_sound() {
    let mut rows = 0;
    for (kind, layout) in LAYOUTS {
        let mut used = [false; 44 * 8];
        for row in layout {
            rows += 1;
            assert!(row.bits <= 64 && row.first >= 2 && row.first + row.bytes <= 44);
            assert!(row.low + row.bits <= 8 * row.bytes as u32);
            for bit in row.low..row.low + row.bits {
                // Counted from the low bit of the row's last byte.
                let byte = row.first + row.bytes - 1 - bit as usize / 8;
                let place = 8 * byte + bit as usize % 8;
                assert!(!used[place], "{kind:02X} {}", row.name);
                used[place] = true;
            }
        }
        assert!(layout.len() <= 12);
    }
    assert_eq!(rows, 71);
}

#[test]
fn fields_read_back() {
    let mut random = Random::new(1);
    for kind in KINDS {
        for _ in 0..200 {
            let mut fields = Fields::zero(kind);
            for (value, row) in fields.values.iter_mut().zip(layout(kind)) {
                *value = random.draw() & row.most();
            }
            let bytes = fields.write();
            assert_eq!(bytes[..2], [kind, 0x2C]);
            assert_eq!(Fields::read(&bytes), Some(fields.clone()));
            assert_eq!(Fields::read(&bytes).unwrap().write(), bytes);
            // Surplus bits are cut.
            let mut wide = fields.clone();
            for (value, row) in wide.values.iter_mut().zip(layout(kind)) {
                if row.bits < 64 {
                    *value |= random.draw() << row.bits;
                }
            }
            assert_eq!(wide.reduced(), fields);
            assert_eq!(wide.write(), bytes);
        }
    }
}

#[test]
fn bytes_by_the_figures() {
    // Figure 31 to 40: fields by their bytes, typed in.
    let bytes = |kind: u8, places: &[(usize, u8)]| {
        let mut bytes = [0u8; 44];
        bytes[0] = kind;
        bytes[1] = 0x2C;
        for &(at, byte) in places {
            bytes[at] = byte;
        }
        Fields::read(&bytes).unwrap()
    };
    let confirm = bytes(
        1,
        &[
            (3, 0x80),
            (9, 1),
            (17, 2),
            (25, 3),
            (28, 4),
            (29, 5),
            (33, 6),
            (34, 7),
        ],
    );
    assert_eq!(confirm.values, [1, 1, 2, 3, 4, 5, 6, 7]);
    let add = bytes(
        2,
        &[
            (2, 0xF3),
            (3, 0x40),
            (9, 1),
            (17, 2),
            (25, 3),
            (28, 4),
            (29, 5),
            (30, 0xF6),
            (33, 7),
        ],
    );
    assert_eq!(add.values, [0, 1, 3, 1, 2, 3, 4, 5, 6, 7]);
    let more = bytes(
        3,
        &[
            (4, 1),
            (5, 2),
            (11, 3),
            (15, 4),
            (23, 5),
            (27, 6),
            (31, 7),
            (39, 8),
        ],
    );
    assert_eq!(more.values, [0, 1, 2, 3, 4, 5, 6, 7, 8]);
    let delete = bytes(4, &[(3, 0xE0), (4, 1), (8, 2)]);
    assert_eq!(delete.values, [1, 1, 1, 1, 2]);
    let rkey = bytes(
        6,
        &[
            (3, 0x30),
            (4, 1),
            (8, 2),
            (16, 3),
            (17, 4),
            (21, 5),
            (29, 6),
            (30, 7),
            (34, 8),
            (42, 9),
        ],
    );
    assert_eq!(rkey.values, [0, 1, 1, 1, 2, 3, 4, 5, 6, 7, 8, 9]);
    let test = bytes(7, &[(3, 0x80), (11, 1), (19, 2)]);
    assert_eq!(test.values, [1, 1, 2]);
    let rkeys = bytes(
        8,
        &[
            (3, 0xA0),
            (4, 1),
            (5, 2),
            (9, 3),
            (17, 4),
            (18, 5),
            (22, 6),
            (30, 7),
            (31, 8),
            (35, 9),
            (43, 10),
        ],
    );
    assert_eq!(rkeys.values, [1, 1, 1, 2, 3, 4, 5, 6, 7, 8, 9, 10]);
    let gone = bytes(
        9,
        &[
            (3, 0x20),
            (4, 1),
            (5, 2),
            (11, 3),
            (15, 4),
            (19, 5),
            (23, 6),
            (27, 7),
            (31, 8),
            (35, 9),
            (39, 10),
        ],
    );
    assert_eq!(gone.values, [0, 1, 1, 2, 3, 4, 5, 6, 7, 8, 9, 10]);
}

/// A group with links 1 to 3 active and 4 down.
fn group(role: Role, stage: u8, v: u8, w: u8) -> Group {
    let mut group = Group::fresh(1, 8, 8, 1);
    group.links = [true, true, true, false];
    group.role = role;
    group.exchange = Exchange { stage, v, w };
    group
}

fn exchange(stage: u8, v: u8, w: u8) -> Exchange {
    Exchange { stage, v, w }
}

fn request(kind: u8, link: u64) -> Fields {
    Fields::zero(kind).with("link", link).with("mtu", 5)
}

fn reply(kind: u8, link: u64) -> Fields {
    request(kind, link).with("R", 1)
}

fn hear(group: &mut Group, link: u8, fields: &Fields) -> Result<LinkAnswer, u8> {
    group.link_message(link, &fields.write(), &mut [0; 44])
}

#[test]
fn an_add_at_both_ends() {
    let mut server = group(Role::Server, 0, 0, 0);
    let mut client = group(Role::Client, 0, 0, 0);
    let send = |from: &mut Group, to: &mut Group, link: u8, fields: Fields| {
        let sent = from.link_send(link, &fields, &mut [0; 44]).unwrap();
        let answer = to.link_message(link, &sent.bytes, &mut [0; 44]).unwrap();
        assert_eq!((answer.fate, answer.reply), (Fate::Taken, None));
        assert_eq!(from.exchange, to.exchange);
    };
    send(&mut server, &mut client, 1, request(ADD_LINK, 4));
    assert_eq!(client.exchange, exchange(1, 1, 4));
    send(&mut client, &mut server, 1, reply(ADD_LINK, 4));
    assert_eq!(client.exchange, exchange(2, 1, 4));
    send(
        &mut server,
        &mut client,
        1,
        request(ADD_LINK_CONTINUATION, 4),
    );
    send(&mut client, &mut server, 1, reply(ADD_LINK_CONTINUATION, 4));
    assert_eq!(client.exchange, exchange(2, 1, 4));
    // 01 goes over link 4, which is down; nothing else does.
    assert_eq!(
        server.link_send(4, &Fields::zero(TEST_LINK), &mut [0; 44]),
        Err(6)
    );
    send(&mut server, &mut client, 4, request(CONFIRM_LINK, 4));
    send(&mut client, &mut server, 4, reply(CONFIRM_LINK, 4));
    assert_eq!(client.exchange, Exchange::default());
    assert!(client.links[3] && server.links[3]);
    // A client that rejects: both ends are back at once.
    let mut server = group(Role::Server, 0, 0, 0);
    let mut client = group(Role::Client, 0, 0, 0);
    send(&mut server, &mut client, 1, request(ADD_LINK, 4));
    let rejected = reply(ADD_LINK, 99).with("Z", 1).with("reason", 1);
    send(&mut client, &mut server, 1, rejected);
    assert_eq!(server.exchange, Exchange::default());
    assert!(!server.links[3]);
}

#[test]
fn a_delete_takes_the_link_down_at_its_end() {
    let mut server = group(Role::Server, 0, 0, 0);
    let mut client = group(Role::Client, 0, 0, 0);
    server.gauges[1].count = 1;
    let sent = server
        .link_send(1, &request(DELETE_LINK, 2), &mut [0; 44])
        .unwrap();
    // Not when the server sends it, but when the reply is heard.
    assert_eq!(server.exchange, exchange(5, 1, 2));
    assert!(server.links[1]);
    let answer = client.link_message(1, &sent.bytes, &mut [0; 44]).unwrap();
    assert!(!client.links[1]);
    assert_eq!(client.exchange, Exchange::default());
    let reply = Fields::read(&answer.reply.unwrap()).unwrap();
    assert_eq!(reply.values, [1, 0, 0, 2, 0]);
    server
        .link_message(1, &answer.reply.unwrap(), &mut [0; 44])
        .unwrap();
    assert!(!server.links[1]);
    assert_eq!(server.gauges[1], Gauge::default());
    assert_eq!(server.exchange, Exchange::default());
    // A link that is down already: reason 00100000.
    let again = client.link_message(1, &sent.bytes, &mut [0; 44]).unwrap();
    let reply = Fields::read(&again.reply.unwrap()).unwrap();
    assert_eq!(reply.get("reason"), 0x0010_0000);
}

#[test]
fn keys_go_on_above_two_and_three() {
    for (num, stage) in [(0, 6), (2, 6), (3, 7), (255, 7)] {
        let mut group = group(Role::Client, 0, 0, 0);
        let fields = Fields::zero(CONFIRM_RKEY).with("num", num);
        group.link_send(2, &fields, &mut [0; 44]).unwrap();
        assert_eq!(group.exchange, exchange(stage, 2, 0));
        let answer = hear(&mut group, 2, &fields.with("R", 1)).unwrap();
        assert_eq!((answer.fate, answer.reply), (Fate::Taken, None));
        assert_eq!(group.exchange.stage, if stage == 6 { 0 } else { 8 });
    }
    for (num, stage, next) in [(3, 9, 0), (4, 10, 8)] {
        let mut group = group(Role::Server, 8, 2, 0);
        let fields = Fields::zero(CONFIRM_RKEY_CONTINUATION).with("num", num);
        // Only we send it, and only over v.
        assert_eq!(group.link_send(1, &fields, &mut [0; 44]), Err(15));
        group.link_send(2, &fields, &mut [0; 44]).unwrap();
        assert_eq!(group.exchange.stage, stage);
        let mut negative = group.clone();
        hear(&mut group, 2, &fields.clone().with("R", 1)).unwrap();
        assert_eq!(group.exchange.stage, next);
        hear(&mut negative, 2, &fields.with("R", 1).with("Z", 1)).unwrap();
        assert_eq!(negative.exchange, Exchange::default());
    }
}

#[test]
fn collisions() {
    use Fate::*;
    // Rows of the page, by role of the hearer: none, add, delete, rkey.
    let rows: [(Role, Fields, [Fate; 4]); 13] = [
        (
            Role::Client,
            request(CONFIRM_LINK, 3),
            [Dropped, Dropped, Dropped, Queued],
        ),
        (
            Role::Server,
            request(ADD_LINK, 3),
            [Taken, Dropped, Queued, Queued],
        ),
        (
            Role::Client,
            request(ADD_LINK, 3),
            [Taken, Dropped, Dropped, Taken],
        ),
        (
            Role::Server,
            request(DELETE_LINK, 3),
            [Taken, Queued, Queued, Queued],
        ),
        (
            Role::Client,
            request(DELETE_LINK, 3),
            [Taken, Dropped, Dropped, Taken],
        ),
        (
            Role::Client,
            request(DELETE_LINK, 9).with("A", 1),
            [Taken; 4],
        ),
        (
            Role::Server,
            request(DELETE_LINK, 9).with("A", 1),
            [Taken; 4],
        ),
        (
            Role::Server,
            Fields::zero(CONFIRM_RKEY),
            [Taken, Denied, Denied, Taken],
        ),
        (
            Role::Client,
            Fields::zero(CONFIRM_RKEY),
            [Taken, Dropped, Dropped, Taken],
        ),
        (
            Role::Server,
            Fields::zero(CONFIRM_RKEY_CONTINUATION),
            [Taken, Denied, Denied, Taken],
        ),
        (
            Role::Server,
            Fields::zero(DELETE_RKEY),
            [Taken, Dropped, Dropped, Taken],
        ),
        (
            Role::Client,
            Fields::zero(TEST_LINK).with("R", 1),
            [Taken; 4],
        ),
        (
            Role::Server,
            reply(DELETE_LINK, 3).with("A", 1),
            [Dropped; 4],
        ),
    ];
    for (role, fields, fates) in rows {
        for (stage, fate) in [0, 1, 5, 6].into_iter().zip(fates) {
            let mut group = group(role, stage, 1, 2);
            let answer = hear(&mut group, 1, &fields).unwrap();
            assert_eq!(answer.fate, fate, "{role:?} {fields:?} at {stage}");
            assert_eq!(answer.fields, Some(fields.clone()));
        }
    }
}

#[test]
fn replies() {
    // "The fields heard with R 1 and what is named."
    let heard = Fields {
        kind: CONFIRM_RKEY,
        values: vec![0, 1, 1, 2, 3, 4, 5, 6, 7, 8, 9, 10],
    };
    let answer = |stage: u8, fields: &Fields| {
        let mut group = group(Role::Server, stage, 1, 2);
        let answer = hear(&mut group, 1, fields).unwrap();
        assert_eq!(group.exchange.stage, stage);
        Fields::read(&answer.reply.unwrap()).unwrap().values
    };
    assert_eq!(answer(0, &heard), [1, 0, 0, 2, 3, 4, 5, 6, 7, 8, 9, 10]);
    assert_eq!(answer(1, &heard), [1, 1, 1, 2, 3, 4, 5, 6, 7, 8, 9, 10]);
    let gone = Fields {
        kind: DELETE_RKEY,
        values: vec![0, 1, 2, 255, 3, 4, 5, 6, 7, 8, 9, 10],
    };
    assert_eq!(answer(0, &gone), [1, 0, 2, 0, 3, 4, 5, 6, 7, 8, 9, 10]);
    // An ADD LINK from the server whose MTU is none, whatever link it names.
    for mtu in [0, 6, 15] {
        let mut client = group(Role::Client, 0, 0, 0);
        let add = request(ADD_LINK, 99).with("mtu", mtu).with("psn", 8);
        let answer = hear(&mut client, 1, &add).unwrap();
        assert_eq!(answer.fate, Fate::Denied);
        let reply = Fields::read(&answer.reply.unwrap()).unwrap();
        assert_eq!(reply.values, [1, 1, 2, 0, 0, 0, 0, 99, mtu, 8]);
        assert_eq!(client.exchange, Exchange::default());
    }
}

#[test]
fn refusals_of_link_message() {
    let mut server = group(Role::Server, 2, 1, 4);
    let before = server.clone();
    assert_eq!(server.link_message(5, &[1], &mut [0; 44]), Err(13));
    // Link 4 is down and being added: 6 unless the first byte is 01.
    assert_eq!(server.link_message(4, &[2], &mut [0; 44]), Err(6));
    assert_eq!(server.link_message(4, &[], &mut [0; 44]), Err(6));
    assert_eq!(server.link_message(4, &[1], &mut [0; 44]), Err(4));
    assert_eq!(
        hear(&mut server, 4, &request(CONFIRM_LINK, 4))
            .unwrap()
            .fate,
        Fate::Dropped
    );
    let mut wrong = request(DELETE_LINK, 99).write();
    assert_eq!(server.link_message(1, &wrong, &mut [0; 44]), Err(14));
    wrong[1] = 0;
    assert_eq!(server.link_message(1, &wrong, &mut [0; 44]), Err(4));
    // Queued, but the queue is full: 14 first, then 15.
    server.queue.count = 4;
    assert_eq!(hear(&mut server, 1, &request(DELETE_LINK, 99)), Err(14));
    assert_eq!(hear(&mut server, 1, &request(DELETE_LINK, 3)), Err(15));
    server.queue.count = 0;
    assert_eq!(server, before);
    // 14 is not for what is dropped or denied, nor for a client's ADD LINK.
    let mut idle = group(Role::Server, 0, 0, 0);
    assert_eq!(
        hear(&mut idle, 1, &request(ADD_LINK, 99)).unwrap().fate,
        Fate::Taken
    );
    assert_eq!(
        hear(&mut idle, 1, &request(CONFIRM_LINK, 99)).unwrap().fate,
        Fate::Dropped
    );
    let mut client = group(Role::Client, 0, 0, 0);
    assert_eq!(hear(&mut client, 1, &request(ADD_LINK, 99)), Err(14));
    assert_eq!(hear(&mut client, 1, &request(ADD_LINK, 0)), Err(14));
}

#[test]
fn refusals_of_link_send() {
    for role in Role::ALL {
        let mut idle = group(role, 0, 0, 0);
        let before = idle.clone();
        assert_eq!(
            idle.link_send(0, &request(CONFIRM_LINK, 99), &mut [0; 44]),
            Err(13)
        );
        assert_eq!(
            idle.link_send(4, &request(CONFIRM_LINK, 99), &mut [0; 44]),
            Err(6)
        );
        assert_eq!(
            idle.link_send(1, &request(CONFIRM_LINK, 99), &mut [0; 44]),
            Err(14)
        );
        assert_eq!(
            idle.link_send(1, &request(CONFIRM_LINK, 3), &mut [0; 44]),
            Err(15)
        );
        // Replying unasked.
        for kind in KINDS {
            assert_eq!(
                idle.link_send(1, &reply(kind, 3), &mut [0; 44]),
                Err(15),
                "{kind:02X}"
            );
        }
        assert_eq!(idle, before);
        // Group 2 does not begin while another exchange runs; group 1 always may.
        for stage in 1..=11 {
            let mut busy = group(role, stage, 3, 2);
            for kind in [CONFIRM_RKEY, DELETE_RKEY] {
                assert_eq!(
                    busy.link_send(1, &Fields::zero(kind), &mut [0; 44]),
                    Err(15)
                );
            }
            assert!(busy
                .link_send(1, &Fields::zero(TEST_LINK), &mut [0; 44])
                .is_ok());
            let delete = busy.link_send(1, &request(DELETE_LINK, 2), &mut [0; 44]);
            assert_eq!(delete.is_ok(), role == Role::Client);
            let add = busy.link_send(1, &request(ADD_LINK, 2), &mut [0; 44]);
            assert_eq!(add.is_ok(), role == Role::Client && stage > 4, "{stage}");
            assert!(busy
                .link_send(1, &request(DELETE_LINK, 9).with("A", 1), &mut [0; 44])
                .is_ok());
            assert_eq!(
                (busy.links, busy.exchange),
                ([false; 4], Exchange::default())
            );
        }
    }
}

#[test]
fn the_queue() {
    let mut server = group(Role::Server, 6, 1, 0);
    for (link, named) in [(1, 3), (2, 4), (3, 2)] {
        hear(&mut server, link, &request(DELETE_LINK, named)).unwrap();
    }
    hear(&mut server, 2, &request(ADD_LINK, 0)).unwrap();
    assert_eq!(server.queue.count, 4);
    assert_eq!(hear(&mut server, 2, &request(ADD_LINK, 0)), Err(15));
    // One for each exchange that ends: the oldest first.
    let ends = |server: &mut Group| {
        server.exchange = exchange(6, 1, 0);
        let answer = hear(server, 1, &reply(CONFIRM_RKEY, 0)).unwrap();
        answer
            .taken_up
            .map(|up| (up.link, up.fields.unwrap().kind, up.fate))
    };
    assert_eq!(ends(&mut server), Some((1, DELETE_LINK, Fate::Taken)));
    // Link 4 is down, so the DELETE LINK is dropped.
    assert_eq!(ends(&mut server), Some((2, DELETE_LINK, Fate::Dropped)));
    assert_eq!(ends(&mut server), Some((3, DELETE_LINK, Fate::Taken)));
    assert_eq!(ends(&mut server), Some((2, ADD_LINK, Fate::Taken)));
    assert_eq!(ends(&mut server), None);
    assert_eq!(server.queue, Queue::EMPTY);
    // A count above 4 counts as 4.
    server.queue.count = 200;
    assert_eq!(ends_count(&mut server), 3);
}

fn ends_count(server: &mut Group) -> u8 {
    server.exchange = exchange(6, 1, 0);
    let answer = hear(server, 1, &reply(CONFIRM_RKEY, 0)).unwrap();
    let up = answer.taken_up.unwrap();
    assert_eq!((up.link, up.fields, up.fate), (0, None, Fate::Dropped));
    server.queue.count
}

#[test]
fn links_that_end_an_exchange() {
    // v 1, w 2: an add ends by both, a delete and an rkey by v alone.
    for (stage, ended_by_w) in [(1, true), (4, true), (5, false), (6, false), (11, false)] {
        for link in 1..=4 {
            let mut server = group(Role::Server, stage, 1, 2);
            server.queue.count = 1;
            let before = server.clone();
            server.link_change(link, false, &mut [0; 44]).unwrap();
            let ends = link == 1 || (link == 2 && ended_by_w);
            if ends {
                assert_eq!(server.exchange, Exchange::default());
                assert_eq!(server.queue, Queue::EMPTY);
            } else {
                assert_eq!(server.exchange, before.exchange);
                assert_eq!(server.queue, before.queue);
            }
            // Coming up ends nothing.
            let mut other = before.clone();
            other.link_change(link, true, &mut [0; 44]).unwrap();
            assert_eq!(other.exchange, before.exchange);
        }
    }
    // A delete run over the very link that it deletes: ended by its reply.
    let mut server = group(Role::Server, 5, 1, 1);
    server.queue.count = 2;
    let answer = hear(&mut server, 1, &reply(DELETE_LINK, 1)).unwrap();
    assert!(answer.taken_up.is_some());
    assert_eq!((server.queue.count, server.links[0]), (1, false));
    // The whole group: whatever ran, none too.
    for stage in [0, 2, 5, 9] {
        let mut client = group(Role::Client, stage, 1, 2);
        client.queue.count = 3;
        let whole = request(DELETE_LINK, 99).with("A", 1);
        let answer = hear(&mut client, 1, &whole).unwrap();
        assert_eq!(
            (answer.fate, answer.reply, answer.taken_up),
            (Fate::Taken, None, None)
        );
        assert_eq!(client.links, [false; 4]);
        assert_eq!(client.exchange, Exchange::default());
        assert_eq!(client.queue, Queue::EMPTY);
    }
}

#[test]
fn replay_lines() {
    let lines = answers(
        "role server\nexchange 11 255 0\nqueue 255 1 - 2 - 3 - 4 -\ntable\ngroup 1 8 8\ntable\n",
    );
    assert_eq!(lines[..3], ["role", "exchange", "queue"]);
    assert_eq!(
        lines[9..12],
        [
            "role server",
            "exchange 11 255 0",
            "queue 255 1 - 2 - 3 - 4 -"
        ]
    );
    assert_eq!(
        lines[19..22],
        ["role client", "exchange 0 0 0", "queue 0 0 - 0 - 0 - 0 -"]
    );
    for line in [
        "role",
        "role Client",
        "role client server",
        "exchange 12 0 0",
        "exchange 0 256 0",
        "exchange 0 0",
        "queue 0 0 - 0 - 0 -",
        "queue 256 0 - 0 - 0 - 0 -",
        "queue 0 0 00 0 - 0 - 0 -",
        "linksend 1 07:0,1",
        "linksend 1 07:0,1,2,3",
        "linksend 1 07:0,1,18446744073709551616",
        "linksend 1 05:0,1,2",
        "linksend 1 7:0,1,2",
        "linksend 1 07",
        "linksend 256 07:0,1,2",
        "linksend 1",
    ] {
        assert_eq!(answers(line), ["bad line"], "{line:?}");
    }
    assert_eq!(
        answers("link 1 1\nlinksend 1 07:2,18446744073709551615,1")[1],
        format!(
            "linksend {} count 0 out -",
            padded("072C0000 FFFFFFFFFFFFFFFF 0000000000000001")
        )
    );
    assert_eq!(
        answers("link 1 1\nlinksend 1 07:1,0,0")[1],
        "refused 15 out -"
    );
}
