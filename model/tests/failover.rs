//! Failover (2026-13): the page's example, what moves, what is told, what hear
//! does with F, and the theorems of the page's part 6 over random lists.

use std::collections::VecDeque;

use model::failover::*;
use model::generate::{exhaust, hostile, message_of, orders, told_in, traffic};
use model::links::Role;
use model::llc::{Fields, DELETE_LINK};
use model::random::Random;
use model::replay::{answer_all, lines, skipped, Answer, Line, Replay};
use model::smcr::*;

fn answers(input: &str) -> Vec<String> {
    String::from_utf8(answer_all(input.as_bytes()))
        .unwrap()
        .lines()
        .map(str::to_string)
        .collect()
}

/// The page's lines, left and right. In its HEX `..` stands for zeros to byte 43
/// and `(16 zeros)` for sixteen of them.
const EXAMPLE: &[(&str, &str)] = &[
    ("group 3 10000 30000", "group"),
    ("link 1 1", "link count 0 out -"),
    ("link 2 1", "link count 0 out -"),
    ("open 1 5 16909060 1 10000 1 11 0 22 4096 0 0 0 0", "open"),
    ("open 2 6 7 1 10000 2 11 0 22 4096 0 0 0 0", "open"),
    ("open 3 8 9 1 10000 3 11 0 22 4096 0 0 0 0", "open"),
    (
        "send 1 AB",
        "send 1 placings 11,4,0,1 message \
         FE2C0001010203040000000000000005000000000000000400000000000000000000000000000000\
         00000000",
    ),
    (
        "abort 3",
        "abort message \
         FE2C0001000000090000000000000004000000000000000400200000000000000000000000000000\
         00000000",
    ),
    ("link 1 0 131", "refused 1 out -"),
    (
        "link 1 0",
        "link count 2 out \
         FE2C0001010203040000000000000005000000000000000408000000000000000000000000000000\
         00000000\
         FE2C0000000000070000000000000004000000000000000408000000000000000000000000000000\
         00000000",
    ),
    (
        "shutdown 1",
        "shutdown message \
         FE2C0002010203040000000000000005000000000000000400800000000000000000000000000000\
         00000000",
    ),
    (
        "send 2 CD",
        "send 1 placings 22,14100,0,1 message \
         FE2C0001000000070000000000000005000000000000000400000000000000000000000000000000\
         00000000",
    ),
    (
        "hear \
         FE2C00000000000600000000000000000000000000000000B8C00000000000000000000000000000\
         00000000",
        "hear 0 Active message -",
    ),
    (
        "hear \
         FE2C0001000000060000000000000000000000000000000008000000000000000000000000000000\
         00000000",
        "hear 0 PeerAbortWait message \
         FE2C0002000000070000000000000005000000000000000400200000000000000000000000000000\
         00000000",
    ),
    (
        "linksend 2 04:0,1,0,0,0",
        "linksend \
         042C0040000000000000000000000000000000000000000000000000000000000000000000000000\
         00000000 count 0 out -",
    ),
    ("link 1 1", "link count 0 out -"),
    ("link 2 0", "link count 0 out -"),
    ("shutdown 2", "refused 6"),
];

#[test]
fn the_pages_example() {
    let (lines, expected): (Vec<&str>, Vec<&str>) = EXAMPLE.iter().copied().unzip();
    assert_eq!(answers(&lines.join("\n")), expected);
}

/// "All three slots are on link 2 from `link 1 0` on; the last four lines leave
/// them there."
#[test]
fn the_pages_example_leaves_them_on_link_2() {
    let moved = EXAMPLE.iter().position(|(line, _)| *line == "link 1 0");
    for end in moved.unwrap()..EXAMPLE.len() {
        let lines: Vec<&str> = EXAMPLE[..=end].iter().map(|(line, _)| *line).collect();
        let input = lines.join("\n") + "\ntable";
        let shown = answers(&input);
        for slot in 1..=3 {
            let words = shown.iter().find_map(|line| {
                let words: Vec<&str> = line.split(' ').collect();
                (words[0] == "slot" && words[1] == slot.to_string()).then(|| words[5].to_string())
            });
            assert_eq!(words.as_deref(), Some("2"), "slot {slot} after {end}");
        }
    }
}

/// A group of so many slots, all open on link 1, links 1 and 3 active. Keys and
/// bases differ from link to link.
fn opened(slots: u32) -> Group {
    let mut group = Group::fresh(slots, 16, slots as usize * 16, slots as usize);
    group.links = [true, false, true, false];
    for slot in 1..=slots {
        let opening = Opening {
            keys: [11, 22, 33, 44],
            bases: [0, 1_000, 2_000, 3_000],
            ..Opening::at_base_0(slot, slot, 100 + slot, 1, 16)
        };
        group.open(&opening).unwrap();
    }
    group
}

fn down(group: &mut Group, link: u8, buffer: &mut [u8]) -> Result<usize, u8> {
    group.link_change(link, false, buffer)
}

/// The messages at the front of a buffer.
fn messages(buffer: &[u8], count: usize) -> Vec<Message> {
    let parts = buffer.chunks_exact(MESSAGE_BYTES).take(count);
    parts.map(|bytes| Message::read(bytes).unwrap()).collect()
}

#[test]
fn the_record_keeps_all_but_its_link() {
    let mut group = opened(1);
    group.memory[..4].copy_from_slice(&EYE_CATCHER);
    group.send(1, &[1, 2, 3]).unwrap();
    group.urgent(1, &[4]).unwrap();
    let c = &mut group.table[0];
    c.peer_producer = cursor(9, 0);
    c.consumer = cursor(7, 0);
    c.blocked = true;
    c.update_requested = true;
    let before = group.clone();
    let mut buffer = [0x5A; 50];
    assert_eq!(down(&mut group, 1, &mut buffer), Ok(1));
    let mut expected = before.clone();
    expected.links[0] = false;
    expected.table[0].link = 3;
    assert_eq!(group, expected);
    assert_eq!(buffer[44..], [0x5A; 6]);
    // T differs from C and stays; the number is the last one sent, not the next.
    let told = &messages(&buffer, 1)[0];
    assert_eq!(
        *told,
        Message {
            sequence: 2,
            token: 101,
            producer: cursor(8, 0),
            consumer: cursor(7, 0),
            blocked: true,
            urgent_pending: true,
            urgent_present: true,
            failover: true,
            ..Message::default()
        }
    );
    // The next message carries the next number, and goes by link 3's key.
    let message = group.shutdown(1).unwrap();
    assert_eq!(message[2..4], [0, 3]);
}

#[test]
fn the_target_is_the_lowest_link_active_after() {
    for states in 0..16u8 {
        for link in 1..=4u8 {
            let active = [0, 1, 2, 3].map(|bit| states & (1 << bit) != 0);
            let mut group = opened(4);
            for on in 1..=4u8 {
                group.table[usize::from(on) - 1].link = on;
            }
            group.links = active;
            let before = group.table.clone();
            let mut buffer = [0; 44 * 4];
            let count = down(&mut group, link, &mut buffer).unwrap();
            let place = usize::from(link) - 1;
            let others = (1..=4).filter(|&on| on != link && active[usize::from(on) - 1]);
            match others.min() {
                Some(lowest) if active[place] => {
                    assert_eq!(count, 1);
                    assert_eq!(group.table[place].link, lowest);
                    assert_eq!(messages(&buffer, 1)[0].token, 100 + u32::from(link));
                }
                _ => {
                    assert_eq!(count, 0);
                    assert_eq!(group.table, before);
                    assert_eq!(buffer, [0; 44 * 4]);
                }
            }
        }
    }
}

#[test]
fn with_no_target_they_stay_until_their_link_comes_up_and_goes_down() {
    let mut group = opened(2);
    let mut buffer = [0; 88];
    group.links[2] = false;
    assert_eq!(down(&mut group, 1, &mut buffer), Ok(0));
    assert_eq!(group.link_change(3, true, &mut buffer), Ok(0));
    assert_eq!(group.table[0].link, 1);
    assert_eq!(group.send(1, &[1]), Err(6));
    // Set down once more it was not active before.
    assert_eq!(down(&mut group, 1, &mut buffer), Ok(0));
    assert_eq!(group.link_change(1, true, &mut buffer), Ok(0));
    assert_eq!(down(&mut group, 1, &mut buffer), Ok(2));
    assert_eq!(group.table[1].link, 3);
    assert_eq!(group.send(1, &[1]).unwrap().placings[0].key, 33);
}

#[test]
fn who_tells_and_who_is_silent() {
    let mut group = opened(7);
    group.shutdown(1).unwrap();
    group.close(2).unwrap();
    group.abort(3).unwrap();
    group.table[4].closed_heard = true;
    group.table[5].peer_token = 0;
    group.table[6].open = false;
    let mut buffer = [0; 44 * 7];
    assert_eq!(down(&mut group, 1, &mut buffer), Ok(4));
    let told = messages(&buffer, 4);
    let of = |message: &Message| {
        (
            message.token,
            message.sequence,
            message.done,
            message.closed,
        )
    };
    assert_eq!(
        told.iter().map(of).collect::<Vec<_>>(),
        [
            (101, 1, true, false),
            (102, 1, false, true),
            (104, 0, false, false),
            (105, 0, false, false)
        ]
    );
    assert!(told
        .iter()
        .all(|message| message.failover && !message.abort));
    let links: Vec<u8> = group.table.iter().map(|c| c.link).collect();
    assert_eq!(links, [3, 3, 3, 3, 3, 1, 1]);
}

#[test]
fn link_messages_move_and_link_sends_do_not() {
    let delete = Fields::zero(DELETE_LINK).with("link", 1);
    let mut buffer = [0; 88];
    // Taken by a client: the reply stays in the answer and is not counted.
    let mut group = opened(2);
    let bytes = delete.write();
    let answer = group.link_message(3, &bytes, &mut buffer).unwrap();
    assert_eq!((answer.count, answer.reply.is_some()), (2, true));
    // A server: by the reply at stage 5, not by the send.
    let mut group = opened(2);
    group.role = Role::Server;
    let sent = group.link_send(3, &delete, &mut buffer).unwrap();
    assert_eq!((sent.count, group.table[0].link), (0, 1));
    let reply = delete.clone().with("R", 1).write();
    let answer = group.link_message(3, &reply, &mut buffer).unwrap();
    assert_eq!((answer.count, group.table[0].link), (2, 3));
    // The whole group: all four go down, nothing moves.
    let whole = delete.with("A", 1);
    for heard in [false, true] {
        let mut group = opened(2);
        let count = if heard {
            let answer = group.link_message(3, &whole.write(), &mut buffer);
            answer.unwrap().count
        } else {
            group.link_send(3, &whole, &mut buffer).unwrap().count
        };
        assert_eq!((count, group.links), (0, [false; 4]));
        assert_eq!((group.table[0].link, group.table[1].link), (1, 1));
    }
}

#[test]
fn refusal_1_comes_first_and_asks_for_44_times_s() {
    let fields = Fields::zero(DELETE_LINK).with("A", 1);
    for (length, refused) in [
        (0, true),
        (88, true),
        (131, true),
        (132, false),
        (200, false),
    ] {
        let mut buffer = vec![0x5A; length];
        let mut group = opened(3);
        let before = group.clone();
        let link = group.link_change(if refused { 9 } else { 4 }, true, &mut buffer);
        let message = group.link_message(1, &[0x80; 44], &mut buffer);
        let sent = group.link_send(1, &fields, &mut buffer);
        if refused {
            assert_eq!(link, Err(1));
            assert_eq!(message, Err(1));
            assert_eq!(sent, Err(1));
            assert_eq!(group, before);
        } else {
            assert_eq!(link, Ok(0));
            assert_eq!(message.unwrap().count, 0);
            assert_eq!(sent.unwrap().count, 0);
        }
        assert_eq!(buffer, vec![0x5A; length]);
    }
}

/// An F message to slot 1 of `opened`, every other flag and both cursors odd.
fn failover_to_slot_1(sequence: u16) -> Bytes44 {
    let mut bytes = Message {
        sequence,
        token: 1,
        producer: cursor(3, 9),
        consumer: cursor(0xFFFF_FFFF, 9),
        failover: true,
        ..Message::default()
    }
    .write();
    bytes[24] = 0xFF;
    bytes[25] = 0xDF;
    bytes
}

#[test]
fn a_heard_failover_is_accepted_with_the_last_number_only() {
    for heard in [0u16, 1, 65_535] {
        for (number, marks) in [heard, heard.wrapping_add(1), heard.wrapping_sub(1), 500]
            .into_iter()
            .flat_map(|number| [(number, false), (number, true)])
        {
            let mut group = opened(2);
            group.table[0].heard_sequence = heard;
            group.table[0].consumer = cursor(6, 0);
            group.table[0].peer_producer = cursor(6, 0);
            group.table[0].closed_heard = marks;
            let before = group.clone();
            let mut aborted = group.clone();
            let answer = group.hear(&failover_to_slot_1(number)).unwrap();
            assert_eq!(answer.moved, 0);
            if number == heard {
                assert_eq!(group, before);
                assert_eq!(
                    (answer.state, answer.message),
                    (state(&before.table[0]), None)
                );
            } else {
                // Record and message are those of Abort.
                let message = aborted.abort(1).unwrap();
                assert_eq!(group, aborted);
                assert_eq!(answer.state, State::PeerAbortWait);
                assert_eq!(answer.message, Some(message));
                assert!(group.table[0].open);
                assert_eq!(message[24] & FLAG_FAILOVER, 0);
            }
        }
    }
}

#[test]
fn rules_for_a_come_before_f() {
    let mut with_abort = failover_to_slot_1(77);
    with_abort[25] |= FLAG_ABORT;
    let mut group = opened(2);
    let answer = group.hear(&with_abort).unwrap();
    assert_eq!(answer.state, State::Closed);
    assert!(answer.message.is_some() && !group.table[0].open);
    let mut group = opened(2);
    group.abort(1).unwrap();
    let before = group.clone();
    let answer = group.hear(&failover_to_slot_1(77)).unwrap();
    assert_eq!((answer.moved, answer.state), (0, State::PeerAbortWait));
    assert_eq!((answer.message, &group), (None, &before));
    // 3 and 6 come before both.
    let mut group = opened(2);
    group.links = [false; 4];
    assert_eq!(group.hear(&failover_to_slot_1(77)), Err(6));
    group.table[0].peer_token = 0;
    assert_eq!(group.hear(&failover_to_slot_1(77)), Err(3));
}

/// "After 65,536 messages next is 1 again and the last number sent is 0."
#[test]
fn after_65_536_messages_the_last_number_is_0() {
    let mut group = Group::fresh(1, 8, 8, 1);
    group.links = [true; 4];
    let opening = Opening::at_base_0(1, 5, 6, 2, 65_540);
    group.open(&opening).unwrap();
    for made in 0..=65_536i64 {
        let number = messages(&failover_message(&group.table[0]), 1)[0].sequence;
        assert_eq!(i64::from(number), made % WRAPS);
        if made < 65_536 {
            assert_eq!(group.send(1, &[made as u8]).unwrap().taken, 1);
        }
    }
    assert_eq!(group.table[0].next_sequence, 1);
    let mut buffer = [0; 44];
    assert_eq!(down(&mut group, 2, &mut buffer), Ok(1));
    assert_eq!(messages(&buffer, 1)[0].sequence, 0);
}

// The theorems of part 6, over random lists.

/// Makes the calls of a list; `each` gets a line that parsed, its answer, and the
/// group before and after.
fn each_line(input: &[u8], mut each: impl FnMut(&Line, &Answer, &Group, &Group)) {
    let mut replay = Replay::new();
    for line in lines(input) {
        if skipped(line) {
            continue;
        }
        if let Ok(line) = replay.parse(line) {
            let before = replay.group.clone();
            let answer = replay.execute(&line);
            each(&line, &answer, &before, &replay.group);
        }
    }
}

fn on_links(line: &Line) -> bool {
    matches!(
        line,
        Line::Link { .. } | Line::LinkMsg { .. } | Line::LinkSend { .. }
    )
}

fn is_active(links: &[bool; LINKS], link: u8) -> bool {
    links[usize::from(link) - 1]
}

/// 1, none left behind, and 3, only the link. "Every other call changes at most
/// one record and no link's state."
fn check_moves(line: &Line, answer: &Answer, before: &Group, after: &Group) -> usize {
    let pairs = || before.table.iter().zip(&after.table);
    let changed = pairs().filter(|(old, new)| old != new).count();
    match line {
        Line::Group { .. } | Line::Record { .. } | Line::Links { .. } | Line::Poke { .. } => {
            return 0
        }
        _ if !on_links(line) => {
            assert!(changed <= 1, "{line:?}");
            assert_eq!(before.links, after.links);
            return 0;
        }
        _ => {}
    }
    assert_eq!(before.memory, after.memory);
    if answer.refusal().is_some() || matches!(line, Line::LinkSend { .. }) {
        assert_eq!(changed, 0, "{line:?}");
    }
    let aim = target(&after.links);
    for (old, new) in pairs() {
        assert_eq!(
            *new,
            Connection {
                link: new.link,
                ..*old
            }
        );
        if old.link != new.link {
            assert!(gone(&before.links, &after.links, old.link));
            assert_eq!(Some(new.link), aim);
        }
        let bound = old.open && coherent(old, before.n());
        if answer.refusal().is_none() && aim.is_some() && bound {
            let was = is_active(&before.links, old.link);
            assert!(!was || is_active(&after.links, new.link));
        }
    }
    changed
}

#[test]
fn none_left_behind_and_only_the_link() {
    let mut moved = 0;
    let mut check = |list: Vec<u8>| {
        each_line(&list, |line, answer, before, after| {
            moved += check_moves(line, answer, before, after);
        });
    };
    check(exhaust::list(2));
    for seed in 1..=4 {
        check(hostile::list(seed, None));
    }
    for seed in [1, 2, 4, 6, 7, 8, 9, 10] {
        check(traffic::list(seed, 3_000));
    }
    assert!(moved > 1_000, "{moved}");
}

/// 2: "Any list of calls from a fresh group after each of which some link is active
/// or no slot is open: every open slot's link is active, so no connection call in it
/// or after it is given 6." A call that would leave the premise is left out.
#[test]
fn one_link_is_enough() {
    let (mut moved, mut calls) = (0, 0);
    for seed in 1..=60 {
        let list = orders::pair(seed, 600).first;
        let mut replay = Replay::new();
        for line in lines(&list) {
            let line = replay.parse(line).unwrap();
            let before = replay.group.clone();
            let answer = replay.execute(&line);
            let group = &replay.group;
            let open = || group.table.iter().filter(|c| c.open);
            if target(&group.links).is_none() && open().next().is_some() {
                replay.group = before;
                continue;
            }
            assert!(open().all(|c| is_active(&group.links, c.link)));
            let desk = on_links(&line) || matches!(line, Line::Open { .. } | Line::Sample { .. });
            assert!(desk || answer.refusal() != Some(6), "{line:?}");
            calls += usize::from(!desk);
            moved += told_in(&answer).len();
        }
    }
    assert!(moved > 300 && calls > 10_000, "{moved} {calls}");
}

/// The slot that a call of a connection is for.
fn slot_of(line: &Line, before: &Group) -> Option<usize> {
    match line {
        Line::Send { slot, .. }
        | Line::Urgent { slot, .. }
        | Line::Gather { slot, .. }
        | Line::Read { slot, .. }
        | Line::Shutdown { slot }
        | Line::Close { slot }
        | Line::Abort { slot } => Some(*slot as usize - 1),
        Line::Hear { bytes } => {
            Message::read(bytes).and_then(|message| before.slot_with_token(message.token))
        }
        _ => None,
    }
}

/// 5: "an open slot's next is (1 + messages made since its open, F not counted) mod
/// 65,536, so F carries that count mod 65,536; and the last heard of a slot that did
/// not send A is the messages without A and F that it accepted since its open".
#[test]
fn counting() {
    let mut told_all = 0;
    for seed in 1..=60 {
        let list = orders::pair(seed, 600).first;
        let mut made = vec![0u64; 255];
        let mut taken = vec![0u64; 255];
        each_line(&list, |line, answer, before, after| {
            if let (Line::Open { opening }, None) = (line, answer.refusal()) {
                made[opening.slot as usize - 1] = 0;
                taken[opening.slot as usize - 1] = 0;
            }
            if answer.refusal().is_none() {
                if let Some(index) = slot_of(line, before) {
                    made[index] += u64::from(message_of(answer).is_some());
                    if let Line::Hear { bytes } = line {
                        let message = Message::read(bytes).unwrap();
                        taken[index] += u64::from(!message.abort && !message.failover);
                    }
                }
            }
            let told = told_in(answer);
            told_all += told.len();
            let changed = before.table.iter().zip(&after.table).enumerate();
            let movers: Vec<usize> = changed
                .filter(|(_, (old, new))| on_links(line) && old != new && !old.abort_sent)
                .map(|(index, _)| index)
                .collect();
            assert_eq!(movers.len(), told.len());
            for (index, bytes) in movers.into_iter().zip(told) {
                let number = Message::read(&bytes).unwrap().sequence;
                assert_eq!(u64::from(number), made[index] % 65_536);
            }
            for (index, c) in after.table.iter().enumerate().filter(|(_, c)| c.open) {
                assert_eq!(u64::from(c.next_sequence), (1 + made[index]) % 65_536);
                let heard = u64::from(c.heard_sequence);
                assert!(c.abort_sent || heard == taken[index] % 65_536);
            }
        });
    }
    assert!(told_all > 300, "{told_all}");
}

/// What is on its way to an end of a connection; an F message with the count of
/// messages made before it.
enum Flight {
    Write(u32, Vec<u8>),
    Message(Bytes44),
    Failover(Bytes44, u64),
}

/// Two groups and two connections between them: slot k here is slot k there.
struct Ends {
    random: Random,
    groups: [Group; 2],
    /// To each end, connection by connection.
    flights: [[VecDeque<Flight>; 2]; 2],
    made: [[u64; 2]; 2],
    taken: [[u64; 2]; 2],
    sent: [[Vec<u8>; 2]; 2],
    read: [[Vec<u8>; 2]; 2],
    /// One message in so many is lost; 0 is none.
    loss: u64,
    accepted: u64,
    aborted: u64,
}

const SIZES: [u32; 2] = [24, 17];

impl Ends {
    fn new(seed: u64, loss: u64) -> Ends {
        let mut random = Random::new(seed);
        let mut groups = SIZES.map(|size| Group::fresh(2, size, 2 * size as usize, 2));
        // As if so many messages had been made and taken.
        let start = [65_530, 0][seed as usize % 2];
        for end in 0..2 {
            groups[end].links = [true; 4];
            for slot in 1..=2 {
                let opening = Opening {
                    index: slot,
                    keys: [1, 2, 3, 4],
                    bases: [0, 1_000, 2_000, 3_000],
                    ..Opening::at_base_0(
                        slot,
                        10 * slot + end as u32,
                        10 * slot + 1 - end as u32,
                        random.between(1, 4) as u8,
                        SIZES[1 - end],
                    )
                };
                groups[end].open(&opening).unwrap();
                let c = &mut groups[end].table[slot as usize - 1];
                c.next_sequence = c.next_sequence.wrapping_add(start);
                c.heard_sequence = start;
            }
        }
        Ends {
            random,
            groups,
            flights: Default::default(),
            made: [[u64::from(start); 2]; 2],
            taken: [[u64::from(start); 2]; 2],
            sent: Default::default(),
            read: Default::default(),
            loss,
            accepted: 0,
            aborted: 0,
        }
    }

    fn make(&mut self, end: usize, index: usize, message: Option<Bytes44>) {
        if let Some(message) = message {
            self.made[end][index] += 1;
            if self.loss == 0 || !self.random.chance(1, self.loss) {
                self.flights[1 - end][index].push_back(Flight::Message(message));
            }
        }
    }

    fn act(&mut self) {
        let end = self.random.below(2) as usize;
        let index = self.random.below(2) as usize;
        let slot = index as u32 + 1;
        match self.random.below(100) {
            0..=34 => self.send(end, index),
            35..=69 => self.deliver(end, index),
            70..=88 => {
                let mut out = [0; 40];
                let room = self.random.below(41) as usize;
                if let Ok(ReadAnswer::Read { taken, message }) =
                    self.groups[end].read(slot, &mut out[..room])
                {
                    self.read[end][index].extend(&out[..taken as usize]);
                    self.make(end, index, message);
                }
            }
            89 if self.random.chance(1, 12) => {
                let message = self.groups[end].shutdown(slot).ok();
                self.make(end, index, message);
            }
            89..=90 => {}
            _ => self.flap(end),
        }
    }

    fn send(&mut self, end: usize, index: usize) {
        let slot = index as u32 + 1;
        let length = self.random.between(0, 20) as usize;
        let bytes = self.random.bytes(length);
        let urgent = self.random.chance(1, 8);
        let group = &mut self.groups[end];
        let sent = if urgent {
            group.urgent(slot, &bytes)
        } else {
            group.send(slot, &bytes)
        };
        let Ok(sent) = sent else {
            return;
        };
        let c = self.groups[end].table[index];
        for placing in &sent.placings {
            // Each placing goes by the key and the base of the link after the moves.
            assert_eq!(placing.key, u32::from(c.link));
            let start = placing.start as usize;
            let part = bytes[start..start + placing.length as usize].to_vec();
            let offset = placing.address - address(&c, 0);
            self.flights[1 - end][index].push_back(Flight::Write(offset as u32, part));
        }
        self.sent[end][index].extend(&bytes[..sent.taken as usize]);
        self.make(end, index, sent.message);
    }

    /// A link goes down or comes up, one always active.
    fn flap(&mut self, end: usize) {
        let group = &mut self.groups[end];
        let link = self.random.between(1, 4) as u8;
        let up = !is_active(&group.links, link);
        let others = (1..=4).filter(|&other| other != link);
        if !up && !others.clone().any(|other| is_active(&group.links, other)) {
            return;
        }
        let mut buffer = [0; 88];
        let count = group.link_change(link, up, &mut buffer).unwrap();
        for bytes in buffer.chunks_exact(MESSAGE_BYTES).take(count) {
            let token = Message::read(bytes).unwrap().token;
            let index = token as usize / 10 - 1;
            let flight = Flight::Failover(bytes.try_into().unwrap(), self.made[end][index]);
            self.flights[1 - end][index].push_back(flight);
        }
    }

    fn deliver(&mut self, end: usize, index: usize) {
        let slot = index as u32 + 1;
        let group = &mut self.groups[end];
        match self.flights[end][index].pop_front() {
            Some(Flight::Write(offset, bytes)) => {
                // What a lost message would have made room for is barred.
                let placed = group.place(slot, offset, &bytes);
                assert!(placed.is_ok() || self.loss > 0 || group.table[index].abort_sent);
            }
            Some(Flight::Message(message)) => match group.hear(&message) {
                Ok(heard) => {
                    let abort = Message::read(&message).unwrap().abort;
                    self.taken[end][index] += u64::from(!abort);
                    self.make(end, index, heard.message);
                }
                Err(number) => assert!(self.loss > 0 || number == 5, "{number}"),
            },
            Some(Flight::Failover(bytes, made)) => self.validate(end, index, bytes, made),
            None => {}
        }
    }

    /// 6: "It is accepted exactly if they agree mod 65,536. [...] Heard again at
    /// once, it is accepted again."
    fn validate(&mut self, end: usize, index: usize, bytes: Bytes44, made: u64) {
        let before = self.groups[end].table[index];
        let a_sent = before.abort_sent || self.groups[1 - end].table[index].abort_sent;
        let Ok(heard) = self.groups[end].hear(&bytes) else {
            // Closed meanwhile.
            assert!(!before.open);
            return;
        };
        if a_sent {
            self.make(end, index, heard.message);
            return;
        }
        let after = self.groups[end].table[index];
        if made % 65_536 == self.taken[end][index] % 65_536 {
            self.accepted += 1;
            assert_eq!((before, heard.message), (after, None));
            let again = self.groups[end].hear(&bytes).unwrap();
            assert_eq!(again, heard);
        } else {
            self.aborted += 1;
            assert!(after.abort_sent && heard.message.is_some());
            assert_eq!(heard.state, State::PeerAbortWait);
            self.make(end, index, heard.message);
        }
    }
}

#[test]
fn validation() {
    let (mut accepted, mut aborted) = ([0; 2], [0; 2]);
    for (mode, loss) in [(0, 0), (1, 20)] {
        for seed in 1..=400 {
            let mut ends = Ends::new(seed, loss);
            for _ in 0..400 {
                ends.act();
            }
            accepted[mode] += ends.accepted;
            aborted[mode] += ends.aborted;
            for end in 0..2 {
                for index in 0..2 {
                    let (read, sent) = (&ends.read[end][index], &ends.sent[1 - end][index]);
                    assert!(sent.starts_with(read), "seed {seed}, loss {loss}");
                }
            }
        }
    }
    // "So no loss passes, and no connection that lost nothing is aborted."
    assert!(
        accepted[0] > 1_000 && aborted[0] == 0,
        "{accepted:?} {aborted:?}"
    );
    assert!(
        accepted[1] > 300 && aborted[1] > 100,
        "{accepted:?} {aborted:?}"
    );
}
