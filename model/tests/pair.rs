//! Only what was sent (2026-14): the claims over random lists of two groups, the
//! page's witnesses, and lists that break one premise each.

use model::generate::{message_of, told_in};
use model::pair::breaks::{self, BREAKS};
use model::pair::course::{Course, Premise, Wrong};
use model::pair::lists::{list, Counts, EVENTS, LONG};
use model::pair::plain::cursor_at;
use model::pair::{Event, Names, Run, FAR, NEAR};
use model::replay::{answer_all, Answer, Line, Replay};
use model::smcr::*;

/// Every one keeps to the premises, and the claims hold after each call.
#[test]
fn random_lists_within_the_premises() {
    let mut counts = Counts::default();
    for seed in 1..2 * LONG {
        counts.add(&list(seed, EVENTS).unwrap_or_else(|wrong| panic!("{wrong}")));
    }
    print!("{}", counts.text());
    assert!(counts.missing().is_empty(), "{:?}", counts.missing());
}

#[test]
fn lists_repeat() {
    assert_eq!(list(7, 400), list(7, 400));
    assert_ne!(list(7, 400), list(8, 400));
}

#[test]
fn plain_positions() {
    assert_eq!(cursor_at(4, 0), cursor(4, 0));
    assert_eq!(cursor_at(4, 7), cursor(7, 1));
    assert_eq!(cursor_at(4, 4 * 65_536 - 1), cursor(7, 65_535));
    assert_eq!(cursor_at(4, 4 * 65_536), cursor(4, 0));
}

/// The keys and bases of near's memory and of far's.
const REACH: [[(u32, u64); LINKS]; 2] = [
    [(31, 700), (32, 1_700), (33, 2_700), (34, 3_700)],
    [(41, 9_000), (42, 0), (43, 11_000), (44, 12_000)],
];

/// Both groups with their links up, and one connection, not yet opened: near's slot
/// 2 on link 1, far's slot 3 on link 2.
fn begun() -> Run {
    let mut run = Run::new([2, 3], [8, 8]);
    run.link(NEAR, 1, true);
    run.link(FAR, 2, true);
    let names = [(2, 5, 1), (3, 6, 2)];
    let names = [NEAR, FAR].map(|side| Names {
        slot: names[side].0,
        own: names[side].1,
        link: names[side].2,
        reach: REACH[side],
    });
    run.follow(Course::new(names, [8, 8]));
    run
}

fn open(run: &mut Run, side: usize) {
    let opening = run.course().opening(side);
    assert_eq!(run.at(side, Line::Open { opening }), Answer::Word("open"));
}

fn opened() -> Run {
    let mut run = begun();
    open(&mut run, NEAR);
    open(&mut run, FAR);
    run
}

const SLOT: [u32; 2] = [2, 3];

fn send(run: &mut Run, side: usize, bytes: &[u8]) -> Answer {
    let (slot, bytes) = (SLOT[side], bytes.to_vec());
    run.at(side, Line::Send { slot, bytes })
}

fn place(run: &mut Run, side: usize, offset: u32, bytes: &[u8]) -> Option<u8> {
    let (slot, bytes) = (SLOT[side], bytes.to_vec());
    let line = Line::Place {
        slot,
        offset,
        bytes,
    };
    run.at(side, line).refusal()
}

fn hear(run: &mut Run, side: usize, made: &Answer) -> Answer {
    let made = message_of(made).or(told_in(made).first().copied());
    let bytes = made.expect("a message").to_vec();
    run.at(side, Line::Hear { bytes })
}

fn read(run: &mut Run, side: usize, room: usize) -> Answer {
    let slot = SLOT[side];
    run.at(side, Line::Read { slot, room })
}

fn abort(run: &mut Run, side: usize) -> Answer {
    let slot = SLOT[side];
    run.at(side, Line::Abort { slot })
}

fn free(run: &mut Run, side: usize) {
    let slot = SLOT[side];
    assert_eq!(run.at(side, Line::Free { slot }), Answer::Word("free"));
}

/// The page's witness, of 25 events: an urgent send, a send that waits, a move of
/// near, a gather over the element's end in three pieces, performed out of order, in
/// parts and a part twice, a move of far.
#[test]
fn the_pages_witness() {
    let mut run = opened();
    let (slot, bytes) = (SLOT[NEAR], vec![1, 2, 3]);
    let urgent = run.at(NEAR, Line::Urgent { slot, bytes });
    assert_eq!(place(&mut run, FAR, 4, &[1, 2, 3]), None);
    let first = hear(&mut run, FAR, &urgent);
    assert_eq!(message_of(&send(&mut run, NEAR, &[9])), None);
    let second = read(&mut run, FAR, 2);
    let third = read(&mut run, FAR, 1);
    for update in [&first, &second, &third] {
        hear(&mut run, NEAR, update);
    }
    run.link(NEAR, 2, true);
    let failover = run.link(NEAR, 1, false);
    assert_eq!(told_in(&failover)[0][2..4], [0, 1]);
    hear(&mut run, FAR, &failover);
    let gathered = run.at(
        NEAR,
        Line::Gather {
            slot,
            head: vec![4, 5],
            body: vec![6],
        },
    );
    let Answer::Gathered(pieces) = &gathered else {
        panic!("{gathered:?}");
    };
    // By the key and base of link 2, to far's third element.
    let aims: Vec<(u32, u64)> = pieces.pieces.iter().map(|p| (p.key, p.address)).collect();
    assert_eq!(aims, [(42, 23), (42, 20), (42, 21), (42, 22)]);
    assert_eq!(place(&mut run, FAR, 5, &[6]), None);
    assert_eq!(place(&mut run, FAR, 7, &[4]), None);
    assert_eq!(place(&mut run, FAR, 4, &[5, 6]), None);
    hear(&mut run, FAR, &gathered);
    run.link(FAR, 1, true);
    let failover = run.link(FAR, 2, false);
    assert_eq!(told_in(&failover)[0][2..4], [0, 3]);
    hear(&mut run, NEAR, &failover);
    read(&mut run, FAR, 9);
    let course = run.course();
    assert_eq!(course.ends[FAR].got, [1, 2, 3, 4, 5, 6]);
    assert!(course.premises_met() && course.wrong.is_empty());
}

/// O6: what is sent before the other's open waits under way; what reaches the slot
/// before it counts for nothing.
#[test]
fn sent_before_the_other_opens() {
    let mut run = begun();
    open(&mut run, NEAR);
    let sent = send(&mut run, NEAR, &[1]);
    assert_eq!(place(&mut run, FAR, 4, &[1]), Some(2));
    assert_eq!(hear(&mut run, FAR, &sent), Answer::Refused(5));
    open(&mut run, FAR);
    assert!(!run.course().ends[FAR].all_performed());
    assert_eq!(place(&mut run, FAR, 4, &[1]), None);
    hear(&mut run, FAR, &sent);
    read(&mut run, FAR, 4);
    let course = run.course();
    assert_eq!(course.ends[FAR].got, [1]);
    assert!(course.premises_met() && course.wrong.is_empty());
}

/// Part 6, `waits`: "near sends 1; far aborts; near hears A, answers A; far: place
/// refused with 7, hear, hear of A".
#[test]
fn after_abort_the_element_is_free_once_a_is_heard() {
    let mut run = opened();
    let sent = send(&mut run, NEAR, &[1]);
    let aborted = abort(&mut run, FAR);
    let answered = hear(&mut run, NEAR, &aborted);
    assert!(run.course().ends[NEAR].is_closed());
    assert_eq!(place(&mut run, FAR, 4, &[1]), Some(7));
    hear(&mut run, FAR, &sent);
    assert!(run.course().ends[FAR].is_open());
    hear(&mut run, FAR, &answered);
    let course = run.course();
    assert!(course.ends[FAR].is_closed() && course.ends[FAR].coming.is_empty());
    assert!(course.met_until_each() && course.wrong.is_empty());
    assert!(course.none_to_come > 0);
}

/// Part 6, `frees`: "near sends 1, far aborts, frees: meets all of the premises, the
/// slot is closed, a byte is under way".
#[test]
fn free_gives_no_such_word() {
    let mut run = opened();
    send(&mut run, NEAR, &[1]);
    abort(&mut run, FAR);
    free(&mut run, FAR);
    let course = run.course();
    assert!(course.premises_met() && course.wrong.is_empty());
    assert!(course.ends[FAR].is_closed());
    assert_eq!(course.ends[FAR].owed().count(), 1);
}

/// Part 6, "refused calls": a place at 3 (9) and the message again (16) leave all as
/// it was, and what is read is the same.
#[test]
fn refused_calls_may_stand() {
    let mut run = opened();
    let sent = send(&mut run, NEAR, &[1]);
    let before = run.group(FAR).clone();
    assert_eq!(place(&mut run, FAR, 3, &[7]), Some(9));
    assert_eq!(*run.group(FAR), before);
    place(&mut run, FAR, 4, &[1]);
    hear(&mut run, FAR, &sent);
    let before = run.group(FAR).clone();
    assert_eq!(hear(&mut run, FAR, &sent), Answer::Refused(16));
    assert_eq!(*run.group(FAR), before);
    read(&mut run, FAR, 1);
    let refused = |run: &Run| run.events.iter().position(|e| e.answer.refusal().is_some());
    let mut without = run.without(refused(&run).unwrap());
    without = without.without(refused(&without).unwrap());
    assert!(without.course().premises_met() && without.course().wrong.is_empty());
    for side in [NEAR, FAR] {
        assert_eq!(run.group(side), without.group(side));
        assert_eq!(
            run.course().ends[side].took,
            without.course().ends[side].took
        );
        assert_eq!(run.course().ends[side].got, without.course().ends[side].got);
    }
}

/// "The second heard first is refused since 07: 16."
#[test]
fn the_second_message_heard_first() {
    let mut run = opened();
    let first = send(&mut run, NEAR, &[1]);
    let second = send(&mut run, NEAR, &[2]);
    place(&mut run, FAR, 4, &[1, 2]);
    let before = run.group(FAR).clone();
    assert_eq!(hear(&mut run, FAR, &second), Answer::Refused(16));
    assert_eq!(*run.group(FAR), before);
    let Answer::Heard(heard) = hear(&mut run, FAR, &first) else {
        panic!("refused");
    };
    assert_eq!(heard.moved, 1);
}

// Without a premise.

fn broken(name: &str) -> Run {
    let found = BREAKS.iter().find(|found| found.name == name);
    (found.unwrap().run)()
}

fn premises(run: &Run) -> Vec<Premise> {
    run.course().broken.iter().copied().collect()
}

fn wrong_bytes(run: &Run) -> Vec<Wrong> {
    let byte = |wrong: &&Wrong| matches!(wrong, Wrong::Byte { .. });
    run.course().wrong.iter().filter(byte).cloned().collect()
}

fn turned_away(run: &Run) -> Vec<u8> {
    let number = |wrong: &Wrong| match wrong {
        Wrong::TurnedAway { refusal, .. } => Some(*refusal),
        _ => None,
    };
    run.course().wrong.iter().filter_map(number).collect()
}

/// The premise that goes, the bytes taken, the bytes read, and which of these comes
/// out wrong first.
type Shown = (
    &'static str,
    &'static [Premise],
    &'static [u8],
    &'static [u8],
    usize,
);

/// "Without it: a list that breaks this alone." The last five go without a part of
/// "that open", in which nothing else is broken.
const SHOWN: [Shown; 14] = [
    ("as-last-left", &[Premise::AsLastLeft], &[1], &[9], 0),
    (
        "until-it-closes",
        &[Premise::StillOpen, Premise::OwnOpen],
        &[1, 2],
        &[2],
        0,
    ),
    ("link-active", &[Premise::LinkActive], &[1], &[0], 0),
    ("no-others", &[Premise::NoOthers], &[1], &[9], 0),
    (
        "not-written-again",
        &[Premise::NoOthers],
        &[1, 2, 3, 4, 5],
        &[1, 2, 3, 4, 1],
        4,
    ),
    (
        "performed-before",
        &[Premise::PerformedBefore],
        &[1],
        &[0],
        0,
    ),
    ("heard-in-order", &[Premise::HeardInOrder], &[], &[0, 0], 0),
    ("old-link-first", &[Premise::PerformedBefore], &[1], &[0], 0),
    ("safe-reuse", &[Premise::NoOthers], &[2], &[1], 0),
    ("tokens-match", &[Premise::HeardInOrder], &[], &[0], 0),
    ("sizes-match", &[], &[1, 2, 3, 4], &[1, 2, 3, 4, 0], 4),
    ("bases-match", &[], &[1], &[0], 0),
    ("every-link-matches", &[], &[1], &[0], 0),
    ("index-matches", &[], &[1], &[0], 0),
];

#[test]
fn each_premise_is_needed() {
    for (name, broken_ones, took, got, number) in SHOWN {
        let run = broken(name);
        let ends = &run.course().ends;
        assert_eq!(premises(&run), broken_ones, "{name}");
        assert_eq!(
            (&ends[NEAR].took[..], &ends[FAR].got[..]),
            (took, got),
            "{name}"
        );
        let first = Wrong::Byte {
            side: FAR,
            number,
            read: got[number],
            taken: took.get(number).copied(),
        };
        assert_eq!(wrong_bytes(&run).first(), Some(&first), "{name}");
        let refused: &[u8] = match name {
            "link-active" => &[6],
            "index-matches" => &[9],
            _ => &[],
        };
        assert_eq!(turned_away(&run), refused, "{name}");
        let refusals = run.events.iter().filter_map(|event| event.answer.refusal());
        assert_eq!(refusals.collect::<Vec<u8>>(), refused, "{name}");
    }
    assert_eq!(SHOWN.len() + 1, BREAKS.len());
}

/// 2026-13, O3: F that overtakes costs the connection, and the byte, which lies in
/// the element, is never read.
#[test]
fn a_failover_that_overtakes_aborts() {
    let mut run = broken("failover-in-order");
    assert_eq!(premises(&run), [Premise::HeardInOrder]);
    assert!(run.course().wrong.contains(&Wrong::Aborted { side: FAR }));
    assert_eq!(state(&run.course().ends[FAR].record), State::PeerAbortWait);
    assert_eq!(run.group(FAR).memory[4], 1);
    let read = run.at(FAR, Line::Read { slot: 1, room: 1 });
    assert_eq!(read.refusal(), Some(7));
    // In its order it is accepted: the message first, then F.
    let mut run = opened();
    run.link(NEAR, 2, true);
    let sent = send(&mut run, NEAR, &[1]);
    place(&mut run, FAR, 4, &[1]);
    let failover = run.link(NEAR, 1, false);
    hear(&mut run, FAR, &sent);
    hear(&mut run, FAR, &failover);
    assert!(run.course().premises_met() && run.course().wrong.is_empty());
}

/// "Send 1, abort and free at both, both open again, send 2, place, hear, read: 2 of
/// 1, 2."
#[test]
fn until_it_closes_as_the_page_has_it() {
    let mut run = opened();
    send(&mut run, NEAR, &[1]);
    for side in [NEAR, FAR] {
        abort(&mut run, side);
        free(&mut run, side);
    }
    open(&mut run, NEAR);
    open(&mut run, FAR);
    let sent = send(&mut run, NEAR, &[2]);
    place(&mut run, FAR, 4, &[2]);
    hear(&mut run, FAR, &sent);
    read(&mut run, FAR, 1);
    assert_eq!(premises(&run), [Premise::StillOpen, Premise::OwnOpen]);
    let ends = &run.course().ends;
    assert_eq!(
        (&ends[NEAR].took[..], &ends[FAR].got[..]),
        (&[1, 2][..], &[2][..])
    );
}

/// In the accident the draft's connection broke nothing until its slot closed, and
/// the late write is the draft's own.
#[test]
fn the_accident() {
    let run = broken("safe-reuse");
    let draft = &run.courses[0];
    assert!(draft.ends[FAR].freed);
    assert_eq!(draft.ends[NEAR].took[..1], [1]);
    assert_eq!(run.course().ends[FAR].got, [1]);
    assert!(run
        .events
        .iter()
        .all(|event| event.answer.refusal().is_none()));
}

/// No call of these can go, after the opens: without it another premise is broken
/// too, or no wrong byte comes out. The byte's own placing stands aside, since any
/// placing there counts as its performance. Of the lists left out here some calls
/// only tell the story.
#[test]
fn these_lists_are_the_smallest() {
    for name in [
        "as-last-left",
        "until-it-closes",
        "link-active",
        "no-others",
        "not-written-again",
        "performed-before",
        "heard-in-order",
        "sizes-match",
        "bases-match",
        "every-link-matches",
        "index-matches",
    ] {
        let run = broken(name);
        let is_open = |event: &Event| matches!(event.line, Line::Open { .. });
        let is_place = |event: &Event| matches!(event.line, Line::Place { .. });
        let after = 2 + run.events.iter().position(is_open).unwrap();
        for call in after..run.events.len() {
            let without = run.without(call);
            let as_bad = premises(&without) == premises(&run) && !wrong_bytes(&without).is_empty();
            let placed_over = is_place(&run.events[call]) && is_place(&run.events[call + 1]);
            assert!(!as_bad || placed_over, "{name}, call {}", call + 1);
        }
    }
}

/// What is printed are lists in the replay format that answer as the run did.
#[test]
fn printed_lists_answer_alike() {
    for found in &BREAKS {
        let run = (found.run)();
        let mut expected = Vec::new();
        for side in [NEAR, FAR] {
            for event in run.events.iter().filter(|event| event.side == side) {
                Replay::new().print_answer(&mut expected, &event.answer);
            }
        }
        let printed = breaks::text(found);
        assert_eq!(answer_all(printed.as_bytes()), expected, "{}", found.name);
    }
}
