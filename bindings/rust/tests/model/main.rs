//! The crate beside the second program, in one process: lists of calls, realistic and hostile, are made on both, and after every call the
//! answers, the tables, the links with role, exchange and queue, and the whole memory are the same. `FORDLINNET_CALLS` asks for more than
//! the usual hundred thousand.

mod ours;

use fordlinnet::{Exchange, LinkKind, Refusal};
use model::generate::{self, exhaust, hostile, traffic, List};
use model::links::{self, Fate};
use model::random::Random;
use model::replay::{lines, skipped, Answer, Line, Replay};
use model::{llc, smcr};
use ours::Ours;

const CALLS: usize = 100_000;

/// How many calls were made, and what they reached.
#[derive(Default)]
struct Tally {
    calls: usize,
    gathers: usize,
    refusals: [usize; 21],
    /// Messages with F made; those heard that were the last, and those that were not.
    moved: usize,
    last: usize,
    missed: usize,
    /// Kinds and fates of link messages heard, kinds sent, and fates of those taken up.
    heard: [usize; 10],
    fates: [usize; 4],
    sent: [usize; 10],
    taken_up: [usize; 4],
}

impl Tally {
    fn add(&mut self, call: &Line, answer: &Answer) {
        self.calls += 1;
        if let Some(number) = answer.refusal() {
            self.refusals[usize::from(number)] += 1;
        }
        let taken_up = match answer {
            Answer::Heard(heard) => {
                let flags = matches!(call, Line::Hear { bytes } if bytes[24] & 0x08 != 0 && bytes[25] & 0x20 == 0);
                self.last += usize::from(flags && heard.message.is_none());
                self.missed += usize::from(flags && heard.message.is_some());
                None
            }
            Answer::LinkMsg(heard, _) => {
                self.heard[heard.fields.as_ref().map_or(0, |fields| usize::from(fields.kind))] += 1;
                self.fates[heard.fate as usize] += 1;
                heard.taken_up.as_ref()
            }
            Answer::LinkSent(sent, _) => {
                self.sent[usize::from(sent.bytes[0])] += 1;
                sent.taken_up.as_ref()
            }
            _ => None,
        };
        if let Some(up) = taken_up {
            self.taken_up[up.fate as usize] += 1;
        }
    }
}

/// Makes a list of calls on both.
fn compare(name: &str, list: &[u8], tally: &mut Tally) {
    let (mut ours, mut theirs) = (Ours::new(), Replay::new());
    for (number, line) in lines(list).into_iter().enumerate() {
        if skipped(line) {
            continue;
        }
        let Ok(call) = theirs.parse(line) else { continue };
        let wanted = theirs.execute(&call);
        let Some(given) = ours.execute(&call) else { continue };
        let text = String::from_utf8_lossy(&line[..line.len().min(300)]);
        // as text, doubles that differ in their sign alone differ too
        let same = match given {
            Answer::Health(..) => format!("{given:?}") == format!("{wanted:?}"),
            _ => given == wanted,
        };
        assert!(same, "{name}, line {}: {text}\nthe crate: {given:?}\nthe model: {wanted:?}", number + 1);
        assert!(ours.same_as(&theirs), "{name}, line {}: {text}: the tables or the memory differ", number + 1);
        tally.add(&call, &given);
    }
    tally.gathers += ours.gathers;
    tally.moved += ours.moved;
}

/// Link messages and link sends over any role, exchange and queue, and between two ends.
fn link_list(seed: u64) -> Vec<u8> {
    let (mut list, mut random) = (List::new(), Random::new(seed));
    for _ in 0..100 {
        generate::links::hostile(&mut list, &mut random);
    }
    list.text
}

#[test]
fn a_hundred_thousand_calls() {
    let wanted = std::env::var("FORDLINNET_CALLS").map_or(CALLS, |text| text.parse().expect("a number of calls"));
    let mut tally = Tally::default();
    for seed in 1.. {
        if seed == 1 {
            compare("exhaust 1", &exhaust::list(seed), &mut tally);
        }
        compare(&format!("hostile {seed}"), &hostile::list(seed, None), &mut tally);
        compare(&format!("links {seed}"), &link_list(seed), &mut tally);
        for k in 0..4 {
            let seed = 4 * seed + k;
            compare(&format!("traffic {seed}"), &traffic::list(seed, traffic::COUNT), &mut tally);
        }
        if tally.calls >= wanted {
            break;
        }
    }
    let (heard, sent) = (tally.heard.iter().sum::<usize>(), tally.sent.iter().sum::<usize>());
    println!("{} calls and {} gathers, no difference; {heard} link messages and {sent} link sends", tally.calls, tally.gathers);
    println!("{} messages with F made, {} heard as the last, {} as another", tally.moved, tally.last, tally.missed);
    assert!(tally.moved > 0 && tally.last > 0 && tally.missed > 0, "no connection moved, or no F was heard");
    for refusal in Refusal::ALL {
        assert!(tally.refusals[usize::from(refusal.number())] > 0, "{refusal} was not reached");
    }
    for kind in LinkKind::ALL {
        let code = usize::from(kind.code());
        assert!(tally.heard[code] > 0 && tally.sent[code] > 0, "{kind} was not heard or not sent");
    }
    assert!(tally.fates.iter().all(|&count| count > 0), "a fate was not reached");
    assert!(tally.taken_up[Fate::Taken as usize] > 0 && tally.taken_up[Fate::Dropped as usize] > 0, "nothing was taken up");
}

/// Makes a trace's calls again by the second program: every answer is the one that the trace has. So many there are.
#[cfg(feature = "trace")]
fn made_again(trace: &str) -> usize {
    let wanted: Vec<&str> = trace.lines().filter_map(|line| line.strip_prefix("#> ")).collect();
    let (mut theirs, mut given) = (Replay::new(), Vec::new());
    for line in lines(trace.as_bytes()) {
        if !skipped(line) {
            let call = theirs.parse(line).unwrap_or_else(|_| panic!("{}", String::from_utf8_lossy(&line[..line.len().min(300)])));
            let answer = theirs.execute(&call);
            theirs.print_answer(&mut given, &answer);
        }
    }
    let given = String::from_utf8(given).expect("ASCII");
    assert_eq!(given.lines().count(), wanted.len());
    for (number, (given, wanted)) in given.lines().zip(&wanted).enumerate() {
        assert_eq!(given, *wanted, "answer {}", number + 1);
    }
    wanted.len()
}

/// The pool's calls and set-up, of every test that runs meanwhile too, made again from their trace.
#[cfg(all(feature = "std", feature = "trace"))]
#[test]
fn trace_beside_replayed() {
    use std::sync::{Arc, Mutex};
    let text = Arc::new(Mutex::new(String::new()));
    let to = text.clone();
    fordlinnet::trace_beside(move |line| {
        let mut text = to.lock().expect("no panic while it is held");
        text.push_str(line);
        text.push('\n');
    });
    let (mut ours, mut reader) = (Ours::new(), Replay::new());
    for list in [exhaust::list(1), hostile::list(1, None)] {
        for line in lines(&list).into_iter().filter(|line| !skipped(line)) {
            let Ok(call) = reader.parse(line) else { continue };
            reader.execute(&call);
            if matches!(
                call,
                Line::Pool | Line::Take { .. } | Line::Return { .. } | Line::Books { .. } | Line::Settings { .. } | Line::Setup { .. }
            ) {
                ours.execute(&call);
            }
        }
    }
    fordlinnet::trace_beside(|_| ());
    let text = text.lock().expect("no panic").clone();
    let calls = made_again(&text);
    println!("{calls} lines beside the groups, no difference");
    for word in ["pool", "books ", "take ", "return ", "settings ", "setup none", "setup Proposal", "setup Accept", "setup Confirm"] {
        assert!(text.lines().any(|line| line.starts_with(word)), "no {word}");
    }
    let refusals = [1, 2, 3, 18, 19, 20].map(|number| format!("refused {number}"));
    for answer in ["take ", "return", "setup message E2D4C3D9"].into_iter().chain(refusals.iter().map(String::as_str)) {
        assert!(text.lines().any(|line| line.strip_prefix("#> ").is_some_and(|said| said.starts_with(answer))), "no {answer}");
    }
}

/// Traced lists, made again from their traces by the second program: every answer is the one that the trace has. What the lists change by
/// hand, records, links and bytes, comes to the trace as well.
#[cfg(feature = "trace")]
#[test]
fn traces_replayed() {
    use std::sync::{Arc, Mutex};
    let mut calls = 0;
    for seed in 1..=3 {
        for list in [hostile::list(seed, None), link_list(seed), traffic::list(seed, traffic::COUNT)] {
            let text = Arc::new(Mutex::new(String::new()));
            let (mut ours, mut reader) = (Ours::traced(&text), Replay::new());
            for line in lines(&list) {
                if skipped(line) {
                    continue;
                }
                let Ok(call) = reader.parse(line) else { continue };
                reader.execute(&call);
                ours.execute(&call);
            }
            drop(ours);
            let text = text.lock().expect("no panic").clone();
            calls += made_again(&text);
        }
    }
    println!("{calls} traced lines, no difference");
    assert!(calls > 1000);
}

/// The manual's rows are the page's.
#[test]
fn every_row() {
    assert_eq!(LinkKind::ALL.map(LinkKind::code), llc::KINDS);
    for kind in LinkKind::ALL {
        let (ours, theirs) = (kind.rows().iter().map(|row| row.name()), llc::layout(kind.code()).iter().map(|row| row.name));
        assert!(ours.eq(theirs), "{kind}");
    }
    for stage in 0..=11 {
        let ours = Exchange { stage, ..Exchange::default() }.sort().map_or("None".to_string(), |sort| format!("{sort:?}"));
        assert_eq!(ours, format!("{:?}", links::Exchange { stage, ..links::Exchange::default() }.sort()));
    }
}

#[test]
fn every_state() {
    for bits in 0..64 {
        let on = |k: u32| bits >> k & 1 == 1;
        let connection = smcr::Connection {
            done_sent: on(0),
            closed_sent: on(1),
            done_heard: on(2),
            closed_heard: on(3),
            ours_first: on(4),
            abort_sent: on(5),
            ..smcr::Connection::default()
        };
        assert_eq!(ours::record(&connection).marks.state().to_string(), smcr::state(&connection).name());
    }
}
