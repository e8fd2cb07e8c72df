//! Every check can fail: each claim that no broken premise of `breaks` shows is shown here, over ends that were tampered with.

use crate::books::{Closed, Seen, What};
use crate::breaks::{Fault, Harm, BREAKS};
use crate::call::{make, Call, How};
use crate::search::{list, show};
use crate::traffic::small_setup;
use crate::world::{Act, Setup, Step, World};
use fordlinnet::Refusal;

const HEAR: Act = Act::Hear { noise: 0 };
const WRITE: Act = Act::Write { pick: 0, back: 0, len: 0, again: false };

/// One connection open at both ends, by link 1; link 2 is up as well.
fn opened(fault: Option<Fault>) -> World {
    let setup = small_setup(1, fault.unwrap_or(Fault::Memory));
    let mut world = World::new(Setup { fault, sizes: [8, 8], slots: [2, 2], ..setup });
    for side in [0, 1] {
        for link in [1, 2] {
            assert!(does(&mut world, side, Act::Link { link, up: true }));
        }
    }
    assert!(does(&mut world, 0, Act::Begin { slots: [1, 1] }));
    assert!(does(&mut world, 0, Act::Open { link: 1 }) && does(&mut world, 1, Act::Open { link: 1 }));
    world
}

fn does(world: &mut World, side: usize, act: Act) -> bool {
    world.step(&Step { side, id: 1, act })
}

fn send(world: &mut World, len: u32) {
    assert!(does(world, 0, Act::Send { len, how: How::Plain }));
}

fn wrongs(world: &World) -> Vec<&What> {
    world.found.wrong.iter().map(|wrong| &wrong.what).collect()
}

#[test]
fn all_goes_well() {
    let mut world = opened(None);
    send(&mut world, 3);
    assert!(does(&mut world, 1, WRITE) && does(&mut world, 1, HEAR) && does(&mut world, 1, Act::Read { room: 9 }));
    assert_eq!((wrongs(&world), world.found.broken.len(), world.counts.read), (vec![], 0, 3));
    assert!(world.found.nothing_lost > 0);
}

#[test]
fn what_the_premises_do_not_admit_is_not_done() {
    let mut world = opened(None);
    send(&mut world, 1);
    assert!(!does(&mut world, 1, HEAR), "its byte is not written yet");
    assert!(!does(&mut world, 1, Act::Repeat), "nothing was heard");
    for link in [2, 1] {
        assert!(does(&mut world, 1, Act::Link { link, up: false }));
    }
    assert!(!does(&mut world, 1, WRITE), "no link is active");
}

#[test]
fn a_right_byte_that_no_write_put_there() {
    let mut world = opened(Some(Fault::MessageFirst));
    send(&mut world, 1);
    world.groups[1].memory_mut()[4] = 1;
    assert!(does(&mut world, 1, Act::Fault { a: 0, b: 0 }) && does(&mut world, 1, Act::Read { room: 1 }));
    assert_eq!(wrongs(&world), [&What::Place { number: 0, offset: 4, put: None }]);
}

#[test]
fn a_record_that_is_not_the_engines() {
    let mut world = opened(None);
    world.groups[0].table_mut()[0].outbound.next = 7;
    send(&mut world, 1);
    assert!(wrongs(&world).contains(&&What::Plain("a message made")));
    assert!(wrongs(&world).contains(&&What::Plain("the next number")));
}

#[test]
fn a_slot_that_closes_with_something_under_way() {
    let mut world = opened(None);
    send(&mut world, 1);
    let books = &mut world.lives[0];
    books.ends[1].closed = Some(Closed::ByA);
    books.claim(1, &mut world.found);
    books.ends[1].bytes.clear();
    books.claim(1, &mut world.found);
    let closed = [&What::UnderWay { bytes: 1 }, &What::MaySend];
    assert_eq!(wrongs(&world), closed);
}

#[test]
fn a_move_that_does_not_tell() {
    let mut world = opened(None);
    let before = world.groups[0].table().to_vec();
    let links = world.groups[0].links().active;
    let call = Call::Link { link: 1, up: false };
    let mut answer = make(&mut world.groups[0], &mut world.rights[0], &call);
    assert_eq!(answer.told.len(), 1);
    answer.told.clear();
    let seen = Seen { side: 0, call: &call, answer: &answer, before: &before, links, group: &world.groups[0] };
    world.lives[0].see(&seen, &mut world.found);
    assert_eq!(wrongs(&world), [&What::Told]);
}

#[test]
fn a_message_that_is_turned_away() {
    let mut world = opened(Some(Fault::Order));
    send(&mut world, 1);
    send(&mut world, 1);
    assert!(does(&mut world, 1, WRITE) && does(&mut world, 1, Act::Fault { a: 0, b: 0 }) && does(&mut world, 1, HEAR));
    assert_eq!(wrongs(&world), [&What::TurnedAway { hear: true, refusal: Refusal::Sequence }]);
}

#[test]
fn a_torn_element() {
    let mut world = opened(None);
    send(&mut world, 1);
    assert!(does(&mut world, 1, WRITE) && does(&mut world, 1, HEAR));
    world.groups[1].memory_mut()[0] = 0;
    assert!(does(&mut world, 1, Act::Read { room: 1 }));
    assert!(wrongs(&world).contains(&&What::Torn));
}

#[test]
fn a_repeated_message_that_is_taken() {
    let mut world = opened(None);
    send(&mut world, 1);
    assert!(does(&mut world, 1, WRITE) && does(&mut world, 1, HEAR) && does(&mut world, 1, Act::Repeat));
    assert_eq!(wrongs(&world), Vec::<&What>::new());
    world.groups[1].table_mut()[0].inbound.last = 0;
    assert!(does(&mut world, 1, Act::Repeat));
    assert_eq!(wrongs(&world), [&What::Stranger]);
}

/// A list is the same from the same seed, and the smallest run of a broken premise too.
#[test]
fn seeds_decide() {
    let rows = |seed| list(seed).map(|counts| counts.text()).unwrap_or_default();
    assert_eq!(rows(7), rows(7));
    assert_ne!(rows(7), rows(8));
    let forged = BREAKS.iter().find(|broken| broken.fault == Fault::Forged).expect("it is one of them");
    let calls = |seed| show(forged, seed).map(|shown| shown.lines.len());
    assert_eq!(calls(1), Some(4), "link up, open, hear, read");
    assert_eq!(forged.harm, Harm::WrongByte);
}
