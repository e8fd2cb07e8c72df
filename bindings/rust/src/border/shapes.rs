//! Every struct of the border against the proved side's: its size, its alignment and its offsets, and that a struct which the proved side
//! fills arrives with each number in its field.

use super::{
    Answer, Arguments, Command, FinishAnswer, GatherAnswer, HearAnswer, LinkCommand, LinkStates, PoolAnswer, RawBooks, RawFields,
    RawLinkAnswer, RawPiece, RawSettings, RawTakenUp, ReadAnswer, SendAnswer, SetupAnswer, View,
};
use crate::{
    Cursor, Exchange, Gauge, Identity, Inbound, Links, Marks, Opening, Outbound, Placing, Queue, RToken, Record, Remote, Role, Side,
    Urgent, Waiting,
};
use std::mem::{align_of, offset_of, size_of};

/// The layouts that bindings/c/fordlinnet.h has.
macro_rules! layout {
    ($type:ty, $size:expr, $align:expr, $($field:ident $at:expr),+) => {
        assert_eq!((size_of::<$type>(), align_of::<$type>()), ($size, $align), stringify!($type));
        $(assert_eq!(offset_of!($type, $field), $at, concat!(stringify!($type), ".", stringify!($field)));)+
    };
}

#[test]
fn layouts() {
    layout!(Cursor, 8, 4, offset 0, wrap 4);
    layout!(Side, 2, 1, done 0, closed 1);
    layout!(Marks, 6, 1, sent 0, heard 2, first 4, abort 5);
    layout!(Identity, 16, 4, opened 0, own 4, peer 8, link 12);
    layout!(RToken, 16, 8, key 0, base 8);
    layout!(Remote, 72, 8, size 0, index 4, rtokens 8);
    layout!(Urgent, 12, 4, standing 0, place 4);
    layout!(Inbound, 40, 4, producer 0, consumer 8, told 16, last 24, blocked 26, request 27, urgent 28);
    layout!(Outbound, 32, 4, producer 0, consumer 8, next 16, blocked 18, urgent 20);
    layout!(Record, 168, 8, id 0, remote 16, inbound 88, outbound 128, marks 160);
    layout!(Gauge, 24, 8, mean 0, worst 8, count 16, late 17);
    layout!(Exchange, 3, 1, stage 0, v 1, w 2);
    layout!(Waiting, 45, 1, link 0, bytes 1);
    layout!(Queue, 181, 1, count 0, places 1);
    layout!(Links, 296, 8, active 0, gauges 8, role 104, exchange 105, queue 108);
    layout!(Opening, 88, 8, own 0, peer 4, link 8, remote 16);
    layout!(Command, 112, 8, number 0, slot 4, offset 8, ms 12, link 16, opening 24);
    layout!(Placing, 24, 8, key 0, address 8, start 16, len 20);
    layout!(
        Answer, 440, 8, said 0, refusal 4, n 8, state 12, moved 16, health 24, placings 28, both 32, mean 80, worst 88, made 96, message 97,
        links 144
    );
    layout!(LinkStates, 4, 1, active 0);
    layout!(ReadAnswer, 8, 4, refusal 0, torn 1, made 2, count 4);
    layout!(SendAnswer, 56, 8, refusal 0, made 1, placings 2, taken 4, both 8);
    layout!(HearAnswer, 16, 8, refusal 0, made 1, state 2, moved 8);
    layout!(FinishAnswer, 3, 1, refusal 0, made 1, reset 2);
    layout!(GatherAnswer, 104, 8, refusal 0, made 1, taken 4, pieces 8, last 80);
    layout!(RawFields, 104, 8, kind 0, values 8);
    layout!(RawTakenUp, 112, 8, some 0, link 1, fate 4, fields 8);
    layout!(LinkCommand, 112, 8, number 0, link 4, up 5, fields 8);
    layout!(RawLinkAnswer, 584, 8, said 0, refusal 4, fate 8, fields 16, up 120, count 232, made 236, message 237, links 288);
    layout!(RawPiece, 24, 8, buffer 0, start 4, len 8, key 12, address 16);
    layout!(View, 24, 8, health 0, shown 4, mean 8, worst 16);
    layout!(RawBooks, 64, 1, sizes 0);
    layout!(PoolAnswer, 76, 4, said 0, refusal 4, start 8, books 12);
    layout!(
        RawSettings, 280, 8, size 0, peer 4, gid 12, mac 28, mask 34, masklen 38, count 39, prefixes 40, first 176, qp 180, mtu 184,
        psn 188, key 192, base 200, slot 208, own 212, link 216, key1 220, base1 224, key2 232, base2 240, key3 248, base3 256, key4 264,
        base4 272
    );
    layout!(
        Arguments, 88, 8, slot 0, own 4, token 8, link 12, size 16, index 20, key1 24, base1 32, key2 40, base2 48, key3 56, base3 64,
        key4 72, base4 80
    );
    layout!(
        SetupAnswer, 304, 8, said 0, refusal 4, opens 8, declined 9, diagnosis 12, count 16, arguments 24, message 112
    );
}

extern "C" {
    fn fordlinnet_shape_record(one: u32) -> Record;
    fn fordlinnet_shape_links(one: u32) -> Links;
    fn fordlinnet_shape_command() -> Command;
    fn fordlinnet_shape_link_command(one: u32) -> LinkCommand;
    fn fordlinnet_shape_answer(one: u32) -> Answer;
    fn fordlinnet_shape_gather_answer(one: u32) -> GatherAnswer;
    fn fordlinnet_shape_link_answer(one: u32) -> RawLinkAnswer;
    fn fordlinnet_shape_link_states(one: u32) -> LinkStates;
    fn fordlinnet_shape_read_answer(one: u32) -> ReadAnswer;
    fn fordlinnet_shape_send_answer(one: u32) -> SendAnswer;
    fn fordlinnet_shape_hear_answer(one: u32) -> HearAnswer;
    fn fordlinnet_shape_finish_answer(one: u32) -> FinishAnswer;
    fn fordlinnet_shape_view() -> View;
    fn fordlinnet_shape_pool_answer() -> PoolAnswer;
    fn fordlinnet_shape_settings(one: u32) -> RawSettings;
    fn fordlinnet_shape_setup_answer(one: u32) -> SetupAnswer;
}

/// Counts the fields; `one` is the bool that is true.
struct Count {
    i: u32,
    one: u32,
}

impl Count {
    fn next(&mut self) -> u32 {
        self.i += 1;
        self.i
    }
}

/// A value as the proved side fills it: field i has i in its lowest and its highest byte, is i as a double, or is whether `one` is i.
trait Shape {
    fn shape(count: &mut Count) -> Self;
}

macro_rules! numbers {
    ($($type:ty, $times:expr);+) => {$(
        impl Shape for $type {
            fn shape(count: &mut Count) -> $type {
                count.next() as $type * $times
            }
        }
    )+};
}

numbers!(u8, 1; u16, 257; u32, 16_777_217; u64, 72_057_594_037_927_937; usize, 72_057_594_037_927_937; f64, 1.0);

impl Shape for bool {
    fn shape(count: &mut Count) -> bool {
        count.next() == count.one
    }
}

/// A role stands for the bool `server`.
impl Shape for Role {
    fn shape(count: &mut Count) -> Role {
        if bool::shape(count) {
            Role::Server
        } else {
            Role::Client
        }
    }
}

/// An array of bytes is one field.
fn bytes<const LENGTH: usize>(count: &mut Count) -> [u8; LENGTH] {
    [count.next() as u8; LENGTH]
}

fn each<T: Shape, const LENGTH: usize>(count: &mut Count) -> [T; LENGTH] {
    std::array::from_fn(|_| T::shape(count))
}

macro_rules! shape {
    ($($type:ident { $($field:ident $(: $way:ident)?),+ })+) => {$(
        impl Shape for $type {
            fn shape(count: &mut Count) -> $type {
                $(let $field = shape!(@ count $($way)?);)+
                $type { $($field),+ }
            }
        }
    )+};
    (@ $count:ident) => { Shape::shape($count) };
    (@ $count:ident $way:ident) => { $way($count) };
}

shape! {
    Cursor { offset, wrap }
    Side { done, closed }
    Marks { sent, heard, first, abort }
    Identity { opened, own, peer, link }
    RToken { key, base }
    Remote { size, index, rtokens: each }
    Urgent { standing, place }
    Inbound { producer, consumer, told, last, blocked, request, urgent }
    Outbound { producer, consumer, next, blocked, urgent }
    Record { id, remote, inbound, outbound, marks }
    Gauge { mean, worst, count, late }
    Exchange { stage, v, w }
    Waiting { link, bytes: bytes }
    Queue { count, places: each }
    Links { active: each, gauges: each, role, exchange, queue }
    Opening { own, peer, link, remote }
    Command { number, slot, offset, ms, link, opening }
    Placing { key, address, start, len }
    Answer { said, refusal, n, state, moved, health, placings, both: each, mean, worst, made, message: bytes, links }
    LinkStates { active: each }
    ReadAnswer { refusal, torn, made, count }
    SendAnswer { refusal, made, placings, taken, both: each }
    HearAnswer { refusal, made, state, moved }
    FinishAnswer { refusal, made, reset }
    GatherAnswer { refusal, made, taken, pieces: each, last }
    RawFields { kind, values: each }
    RawTakenUp { some, link, fate, fields }
    LinkCommand { number, link, up, fields }
    RawLinkAnswer { said, refusal, fate, fields, up, count, made, message: bytes, links }
    RawPiece { buffer, start, len, key, address }
    View { health, shown, mean, worst }
    RawBooks { sizes: bytes }
    PoolAnswer { said, refusal, start, books }
    RawSettings {
        size, peer: bytes, gid: bytes, mac: bytes, mask: bytes, masklen, count, prefixes: bytes, first, qp, mtu, psn, key, base, slot, own,
        link, key1, base1, key2, base2, key3, base3, key4, base4
    }
    Arguments { slot, own, token, link, size, index, key1, base1, key2, base2, key3, base3, key4, base4 }
    SetupAnswer { said, refusal, opens, declined, diagnosis, count, arguments, message: bytes }
}

fn filled<T: Shape>(one: u32) -> T {
    T::shape(&mut Count { i: 0, one })
}

/// For every bool, which are told apart by `one`.
fn same<T: Shape + PartialEq + std::fmt::Debug>(theirs: unsafe extern "C" fn(u32) -> T) {
    for one in 0..=80 {
        // SAFETY: values alone.
        assert_eq!(unsafe { theirs(one) }, filled(one));
    }
}

#[test]
fn filled_structs() {
    same(fordlinnet_shape_record);
    same(fordlinnet_shape_links);
    same(fordlinnet_shape_link_command);
    same(fordlinnet_shape_answer);
    same(fordlinnet_shape_gather_answer);
    same(fordlinnet_shape_link_answer);
    same(fordlinnet_shape_link_states);
    same(fordlinnet_shape_read_answer);
    same(fordlinnet_shape_send_answer);
    same(fordlinnet_shape_hear_answer);
    same(fordlinnet_shape_finish_answer);
    same(fordlinnet_shape_settings);
    same(fordlinnet_shape_setup_answer);
    // SAFETY: values alone.
    unsafe {
        assert_eq!(fordlinnet_shape_command(), filled(0));
        assert_eq!(fordlinnet_shape_view(), filled(0));
        assert_eq!(fordlinnet_shape_pool_answer(), filled(0));
    }
}
