//! The same calls on a group that owns its parts, on one that borrows them, and on one over memory that others write.

use fordlinnet::{
    Closed, Exchange, Fate, Group, LinkFields, LinkKind, Links, Memory, Opening, Quiet, RToken, Read, Record, Refusal, Remote, Role, Row,
    SharedMemory, State, TakenUp,
};
use std::borrow::BorrowMut;

const N: u32 = 100;

fn opening(own: u32, peer: u32) -> Opening {
    Opening { own, peer, link: 3, remote: Remote { size: N, index: 1, rtokens: [RToken { key: 9, base: 1000 }; 4] } }
}

/// Sends from slot 1 of the group to its slot 2 and back, closes, and says all that was answered.
fn story<M, T, L>(group: &mut Group<M, T, L>) -> Result<String, Refusal>
where
    M: Memory,
    T: AsMut<[Record]> + AsRef<[Record]>,
    L: BorrowMut<Links>,
{
    let mut said = String::new();
    group.link_change(3, true)?;
    group.open(Quiet::no_write_can_arrive(1), &opening(5, 6))?;
    group.open(Quiet::no_write_can_arrive(2), &opening(6, 5))?;
    for round in 0..7_u8 {
        let bytes = vec![round; 60];
        let sent = group.send(1, &bytes)?;
        for placing in &sent.placings {
            group.place(2, (placing.address - 1000) as u32, placing.of(&bytes))?;
        }
        let heard = group.hear(sent.message.expect("bytes were taken").as_ref())?;
        let mut out = [0xA5; 80];
        let read = group.read(2, &mut out)?;
        said += &format!("{sent:?} {heard:?} {read:?} {out:?}\n");
        if let Read::Bytes { message: Some(update), .. } = read {
            said += &format!("{:?}\n", group.hear(update.as_ref())?);
        }
    }
    let ours = group.close(1)?;
    let heard = group.hear(ours.message().as_ref())?;
    assert_eq!(heard.state, State::AppCloseWait1);
    assert_eq!(group.record(2).map(|record| record.marks.state()), Some(heard.state));
    let theirs = group.close(2)?;
    assert!(matches!(theirs, Closed::InOrder { .. }) && !group.table()[1].id.opened);
    let heard = group.hear(theirs.message().as_ref())?;
    assert_eq!(heard.state, State::Closed);
    assert_eq!(group.read(1, &mut []), Err(Refusal::Slot));
    // each end's own close made the right to open its slot again
    let [first, second] = [heard.quiet, theirs.quiet()].map(|quiet| quiet.expect("closed by both"));
    assert_eq!((first.slot(), second.slot()), (1, 2));
    assert_eq!(group.open(second, &opening(6, 5))?, 2);
    let abort = group.abort(2)?;
    let freed = group.free(2)?;
    assert_eq!(group.hear(abort.as_ref()), Err(Refusal::Token));
    let no = group.open(freed.no_write_can_arrive(), &Opening { own: 0, ..opening(6, 5) }).unwrap_err();
    assert_eq!((no.refusal, no.quiet.slot()), (Refusal::Opening, 2));
    assert_eq!(group.open(no.quiet, &opening(6, 5))?, 2);
    Ok(said)
}

#[test]
fn owned_borrowed_and_shared() -> Result<(), Refusal> {
    let mut owned = Group::fresh(2, N)?;
    let said = story(&mut owned)?;
    assert_eq!(said.lines().filter(|line| line.starts_with("Heard")).count(), 7, "every read frees a tenth, with less than half free");

    let (mut memory, mut table, mut links) = (vec![0; 2 * N as usize], [Record::default(); 2], Links::default());
    assert_eq!(story(&mut Group::lend(2, N, &mut memory[..], &mut table[..], &mut links))?, said);
    assert_eq!((&memory, &table[..], &links), (owned.memory(), owned.table(), owned.links()));

    memory.fill(0);
    (table, links) = Default::default();
    // SAFETY: the vector outlives the group and is not used beside it.
    let shared = unsafe { SharedMemory::new(memory.as_mut_ptr(), memory.len()) };
    assert_eq!(story(&mut Group::lend(2, N, shared, &mut table[..], links))?, said);
    assert_eq!(&memory, owned.memory());
    Ok(())
}

#[test]
fn wrong_parts_are_refused() {
    let mut table = [Record::default(); 3];
    let mut group = Group::lend(2, N, [0; 2 * N as usize], &mut table[..], Links::default());
    let no = group.open(Quiet::no_write_can_arrive(1), &opening(5, 6)).unwrap_err();
    assert_eq!(no.refusal, Refusal::Sizes);
    assert_eq!(group.link_change(3, true), Err(Refusal::Sizes));
    assert_eq!(group.link_message(0, &[]), Err(Refusal::Sizes));
    assert_eq!(group.link_send(0, &LinkFields::new(LinkKind::TestLink)), Err(Refusal::Sizes));
    assert_eq!(group.sample(3, 1), Err(Refusal::LinkDown));
    for s in [0, 256, u32::MAX] {
        let mut group = Group::lend(s, N, [0; 2 * N as usize], vec![Record::default(); 2], Links::default());
        assert_eq!(group.link_change(1, true), Err(Refusal::Sizes));
    }
    assert_eq!(Group::fresh(256, N).err(), Some(Refusal::Sizes));
    assert_eq!(Group::fresh(1, 65_541).err(), Some(Refusal::Sizes));
    let text = Refusal::Sizes.to_string();
    assert_eq!(text, "refusal 1: S, N, the memory's length or the table's is wrong, or a call on links is lent a short buffer");
}

fn bytes_of(parts: &[(usize, &[u8])]) -> [u8; 44] {
    let mut bytes = [0; 44];
    for (at, part) in parts {
        bytes[*at..][..part.len()].copy_from_slice(part);
    }
    bytes
}

/// The example of request 2026-01's page: a server adds link 2, and a DELETE LINK waits. The calls change neither memory nor table.
#[test]
fn link_messages_on_lent_links() -> Result<(), Refusal> {
    let mut links = Links { role: Role::Server, active: [true, false, false, false], ..Links::default() };
    let mut table = [Record::default()];
    let mut desk = Group::lend(1, 8, [7; 8], &mut table[..], &mut links);

    let gid = 0xFE80 << 48;
    let add = LinkFields::of(LinkKind::AddLink, &[0, 0, 0, 2_199_023_255_553, gid, 1, 9, 2, 5, 77]);
    let sent = desk.link_send(1, &add)?;
    let written = bytes_of(&[(0, &[0x02, 0x2C, 0, 0, 0x02, 0, 0, 0, 0, 1, 0xFE, 0x80]), (25, &[1, 0, 0, 9, 2, 5, 0, 0, 77])]);
    assert_eq!((sent.message, sent.taken_up), (written, None));
    let another = LinkFields::new(LinkKind::AddLink).with(Row::Link, 3).with(Row::Mtu, 5);
    assert_eq!(desk.link_send(1, &another), Err(Refusal::Barred));

    let delete = LinkFields::of(LinkKind::DeleteLink, &[0, 0, 1, 2, 131_072]);
    let queued = desk.link_message(1, &bytes_of(&[(0, &[0x04, 0x2C, 0, 0x20, 2, 0, 2])]))?;
    assert_eq!((queued.fields, queued.fate, queued.reply), (Some(delete), Fate::Queued, None));
    let denied = desk.link_message(1, &bytes_of(&[(0, &[0x06, 0x2C, 0, 0, 1, 0, 0, 0, 5])]))?;
    assert_eq!((denied.fate, denied.reply), (Fate::Denied, Some(bytes_of(&[(0, &[0x06, 0x2C, 0, 0xB0, 1, 0, 0, 0, 5])]))));

    let taken = desk.link_message(1, &bytes_of(&[(0, &[0x02, 0x2C, 0, 0x80]), (28, &[0x41, 2, 5])]))?;
    assert_eq!((taken.fate, taken.fields.and_then(|fields| fields.get(Row::Qp))), (Fate::Taken, Some(65)));
    let confirm = LinkFields::new(LinkKind::ConfirmLink).with(Row::Link, 2).with(Row::Max, 4);
    assert_eq!(desk.link_send(2, &confirm)?.message, bytes_of(&[(0, &[0x01, 0x2C]), (29, &[2, 0, 0, 0, 0, 4])]));
    let last = desk.link_message(2, &bytes_of(&[(0, &[0x01, 0x2C, 0, 0x80]), (29, &[2, 0, 0, 0, 0, 4])]))?;
    assert_eq!(last.taken_up, Some(TakenUp { link: 1, fields: Some(delete), fate: Fate::Taken }));

    assert_eq!(*desk.memory(), [7; 8]);
    assert_eq!((links.active, links.exchange), ([true, true, false, false], Exchange::default()));
    assert!(links.queue.waiting().is_empty());
    assert_eq!(table, [Record::default()]);
    Ok(())
}

/// The first 26 bytes of a CDC message with no wrap numbers.
fn told(sequence: u16, token: u32, producer: u8, consumer: u8, flags: [u8; 2]) -> [u8; 44] {
    let (sequence, token) = (sequence.to_be_bytes(), token.to_be_bytes());
    bytes_of(&[(0, &[0xFE, 0x2C]), (2, &sequence), (4, &token), (15, &[producer]), (23, &[consumer]), (24, &flags)])
}

/// The example of request 2026-13's page: three connections on link 1, one of them aborted, move to link 2.
#[test]
fn connections_move() -> Result<(), Refusal> {
    let mut group = Group::fresh(3, 10_000)?;
    assert_eq!(group.link_change(1, true)?.moved, []);
    assert_eq!(group.link_change(2, true)?.moved, []);
    for (slot, own, peer) in [(1, 5, 16_909_060), (2, 6, 7), (3, 8, 9)] {
        let rtokens = [(11, 0), (22, 4096), (0, 0), (0, 0)].map(|(key, base)| RToken { key, base });
        let quiet = group.never_opened(slot).expect("a fresh group");
        group.open(quiet, &Opening { own, peer, link: 1, remote: Remote { size: 10_000, index: slot, rtokens } })?;
    }
    let sent = group.send(1, &[0xAB])?;
    assert_eq!((sent.placings[0].key, sent.placings[0].address), (11, 4));
    let _ = group.abort(3)?;

    // one byte short: nothing is done, and nothing is written
    let (before, mut short) = (group.clone(), [0xA5; 131]);
    assert_eq!(group.link_change_into(1, false, &mut short), Err(Refusal::Sizes));
    assert!(group == before && short == [0xA5; 131]);

    let (mut lent, mut out) = (group.clone(), [0xA5; 140]);
    let changed = group.link_change(1, false)?;
    assert_eq!(lent.link_change_into(1, false, &mut out)?, changed);
    let wanted = [told(1, 16_909_060, 5, 4, [0x08, 0]), told(0, 7, 4, 4, [0x08, 0])];
    assert_eq!(changed.moved.iter().map(|message| *message.as_bytes()).collect::<Vec<_>>(), wanted);
    assert_eq!((&out[..88], &out[88..]), (wanted.as_flattened(), &[0xA5; 52][..]));
    assert_eq!(group.links().lowest_active(), Some(2));
    for (record, before) in group.table().iter().zip(before.table()) {
        let mut moved = *before;
        moved.id.link = 2;
        assert_eq!(*record, moved);
    }
    assert!(group == lent && group.memory() == before.memory());

    assert_eq!(*group.shutdown(1)?.as_bytes(), told(2, 16_909_060, 5, 4, [0, 0x80]));
    let sent = group.send(2, &[0xCD])?;
    assert_eq!((sent.placings[0].key, sent.placings[0].address), (22, 14_100));

    // with F: the last number heard, and another
    let heard = group.hear(&told(0, 6, 0, 0, [0xB8, 0xC0]))?;
    assert_eq!((heard.moved, heard.state, heard.message), (0, State::Active, None));
    let heard = group.hear(&told(1, 6, 0, 0, [0x08, 0]))?;
    assert_eq!((heard.state, heard.message.map(Into::into)), (State::PeerAbortWait, Some(told(2, 7, 5, 4, [0, 0x20]))));

    // all links go down, and nothing moves
    let delete = LinkFields::new(LinkKind::DeleteLink).with(Row::A, 1);
    let sent = group.link_send(2, &delete)?;
    assert_eq!((sent.message[..4].to_vec(), sent.moved), (vec![0x04, 0x2C, 0, 0x40], vec![]));
    assert_eq!(group.link_change(1, true)?.moved, []);
    assert_eq!(group.links().active, [true, false, false, false]);
    assert_eq!(group.shutdown(2), Err(Refusal::LinkDown));
    Ok(())
}

/// DELETE LINK from the server takes link 1 down: the answer has the reply, and the message of the connection that moved.
#[test]
fn a_link_message_moves() -> Result<(), Refusal> {
    let mut client = Group::fresh(1, N)?;
    for link in 1..=3 {
        client.link_change(link, true)?;
    }
    let slot = client.never_opened(1).expect("a fresh group");
    client.open(slot, &opening(5, 6))?;
    let heard = client.link_message(1, &bytes_of(&[(0, &[0x04, 0x2C, 0, 0, 3])]))?;
    assert_eq!((heard.fate, heard.reply.map(|reply| reply[3])), (Fate::Taken, Some(0x80)));
    assert_eq!(heard.moved.iter().map(|message| *message.as_bytes()).collect::<Vec<_>>(), [told(0, 6, 4, 4, [0x08, 0])]);
    assert_eq!((client.links().active, client.table()[0].id.link), ([true, true, false, false], 1));
    Ok(())
}
