//! Open in ordinary Rust.

use crate::plain::{Group, EYE_CATCHER};
use fordlinnet::{Cursor, Identity, Inbound, Opening, Outbound, Record, Refusal};

fn barred(opening: &Opening) -> bool {
    let peer = &opening.remote;
    if opening.own == 0 || opening.peer == 0 || !(8..=65_540).contains(&peer.size) || !(1..=255).contains(&peer.index) {
        return true;
    }
    let end = u64::from(peer.index) * u64::from(peer.size);
    peer.rtokens.iter().any(|token| token.base.checked_add(end - 1).is_none())
}

impl Group<'_> {
    #[inline(never)]
    pub fn open(&mut self, slot: u32, opening: &Opening) -> Result<(), Refusal> {
        if !self.sizes_ok() {
            return Err(Refusal::Sizes);
        }
        if !(1 <= slot && slot <= self.s) {
            return Err(Refusal::Slot);
        }
        let at = slot as usize - 1;
        if self.table[at].id.opened {
            return Err(Refusal::AlreadyOpen);
        }
        if barred(opening) {
            return Err(Refusal::Opening);
        }
        if !(1..=4).contains(&opening.link) {
            return Err(Refusal::LinkNumber);
        }
        if !self.links.active[opening.link as usize - 1] {
            return Err(Refusal::LinkDown);
        }
        if self.table.iter().any(|r| r.id.opened && r.id.own == opening.own) {
            return Err(Refusal::TokenHeld);
        }
        let n = self.n as usize;
        let element = &mut self.memory[at * n..(at + 1) * n];
        element.fill(0);
        element[..4].copy_from_slice(&EYE_CATCHER);
        let start = Cursor { offset: 4, wrap: 0 };
        self.table[at] = Record {
            id: Identity { opened: true, own: opening.own, peer: opening.peer, link: opening.link },
            remote: opening.remote,
            inbound: Inbound { producer: start, consumer: start, told: start, ..Inbound::default() },
            outbound: Outbound { producer: start, consumer: start, next: 1, ..Outbound::default() },
            ..Record::default()
        };
        Ok(())
    }
}
