//! When an element may be used again.

use crate::Refusal;
use core::error::Error;
use core::fmt;

/// The right to open a slot: no write of an earlier connection can arrive in its element.
///
/// [`Group::open`](crate::Group::open) asks for it and keeps it; a refused open gives it back. There is no copy of one. It is made
///
/// - by a fresh group, once for each slot ([`Group::never_opened`](crate::Group::never_opened));
/// - by the call that closes the slot in order: by [`close`](crate::Group::close) where C was heard, and by
///   [`hear`](crate::Group::hear) where C was sent, or of A. Then nothing of the connection is under way to the element, if the peer's
///   writes arrive before the messages that announce them: that is proved (`NothingUnderWay`, in `crates/thm_sent/specs/Reuse.antt`);
/// - by the caller's word, after a [`free`](crate::Group::free) ([`Freed::no_write_can_arrive`]), or of a group over lent parts
///   ([`Quiet::no_write_can_arrive`]).
///
/// It has a slot's number and does not know its group: keep the rights of two groups apart. Nor does it know of records that are put into
/// the table by hand ([`Group::table_mut`](crate::Group::table_mut)).
///
/// ```
/// use fordlinnet::{Group, Opening, Quiet, RToken, Refusal, Remote, State};
///
/// let (mut ours, mut theirs) = (Group::fresh(8, 10_000)?, Group::fresh(1, 10_000)?);
/// let mut idle: Vec<Quiet> = (1..=8).filter_map(|slot| ours.never_opened(slot)).collect();
/// # ours.link_change(1, true)?;
/// # theirs.link_change(1, true)?;
/// # let remote = Remote { size: 10_000, index: 1, rtokens: [RToken { key: 7, base: 0 }; 4] };
/// # let opening = Opening { own: 5, peer: 6, link: 1, remote };
/// # let slot = theirs.never_opened(1).unwrap();
/// # theirs.open(slot, &Opening { own: 6, peer: 5, ..opening })?;
/// let slot = ours.open(idle.pop().expect("an idle slot"), &opening)?;
/// let _ = theirs.hear(ours.close(slot)?.message().as_ref())?;
/// let heard = ours.hear(theirs.close(1)?.message().as_ref())?;
/// assert_eq!(heard.state, State::Closed);
/// idle.extend(heard.quiet); // closed by both: it may be opened again
///
/// let slot = ours.open(idle.pop().expect("an idle slot"), &opening)?;
/// let _ = ours.abort(slot)?;
/// let freed = ours.free(slot)?;
/// // .. the queue pair is taken down, or the key revoked ..
/// idle.push(freed.no_write_can_arrive());
/// assert_eq!(idle.len(), 8);
/// # Ok::<(), Refusal>(())
/// ```
#[derive(Debug, PartialEq, Eq, Hash)]
#[must_use = "the slot can be opened again only with this"]
pub struct Quiet {
    slot: u32,
}

impl Quiet {
    pub(crate) fn proved(slot: u32) -> Quiet {
        Quiet { slot }
    }

    /// Sworn by the caller: no write of any earlier connection can arrive in the slot's element, because there was none, its queue pair is
    /// down, or its key is revoked. For a group over lent parts ([`Group::lend`](crate::Group::lend)), of which the crate cannot know.
    ///
    /// Where it is not so, those bytes are read as the new connection's, and no call is refused.
    pub fn no_write_can_arrive(slot: u32) -> Quiet {
        Quiet { slot }
    }

    /// The slot's number.
    pub fn slot(&self) -> u32 {
        self.slot
    }
}

/// A slot that [`free`](crate::Group::free) has closed. Writes of its connection may still be under way to the element.
#[derive(Debug, PartialEq, Eq, Hash)]
#[must_use = "the slot can be opened again only with this"]
pub struct Freed {
    slot: u32,
}

impl Freed {
    pub(crate) fn new(slot: u32) -> Freed {
        Freed { slot }
    }

    /// Sworn by the caller: no write of the freed connection can arrive any more, because its queue pair is down, or the key that the peer
    /// was given is revoked. No call can know it.
    ///
    /// Where it is not so, those bytes are read as the new connection's, and no call is refused.
    pub fn no_write_can_arrive(self) -> Quiet {
        Quiet { slot: self.slot }
    }

    /// The slot's number.
    pub fn slot(&self) -> u32 {
        self.slot
    }
}

/// A refused open, which gives the right to open the slot back. As an error it turns into its [`Refusal`] by `?`.
#[derive(Debug, PartialEq, Eq)]
pub struct NotOpened {
    /// Why.
    pub refusal: Refusal,
    /// The right that open was given.
    pub quiet: Quiet,
}

impl fmt::Display for NotOpened {
    fn fmt(&self, f: &mut fmt::Formatter<'_>) -> fmt::Result {
        fmt::Display::fmt(&self.refusal, f)
    }
}

impl Error for NotOpened {}

impl From<NotOpened> for Refusal {
    fn from(no: NotOpened) -> Refusal {
        no.refusal
    }
}

/// The slots of a fresh group that were not asked for. It is no part of the group: two that have the same parts are equal.
#[derive(Clone, Default)]
pub(crate) struct Unasked([u64; 4]);

impl Unasked {
    pub(crate) fn first(s: u32) -> Unasked {
        let mut unasked = Unasked::default();
        for slot in 1..=s.min(255) {
            unasked.0[slot as usize / 64] |= 1 << (slot % 64);
        }
        unasked
    }

    pub(crate) fn take(&mut self, slot: u32) -> Option<Quiet> {
        let (word, bit) = (self.0.get_mut(slot as usize / 64)?, 1 << (slot % 64));
        let held = *word & bit != 0;
        *word &= !bit;
        held.then(|| Quiet::proved(slot))
    }
}

impl PartialEq for Unasked {
    fn eq(&self, _: &Unasked) -> bool {
        true
    }
}

impl fmt::Debug for Unasked {
    fn fmt(&self, f: &mut fmt::Formatter<'_>) -> fmt::Result {
        f.write_str("..")
    }
}
