//! The books of a pool.

use crate::border::{self, said, RawBooks};
use crate::Refusal;

/// The books of a pool of 64 units: which blocks were given out. They stand by themselves; no call of a group reads them.
///
/// ```
/// use fordlinnet::{Books, Refusal};
///
/// let mut books = Books::free();
/// let job = books.take(4)?;
/// assert_eq!((job, books.take(32)?), (0, 32));
/// assert_eq!(books.take(64), Err(Refusal::NoBlock));
/// books.give_back(job, 4)?;
/// assert_eq!(books.take(16)?, 0);
/// # Ok::<(), Refusal>(())
/// ```
#[derive(Clone, Copy, Debug, PartialEq, Eq, Hash)]
pub struct Books {
    sizes: [u8; 64],
}

impl Books {
    /// A pool of which nothing was given out.
    pub fn free() -> Books {
        Books { sizes: border::pool_free().sizes }
    }

    /// Books as somebody kept them, whatever they say: entry u is the size of the block given out that starts at unit u, 0 where none does.
    pub fn of(sizes: [u8; 64]) -> Books {
        Books { sizes }
    }

    /// The entries.
    pub fn sizes(&self) -> &[u8; 64] {
        &self.sizes
    }

    /// Takes the lowest block of 1, 2, 4, 8, 16, 32 or 64 units that is free; the answer is the unit at which it starts.
    ///
    /// # Errors
    ///
    /// [`Books`](Refusal::Books), [`NoSize`](Refusal::NoSize), [`NoBlock`](Refusal::NoBlock).
    ///
    /// ```
    /// use fordlinnet::{Books, Refusal};
    ///
    /// let mut books = Books::of([3; 64]);
    /// assert_eq!(books.take(4), Err(Refusal::Books));
    /// assert_eq!(Refusal::Books.to_string(), "refusal 3: the pool's books are not coherent");
    /// ```
    pub fn take(&mut self, units: u32) -> Result<u32, Refusal> {
        #[cfg(all(feature = "std", feature = "trace"))]
        let before = *self;
        let answer = self.after(border::pool_take(RawBooks { sizes: self.sizes }, units));
        #[cfg(all(feature = "std", feature = "trace"))]
        crate::beside::took(&before, units, &answer, self);
        answer
    }

    /// Returns a block that was given out in that place and size.
    ///
    /// # Errors
    ///
    /// [`Books`](Refusal::Books), [`NotGivenOut`](Refusal::NotGivenOut).
    pub fn give_back(&mut self, start: u32, units: u32) -> Result<(), Refusal> {
        #[cfg(all(feature = "std", feature = "trace"))]
        let before = *self;
        let answer = self.after(border::pool_return(RawBooks { sizes: self.sizes }, start, units));
        #[cfg(all(feature = "std", feature = "trace"))]
        crate::beside::gave_back(&before, start, units, &answer, self);
        answer.map(|_| ())
    }

    fn after(&mut self, answer: border::PoolAnswer) -> Result<u32, Refusal> {
        self.sizes = answer.books.sizes;
        match answer.said {
            said::REFUSED => Err(match crate::refusal::given(answer.refusal) {
                Refusal::Incoherent => Refusal::Books,
                refusal => refusal,
            }),
            _ => Ok(answer.start),
        }
    }
}
