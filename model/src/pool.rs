//! Carving the pool (2026-12): the books of 64 units of 16 KiB.
//!
//! The calls go through the blocks and the units one by one; nothing is halved
//! here.

pub const UNITS: usize = 64;
/// "A request is for 1, 2, 4, 8, 16, 32 or 64 units."
pub const SIZES: [u32; 7] = [1, 2, 4, 8, 16, 32, 64];

/// Byte u is the size of the block given out that starts at unit u, 0 where none
/// starts.
#[derive(Clone, Copy, Debug, PartialEq, Eq)]
pub struct Books(pub [u8; UNITS]);

/// A block that the books name.
#[derive(Clone, Copy, Debug, PartialEq, Eq)]
pub struct Block {
    pub start: usize,
    pub size: usize,
}

impl Block {
    /// Whether a unit belongs to the block.
    pub fn covers(&self, unit: usize) -> bool {
        self.start <= unit && unit < self.start + self.size
    }

    pub fn overlaps(&self, other: &Block) -> bool {
        (self.start..self.start + self.size).any(|unit| other.covers(unit))
    }

    pub fn leaves_the_pool(&self) -> bool {
        self.start + self.size > UNITS
    }

    pub fn has_another_size(&self) -> bool {
        !SIZES.contains(&(self.size as u32))
    }

    pub fn starts_off_a_multiple(&self) -> bool {
        self.start % self.size != 0
    }
}

impl Books {
    /// The books of a pool with all units free.
    pub fn free() -> Books {
        Books([0; UNITS])
    }

    /// The blocks given out, lowest first.
    pub fn blocks(&self) -> Vec<Block> {
        let named = self.0.iter().enumerate().filter(|(_, &size)| size != 0);
        named
            .map(|(start, &size)| Block {
                start,
                size: usize::from(size),
            })
            .collect()
    }

    /// Whether a block given out covers the unit.
    pub fn held(&self, unit: usize) -> bool {
        self.blocks().iter().any(|block| block.covers(unit))
    }

    /// How many units are not free.
    pub fn units_held(&self) -> usize {
        (0..UNITS).filter(|&unit| self.held(unit)).count()
    }

    /// 3: "books with blocks that overlap, leave the pool, have another size or
    /// start off a multiple of theirs".
    pub fn wrong(&self) -> bool {
        let blocks = self.blocks();
        blocks.iter().any(|block| {
            block.leaves_the_pool()
                || block.has_another_size()
                || block.starts_off_a_multiple()
                || blocks
                    .iter()
                    .any(|other| other != block && block.overlaps(other))
        })
    }

    /// "The lowest block that is wholly free and starts at a multiple of its
    /// size."
    pub fn lowest_free(&self, size: usize) -> Option<usize> {
        (0..UNITS)
            .filter(|start| start % size == 0)
            .find(|&start| (start..start + size).all(|unit| unit < UNITS && !self.held(unit)))
    }

    /// Take: 3, 18, 19. The answer is the unit at which the block starts.
    pub fn take(&mut self, units: u32) -> Result<u32, u8> {
        if self.wrong() {
            return Err(3);
        }
        if !SIZES.contains(&units) {
            return Err(18);
        }
        let start = self.lowest_free(units as usize).ok_or(19u8)?;
        self.0[start] = units as u8;
        Ok(start as u32)
    }

    /// Whether a block was given out "in that place and size".
    pub fn given_out(&self, start: u32, units: u32) -> bool {
        self.blocks()
            .iter()
            .any(|block| block.start == start as usize && block.size == units as usize)
    }

    /// Return: 3, 20. "Returning a block frees its units."
    pub fn give_back(&mut self, start: u32, units: u32) -> Result<(), u8> {
        if self.wrong() {
            return Err(3);
        }
        if !self.given_out(start, units) {
            return Err(20);
        }
        self.0[start as usize] = 0;
        Ok(())
    }
}
