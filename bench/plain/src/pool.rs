//! The pool's books in ordinary Rust: one pass gives the units held as a mask, or that the books are not sound.

use fordlinnet::Refusal;

pub struct Books {
    pub sizes: [u8; 64],
}

fn is_size(units: usize) -> bool {
    units.is_power_of_two() && units <= 64
}

/// A block of so many units at the pool's front.
fn block(units: usize) -> u64 {
    u64::MAX >> (64 - units)
}

impl Books {
    fn held(&self) -> Result<u64, Refusal> {
        let (mut end, mut held) = (0, 0);
        for (start, &size) in self.sizes.iter().enumerate().filter(|(_, &size)| size != 0) {
            let size = usize::from(size);
            if start < end || !is_size(size) || start & (size - 1) != 0 || start + size > 64 {
                return Err(Refusal::Books);
            }
            end = start + size;
            held |= block(size) << start;
        }
        Ok(held)
    }

    #[inline(never)]
    pub fn take(&mut self, units: u32) -> Result<u32, Refusal> {
        let held = self.held()?;
        let want = units as usize;
        if !is_size(want) {
            return Err(Refusal::NoSize);
        }
        let free = (0..64).step_by(want).find(|start| held & block(want) << start == 0);
        let start = free.ok_or(Refusal::NoBlock)?;
        self.sizes[start] = units as u8;
        Ok(start as u32)
    }

    #[inline(never)]
    pub fn give_back(&mut self, start: u32, units: u32) -> Result<(), Refusal> {
        self.held()?;
        let at = start as usize;
        if at >= 64 || units == 0 || u32::from(self.sizes[at]) != units {
            return Err(Refusal::NotGivenOut);
        }
        self.sizes[at] = 0;
        Ok(())
    }
}
