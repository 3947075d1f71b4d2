//! Group 13: the directory's chain.

use super::image::Image;
use super::marks::{self, MARK};
use crate::number::*;

/// Its sectors, the last one first.
#[derive(Clone, Copy)]
pub struct Directory<'a> {
    pub list: &'a [u32],
}

impl<'a> Directory<'a> {
    pub fn sector(&self, i: usize) -> u32 {
        self.list[self.list.len() - 1 - i]
    }

    /// The sectors from this one on, in order.
    pub fn from(&self, i: usize) -> impl Iterator<Item = u32> + 'a {
        self.list[..self.list.len() - i].iter().rev().copied()
    }

    pub fn entries<const S: usize>(&self, _: Image<S>) -> usize {
        self.list.len() * Image::<S>::ENTRIES
    }

    pub fn entry<'b, const S: usize>(&self, image: Image<'b, S>, number: usize) -> &'b [u8; ENTRY] {
        image.entry(self.sector(number / Image::<S>::ENTRIES), number % Image::<S>::ENTRIES)
    }
}

/// Marks the chain, and lists its sectors from the end of `rest` on downwards. Their number.
pub fn walk<const S: usize>(image: Image<S>, next: &mut [u32], rest: &mut [u32]) -> Result<usize, u32> {
    let mut at = u32_at(image.header, 48);
    let mut count = 0;
    for listed in rest.iter_mut().rev() {
        let cell = next.get_mut(at as usize).ok_or(13u32)?;
        *listed = at;
        at = std::mem::replace(cell, marks::before(count));
        count += 1;
        if at >= MARK {
            break;
        }
    }
    let counted = S == 512 || u32_at(image.header, 40) == count;
    if at == END && counted { Ok(count as usize) } else { Err(13) }
}
