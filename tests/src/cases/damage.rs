//! Damage that a repair mends (W-213): every step has its own. The directory names the same streams after it.

use crate::breaks::edit::COLOUR;
use crate::images::Sample;
use crate::number::*;
use crate::random::Random;

/// None if the image has no place for it.
type Damage = fn(&mut Sample, &mut Random) -> Option<()>;

pub const OF_STEPS: [&[Damage]; 4] =
    [&[cell_from_n], &[colour], &[mini_cell_from_k], &[sector_of_nobody, chain_of_nobody, mini_sector_of_nobody]];

/// A few times, for any of the steps.
pub fn some(s: &mut Sample, r: &mut Random) {
    for _ in 0..r.pick(&[1, 1, 2, 3, 5, 8, 20]) {
        of_step(s, r.below(4) as usize, r);
    }
}

/// For one of the steps, counted from 0.
pub fn of_step(s: &mut Sample, step: usize, r: &mut Random) -> Option<()> {
    r.pick(OF_STEPS[step])(s, r)
}

/// Any value may stand there.
fn cell_from_n(s: &mut Sample, r: &mut Random) -> Option<()> {
    let (n, cells) = (s.layout.sectors, s.layout.cell_count());
    (n < cells).then_some(())?;
    let any = r.between(n, cells - 1);
    let cell = r.pick(&[n, cells - 1, any, any]);
    let word = r.word();
    s.set_cell(cell, r.pick(&[0, END, FATSECT, DIFSECT, n - 1, n, cell, 0xFFFF_FFFB, word]));
    Some(())
}

fn mini_cell_from_k(s: &mut Sample, r: &mut Random) -> Option<()> {
    let (k, cells) = (s.layout.minis, s.layout.mini_cell_count());
    (k < cells).then_some(())?;
    let any = r.between(k, cells - 1);
    let cell = r.pick(&[k, cells - 1, any, any]);
    let word = r.word();
    s.set_mini_cell(cell, r.pick(&[0, END, FATSECT, DIFSECT, k, k.saturating_sub(1), cell, word]));
    Some(())
}

/// Of any entry that has one.
fn colour(s: &mut Sample, r: &mut Random) -> Option<()> {
    let node = s.node(r, |_| true)?;
    let any = r.byte();
    let at = s.layout.entry(node.entry) + COLOUR;
    s.image[at] = r.pick(&[0, 0, 1, 2, 7, 0x80, 0xFF, any]);
    Some(())
}

/// Ended, in a ring, or leading anywhere.
fn sector_of_nobody(s: &mut Sample, r: &mut Random) -> Option<()> {
    let &free = r.some(&s.layout.free)?;
    s.set_cell(free, r.pick(&[END, free, 0, s.layout.sectors - 1, r.clone().below(s.layout.sectors)]));
    Some(())
}

fn mini_sector_of_nobody(s: &mut Sample, r: &mut Random) -> Option<()> {
    let &free = r.some(&s.layout.free_minis)?;
    s.set_mini_cell(free, r.pick(&[END, free, 0, s.layout.minis - 1, r.clone().below(s.layout.minis)]));
    Some(())
}

/// All free sectors, or the first of them, in a row.
fn chain_of_nobody(s: &mut Sample, r: &mut Random) -> Option<()> {
    let mut free = s.layout.free.clone();
    free.truncate(r.between(1, 40) as usize);
    for (i, &sector) in free.iter().enumerate() {
        s.set_cell(sector, free.get(i + 1).copied().unwrap_or(END));
    }
    (!free.is_empty()).then_some(())
}
