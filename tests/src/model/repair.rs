//! Repairs (W-213). On a valid image the rows stay, and what was red is black.

use super::Model;

impl Model {
    /// Lent a spare buffer that holds this.
    pub fn repair(&mut self, spare: &mut [u8]) -> Result<[u64; 3], u32> {
        let copy = spare.get_mut(..self.bytes()).ok_or(2u32)?;
        copy.fill(0);
        let red = self.rows.iter().filter(|row| row.red).count();
        self.blacken();
        Ok([red as u64, 0, 0])
    }

    pub fn blacken(&mut self) {
        self.rows.iter_mut().for_each(|row| row.red = false);
    }
}
