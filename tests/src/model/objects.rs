//! Objects that are created and removed (W-203). Whether that is done follows from the rows, storages' among them, and from the
//! number of blank entries.

use super::{Model, Row, key};

impl Model {
    /// A row that starts with these bytes, none for a storage. Its path is spelled as the storages are that it is in, and its last
    /// name as the call has it.
    pub fn create(&mut self, path: &[u16], bytes: Option<Vec<u8>>) -> Result<[u64; 3], u32> {
        let names = self.names(path)?;
        let Some((name, before)) = names.split_last() else { return Err(29) };
        let holder = &self.rows[self.at(before)?];
        if holder.bytes.is_some() {
            return Err(22);
        }
        let (path, key) = ([&holder.path[..], &[name.to_vec()]].concat(), key(&names));
        if self.row(&key).is_some() {
            return Err(29);
        }
        // Its number is what a find gives.
        let entry = self.blanks.pop_first().ok_or(30u32)?;
        self.rows.push(Row { path, key, entry, red: false, bytes });
        Ok([0; 3])
    }

    /// The row ends here: another of its path is another row.
    pub fn remove(&mut self, path: &[u16]) -> Result<[u64; 3], u32> {
        let at = self.meant(path)?;
        if self.rows[at].path.is_empty() {
            return Err(31);
        }
        if self.holds_others(at) {
            return Err(28);
        }
        let row = self.rows.remove(at);
        self.blanks.insert(row.entry);
        // Those that were in the same tree.
        let (_, holder) = row.key.split_last().expect("not the root");
        let sibling = |other: &&mut Row| other.key.split_last().is_some_and(|(_, before)| before == holder);
        self.rows.iter_mut().filter(sibling).for_each(|other| other.red = false);
        Ok([0; 3])
    }

    /// Whether a row lies below this one.
    pub fn holds_others(&self, at: usize) -> bool {
        let key = &self.rows[at].key;
        self.rows.iter().any(|row| row.key.len() > key.len() && row.key.starts_with(key))
    }
}
