//! Whether an image is what the rows say.

use super::Model;
use super::room::Units;
use crate::calls::{list, stream::Stream};
use crate::number::FREE;
use crate::volume::Volume;
use crate::volume::chains::Chains;
use crate::volume::entry::{BLANK, STREAM};

impl Model {
    /// The image is valid, has exactly the rows' paths, bytes and colours in their entries, and as many units are taken as the rows need.
    pub fn holds_of(&self, image: &[u8]) -> Result<(), String> {
        let volume = Volume::open(image).map_err(|group| format!("image broken in group {group}"))?;
        let taken = Units { sectors: taken(&volume.sectors), minis: taken(&volume.mini.chains) };
        if taken != self.taken() {
            return Err(format!("taken {taken:?}, by the rows {:?}", self.taken()));
        }
        let (listed, rows) = (list::objects(&volume), self.in_order());
        if listed.len() != rows.len() {
            return Err(format!("{} objects, by the rows {}", listed.len(), rows.len()));
        }
        for (i, row) in rows.into_iter().enumerate() {
            let path = list::names(&volume, &listed, i);
            let entry = listed[i].entry;
            if path != row.path || entry as u32 != row.entry || bytes(&volume, entry) != row.bytes {
                return Err(format!("object {i} of the listing is not its row"));
            }
        }
        let is_red = |entry: u32| volume.directory.entry(entry as usize).is_red();
        if let Some(row) = self.rows.iter().find(|row| is_red(row.entry) != row.red) {
            return Err(format!("entry {} has the other colour", row.entry));
        }
        let blank = |entry: &usize| volume.directory.entry(*entry).kind() == BLANK;
        let blanks = (0..volume.directory.count()).filter(blank).map(|entry| entry as u32);
        if blanks.eq(self.blanks.iter().copied()) { Ok(()) } else { Err("other entries are blank".to_string()) }
    }
}

/// A unit is taken if its cell is not free.
fn taken(chains: &Chains) -> u64 {
    chains.cells.iter().filter(|&&cell| cell != FREE).count() as u64
}

/// None for a storage.
fn bytes(volume: &Volume, entry: usize) -> Option<Vec<u8>> {
    let is_stream = volume.directory.entry(entry).kind() == STREAM;
    is_stream.then(|| {
        let stream = Stream::of(volume, entry);
        stream.bytes(volume.image, 0, stream.size)
    })
}
