//! The paths of the entries, as far as the trees lead to them.

use super::entry::*;
use super::number::NOSTREAM;
use super::volume::Volume;

/// So many names of a path are shown; those before them are left out.
const MOST_NAMES: usize = 32;

pub struct Paths {
    /// The storage that each entry is in; NOSTREAM for one that is not reached.
    storages: Vec<u32>,
}

impl Paths {
    /// Links that lead nowhere, or to an entry that was reached before, are left alone.
    pub fn of(volume: &Volume) -> Paths {
        let mut storages = vec![NOSTREAM; volume.entry_count() as usize];
        let root = volume.entry(0).map_or(NOSTREAM, |root| root.link(CHILD));
        let mut links = vec![(0, root)];
        while let Some((storage, link)) = links.pop() {
            let Some(entry) = volume.entry(link).filter(|entry| entry.kind() != BLANK) else { continue };
            let reached = &mut storages[link as usize];
            if link == 0 || *reached != NOSTREAM {
                continue;
            }
            *reached = storage;
            links.extend([LEFT, RIGHT].map(|field| (storage, entry.link(field))));
            links.push((link, entry.link(CHILD)));
        }
        Paths { storages }
    }

    /// As in "Site/log"; of an entry that is not reached its number stands before its name.
    pub fn path(&self, volume: &Volume, entry: &Entry) -> String {
        let name = |entry: &Entry| entry.shown_name().unwrap_or_else(|| format!("(entry {})", entry.number));
        let mut names = vec![name(entry)];
        let mut at = entry.number;
        loop {
            let storage = self.storages.get(at as usize).copied().unwrap_or(NOSTREAM);
            let Some(above) = volume.entry(storage) else {
                names.push(format!("(entry {at}, not reached)"));
                break;
            };
            if storage == 0 {
                break;
            }
            if names.len() == MOST_NAMES {
                names.push("..".into());
                break;
            }
            names.push(name(&above));
            at = storage;
        }
        names.reverse();
        names.join("/")
    }
}
