//! An image under way, with all that was put into it.

use crate::calls::Call;
use crate::calls::format::Fresh;
use crate::images::names;
use crate::library;
use crate::random::Random;
use crate::volume::work_needed;
use std::collections::{BTreeMap, BTreeSet};
use std::path::Path;
use std::{fs, io};

pub struct Made {
    image: Vec<u8>,
    work: Vec<u32>,
    streams: BTreeMap<String, Vec<u8>>,
    storages: BTreeSet<String>,
}

impl Made {
    /// In a buffer full of noise.
    pub fn fresh(asked: Fresh) -> Made {
        let mut image = vec![0; asked.geometry().image_len(asked.sectors as u32)];
        Random::of(3, asked.sectors).fill(&mut image);
        let work = vec![0; work_needed(image.len())];
        let mut made = Made { image, work, streams: BTreeMap::new(), storages: BTreeSet::new() };
        made.done(Call::Format(asked));
        made
    }

    /// A call of the library, which must not be refused.
    fn done(&mut self, call: Call) {
        let answer = library::call(&call, &mut self.image, &mut self.work, &mut []);
        assert_eq!(answer.map(|(answer, _)| answer), Some(0), "{call}");
    }

    pub fn storage(&mut self, path: &str) {
        self.done(Call::CreateStorage { path: names::of(path) });
        self.storages.insert(path.to_string());
    }

    /// A new stream with these bytes.
    pub fn stream(&mut self, path: &str, bytes: &[u8]) {
        self.done(Call::CreateStream { path: names::of(path) });
        self.streams.insert(path.to_string(), Vec::new());
        self.set_length(path, bytes.len());
        self.overwrite(path, 0, bytes);
    }

    pub fn set_length(&mut self, path: &str, length: usize) {
        self.done(Call::SetLength { path: names::of(path), length: length as u64 });
        self.row(path).resize(length, 0);
    }

    pub fn overwrite(&mut self, path: &str, offset: usize, bytes: &[u8]) {
        self.done(Call::Overwrite { path: names::of(path), offset: offset as u64, bytes: bytes.to_vec() });
        self.row(path)[offset..][..bytes.len()].copy_from_slice(bytes);
    }

    pub fn remove(&mut self, path: &str) {
        self.done(Call::Remove { path: names::of(path) });
        assert!(self.streams.remove(path).is_some() || self.storages.remove(path), "{path}");
    }

    fn row(&mut self, path: &str) -> &mut Vec<u8> {
        self.streams.get_mut(path).expect("a stream that was created")
    }

    /// How many streams and storages there are.
    pub fn objects(&self) -> usize {
        self.streams.len() + self.storages.len()
    }

    pub fn image(&self) -> &[u8] {
        &self.image
    }

    /// What must be in the image, as files and folders below this one.
    pub fn save(&self, folder: &Path) -> io::Result<()> {
        fs::create_dir_all(folder)?;
        for path in &self.storages {
            fs::create_dir_all(folder.join(path))?;
        }
        for (path, bytes) in &self.streams {
            fs::write(folder.join(path), bytes)?;
        }
        Ok(())
    }
}
