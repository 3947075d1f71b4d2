//! What the library does not say of a file, read plainly from its bytes: where its tables stand, and what is free. The
//! file was validated before; where a number leads nowhere all the same, there is no layout.

/// Special values of a cell.
pub const FREE: u32 = 0xffff_ffff;
pub const END: u32 = 0xffff_fffe;
pub const FAT: u32 = 0xffff_fffd;
pub const DIFAT: u32 = 0xffff_fffc;

/// The FAT sectors that the header lists itself.
const HEADER_DIFAT: usize = 109;

/// The bytes of a directory entry.
const ENTRY: usize = 128;

/// Where the tables of a file stand. A sector's number is that of the cells.
pub struct Layout<'a> {
    image: &'a [u8],
    pub version: u16,
    pub sector_bytes: usize,
    fat: Vec<u32>,
    pub difat_sectors: usize,
    directory: Vec<u32>,
    mini_fat: Vec<u32>,
}

impl<'a> Layout<'a> {
    pub fn read(image: &'a [u8]) -> Option<Layout<'a>> {
        let version = half(image, 26)?;
        let sector_bytes = if version == 4 { 4096 } else { 512 };
        let mut layout = Layout {
            image,
            version,
            sector_bytes,
            fat: Vec::new(),
            difat_sectors: 0,
            directory: Vec::new(),
            mini_fat: Vec::new(),
        };
        layout.read_fat()?;
        layout.directory = layout.chain(word(image, 48)?)?;
        layout.mini_fat = layout.chain(word(image, 60)?)?;
        Some(layout)
    }

    /// Lists the FAT's sectors: the first in the header, the others in the DIFAT's, each of which ends with the next.
    fn read_fat(&mut self) -> Option<()> {
        let wanted = usize::try_from(word(self.image, 44)?).ok()?;
        self.difat_sectors = usize::try_from(word(self.image, 72)?).ok()?;
        let header = (0..HEADER_DIFAT.min(wanted)).map(|place| word(self.image, 76 + 4 * place));
        let mut fat = header.collect::<Option<Vec<u32>>>()?;
        let mut next = word(self.image, 68)?;
        while fat.len() < wanted && next < FAT {
            let held = self.cells().checked_sub(1)?;
            for place in 0..held.min(wanted - fat.len()) {
                fat.push(word(self.image, self.place(next)? + 4 * place)?);
            }
            next = word(self.image, self.place(next)? + 4 * held)?;
        }
        self.fat = fat;
        Some(())
    }

    /// How many cells a sector of a table has.
    fn cells(&self) -> usize {
        self.sector_bytes / 4
    }

    /// How many sectors there are.
    pub fn sectors(&self) -> usize {
        (self.image.len() / self.sector_bytes).saturating_sub(1)
    }

    /// Where a sector's bytes start. None where there is no such sector.
    fn place(&self, sector: u32) -> Option<usize> {
        let sector = usize::try_from(sector).ok()?;
        (sector < self.sectors()).then_some((sector + 1) * self.sector_bytes)
    }

    /// The sectors of a chain from its start, no more than there are.
    fn chain(&self, start: u32) -> Option<Vec<u32>> {
        let (mut next, mut chain) = (start, Vec::new());
        while next != END {
            if chain.len() > self.sectors() {
                return None;
            }
            chain.push(next);
            next = word(self.image, self.fat_cell(usize::try_from(next).ok()?)?)?;
        }
        Some(chain)
    }

    /// Where a cell stands, of a table that has these sectors.
    fn cell(&self, table: &[u32], number: usize) -> Option<usize> {
        let sector = table.get(number / self.cells())?;
        Some(self.place(*sector)? + number % self.cells() * 4)
    }

    pub fn fat_sectors(&self) -> usize {
        self.fat.len()
    }

    pub fn directory_sectors(&self) -> usize {
        self.directory.len()
    }

    pub fn mini_fat_sectors(&self) -> usize {
        self.mini_fat.len()
    }

    /// How many cells the FAT has, with those that stand for no sector.
    pub fn fat_cells(&self) -> usize {
        self.fat.len() * self.cells()
    }

    /// Where a cell of the FAT stands.
    pub fn fat_cell(&self, number: usize) -> Option<usize> {
        self.cell(&self.fat, number)
    }

    pub fn mini_fat_cells(&self) -> usize {
        self.mini_fat.len() * self.cells()
    }

    /// Where a cell of the mini FAT stands.
    pub fn mini_fat_cell(&self, number: usize) -> Option<usize> {
        self.cell(&self.mini_fat, number)
    }

    /// How many entries the directory has.
    pub fn entries(&self) -> usize {
        self.directory.len() * (self.sector_bytes / ENTRY)
    }

    /// Where an entry stands.
    pub fn entry(&self, number: usize) -> Option<usize> {
        let held = self.sector_bytes / ENTRY;
        let sector = self.directory.get(number / held)?;
        Some(self.place(*sector)? + number % held * ENTRY)
    }

    /// The type of an entry: 0 blank, 1 storage, 2 stream, 5 root.
    pub fn kind(&self, number: usize) -> Option<u8> {
        self.image.get(self.entry(number)? + 66).copied()
    }

    /// The name of an entry, without the zero at its end.
    pub fn name(&self, number: usize) -> Option<Vec<u16>> {
        let entry = self.entry(number)?;
        let units = usize::from(half(self.image, entry + 64)? / 2).saturating_sub(1).min(31);
        (0..units).map(|unit| half(self.image, entry + 2 * unit)).collect()
    }

    /// How many mini sectors there are: the root's size, of which the lower half is enough, in pieces of 64 bytes.
    pub fn mini_sectors(&self) -> Option<usize> {
        usize::try_from(word(self.image, self.entry(0)? + 120)? / 64).ok()
    }

    /// How many entries have a type.
    pub fn entries_of(&self, kind: u8) -> usize {
        (0..self.entries()).filter(|number| self.kind(*number) == Some(kind)).count()
    }

    pub fn free_sectors(&self) -> usize {
        (0..self.sectors()).filter(|number| self.is_free(self.fat_cell(*number))).count()
    }

    pub fn free_mini_sectors(&self) -> usize {
        let all = 0..self.mini_sectors().unwrap_or(0);
        all.filter(|number| self.is_free(self.mini_fat_cell(*number))).count()
    }

    fn is_free(&self, cell: Option<usize>) -> bool {
        cell.and_then(|at| word(self.image, at)) == Some(FREE)
    }
}

/// The four-byte number at a place.
pub fn word(image: &[u8], at: usize) -> Option<u32> {
    let bytes = image.get(at..at.checked_add(4)?)?;
    Some(u32::from_le_bytes(bytes.try_into().ok()?))
}

/// The two-byte number at a place.
fn half(image: &[u8], at: usize) -> Option<u16> {
    let bytes = image.get(at..at.checked_add(2)?)?;
    Some(u16::from_le_bytes(bytes.try_into().ok()?))
}
