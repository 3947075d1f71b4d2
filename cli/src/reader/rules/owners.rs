//! Group 18: no sector and no mini sector has two owners, and one without an owner has a free cell.

use crate::reader::chains::Chains;
use crate::reader::finding::{Finding, Table};
use crate::reader::number::*;
use crate::reader::volume::Volume;

/// Who has a unit: a part of the system, or the stream of an entry.
#[derive(Clone, Copy, PartialEq, Eq)]
enum Owner {
    System(&'static str),
    Stream(u32),
}

impl Owner {
    fn title(self, volume: &Volume) -> String {
        match self {
            Owner::System(title) => title.into(),
            Owner::Stream(number) => {
                let title = volume.entry(number).map(|entry| entry.title());
                format!("the stream of {}", title.unwrap_or_default())
            }
        }
    }
}

/// The owner of each unit so far.
struct Owned {
    table: Table,
    owners: Vec<Option<Owner>>,
}

/// The chains are known to be chains by now.
pub fn check(volume: &Volume) -> Result<(), Finding> {
    let mut sectors = Owned { table: Table::Fat, owners: vec![None; volume.sectors.cells.len()] };
    let mut minis = Owned { table: Table::MiniFat, owners: vec![None; volume.mini.chains.cells.len()] };
    for (title, part) in system(volume) {
        part.iter().try_for_each(|&sector| sectors.claim(volume, sector, Owner::System(title)))?;
    }
    for stream in volume.streams() {
        let small = stream.size() < CUTOFF;
        let owned = if small { &mut minis } else { &mut sectors };
        let chains = if small { &volume.mini.chains } else { &volume.sectors };
        owned.claim_chain(volume, chains, stream.start(), Owner::Stream(stream.number))?;
    }
    sectors.others_free(volume, &volume.sectors, &volume.tables.fat)?;
    minis.others_free(volume, &volume.mini.chains, &volume.mini.fat)
}

fn system<'a>(volume: &'a Volume) -> [(&'static str, &'a [u32]); 5] {
    [
        ("the FAT", &volume.tables.fat),
        ("the DIFAT", &volume.tables.difat),
        ("the directory", &volume.directory),
        ("the mini FAT", &volume.mini.fat),
        ("the mini stream", &volume.mini.stream),
    ]
}

impl Owned {
    /// Ends at a unit that has an owner, so each unit is claimed once.
    fn claim_chain(&mut self, volume: &Volume, chains: &Chains, start: u32, owner: Owner) -> Result<(), Finding> {
        let mut at = start;
        while let Some(next) = chains.next(at) {
            self.claim(volume, at, owner)?;
            at = next;
        }
        Ok(())
    }

    fn claim(&mut self, volume: &Volume, unit: u32, owner: Owner) -> Result<(), Finding> {
        let Some(place) = self.owners.get_mut(unit as usize) else { return Ok(()) };
        match place.replace(owner) {
            None => Ok(()),
            Some(first) => Err(self.shared(volume, unit, first, owner)),
        }
    }

    fn shared(&self, volume: &Volume, unit: u32, first: Owner, second: Owner) -> Finding {
        let (first, title) = (first.title(volume), second.title(volume));
        let text = format!("{} {unit} belongs to {first} and to {title}; it should have one owner", self.table.unit());
        let place = match self.table {
            Table::Fat => Some(volume.image.place(unit)),
            Table::MiniFat => volume.mini_place(unit),
        };
        let finding = Finding::new(18, text).at(&volume.image, place.unwrap_or(0)).cell(self.table, unit);
        let stream = if let Owner::Stream(number) = second { volume.entry(number) } else { None };
        stream.map_or(finding.clone(), |entry| finding.about(&entry))
    }

    fn others_free(&self, volume: &Volume, chains: &Chains, table: &[u32]) -> Result<(), Finding> {
        let lost = |(owner, &cell): (&Option<Owner>, &u32)| owner.is_none() && cell != FREE;
        let Some(unit) = self.owners.iter().zip(&chains.cells).position(lost) else { return Ok(()) };
        let there = cell_text(chains.cells[unit]);
        let text =
            format!("{} {unit} belongs to nobody, but its cell is {there}; it should be free", self.table.unit());
        let place = volume.image.cell_place(table, unit as u32).unwrap_or(0);
        Err(Finding::new(18, text).at(&volume.image, place).cell(self.table, unit as u32))
    }
}
