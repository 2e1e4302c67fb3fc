//! Blocks from the middle of busy runs.

use super::leftovers::leftovers;
use crate::layout::{fields, places, Field, NEEDED};
use crate::random::Random;
use crate::random_tables::random_tables;
use crate::runs::{tables_amid, Sort};
use crate::store::tables::{Tables, LOAD_CAPACITY};

/// A block, the tables that it holds, and their fields by place.
#[derive(Clone, Debug)]
pub struct Busy {
    pub tables: Tables,
    pub words: Vec<u64>,
    pub fields: Vec<Field>,
}

impl Busy {
    /// The block from the middle of the run that a seed gives.
    pub fn new(sort: Sort, seed: u64) -> Busy {
        Busy::holding(tables_amid(sort, seed), seed)
    }

    /// A block of tables unlike any that calls leave.
    pub fn unlike_any(seed: u64) -> Busy {
        let mut tables = random_tables(seed);
        tables.messages.truncate(LOAD_CAPACITY as usize);
        Busy::holding(tables, seed)
    }

    /// A block of these tables, and some words past its needed length. By the seed, words that are
    /// no field are 0, anything, or what long use could leave.
    pub fn holding(tables: Tables, seed: u64) -> Busy {
        let mut random = Random::new(seed);
        let length = NEEDED + random.below(4) as usize;
        let mut words: Vec<u64> = match seed % 3 {
            0 => vec![0; length],
            1 => (0..length).map(|_| random.number()).collect(),
            _ => leftovers(&tables.sizes, length, &mut random),
        };
        let mut fields = fields(&tables);
        fields.sort_by_key(|field| field.place);
        for field in &fields {
            field.store(&mut words);
        }
        Busy { tables, words, fields }
    }

    /// The place of a field: as often one of the header or a client's scalars, of a message, or of
    /// any field.
    pub(super) fn some_place(&self, random: &mut Random) -> usize {
        let before = |place| self.fields.partition_point(|field| field.place < place);
        let chosen = match random.below(3) {
            0 => &self.fields[..before(places::latest(0))],
            1 => &self.fields[before(places::message(0))..],
            _ => &self.fields[..],
        };
        match chosen {
            [] => self.some_place(random),
            chosen => random.pick(chosen).place,
        }
    }
}
