//! Blocks of functions and variables, and the arrays behind them.

use super::Character;
use super::tables::Tables;
use crate::random::Random;

const FUNC_SIZE: usize = 24;
const VAR_SIZE: usize = 20;
const PARAM_SIZE: usize = 12;

/// FKCCIC's bit 12: a default value for each parameter.
const HAS_DEFAULTS: u32 = 0x1000;

/// A type's block and the counts that its typeinfo declares.
pub struct Members {
    /// Empty for a type without a block.
    pub block: Vec<u8>,
    func_count: u16,
    var_count: u16,
}

impl Members {
    pub fn new(random: &mut Random, character: &Character, tables: &Tables) -> Self {
        let func_count = random.one_of(&[0, 0, 1, 1, 2, 3, 5, 9]);
        let var_count = random.one_of(&[0, 0, 1, 1, 2, 3, 7]);
        let mut records = Vec::new();
        for index in 0..func_count {
            records.extend(func(random, character, tables, index));
        }
        for index in 0..var_count {
            records.extend(var(random, character, tables, index));
        }
        let mut members = Members {
            block: Vec::new(),
            func_count: declared(random, character, func_count),
            var_count: declared(random, character, var_count),
        };
        if !records.is_empty() {
            let size = block_size(random, character, records.len());
            members.block = size.to_le_bytes().to_vec();
            members.block.extend(records);
            members.behind(random, tables);
        }
        members
    }

    /// The word that declares both counts.
    pub fn declared(&self) -> u32 {
        u32::from(self.func_count) | u32::from(self.var_count) << 16
    }

    /// The arrays behind the records: memids of functions and variables, then their names, then
    /// places that nobody reads.
    fn behind(&mut self, random: &mut Random, tables: &Tables) {
        let count = usize::from(self.func_count).min(50) + usize::from(self.var_count).min(50);
        for _ in 0..count {
            self.block.extend((random.number() as u32).to_le_bytes());
        }
        for _ in 0..count {
            self.block.extend(tables.name(random).to_le_bytes());
        }
        for index in 0..count as u32 {
            self.block.extend(index.to_le_bytes());
        }
    }
}

/// The count that a typeinfo declares for its members.
fn declared(random: &mut Random, character: &Character, count: u16) -> u16 {
    if character.wrong_counts && random.percent(30) {
        random.one_of(&[0, 1, count + 1, count + 7, 2000, u16::MAX])
    } else {
        count
    }
}

/// The size that a block's first word gives.
fn block_size(random: &mut Random, character: &Character, size: usize) -> u32 {
    let size = size as u32;
    if character.wrong_sizes && random.percent(30) {
        random.one_of(&[0, 1, size / 2, size - 1, size + 1, size + 40, u32::MAX])
    } else {
        size
    }
}

/// The size that a record's first half gives.
fn record_size(random: &mut Random, character: &Character, size: usize) -> u16 {
    let size = size as u16;
    if character.wrong_sizes && random.percent(15) {
        random.one_of(&[
            0,
            1,
            19,
            20,
            23,
            24,
            size / 2,
            size - 1,
            size + 1,
            size + 4,
            u16::MAX,
        ])
    } else {
        size
    }
}

fn func(random: &mut Random, character: &Character, tables: &Tables, index: u16) -> Vec<u8> {
    let count = random.one_of(&[0, 0, 1, 1, 2, 2, 3, 4, 17]);
    let attributes = random.below(9);
    let mut fkccic = random.number() as u32 & !HAS_DEFAULTS;
    let mut defaults = 0;
    if random.percent(60) {
        fkccic |= HAS_DEFAULTS;
        defaults = count;
    }
    let size = FUNC_SIZE + 4 * (attributes + defaults) + PARAM_SIZE * count;
    let size = record_size(random, character, size);
    let mut arguments = count as i16;
    if character.wrong_counts && random.percent(15) {
        arguments = random.one_of(&[-1, i16::MIN, arguments + 1, arguments + 2, i16::MAX]);
    }

    let mut bytes = (u32::from(size) | u32::from(index) << 16)
        .to_le_bytes()
        .to_vec();
    bytes.extend(tables.datatype(random).to_le_bytes());
    bytes.extend(random.bytes(8));
    bytes.extend(fkccic.to_le_bytes());
    bytes.extend(arguments.to_le_bytes());
    bytes.extend(random.bytes(2 + 4 * attributes));
    for _ in 0..defaults {
        bytes.extend(tables.constant(random).to_le_bytes());
    }
    for _ in 0..count {
        bytes.extend(param(random, tables));
    }
    bytes
}

fn param(random: &mut Random, tables: &Tables) -> Vec<u8> {
    let flags = random.one_of(&[0_u32, 1, 0x20, 0x31, 0xFFFF_FFFF, 0xFFFF_FFDF]);
    let mut bytes = tables.datatype(random).to_le_bytes().to_vec();
    bytes.extend(tables.name(random).to_le_bytes());
    bytes.extend(flags.to_le_bytes());
    bytes
}

fn var(random: &mut Random, character: &Character, tables: &Tables, index: u16) -> Vec<u8> {
    let attributes = random.below(6);
    let size = record_size(random, character, VAR_SIZE + 4 * attributes);
    let kind = random.one_of(&[0_u16, 1, 2, 2, 2, 2, 3, 0x102, u16::MAX]);
    let mut bytes = (u32::from(size) | u32::from(index) << 16)
        .to_le_bytes()
        .to_vec();
    bytes.extend(tables.datatype(random).to_le_bytes());
    bytes.extend(random.bytes(4));
    bytes.extend(kind.to_le_bytes());
    bytes.extend(random.bytes(2));
    bytes.extend(tables.constant(random).to_le_bytes());
    bytes.extend(random.bytes(4 * attributes));
    bytes
}
