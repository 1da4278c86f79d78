//! What stands on a disk.

use crate::sys::{self, RawBlock, RawMember, RawTable};
use std::fmt;

/// A GUID, as a disk stores it. It prints as its text, in lower case.
#[derive(Clone, Copy, Debug, PartialEq, Eq, Hash)]
pub struct Guid(pub [u8; 16]);

impl fmt::Display for Guid {
    fn fmt(&self, f: &mut fmt::Formatter<'_>) -> fmt::Result {
        let mut text = [0u8; 36];
        unsafe { sys::ptab_guid_text(&self.0, &mut text) };
        f.write_str(&String::from_utf8_lossy(&text))
    }
}

#[derive(Clone, Copy, Debug, PartialEq, Eq)]
pub enum TableKind {
    Mbr,
    Gpt,
}

/// A table, and its partitions: records or entries by number, then logical ones; a slice before the entries of its label.
#[derive(Clone, Debug, PartialEq, Eq)]
pub struct Table {
    pub kind: TableKind,
    pub sectors: u64,
    /// A GPT's usable sectors, the first and the last.
    pub usable: Option<(u64, u64)>,
    /// A GPT's.
    pub guid: Option<Guid>,
    pub partitions: Vec<Partition>,
}

impl Table {
    pub(crate) fn new(table: &RawTable, rows: &[RawMember]) -> Table {
        let gpt = table.kind == sys::GPT;
        Table {
            kind: if gpt { TableKind::Gpt } else { TableKind::Mbr },
            sectors: table.sectors,
            usable: gpt.then_some((table.first, table.last)),
            guid: gpt.then_some(Guid(table.disk)),
            partitions: rows.iter().map(|row| Partition::new(row, gpt)).collect(),
        }
    }
}

/// A partition; what its kind of table doesn't have is none, 0 or empty.
#[derive(Clone, Debug, PartialEq, Eq)]
pub struct Partition {
    pub number: u64,
    /// In a label, 'a' to 'h'.
    pub letter: Option<char>,
    pub first: u64,
    pub last: u64,
    /// As `ptab show` prints it: a code, a GUID, or two digits.
    pub kind: String,
    pub name: String,
    pub unique: Option<Guid>,
    pub attributes: u64,
    pub boot: u8,
}

impl Partition {
    fn new(row: &RawMember, gpt: bool) -> Partition {
        let is_entry = gpt && row.letter == 0;
        let units = row.name.iter().copied().take_while(|&unit| unit != 0);
        Partition {
            number: row.number,
            letter: (row.letter != 0).then_some(char::from(row.letter)),
            first: row.first,
            last: row.last,
            kind: kind_of(row, is_entry),
            name: char::decode_utf16(units).map(|unit| unit.unwrap_or(char::REPLACEMENT_CHARACTER)).collect(),
            unique: is_entry.then_some(Guid(row.unique)),
            attributes: row.attributes,
            boot: row.boot,
        }
    }

    /// As `3` or `2.a`.
    pub fn path(&self) -> String {
        match self.letter {
            Some(letter) => format!("{}.{letter}", self.number),
            None => self.number.to_string(),
        }
    }
}

/// A block of free sectors: as long as can be.
#[derive(Clone, Copy, Debug, PartialEq, Eq)]
pub struct FreeBlock {
    pub first: u64,
    pub last: u64,
    /// The number of the extended partition or of the slice that it lies inside.
    pub inside: Option<u64>,
}

impl FreeBlock {
    pub(crate) fn new(row: &RawBlock) -> FreeBlock {
        FreeBlock { first: row.first, last: row.last, inside: (row.inside != 0).then_some(row.inside) }
    }
}

fn kind_of(row: &RawMember, is_entry: bool) -> String {
    if !is_entry {
        return format!("{:02X}", row.type_byte);
    }
    match unsafe { sys::ptab_type_code(&row.type_guid) } {
        -1 => Guid(row.type_guid).to_string(),
        code => format!("{code:04X}"),
    }
}
