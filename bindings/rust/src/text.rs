//! Where a table's text has a fault.

use crate::sys::{self, RawReply};
use std::fmt;

/// A name of a table's text; it prints as that name.
#[derive(Clone, Copy, Debug, PartialEq, Eq, Hash)]
#[non_exhaustive]
pub enum Key {
    /// The text isn't JSON.
    Text,
    /// It isn't an object whose one member is `partitiontable`, an object.
    PartitionTable,
    /// A name is none of its object's.
    Unknown,
    Label,
    Device,
    Unit,
    SectorSize,
    Sectors,
    Id,
    FirstLba,
    LastLba,
    Entries,
    TableLength,
    Partitions,
    Chain,
    Number,
    Node,
    Start,
    Size,
    Last,
    Offset,
    Type,
    TypeName,
    Uuid,
    Name,
    NameUnits,
    Attributes,
    Attrs,
    Bootable,
    Boot,
    StartChs,
    EndChs,
    Record,
    Bsd,
}

/// The keys in the order of their numbers, from 1 on (include/ptab.h), with their names.
const KEYS: [(Key, &str); 34] = [
    (Key::Text, "text"),
    (Key::PartitionTable, "partitiontable"),
    (Key::Unknown, "unknown"),
    (Key::Label, "label"),
    (Key::Device, "device"),
    (Key::Unit, "unit"),
    (Key::SectorSize, "sectorsize"),
    (Key::Sectors, "sectors"),
    (Key::Id, "id"),
    (Key::FirstLba, "firstlba"),
    (Key::LastLba, "lastlba"),
    (Key::Entries, "entries"),
    (Key::TableLength, "table-length"),
    (Key::Partitions, "partitions"),
    (Key::Chain, "chain"),
    (Key::Number, "number"),
    (Key::Node, "node"),
    (Key::Start, "start"),
    (Key::Size, "size"),
    (Key::Last, "last"),
    (Key::Offset, "offset"),
    (Key::Type, "type"),
    (Key::TypeName, "type_name"),
    (Key::Uuid, "uuid"),
    (Key::Name, "name"),
    (Key::NameUnits, "name_units"),
    (Key::Attributes, "attributes"),
    (Key::Attrs, "attrs"),
    (Key::Bootable, "bootable"),
    (Key::Boot, "boot"),
    (Key::StartChs, "start_chs"),
    (Key::EndChs, "end_chs"),
    (Key::Record, "record"),
    (Key::Bsd, "bsd"),
];

impl Key {
    fn of(number: u32) -> Option<Key> {
        let place = usize::try_from(number).ok()?.checked_sub(1)?;
        KEYS.get(place).map(|it| it.0)
    }

    pub fn name(self) -> &'static str {
        KEYS[self as usize].1
    }
}

impl fmt::Display for Key {
    fn fmt(&self, f: &mut fmt::Formatter<'_>) -> fmt::Result {
        f.write_str(self.name())
    }
}

/// The first fault of a table's text.
#[derive(Clone, Copy, Debug, PartialEq, Eq)]
pub struct TextFault {
    pub key: Key,
    /// In which object of `partitions` it lies, counted from 1 on.
    pub part: Option<u64>,
}

impl TextFault {
    pub(crate) fn new(status: i32, reply: &RawReply) -> Option<TextFault> {
        if (status, reply.about) != (sys::REFUSED, sys::ABOUT_TEXT) {
            return None;
        }
        let part = if reply.a == 0 { None } else { Some(reply.a) };
        Key::of(reply.number).map(|key| TextFault { key, part })
    }
}
