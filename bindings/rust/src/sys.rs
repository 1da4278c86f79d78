//! The calls of include/ptab_disk.h, as C has them.

#[repr(C)]
pub struct RawDisk {
    _private: [u8; 0],
}

#[repr(C)]
#[derive(Clone, Copy, Debug, Default)]
pub struct RawReply {
    pub sector: u64,
    pub count: u64,
    pub phases: u64,
    pub a: u64,
    pub b: u64,
    pub about: u32,
    pub number: u32,
    pub a_letter: u8,
    pub b_letter: u8,
}

#[repr(C)]
#[derive(Clone, Copy, Default)]
pub struct RawTable {
    pub sectors: u64,
    pub first: u64,
    pub last: u64,
    pub kind: u32,
    pub disk: [u8; 16],
}

#[repr(C)]
#[derive(Clone, Copy)]
pub struct RawMember {
    pub number: u64,
    pub first: u64,
    pub last: u64,
    pub attributes: u64,
    pub letter: u8,
    pub kind: u8,
    pub type_byte: u8,
    pub boot: u8,
    pub type_guid: [u8; 16],
    pub unique: [u8; 16],
    pub name: [u16; 36],
}

pub const NO_MEMBER: RawMember = RawMember {
    number: 0,
    first: 0,
    last: 0,
    attributes: 0,
    letter: 0,
    kind: 0,
    type_byte: 0,
    boot: 0,
    type_guid: [0; 16],
    unique: [0; 16],
    name: [0; 36],
};

#[repr(C)]
#[derive(Clone, Copy, Default)]
pub struct RawWrite {
    pub sector: u64,
    pub phase: u64,
}

#[repr(C)]
#[derive(Clone, Copy, Default)]
pub struct RawBlock {
    pub first: u64,
    pub last: u64,
    pub inside: u64,
}

pub const VERSION: i32 = 2;
pub const MOST_MEMBERS: usize = 1056;
pub const MOST_WRITES: usize = 264;
pub const GPT: u32 = 2;
/// Room that mostly is enough for a table's text, and for its free blocks.
pub const TEXT_ROOM: usize = 16384;
pub const MOST_BLOCKS: usize = 512;

pub const DONE: i32 = 0;
pub const NO: i32 = 1;
pub const REFUSED: i32 = 3;
pub const NO_TABLE: i32 = 4;
pub const DEVICE: i32 = 5;
pub const MEMORY: i32 = 6;
pub const ROOM: i32 = -2;

pub const WRITE: u32 = 1;
pub const UNLOCKED: u32 = 2;
pub const IS_DEVICE: u32 = 4;
pub const KEEP_PRIMARY: u32 = 8;
pub const BY_TABLE: u32 = 16;

pub const ABOUT_ARGUMENT: u32 = 1;
pub const ARGUMENT_PLAN: u32 = 6;
pub const ABOUT_TEXT: u32 = 11;
pub const ABOUT_DISK: u32 = 64;
pub const LOCKED: u32 = 7;

use std::ffi::{c_char, c_int};

extern "C" {
    pub fn ptab_version() -> i32;
    pub fn ptab_guid_text(guid: *const [u8; 16], text: *mut [u8; 36]);
    pub fn ptab_type_code(guid: *const [u8; 16]) -> i32;
    pub fn ptab_message(status: i32, reply: *const RawReply, text: *mut c_char, length: usize) -> usize;
    pub fn ptab_disk_open(path: *const c_char, how: u32, sector_size: u32, disk: *mut *mut RawDisk, reply: *mut RawReply) -> i32;
    pub fn ptab_disk_take(fd: c_int, how: u32, sector_size: u32, disk: *mut *mut RawDisk, reply: *mut RawReply) -> i32;
    pub fn ptab_disk_close(disk: *mut RawDisk);
    pub fn ptab_disk_size(disk: *mut RawDisk, sectors: *mut u64, sector_size: *mut u32, reply: *mut RawReply) -> i32;
    pub fn ptab_disk_members(
        disk: *mut RawDisk, table: *mut RawTable, rows: *mut RawMember, rows_len: usize, reply: *mut RawReply,
    ) -> i32;
    pub fn ptab_disk_verify(disk: *mut RawDisk, reply: *mut RawReply) -> i32;
    pub fn ptab_disk_locate(disk: *mut RawDisk, number: u64, letter: u8, k: u64, reply: *mut RawReply) -> i32;
    pub fn ptab_disk_edit(
        disk: *mut RawDisk, words: *const *const c_char, words_len: usize, drawn: *const u8, drawn_len: usize, reply: *mut RawReply,
    ) -> i32;
    pub fn ptab_disk_repair(disk: *mut RawDisk, reply: *mut RawReply) -> i32;
    pub fn ptab_disk_adopt(disk: *mut RawDisk, other: *mut RawDisk, reply: *mut RawReply) -> i32;
    pub fn ptab_disk_apply(
        disk: *mut RawDisk, writes: *const RawWrite, writes_len: usize, bytes: *const u8, bytes_len: usize, reply: *mut RawReply,
    ) -> i32;
    pub fn ptab_disk_check(
        disk: *mut RawDisk, writes: *const RawWrite, writes_len: usize, bytes: *const u8, bytes_len: usize, reply: *mut RawReply,
    ) -> i32;
    pub fn ptab_disk_plan(
        disk: *mut RawDisk, words: *const *const c_char, words_len: usize, drawn: *const u8, drawn_len: usize, writes: *mut RawWrite,
        writes_len: usize, bytes: *mut u8, bytes_len: usize, reply: *mut RawReply,
    ) -> i32;
    pub fn ptab_disk_repair_plan(
        disk: *mut RawDisk, writes: *mut RawWrite, writes_len: usize, bytes: *mut u8, bytes_len: usize, reply: *mut RawReply,
    ) -> i32;
    pub fn ptab_disk_adopt_plan(
        disk: *mut RawDisk, other: *mut RawDisk, writes: *mut RawWrite, writes_len: usize, bytes: *mut u8, bytes_len: usize,
        reply: *mut RawReply,
    ) -> i32;
    pub fn ptab_disk_table(
        disk: *mut RawDisk, device: *const c_char, text: *mut c_char, text_len: usize, reply: *mut RawReply,
    ) -> i32;
    pub fn ptab_disk_free(disk: *mut RawDisk, rows: *mut RawBlock, rows_len: usize, reply: *mut RawReply) -> i32;
    pub fn ptab_disk_set(
        disk: *mut RawDisk, text: *const c_char, text_len: usize, drawn: *const u8, drawn_len: usize, reply: *mut RawReply,
    ) -> i32;
    pub fn ptab_disk_set_plan(
        disk: *mut RawDisk, text: *const c_char, text_len: usize, drawn: *const u8, drawn_len: usize, writes: *mut RawWrite,
        writes_len: usize, bytes: *mut u8, bytes_len: usize, reply: *mut RawReply,
    ) -> i32;
}
