//! Partition tables of images and block devices: what they say, also as text, and checked edits and repairs.
//!
//! ```no_run
//! let mut disk = ptab::Options::new().write(true).open("disk.img")?;
//! for partition in disk.table()?.partitions {
//!     println!("{} {}", partition.path(), partition.name);
//! }
//! disk.edit(&["c:1:archive"])?;
//! # Ok::<(), ptab::Error>(())
//! ```
//!
//! Each call reads the disk anew, so it answers for the disk as it is now. One that writes stops at any moment with the old table or the
//! new one on the disk. The crate calls the library's ptab_disk.h; docs/c.md says what that does. The library is found by pkg-config, or
//! in the folder that PTAB_LIB_DIR names.

mod error;
mod sys;
mod table;
mod text;

pub use error::{Error, ErrorKind, Reason, Verdict};
pub use table::{FreeBlock, Guid, Partition, Table, TableKind};
pub use text::{Key, TextFault};

use std::ffi::{c_char, CString};
use std::os::fd::{AsFd, AsRawFd, OwnedFd};
use std::os::unix::ffi::OsStrExt;
use std::path::Path;
use std::ptr::{null, null_mut, NonNull};
use sys::{RawDisk, RawReply, RawWrite, MOST_WRITES};

/// One sector to be written, and its bytes.
#[derive(Clone, Debug, PartialEq, Eq)]
pub struct Write {
    pub sector: u64,
    pub bytes: Vec<u8>,
}

/// Phases of writes: those of a phase in any order, with a sync between a phase and the next.
pub type Plan = Vec<Vec<Write>>;

/// How a disk is opened; as it begins, an image, for reading, with sectors of 512 bytes.
#[derive(Clone, Debug, Default)]
pub struct Options {
    how: u32,
    sector_size: u32,
}

impl Options {
    pub fn new() -> Options {
        Options::default()
    }

    fn set(&mut self, bit: u32, on: bool) -> &mut Options {
        self.how = if on { self.how | bit } else { self.how & !bit };
        self
    }

    /// For writing: the disk is locked until it is dropped.
    pub fn write(&mut self, write: bool) -> &mut Options {
        self.set(sys::WRITE, write)
    }

    /// Whether the disk is locked where it is to be written. No is for a caller who holds the lock.
    pub fn lock(&mut self, lock: bool) -> &mut Options {
        self.set(sys::UNLOCKED, !lock)
    }

    /// A block device, whose sectors have the size that the system says.
    pub fn device(&mut self, device: bool) -> &mut Options {
        self.set(sys::IS_DEVICE, device)
    }

    /// Whether plans keep the primary copy of a GPT: with yes, who reads that copy alone finds the old table or the new one wherever one
    /// stops; with no, its header is zeroed meanwhile. Where it isn't said, an edit and a repair zero it, and an adoption and
    /// [`Disk::set`] keep it.
    pub fn keep_primary(&mut self, keep: bool) -> &mut Options {
        self.set(sys::KEEP_PRIMARY, keep).set(sys::BY_TABLE, !keep)
    }

    /// 512 or 4096; a device with another one is refused.
    pub fn sector_size(&mut self, bytes: u32) -> &mut Options {
        self.sector_size = bytes;
        self
    }

    /// Opens a path.
    pub fn open<P: AsRef<Path>>(&self, path: P) -> Result<Disk, Error> {
        let path = CString::new(path.as_ref().as_os_str().as_bytes())
            .map_err(|_| Error::told(ErrorKind::BadArgument, "the path has a zero byte"))?;
        self.disk(|disk, reply| unsafe { sys::ptab_disk_open(path.as_ptr(), self.how, self.sector_size, disk, reply) })
    }

    /// Takes an open file: a duplicate of its descriptor, which has the same lock. Nobody else reads or writes by the file while a call
    /// runs, and it isn't taken twice at a time: the lock ends when the first of the two is dropped.
    pub fn take<F: AsFd>(&self, file: F) -> Result<Disk, Error> {
        let descriptor = file.as_fd().try_clone_to_owned().map_err(|why| Error::system(&why))?;
        let fd = descriptor.as_raw_fd();
        let mut disk = self.disk(|disk, reply| unsafe { sys::ptab_disk_take(fd, self.how, self.sector_size, disk, reply) })?;
        disk._descriptor = Some(descriptor);
        Ok(disk)
    }

    fn disk(&self, call: impl FnOnce(*mut *mut RawDisk, *mut RawReply) -> i32) -> Result<Disk, Error> {
        if unsafe { sys::ptab_version() } != sys::VERSION {
            return Err(Error::told(ErrorKind::Version, "the library has another interface"));
        }
        let (mut disk, mut reply) = (null_mut(), RawReply::default());
        let status = call(&mut disk, &mut reply);
        match NonNull::new(disk) {
            Some(raw) if status == sys::DONE => Ok(Disk { raw, _descriptor: None }),
            _ => Err(Error::new(status, &reply)),
        }
    }
}

/// A disk that is open. A forked process may drop it, which leaves the lock to the process that opened it; all else is refused there.
#[derive(Debug)]
pub struct Disk {
    raw: NonNull<RawDisk>,
    _descriptor: Option<OwnedFd>,
}

// SAFETY: include/ptab_disk.h lets any thread call, one after the other on one disk, which `&mut` in each call sees to. It isn't Sync: no
// call takes `&`.
unsafe impl Send for Disk {}

impl Drop for Disk {
    fn drop(&mut self) {
        unsafe { sys::ptab_disk_close(self.raw.as_ptr()) }
    }
}

/// Words as C strings.
struct Words {
    _texts: Vec<CString>,
    pointers: Vec<*const c_char>,
}

impl Words {
    fn new(words: &[&str]) -> Result<Words, Error> {
        let texts: Result<Vec<CString>, _> = words.iter().map(|&word| CString::new(word)).collect();
        let texts = texts.map_err(|_| Error::told(ErrorKind::BadArgument, "a word has a zero byte"))?;
        let pointers = texts.iter().map(|text| text.as_ptr()).collect();
        Ok(Words { _texts: texts, pointers })
    }
}

/// A plan's writes and their bytes, one after the other: each has a whole sector.
fn flat(plan: &Plan, size: usize) -> Result<(Vec<RawWrite>, Vec<u8>), Error> {
    let (mut rows, mut bytes) = (Vec::new(), Vec::new());
    for (writes, phase) in plan.iter().zip(1..) {
        for write in writes {
            if write.bytes.len() != size {
                return Err(Error::of_plan(&format!(
                    "the write of sector {} in phase {phase} has {} bytes, and a sector {size}",
                    write.sector,
                    write.bytes.len()
                )));
            }
            rows.push(RawWrite { sector: write.sector, phase });
            bytes.extend_from_slice(&write.bytes);
        }
    }
    Ok((rows, bytes))
}

impl Disk {
    /// Opens an image for reading.
    pub fn open<P: AsRef<Path>>(path: P) -> Result<Disk, Error> {
        Options::new().open(path)
    }

    /// The status and the reply of a call; any status but those allowed is an error.
    fn call(&mut self, allowed: &[i32], call: impl FnOnce(*mut RawDisk, *mut RawReply) -> i32) -> Result<(i32, RawReply), Error> {
        let mut reply = RawReply::default();
        let status = call(self.raw.as_ptr(), &mut reply);
        if allowed.contains(&status) {
            Ok((status, reply))
        } else {
            Err(Error::new(status, &reply))
        }
    }

    /// How many sectors were written by a call that writes.
    fn change(&mut self, call: impl FnOnce(*mut RawDisk, *mut RawReply) -> i32) -> Result<u64, Error> {
        Ok(self.call(&[sys::DONE], call)?.1.count)
    }

    /// How many sectors the disk has, and how many bytes each of them has.
    pub fn size(&mut self) -> Result<(u64, u32), Error> {
        let (mut sectors, mut size) = (0, 0);
        self.call(&[sys::DONE], |disk, reply| unsafe { sys::ptab_disk_size(disk, &mut sectors, &mut size, reply) })?;
        Ok((sectors, size))
    }

    /// The table, and its partitions.
    pub fn table(&mut self) -> Result<Table, Error> {
        let mut table = sys::RawTable::default();
        let mut rows = vec![sys::NO_MEMBER; sys::MOST_MEMBERS];
        let (_, reply) = self.call(&[sys::DONE], |disk, reply| unsafe {
            sys::ptab_disk_members(disk, &mut table, rows.as_mut_ptr(), rows.len(), reply)
        })?;
        Ok(Table::new(&table, &rows[..reply.count as usize]))
    }

    /// The whole table as a text of JSON, as `ptab show --json` prints it for a device of this name, but for the line's end behind it.
    /// [`Disk::set`] takes it.
    pub fn json(&mut self, device: &str) -> Result<String, Error> {
        let device =
            CString::new(device).map_err(|_| Error::told(ErrorKind::BadArgument, "the device's name has a zero byte"))?;
        let text = self.listed(sys::TEXT_ROOM, 0u8, |disk, text, reply| unsafe {
            sys::ptab_disk_table(disk, device.as_ptr(), text.as_mut_ptr().cast::<c_char>(), text.len(), reply)
        })?;
        Ok(String::from_utf8_lossy(&text).into_owned())
    }

    /// The blocks of free sectors where a new partition may lie, as `ptab free` has them.
    pub fn free(&mut self) -> Result<Vec<FreeBlock>, Error> {
        let rows = self.listed(sys::MOST_BLOCKS, sys::RawBlock::default(), |disk, rows, reply| unsafe {
            sys::ptab_disk_free(disk, rows.as_mut_ptr(), rows.len(), reply)
        })?;
        Ok(rows.iter().map(FreeBlock::new).collect())
    }

    /// A list, with as much room as it takes.
    fn listed<T: Clone>(
        &mut self, room: usize, empty: T, mut call: impl FnMut(*mut RawDisk, &mut [T], *mut RawReply) -> i32,
    ) -> Result<Vec<T>, Error> {
        let mut count = room;
        loop {
            let mut list = vec![empty.clone(); count];
            let (status, reply) = self.call(&[sys::DONE, sys::ROOM], |disk, reply| call(disk, &mut list, reply))?;
            count = reply.count as usize;
            if status == sys::DONE {
                list.truncate(count);
                return Ok(list);
            }
        }
    }

    /// Whether the disk is healthy, or the first finding.
    pub fn verify(&mut self) -> Result<Verdict, Error> {
        let (status, reply) = self.call(&[sys::DONE, sys::NO], |disk, reply| unsafe { sys::ptab_disk_verify(disk, reply) })?;
        Ok(Verdict::new(status, &reply))
    }

    /// The disk's sector that is sector `k` of a partition, `letter` that of a label's entry.
    pub fn locate(&mut self, number: u64, letter: Option<char>, k: u64) -> Result<Option<u64>, Error> {
        let letter = letter.map_or(0, |letter| u8::try_from(letter).unwrap_or(u8::MAX));
        let (status, reply) =
            self.call(&[sys::DONE, sys::NO], |disk, reply| unsafe { sys::ptab_disk_locate(disk, number, letter, k, reply) })?;
        Ok(if status == sys::DONE { Some(reply.sector) } else { None })
    }

    /// Edits by words as `ptab edit` takes them, with GUIDs that are drawn: how many sectors were written.
    pub fn edit(&mut self, words: &[&str]) -> Result<u64, Error> {
        let words = Words::new(words)?;
        let (at, len) = (words.pointers.as_ptr(), words.pointers.len());
        self.change(|disk, reply| unsafe { sys::ptab_disk_edit(disk, at, len, null(), 0, reply) })
    }

    /// The same with 16 random bytes for each GUID.
    pub fn edit_drawn(&mut self, words: &[&str], drawn: &[u8]) -> Result<u64, Error> {
        let words = Words::new(words)?;
        let (at, len) = (words.pointers.as_ptr(), words.pointers.len());
        self.change(|disk, reply| unsafe { sys::ptab_disk_edit(disk, at, len, drawn.as_ptr(), drawn.len(), reply) })
    }

    /// Makes the disk healthy, and keeps its partitions: how many sectors were written.
    pub fn repair(&mut self) -> Result<u64, Error> {
        self.change(|disk, reply| unsafe { sys::ptab_disk_repair(disk, reply) })
    }

    /// Gives the disk the layout that another one denotes: how many sectors were written.
    pub fn adopt(&mut self, other: &mut Disk) -> Result<u64, Error> {
        let other = other.raw.as_ptr();
        self.change(|disk, reply| unsafe { sys::ptab_disk_adopt(disk, other, reply) })
    }

    /// Gives the disk the table that a text of JSON says, with GUIDs that are drawn where it leaves them out: how many sectors were
    /// written. docs/table.md has what is taken for what it leaves out; partitions that it doesn't have are removed. Where the text has a
    /// fault, [`Error::fault`] says where.
    pub fn set(&mut self, table: &str) -> Result<u64, Error> {
        let (at, len) = (table.as_ptr().cast::<c_char>(), table.len());
        self.change(|disk, reply| unsafe { sys::ptab_disk_set(disk, at, len, null(), 0, reply) })
    }

    /// The same with 16 random bytes for each GUID.
    pub fn set_drawn(&mut self, table: &str, drawn: &[u8]) -> Result<u64, Error> {
        let (at, len) = (table.as_ptr().cast::<c_char>(), table.len());
        self.change(|disk, reply| unsafe { sys::ptab_disk_set(disk, at, len, drawn.as_ptr(), drawn.len(), reply) })
    }

    /// Carries out a plan from elsewhere, if `check` says yes to it: how many sectors were written.
    pub fn apply(&mut self, plan: &Plan) -> Result<u64, Error> {
        let (rows, bytes) = flat(plan, self.size()?.1 as usize)?;
        self.change(|disk, reply| unsafe {
            sys::ptab_disk_apply(disk, rows.as_ptr(), rows.len(), bytes.as_ptr(), bytes.len(), reply)
        })
    }

    /// Whether a plan from elsewhere may be carried out.
    pub fn check(&mut self, plan: &Plan) -> Result<Verdict, Error> {
        let (rows, bytes) = flat(plan, self.size()?.1 as usize)?;
        let (status, reply) = self.call(&[sys::DONE, sys::NO], |disk, reply| unsafe {
            sys::ptab_disk_check(disk, rows.as_ptr(), rows.len(), bytes.as_ptr(), bytes.len(), reply)
        })?;
        Ok(Verdict::new(status, &reply))
    }

    /// The plan of an edit, with GUIDs that are drawn; nothing is written.
    pub fn plan(&mut self, words: &[&str]) -> Result<Plan, Error> {
        let words = Words::new(words)?;
        let (at, len) = (words.pointers.as_ptr(), words.pointers.len());
        self.planned(|disk, room, reply| unsafe {
            let (writes, bytes) = room;
            sys::ptab_disk_plan(
                disk, at, len, null(), 0, writes.as_mut_ptr(), writes.len(), bytes.as_mut_ptr(), bytes.len(), reply,
            )
        })
    }

    /// The plan of a repair.
    pub fn repair_plan(&mut self) -> Result<Plan, Error> {
        self.planned(|disk, (writes, bytes), reply| unsafe {
            sys::ptab_disk_repair_plan(disk, writes.as_mut_ptr(), writes.len(), bytes.as_mut_ptr(), bytes.len(), reply)
        })
    }

    /// The plan that gives the disk the layout of another one.
    pub fn adopt_plan(&mut self, other: &mut Disk) -> Result<Plan, Error> {
        let other = other.raw.as_ptr();
        self.planned(|disk, (writes, bytes), reply| unsafe {
            sys::ptab_disk_adopt_plan(disk, other, writes.as_mut_ptr(), writes.len(), bytes.as_mut_ptr(), bytes.len(), reply)
        })
    }

    /// The plan of [`Disk::set`].
    pub fn set_plan(&mut self, table: &str) -> Result<Plan, Error> {
        let (at, len) = (table.as_ptr().cast::<c_char>(), table.len());
        self.planned(|disk, (writes, bytes), reply| unsafe {
            sys::ptab_disk_set_plan(
                disk, at, len, null(), 0, writes.as_mut_ptr(), writes.len(), bytes.as_mut_ptr(), bytes.len(), reply,
            )
        })
    }

    /// A plan, with as much room as it takes.
    fn planned(
        &mut self, mut call: impl FnMut(*mut RawDisk, (&mut [RawWrite], &mut [u8]), *mut RawReply) -> i32,
    ) -> Result<Plan, Error> {
        let size = self.size()?.1 as usize;
        let mut count = MOST_WRITES;
        loop {
            let mut room = (vec![RawWrite::default(); count], vec![0; count * size]);
            let (status, reply) =
                self.call(&[sys::DONE, sys::ROOM], |disk, reply| call(disk, (&mut room.0, &mut room.1), reply))?;
            count = reply.count as usize;
            if status == sys::DONE {
                let mut plan: Plan = vec![Vec::new(); reply.phases as usize];
                for (row, bytes) in room.0.iter().zip(room.1.chunks(size)).take(count) {
                    plan[row.phase as usize - 1].push(Write { sector: row.sector, bytes: bytes.to_vec() });
                }
                return Ok(plan);
            }
        }
    }
}
