//! Calls on images: several edits in one opening, the lock, refusals, plans, a repair, another disk's layout, the primary copy.
use ptab::{Disk, Error, ErrorKind, Options, Plan, TableKind, Verdict};
use std::fs;
use std::path::PathBuf;

/// An image that goes with the test.
struct Image(PathBuf);

impl Image {
    fn new(name: &str) -> Image {
        let path = std::env::temp_dir().join(format!("ptab-{}-{name}", std::process::id()));
        fs::write(&path, vec![0; 4096 * 512]).expect("an image");
        Image(path)
    }

    fn disk(&self) -> Disk {
        Options::new().write(true).open(&self.0).expect("a disk")
    }

    fn made(name: &str) -> Image {
        let image = Image::new(name);
        image.disk().edit(&["o", "n:1:0:+1000:EF00", "c:1:data"]).expect("an edit");
        image
    }
}

impl Drop for Image {
    fn drop(&mut self) {
        let _ = fs::remove_file(&self.0);
    }
}

/// Loses a sector.
fn damage(image: &Image, sector: usize) {
    let mut bytes = fs::read(&image.0).expect("its bytes");
    bytes[512 * sector..512 * sector + 512].fill(0);
    fs::write(&image.0, bytes).expect("a damage");
}

fn named(disk: &mut Disk) -> Vec<(String, String)> {
    disk.table().expect("a table").partitions.iter().map(|it| (it.path(), it.name.clone())).collect()
}

fn pair(path: &str, name: &str) -> (String, String) {
    (path.to_string(), name.to_string())
}

#[test]
fn edits_follow_each_other() {
    let image = Image::new("edits");
    let mut disk = image.disk();
    assert_eq!(disk.verify().expect("a verdict").to_string(), "there is no table");
    assert!(disk.edit(&["o", "n:1:0:+1000:EF00"]).expect("an edit") > 0);
    assert_eq!(disk.edit(&["c:1:data"]).expect("an edit"), 67);
    assert_eq!(disk.edit(&["a:1", "n:2:0:+8", "c:2:more"]).expect("an edit"), 67);
    assert_eq!(disk.edit(&["c:2:more"]).expect("an edit"), 0);
    assert_eq!(named(&mut disk), [pair("1", "data"), pair("2", "more")]);
    let table = disk.table().expect("a table");
    assert_eq!((table.kind, table.sectors, table.usable), (TableKind::Gpt, 4096, Some((34, 4062))));
    assert_eq!((table.partitions[0].kind.as_str(), table.partitions[0].first), ("EF00", 2048));
    assert_eq!(disk.locate(1, None, 3).expect("an answer"), Some(2051));
    assert_eq!(disk.locate(1, None, 1000).expect("an answer"), None);
    assert_eq!(disk.size().expect("a size"), (4096, 512));
    assert!(disk.verify().expect("a verdict").is_yes());
    assert_eq!(disk.repair().expect("a repair"), 0);
}

#[test]
fn the_lock_is_held() {
    let image = Image::made("lock");
    let held = image.disk();
    let refused = Options::new().write(true).open(&image.0).expect_err("a second opening");
    assert_eq!((refused.kind(), refused.to_string().as_str()), (ErrorKind::Locked, "the lock is held elsewhere"));
    assert_eq!(named(&mut Disk::open(&image.0).expect("a reader")), [pair("1", "data")]);
    assert_eq!(Options::new().write(true).lock(false).open(&image.0).expect("a disk").edit(&["c:1:x"]).expect("an edit"), 67);
    drop(held);
    let file = fs::OpenOptions::new().read(true).write(true).open(&image.0).expect("a file");
    assert_eq!(Options::new().write(true).take(&file).expect("a disk").edit(&["c:1:y"]).expect("an edit"), 67);
    assert_eq!(named(&mut image.disk()), [pair("1", "y")]);
}

#[test]
fn refusals_are_sentences() {
    let image = Image::made("refusals");
    let mut disk = image.disk();
    let told = |result: Result<u64, Error>| {
        let error = result.expect_err("an error");
        (error.kind(), error.to_string(), error.written())
    };
    assert_eq!(told(disk.edit(&["d:9"])), (ErrorKind::Refused, "no such partition".to_string(), 0));
    assert_eq!(told(disk.edit(&["c:1:x", "x"])), (ErrorKind::BadArgument, "word 2: another letter than a word's".to_string(), 0));
    assert_eq!(told(disk.edit(&["c:1:\0"])), (ErrorKind::BadArgument, "a word has a zero byte".to_string(), 0));
    let missing = Disk::open("/nonexistent").expect_err("no file");
    assert_eq!((missing.kind(), missing.raw_os_error()), (ErrorKind::Device, Some(2)));
    assert_eq!(std::io::Error::from(missing).kind(), std::io::ErrorKind::NotFound);
    assert_eq!(Disk::open("/").expect_err("a folder").to_string(), "this is a folder");
    assert_eq!(Options::new().sector_size(513).open(&image.0).expect_err("a size").kind(), ErrorKind::BadArgument);
    let none = Image::new("none");
    assert_eq!(Disk::open(&none.0).expect("a disk").table().expect_err("no table").kind(), ErrorKind::NoTable);
}

#[test]
fn plans_are_checked_and_applied() {
    let image = Image::made("plans");
    let mut disk = image.disk();
    let plan = disk.plan(&["c:1:planned"]).expect("a plan");
    assert_eq!(plan.iter().map(Vec::len).collect::<Vec<_>>(), [33, 1, 32, 1]);
    assert_eq!(disk.check(&plan).expect("a verdict"), Verdict::Yes(2));
    let part = plan[..2].to_vec();
    assert!(!disk.check(&part).expect("a verdict").is_yes());
    let refused = disk.apply(&part).expect_err("a refusal");
    assert_eq!((refused.kind(), refused.reason().number), (ErrorKind::Refused, 8));
    assert_eq!(named(&mut disk), [pair("1", "data")]);
    assert_eq!(disk.apply(&plan).expect("an application"), 67);
    assert_eq!(named(&mut disk), [pair("1", "planned")]);
    assert_eq!(disk.repair_plan().expect("a plan"), Vec::<Vec<ptab::Write>>::new());
}

#[test]
fn writes_are_of_whole_sectors() {
    let image = Image::made("lengths");
    let mut disk = image.disk();
    let before = fs::read(&image.0).expect("its bytes");
    let mut plan = disk.plan(&["c:1:planned"]).expect("a plan");
    let moved = plan[0][0].bytes.pop().expect("a byte");
    plan[0][1].bytes.insert(0, moved);
    let told = "the write of sector 4063 in phase 1 has 511 bytes, and a sector 512";
    for error in [disk.apply(&plan).expect_err("a refusal"), disk.check(&plan).expect_err("a refusal")] {
        assert_eq!((error.kind(), error.to_string().as_str()), (ErrorKind::BadArgument, told));
        assert_eq!((error.reason().about, error.reason().number), (1, 6));
    }
    assert_eq!(disk.locate(1, Some('š'), 0).expect_err("no letter").kind(), ErrorKind::BadArgument);
    assert_eq!(fs::read(&image.0).expect("its bytes"), before);
}

#[test]
fn a_lost_copy_is_repaired() {
    let image = Image::made("repairs");
    let mut disk = image.disk();
    let healthy = fs::read(&image.0).expect("its bytes");
    damage(&image, 1);
    let found = disk.verify().expect("a verdict").to_string();
    assert_eq!(found, "the primary copy of the GPT doesn't exist: the signature isn't EFI PART");
    assert!(disk.repair().expect("a repair") > 0);
    assert!(disk.verify().expect("a verdict").is_yes());
    assert_eq!(fs::read(&image.0).expect("its bytes"), healthy);
}

#[test]
fn another_layout_is_adopted() {
    let (image, other) = (Image::made("adopts"), Image::made("adopted"));
    let (mut disk, mut given) = (image.disk(), other.disk());
    given.edit(&["c:1:theirs"]).expect("an edit");
    assert_eq!(disk.adopt_plan(&mut given).expect("a plan").len(), 4);
    assert_eq!(disk.adopt(&mut given).expect("an adoption"), 67);
    assert_eq!(disk.table().expect("a table"), given.table().expect("a table"));
    assert_eq!(disk.adopt(&mut given).expect("an adoption"), 0);
}

/// The sectors of each phase, and what a plan writes at first into sector 1.
fn spelled(plan: &Plan) -> (Vec<(u64, usize)>, Option<&[u8]>) {
    let phases = plan.iter().map(|phase| (phase[0].sector, phase.len())).collect();
    (phases, plan.iter().flatten().find(|write| write.sector == 1).map(|write| write.bytes.as_slice()))
}

#[test]
fn the_primary_copy_is_kept_or_not() {
    let (image, other) = (Image::made("kept"), Image::made("other"));
    other.disk().edit(&["c:1:theirs"]).expect("an edit");
    let mut given = Disk::open(&other.0).expect("a disk");
    let (zeros, phases) = (vec![0u8; 512], vec![(4063, 33), (1, 1), (2, 32), (1, 1)]);
    for keep in [None, Some(true), Some(false)] {
        let mut options = Options::new();
        if let Some(keep) = keep {
            options.keep_primary(!keep).keep_primary(keep);
        }
        let mut disk = options.open(&image.0).expect("a disk");
        let plans = [disk.plan(&["c:1:x"]).expect("a plan"), disk.adopt_plan(&mut given).expect("a plan")];
        for (plan, kept) in plans.iter().zip([keep == Some(true), keep != Some(false)]) {
            let (found, first) = spelled(plan);
            let first = first.expect("a write of sector 1");
            assert_eq!(found, phases);
            assert_eq!(first == zeros.as_slice(), !kept);
            if kept {
                // a header that names itself, the backup's sector, and the backup's array
                let number = |at: usize| u64::from_le_bytes(first[at..at + 8].try_into().expect("eight bytes"));
                assert_eq!((&first[..8], number(24), number(32), number(72)), (&b"EFI PART"[..], 1, 4095, 4063));
            }
        }
        damage(&image, 4095);
        let (found, first) = (disk.repair_plan().expect("a plan"), Some(zeros.as_slice()));
        assert_eq!(spelled(&found), if keep == Some(true) { (vec![(4063, 33)], None) } else { (phases.clone(), first) });
        image.disk().repair().expect("a repair");
    }
}

#[test]
fn a_lost_backup_is_mended_beside_the_primary_copy() {
    let image = Image::made("beside");
    let healthy = fs::read(&image.0).expect("its bytes");
    damage(&image, 4095);
    let mut disk = Options::new().write(true).keep_primary(true).open(&image.0).expect("a disk");
    assert_eq!(disk.repair().expect("a repair"), 33);
    assert_eq!(fs::read(&image.0).expect("its bytes"), healthy);
    assert_eq!(disk.edit(&["c:1:more"]).expect("an edit"), 67);
    assert_eq!(named(&mut disk), [pair("1", "more")]);
}
