//! Tables as text: what a disk has, its free blocks, tables that are set, and the faults of texts.
use ptab::{Disk, ErrorKind, FreeBlock, Key, Options, TextFault};
use std::fs;
use std::path::PathBuf;

const BUILDER: &str = r#"{"partitiontable": {"label": "gpt", "partitions": [
    {"size": "100KiB", "type": "esp", "name": "EFI"}, {"name": "root"}]}}"#;

/// A blank image that goes with the test.
struct Image(PathBuf);

impl Image {
    fn new(name: &str) -> Image {
        let path = std::env::temp_dir().join(format!("ptab-tables-{}-{name}", std::process::id()));
        fs::write(&path, vec![0; 8192 * 512]).expect("an image");
        Image(path)
    }

    fn disk(&self) -> Disk {
        Options::new().write(true).open(&self.0).expect("a disk")
    }
}

impl Drop for Image {
    fn drop(&mut self) {
        let _ = fs::remove_file(&self.0);
    }
}

#[test]
fn a_text_is_set_and_printed() {
    let (image, other) = (Image::new("set"), Image::new("copy"));
    let mut disk = image.disk();
    assert_eq!(disk.json("disk.img").expect_err("no table").kind(), ErrorKind::NoTable);
    let plan = disk.set_plan(BUILDER).expect("a plan");
    assert_eq!(plan.iter().map(Vec::len).sum::<usize>(), 67);
    assert_eq!(disk.set(BUILDER).expect("a table"), 67);
    let named: Vec<_> = disk.table().expect("a table").partitions.into_iter().map(|it| (it.kind, it.name)).collect();
    assert_eq!(named, [("EF00".to_string(), "EFI".to_string()), ("8300".to_string(), "root".to_string())]);
    let text = disk.json("disk.img").expect("a text");
    assert!(text.starts_with("{\n  \"partitiontable\": {\n    \"device\": \"disk.img\",\n"));
    assert_eq!(disk.set(&text).expect("the same table"), 0);
    let mut copy = other.disk();
    assert_eq!(copy.set(&text).expect("a table"), 67);
    assert_eq!(copy.json("disk.img").expect("a text"), text);
    assert_eq!(copy.table().expect("a table"), disk.table().expect("a table"));
}

#[test]
fn guids_are_given() {
    let image = Image::new("drawn");
    let drawn: Vec<u8> = (0..48).collect();
    image.disk().set_drawn(BUILDER, &drawn).expect("a table");
    let table = image.disk().table().expect("a table");
    assert_eq!(table.guid.expect("a GUID").to_string(), "00010203-0405-4607-8809-0a0b0c0d0e0f");
    assert_eq!(table.partitions[1].unique.expect("a GUID").to_string(), "20212223-2425-4627-a829-2a2b2c2d2e2f");
    let few = Image::new("few").disk().set_drawn(BUILDER, &drawn[..32]).expect_err("too few");
    assert_eq!(few.fault(), Some(TextFault { key: Key::Uuid, part: Some(2) }));
    let odd = image.disk().set_drawn(BUILDER, &drawn[..17]).expect_err("no groups");
    assert_eq!((odd.kind(), odd.fault()), (ErrorKind::BadArgument, None));
}

#[test]
fn blocks_are_free() {
    let image = Image::new("free");
    let mut disk = image.disk();
    disk.set(r#"{"partitiontable": {"partitions": [{"start": 100, "size": 100}]}}"#).expect("a table");
    let blocks = [FreeBlock { first: 34, last: 99, inside: None }, FreeBlock { first: 200, last: 8158, inside: None }];
    assert_eq!(disk.free().expect("blocks"), blocks);
    disk.set(r#"{"partitiontable": {"partitions": [{"start": 34}]}}"#).expect("a table");
    assert!(disk.free().expect("blocks").is_empty());
}

#[test]
fn faults_have_a_key_and_a_place() {
    let image = Image::new("faults");
    let mut disk = image.disk();
    for (text, key, name, part) in [
        ("x", Key::Text, "text", None),
        ("{}", Key::PartitionTable, "partitiontable", None),
        (r#"{"partitiontable": {"sectors": 5}}"#, Key::Sectors, "sectors", None),
        (r#"{"partitiontable": {"table-length": "x"}}"#, Key::TableLength, "table-length", None),
        (r#"{"partitiontable": {"partitions": [{}, {"nmae": 1}]}}"#, Key::Unknown, "unknown", Some(2)),
        (r#"{"partitiontable": {"partitions": [{"bsd": 1}]}}"#, Key::Bsd, "bsd", Some(1)),
    ] {
        let error = disk.set(text).expect_err("a fault");
        assert_eq!((error.kind(), error.fault()), (ErrorKind::Text, Some(TextFault { key, part })));
        assert_eq!((key.name(), key.to_string().as_str()), (name, name));
        assert!(error.to_string().ends_with(&format!("has a fault at `{name}`")), "{error}");
        assert_eq!(disk.set_plan(text).expect_err("a fault"), error);
    }
    let unsound = r#"{"partitiontable": {"partitions": [{"start": 1, "size": 1}]}}"#;
    assert_eq!(disk.set(unsound).expect_err("a refusal").kind(), ErrorKind::Refused);
    assert_eq!(fs::read(&image.0).expect("its bytes"), vec![0; 8192 * 512]);
}
