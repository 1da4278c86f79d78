//! Shows an image's partitions; with words edits it first. usage: show IMAGE SIZE [WORD...]
use std::error::Error;

fn run(path: &str, size: &str, words: &[&str]) -> Result<(), Box<dyn Error>> {
    let mut disk = ptab::Options::new().write(!words.is_empty()).sector_size(size.parse()?).open(path)?;
    if !words.is_empty() {
        disk.edit(words)?;
    }
    for partition in disk.table()?.partitions {
        println!("{} {} {} {} {}", partition.path(), partition.first, partition.last, partition.kind, partition.name);
    }
    Ok(())
}

fn main() {
    let words: Vec<String> = std::env::args().skip(1).collect();
    let words: Vec<&str> = words.iter().map(String::as_str).collect();
    let [path, size, edits @ ..] = words.as_slice() else {
        eprintln!("usage: show IMAGE SIZE [WORD...]");
        std::process::exit(2);
    };
    if let Err(why) = run(path, size, edits) {
        eprintln!("{why}");
        std::process::exit(1);
    }
}
