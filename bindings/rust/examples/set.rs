//! Gives disk.img a GPT, saves its table as text, empties it, and takes the saved table back.
const TWO: &str = r#"{"partitiontable": {"label": "gpt", "partitions": [
    {"size": "16MiB", "type": "esp", "name": "EFI"}, {"name": "root"}]}}"#;

fn main() -> Result<(), ptab::Error> {
    let mut disk = ptab::Options::new().write(true).open("disk.img")?;
    disk.set(TWO)?;
    let saved = disk.json("disk.img")?;
    disk.set(r#"{"partitiontable": {}}"#)?;
    println!("{} sectors written", disk.set(&saved)?);
    Ok(())
}
