//! Mends disk.img, and renames its first partition. Wherever this stops, who reads the primary copy alone finds a table.
fn main() -> Result<(), ptab::Error> {
    let mut disk = ptab::Options::new().write(true).keep_primary(true).open("disk.img")?;
    println!("{} sectors mended", disk.repair()?);
    println!("{} sectors written", disk.edit(&["c:1:archive"])?);
    Ok(())
}
