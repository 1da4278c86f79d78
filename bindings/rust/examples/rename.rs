//! Lists the partitions of disk.img and renames the first one.
fn main() -> Result<(), Box<dyn std::error::Error>> {
    let mut disk = ptab::Options::new().write(true).open("disk.img")?;
    for partition in disk.table()?.partitions {
        println!("{} {}", partition.path(), partition.name);
    }
    disk.edit(&["c:1:archive"])?;
    println!("done");
    Ok(())
}
