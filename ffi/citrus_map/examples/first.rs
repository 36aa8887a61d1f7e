use citrus_map::Index;

fn main() -> Result<(), citrus_map::Error> {
    let index = Index::new(100_000, 4)?;
    let handle = index.handle()?;
    handle.insert(5, 50)?;
    println!("5 has {:?}", handle.get(5)?);
    Ok(())
}
