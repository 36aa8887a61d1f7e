use citrus_map::{Error, Map};

fn main() -> Result<(), Error> {
    let names = Map::new(100_000, 2)?;
    let mut mine = names.handle()?;
    mine.insert(5, String::from("five"))?;
    if let Some(name) = mine.get(5)? {
        println!("5 is {}", *name); // the string stays until `name` ends
    }
    println!("{:?} is gone", mine.remove(5)?); // it comes when nobody reads it any more
    Ok(())
}
