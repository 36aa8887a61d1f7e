use citrus_map::{Error, Prefix, StringMap};

fn main() -> Result<(), Error> {
    let ages = StringMap::new(200_000, 2)?;
    let mut mine = ages.handle()?;
    mine.insert("user:7", 70)?;
    if let Some(age) = mine.get("user:7")? {
        println!("{}", *age); // it stays until `age` ends
    }
    mine.for_each(Prefix("user:"), |user, age| println!("{} is {age}", String::from_utf8_lossy(user)))?;
    println!("{:?} is gone", mine.remove("user:7")?);
    Ok(())
}
