//! What DashMap has, for README's table: each line was tried here.

use dashmap::DashMap;

fn tried(what: &str, is_so: bool) {
    println!("{}: {what}", if is_so { "so" } else { "NOT SO" });
    assert!(is_so);
}

fn main() {
    let map: DashMap<String, u32> = (0..10_000).map(|i| (i.to_string(), i)).collect();
    tried("keys of any type, and it grows", map.len() == 10_000);
    let keys: Vec<String> = map.iter().map(|entry| entry.key().clone()).collect();
    tried("a walk is in the order of hashes, so there is no range of keys", keys.windows(2).any(|pair| pair[0] > pair[1]));

    let writing = map.get_mut("5000");
    tried("a lookup waits for whoever writes in its shard", map.try_get("5000").is_locked());
    drop(writing);
    let reading = map.get("5000");
    tried("an update waits for whoever reads in its shard", map.try_get_mut("5000").is_locked());
    drop(reading);
    tried("remove", map.remove("5000").is_some() && map.get("5000").is_none());
}
