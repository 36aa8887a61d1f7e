//! What the server tells of itself: `INFO`, in Redis's form.

use crate::census::Census;
use crate::pairs::Facts;
use crate::replies::Replies;
use std::fmt::Write;
use std::fs;

/// Clients look at this to know what they may ask. Commands that are here answer as this version of Redis does.
const LIKE_REDIS: &str = "7.0.0";
const SECONDS_OF_A_DAY: u64 = 86_400;
const PAGE: u64 = 4_096;

/// A section: its name, and what writes its lines.
type Section = (&'static str, fn(&mut String, &Facts, &Census));

const SECTIONS: [Section; 6] =
    [("Server", server), ("Clients", clients), ("Memory", memory), ("Stats", stats), ("Index", index), ("Keyspace", keyspace)];

/// Adds one reply with the sections of these names, or with all where none is named.
pub(crate) fn tell(names: &[&[u8]], facts: &Facts, census: &Census, replies: &mut Replies) {
    let is_all = |name: &&[u8]| [&b"all"[..], b"default", b"everything"].iter().any(|all| name.eq_ignore_ascii_case(all));
    let is_asked = |title: &str| names.is_empty() || names.iter().any(|name| is_all(name) || name.eq_ignore_ascii_case(title.as_bytes()));
    let mut text = String::new();
    for (title, lines) in SECTIONS.iter().filter(|(title, _)| is_asked(title)) {
        if !text.is_empty() {
            text.push_str("\r\n");
        }
        line(&mut text, format_args!("# {title}"));
        lines(&mut text, facts, census);
    }
    replies.text(&text);
}

fn line(text: &mut String, words: std::fmt::Arguments) {
    // A string takes whatever is written to it.
    let _ = text.write_fmt(words);
    text.push_str("\r\n");
}

fn server(text: &mut String, _: &Facts, census: &Census) {
    let age = census.age().as_secs();
    line(text, format_args!("redis_version:{LIKE_REDIS}"));
    line(text, format_args!("citrus_version:{}", env!("CARGO_PKG_VERSION")));
    line(text, format_args!("redis_mode:standalone"));
    line(text, format_args!("process_id:{}", std::process::id()));
    line(text, format_args!("tcp_port:{}", census.port));
    line(text, format_args!("uptime_in_seconds:{age}"));
    line(text, format_args!("uptime_in_days:{}", age / SECONDS_OF_A_DAY));
}

fn clients(text: &mut String, _: &Facts, census: &Census) {
    line(text, format_args!("connected_clients:{}", census.connections()));
    line(text, format_args!("maxclients:{}", census.most));
}

/// The memory of the process that is in the machine's, as the system tells it.
fn memory(text: &mut String, _: &Facts, _: &Census) {
    let resident = fs::read_to_string("/proc/self/statm").ok().and_then(|told| told.split_whitespace().nth(1)?.parse::<u64>().ok());
    if let Some(pages) = resident {
        line(text, format_args!("used_memory:{}", pages * PAGE));
        line(text, format_args!("used_memory_rss:{}", pages * PAGE));
    }
}

fn stats(text: &mut String, facts: &Facts, census: &Census) {
    line(text, format_args!("total_connections_received:{}", census.received()));
    line(text, format_args!("expired_keys:{}", facts.deadlines.1));
}

/// What the library tells by the handle of the worker that answers.
fn index(text: &mut String, facts: &Facts, _: &Census) {
    let told = facts.stats;
    line(text, format_args!("slots:{}", told.slots));
    line(text, format_args!("free_slots:{}", told.free));
    line(text, format_args!("worker:{}", facts.worker));
    line(text, format_args!("worker_waits:{}", told.waits));
    line(text, format_args!("worker_tickets:{}", told.tickets));
    line(text, format_args!("worker_kept_slots:{}", told.kept));
    line(text, format_args!("worker_room:{}", told.room));
}

/// Redis has no line for an empty database, and neither has this.
fn keyspace(text: &mut String, facts: &Facts, _: &Census) {
    let (size, (deadlines, _)) = (facts.size, facts.deadlines);
    if size > 0 {
        line(text, format_args!("db0:keys={size},expires={deadlines},avg_ttl=0"));
    }
}

#[cfg(test)]
mod tests {
    use super::*;
    use crate::entries::Content;
    use crate::pairs::Keeper;
    use crate::store::Store;
    use citrus_map::Index;

    fn told(names: &[&str], store: &Store) -> String {
        let census = Census::new(1, 6_380, 10_000);
        census.came(0);
        census.next_number();
        let mut replies = Replies::default();
        let names: Vec<&[u8]> = names.iter().map(|name| name.as_bytes()).collect();
        tell(&names, &store.facts(), &census, &mut replies);
        String::from_utf8_lossy(replies.unsent()).into_owned()
    }

    fn store() -> Store {
        let index = Index::new(10, 1).expect("there is memory");
        Store::all(&index).expect("an empty index is counted").remove(0)
    }

    #[test]
    fn sections_are_told_by_name() {
        let store = store();
        assert_eq!(told(&["nothing"], &store), "$0\r\n\r\n");
        assert_eq!(told(&["keyspace"], &store), "$12\r\n# Keyspace\r\n\r\n");
        store.set(5, Content { value: 50, deadline: Some(u64::MAX >> 1) }).expect("it fits");
        store.set(6, Content::staying(60)).expect("it fits");
        assert_eq!(told(&["KEYSPACE"], &store), "$44\r\n# Keyspace\r\ndb0:keys=2,expires=1,avg_ttl=0\r\n\r\n");
        assert_eq!(told(&["clients"], &store), "$50\r\n# Clients\r\nconnected_clients:1\r\nmaxclients:10000\r\n\r\n");
        let both = told(&["clients", "stats"], &store);
        assert!(both.contains("maxclients:10000\r\n\r\n# Stats\r\ntotal_connections_received:1\r\nexpired_keys:0\r\n"), "{both}");
    }

    #[test]
    fn all_sections_are_told_where_none_is_named() {
        let store = store();
        for names in [&[][..], &["all"], &["Everything", "clients"]] {
            let told = told(names, &store);
            assert!(SECTIONS.iter().all(|(title, _)| told.contains(&format!("# {title}\r\n"))), "{told}");
            assert!(["redis_version:7.", "process_id:", "used_memory:", "slots:"].iter().all(|name| told.contains(name)), "{told}");
        }
    }
}
