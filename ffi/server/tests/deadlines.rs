//! Keys with deadlines: by a server, and by threads that renew keys while others take out those whose deadline is over.

mod common;

use citrus_map::Index;
use citrus_server::entries::Content;
use citrus_server::store::{Step, Store};
use common::{client, expect, server};
use std::io::{Read, Write};
use std::net::TcpStream;
use std::sync::atomic::{AtomicBool, Ordering::Relaxed};
use std::thread;
use std::time::{Duration, Instant, SystemTime, UNIX_EPOCH};

/// So long threads race.
const RACE: Duration = Duration::from_secs(2);
/// A deadline that no test lives to see, in milliseconds.
const FAR: u64 = 1 << 62;

fn now() -> u64 {
    SystemTime::now().duration_since(UNIX_EPOCH).unwrap().as_millis() as u64
}

fn until(value: u64, deadline: u64) -> Content {
    Content { value, deadline: Some(deadline) }
}

fn stores(count: u32) -> Vec<Store> {
    Store::all(&Index::new(10_000, count).unwrap()).unwrap()
}

/// Does this with the number of the round in a thread of its own for each, again and again until the time is over, and some times at least.
fn race(work: Vec<Box<dyn Fn(u64) + Send>>) {
    const LEAST: u64 = 6;
    let is_over = AtomicBool::new(false);
    thread::scope(|scope| {
        for work in work {
            let is_over = &is_over;
            scope.spawn(move || (0..).take_while(|round| *round < LEAST || !is_over.load(Relaxed)).for_each(work));
        }
        thread::sleep(RACE);
        is_over.store(true, Relaxed);
    });
}

/// Lets a key come to its deadline, and renews it at about that moment with the same value, in one of four ways. From then on it is there.
fn renew(store: &Store, key: u64, round: u64) {
    let deadline = now() + 1;
    store.set(key, until(key, deadline)).unwrap();
    // In one of three rounds no get of its own takes the key out, and the renewal comes some time later: others are about to do it then.
    let (begin, later) = (Instant::now(), Duration::from_micros(round * 97 % 1_500));
    while now() < deadline || round % 3 == 0 && begin.elapsed() < later + Duration::from_millis(1) {
        assert!(round % 3 == 0 || store.get(key).is_ok());
    }
    if round % 3 == 1 {
        assert_eq!(store.get(key), Ok(None), "key {key} is told behind its deadline, round {round}");
    }
    let is_there = match round % 4 {
        0 => store.set(key, until(key, FAR)).map(|_| true),
        1 => store.set(key, Content::staying(key)).map(|_| true),
        2 => store.set_if_absent(key, key),
        _ => store.change(key, |found| match found {
            Some(content) => (Step::Put(Content { deadline: Some(FAR), ..content }), true),
            None => (Step::Leave, false),
        }),
    };
    let is_there = is_there.unwrap();
    // Others come to the old deadline meanwhile.
    for turn in 0..20 {
        let is_over = now() >= deadline;
        let told = store.get(key).unwrap();
        assert!(!is_there || told == Some(key), "key {key} was renewed and is lost, round {round}, turn {turn}");
        assert!(is_there || !is_over || told.is_none(), "key {key} is told behind its deadline, round {round}, turn {turn}");
        thread::yield_now();
    }
}

#[test]
fn no_renewed_key_is_lost_and_no_expired_one_is_told() {
    const OWNERS: u64 = 4;
    let mut stores = stores(OWNERS as u32 + 3);
    let (sweeper, reader, counter) = (stores.pop().unwrap(), stores.pop().unwrap(), stores.pop().unwrap());
    let mut work: Vec<Box<dyn Fn(u64) + Send>> = Vec::new();
    for (owner, store) in (0..OWNERS).zip(stores) {
        work.push(Box::new(move |round| renew(&store, owner + OWNERS * (round % 5), round)));
    }
    work.push(Box::new(move |_| {
        sweeper.expire_some().unwrap();
    }));
    // The others are left to the sweep, which looks at them some time before it takes them out.
    let keys: Vec<u64> = (0..5 * OWNERS).filter(|key| key % OWNERS == 0).collect();
    work.push(Box::new(move |_| {
        reader.get_many(&keys).unwrap();
    }));
    race(work);
    assert!(counter.deadlines().1 > 0, "no key came to its deadline");
}

#[test]
fn pages_tell_each_key_that_is_renewed_meanwhile() {
    const KEYS: u64 = 200;
    let mut stores = stores(3);
    for key in 0..KEYS {
        stores[0].set(key, until(key, FAR)).unwrap();
    }
    let reader = stores.pop().unwrap();
    let mut work: Vec<Box<dyn Fn(u64) + Send>> = Vec::new();
    for store in stores {
        work.push(Box::new(move |round| {
            store.set(round % KEYS, until(round % KEYS + KEYS * (round % 999), FAR)).unwrap();
        }));
    }
    work.push(Box::new(move |_| {
        let page = reader.page(0, u64::MAX, 1_000).unwrap();
        assert_eq!(page.pairs.len() as u64, KEYS);
        assert!(page.pairs.iter().zip(0..).all(|((key, value), at)| *key == at && value % KEYS == at), "{:?}", page.pairs);
    }));
    race(work);
}

#[test]
fn a_key_is_there_up_to_its_deadline() {
    let store = stores(1).remove(0);
    for round in 0..50 {
        let deadline = now() + 5;
        store.set(7, until(round, deadline)).unwrap();
        loop {
            let begin = now();
            let told = store.get(7).unwrap();
            let end = now();
            assert!(told.is_none() || begin < deadline, "it is told behind its deadline");
            assert!(told == Some(round) || end >= deadline, "it went before its deadline");
            if told.is_none() {
                break;
            }
        }
    }
    assert_eq!((store.size(), store.deadlines()), (0, (0, 50)));
}

/// The number that a server says to a command.
fn number(mut stream: &TcpStream, asked: &str) -> i64 {
    stream.write_all(format!("{asked}\n").as_bytes()).unwrap();
    let mut told = Vec::new();
    while !told.ends_with(b"\r\n") {
        let mut byte = [0];
        stream.read_exact(&mut byte).unwrap();
        told.push(byte[0]);
    }
    String::from_utf8(told).unwrap().trim_start_matches(':').trim_end().parse().unwrap()
}

#[test]
fn keys_go_though_nobody_asks_for_them() {
    // More than a worker looks at at once: it looks for some when a connection comes, and so would answer a part of them yet.
    const KEYS: u64 = 40_000;
    const BATCH: usize = 4_000;
    let address = server(50_000, 2);
    let all_go = |_: &i32| {
        let stream = client(address);
        let asked: Vec<String> = (0..KEYS).map(|key| format!("SET {key} 1 PX 300\n")).collect();
        for batch in asked.chunks(BATCH) {
            (&stream).write_all(batch.concat().as_bytes()).unwrap();
            expect(&stream, b"", &b"+OK\r\n".repeat(BATCH));
        }
        expect(&stream, b"SET 50000 1 PX 100000\nSET 50001 1\n", b"+OK\r\n+OK\r\n");
        // No connection is there while they go.
        drop(stream);
        thread::sleep(Duration::from_millis(1_000));
        number(&client(address), "DBSIZE") == 2
    };
    assert!((0..10).any(|round| all_go(&round)), "they stay");
    let told = b":2\r\n$44\r\n# Keyspace\r\ndb0:keys=2,expires=1,avg_ttl=0\r\n\r\n";
    expect(&client(address), b"EXISTS 50000 50001\nINFO keyspace\n", told);
}

#[test]
fn what_clients_say_first_is_answered() {
    let stream = client(server(100, 1));
    expect(&stream, b"CLIENT SETINFO LIB-NAME redis-py\nCLIENT SETNAME me\nSELECT 0\n", b"+OK\r\n+OK\r\n+OK\r\n");
    expect(&stream, b"HELLO 3\nGET 5\n", b"%7\r\n$6\r\nserver\r\n$13\r\ncitrus_server\r\n$7\r\nversion\r\n");
    let mut told = [0; 256];
    let mut text = Vec::new();
    while !text.ends_with(b"*0\r\n_\r\n") {
        let count = (&stream).read(&mut told).unwrap();
        text.extend_from_slice(&told[..count]);
    }
    expect(&stream, b"RESET\nCLIENT GETNAME\nSELECT 1\n", b"+RESET\r\n$-1\r\n-ERR DB index is out of range\r\n");
}

#[test]
fn nothing_of_a_transaction_is_done() {
    let stream = client(server(100, 1));
    expect(
        &stream,
        b"SET 5 50\nMULTI\nINCR 5\nDEL 5\nFLUSHALL\nNOTHING\n",
        b"+OK\r\n+OK\r\n+QUEUED\r\n+QUEUED\r\n+QUEUED\r\n-ERR unknown command",
    );
    expect(&stream, b"EXEC\n", b" 'NOTHING', with args beginning with: \r\n-EXECABORT Transaction discarded");
    let mut byte = [0];
    while byte != *b"\n" {
        (&stream).read_exact(&mut byte).unwrap();
    }
    expect(&stream, b"GET 5\nMULTI\nQUIT\n", b"$2\r\n50\r\n+OK\r\n+OK\r\n");
}
