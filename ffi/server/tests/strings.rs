//! A server of strings, and clients that talk to it.

mod common;

use citrus_map::Index;
use citrus_server::server::{Limits, Server};
use common::{client, expect};
use std::io::{Read, Write};
use std::net::{SocketAddr, TcpStream};
use std::thread;
use std::time::{Duration, Instant};

fn server(pairs: u32, workers: u32) -> SocketAddr {
    let server = Server::bind_strings("127.0.0.1:0", Index::builder(pairs, workers), Limits::default()).unwrap();
    let address = server.address().unwrap();
    thread::spawn(move || server.run());
    address
}

/// A request as clients write it.
fn request(words: &[&[u8]]) -> Vec<u8> {
    let word = |word: &&[u8]| [format!("${}\r\n", word.len()).as_bytes(), *word, b"\r\n"].concat();
    [format!("*{}\r\n", words.len()).into_bytes(), words.iter().flat_map(word).collect()].concat()
}

#[test]
fn clients_see_each_others_strings() {
    let address = server(100, 2);
    let (one, other) = (client(address), client(address));
    let (key, value) = (&b"\0a \xff\r\nkey"[..], &[b"\r\n*1\r\n".to_vec(), vec![0x80; 30_000]].concat()[..]);
    expect(&one, &request(&[b"SET", key, value]), b"+OK\r\n");
    expect(&other, &request(&[b"GET", key]), &request(&[value])[4..]);
    expect(&other, &request(&[b"GET", b"\0a \xff\r\nkez"]), b"$-1\r\n");
    expect(&other, &request(&[b"SCAN", b"0"]), &[b"*2\r\n$1\r\n0\r\n".to_vec(), request(&[key])].concat());
    expect(&one, &request(&[b"DEL", key, b""]), b":1\r\n");
    expect(&other, b"DBSIZE\n", b":0\r\n");
}

#[test]
fn requests_that_come_together_are_answered_in_order() {
    const REQUESTS: u64 = 5_000;
    let stream = client(server(20_000, 1));
    let mut sender = stream.try_clone().unwrap();
    let asked: String = (0..REQUESTS).map(|number| format!("SET key:{number} {number}\nGET key:{}\n", number / 2)).collect();
    let expected: String =
        (0..REQUESTS).map(|number| format!("+OK\r\n${}\r\n{}\r\n", (number / 2).to_string().len(), number / 2)).collect();
    let sending = thread::spawn(move || sender.write_all(asked.as_bytes()).unwrap());
    let mut told = vec![0; expected.len()];
    (&stream).read_exact(&mut told).unwrap();
    assert!(told == expected.as_bytes());
    sending.join().unwrap();
    expect(&stream, b"FLUSHALL\nDBSIZE\n", b"+OK\r\n:0\r\n");
}

fn told(mut stream: &TcpStream, asked: &[u8]) -> String {
    stream.write_all(asked).unwrap();
    let (mut told, mut byte) = (Vec::new(), [0]);
    while !told.ends_with(b"\r\n") {
        stream.read_exact(&mut byte).unwrap();
        told.push(byte[0]);
    }
    String::from_utf8(told).unwrap()
}

/// Nobody asks for them, and the workers take them out.
#[test]
fn keys_that_are_over_go_by_themselves() {
    let stream = client(server(10_000, 2));
    for number in 0..2_000 {
        let stay = if number % 2 == 0 { "PX 50" } else { "EX 1000" };
        expect(&stream, format!("SET key:{number} 1 {stay}\n").as_bytes(), b"+OK\r\n");
    }
    let begin = Instant::now();
    while told(&stream, b"DBSIZE\n") != ":1000\r\n" {
        assert!(begin.elapsed() < Duration::from_secs(20));
        thread::sleep(Duration::from_millis(20));
    }
    expect(&stream, b"EXISTS key:0 key:1\n", b":1\r\n");
}

/// Several clients count one key up, and each its own down.
#[test]
fn counters_of_several_clients_are_added_up() {
    const ROUNDS: i64 = 500;
    let address = server(1_000, 3);
    thread::scope(|scope| {
        for who in 0..6 {
            scope.spawn(move || {
                let stream = client(address);
                for round in 1..=ROUNDS {
                    assert!(told(&stream, b"INCR all\n").starts_with(':'));
                    assert_eq!(told(&stream, format!("DECR own:{who}\n").as_bytes()), format!(":-{round}\r\n"));
                }
            });
        }
    });
    assert_eq!(told(&client(address), b"INCRBY all 0\n"), format!(":{}\r\n", 6 * ROUNDS));
}
