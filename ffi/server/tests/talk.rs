//! A server on a port of the system's choice, and clients that talk to it.

mod common;

use citrus_map::Index;
use citrus_server::server::{Limits, Server};
use common::{client, expect, rest, server, server_with};
use std::io::{Read, Write};
use std::net::{Shutdown, TcpStream};
use std::process::Command;
use std::thread;
use std::time::{Duration, Instant};

#[test]
fn a_session_is_answered() {
    let stream = client(server(100, 2));
    expect(&stream, b"PING\r\n", b"+PONG\r\n");
    expect(&stream, b"*3\r\n$3\r\nSET\r\n$1\r\n5\r\n$2\r\n50\r\n", b"+OK\r\n");
    expect(&stream, b"*2\r\n$3\r\nGET\r\n$1\r\n5\r\n", b"$2\r\n50\r\n");
    expect(&stream, b"RANGE 0 9 LIMIT 5\n", b"*2\r\n$-1\r\n*2\r\n$1\r\n5\r\n$2\r\n50\r\n");
    expect(&stream, b"QUIT\r\n", b"+OK\r\n");
    assert_eq!(rest(&stream), "");
}

#[test]
fn clients_see_each_others_pairs() {
    let address = server(100, 2);
    let (one, other) = (client(address), client(address));
    expect(&one, b"SET 5 50\n", b"+OK\r\n");
    expect(&other, b"GET 5\n", b"$2\r\n50\r\n");
    expect(&other, b"DEL 5\n", b":1\r\n");
    expect(&one, b"GET 5\n", b"$-1\r\n");
}

#[test]
fn requests_that_come_together_are_answered_in_order() {
    const REQUESTS: u64 = 20_000;
    let stream = client(server(20_000, 1));
    let mut sender = stream.try_clone().unwrap();
    let asked: String = (0..REQUESTS).map(|key| format!("SET {} {key}\nGET {0}\n", key.reverse_bits() >> 44)).collect();
    let expected: String = (0..REQUESTS).map(|key| format!("+OK\r\n${}\r\n{key}\r\n", key.to_string().len())).collect();
    let sending = thread::spawn(move || {
        for piece in asked.as_bytes().chunks(1_013) {
            sender.write_all(piece).unwrap();
        }
        sender.shutdown(Shutdown::Write).unwrap();
    });
    assert!(rest(&stream) == expected);
    sending.join().unwrap();
}

#[test]
fn a_bad_request_is_told_and_the_session_goes_on() {
    let stream = client(server(1, 1));
    expect(&stream, b"NOTHING\n", b"-ERR unknown command 'NOTHING', with args beginning with: \r\n");
    expect(&stream, b"SET 5 x\n", b"-ERR value is not an integer or out of range\r\n");
    expect(&stream, b"SET 5 50\nGET 5\n", b"+OK\r\n$2\r\n50\r\n");
}

#[test]
fn two_spellings_are_never_one_key() {
    const ZEROS: &[u8] = b"-ERR key is not in its one spelling, which has no zeros before its digits\r\n";
    let stream = client(server(10, 1));
    expect(&stream, b"SET 2 20\n", b"+OK\r\n");
    expect(&stream, b"*2\r\n$3\r\nGET\r\n$12\r\n000000000002\r\n", ZEROS);
    expect(&stream, b"*3\r\n$3\r\nSET\r\n$12\r\n000000000002\r\n$2\r\n30\r\n", ZEROS);
    expect(&stream, b"MGET 2 02\n", ZEROS);
    expect(&stream, b"GET 2\nDBSIZE\n", b"$2\r\n20\r\n:1\r\n");
}

#[test]
fn bytes_that_are_no_request_end_the_session_behind_all_replies() {
    let stream = client(server(10, 1));
    (&stream).write_all(&[b"SET 5 50\nGET 5\n*1\r\n:5\r\n".to_vec(), vec![b'x'; 1 << 20]].concat()).unwrap();
    assert_eq!(rest(&stream), "+OK\r\n$2\r\n50\r\n-ERR Protocol error: expected '$', got ':'\r\n");
}

#[test]
fn more_connections_than_are_allowed_are_told_so() {
    let address = server_with(10, 2, Limits { connections: 2, ..Limits::default() });
    let (one, other) = (client(address), client(address));
    expect(&one, b"PING\n", b"+PONG\r\n");
    expect(&other, b"PING\n", b"+PONG\r\n");
    assert_eq!(rest(&client(address)), "-ERR max number of clients reached\r\n");
    expect(&one, b"PING\n", b"+PONG\r\n");
    drop(one);
    let is_served = |_: &i32| {
        thread::sleep(Duration::from_millis(10));
        let next = client(address);
        (&next).write_all(b"PING\n").unwrap();
        next.shutdown(Shutdown::Write).unwrap();
        let mut told = Vec::new();
        (&next).read_to_end(&mut told).is_ok() && told == b"+PONG\r\n"
    };
    assert!((0..1_000).any(|round| is_served(&round)));
}

#[test]
fn connections_that_send_nothing_whole_lock_nobody_out() {
    let address = server(10, 4);
    let begun: Vec<TcpStream> = (0..200).map(|_| client(address)).collect();
    for (number, mut stream) in begun.iter().enumerate() {
        stream.write_all([&b"*3\r\n$3\r\nSET\r\n$1\r\n5\r\n$2\r\n5"[..], b"PING", b"", b"\r\n"][number % 4]).unwrap();
    }
    let stream = client(address);
    expect(&stream, b"SET 5 50\nGET 5\n", b"+OK\r\n$2\r\n50\r\n");
    // They go on where they stopped.
    expect(&begun[0], b"1\r\n", b"+OK\r\n");
    expect(&begun[1], b"\r\n", b"+PONG\r\n");
    expect(&stream, b"GET 5\n", b"$2\r\n51\r\n");
}

#[test]
fn clients_that_read_no_reply_lock_nobody_out() {
    // One worker has them all.
    let address = server(10_000, 1);
    let stream = client(address);
    for key in 0..10_000u64 {
        (&stream).write_all(format!("SET {key} {key}\n").as_bytes()).unwrap();
    }
    expect(&stream, b"", &b"+OK\r\n".repeat(10_000));
    // They are more than the system keeps on the way.
    let asked = b"RANGE - + LIMIT 10000\n".repeat(80);
    let silent: Vec<TcpStream> = (0..4).map(|_| client(address)).collect();
    for mut stream in &silent {
        stream.write_all(&asked).unwrap();
    }
    thread::sleep(Duration::from_millis(300));
    for _ in 0..100 {
        expect(&stream, b"GET 7\n", b"$1\r\n7\r\n");
    }
    // Whoever reads after all gets every reply.
    let mut late = &silent[0];
    late.shutdown(Shutdown::Write).unwrap();
    let mut told = Vec::new();
    late.read_to_end(&mut told).unwrap();
    let pairs = (0..10_000u64).map(|key| format!("${0}\r\n{key}\r\n", key.to_string().len()).repeat(2));
    let reply = format!("*2\r\n$-1\r\n*20000\r\n{}", pairs.collect::<String>());
    assert!(told == reply.repeat(80).into_bytes());
}

#[test]
fn nothing_more_is_read_of_a_client_that_reads_nothing() {
    const MOST: usize = 64 << 20;
    let address = server(10, 1);
    let stream = client(address);
    stream.set_write_timeout(Some(Duration::from_millis(500))).unwrap();
    let asked = [b"*2\r\n$4\r\nECHO\r\n$60000\r\n".to_vec(), vec![b'x'; 60_000], b"\r\n".to_vec()].concat();
    let mut sent = 0;
    while sent < MOST {
        match (&stream).write(&asked[sent % asked.len()..]) {
            Ok(count) => sent += count,
            Err(_) => break,
        }
    }
    assert!(sent < MOST, "it takes whatever comes");
    expect(&client(address), b"PING\n", b"+PONG\r\n");
    let reply = [b"$60000\r\n".to_vec(), vec![b'x'; 60_000], b"\r\n".to_vec()].concat();
    for _ in 0..sent / asked.len() {
        expect(&stream, b"", &reply);
    }
}

#[test]
fn a_crowd_that_is_idle_costs_nobody() {
    // Both ends of a connection are files of this process.
    let most = citrus_server::files::allowed().map_or(2_000, |files| 2_000.min(files.saturating_sub(400) / 2));
    let address = server(10, 3);
    let crowd: Vec<TcpStream> = (0..most).map(|_| client(address)).collect();
    for stream in &crowd {
        expect(stream, b"INCR 5\n", b":");
    }
    expect(&client(address), b"GET 5\n", format!("${}\r\n{most}\r\n", most.to_string().len()).as_bytes());
}

#[test]
fn a_request_may_come_byte_by_byte() {
    let address = server(10, 1);
    let (slow, other) = (client(address), client(address));
    expect(&other, b"SET 5 50\n", b"+OK\r\n");
    for byte in b"*3\r\n$4\r\nMGET\r\n$1\r\n5\r\n$1\r\n6\r\n" {
        (&slow).write_all(&[*byte]).unwrap();
        expect(&other, b"PING\n", b"+PONG\r\n");
    }
    expect(&slow, b"", b"*2\r\n$2\r\n50\r\n$-1\r\n");
}

#[test]
fn the_last_replies_come_before_the_end() {
    let stream = client(server(10, 1));
    let reply = [b"$60000\r\n".to_vec(), vec![b'x'; 60_000], b"\r\n".to_vec()].concat();
    let mut sender = stream.try_clone().unwrap();
    let sending = thread::spawn(move || {
        let asked = [b"*2\r\n$4\r\nECHO\r\n$60000\r\n".to_vec(), vec![b'x'; 60_000], b"\r\n".to_vec()].concat();
        sender.write_all(&[asked.repeat(100), b"QUIT\r\nSET 5 50\r\n".to_vec()].concat()).unwrap();
    });
    assert!(rest(&stream).into_bytes() == [reply.repeat(100), b"+OK\r\n".to_vec()].concat());
    sending.join().unwrap();
}

/// Whether the server ends the connection, and when.
fn time_to_its_end(stream: &TcpStream) -> Duration {
    let begin = Instant::now();
    assert_eq!(rest(stream), "");
    begin.elapsed()
}

#[test]
fn a_quiet_connection_is_ended() {
    let idle = Duration::from_secs(1);
    let address = server_with(10, 2, Limits { idle: Some(idle), ..Limits::default() });
    assert!(time_to_its_end(&client(address)) >= idle / 2);
    let stream = client(address);
    for _ in 0..5 {
        expect(&stream, b"PING\n", b"+PONG\r\n");
        thread::sleep(idle / 4);
    }
    assert!(time_to_its_end(&stream) >= idle / 2);
}

#[test]
fn a_request_that_comes_by_drops_is_ended() {
    let idle = Duration::from_millis(400);
    let address = server_with(10, 2, Limits { idle: Some(idle), ..Limits::default() });
    let stream = client(address);
    let begin = Instant::now();
    let mut sender = &stream;
    while sender.write_all(b"x").is_ok() {
        thread::sleep(idle / 8);
        assert!(begin.elapsed() < 50 * idle, "it goes on");
    }
    assert!(begin.elapsed() >= idle / 2);
}

#[test]
fn no_limit_of_quiet_is_none() {
    let address = server_with(10, 2, Limits { idle: None, ..Limits::default() });
    let stream = client(address);
    thread::sleep(Duration::from_millis(300));
    expect(&stream, b"PING\n", b"+PONG\r\n");
}

/// What comes until the server ends the connection, by a word or by a reset.
fn until_its_end(mut stream: &TcpStream) -> Vec<u8> {
    let mut told = Vec::new();
    let _ = stream.read_to_end(&mut told);
    told
}

#[test]
fn what_a_web_page_sends_is_no_command() {
    let address = server(10, 2);
    let asked = [
        "POST / HTTP/1.1\r\nHost: 127.0.0.1:6380\r\nContent-Length: 12\r\n\r\nSET 77 1\r\n\r\n",
        "GET / HTTP/1.1\r\nHost: 127.0.0.1:6380\r\n\r\nSET 77 1\r\n",
        "OPTIONS /x HTTP/1.1\r\nhost: a\r\n\r\nSET 77 1\r\n",
        "post\r\nSET 77 1\r\n",
    ];
    for text in asked {
        let stream = client(address);
        let _ = (&stream).write_all(text.as_bytes());
        let told = until_its_end(&stream);
        assert!(!told.windows(3).any(|three| three == b"+OK"), "{text}");
    }
    let stream = client(address);
    expect(&stream, b"SET 5 50\n", b"+OK\r\n");
    (&stream).write_all(b"GET 5\nPOST / HTTP/1.1\nSET 77 1\n").unwrap();
    assert!(b"$2\r\n50\r\n".starts_with(&until_its_end(&stream)));
    expect(&client(address), b"EXISTS 77\n", b":0\r\n");
}

#[test]
fn clients_that_work_at_once_lose_nothing() {
    let address = server(8_000, 3);
    thread::scope(|scope| {
        for who in 0..8 {
            scope.spawn(move || {
                let stream = client(address);
                for key in (who..8_000u64).step_by(8) {
                    let key = key * 7_919 % 8_009;
                    expect(&stream, format!("SETNX {key} {who}\n").as_bytes(), b":1\r\n");
                    expect(&stream, format!("EXISTS {key}\n").as_bytes(), b":1\r\n");
                }
            });
        }
    });
    let stream = client(address);
    (&stream).write_all(b"RANGE - + LIMIT 8001\n").unwrap();
    expect(&stream, b"", b"*2\r\n$-1\r\n*16000\r\n");
}

#[test]
fn counters_lose_no_step_of_any_client() {
    let address = server(10, 4);
    thread::scope(|scope| {
        for step in 1..=8 {
            scope.spawn(move || {
                let stream = client(address);
                (&stream).write_all(format!("INCRBY 7 {step}\nDECRBY 7 -1\n").repeat(500).as_bytes()).unwrap();
                stream.shutdown(Shutdown::Write).unwrap();
                assert_eq!(rest(&stream).lines().filter(|line| line.starts_with(':')).count(), 1_000);
            });
        }
    });
    // 36 for the eight steps, and 1 for each client.
    expect(&client(address), b"GET 7\nDBSIZE\n", b"$5\r\n22000\r\n:1\r\n");
}

#[test]
fn all_pairs_go_while_others_are_served() {
    let address = server(20_000, 1);
    let (one, other) = (client(address), client(address));
    let asked: String = (0..20_000u64).map(|key| format!("SET {} 1\n", key.reverse_bits() >> 32)).collect();
    let mut sender = one.try_clone().unwrap();
    let sending = thread::spawn(move || sender.write_all(asked.as_bytes()).unwrap());
    expect(&one, b"", &b"+OK\r\n".repeat(20_000));
    sending.join().unwrap();
    expect(&other, b"DBSIZE\n", b":20000\r\n");
    (&one).write_all(b"FLUSHALL\nDBSIZE\n").unwrap();
    for _ in 0..20 {
        expect(&other, b"PING\n", b"+PONG\r\n");
    }
    expect(&one, b"", b"+OK\r\n:0\r\n");
    expect(&other, b"RANGE - +\n", b"*2\r\n$-1\r\n*0\r\n");
}

#[test]
fn an_index_without_a_handle_has_no_server() {
    let index = Index::new(10, 1).unwrap();
    let _taken = index.handle().unwrap();
    assert!(Server::bind("127.0.0.1:0", index, Limits::default()).is_err());
}

#[test]
fn options_out_of_range_start_no_server() {
    let refused = [
        (["--keep", "15"], "--keep is 0, or 16 or more"),
        (["--keep", "1073741824"], "a handle keeps back 16 slots or more, and an index has 1,073,741,824 at most"),
        (["--pairs", "0"], "--pairs is from 1 to 1073672192"),
    ];
    for (words, cause) in refused {
        let told = Command::new(env!("CARGO_BIN_EXE_citrus_server")).args(["--port", "0"]).args(words).output().unwrap();
        assert_eq!(told.status.code(), Some(1), "{words:?}");
        assert_eq!(String::from_utf8_lossy(&told.stderr), format!("citrus_server: {cause}\n"));
    }
}

#[test]
fn the_server_stands_whatever_comes() {
    const PARTS: &[u8] =
        b"*3\r\n|$3\r\nSET\r\n|$1\r\n5\r\n|*1\r\n|$9\r\n|MGET 1 2 x\n|\"|\n|INCRBY 5 -\n|*-5\r\n|\0\xff\n|REVRANGE 9 1 LIMIT\n|$";
    let parts: Vec<&[u8]> = PARTS.split(|byte| *byte == b'|').collect();
    let address = server(10, 1);
    let mut drawn = 1u64;
    for _ in 0..300 {
        let mut stream = client(address);
        for _ in 0..20 {
            drawn = drawn.wrapping_mul(6_364_136_223_846_793_005).wrapping_add(1_442_695_040_888_963_407);
            // The server may have ended it by then.
            let _ = stream.write_all(parts[(drawn >> 33) as usize % parts.len()]);
        }
    }
    expect(&client(address), b"PING\n", b"+PONG\r\n");
}
