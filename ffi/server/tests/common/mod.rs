//! A server on a port of the system's choice, and clients that talk to it.

// Each file of tests is a program of its own, and takes what it needs.
#![allow(dead_code)]

use citrus_map::Index;
use citrus_server::server::{Limits, Server};
use std::io::{Read, Write};
use std::net::{SocketAddr, TcpStream};
use std::thread;
use std::time::Duration;

pub fn server(pairs: u32, handles: u32) -> SocketAddr {
    server_with(pairs, handles, Limits::default())
}

pub fn server_with(pairs: u32, handles: u32, limits: Limits) -> SocketAddr {
    let index = Index::new(pairs, handles).unwrap();
    let server = Server::bind("127.0.0.1:0", index, limits).unwrap();
    let address = server.address().unwrap();
    thread::spawn(move || server.run());
    address
}

pub fn client(address: SocketAddr) -> TcpStream {
    let stream = TcpStream::connect(address).unwrap();
    stream.set_read_timeout(Some(Duration::from_secs(20))).unwrap();
    stream
}

/// Asks, and reads a reply as long as the expected one.
pub fn expect(mut stream: &TcpStream, asked: &[u8], expected: &[u8]) {
    stream.write_all(asked).unwrap();
    let mut told = vec![0; expected.len()];
    stream.read_exact(&mut told).unwrap();
    assert_eq!(String::from_utf8_lossy(&told), String::from_utf8_lossy(expected));
}

/// All that comes until the server ends the connection.
pub fn rest(mut stream: &TcpStream) -> String {
    let mut told = String::new();
    stream.read_to_string(&mut told).unwrap();
    told
}
