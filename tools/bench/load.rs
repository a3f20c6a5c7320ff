//! Clients that ask again once they have their reply, and a server that answers each message with as many bytes: what tools/bench/load
//! measures a daemon with. Plain Rust, for the system's compiler.
//!
//! usage: load echo PORT REPLY              serves messages behind their sizes; each reply has so many bytes
//!        load ask ADDR FILE CLIENTS SECONDS
//!
//! FILE has messages, each behind its size in four bytes; client K asks those of number K, K + CLIENTS and so on, in turn. Printed
//! are the number of replies, and the median and the 99th percentile of the times to them, in microseconds.
use std::io::{Read, Write};
use std::net::{TcpListener, TcpStream};
use std::sync::{Arc, Barrier};
use std::time::{Duration, Instant};
use std::{env, fs, thread};

/// A message or a reply, with its size, into the buffer; none at the end.
fn take(stream: &mut TcpStream, buffer: &mut Vec<u8>) -> Option<usize> {
    let (mut have, mut need) = (0, 4);
    loop {
        if have >= 4 {
            need = 4 + u32::from_be_bytes([buffer[0], buffer[1], buffer[2], buffer[3]]) as usize;
            if buffer.len() < need {
                buffer.resize(need, 0);
            }
        }
        if have >= need && have >= 4 {
            return Some(need);
        }
        match stream.read(&mut buffer[have..]) {
            Ok(count) if count > 0 => have += count,
            _ => return None,
        }
    }
}

fn echo(port: &str, reply: usize) {
    let listener = TcpListener::bind(format!("127.0.0.1:{port}")).expect("an address");
    println!("listening");
    for stream in listener.incoming() {
        let mut stream = stream.expect("a connection");
        let mut answer = (reply as u32).to_be_bytes().to_vec();
        answer.resize(4 + reply, 0);
        thread::spawn(move || {
            let _ = stream.set_nodelay(true);
            let mut buffer = vec![0; 65_536];
            while take(&mut stream, &mut buffer).is_some() && stream.write_all(&answer).is_ok() {}
        });
    }
}

fn ask_all(address: &str, messages: Vec<Vec<u8>>, ready: &Barrier, seconds: u64) -> Vec<u32> {
    let mut stream = TcpStream::connect(address).expect("a server");
    let _ = stream.set_nodelay(true);
    let (mut buffer, mut times) = (vec![0; 65_536], Vec::new());
    ready.wait();
    let end = Instant::now() + Duration::from_secs(seconds);
    for message in messages.iter().cycle() {
        let before = Instant::now();
        if before >= end {
            break;
        }
        stream.write_all(message).expect("a write");
        take(&mut stream, &mut buffer).expect("a reply");
        times.push(before.elapsed().as_nanos().min(u32::MAX as u128) as u32);
    }
    times
}

fn ask(address: &str, path: &str, clients: usize, seconds: u64) {
    let bytes = fs::read(path).expect("messages");
    let (mut lists, mut at, mut number) = (vec![Vec::new(); clients], 0, 0);
    while at + 4 <= bytes.len() {
        let size = 4 + u32::from_be_bytes([bytes[at], bytes[at + 1], bytes[at + 2], bytes[at + 3]]) as usize;
        lists[number % clients].push(bytes[at..at + size].to_vec());
        at += size;
        number += 1;
    }
    let ready = Arc::new(Barrier::new(clients));
    let threads: Vec<_> = lists
        .into_iter()
        .map(|messages| {
            let (address, ready) = (address.to_string(), ready.clone());
            thread::spawn(move || ask_all(&address, messages, &ready, seconds))
        })
        .collect();
    let mut times: Vec<u32> = threads.into_iter().flat_map(|one| one.join().expect("a client")).collect();
    times.sort_unstable();
    let at = |share: f64| times[(times.len() as f64 * share) as usize] as f64 / 1000.0;
    println!("{} {:.0} {:.0}", times.len(), at(0.5), at(0.99));
}

fn main() {
    let words: Vec<String> = env::args().skip(1).collect();
    let number = |at: usize| words[at].parse::<usize>().expect("a number");
    match words[0].as_str() {
        "echo" => echo(&words[1], number(2)),
        _ => ask(&words[1], &words[2], number(3), number(4) as u64),
    }
}
