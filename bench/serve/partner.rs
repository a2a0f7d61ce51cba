//! What a plain server does: one connection after the other, without limits.
//!
//!     serve PORT COUNT FOLDER      serves COUNT connections: a GET is answered the configuration that it names, read and
//!                                  hashed anew each time, anything else 204
//!     reports PORT COUNT STORE     serves COUNT connections: the body of a POST is written after the last one, synced, marked as whole,
//!                                  and synced again before it is answered 200, anything else 204
//!     open STORE                   reads a store into a map of its agents, each with its newest four reports
use std::collections::HashMap;
use std::fs;
use std::io::{Read, Write};
use std::net::{TcpListener, TcpStream};
use std::os::unix::fs::FileExt;

const ROUNDS: [u32; 64] = [
    0x428a2f98, 0x71374491, 0xb5c0fbcf, 0xe9b5dba5, 0x3956c25b, 0x59f111f1, 0x923f82a4, 0xab1c5ed5, 0xd807aa98, 0x12835b01, 0x243185be,
    0x550c7dc3, 0x72be5d74, 0x80deb1fe, 0x9bdc06a7, 0xc19bf174, 0xe49b69c1, 0xefbe4786, 0x0fc19dc6, 0x240ca1cc, 0x2de92c6f, 0x4a7484aa,
    0x5cb0a9dc, 0x76f988da, 0x983e5152, 0xa831c66d, 0xb00327c8, 0xbf597fc7, 0xc6e00bf3, 0xd5a79147, 0x06ca6351, 0x14292967, 0x27b70a85,
    0x2e1b2138, 0x4d2c6dfc, 0x53380d13, 0x650a7354, 0x766a0abb, 0x81c2c92e, 0x92722c85, 0xa2bfe8a1, 0xa81a664b, 0xc24b8b70, 0xc76c51a3,
    0xd192e819, 0xd6990624, 0xf40e3585, 0x106aa070, 0x19a4c116, 0x1e376c08, 0x2748774c, 0x34b0bcb5, 0x391c0cb3, 0x4ed8aa4a, 0x5b9cca4f,
    0x682e6ff3, 0x748f82ee, 0x78a5636f, 0x84c87814, 0x8cc70208, 0x90befffa, 0xa4506ceb, 0xbef9a3f7, 0xc67178f2,
];

fn compress(state: &mut [u32; 8], block: &[u8]) {
    let mut words = [0u32; 64];
    for (word, bytes) in words.iter_mut().zip(block.chunks_exact(4)) {
        *word = u32::from_be_bytes(bytes.try_into().unwrap());
    }
    for i in 16..64 {
        let (a, b) = (words[i - 15], words[i - 2]);
        let low = a.rotate_right(7) ^ a.rotate_right(18) ^ (a >> 3);
        let high = b.rotate_right(17) ^ b.rotate_right(19) ^ (b >> 10);
        words[i] = words[i - 16].wrapping_add(low).wrapping_add(words[i - 7]).wrapping_add(high);
    }
    let [mut a, mut b, mut c, mut d, mut e, mut f, mut g, mut h] = *state;
    for i in 0..64 {
        let mix = e.rotate_right(6) ^ e.rotate_right(11) ^ e.rotate_right(25);
        let one = h.wrapping_add(mix).wrapping_add((e & f) ^ (!e & g)).wrapping_add(ROUNDS[i]).wrapping_add(words[i]);
        let two = (a.rotate_right(2) ^ a.rotate_right(13) ^ a.rotate_right(22)).wrapping_add((a & b) ^ (a & c) ^ (b & c));
        (h, g, f, e, d, c, b, a) = (g, f, e, d.wrapping_add(one), c, b, a, one.wrapping_add(two));
    }
    for (old, new) in state.iter_mut().zip([a, b, c, d, e, f, g, h]) {
        *old = old.wrapping_add(new);
    }
}

fn sha256(bytes: &[u8]) -> String {
    let mut state = [0x6a09e667, 0xbb67ae85, 0x3c6ef372, 0xa54ff53a, 0x510e527f, 0x9b05688c, 0x1f83d9ab, 0x5be0cd19];
    let blocks = bytes.chunks_exact(64);
    let mut last = blocks.remainder().to_vec();
    blocks.for_each(|block| compress(&mut state, block));
    last.push(0x80);
    while last.len() % 64 != 56 {
        last.push(0);
    }
    last.extend((bytes.len() as u64 * 8).to_be_bytes());
    last.chunks_exact(64).for_each(|block| compress(&mut state, block));
    state.iter().map(|word| format!("{word:08X}")).collect()
}

// The head and the body.
fn read_request(conn: &mut TcpStream, buffer: &mut [u8]) -> Option<(String, Vec<u8>)> {
    let mut count = 0;
    let end = loop {
        if let Some(at) = buffer[..count].windows(4).position(|x| x == b"\r\n\r\n") {
            break at + 4;
        }
        match conn.read(&mut buffer[count..]) {
            Ok(0) | Err(_) => return None,
            Ok(more) => count += more,
        }
    };
    let head = String::from_utf8_lossy(&buffer[..end]).into_owned();
    let length = head.split("Content-Length: ").nth(1).and_then(|x| x.split('\r').next()?.parse::<usize>().ok());
    let mut body = buffer[end..count].to_vec();
    while body.len() < length.unwrap_or(0) {
        match conn.read(buffer) {
            Ok(0) | Err(_) => return None,
            Ok(more) => body.extend_from_slice(&buffer[..more]),
        }
    }
    Some((head, body))
}

fn answer(head: &str, folder: &str) -> Vec<u8> {
    let common = "Connection: close\r\nProtocolVersion: 2.0\r\n";
    let name = head.split("ConfigurationName='").nth(1).and_then(|x| x.split('\'').next());
    let Some(name) = name.filter(|_| head.starts_with("GET ")) else {
        return format!("HTTP/1.1 204 No Content\r\n{common}\r\n").into_bytes();
    };
    let item = fs::read(format!("{folder}/configurations/{name}.mof")).unwrap();
    let mut answer = format!(
        "HTTP/1.1 200 OK\r\n{common}Content-Type: application/octet-stream\r\nChecksum: {}\r\nChecksumAlgorithm: SHA-256\r\nContent-Length: {}\r\n\r\n",
        sha256(&item),
        item.len()
    )
    .into_bytes();
    answer.extend(item);
    answer
}

fn serve(port: u16, count: usize, folder: &str) {
    let door = TcpListener::bind(("127.0.0.1", port)).unwrap();
    let mut buffer = vec![0; 65536];
    for conn in door.incoming().take(count) {
        let mut conn = conn.unwrap();
        if let Some((head, _)) = read_request(&mut conn, &mut buffer) {
            let _ = conn.write_all(&answer(&head, folder));
        }
    }
}

fn keep(store: &fs::File, end: &mut u64, body: &[u8]) {
    let mut cell = (body.len() as u32).to_be_bytes().to_vec();
    cell.extend_from_slice(body);
    cell.push(0);
    store.write_all_at(&cell, *end + 1).unwrap();
    store.sync_all().unwrap();
    store.write_all_at(b"\xA5", *end).unwrap();
    store.sync_all().unwrap();
    *end += cell.len() as u64;
}

fn reports(port: u16, count: usize, path: &str) {
    let store = fs::File::create(path).unwrap();
    let mut end = 0;
    let door = TcpListener::bind(("127.0.0.1", port)).unwrap();
    let mut buffer = vec![0; 65536];
    for conn in door.incoming().take(count) {
        let mut conn = conn.unwrap();
        let Some((head, body)) = read_request(&mut conn, &mut buffer) else {
            continue;
        };
        let code = if head.starts_with("POST ") { "200 OK" } else { "204 No Content" };
        if code == "200 OK" {
            keep(&store, &mut end, &body);
        }
        let _ = conn.write_all(format!("HTTP/1.1 {code}\r\nConnection: close\r\nProtocolVersion: 2.0\r\nContent-Length: 0\r\n\r\n").as_bytes());
    }
}

fn open(path: &str) {
    let store = fs::read(path).unwrap();
    let mut agents: HashMap<[u8; 16], (Vec<u8>, Vec<Vec<u8>>)> = HashMap::new();
    let mut at = 8;
    while store[at] == 0xa5 {
        let size = u32::from_be_bytes(store[at + 1..at + 5].try_into().unwrap()) as usize;
        let body = &store[at + 5..at + 5 + size];
        let row = agents.entry(body[1..17].try_into().unwrap()).or_default();
        if body[0] == 1 {
            row.0 = body.to_vec();
        } else {
            row.1.push(body.to_vec());
            if row.1.len() > 4 {
                row.1.remove(0);
            }
        }
        at += 5 + size;
    }
    println!("{}", agents.len());
}

fn main() {
    let words: Vec<String> = std::env::args().collect();
    match words[1].as_str() {
        "serve" => serve(words[2].parse().unwrap(), words[3].parse().unwrap(), &words[4]),
        "reports" => reports(words[2].parse().unwrap(), words[3].parse().unwrap(), &words[4]),
        _ => open(&words[2]),
    }
}
