//! The plain program for log files: writes and reads the same bytes as go_bench, with std alone and no contracts.
mod edges;

use edges::{Edge, spread};
use std::time::Instant;

const VERTICES: u32 = 65536;
const BLOCK: u64 = 65536;

fn write(file: &str, entries: u64) {
    let mut bytes = b"\x01GRONELOG\x01\x00".to_vec();
    bytes.extend_from_slice(&VERTICES.to_le_bytes());
    bytes.push(0);
    let begin = Instant::now();
    let mut left = entries;
    while left > 0 {
        let count = left.min(BLOCK);
        let edges: Vec<Edge> = (entries - left..entries - left + count).map(spread).collect();
        *bytes.last_mut().unwrap() = 1;
        bytes.reserve(5 + 8 * edges.len());
        bytes.extend_from_slice(&(count as u32).to_le_bytes());
        for edge in &edges {
            bytes.extend_from_slice(&edge.word().to_le_bytes());
        }
        bytes.push(0);
        left -= count;
    }
    eprintln!("{}", begin.elapsed().as_micros());
    std::fs::write(file, &bytes).unwrap();
    println!("{entries} entries, {} bytes", bytes.len());
}

fn read_file(bytes: &[u8]) -> Option<(Vec<Edge>, usize)> {
    if bytes.len() < 16 || bytes[0] == 0 || &bytes[1..11] != b"GRONELOG\x01\x00" {
        return None;
    }
    let vertices = u32::from_le_bytes(bytes[11..15].try_into().ok()?);
    let mut edges = Vec::with_capacity(bytes.len() / 8);
    let mut gate = 15;
    while *bytes.get(gate)? != 0 {
        let count = u32::from_le_bytes(bytes.get(gate + 1..gate + 5)?.try_into().ok()?) as usize;
        if count == 0 || count > BLOCK as usize {
            return None;
        }
        for word in bytes.get(gate + 5..gate + 5 + 8 * count)?.chunks_exact(8) {
            let word = u64::from_le_bytes(word.try_into().ok()?);
            let (src, dst) = ((word >> 31 & 0x7FFF_FFFF) as u32, (word & 0x7FFF_FFFF) as u32);
            if word >> 62 & 1 == 1 || src >= vertices || dst >= vertices {
                return None;
            }
            edges.push(Edge { del: word >> 63 == 1, src, dst });
        }
        gate += 5 + 8 * count;
    }
    Some((edges, gate))
}

fn read(file: &str) {
    let bytes = std::fs::read(file).unwrap();
    let begin = Instant::now();
    let log = read_file(&bytes);
    eprintln!("{}", begin.elapsed().as_micros());
    let (edges, gate) = log.expect("a log");
    let last = edges.last().map_or(0, |edge| u64::from(edge.src) + u64::from(edge.dst) + u64::from(edge.del));
    assert!(last < 1 << 40);
    println!("{} entries, gate at {gate}", edges.len());
}

fn main() {
    let words: Vec<String> = std::env::args().collect();
    match words[1].as_str() {
        "write-blocks" => write(&words[3], words[2].parse().unwrap()),
        "read-blocks" => read(&words[3]),
        job => panic!("no job {job}"),
    }
}
