//! The plain program for durable appends: writes the same bytes to a file with the same syncs as go_bench, with std alone and no
//! contracts.
mod edges;

use edges::{Edge, spread};
use std::fs::{File, OpenOptions};
use std::os::unix::fs::FileExt;
use std::time::Instant;

const VERTICES: u32 = 65536;
const BLOCK: u64 = 65536;

fn make(file: &File) -> std::io::Result<()> {
    let mut header = b"GRONELOG\x01\x00".to_vec();
    header.extend_from_slice(&VERTICES.to_le_bytes());
    header.push(0);
    file.write_all_at(&[0], 0)?;
    file.sync_all()?;
    file.write_all_at(&header, 1)?;
    file.sync_all()?;
    file.write_all_at(&[1], 0)?;
    file.sync_all()
}

fn append(file: &File, gate: u64, edges: &[Edge]) -> std::io::Result<u64> {
    let mut body = Vec::with_capacity(5 + 8 * edges.len());
    body.extend_from_slice(&(edges.len() as u32).to_le_bytes());
    for edge in edges {
        body.extend_from_slice(&edge.word().to_le_bytes());
    }
    body.push(0);
    file.write_all_at(&body, gate + 1)?;
    file.sync_all()?;
    file.write_all_at(&[1], gate)?;
    file.sync_all()?;
    Ok(gate + body.len() as u64)
}

fn main() -> std::io::Result<()> {
    let words: Vec<String> = std::env::args().collect();
    let entries: u64 = words[2].parse().unwrap();
    let file = OpenOptions::new().read(true).write(true).create(true).truncate(true).open(&words[3])?;
    make(&file)?;
    let begin = Instant::now();
    let mut gate = 15;
    let mut left = entries;
    while left > 0 {
        let count = left.min(BLOCK);
        let edges: Vec<Edge> = (entries - left..entries - left + count).map(spread).collect();
        gate = append(&file, gate, &edges)?;
        left -= count;
    }
    eprintln!("{}", begin.elapsed().as_micros());
    println!("{entries} entries");
    Ok(())
}
