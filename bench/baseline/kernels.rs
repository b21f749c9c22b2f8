//! The plain program of questions to a whole graph: `drive SCRIPT` reads the log `graph.log` that graphone left, and answers a script of
//! one `view 0` and then `rank`, `bfs`, `level`, `hop`, `degree` and `neigh` over adjacency vectors, with std alone and no contracts.
//! `make COUNT VERTICES SEED FILE` writes a binary file of edges, an eighth of them deletions of an edge that was added before, and
//! `hub COUNT FILE` one of edges that leave vertex 7, by turns an addition and the deletion of the edge that was added eight turns before.
mod questions;

use questions::answer;
use std::fmt::Write as _;
use std::io::{self, Write as _};
use std::{env, fs};

const DELETION: u64 = 1 << 63;

fn ends(word: u64) -> (u32, u32) {
    ((word >> 31) as u32 & 0x7fff_ffff, word as u32 & 0x7fff_ffff)
}

fn make(count: u64, vertices: u64, seed: u64, file: &str) -> io::Result<()> {
    let mut x = seed;
    let mut draw = || {
        x = x.wrapping_mul(6364136223846793005).wrapping_add(1442695040888963407);
        (x >> 33) % vertices
    };
    let mut words: Vec<u64> = Vec::with_capacity(count as usize);
    for place in 0..count as usize {
        let word = if place % 8 == 7 { words[place - 4] | DELETION } else { draw() << 31 | draw() };
        words.push(word);
    }
    write(words, file)
}

fn hub(count: u64, file: &str) -> io::Result<()> {
    let word = |place: u64| 7 << 31 | place % 65536;
    let turns = (0..count / 2).flat_map(|turn| [word(turn), word(turn + 65528) | DELETION]);
    write(turns.collect(), file)
}

fn write(words: Vec<u64>, file: &str) -> io::Result<()> {
    let mut bytes = b"GRONEBIN".to_vec();
    bytes.extend(words.iter().flat_map(|word| word.to_le_bytes()));
    fs::write(file, bytes)
}

/// The lists of neighbours after a log file: a deletion takes out the earliest copy.
fn open() -> io::Result<(Vec<Vec<u32>>, u64)> {
    let bytes = fs::read("graph.log")?;
    let vertices = u32::from_le_bytes(bytes[11..15].try_into().expect("the number of vertices"));
    let mut lists = vec![Vec::new(); vertices as usize];
    let (mut gate, mut len) = (15, 0);
    while bytes[gate] != 0 {
        let count = u32::from_le_bytes(bytes[gate + 1..gate + 5].try_into().expect("a count")) as usize;
        let end = gate + 5 + 8 * count;
        for word in bytes[gate + 5..end].chunks_exact(8) {
            let word = u64::from_le_bytes(word.try_into().expect("a word"));
            let (src, dst) = ends(word);
            assert!(src < vertices && dst < vertices, "a plain word");
            let list: &mut Vec<u32> = &mut lists[src as usize];
            if word & DELETION == 0 {
                list.push(dst);
            } else if let Some(place) = list.iter().position(|&other| other == dst) {
                list.remove(place);
            }
        }
        len += count as u64;
        gate = end;
    }
    Ok((lists, len))
}

fn main() -> io::Result<()> {
    let words: Vec<String> = env::args().skip(1).collect();
    let words: Vec<&str> = words.iter().map(String::as_str).collect();
    let number = |word: &str| word.parse().expect("a number");
    match words[..] {
        ["make", count, vertices, seed, file] => make(number(count), number(vertices), number(seed), file),
        ["hub", count, file] => hub(number(count), file),
        ["drive", script] => {
            let text = fs::read_to_string(script)?;
            let (lists, len) = open()?;
            let mut out = String::from("session 1\n");
            for line in text.lines() {
                let words: Vec<&str> = line.split(' ').collect();
                if words[0] == "view" {
                    writeln!(out, "view 0 at {len}").unwrap();
                } else {
                    answer(&lists, &words, &mut out);
                }
            }
            io::stdout().write_all(out.as_bytes())
        }
        _ => panic!("make COUNT VERTICES SEED FILE, hub COUNT FILE, or drive SCRIPT"),
    }
}
