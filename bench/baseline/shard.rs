//! The plain program for shards: `Vec<Vec<u64>>`, the words of each vertex in order, filled and read as go_bench does.
mod edges;

use edges::{Edge, mixed, spread};
use std::collections::HashMap;
use std::collections::VecDeque;
use std::time::Instant;

const VERTICES: u32 = 65536;
const BATCH: usize = 65536;

fn hub(number: u64) -> Edge {
    let word = mixed(number / 2);
    Edge { del: number % 2 == 1, src: 0, dst: (word / 0x1_0000_0000_0000) as u32 }
}

/// The neighbours that words leave: short lists are searched at a deletion, in long ones a queue for each vertex finds the earliest.
fn neighbours(words: &[u64], out: &mut Vec<u32>) {
    out.clear();
    if words.len() <= 64 {
        for word in words {
            let dst = (word & 0x7FFF_FFFF) as u32;
            if word >> 63 == 0 {
                out.push(dst);
            } else if let Some(at) = out.iter().position(|v| *v == dst) {
                out.remove(at);
            }
        }
        return;
    }
    let mut places: HashMap<u32, VecDeque<usize>> = HashMap::new();
    let mut gone = vec![false; words.len()];
    for (at, word) in words.iter().enumerate() {
        let dst = (word & 0x7FFF_FFFF) as u32;
        if word >> 63 == 0 {
            places.entry(dst).or_default().push_back(at);
        } else {
            gone[at] = true;
            if let Some(earliest) = places.get_mut(&dst).and_then(VecDeque::pop_front) {
                gone[earliest] = true;
            }
        }
    }
    out.extend(words.iter().zip(&gone).filter(|(_, gone)| !**gone).map(|(word, _)| (word & 0x7FFF_FFFF) as u32));
}

fn main() {
    let words: Vec<String> = std::env::args().collect();
    let edge = if words[1] == "hub" { hub } else { spread };
    let entries: u64 = words[2].parse().unwrap();
    let begin = Instant::now();
    let mut lists: Vec<Vec<u64>> = vec![Vec::new(); VERTICES as usize];
    for first in (0..entries).step_by(BATCH) {
        let batch: Vec<_> = (first..entries.min(first + BATCH as u64)).map(edge).collect();
        for edge in batch {
            lists[edge.src as usize].push(edge.word());
        }
    }
    let appended = begin.elapsed();
    let begin = Instant::now();
    let mut out = Vec::new();
    let mut count = 0;
    for list in &lists {
        neighbours(list, &mut out);
        count += out.len();
    }
    println!("{entries} entries, {count} neighbours");
    eprintln!("{} {}", appended.as_micros(), begin.elapsed().as_micros());
}
