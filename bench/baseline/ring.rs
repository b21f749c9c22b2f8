//! The plain programs for the ring, with std alone and no contracts: threads put edges in claims of so many while one thread takes each of
//! them twice, for the shard and for the file, and frees its room after both. `atomics` has the words of go_bench's ring, a turn for each part
//! and sequentially consistent steps; `mutex` has a vector under a lock.
mod edges;

use edges::{Edge, spread};
use std::hint::black_box;
use std::sync::atomic::{AtomicU64, Ordering::SeqCst};
use std::sync::{Mutex, MutexGuard};
use std::thread;
use std::time::Instant;

const SLOTS: u64 = 65536;
const EDGES: u64 = 65536;
const RUN: u64 = 1024;
const ROTATION: u64 = 1 << 62;

// The rotation bit of a position: set on even laps.
fn rotation(at: u64) -> u64 {
    (1 - at / SLOTS % 2) * ROTATION
}

// The destination that a word holds.
fn destination(word: u64) -> u64 {
    word & 0x7FFF_FFFF
}

// The sums of the destinations of what was taken for the shard, and of what was taken for the file.
#[derive(Default)]
struct Sums {
    archived: u64,
    durable: u64,
}

// What threads that put and the one that takes share.
trait Ring: Sync {
    fn put(&self, edges: &[Edge]);

    // Takes so many entries twice.
    fn work(&self, entries: u64) -> Sums;
}

struct Atomics {
    head: AtomicU64,
    archived: AtomicU64,
    durable: AtomicU64,
    turns: [AtomicU64; 2],
    slots: Vec<AtomicU64>,
}

impl Atomics {
    fn new() -> Atomics {
        Atomics {
            head: AtomicU64::new(0),
            archived: AtomicU64::new(0),
            durable: AtomicU64::new(0),
            turns: [AtomicU64::new(0), AtomicU64::new(0)],
            slots: (0..SLOTS).map(|_| AtomicU64::new(0)).collect(),
        }
    }

    // Takes what there is from a front on, up to a run, and adds its destinations up: how many there were, and their sum.
    fn take(&self, front: u64) -> (u64, u64) {
        let (mut at, mut sum) = (front, 0u64);
        while at < front + RUN {
            let word = self.slots[(at % SLOTS) as usize].load(SeqCst);
            if word & ROTATION != rotation(at) {
                break;
            }
            sum = sum.wrapping_add(destination(word));
            at += 1;
        }
        (at - front, sum)
    }

    // Takes a part's turn, and gives it back.
    fn bring_on(&self, place: usize) {
        assert!(self.turns[place].swap(1, SeqCst) == 0);
        self.turns[place].store(0, SeqCst);
    }
}

impl Ring for Atomics {
    fn put(&self, edges: &[Edge]) {
        let first = self.head.fetch_add(edges.len() as u64, SeqCst);
        while first + edges.len() as u64 > self.archived.load(SeqCst).min(self.durable.load(SeqCst)) + SLOTS {
            thread::yield_now();
        }
        for (at, edge) in (first..).zip(edges) {
            self.slots[(at % SLOTS) as usize].store(edge.word() | rotation(at), SeqCst);
        }
    }

    fn work(&self, entries: u64) -> Sums {
        let mut sums = Sums::default();
        let (mut archived, mut durable) = (0, 0);
        while archived < entries || durable < entries {
            let (count, sum) = self.take(archived);
            if count > 0 {
                archived += count;
                self.bring_on(0);
                self.archived.store(archived, SeqCst);
            }
            sums.archived = sums.archived.wrapping_add(sum);
            let (count, sum) = self.take(durable);
            if count > 0 {
                durable += count;
                self.bring_on(1);
                self.durable.store(durable, SeqCst);
            }
            if count < RUN {
                thread::yield_now();
            }
            sums.durable = sums.durable.wrapping_add(sum);
        }
        sums
    }
}

// The words that were put and not yet taken, and how many there are with those that the thread that takes is still reading.
struct Words {
    put: Vec<u64>,
    held: usize,
}

struct Locked {
    words: Mutex<Words>,
}

impl Locked {
    fn new() -> Locked {
        Locked { words: Mutex::new(Words { put: Vec::with_capacity(SLOTS as usize), held: 0 }) }
    }

    fn lock(&self) -> MutexGuard<'_, Words> {
        self.words.lock().unwrap()
    }
}

impl Ring for Locked {
    fn put(&self, edges: &[Edge]) {
        loop {
            let mut words = self.lock();
            if words.held + edges.len() <= SLOTS as usize {
                words.held += edges.len();
                words.put.extend(edges.iter().map(Edge::word));
                return;
            }
            drop(words);
            thread::yield_now();
        }
    }

    fn work(&self, entries: u64) -> Sums {
        let mut sums = Sums::default();
        let mut taken = Vec::with_capacity(SLOTS as usize);
        let mut front = 0;
        while front < entries {
            std::mem::swap(&mut self.lock().put, &mut taken);
            for sum in [&mut sums.archived, &mut sums.durable] {
                *sum = black_box(&taken).iter().fold(*sum, |sum, word| sum.wrapping_add(destination(*word)));
            }
            self.lock().held -= taken.len();
            front += taken.len() as u64;
            if (taken.len() as u64) < RUN {
                thread::yield_now();
            }
            taken.clear();
        }
        sums
    }
}

// So many threads put so many edges each, and this one takes them: what it came to.
fn run(ring: &impl Ring, edges: &[Edge], threads: u64, each: u64, claim: u64) -> Sums {
    thread::scope(|scope| {
        for _ in 0..threads {
            scope.spawn(|| {
                let (mut left, mut at) = (each, 0);
                while left > 0 {
                    let len = left.min(claim);
                    if at + len > EDGES {
                        at = 0;
                    }
                    ring.put(&edges[at as usize..(at + len) as usize]);
                    at += len;
                    left -= len;
                }
            });
        }
        ring.work(threads * each)
    })
}

fn main() {
    let words: Vec<String> = std::env::args().collect();
    let number = |place: usize| words[place].parse::<u64>().unwrap();
    let (entries, threads, claim) = (number(2) / 8 * 8, number(3), number(4));
    let edges: Vec<Edge> = (0..EDGES).map(spread).collect();
    let begin;
    let sums = match words[1].as_str() {
        "atomics" => {
            let ring = Atomics::new();
            begin = Instant::now();
            run(&ring, &edges, threads, entries / threads, claim)
        }
        _ => {
            let ring = Locked::new();
            begin = Instant::now();
            run(&ring, &edges, threads, entries / threads, claim)
        }
    };
    let took = begin.elapsed();
    println!("{entries} entries, sums {} and {}", sums.archived, sums.durable);
    eprintln!("{}", took.as_micros());
}
