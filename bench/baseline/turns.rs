//! The plain programs for the turns of parts, with std alone and no contracts: one thread takes a part that is at home and gives it back.
//! `atomics` swaps a turn, moves the part out of its slot and in again, and stores the turn; `mutex` has the part under a lock.
use std::cell::UnsafeCell;
use std::hint::black_box;
use std::sync::Mutex;
use std::sync::atomic::{AtomicU64, Ordering::SeqCst};
use std::time::Instant;

// A part as go_core has it: how far it reaches, its cut and its pins.
struct Part {
    front: u64,
    cut: u64,
    pins: Vec<(u64, u64)>,
}

fn part() -> Part {
    Part { front: 0, cut: 0, pins: Vec::new() }
}

struct Slot {
    turn: AtomicU64,
    part: UnsafeCell<Option<Part>>,
}

impl Slot {
    fn take(&self) -> Option<Part> {
        if self.turn.swap(1, SeqCst) != 0 {
            return None;
        }
        // The turn is this caller's alone.
        unsafe { (*self.part.get()).take() }
    }

    fn give(&self, part: Part) {
        unsafe { *self.part.get() = Some(part) };
        self.turn.store(0, SeqCst);
    }
}

fn atomics(count: u64) -> u64 {
    let slot = Slot { turn: AtomicU64::new(0), part: UnsafeCell::new(Some(part())) };
    let slot = black_box(&slot);
    let mut taken = 0;
    for _ in 0..count {
        if let Some(part) = slot.take() {
            slot.give(black_box(part));
            taken += 1;
        }
    }
    taken
}

fn mutex(count: u64) -> u64 {
    let slot = Mutex::new(part());
    let slot = black_box(&slot);
    let mut taken = 0;
    for _ in 0..count {
        let part = slot.lock().unwrap();
        black_box(part.front + part.cut + part.pins.len() as u64);
        taken += 1;
    }
    taken
}

fn main() {
    let words: Vec<String> = std::env::args().collect();
    let count = words[2].parse::<u64>().unwrap();
    let begin = Instant::now();
    let taken = if words[1] == "atomics" { atomics(count) } else { mutex(count) };
    let took = begin.elapsed();
    println!("{taken} turns");
    eprintln!("{}", took.as_micros());
}
