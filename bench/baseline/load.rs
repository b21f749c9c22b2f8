//! The plain program of edges in bulk, with std alone and no contracts. `make FROM COUNT NAME` writes so many edges of edges.rs to the edge
//! files NAME.txt and NAME.bin. `drive SCRIPT` answers a script of `load`, `view` and `neigh`: it reads and checks an edge file of either
//! form, and keeps its entries as store.rs does. `gen --edges E --seed X` generates edges as graphone does and answers the same eight
//! commands, over adjacency vectors. Both write the log file `graph.log` with the same blocks and syncs. `entries` opens such a file, and
//! writes its entries as an `update` of graphone does.
mod edges;
mod lists;
mod log;
mod questions;
mod reading;

use edges::spread;
use lists::Lists;
use log::{DELETION, Log, VERTICES, ends};
use questions::answer;
use reading::{number, vertex};
use std::fmt::Write as _;
use std::io::{self, Write as _};
use std::process::ExitCode;
use std::{env, fs};

const LETTERS: &[u8] = b"GRONEBIN";
const LIMIT: u64 = 67_108_864;

fn make(from: u64, count: u64, name: &str) -> io::Result<()> {
    let mut text = format!("# {count} edges\n");
    let mut bytes = LETTERS.to_vec();
    for edge in (from..from + count).map(spread) {
        writeln!(text, "{}{}\t{}", if edge.del { "-" } else { "" }, edge.src, edge.dst).unwrap();
        bytes.extend(edge.word().to_le_bytes());
    }
    assert!(text.len() as u64 <= LIMIT && bytes.len() as u64 <= LIMIT, "an edge file within the limit");
    fs::write(format!("{name}.txt"), text)?;
    fs::write(format!("{name}.bin"), bytes)
}

type Fault = (u64, &'static str);

fn read_binary(bytes: &[u8]) -> Result<Vec<u64>, Fault> {
    let mut entries = Vec::with_capacity(bytes.len() / 8);
    for (line, piece) in (1..).zip(bytes.chunks(8)) {
        let word = u64::from_le_bytes(piece.try_into().map_err(|_| (line, "short"))?);
        let (src, dst) = ends(word);
        if word >> 62 & 1 == 1 {
            return Err((line, "number"));
        }
        if src >= VERTICES || dst >= VERTICES {
            return Err((line, "vertex"));
        }
        entries.push(word);
    }
    Ok(entries)
}

fn entry(words: &[&str]) -> Result<u64, &'static str> {
    let (mark, words) = match words {
        ["-", rest @ ..] => (DELETION, rest),
        _ => (0, words),
    };
    let [src, dst] = words else { return Err("count") };
    let (mark, src) = match src.strip_prefix('-') {
        Some(src) if mark == 0 => (DELETION, src),
        _ => (mark, *src),
    };
    Ok(mark | u64::from(vertex(src)?) << 31 | u64::from(vertex(dst)?))
}

fn read_text(text: &str) -> Result<Vec<u64>, Fault> {
    let mut entries = Vec::new();
    let mut words = Vec::new();
    for (line, text) in (1..).zip(text.lines()) {
        words.clear();
        words.extend(text.split([' ', '\t']).filter(|word| !word.is_empty()));
        if words.first().is_none_or(|word| word.starts_with('#')) {
            continue;
        }
        entries.push(entry(&words).map_err(|kind| (line, kind))?);
    }
    Ok(entries)
}

fn read_edges(name: &str) -> Result<Vec<u64>, Fault> {
    let bytes = fs::read(name).expect("an edge file");
    assert!(bytes.len() as u64 <= LIMIT, "an edge file within the limit");
    match bytes.strip_prefix(LETTERS) {
        Some(words) => read_binary(words),
        None => read_text(std::str::from_utf8(&bytes).expect("a text")),
    }
}

enum Command {
    Load { name: String, entries: Vec<u64> },
    View { place: usize },
    Neigh { place: usize, vertex: u32 },
}

/// The commands, with the entries of each file that is loaded; or the name of the file that has a fault, and the fault.
fn read_script(script: &str) -> Result<Vec<Command>, (String, Fault)> {
    let text = fs::read_to_string(script).expect("a script");
    let mut commands = Vec::new();
    for (line, text) in (1..).zip(text.lines()) {
        let told = |kind| (script.to_string(), (line, kind));
        let place = |word| number(word, 3).map(|place| place as usize).map_err(told);
        commands.push(match text.split(' ').collect::<Vec<_>>()[..] {
            ["load", name] => {
                let entries = read_edges(name).map_err(|fault| (name.to_string(), fault))?;
                Command::Load { name: name.to_string(), entries }
            }
            ["view", word] => Command::View { place: place(word)? },
            ["neigh", word, of] => Command::Neigh { place: place(word)?, vertex: vertex(of).map_err(told)? },
            _ => return Err(told("word")),
        });
    }
    Ok(commands)
}

fn replies(commands: &[Command]) -> io::Result<String> {
    let (mut log, words) = Log::open()?;
    let mut lists = Lists::of(words);
    let mut fronts = [0; 4];
    let mut out = String::from("session 1\n");
    for command in commands {
        match command {
            Command::Load { name, entries } => {
                for word in entries {
                    log.put(*word)?;
                    lists.push(*word);
                }
                writeln!(out, "load {name}: {} edges, last {}", entries.len(), lists.len - 1).unwrap();
            }
            Command::View { place } => {
                fronts[*place] = lists.len;
                writeln!(out, "view {place} at {}", lists.len).unwrap();
            }
            Command::Neigh { place, vertex } => {
                write!(out, "neigh {vertex}:").unwrap();
                for dst in lists.neighbours(*vertex, fronts[*place]) {
                    write!(out, " {dst}").unwrap();
                }
                out.push('\n');
            }
        }
    }
    log.flush()?;
    Ok(out)
}

/// PCG XSH RR with 64 bits of state (O'Neill): the word is taken from the state before its step.
struct Pcg {
    state: u64,
    increment: u64,
}

/// A step of the state.
fn stepped(state: u64, increment: u64) -> u64 {
    state.wrapping_mul(6364136223846793005).wrapping_add(increment)
}

/// The word of a state.
fn output(state: u64) -> u32 {
    ((((state >> 18) ^ state) >> 27) as u32).rotate_right((state >> 59) as u32)
}

impl Pcg {
    /// Seeded by the words of another one, at a fixed increment, which takes a word from the state after its step.
    fn seeded(seed: u64) -> Pcg {
        let mut state = seed;
        let mut draw = || {
            state = stepped(state, 0xA176_54E4_6FBE_17F3);
            u64::from(output(state))
        };
        let begin = draw() | draw() << 32;
        let increment = draw() | draw() << 32 | 1;
        Pcg { state: stepped(begin.wrapping_add(increment), increment), increment }
    }

    fn draw(&mut self) -> u32 {
        let word = output(self.state);
        self.state = stepped(self.state, self.increment);
        word
    }
}

fn generate(count: usize, seed: u64) -> Vec<u64> {
    let mut words = Pcg::seeded(seed);
    let mut entries: Vec<u64> = Vec::with_capacity(count);
    for place in 0..count {
        let word = if place % 8 == 7 {
            entries[place - 4] | DELETION
        } else {
            u64::from(words.draw() % VERTICES) << 31 | u64::from(words.draw() % VERTICES)
        };
        entries.push(word);
    }
    entries
}

/// The replies to the script of `gen`.
fn generated(count: usize, seed: u64) -> io::Result<String> {
    let entries = generate(count, seed);
    let (mut log, old) = Log::open()?;
    assert!(old.is_empty(), "a new log");
    let mut lists: Vec<Vec<u32>> = vec![Vec::new(); VERTICES as usize];
    for word in entries {
        log.put(word)?;
        let (src, dst) = ends(word);
        let list = &mut lists[src as usize];
        if word & DELETION == 0 {
            list.push(dst);
        } else if let Some(place) = list.iter().position(|&other| other == dst) {
            list.remove(place);
        }
    }
    let mut out = format!("session 1\nload @gen: {count} edges, last {}\nview 0 at {count}\n", count - 1);
    answer(&lists, &["rank", "0", "5"], &mut out);
    answer(&lists, &["bfs", "0", "0"], &mut out);
    writeln!(out, "stream 1 at {count}").unwrap();
    log.flush()?;
    writeln!(out, "sync {count}\ncompact").unwrap();
    answer(&lists, &["degree", "0", "0"], &mut out);
    Ok(out)
}

/// The lines of the entries of the log file.
fn entries() -> io::Result<String> {
    let (_, words) = Log::open()?;
    let mut out = String::new();
    for word in words {
        let (src, dst) = ends(word);
        writeln!(out, "{} {src} {dst}", if word & DELETION == 0 { '+' } else { '-' }).unwrap();
    }
    Ok(out)
}

fn main() -> ExitCode {
    let words: Vec<String> = env::args().skip(1).collect();
    let words: Vec<&str> = words.iter().map(String::as_str).collect();
    let count = |word: &str| word.parse().expect("a number");
    let text = match words[..] {
        ["make", from, edges, name] => {
            make(count(from), count(edges), name).expect("files of edges");
            String::new()
        }
        ["drive", script] => match read_script(script) {
            Ok(commands) => replies(&commands).expect("the log file"),
            Err((name, (line, kind))) => {
                eprintln!("graphone: {name}: line {line}: {kind}");
                return ExitCode::from(2);
            }
        },
        ["gen", "--edges", edges, "--seed", seed] => generated(count(edges) as usize, count(seed)).expect("the log file"),
        ["entries"] => entries().expect("the log file"),
        _ => panic!("make FROM COUNT NAME, drive SCRIPT, gen --edges E --seed X, or entries"),
    };
    io::stdout().write_all(text.as_bytes()).expect("standard output");
    ExitCode::SUCCESS
}
