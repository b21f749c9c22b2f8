//! The plain program of a store: reads a script of `add`, `del`, `view` and `neigh`, keeps its entries in `graph.log` as graphone does,
//! with the same blocks and syncs, and prints the replies. It checks what graphone checks, with std alone and no contracts.
mod lists;
mod log;
mod reading;

use lists::Lists;
use log::{DELETION, Log};
use reading::{number, vertex};
use std::fmt::Write as _;
use std::io::{self, Write as _};
use std::process::ExitCode;

enum Command {
    Put { del: bool, src: u32, dst: u32 },
    View { place: usize },
    Neigh { place: usize, vertex: u32 },
}

fn command(words: &[&str], held: &mut [bool; 4]) -> Result<Command, &'static str> {
    match words {
        [kind @ ("add" | "del"), src, dst] => Ok(Command::Put { del: *kind == "del", src: vertex(src)?, dst: vertex(dst)? }),
        ["view", place] => {
            let place = number(place, 3)? as usize;
            if held[place] {
                return Err("place");
            }
            held[place] = true;
            Ok(Command::View { place })
        }
        ["neigh", place, of] => {
            let place = number(place, 3)? as usize;
            let vertex = vertex(of)?;
            if held[place] { Ok(Command::Neigh { place, vertex }) } else { Err("place") }
        }
        ["add" | "del" | "view" | "neigh", ..] => Err("count"),
        _ => Err("word"),
    }
}

fn parse(text: &str) -> Result<Vec<(u64, Command)>, (u64, &'static str)> {
    let mut held = [false; 4];
    let mut commands = Vec::new();
    let mut words = Vec::new();
    for (line, text) in (1..).zip(text.lines()) {
        words.clear();
        words.extend(text.split([' ', '\t']).filter(|word| !word.is_empty()));
        if words.first().is_none_or(|word| word.starts_with('#')) {
            continue;
        }
        commands.push((line, command(&words, &mut held).map_err(|kind| (line, kind))?));
    }
    Ok(commands)
}

fn replies(commands: &[(u64, Command)]) -> io::Result<String> {
    let (mut log, words) = Log::open()?;
    let mut lists = Lists::of(words);
    let mut fronts = [0; 4];
    let mut out = String::from("session 1\n");
    for (_, command) in commands {
        match *command {
            Command::Put { del, src, dst } => {
                let word = if del { DELETION } else { 0 } | u64::from(src) << 31 | u64::from(dst);
                log.put(word)?;
                writeln!(out, "{} {}", if del { "del" } else { "add" }, lists.len).unwrap();
                lists.push(word);
            }
            Command::View { place } => {
                fronts[place] = lists.len;
                writeln!(out, "view {place} at {}", lists.len).unwrap();
            }
            Command::Neigh { place, vertex } => {
                write!(out, "neigh {vertex}:").unwrap();
                for dst in lists.neighbours(vertex, fronts[place]) {
                    write!(out, " {dst}").unwrap();
                }
                out.push('\n');
            }
        }
    }
    log.flush()?;
    Ok(out)
}

fn main() -> ExitCode {
    let name = std::env::args().nth(2).expect("drive FILE");
    let text = std::fs::read_to_string(&name).expect("a script");
    match parse(&text) {
        Ok(commands) => {
            let text = replies(&commands).expect("the log file");
            io::stdout().write_all(text.as_bytes()).expect("standard output");
            ExitCode::SUCCESS
        }
        Err((line, kind)) => {
            eprintln!("graphone: {name}: line {line}: {kind}");
            ExitCode::from(2)
        }
    }
}
