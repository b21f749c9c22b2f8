//! The log file of a plain program, with the blocks and syncs of graphone's; each one that keeps a log has this file as a module.
use std::fs::{File, OpenOptions};
use std::io::{self, Read as _};
use std::os::unix::fs::FileExt as _;

pub const VERTICES: u32 = 65536;
pub const DELETION: u64 = 1 << 63;
const BLOCK: usize = 65536;

/// The log file, whose closed gate stands at `gate`, and the words that aren't in it yet.
pub struct Log {
    file: File,
    gate: u64,
    pending: Vec<u64>,
}

impl Log {
    /// Opens the log, or makes it, and gives its words.
    pub fn open() -> io::Result<(Log, Vec<u64>)> {
        let mut file = OpenOptions::new().read(true).write(true).create(true).truncate(false).open("graph.log")?;
        file.sync_all()?;
        let mut bytes = Vec::new();
        file.read_to_end(&mut bytes)?;
        if bytes.is_empty() {
            let mut header = b"\0GRONELOG\x01\0".to_vec();
            header.extend(VERTICES.to_le_bytes());
            header.push(0);
            file.write_all_at(&header[..1], 0)?;
            file.sync_all()?;
            file.write_all_at(&header[1..], 1)?;
            file.sync_all()?;
            file.write_all_at(&[1], 0)?;
            file.sync_all()?;
            return Ok((Log { file, gate: 15, pending: Vec::new() }, Vec::new()));
        }
        let (mut gate, mut words) = (15, Vec::new());
        while bytes[gate] != 0 {
            let count = u32::from_le_bytes(bytes[gate + 1..gate + 5].try_into().expect("a count")) as usize;
            let end = gate + 5 + 8 * count;
            for word in bytes[gate + 5..end].chunks_exact(8) {
                let word = u64::from_le_bytes(word.try_into().expect("a word"));
                let (src, dst) = ends(word);
                assert!(src < VERTICES && dst < VERTICES, "a plain word");
                words.push(word);
            }
            gate = end;
        }
        Ok((Log { file, gate: gate as u64, pending: Vec::new() }, words))
    }

    pub fn put(&mut self, word: u64) -> io::Result<()> {
        if self.pending.len() == BLOCK {
            self.flush()?;
        }
        self.pending.push(word);
        Ok(())
    }

    pub fn flush(&mut self) -> io::Result<()> {
        if self.pending.is_empty() {
            return Ok(());
        }
        let mut body = Vec::with_capacity(5 + 8 * self.pending.len());
        body.extend((self.pending.len() as u32).to_le_bytes());
        for word in self.pending.drain(..) {
            body.extend(word.to_le_bytes());
        }
        body.push(0);
        self.file.write_all_at(&body, self.gate + 1)?;
        self.file.sync_all()?;
        self.file.write_all_at(&[1], self.gate)?;
        self.file.sync_all()?;
        self.gate += body.len() as u64;
        Ok(())
    }
}

/// Source and destination of a word.
pub fn ends(word: u64) -> (u32, u32) {
    ((word >> 31) as u32 & 0x7fff_ffff, word as u32 & 0x7fff_ffff)
}
