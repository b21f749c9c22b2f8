//! What a plain store keeps in memory: each entry with its position, so that it can answer for any earlier front.
use crate::log::{DELETION, VERTICES, ends};

/// The entries of each vertex, with their positions.
pub struct Lists {
    lists: Vec<Vec<(u64, u64)>>,
    pub len: u64,
}

impl Lists {
    pub fn of(words: Vec<u64>) -> Lists {
        let mut lists = Lists { lists: vec![Vec::new(); VERTICES as usize], len: 0 };
        for word in words {
            lists.push(word);
        }
        lists
    }

    pub fn push(&mut self, word: u64) {
        self.lists[ends(word).0 as usize].push((self.len, word));
        self.len += 1;
    }

    pub fn neighbours(&self, vertex: u32, front: u64) -> Vec<u32> {
        let mut list: Vec<u32> = Vec::new();
        for &(_, word) in self.lists[vertex as usize].iter().take_while(|(at, _)| *at < front) {
            let dst = ends(word).1;
            if word & DELETION == 0 {
                list.push(dst);
            } else if let Some(place) = list.iter().position(|&other| other == dst) {
                list.remove(place);
            }
        }
        list
    }
}
