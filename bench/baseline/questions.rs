//! Questions to a whole graph over adjacency vectors; each plain program that answers them has this file as a module.
use std::collections::VecDeque;
use std::fmt::Write as _;

/// How far each vertex is from a root.
fn levels(lists: &[Vec<u32>], root: u32) -> Vec<Option<u32>> {
    let mut levels = vec![None; lists.len()];
    levels[root as usize] = Some(0);
    let mut queue = VecDeque::from([root]);
    while let Some(vertex) = queue.pop_front() {
        let next = levels[vertex as usize].map(|level: u32| level + 1);
        for &other in &lists[vertex as usize] {
            if levels[other as usize].is_none() {
                levels[other as usize] = next;
                queue.push_back(other);
            }
        }
    }
    levels
}

/// The reply to a question of these words.
pub fn answer(lists: &[Vec<u32>], words: &[&str], out: &mut String) {
    let number = |place: usize| words[place].parse::<u32>().expect("a number");
    match words[0] {
        "rank" => {
            let mut order: Vec<u32> = (0..lists.len() as u32).collect();
            let key = |vertex: &u32| (std::cmp::Reverse(lists[*vertex as usize].len()), *vertex);
            let count = (number(2) as usize).min(order.len());
            if count < order.len() {
                order.select_nth_unstable_by_key(count, key);
            }
            order.truncate(count);
            order.sort_unstable_by_key(key);
            out.push_str("rank:");
            for vertex in order {
                write!(out, " {vertex}={}", lists[vertex as usize].len()).unwrap();
            }
        }
        "bfs" => {
            let levels = levels(lists, number(2));
            let mut counts: Vec<u32> = Vec::new();
            let mut unreached = 0;
            for level in levels {
                match level {
                    None => unreached += 1,
                    Some(level) => {
                        counts.resize(counts.len().max(level as usize + 1), 0);
                        counts[level as usize] += 1;
                    }
                }
            }
            write!(out, "bfs {}:", number(2)).unwrap();
            for count in counts {
                write!(out, " {count}").unwrap();
            }
            write!(out, " none {unreached}").unwrap();
        }
        "level" => match levels(lists, number(2))[number(3) as usize] {
            None => write!(out, "level {} {}: none", number(2), number(3)).unwrap(),
            Some(level) => write!(out, "level {} {}: {level}", number(2), number(3)).unwrap(),
        },
        "hop" => {
            let mut list = lists[number(2) as usize].clone();
            list.sort_unstable();
            list.dedup();
            write!(out, "hop {}:", number(2)).unwrap();
            for vertex in list {
                write!(out, " {vertex}").unwrap();
            }
        }
        "degree" => write!(out, "degree {}: {}", number(2), lists[number(2) as usize].len()).unwrap(),
        "neigh" => {
            write!(out, "neigh {}:", number(2)).unwrap();
            for vertex in &lists[number(2) as usize] {
                write!(out, " {vertex}").unwrap();
            }
        }
        word => panic!("{word}: no question"),
    }
    out.push('\n');
}
