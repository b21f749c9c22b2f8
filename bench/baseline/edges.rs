//! The edges of the benchmarks, as go_bench makes them; each plain program has this file as a module.

pub struct Edge {
    pub del: bool,
    pub src: u32,
    pub dst: u32,
}

impl Edge {
    /// The bits of a plain word.
    pub fn word(&self) -> u64 {
        u64::from(self.del) << 63 | u64::from(self.src) << 31 | u64::from(self.dst)
    }
}

/// The number of this place in the sequence SplitMix64 from 0 on.
pub fn mixed(place: u64) -> u64 {
    let word = place.wrapping_mul(0x9E37_79B9_7F4A_7C15);
    let word = (word ^ (word >> 30)).wrapping_mul(0xBF58_476D_1CE4_E5B9);
    let word = (word ^ (word >> 27)).wrapping_mul(0x94D0_49BB_1331_11EB);
    word ^ (word >> 31)
}

/// The edge of a number, between all vertices. Each eighth one deletes what the one four before it added.
pub fn spread(number: u64) -> Edge {
    let del = number % 8 == 7;
    let place = if del { number - 4 } else { number };
    let word = mixed(place);
    Edge { del, src: (word / 0x1_0000_0000 % 65536) as u32, dst: (word / 0x1_0000_0000_0000) as u32 }
}
