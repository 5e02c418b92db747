//! Mini-slot counts that roll over, and the span of some MAPs
//! (document 01, "Time").

use crate::refusal::{refuse, Refusal, SIZE};

const WHOLE: u64 = 1 << 32;
const HALF: u64 = 1 << 31;

/// How far `to` lies ahead of `from`: (to - from) mod 2^32.
pub fn ahead(from: u32, to: u32) -> u64 {
    (u64::from(to) + WHOLE - u64::from(from)) % WHOLE
}

/// `start + more` mod 2^32.
pub fn later(start: u32, more: u32) -> u32 {
    ((u64::from(start) + u64::from(more)) % WHOLE) as u32
}

pub fn earlier(a: u32, b: u32) -> bool {
    (1..=HALF - 1).contains(&ahead(a, b))
}

/// The timestamp at which a mini-slot begins: N x T x 64 mod 2^32, T = 2^M.
pub fn begins(slot: u32, m: u32) -> Result<u32, Refusal> {
    if !(1..=7).contains(&m) {
        return refuse(SIZE);
    }
    let ticks = 2u64.pow(m);
    Ok((u64::from(slot) * ticks * 64 % WHOLE) as u32)
}

/// E and L of MAPs given by start and length.
pub fn span(maps: &[(u32, u32)]) -> Option<(u32, u32)> {
    let near = |from: u32, to: u32| ahead(from, to) < HALF;
    let from = maps.iter().map(|map| map.0).find(|&candidate| {
        maps.iter()
            .all(|&(start, length)| near(candidate, start) && near(candidate, later(start, length)))
    })?;
    let ends = maps.iter().map(|&(start, length)| later(start, length));
    let last = ends.max_by_key(|&end| ahead(from, end))?;
    Some((from, last))
}
