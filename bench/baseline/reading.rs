//! Words that are read as numbers and vertices, checked as graphone checks them.
use crate::log::VERTICES;

pub fn number(word: &str, limit: u64) -> Result<u64, &'static str> {
    if word.is_empty() || !word.bytes().all(|byte| byte.is_ascii_digit()) {
        return Err("number");
    }
    match word.parse::<u64>() {
        Ok(value) if value <= limit => Ok(value),
        _ => Err("number"),
    }
}

pub fn vertex(word: &str) -> Result<u32, &'static str> {
    let value = number(word, u64::MAX)?;
    if value < u64::from(VERTICES) { Ok(value as u32) } else { Err("vertex") }
}
