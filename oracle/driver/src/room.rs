//! A lent room between two strips of bytes that nobody may touch.

use mutants::chance::Chance;

const STRIP: usize = 64;

/// A room filled with a pattern; its first byte stands at any place of a word.
pub struct Room {
    bytes: Vec<u8>,
    begin: usize,
    length: usize,
}

impl Room {
    pub fn new(length: usize, chance: &mut Chance) -> Self {
        let begin = STRIP + chance.below(8);
        let bytes = pattern(begin + length + STRIP, chance);
        Self {
            bytes,
            begin,
            length,
        }
    }

    /// A room that holds these bytes.
    pub fn holding(held: &[u8], chance: &mut Chance) -> Self {
        let mut room = Self::new(held.len(), chance);
        room.lent().copy_from_slice(held);
        room
    }

    pub fn length(&self) -> usize {
        self.length
    }

    pub fn bytes(&self) -> &[u8] {
        &self.bytes[self.begin..][..self.length]
    }

    pub fn lent(&mut self) -> &mut [u8] {
        &mut self.bytes[self.begin..][..self.length]
    }

    /// What all its bytes must be after a call that writes these at its front.
    pub fn after(&self, written: &[u8]) -> Vec<u8> {
        let mut after = self.bytes.clone();
        after[self.begin..][..written.len()].copy_from_slice(written);
        after
    }

    /// The first place, counted from the room's own first byte, where its bytes
    /// are not these.
    pub fn parts(&self, after: &[u8]) -> Option<String> {
        if self.bytes == after {
            return None;
        }
        let place = (0..after.len()).find(|&at| self.bytes[at] != after[at])?;
        Some(format!(
            "byte {} of {} is {:02x}, must be {:02x}",
            place as i64 - self.begin as i64,
            self.length,
            self.bytes[place],
            after[place]
        ))
    }
}

/// Zeros, ones, one byte over and over, or any bytes.
pub fn pattern(length: usize, chance: &mut Chance) -> Vec<u8> {
    match chance.below(5) {
        0 => vec![0; length],
        1 => vec![0xff; length],
        2 => vec![chance.below(256) as u8; length],
        _ => any_bytes(length, chance),
    }
}

pub fn any_bytes(length: usize, chance: &mut Chance) -> Vec<u8> {
    let mut out = Vec::with_capacity(length + 8);
    while out.len() < length {
        out.extend(chance.word().to_le_bytes());
    }
    out.truncate(length);
    out
}
