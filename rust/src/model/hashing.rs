//! Sets of kinds.

use super::kinds::Kind;
use std::collections::HashSet;
use std::hash::{BuildHasherDefault, Hasher};

/// A quick hash of words: each is added, multiplied and folded.
#[derive(Default)]
pub struct WordHasher(u64);

impl Hasher for WordHasher {
    fn write(&mut self, bytes: &[u8]) {
        for word in bytes.chunks(8) {
            let mut padded = [0; 8];
            padded[..word.len()].copy_from_slice(word);
            let mixed = (self.0 ^ u64::from_le_bytes(padded)).wrapping_mul(0x9E37_79B9_7F4A_7C15);
            self.0 = mixed ^ mixed >> 32;
        }
    }

    fn finish(&self) -> u64 {
        self.0
    }
}

/// A set in which a kind is looked up by a quick hash.
pub type KindSet = HashSet<Kind, BuildHasherDefault<WordHasher>>;
