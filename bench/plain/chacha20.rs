//! A generator of random bytes: ChaCha20 (with a counter and a stream of 64 bits each), one block of 64 bytes at a time.

use crate::base64;
use std::fs::File;
use std::io::{self, Read};

const BLOCK: usize = 64;

pub struct ChaCha20 {
    key: [u32; 8],
    stream: u64,
    counter: u64,
    block: [u8; BLOCK],
    used: usize,
}

fn quarter(state: &mut [u32; 16], a: usize, b: usize, c: usize, d: usize) {
    state[a] = state[a].wrapping_add(state[b]);
    state[d] = (state[d] ^ state[a]).rotate_left(16);
    state[c] = state[c].wrapping_add(state[d]);
    state[b] = (state[b] ^ state[c]).rotate_left(12);
    state[a] = state[a].wrapping_add(state[b]);
    state[d] = (state[d] ^ state[a]).rotate_left(8);
    state[c] = state[c].wrapping_add(state[d]);
    state[b] = (state[b] ^ state[c]).rotate_left(7);
}

impl ChaCha20 {
    pub fn new(seed: &[u8; 32], stream: u64) -> ChaCha20 {
        let mut key = [0; 8];
        for (word, bytes) in key.iter_mut().zip(seed.chunks_exact(4)) {
            *word = u32::from_le_bytes(bytes.try_into().unwrap());
        }
        ChaCha20 { key, stream, counter: 0, block: [0; BLOCK], used: BLOCK }
    }

    /// With a key that the system gives.
    pub fn from_system() -> io::Result<ChaCha20> {
        let mut seed = [0; 32];
        File::open("/dev/urandom")?.read_exact(&mut seed)?;
        Ok(ChaCha20::new(&seed, 0))
    }

    fn next_block(&mut self) {
        let mut first = [0x61707865, 0x3320646e, 0x79622d32, 0x6b206574, 0, 0, 0, 0, 0, 0, 0, 0, 0, 0, 0, 0];
        first[4..12].copy_from_slice(&self.key);
        first[12..].copy_from_slice(&[self.counter as u32, (self.counter >> 32) as u32, self.stream as u32, (self.stream >> 32) as u32]);
        let mut state = first;
        for _ in 0..10 {
            quarter(&mut state, 0, 4, 8, 12);
            quarter(&mut state, 1, 5, 9, 13);
            quarter(&mut state, 2, 6, 10, 14);
            quarter(&mut state, 3, 7, 11, 15);
            quarter(&mut state, 0, 5, 10, 15);
            quarter(&mut state, 1, 6, 11, 12);
            quarter(&mut state, 2, 7, 8, 13);
            quarter(&mut state, 3, 4, 9, 14);
        }
        for ((bytes, word), added) in self.block.chunks_exact_mut(4).zip(state).zip(first) {
            bytes.copy_from_slice(&word.wrapping_add(added).to_le_bytes());
        }
        self.counter += 1;
        self.used = 0;
    }

    /// 24 random bytes, as 32 characters.
    pub fn draw(&mut self) -> [u8; 32] {
        let mut drawn = [0; 24];
        let mut filled = 0;
        while filled < drawn.len() {
            if self.used == BLOCK {
                self.next_block();
            }
            let taken = (drawn.len() - filled).min(BLOCK - self.used);
            drawn[filled..filled + taken].copy_from_slice(&self.block[self.used..self.used + taken]);
            self.used += taken;
            filled += taken;
        }
        base64::url_text(&drawn)
    }
}
