//! The Rust crate's own compress with a plain 64-byte buffer over it, as a user of the crate has it.
use crate::{c128, c160, c256, c320};

pub trait Hasher {
    fn new() -> Self;
    fn update(&mut self, piece: &[u8]);
    fn finish(self, out: &mut [u8]);
}

macro_rules! hasher {
    ($name:ident, $core:ident, $words:literal) => {
        pub struct $name {
            words: [u32; $words],
            count: u64,
            fill: usize,
            tail: [u8; 64],
        }

        impl $name {
            fn block(&mut self, block: &[u8; 64]) {
                $core::compress(&mut self.words, block);
                self.count += 1;
            }
        }

        impl Hasher for $name {
            fn new() -> Self {
                Self { words: $core::H0, count: 0, fill: 0, tail: [0; 64] }
            }

            fn update(&mut self, mut piece: &[u8]) {
                if self.fill > 0 {
                    let n = piece.len().min(64 - self.fill);
                    self.tail[self.fill..self.fill + n].copy_from_slice(&piece[..n]);
                    self.fill += n;
                    piece = &piece[n..];
                    if self.fill < 64 {
                        return;
                    }
                    let tail = self.tail;
                    self.block(&tail);
                    self.fill = 0;
                }
                let mut blocks = piece.chunks_exact(64);
                for block in &mut blocks {
                    self.block(block.try_into().unwrap());
                }
                let rest = blocks.remainder();
                self.tail[..rest.len()].copy_from_slice(rest);
                self.fill = rest.len();
            }

            fn finish(mut self, out: &mut [u8]) {
                let bits = 8 * (64 * self.count + self.fill as u64);
                self.tail[self.fill] = 0x80;
                self.tail[self.fill + 1..].fill(0);
                if self.fill >= 56 {
                    let tail = self.tail;
                    $core::compress(&mut self.words, &tail);
                    self.tail = [0; 64];
                }
                self.tail[56..].copy_from_slice(&bits.to_le_bytes());
                $core::compress(&mut self.words, &self.tail);
                for (word, bytes) in self.words.iter().zip(out.chunks_exact_mut(4)) {
                    bytes.copy_from_slice(&word.to_le_bytes());
                }
            }
        }
    };
}

hasher!(Rust128, c128, 4);
hasher!(Rust160, c160, 5);
hasher!(Rust256, c256, 8);
hasher!(Rust320, c320, 10);
