//! Times the library beside the Rust crate and the C libraries at hand: one process, the same input, the least of many turns.
//! bench/run compiles it, and says which of the C libraries are there.
#![allow(improper_ctypes)]
mod c128;
mod c160;
mod c256;
mod c320;
mod report;
mod rust_crate;
use report::Row;
use rust_crate::{Hasher, Rust128, Rust160, Rust256, Rust320};
use std::hint::black_box;
use std::time::Instant;

type Fresh = unsafe extern "C" fn(state: &mut [u8; 128]);
type OneShot = unsafe extern "C" fn(message: *const u8, m: usize, out: *mut u8, n: usize) -> u32;

extern "C" {
    fn ripemd_fresh128(state: &mut [u8; 128]);
    fn ripemd_fresh160(state: &mut [u8; 128]);
    fn ripemd_fresh256(state: &mut [u8; 128]);
    fn ripemd_fresh320(state: &mut [u8; 128]);
    fn ripemd_feed(state: &mut [u8; 128], piece: *const u8, n: usize) -> u32;
    fn ripemd_finish(state: &[u8; 128], out: *mut u8, n: usize) -> u32;
    fn ripemd_one_shot128(message: *const u8, m: usize, out: *mut u8, n: usize) -> u32;
    fn ripemd_one_shot160(message: *const u8, m: usize, out: *mut u8, n: usize) -> u32;
    fn ripemd_one_shot256(message: *const u8, m: usize, out: *mut u8, n: usize) -> u32;
    fn ripemd_one_shot320(message: *const u8, m: usize, out: *mut u8, n: usize) -> u32;
    #[cfg(openssl)]
    fn openssl_160(message: *const u8, n: usize, out: *mut u8);
    #[cfg(nettle)]
    fn nettle_160(message: *const u8, n: usize, out: *mut u8);
    #[cfg(gcrypt)]
    fn gcrypt_160(message: *const u8, n: usize, out: *mut u8);
    #[cfg(cryptopp)]
    fn cryptopp(width: usize, message: *const u8, n: usize, out: *mut u8);
}

type Hash = Box<dyn Fn(&[u8], &mut [u8])>;

/// The library's calls that have the width in their name.
fn named(width: usize) -> (Fresh, OneShot) {
    match width {
        128 => (ripemd_fresh128, ripemd_one_shot128),
        160 => (ripemd_fresh160, ripemd_one_shot160),
        256 => (ripemd_fresh256, ripemd_one_shot256),
        _ => (ripemd_fresh320, ripemd_one_shot320),
    }
}

fn ours(width: usize) -> Hash {
    let (_, call) = named(width);
    Box::new(move |m, out| assert_eq!(unsafe { call(m.as_ptr(), m.len(), out.as_mut_ptr(), out.len()) }, 0))
}

/// Feeds pieces of n bytes to the library and finishes.
fn ours_in_pieces(width: usize, n: usize) -> Hash {
    let (fresh, _) = named(width);
    Box::new(move |m, out| unsafe {
        let mut state = [0; 128];
        fresh(&mut state);
        for piece in m.chunks(n) {
            assert_eq!(ripemd_feed(&mut state, black_box(piece).as_ptr(), piece.len()), 0);
        }
        assert_eq!(ripemd_finish(&state, out.as_mut_ptr(), out.len()), 0);
    })
}

fn rust(width: usize) -> Hash {
    rust_in_pieces(width, usize::MAX)
}

/// The same by the Rust crate.
fn rust_in_pieces(width: usize, n: usize) -> Hash {
    fn of<H: Hasher>(n: usize) -> Hash {
        Box::new(move |m, out| {
            let mut state = H::new();
            m.chunks(n.min(m.len().max(1))).for_each(|piece| state.update(black_box(piece)));
            state.finish(out)
        })
    }
    match width {
        128 => of::<Rust128>(n),
        160 => of::<Rust160>(n),
        256 => of::<Rust256>(n),
        _ => of::<Rust320>(n),
    }
}

/// The C libraries that bench/run found, at one width.
#[allow(unused_mut, unused_variables)]
fn others(width: usize) -> Vec<(&'static str, Hash)> {
    let mut all: Vec<(&'static str, Hash)> = vec![];
    if width == 160 {
        #[cfg(openssl)]
        all.push(("OpenSSL", Box::new(|m, out| unsafe { openssl_160(m.as_ptr(), m.len(), out.as_mut_ptr()) })));
        #[cfg(nettle)]
        all.push(("nettle", Box::new(|m, out| unsafe { nettle_160(m.as_ptr(), m.len(), out.as_mut_ptr()) })));
        #[cfg(gcrypt)]
        all.push(("libgcrypt", Box::new(|m, out| unsafe { gcrypt_160(m.as_ptr(), m.len(), out.as_mut_ptr()) })));
    }
    #[cfg(cryptopp)]
    all.push(("Crypto++", Box::new(move |m, out| unsafe { cryptopp(width, m.as_ptr(), m.len(), out.as_mut_ptr()) })));
    all
}

/// Engines on one message, and the least time of each so far, in ns for each of `units`.
struct Race<'a> {
    title: String,
    width: usize,
    message: &'a [u8],
    units: f64,
    engines: Vec<(&'static str, Hash)>,
    best: Vec<f64>,
}

impl<'a> Race<'a> {
    fn new(title: impl Into<String>, width: usize, message: &'a [u8], units: f64, engines: Vec<(&'static str, Hash)>) -> Self {
        let best = vec![f64::MAX; engines.len()];
        Race { title: title.into(), width, message, units, engines, best }
    }

    /// Times each engine once more, one after the other; the digests must agree.
    fn turn(&mut self) {
        let calls = (20_000 / (self.message.len() + 64)).max(1);
        let mut want = vec![0; self.width / 8];
        self.engines[0].1(self.message, &mut want);
        for ((name, hash), best) in self.engines.iter().zip(&mut self.best) {
            let mut out = vec![0; self.width / 8];
            let begun = Instant::now();
            for _ in 0..calls {
                hash(black_box(self.message), &mut out);
            }
            *best = best.min(begun.elapsed().as_nanos() as f64 / calls as f64 / self.units);
            assert_eq!(out, want, "{name} gives another digest: {}, width {}", self.title, self.width);
        }
    }

    fn rows(&self) -> Vec<Row> {
        let row = |((engine, _), ns): (&(&'static str, Hash), &f64)| Row { title: self.title.clone(), width: self.width, engine, ns: *ns, ratio: ns / self.best[0] };
        self.engines.iter().zip(&self.best).map(row).collect()
    }
}

fn main() {
    let turns = std::env::args().nth(1).and_then(|n| n.parse().ok()).unwrap_or(300);
    let message: Vec<u8> = (0..65536u32).map(|i| (i.wrapping_mul(2_654_435_761) >> 24) as u8).collect();
    let mut races = vec![];
    for width in [128, 160, 256, 320] {
        let mut engines = vec![("Rust crate", rust(width)), ("this library", ours(width))];
        engines.extend(others(width));
        races.push(Race::new("long message, a block", width, &message, 1024.0, engines));
        for n in [0, 16, 64, 200] {
            let engines = vec![("Rust crate", rust(width)), ("this library", ours(width))];
            races.push(Race::new(format!("one_shot of {n} bytes"), width, &message[..n], 1.0, engines));
        }
        for n in [1, 7, 32, 64, 4096] {
            let whole = &message[..16384 / n * n];
            let engines = vec![("Rust crate", rust_in_pieces(width, n)), ("this library", ours_in_pieces(width, n))];
            races.push(Race::new(format!("feed of {n} bytes"), width, whole, (whole.len() / n) as f64, engines));
        }
    }
    // The turns of all races alternate, so that what disturbs the machine for a second spoils a few turns of each and not one race.
    for _ in 0..turns {
        races.iter_mut().for_each(Race::turn);
    }
    let rows: Vec<Row> = races.iter().flat_map(Race::rows).collect();
    report::write(&rows);
}
