//! The same calls, answered by the library through its C face.

use crate::call::{Answer, Call, Image, Width};
use std::ptr::{self, NonNull};

type Fresh = unsafe extern "C" fn(state: *mut u8);
type Import = unsafe extern "C" fn(state: *mut u8, record: *const u8, n: usize) -> u32;
type OneShot = unsafe extern "C" fn(message: *const u8, m: usize, output: *mut u8, n: usize) -> u32;

extern "C" {
    fn ripemd_fresh128(state: *mut u8);
    fn ripemd_fresh160(state: *mut u8);
    fn ripemd_fresh256(state: *mut u8);
    fn ripemd_fresh320(state: *mut u8);
    fn ripemd_reset(state: *mut u8);
    fn ripemd_fault(state: *const u8, index: *mut u64) -> u32;
    fn ripemd_feed(state: *mut u8, piece: *const u8, n: usize) -> u32;
    fn ripemd_finish(state: *const u8, output: *mut u8, n: usize) -> u32;
    fn ripemd_export(state: *const u8, output: *mut u8, n: usize) -> u32;
    fn ripemd_import128(state: *mut u8, record: *const u8, n: usize) -> u32;
    fn ripemd_import160(state: *mut u8, record: *const u8, n: usize) -> u32;
    fn ripemd_import256(state: *mut u8, record: *const u8, n: usize) -> u32;
    fn ripemd_import320(state: *mut u8, record: *const u8, n: usize) -> u32;
    fn ripemd_one_shot128(message: *const u8, m: usize, output: *mut u8, n: usize) -> u32;
    fn ripemd_one_shot160(message: *const u8, m: usize, output: *mut u8, n: usize) -> u32;
    fn ripemd_one_shot256(message: *const u8, m: usize, output: *mut u8, n: usize) -> u32;
    fn ripemd_one_shot320(message: *const u8, m: usize, output: *mut u8, n: usize) -> u32;
    fn ripemd_sheet_length(state: *const u8) -> u64;
    fn ripemd_write_sheet(state: *const u8, output: *mut u8, n: usize) -> u32;
    fn ripemd_read_sheet(state: *mut u8, sheet: *const u8, n: usize, place: *mut u64) -> u32;
}

/// The calls that have the width in their name.
fn named(width: Width) -> (Fresh, Import, OneShot) {
    match width {
        Width::W128 => (ripemd_fresh128, ripemd_import128, ripemd_one_shot128),
        Width::W160 => (ripemd_fresh160, ripemd_import160, ripemd_one_shot160),
        Width::W256 => (ripemd_fresh256, ripemd_import256, ripemd_one_shot256),
        Width::W320 => (ripemd_fresh320, ripemd_import320, ripemd_one_shot320),
    }
}

/// Odd, so that nothing lent lies at an even address by chance.
const EDGE: usize = 33;
const EDGE_BYTE: u8 = 0xc3;

/// Bytes with an edge on each side, which shows a write beside them.
struct Guarded(Vec<u8>);

impl Guarded {
    fn new(bytes: &[u8]) -> Guarded {
        let mut all = vec![EDGE_BYTE; EDGE];
        all.extend(bytes);
        all.extend([EDGE_BYTE; EDGE]);
        Guarded(all)
    }

    fn bytes(&self) -> &[u8] {
        &self.0[EDGE..self.0.len() - EDGE]
    }

    /// Where the bytes begin; for no bytes the address that stands for an empty slice.
    fn pointer(&mut self, empty: *mut u8) -> *mut u8 {
        if self.bytes().is_empty() {
            return empty;
        }
        self.0[EDGE..].as_mut_ptr()
    }

    fn edges_changed(&self) -> bool {
        let (left, rest) = self.0.split_at(EDGE);
        let right = &rest[rest.len() - EDGE..];
        left.iter().chain(right).any(|byte| *byte != EDGE_BYTE)
    }
}

/// The addresses to try for an empty slice: what Rust hands over, and what C often does.
pub fn empty_pointers(call: &Call) -> Vec<*mut u8> {
    let mut pointers = vec![NonNull::dangling().as_ptr()];
    if call.lends_an_empty_slice() {
        pointers.push(ptr::null_mut());
    }
    pointers
}

pub fn answer(before: &Image, call: &Call, empty: *mut u8) -> Answer {
    let mut state = Guarded::new(before);
    let mut input = Guarded::new(call.input().bytes());
    let mut output = Guarded::new(&call.output());
    let mut value = Guarded::new(&call.value().to_le_bytes());
    let at = state.pointer(empty);
    let from = input.pointer(empty);
    let to = output.pointer(empty);
    let n = output.bytes().len();
    let beside = value.pointer(empty).cast();
    // SAFETY: every pointer goes with the length of its own buffer, the value's being eight bytes, or
    // with a claimed length that the call must refuse unread.
    let number = unsafe { raw(call, at, from, to, n, beside) };
    Answer {
        number,
        image: state.bytes().try_into().unwrap(),
        output: output.bytes().to_vec(),
        value: u64::from_le_bytes(value.bytes().try_into().unwrap()),
        spilt: [&state, &input, &output, &value].iter().any(|lent| lent.edges_changed()) || input.bytes() != call.input().bytes(),
    }
}

unsafe fn raw(call: &Call, state: *mut u8, from: *const u8, to: *mut u8, n: usize, value: *mut u64) -> u32 {
    let m = call.input().length();
    match *call {
        Call::Fresh(width) => {
            let (fresh, _, _) = named(width);
            fresh(state);
            0
        }
        Call::Reset => {
            ripemd_reset(state);
            0
        }
        Call::Fault => ripemd_fault(state, value),
        Call::Feed(_) => ripemd_feed(state, from, m),
        Call::Finish(_) => ripemd_finish(state, to, n),
        Call::Export(_) => ripemd_export(state, to, n),
        Call::Import(width, _) => {
            let (_, import, _) = named(width);
            import(state, from, m)
        }
        Call::OneShot(width, ..) => {
            let (_, _, one_shot) = named(width);
            one_shot(from, m, to, n)
        }
        Call::SheetLength => {
            value.write_unaligned(ripemd_sheet_length(state));
            0
        }
        Call::WriteSheet(_) => ripemd_write_sheet(state, to, n),
        Call::ReadSheet(_) => ripemd_read_sheet(state, from, m, value),
    }
}
