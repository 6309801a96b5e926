//! The calls of `include/ripemd.h`, made safe. All `unsafe` code of the crate is here.
#![allow(unsafe_code)]

use crate::{Error, SheetError};

/// The memory of a state; the library alone writes it, so only damage from outside can spoil it.
pub(crate) type Image = [u8; 128];

extern "C" {
    fn ripemd_reset(state: &mut Image);
    fn ripemd_fault(state: &Image, index: &mut u64) -> u32;
    fn ripemd_feed(state: &mut Image, piece: *const u8, n: usize) -> u32;
    fn ripemd_finish(state: &Image, output: *mut u8, n: usize) -> u32;
    fn ripemd_export(state: &Image, output: *mut u8, n: usize) -> u32;
    fn ripemd_sheet_length(state: &Image) -> u64;
    fn ripemd_write_sheet(state: &Image, output: *mut u8, n: usize) -> u32;
    fn ripemd_read_sheet(state: &mut Image, sheet: *const u8, n: usize, place: &mut u64) -> u32;
}

/// The calls that have a width in their name, since no state tells it.
pub(crate) struct Width {
    fresh: unsafe extern "C" fn(state: &mut Image),
    import: unsafe extern "C" fn(state: &mut Image, record: *const u8, n: usize) -> u32,
    one_shot: unsafe extern "C" fn(message: *const u8, m: usize, output: *mut u8, n: usize) -> u32,
}

macro_rules! width {
    ($name:ident, $fresh:ident, $import:ident, $one_shot:ident) => {
        extern "C" {
            fn $fresh(state: &mut Image);
            fn $import(state: &mut Image, record: *const u8, n: usize) -> u32;
            fn $one_shot(message: *const u8, m: usize, output: *mut u8, n: usize) -> u32;
        }

        pub(crate) const $name: Width = Width {
            fresh: $fresh,
            import: $import,
            one_shot: $one_shot,
        };
    };
}

width!(W128, ripemd_fresh128, ripemd_import128, ripemd_one_shot128);
width!(W160, ripemd_fresh160, ripemd_import160, ripemd_one_shot160);
width!(W256, ripemd_fresh256, ripemd_import256, ripemd_one_shot256);
width!(W320, ripemd_fresh320, ripemd_import320, ripemd_one_shot320);

// Why each call below is safe: a reference is to memory that nobody else changes meanwhile; a
// pointer and a length come from one slice, which is lent until the call ends; and the library
// keeps no pointer, reads and writes nothing else, and takes any bytes without a precondition.

pub(crate) fn fresh(width: Width) -> Image {
    let mut image = [0; 128];
    // SAFETY: `image` is a local of the right length.
    unsafe { (width.fresh)(&mut image) };
    image
}

pub(crate) fn reset(image: &mut Image) {
    // SAFETY: `image` is borrowed for this call alone.
    unsafe { ripemd_reset(image) }
}

/// The number for what is wrong with the state, 0 for nothing, and the index that goes with it.
fn fault(image: &Image) -> (u32, usize) {
    let mut index = 0;
    // SAFETY: `image` is only read; `index` is a local of the right type.
    let number = unsafe { ripemd_fault(image, &mut index) };
    (number, index as usize)
}

pub(crate) fn check(image: &Image) -> Result<(), Error> {
    let (number, index) = fault(image);
    Error::told(number, index)
}

/// What the number of a call on this state says. The call itself tells no index, and a refused one
/// leaves the state as it was, so it can be asked for here.
fn told(number: u32, image: &Image) -> Result<(), Error> {
    match number {
        0 => Ok(()),
        _ => Error::told(number, fault(image).1),
    }
}

pub(crate) fn feed(image: &mut Image, piece: &[u8]) -> Result<(), Error> {
    // SAFETY: `image` is borrowed for this call alone; `piece` is read within its length.
    let number = unsafe { ripemd_feed(image, piece.as_ptr(), piece.len()) };
    told(number, image)
}

pub(crate) fn finish(image: &Image, output: &mut [u8]) -> Result<(), Error> {
    // SAFETY: `image` is only read; `output` is borrowed for this call and written within its length.
    let number = unsafe { ripemd_finish(image, output.as_mut_ptr(), output.len()) };
    told(number, image)
}

pub(crate) fn export(image: &Image, output: &mut [u8]) -> Result<(), Error> {
    // SAFETY: `image` is only read; `output` is borrowed for this call and written within its length.
    let number = unsafe { ripemd_export(image, output.as_mut_ptr(), output.len()) };
    told(number, image)
}

pub(crate) fn import(width: Width, record: &[u8]) -> Result<Image, Error> {
    let mut image = [0; 128];
    // SAFETY: `image` is a local of the right length; `record` is read within its length.
    let number = unsafe { (width.import)(&mut image, record.as_ptr(), record.len()) };
    Error::told(number, 0)?;
    Ok(image)
}

pub(crate) fn write_sheet(image: &Image) -> Result<Vec<u8>, Error> {
    // SAFETY: `image` is only read.
    let length = unsafe { ripemd_sheet_length(image) };
    let mut sheet = vec![0; length as usize];
    // SAFETY: `image` is only read; `sheet` is a local and written within its length.
    let number = unsafe { ripemd_write_sheet(image, sheet.as_mut_ptr(), sheet.len()) };
    told(number, image)?;
    Ok(sheet)
}

pub(crate) fn read_sheet(width: Width, sheet: &[u8]) -> Result<Image, SheetError> {
    let mut image = [0; 128];
    let mut place = 0;
    // SAFETY: `image` and `place` are locals of the right type; `sheet` is read within its length.
    let number = unsafe { ripemd_read_sheet(&mut image, sheet.as_ptr(), sheet.len(), &mut place) };
    SheetError::told(number, sheet, place as usize)?;
    // The library reads a sheet of any width, and byte 0 of the image, modulo 4, tells which.
    let own = image[0] % 4;
    if own != fresh(width)[0] % 4 {
        let bits = [160, 320, 128, 256][usize::from(own)];
        return Err(SheetError::Width { bits });
    }
    Ok(image)
}

pub(crate) fn one_shot(width: Width, message: &[u8], output: &mut [u8]) -> Result<(), Error> {
    // SAFETY: `message` is read and `output` written within their lengths; they cannot overlap.
    let number = unsafe {
        (width.one_shot)(
            message.as_ptr(),
            message.len(),
            output.as_mut_ptr(),
            output.len(),
        )
    };
    Error::told(number, 0)
}
