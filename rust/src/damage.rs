//! Damaged states, which no caller of the crate can make: every fault, with its index.

use crate::ffi::{self, Image, Width};
use crate::{Error, Ripemd128, Ripemd160, Ripemd256, Ripemd320};
use std::io::Write;
use std::panic::{catch_unwind, UnwindSafe};

/// Every width, with the words that it uses.
const WIDTHS: [(Width, usize); 4] = [
    (ffi::W128, 4),
    (ffi::W160, 5),
    (ffi::W256, 8),
    (ffi::W320, 10),
];

// Where the parts of an image begin, as in `include/ripemd.h`.
const COUNT: usize = 8;
const FILL: usize = 16;
const WORDS: usize = 24;
const TAIL: usize = 64;

fn fed(width: Width, taken: usize) -> Image {
    let mut image = ffi::fresh(width);
    ffi::feed(&mut image, &[0x5a; 200][..taken]).unwrap();
    image
}

fn with(mut image: Image, place: usize, bytes: &[u8]) -> Image {
    image[place..place + bytes.len()].copy_from_slice(bytes);
    image
}

/// Holds that each call refuses the state with this error, whatever is lent, and writes nothing.
fn refused(image: &Image, error: Error) {
    assert_eq!(ffi::check(image), Err(error));
    for piece in [&[][..], &[0x5a; 200]] {
        let mut after = *image;
        assert_eq!(ffi::feed(&mut after, piece), Err(error));
        assert_eq!(after, *image);
    }
    let mut output = [0xa5; 48];
    for length in [0, 16, 20, 24, 28, 32, 40, 48] {
        assert_eq!(ffi::finish(image, &mut output[..length]), Err(error));
        assert_eq!(ffi::export(image, &mut output[..length]), Err(error));
    }
    assert_eq!(output, [0xa5; 48]);
    assert_eq!(ffi::write_sheet(image), Err(error));
}

#[test]
fn sound() {
    for (width, _) in WIDTHS {
        let mut image = ffi::fresh(width);
        for taken in 0..200 {
            assert_eq!(ffi::check(&image), Ok(()), "after {taken}");
            ffi::feed(&mut image, &[0x5a]).unwrap();
        }
    }
}

#[test]
fn fill_and_count() {
    for taken in [0, 1, 63, 64, 100] {
        for (width, _) in WIDTHS {
            let image = fed(width, taken);
            for fill in [64, 65, 256, 1 << 32, u64::MAX] {
                refused(&with(image, FILL, &fill.to_le_bytes()), Error::Fill);
            }
            for count in [1 << 55, (1 << 55) + 1, u64::MAX] {
                refused(&with(image, COUNT, &count.to_le_bytes()), Error::Count);
            }
        }
    }
}

#[test]
fn every_byte_of_the_tail() {
    for fill in 0..64 {
        for (width, _) in WIDTHS {
            let image = fed(width, 64 + fill);
            for index in 0..fill {
                let lower = with(image, FILL, &[index as u8]);
                refused(&lower, Error::Tail { index });
            }
            for index in fill..64 {
                let error = Error::Tail { index };
                refused(&with(image, TAIL + index, &[0x80]), error);
                refused(&with(image, TAIL + index, &[1; 64][index..]), error);
            }
        }
    }
}

#[test]
fn every_spare_word() {
    for taken in [0, 1, 64, 100] {
        for (width, used) in WIDTHS {
            let image = fed(width, taken);
            for index in used..10 {
                let error = Error::SpareWord { index };
                let place = WORDS + 4 * index;
                for byte in 0..4 {
                    refused(&with(image, place + byte, &[0x80]), error);
                }
                refused(&with(image, place, &[1; 40][4 * index..]), error);
            }
        }
    }
}

#[test]
fn every_word_of_a_start() {
    for taken in [0, 1, 63] {
        for (width, used) in WIDTHS {
            let image = fed(width, taken);
            for place in WORDS..WORDS + 4 * used {
                let other = with(image, place, &[image[place] ^ 1]);
                refused(&other, Error::Start);
                assert_eq!(ffi::check(&with(other, COUNT, &[1])), Ok(()));
            }
        }
    }
    for width in 0..4 {
        refused(&with([0; 128], 0, &[width]), Error::Start);
    }
}

#[test]
fn the_first_of_several() {
    for (width, used) in WIDTHS {
        // At width 320 no word is spare, and another word 9 is a wrong start.
        let word = match used {
            10 => Error::Start,
            _ => Error::SpareWord { index: 9 },
        };
        let faults: [(usize, &[u8], Error); 5] = [
            (FILL, &[64], Error::Fill),
            (COUNT + 7, &[0x80], Error::Count),
            (TAIL + 40, &[1], Error::Tail { index: 40 }),
            (WORDS + 4 * 9, &[1], word),
            (WORDS, &[0; 4], Error::Start),
        ];
        let fresh = ffi::fresh(width);
        for chosen in 1..32u32 {
            let mut image = fresh;
            for (i, (place, bytes, _)) in faults.iter().enumerate() {
                if chosen >> i & 1 == 1 {
                    image = with(image, *place, bytes);
                }
            }
            refused(&image, faults[chosen.trailing_zeros() as usize].2);
        }
    }
}

/// What a call says that panics.
fn panics<T>(call: impl FnOnce() -> T + UnwindSafe) -> String {
    *catch_unwind(call).err().unwrap().downcast().unwrap()
}

macro_rules! hashers {
    ($test:ident, $name:ident) => {
        #[test]
        fn $test() {
            let error = Error::Tail { index: 40 };
            let mut hasher = $name::new();
            hasher.update("abc");
            hasher.image[TAIL + 40] = 1;
            assert_eq!(hasher.check(), Err(error));
            assert_eq!(hasher.try_update(b"d"), Err(error));
            assert_eq!(hasher.serialize(), Err(error));
            let inside = hasher.write(b"d").unwrap_err().into_inner().unwrap();
            assert_eq!(*inside.downcast::<Error>().unwrap(), error);
            for (call, said) in [
                ("update", panics(|| hasher.clone().update("d"))),
                ("peek", panics(|| hasher.peek())),
                ("peek", panics(|| hasher.clone().finalize())),
                ("peek", panics(|| hasher.clone().finalize_reset())),
                ("to_sheet", panics(|| hasher.to_sheet())),
            ] {
                assert_eq!(said, format!("{}::{call}: {error}", stringify!($name)));
            }
        }
    };
}

hashers!(hasher128, Ripemd128);
hashers!(hasher160, Ripemd160);
hashers!(hasher256, Ripemd256);
hashers!(hasher320, Ripemd320);

#[test]
fn one_width_for_another() {
    let mut hasher = Ripemd160::new();
    hasher.update([0x5a; 64]);
    hasher.image[0] = 1;
    assert_eq!(hasher.check(), Ok(()));
    assert_eq!(hasher.serialize(), Err(Error::OutputLength));
    assert!(panics(|| hasher.peek()).contains("its width is not the hasher's"));
}
