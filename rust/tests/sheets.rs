//! Sheets: read back after any number of bytes, and every refusal with its place.

use ripemd::{Error, Ripemd128, Ripemd160, Ripemd256, Ripemd320, SheetError};
use std::io;

const FRESH_160: &str = "width=160
blocks=0
words=0123456789abcdeffedcba9876543210f0e1d2c3
tail=
";

/// Where the value of `blocks` begins.
const BLOCKS: usize = 17;

/// No two bytes of a block are equal, so none can be lost or taken for another.
fn message() -> Vec<u8> {
    (0..200).collect()
}

fn hex(bytes: &[u8]) -> String {
    bytes.iter().map(|byte| format!("{byte:02x}")).collect()
}

fn text(bits: usize, blocks: u64, words: &[u8], tail: &[u8]) -> String {
    let (words, tail) = (hex(words), hex(tail));
    format!("width={bits}\nblocks={blocks}\nwords={words}\ntail={tail}\n")
}

/// The refusal of a text whose first `place` bytes are as in some sheet.
fn shape(sheet: &[u8], place: usize) -> Option<SheetError> {
    let line = sheet[..place].split(|byte| *byte == b'\n').count();
    Some(SheetError::Shape { place, line })
}

macro_rules! sheets {
    ($width:ident, $name:ident) => {
        mod $width {
            use super::*;

            const DIGEST: usize = $name::DIGEST_LENGTH;
            const BITS: usize = 8 * DIGEST;

            fn refused(sheet: impl AsRef<[u8]>) -> Option<SheetError> {
                $name::from_sheet(sheet).err()
            }

            /// A hasher that counts so many blocks, of whatever message, and then takes the tail.
            fn at(blocks: u64, tail: &[u8]) -> ($name, String) {
                let mut record = [0x5a; $name::RECORD_LENGTH];
                if blocks == 0 {
                    record = $name::new().serialize().unwrap();
                }
                record[DIGEST..].copy_from_slice(&blocks.to_le_bytes());
                let mut hasher = $name::deserialize(&record).unwrap();
                hasher.update(tail);
                (hasher, text(BITS, blocks, &record[..DIGEST], tail))
            }

            #[test]
            fn a_restart_at_every_byte() {
                let message = message();
                for taken in 0..=message.len() {
                    let mut before = $name::new();
                    before.update(&message[..taken]);
                    let sheet = before.to_sheet();
                    let mut after = $name::from_sheet(&sheet).unwrap();
                    assert_eq!(after.to_sheet(), sheet);
                    assert_eq!(after.peek(), before.finalize());
                    after.update(&message[taken..]);
                    assert_eq!(after.finalize(), $name::digest(&message), "after {taken}");
                }
            }

            #[test]
            fn every_fill_at_counts_of_every_length() {
                let message = message();
                let counts = (0..17).map(|digits| 10u64.pow(digits));
                for blocks in counts.chain([0, (1 << 55) - 2, (1 << 55) - 1]) {
                    for fill in 0..64 {
                        let (mut hasher, sheet) = at(blocks, &message[..fill]);
                        assert_eq!(hasher.to_sheet(), sheet);
                        let mut after = $name::from_sheet(&sheet).unwrap();
                        assert_eq!(after.to_sheet(), sheet);
                        assert_eq!(after.peek(), hasher.peek());
                        let next = &message[fill..fill + 70];
                        assert_eq!(after.try_update(next), hasher.try_update(next));
                        assert_eq!(after.finalize(), hasher.finalize());
                    }
                }
            }

            #[test]
            fn the_last_byte_of_the_longest_message() {
                let (_, sheet) = at((1 << 55) - 1, &[0x5a; 62]);
                let mut hasher = $name::from_sheet(sheet).unwrap();
                hasher.try_update(&[0]).unwrap();
                assert_eq!(hasher.try_update(&[0]), Err(Error::TooLong));
            }

            #[test]
            fn cut_short_or_with_more_behind() {
                for (blocks, fill) in [(0, 0), (0, 63), (12345, 20)] {
                    let (_, sheet) = at(blocks, &[0xab; 63][..fill]);
                    for cut in 0..sheet.len() {
                        let sheet = &sheet.as_bytes()[..cut];
                        assert_eq!(refused(sheet), shape(sheet, cut));
                    }
                    for behind in ["\n", "0", " ", "\0", "tail=\n", &sheet] {
                        let long = sheet.clone() + behind;
                        let place = sheet.len();
                        assert_eq!(refused(long), Some(SheetError::Shape { place, line: 5 }));
                    }
                }
            }

            #[test]
            fn no_other_byte_anywhere() {
                let (_, sheet) = at(12345, &[0xab; 20]);
                for place in 0..sheet.len() {
                    for other in [b'\r', b' ', b'-', b'/', b':', b'`', b'g', 0, 0x80, 0xff] {
                        let mut wrong = sheet.clone().into_bytes();
                        wrong[place] = other;
                        assert_eq!(refused(&wrong), shape(&wrong, place));
                    }
                    let mut upper = sheet.clone().into_bytes();
                    upper[place].make_ascii_uppercase();
                    if upper != sheet.as_bytes() {
                        assert_eq!(refused(&upper), shape(&upper, place));
                    }
                }
                let ends = sheet.replace('\n', "\r\n");
                assert_eq!(refused(&ends), shape(ends.as_bytes(), 9));
            }

            #[test]
            fn blocks_of_another_shape() {
                let (_, sheet) = at(1, &[]);
                for (blocks, right) in [
                    ("", 0),
                    ("+1", 0),
                    ("00", 1),
                    ("01", 1),
                    ("1a", 1),
                    ("123456789012345678", 17),
                    ("999999999999999999", 17),
                ] {
                    let wrong = sheet.replace("blocks=1", &format!("blocks={blocks}"));
                    assert_eq!(refused(&wrong), shape(wrong.as_bytes(), BLOCKS + right));
                }
            }

            #[test]
            fn words_of_another_width() {
                for other in [128, 160, 256, 320] {
                    if other == BITS {
                        continue;
                    }
                    let wrong = text(BITS, 1, &[0x5a; 40][..other / 8], &[0x5a; 63]);
                    let digits = BITS.min(other) / 4;
                    let place = "width=160\nblocks=1\nwords=".len() + digits;
                    assert_eq!(refused(&wrong), shape(wrong.as_bytes(), place));
                }
            }

            #[test]
            fn tails_of_another_length() {
                let (_, sheet) = at(1, &[]);
                let start = sheet.len() - 1;
                for digits in (1..128).step_by(2).chain([128, 130]) {
                    let wrong = format!("{}{}\n", &sheet[..start], &"a5".repeat(65)[..digits]);
                    let place = start + digits.min(126);
                    assert_eq!(refused(&wrong), shape(wrong.as_bytes(), place));
                }
            }

            #[test]
            fn a_count_too_high() {
                let (_, sheet) = at(1, &[0x5a; 5]);
                for blocks in [1 << 55, (1 << 55) + 1, 99_999_999_999_999_999u64] {
                    let high = sheet.replace("blocks=1", &format!("blocks={blocks}"));
                    assert_eq!(refused(&high), Some(SheetError::Count));
                    let behind = high + "\n";
                    assert_eq!(refused(&behind), shape(behind.as_bytes(), behind.len() - 1));
                }
            }

            #[test]
            fn no_blocks_and_other_words() {
                let fresh = $name::new().serialize().unwrap();
                for bit in 0..BITS {
                    let mut words = fresh[..DIGEST].to_vec();
                    words[bit / 8] ^= 1 << (bit % 8);
                    for tail in [&[0x5a; 63][..], &[]] {
                        let sheet = text(BITS, 0, &words, tail);
                        assert_eq!(refused(sheet), Some(SheetError::Words));
                        let sheet = text(BITS, 1, &words, tail);
                        assert_eq!($name::from_sheet(&sheet).unwrap().to_sheet(), sheet);
                    }
                }
            }

            #[test]
            fn sheets_of_another_width() {
                for (bits, sheet) in [
                    (128, Ripemd128::new().to_sheet()),
                    (160, Ripemd160::new().to_sheet()),
                    (256, Ripemd256::new().to_sheet()),
                    (320, Ripemd320::new().to_sheet()),
                ] {
                    let want = (bits != BITS as u32).then_some(SheetError::Width { bits });
                    assert_eq!(refused(sheet), want);
                }
            }
        }
    };
}

sheets!(width128, Ripemd128);
sheets!(width160, Ripemd160);
sheets!(width256, Ripemd256);
sheets!(width320, Ripemd320);

#[test]
fn a_fresh_sheet() {
    assert_eq!(FRESH_160.len(), 72);
    assert_eq!(Ripemd160::new().to_sheet(), FRESH_160);
    let hasher = Ripemd160::from_sheet(FRESH_160).unwrap();
    assert_eq!(hasher.finalize(), Ripemd160::digest(""));
}

#[test]
fn widths_that_there_are_not() {
    for (width, right) in [("", 0), ("0", 0), ("130", 1), ("16", 2), ("1600", 3)] {
        let wrong = FRESH_160.replace("160", width);
        let (place, line) = (6 + right, 1);
        let refused = Ripemd160::from_sheet(wrong).unwrap_err();
        assert_eq!(refused, SheetError::Shape { place, line });
    }
}

#[test]
fn numbers_and_what_to_do() {
    const SHAPE: SheetError = SheetError::Shape { place: 26, line: 3 };
    let header = include_str!("../../include/ripemd.h");
    for (error, name, says) in [
        (SHAPE, Some("SHEET_SHAPE"), "line 3, after 26 bytes"),
        (SheetError::Count, Some("RECORD_COUNT"), "line 2"),
        (SheetError::Words, Some("RECORD_WORDS"), "lines 2 and 3"),
        (SheetError::Width { bits: 320 }, None, "Ripemd320"),
    ] {
        assert_eq!(error.number().is_some(), name.is_some());
        if let (Some(number), Some(name)) = (error.number(), name) {
            assert!(header.contains(&format!("RIPEMD_{name} = {number}")));
        }
        let told = error.to_string();
        assert!(told.contains(says), "{told}");
        assert!(told.contains(": "), "what to do follows a colon");
        let inside = io::Error::from(error).into_inner().unwrap();
        assert_eq!(*inside.downcast::<SheetError>().unwrap(), error);
    }
}
