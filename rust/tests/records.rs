//! Records across a restart, what is refused there, and every `Error` with its number and words.

use ripemd::Error;
use std::io::Write;

const MESSAGE: &[u8; 200] = &[0x5a; 200];

/// The highest block count that is accepted, as a record has it.
const LAST_COUNT: [u8; 8] = ((1u64 << 55) - 1).to_le_bytes();

macro_rules! records {
    ($width:ident, $name:ident) => {
        mod $width {
            use super::*;
            use ripemd::$name;

            const DIGEST: usize = $name::DIGEST_LENGTH;
            const RECORD: usize = $name::RECORD_LENGTH;

            fn at_last_count() -> $name {
                let mut record = $name::new().serialize().unwrap();
                record[DIGEST..].copy_from_slice(&LAST_COUNT);
                $name::deserialize(&record).unwrap()
            }

            #[test]
            fn a_restart_at_every_block() {
                for taken in [0, 64, 128, 192] {
                    let mut before = $name::new();
                    before.update(&MESSAGE[..taken]);
                    let record = before.serialize().unwrap();
                    assert_eq!(record[DIGEST..], (taken as u64 / 64).to_le_bytes());
                    let mut after = $name::deserialize(&record).unwrap();
                    assert_eq!(after.serialize().unwrap(), record);
                    after.update(&MESSAGE[taken..]);
                    assert_eq!(after.finalize(), $name::digest(MESSAGE));
                }
            }

            #[test]
            fn no_record_in_mid_block() {
                for taken in (1..64).chain(65..128) {
                    let mut hasher = $name::new();
                    hasher.update(&MESSAGE[..taken]);
                    assert_eq!(hasher.serialize(), Err(Error::MidBlock));
                    assert_eq!(hasher.finalize(), $name::digest(&MESSAGE[..taken]));
                }
            }

            #[test]
            fn records_of_another_length() {
                for length in (0..64).filter(|length| *length != RECORD) {
                    let refused = $name::deserialize(&[0; 64][..length]).unwrap_err();
                    assert_eq!(refused, Error::RecordLength);
                }
            }

            #[test]
            fn a_count_too_high() {
                let mut record = [0; RECORD];
                record[DIGEST..].copy_from_slice(&(1u64 << 55).to_le_bytes());
                assert_eq!($name::deserialize(&record).unwrap_err(), Error::RecordCount);
            }

            #[test]
            fn no_blocks_and_other_words() {
                assert_eq!(
                    $name::deserialize(&[0; RECORD]).unwrap_err(),
                    Error::RecordWords
                );
                let fresh = $name::new().serialize().unwrap();
                for bit in 0..8 * DIGEST {
                    let mut record = fresh;
                    record[bit / 8] ^= 1 << (bit % 8);
                    assert_eq!($name::deserialize(&record).unwrap_err(), Error::RecordWords);
                    record[DIGEST] = 1;
                    assert_eq!($name::deserialize(&record).unwrap().serialize(), Ok(record));
                }
            }

            #[test]
            fn the_last_bytes_of_the_longest_message() {
                let mut hasher = at_last_count();
                let before = hasher.peek();
                assert_eq!(hasher.try_update(&MESSAGE[..64]), Err(Error::TooLong));
                assert_eq!(hasher.peek(), before);
                hasher.try_update(&MESSAGE[..63]).unwrap();
                assert_eq!(hasher.try_update(&[0]), Err(Error::TooLong));
                let refused = hasher.write(&[0]).unwrap_err();
                assert_eq!(
                    *refused.into_inner().unwrap().downcast::<Error>().unwrap(),
                    Error::TooLong
                );
            }

            #[test]
            #[should_panic(expected = "the message would have 2^61 bytes or more")]
            fn update_panics_beyond() {
                at_last_count().update([0; 64]);
            }
        }
    };
}

records!(width128, Ripemd128);
records!(width160, Ripemd160);
records!(width256, Ripemd256);
records!(width320, Ripemd320);

#[test]
fn a_fresh_record_as_the_old_crate_wrote_it() {
    let mut want = [0; 28];
    want[..8].copy_from_slice(&[0x01, 0x23, 0x45, 0x67, 0x89, 0xab, 0xcd, 0xef]);
    want[8..16].copy_from_slice(&[0xfe, 0xdc, 0xba, 0x98, 0x76, 0x54, 0x32, 0x10]);
    want[16..20].copy_from_slice(&[0xf0, 0xe1, 0xd2, 0xc3]);
    assert_eq!(ripemd::Ripemd160::new().serialize(), Ok(want));
}

/// The names and numbers of the header's refusals.
fn of_the_header() -> Vec<(&'static str, u32)> {
    let lines = include_str!("../../include/ripemd.h").lines();
    let named = lines.filter_map(|line| {
        let (name, rest) = line.trim().strip_prefix("RIPEMD_")?.split_once(" = ")?;
        let digits = rest.split([',', ' ']).next()?;
        Some((name, digits.parse().ok()?))
    });
    named.filter(|(_, number)| *number != 0).collect()
}

#[test]
fn numbers_are_those_of_the_header() {
    let tail = Error::Tail { index: 40 };
    let spare = Error::SpareWord { index: 9 };
    let mut named = Vec::new();
    for (name, error, says) in [
        ("TOO_LONG", Error::TooLong, "2^61"),
        ("MID_BLOCK", Error::MidBlock, "a multiple of 64"),
        ("OUTPUT_LENGTH", Error::OutputLength, "its width is not"),
        ("RECORD_LENGTH", Error::RecordLength, "the wrong length"),
        ("RECORD_COUNT", Error::RecordCount, "2^55"),
        ("RECORD_WORDS", Error::RecordWords, "no blocks"),
        ("FILL", Error::Fill, "its fill is 64 or more"),
        ("COUNT", Error::Count, "its block count is 2^55 or more"),
        ("TAIL", tail, "byte 40 of its tail should be zero"),
        ("SPARE_WORD", spare, "word 9 should be zero at its width"),
        ("START", Error::Start, "wiped to zeros or never set"),
    ] {
        let told = error.to_string();
        assert!(told.contains(says), "{told}");
        assert!(told.contains(": "), "what to do follows a colon");
        let damaged = told.starts_with("the state is damaged: ");
        assert_eq!(damaged, told.contains("the last good record or sheet"));
        assert!(damaged || error.number() < 60);
        named.push((name, error.number()));
    }
    // No `Error` stands for the shape of a sheet.
    named.push(("SHEET_SHAPE", 8));
    named.sort_by_key(|(_, number)| *number);
    assert_eq!(of_the_header(), named);
}
