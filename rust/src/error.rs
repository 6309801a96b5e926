//! The refusals, by name.

use std::fmt;
use std::io;

/// Why a call was refused. A refused call changes nothing.
///
/// The cases from [`Fill`](Self::Fill) on say what is wrong with a state that was damaged in memory,
/// and of several faults the first in this order. No call of this crate makes such a state.
#[derive(Clone, Copy, Debug, PartialEq, Eq, Hash)]
#[non_exhaustive]
pub enum Error {
    /// The message would have 2^61 bytes or more; nothing of the piece was taken.
    TooLong,
    /// The bytes taken are not a multiple of 64, so there is no record of them.
    MidBlock,
    /// The output is not exactly of the width's length. This crate's arrays always are, unless the
    /// width itself was damaged in memory.
    OutputLength,
    /// The record is not exactly of the width's length.
    RecordLength,
    /// The record's block count is 2^55 or more.
    RecordCount,
    /// The record's block count is 0, and its words are not the width's initial ones.
    RecordWords,
    /// The state's fill, the bytes of the block that is not yet whole, is 64 or more.
    Fill,
    /// The state's block count is 2^55 or more.
    Count,
    /// The state's tail, the block that is not yet whole, is not zero from the fill on.
    Tail {
        /// The lowest such byte, from 0 to 63: byte 64 + `index` of the state's memory.
        index: usize,
    },
    /// The state has a word other than zero that its width does not use.
    SpareWord {
        /// The lowest such word, from 0 to 9: four bytes from 24 + 4 * `index` of the state's memory on.
        index: usize,
    },
    /// The state's block count is 0, and its words are not the width's initial ones.
    Start,
}

impl Error {
    /// Every case, those that have an index with this one.
    fn all(index: usize) -> [Error; 11] {
        [
            Error::TooLong,
            Error::MidBlock,
            Error::OutputLength,
            Error::RecordLength,
            Error::RecordCount,
            Error::RecordWords,
            Error::Fill,
            Error::Count,
            Error::Tail { index },
            Error::SpareWord { index },
            Error::Start,
        ]
    }

    /// The number that the library gives for this refusal, as in `include/ripemd.h`.
    pub fn number(self) -> u32 {
        match self {
            Error::TooLong => 1,
            Error::MidBlock => 2,
            Error::OutputLength => 3,
            Error::RecordLength => 4,
            Error::RecordCount => 5,
            Error::RecordWords => 7,
            Error::Fill => 60,
            Error::Count => 61,
            Error::Tail { .. } => 62,
            Error::SpareWord { .. } => 63,
            Error::Start => 64,
        }
    }

    /// What a number of the library says, with the index that it names: 0 is done, every other a
    /// refusal.
    pub(crate) fn told(number: u32, index: usize) -> Result<(), Error> {
        if number == 0 {
            return Ok(());
        }
        let named = Error::all(index)
            .into_iter()
            .find(|error| error.number() == number);
        Err(named.unwrap_or_else(|| unknown(number)))
    }
}

fn unknown(number: u32) -> ! {
    panic!("number {number} of libripemd_c.a is new to this crate: build both from one version")
}

/// Says what is wrong with a state, and what to do whatever it is.
fn damaged(f: &mut fmt::Formatter<'_>, wrong: fmt::Arguments<'_>) -> fmt::Result {
    write!(f, "the state is damaged: {wrong}: drop it, resume from the last good record or sheet, else from the first byte, and feed what follows; if this comes again, test the memory and look for code that writes outside its buffer")
}

impl fmt::Display for Error {
    fn fmt(&self, f: &mut fmt::Formatter<'_>) -> fmt::Result {
        match self {
            Error::TooLong => f.write_str("the message would have 2^61 bytes or more: finish it and begin another"),
            Error::MidBlock => f.write_str("bytes taken are not a multiple of 64: keep a sheet, or keep those after the last multiple and feed them after the restart"),
            Error::OutputLength => damaged(f, format_args!("its width is not the hasher's, so its first byte was changed")),
            Error::RecordLength => f.write_str("the record has the wrong length: take it whole: 24 bytes at width 128, 28 at 160, 40 at 256 and 48 at 320"),
            Error::RecordCount => f.write_str("the record's block count is 2^55 or more, so it is damaged: take another record"),
            Error::RecordWords => f.write_str("the record has no blocks and words that no message has then, so it is damaged or was wiped: take another record"),
            Error::Fill => damaged(f, format_args!("its fill is 64 or more, so its memory was changed or never set")),
            Error::Count => damaged(f, format_args!("its block count is 2^55 or more, so its memory was changed or never set")),
            Error::Tail { index } => damaged(f, format_args!("byte {index} of its tail should be zero, so that byte or the fill was changed")),
            Error::SpareWord { index } => damaged(f, format_args!("word {index} should be zero at its width, so that word or the width was changed")),
            Error::Start => damaged(f, format_args!("it has no blocks and words that no message has then, so its memory was changed, wiped to zeros or never set")),
        }
    }
}

impl std::error::Error for Error {}

impl From<Error> for io::Error {
    fn from(error: Error) -> io::Error {
        io::Error::new(io::ErrorKind::InvalidInput, error)
    }
}

/// Why a sheet was not taken.
#[derive(Clone, Copy, Debug, PartialEq, Eq, Hash)]
#[non_exhaustive]
pub enum SheetError {
    /// The text has not the shape of a sheet.
    Shape {
        /// How many bytes from the first on are as in some sheet: the next is wrong, or missing.
        place: usize,
        /// The line with that next byte, from 1 on. What follows a whole sheet is in line 5.
        line: usize,
    },
    /// The sheet's block count is 2^55 or more.
    Count,
    /// The sheet's block count is 0, and its words are not the width's initial ones.
    Words,
    /// The sheet is good, and of another width than the hasher.
    Width {
        /// The sheet's width.
        bits: u32,
    },
}

impl SheetError {
    /// The number that the library gives for this refusal, as in `include/ripemd.h`. It has none for
    /// [`Width`](Self::Width), since it reads sheets of every width in one call.
    pub fn number(self) -> Option<u32> {
        match self {
            SheetError::Shape { .. } => Some(8),
            SheetError::Count => Some(5),
            SheetError::Words => Some(7),
            SheetError::Width { .. } => None,
        }
    }

    /// What a number of the library says of a sheet, with the place that it names.
    pub(crate) fn told(number: u32, sheet: &[u8], place: usize) -> Result<(), SheetError> {
        match number {
            0 => Ok(()),
            5 => Err(SheetError::Count),
            7 => Err(SheetError::Words),
            8 => {
                let feeds = sheet[..place].iter().filter(|byte| **byte == b'\n');
                let line = 1 + feeds.count();
                Err(SheetError::Shape { place, line })
            }
            _ => unknown(number),
        }
    }
}

impl fmt::Display for SheetError {
    fn fmt(&self, f: &mut fmt::Formatter<'_>) -> fmt::Result {
        match self {
            SheetError::Shape { place, line } => write!(f, "the sheet goes wrong in line {line}, after {place} bytes in all: compare it with the paper up to there; each of the four lines ends with one line feed, and nothing follows"),
            SheetError::Count => f.write_str("the sheet's block count is 2^55 or more: compare line 2 with the paper"),
            SheetError::Words => f.write_str("the sheet has no blocks and words that no message has then: compare lines 2 and 3 with the paper"),
            SheetError::Width { bits } => write!(f, "the sheet is of width {bits}: read it with Ripemd{bits}, or take the sheet of this message"),
        }
    }
}

impl std::error::Error for SheetError {}

impl From<SheetError> for io::Error {
    fn from(error: SheetError) -> io::Error {
        io::Error::new(io::ErrorKind::InvalidInput, error)
    }
}

#[cfg(test)]
mod tests {
    use super::Error;

    #[test]
    fn numbers_both_ways() {
        for index in 0..64 {
            assert_eq!(Error::told(0, index), Ok(()));
            for error in Error::all(index) {
                assert_eq!(Error::told(error.number(), index), Err(error));
            }
        }
    }

    #[test]
    #[should_panic(expected = "build both from one version")]
    fn a_number_that_is_gone() {
        let _ = Error::told(6, 0);
    }
}
