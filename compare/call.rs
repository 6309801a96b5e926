//! A call of the library and its answer, in the terms that both sides of the comparison share.

use std::fmt;

pub type Image = [u8; 128];

#[derive(Clone, Copy, Debug, PartialEq)]
pub enum Width {
    W128,
    W160,
    W256,
    W320,
}

pub const WIDTHS: [Width; 4] = [Width::W128, Width::W160, Width::W256, Width::W320];

impl Width {
    pub fn bits(self) -> usize {
        match self {
            Width::W128 => 128,
            Width::W160 => 160,
            Width::W256 => 256,
            Width::W320 => 320,
        }
    }

    /// How many of the ten words this width uses.
    pub fn words(self) -> usize {
        self.bits() / 32
    }

    pub fn digest(self) -> usize {
        self.bits() / 8
    }

    pub fn record(self) -> usize {
        self.digest() + 8
    }
}

/// Bytes lent to be read.
#[derive(Clone, Copy)]
pub enum Input<'a> {
    Bytes(&'a [u8]),
    /// A length with no bytes behind it, for calls that must refuse it unread.
    Claimed(usize),
}

impl<'a> Input<'a> {
    pub fn length(self) -> usize {
        match self {
            Input::Bytes(bytes) => bytes.len(),
            Input::Claimed(length) => length,
        }
    }

    pub fn bytes(self) -> &'a [u8] {
        match self {
            Input::Bytes(bytes) => bytes,
            Input::Claimed(_) => &[],
        }
    }
}

/// A public call. A lone `usize` is the length of the output that is lent.
#[derive(Clone, Copy)]
pub enum Call<'a> {
    Fresh(Width),
    Reset,
    Fault,
    Feed(Input<'a>),
    Finish(usize),
    Export(usize),
    Import(Width, &'a [u8]),
    OneShot(Width, Input<'a>, usize),
    SheetLength,
    WriteSheet(usize),
    ReadSheet(&'a [u8]),
}

impl<'a> Call<'a> {
    pub fn input(&self) -> Input<'a> {
        match *self {
            Call::Feed(input) | Call::OneShot(_, input, _) => input,
            Call::Import(_, lent) | Call::ReadSheet(lent) => Input::Bytes(lent),
            _ => Input::Bytes(&[]),
        }
    }

    fn output_length(&self) -> usize {
        match *self {
            Call::Finish(length) | Call::Export(length) | Call::OneShot(_, _, length) | Call::WriteSheet(length) => length,
            _ => 0,
        }
    }

    /// The lent output as it is before the call, unlike any digest or sheet.
    pub fn output(&self) -> Vec<u8> {
        (0..self.output_length()).map(|at| 0xa5 ^ at as u8).collect()
    }

    /// The value's memory as it is before the call, unlike any length, place or index; 0 where the call
    /// gives no value.
    pub fn value(&self) -> u64 {
        match self {
            Call::Fault | Call::SheetLength | Call::ReadSheet(_) => 0xa5a5_a5a5_a5a5_a5a5,
            _ => 0,
        }
    }

    pub fn lends_an_empty_slice(&self) -> bool {
        match *self {
            Call::Fresh(_) | Call::Reset | Call::Fault | Call::SheetLength => false,
            Call::Feed(piece) => piece.length() == 0,
            Call::Finish(length) | Call::Export(length) | Call::WriteSheet(length) => length == 0,
            Call::Import(_, lent) | Call::ReadSheet(lent) => lent.is_empty(),
            Call::OneShot(_, message, length) => message.length() == 0 || length == 0,
        }
    }
}

/// All that is needed to repeat the call on the same state.
impl fmt::Display for Call<'_> {
    fn fmt(&self, f: &mut fmt::Formatter<'_>) -> fmt::Result {
        match self {
            Call::Fresh(width) => write!(f, "fresh{}", width.bits())?,
            Call::Reset => write!(f, "reset")?,
            Call::Fault => write!(f, "fault")?,
            Call::Feed(_) => write!(f, "feed")?,
            Call::Finish(length) => write!(f, "finish into {length} bytes")?,
            Call::Export(length) => write!(f, "export into {length} bytes")?,
            Call::Import(width, _) => write!(f, "import{}", width.bits())?,
            Call::OneShot(width, _, length) => write!(f, "one_shot{} into {length} bytes", width.bits())?,
            Call::SheetLength => write!(f, "sheet_length")?,
            Call::WriteSheet(length) => write!(f, "write_sheet into {length} bytes")?,
            Call::ReadSheet(_) => write!(f, "read_sheet")?,
        }
        match self.input() {
            Input::Bytes([]) => Ok(()),
            Input::Bytes(bytes) => {
                // Long enough for every random piece; only the million letters and some texts are longer.
                let beginning = &bytes[..bytes.len().min(3000)];
                let shown = if let Call::ReadSheet(_) = self { quoted(beginning) } else { hex(beginning) };
                write!(f, ", input of {} bytes {shown}", bytes.len())
            }
            Input::Claimed(length) => write!(f, ", input said to be of {length} bytes"),
        }
    }
}

/// All that a call may change, after it.
#[derive(PartialEq)]
pub struct Answer {
    pub number: u32,
    pub image: Image,
    pub output: Vec<u8>,
    /// What sheet_length gives, the place that read_sheet writes, or the index that fault writes; 0 for
    /// every other call.
    pub value: u64,
    /// Whether a byte beside the lent ones, or one lent to be read, was changed.
    pub spilt: bool,
}

impl fmt::Display for Answer {
    fn fmt(&self, f: &mut fmt::Formatter<'_>) -> fmt::Result {
        let output = if self.output.is_ascii() { quoted(&self.output) } else { hex(&self.output) };
        write!(f, "number {} value {} state {} output {output}", self.number, self.value, hex(&self.image))?;
        if self.spilt {
            write!(f, " and bytes changed that were not lent for it")?;
        }
        Ok(())
    }
}

/// The message that the fixed cases are cut from.
pub fn message(length: usize) -> Vec<u8> {
    (0..length).map(|at| (at * 7 + 3) as u8).collect()
}

pub fn hex(bytes: &[u8]) -> String {
    let digits = bytes.iter().flat_map(|byte| [byte >> 4, byte & 15]);
    digits.map(|digit| char::from_digit(digit.into(), 16).unwrap()).collect()
}

/// The bytes that are written in hex.
pub fn bytes(hex: &str) -> Vec<u8> {
    let pairs = (0..hex.len()).step_by(2).map(|at| &hex[at..at + 2]);
    pairs.map(|pair| u8::from_str_radix(pair, 16).unwrap()).collect()
}

fn quoted(text: &[u8]) -> String {
    format!("\"{}\"", text.escape_ascii())
}
