//! The state sheet as text: how it is written, which texts have its shape, and how far any text goes
//! together with a sheet.

use crate::call::{bytes, hex, Width, WIDTHS};

pub struct Sheet {
    pub width: Width,
    pub count: u64,
    pub words: Vec<u8>,
    pub tail: Vec<u8>,
}

impl Sheet {
    pub fn text(&self) -> Vec<u8> {
        lines(self.width, &self.count.to_string(), &hex(&self.words), &hex(&self.tail)).into()
    }

    /// What a text of a sheet's shape says; None for any other text.
    pub fn read(text: &[u8]) -> Option<Sheet> {
        let (width, count, words, tail) = values(text)?;
        Some(Sheet { width, count: count.parse().unwrap(), words: bytes(words), tail: bytes(tail) })
    }
}

fn first_line(width: Width) -> &'static str {
    match width {
        Width::W128 => "width=128",
        Width::W160 => "width=160",
        Width::W256 => "width=256",
        Width::W320 => "width=320",
    }
}

/// The four lines with these values.
pub fn lines(width: Width, count: &str, words: &str, tail: &str) -> String {
    [first_line(width), "\nblocks=", count, "\nwords=", words, "\ntail=", tail, "\n"].concat()
}

/// The four values of a text of a sheet's shape.
fn values(text: &[u8]) -> Option<(Width, &str, &str, &str)> {
    let text = std::str::from_utf8(text).ok()?;
    let lines: Vec<&str> = text.split('\n').collect();
    let [width, count, words, tail, ""] = lines[..] else {
        return None;
    };
    let width = WIDTHS.into_iter().find(|known| first_line(*known) == width)?;
    let count = count.strip_prefix("blocks=").filter(|count| is_count(count))?;
    let words = words.strip_prefix("words=").filter(|words| is_hex(words) && words.len() == 2 * width.digest())?;
    let tail = tail.strip_prefix("tail=").filter(|tail| is_hex(tail) && tail.len() <= 2 * 63)?;
    Some((width, count, words, tail))
}

/// Whether this is how a number below 10^17 is written.
fn is_count(text: &str) -> bool {
    text.len() <= 17 && text.parse::<u64>().is_ok_and(|number| number.to_string() == text)
}

fn is_hex(text: &str) -> bool {
    text.len() % 2 == 0 && text.bytes().all(|digit| matches!(digit, b'0'..=b'9' | b'a'..=b'f'))
}

/// Whether some sheet begins with these bytes. If one does, then so does one that goes on from them
/// plainly: it has no more digits of the count than they have, or a single 1, no more bytes of the
/// tail than they have begun, and zeros for the digits that are missing. So that one is tried.
fn begins_a_sheet(beginning: &[u8]) -> bool {
    let found: Vec<&[u8]> = beginning.split(|byte| *byte == b'\n').collect();
    let digits = |line: usize, key: &str| found.get(line).map_or(0, |line| line.len().saturating_sub(key.len()));
    let count = "1".repeat(digits(1, "blocks=").max(1));
    let tail = "00".repeat(digits(3, "tail=").div_ceil(2));
    let may_be = |width: &Width| first_line(*width).as_bytes().starts_with(found[0]);
    WIDTHS.into_iter().filter(may_be).any(|width| {
        let plain = lines(width, &count, &"00".repeat(width.digest()), &tail);
        let missing = plain.as_bytes().get(beginning.len()..).unwrap_or_default();
        values(&[beginning, missing].concat()).is_some()
    })
}

/// The length of the text's longest beginning that some sheet begins with. Halving finds it, as every
/// beginning of a sheet's beginning is one too.
pub fn place(text: &[u8]) -> u64 {
    let (mut shared, mut beyond) = (0, text.len() + 1);
    while shared + 1 < beyond {
        let middle = (shared + beyond) / 2;
        if begins_a_sheet(&text[..middle]) {
            shared = middle;
        } else {
            beyond = middle;
        }
    }
    shared as u64
}
