//! Cases on sheets: right ones at the limits, and texts that are almost one.

use crate::call::{message, Call, Image, Width, WIDTHS};
use crate::group::Group;
use crate::model::{self, State, BLOCKS};
use crate::refusals::{image_at, other_words};
use crate::sheet::lines;

/// Counts of the fewest and the most digits, and those at the limit; the last two are refused.
const COUNTS: [u64; 6] = [0, 1, 10_u64.pow(16), BLOCKS - 1, BLOCKS, 10_u64.pow(17) - 1];
const FILLS: [usize; 4] = [0, 1, 55, 63];

/// A state with that count and fill, well formed but for a count that is too high.
pub fn state_at(width: Width, count: u64, fill: usize) -> State {
    State { count, ..State::read(&image_at(width, count.min(1), fill)) }
}

fn fresh160() -> Image {
    State::fresh(Width::W160).image()
}

/// Reads a text that must be refused; the state is then a fresh 160, whatever width the text names.
fn refused(group: &mut Group, text: &[u8], number: u32, place: usize) {
    let answer = group.read_sheet(text);
    group.number("number of a refused sheet", answer.number, number);
    group.number("place in a refused sheet", answer.value as u32, place as u32);
    group.same("state after a refused sheet", &answer.image, &fresh160());
}

/// Each sheet is read back, and the message goes on from there.
pub fn after_every_byte(width: Width) -> Group {
    let mut group = Group::new(format!("sheet after every byte, {}", width.bits()));
    let message = message(300);
    let mut image = group.fresh(width);
    for taken in 1..=message.len() {
        group.case();
        let text = group.sheet(&mut image);
        let mut read = group.read_sheet(&text).image;
        group.same("state read back", &read, &image);
        group.feed(&mut read, &message[taken - 1..taken]);
        let digest = group.digest(&mut read);
        group.same("digest across the sheet", &digest, &model::published(width, &message[..taken]));
        image = read;
    }
    group
}

/// Sheets at the limits: read, and written into outputs of the right length and of others.
pub fn counts_and_fills(width: Width) -> Group {
    let mut group = Group::new(format!("sheets by count and fill, {}", width.bits()));
    for count in COUNTS {
        for fill in 0..64 {
            group.case();
            let state = state_at(width, count, fill);
            let text = state.sheet();
            if count < BLOCKS {
                let answer = group.read_sheet(&text);
                group.same("state of a sheet", &answer.image, &state.image());
            } else {
                refused(&mut group, &text, 5, 0);
            }
            for length in [0, 1, text.len() - 1, text.len(), text.len() + 1, text.len() + 256] {
                let number = group.call(&mut state.image(), Call::WriteSheet(length)).number;
                let fits = if length == text.len() { 0 } else { 3 };
                group.number("write_sheet", number, if count < BLOCKS { fits } else { 61 });
            }
            group.every_call(&state.image());
        }
    }
    group
}

/// Sheets without a block: taken with the initial words, and with no other.
pub fn no_blocks(width: Width) -> Group {
    let mut group = Group::new(format!("sheets of no blocks, {}", width.bits()));
    for words in other_words(width) {
        for fill in FILLS {
            group.case();
            let state = State { words, ..state_at(width, 0, fill) };
            let text = state.sheet();
            refused(&mut group, &text, 7, 0);
            // Of another shape as well: that must be told first.
            refused(&mut group, &text[..text.len() - 1], 8, text.len() - 1);
            let answer = group.read_sheet(&State { count: 1, ..state }.sheet());
            group.number("read_sheet with a block", answer.number, 0);
        }
    }
    group
}

/// Every value of every byte of the words and of the tail.
pub fn byte_values(width: Width) -> Group {
    let mut group = Group::new(format!("sheets with every value of a byte, {}", width.bits()));
    for at in (24..24 + width.digest()).chain(64..64 + 63) {
        for value in 0..=255 {
            group.case();
            let mut image = image_at(width, 1, 63);
            image[at] = value;
            let answer = group.read_sheet(&State::read(&image).sheet());
            group.same("state of a sheet", &answer.image, &image);
        }
    }
    group
}

/// Texts in which the width or the count is wrong, each with the place where it shows.
fn wrong_beginnings(width: Width) -> Vec<(String, usize)> {
    let bits = width.bits();
    let words = "00".repeat(width.digest());
    let count = |count: &str| lines(width, count, &words, "");
    vec![
        ("".into(), 0),
        ("\n".into(), 0),
        ("w".repeat(70_000), 1),
        (format!(" {}", count("1")), 0),
        (format!("\u{feff}{}", count("1")), 0),
        (format!("Width={bits}\n"), 0),
        ("width=\n".into(), 6),
        ("width=0128\n".into(), 6),
        ("width=129\n".into(), 8),
        ("width=130\n".into(), 7),
        ("width=512\n".into(), 6),
        ("width=3 20\n".into(), 7),
        (format!("width={bits}0\n"), 9),
        (format!("width={bits}\r\nblocks=1\r\n"), 9),
        (format!("width={bits}\n\nblocks=1\n"), 10),
        (format!("width={bits}\nwords={words}\n"), 10),
        (count(""), 17),
        (count("+1"), 17),
        (count("-1"), 17),
        (count(" 1"), 17),
        (count("00"), 18),
        (count("01"), 18),
        (count("1 "), 18),
        (count("1\r"), 18),
        (count("1.0"), 18),
        (count("1e9"), 18),
        (count("123456789012345678"), 34),
        (count("000000000000000000"), 18),
        // 2^64 + 1, which 64 bits would take for 1.
        (count("18446744073709551617"), 34),
        (count(&"9".repeat(70_000)), 34),
    ]
}

/// Texts in which the words or the tail is wrong, or that end in the wrong place.
fn wrong_ends(width: Width) -> Vec<(String, usize)> {
    let words = "0123456789abcdef".repeat(5)[..2 * width.digest()].to_string();
    let whole = |tail: &str| lines(width, "1", &words, tail);
    let (at_words, at_tail) = (25, 31 + words.len());
    let mut texts = vec![
        (whole("\r"), at_tail),
        (whole("0"), at_tail + 1),
        (whole("000"), at_tail + 3),
        (whole("00A0"), at_tail + 2),
        (whole("00 00"), at_tail + 2),
        (whole("00\r"), at_tail + 2),
        (whole(&"0".repeat(125)), at_tail + 125),
        (whole(&"0".repeat(127)), at_tail + 126),
        (whole(&"0".repeat(128)), at_tail + 126),
        (whole(&"0".repeat(70_000)), at_tail + 126),
    ];
    for behind in ["\n", "\r", " ", "0", "\0", "\u{80}", "width=160\n", &"0".repeat(1 << 16)] {
        texts.push((whole("") + behind, at_tail + 1));
        texts.push((whole("00") + behind, at_tail + 3));
    }
    for (at, wrong) in [(9, "\r"), (18, "\r"), (at_words, "\n"), (at_words + 10, "A"), (at_tail - 6, "\r"), (at_tail, "\r")] {
        let mut text = whole("");
        text.replace_range(at..=at, wrong);
        texts.push((text, at));
    }
    // Where the words of another width end, or go on.
    for other in WIDTHS.into_iter().filter(|other| *other != width) {
        let words = "ab".repeat(other.digest());
        texts.push((lines(width, "1", &words, ""), at_words + 2 * width.digest().min(other.digest())));
    }
    texts
}

pub fn named_places(width: Width) -> Group {
    let mut group = Group::new(format!("texts that are no sheets, {}", width.bits()));
    for (text, place) in wrong_beginnings(width).into_iter().chain(wrong_ends(width)) {
        group.case();
        refused(&mut group, text.as_bytes(), 8, place);
    }
    group
}

/// Bytes at the edges of digits and letters, line ends, and bytes that differ from a digit in one bit.
pub const TELLING: &[u8] = b"019/:afg`AFX\n\r =\0\xb0\xff";
/// Those of them that no sheet has anywhere: the place is where they stand.
const FOREIGN: &[u8] = b"/:g`AFX\r \0\xb0\xff";

/// Right sheets with one byte changed, gone or doubled, cut short at every byte, and with one behind.
pub fn damaged(width: Width) -> Group {
    let mut group = Group::new(format!("damaged sheets, {}", width.bits()));
    for (count, fill) in COUNTS.into_iter().flat_map(|count| FILLS.map(|fill| (count, fill))) {
        let text = state_at(width, count, fill).sheet();
        for at in 0..text.len() {
            let (before, behind) = (&text[..at], &text[at + 1..]);
            group.case();
            refused(&mut group, before, 8, at);
            for byte in TELLING {
                group.case();
                let changed = [before, &[*byte], behind].concat();
                if FOREIGN.contains(byte) {
                    refused(&mut group, &changed, 8, at);
                } else {
                    group.read_sheet(&changed);
                }
            }
            group.case();
            group.read_sheet(&[before, behind].concat());
            group.case();
            group.read_sheet(&[before, &[text[at]; 2], behind].concat());
        }
        for byte in TELLING {
            group.case();
            refused(&mut group, &[&text[..], &[*byte]].concat(), 8, text.len());
        }
    }
    group
}
