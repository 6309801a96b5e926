//! Writes answers of the Rust crate's compression, with the model's padding and records, as lines
//! `WIDTH KIND ARGUMENT HEX`. The message is that of `call::message`: byte i is (7 i + 3) mod 256.
//!
//!     vector     name of a published message     its digest
//!     length     n                               digest of the message's first n bytes
//!     record     n                               record after the message's first n bytes
//!     last       n                               digest after a record with count 2^55 - 1 and the
//!                                                words after the message's first 64 bytes was
//!                                                imported and the message's first n bytes fed
//!     import     wiped, or fresh                 number for a record of zeros, or of a fresh state
//!     sheet      n                               sheet after the message's first n bytes
//!     read       n                               number and place, one byte each, for the sheet after
//!                                                the message's first 127 bytes, its byte n set to 58 (hex)
//!     read       whole, or short                 the same for that sheet as it is, or without its last
//!                                                byte
//!     fault      what is changed, or none        number and index, one byte each, for the state after the
//!                                                message's first 73 bytes with this changed
//!     feed       the same                        the same, given by feed
#![allow(dead_code)]

mod c128;
mod c160;
mod c256;
mod c320;
mod call;
mod model;
mod published;
mod sheet;

use call::{hex, message, Call, Image, Input, Width, WIDTHS};
use model::{State, BLOCKS};

fn line(width: Width, kind: &str, argument: impl std::fmt::Display, bytes: &[u8]) {
    println!("{} {kind} {argument} {}", width.bits(), hex(bytes));
}

/// The state after a call that must be accepted.
fn after(image: &Image, call: Call) -> Image {
    let answer = model::answer(image, &call);
    assert_eq!(answer.number, 0);
    answer.image
}

fn vectors(width: Width) {
    for vector in published::VECTORS {
        let digest = model::published(width, &vector.message());
        assert_eq!(hex(&digest), vector.digest(width), "{}", vector.name);
        line(width, "vector", vector.name, &digest);
    }
}

/// The state after the message's first `length` bytes.
fn taken(width: Width, length: usize) -> State {
    let piece = message(length);
    State::read(&after(&State::fresh(width).image(), Call::Feed(Input::Bytes(&piece))))
}

fn records(width: Width) {
    for length in [0, 64, 128, 192] {
        line(width, "record", length, &taken(width, length).record());
    }
}

fn last_count(width: Width) {
    let record = State { count: BLOCKS - 1, ..taken(width, 64) }.record();
    let imported = after(&[0; 128], Call::Import(width, &record));
    for length in [0, 1, 55, 56, 63] {
        let piece = message(length);
        let image = after(&imported, Call::Feed(Input::Bytes(&piece)));
        let digest = model::answer(&image, &Call::Finish(width.digest())).output;
        line(width, "last", length, &digest);
    }
}

fn imports(width: Width) {
    for (name, record) in [("wiped", vec![0; width.record()]), ("fresh", State::fresh(width).record())] {
        let number = model::answer(&[0; 128], &Call::Import(width, &record)).number;
        line(width, "import", name, &[number as u8]);
    }
}

fn read(width: Width, name: impl std::fmt::Display, text: &[u8]) {
    let answer = model::answer(&[0; 128], &Call::ReadSheet(text));
    line(width, "read", name, &[answer.number as u8, answer.value as u8]);
}

fn sheets(width: Width) {
    for length in [0, 1, 63, 64, 127] {
        line(width, "sheet", length, &taken(width, length).sheet());
    }
    let sheet = taken(width, 127).sheet();
    for at in [0, 8, 17, 20, 30, 70, 150] {
        let mut damaged = sheet.clone();
        damaged[at] = 0x58;
        read(width, at, &damaged);
    }
    read(width, "whole", &sheet);
    read(width, "short", &sheet[..sheet.len() - 1]);
}

fn faults(width: Width) {
    let damages: [(&str, fn(&mut State)); 6] = [
        ("none", |_| ()),
        ("fill=64", |state| state.fill = 64),
        ("count=2^55", |state| state.count = BLOCKS),
        ("tail[40,63]=1", |state| (state.tail[40], state.tail[63]) = (1, 1)),
        ("words[5,8]=1", |state| (state.words[5], state.words[8]) = (1, 1)),
        ("count=0", |state| state.count = 0),
    ];
    for (name, damage) in damages {
        let mut state = taken(width, 73);
        damage(&mut state);
        let fault = model::answer(&state.image(), &Call::Fault);
        let fed = model::answer(&state.image(), &Call::Feed(Input::Bytes(b"abc")));
        line(width, "fault", name, &[fault.number as u8, fault.value as u8]);
        line(width, "feed", name, &[fed.number as u8, fault.value as u8]);
    }
}

fn main() {
    for width in WIDTHS {
        vectors(width);
        for length in 0..=200 {
            line(width, "length", length, &model::published(width, &message(length)));
        }
        records(width);
        last_count(width);
        imports(width);
        sheets(width);
        faults(width);
    }
}
