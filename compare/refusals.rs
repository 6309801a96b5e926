//! Cases on records, lengths and images that are at the limits or beyond them.

use crate::call::{message, Call, Image, Input, Width};
use crate::group::Group;
use crate::model::{self, State, BLOCKS, BYTES};

/// A record with the count given, and with the words that the message's first block leaves; with the
/// initial words where no block is counted.
fn record_at(width: Width, count: u64) -> Vec<u8> {
    let block = message(if count == 0 { 0 } else { 64 });
    let image = model::answer(&State::fresh(width).image(), &Call::Feed(Input::Bytes(&block))).image;
    State { count, ..State::read(&image) }.record()
}

/// A well-formed image with that count and fill.
pub fn image_at(width: Width, count: u64, fill: usize) -> Image {
    let imported = model::answer(&[0; 128], &Call::Import(width, &record_at(width, count))).image;
    let mut state = State { fill: fill as u64, ..State::read(&imported) };
    state.tail[..fill].copy_from_slice(&message(fill));
    state.image()
}

/// The scope's own lines T8, T9, T10 and T13, as literals.
pub fn table() -> Group {
    let mut group = Group::new("the scope's T8, T9, T10, T13");
    let width = Width::W160;
    let mut record = *b"\x01\x23\x45\x67\x89\xab\xcd\xef\xfe\xdc\xba\x98\x76\x54\x32\x10\xf0\xe1\xd2\xc3\0\0\0\0\0\0\0\0";

    group.case();
    let mut image = group.fresh(width);
    let exported = group.call(&mut image, Call::Export(28)).output;
    group.same("T8", &exported, &record);

    group.case();
    record[20..].copy_from_slice(&[0, 0, 0, 0, 0, 0, 0x80, 0]);
    let (number, _) = group.import(width, &record);
    group.number("T9", number, 5);

    group.case();
    record[20..].copy_from_slice(&[0xff, 0xff, 0xff, 0xff, 0xff, 0xff, 0x7f, 0]);
    let (number, imported) = group.import(width, &record);
    group.number("T10, import", number, 0);
    for (length, right) in [(63, 0), (64, 1)] {
        let number = group.feed(&mut imported.clone(), &[0; 64][..length]).number;
        group.number("T10, feed", number, right);
    }

    group.case();
    group.feed(&mut image, &[0]);
    let number = group.call(&mut image, Call::Export(27)).number;
    group.number("T13", number, 3);
    group
}

pub fn high_counts(width: Width) -> Group {
    let mut group = Group::new(format!("high counts, {}", width.bits()));
    let accepted = [1, (1 << 32) - 1, 1 << 32, 1 << 53, (1 << 54) + 1, BLOCKS - 2, BLOCKS - 1];
    for count in accepted {
        for length in [0, 1, 55, 56, 63, 64, 127, 128, 200] {
            group.case();
            let (number, mut image) = group.import(width, &record_at(width, count));
            group.number("import", number, 0);
            let words = State::read(&image).words;
            let piece = message(length);
            if group.feed(&mut image, &piece).number == 0 {
                let digest = group.digest(&mut image);
                let right = model::continued(width, words, count, &piece);
                group.same("digest of the continued chain", &digest, &right);
            }
        }
    }
    for count in [BLOCKS, BLOCKS + 1, 1 << 56, 1 << 63, u64::MAX] {
        group.case();
        let (number, image) = group.import(width, &record_at(width, count));
        group.number("import", number, 5);
        group.same("state after a refused import", &image, &State::fresh(width).image());
    }
    group
}

/// Pieces that just fit below 2^61 bytes and pieces that just do not, from every fill.
pub fn last_bytes(width: Width) -> Group {
    let mut group = Group::new(format!("last bytes below 2^61, {}", width.bits()));
    for count in BLOCKS - 3..BLOCKS {
        for fill in 0..64 {
            let image = image_at(width, count, fill);
            let room = (BYTES - State::read(&image).bytes_taken()) as usize;
            for (length, right) in [(room - 1, 0), (room, 1), (room + 1, 1), (room + 64, 1)] {
                group.case();
                let number = group.feed(&mut image.clone(), &message(length)).number;
                group.number("feed", number, right);
            }
        }
    }
    group
}

/// Lengths that no memory has, and what is left below 2^61: refused before a byte is read.
pub fn lengths_beyond_memory(width: Width) -> Group {
    let mut group = Group::new(format!("lengths beyond memory, {}", width.bits()));
    let limit = BYTES as usize;
    for length in [limit, limit + 1, 1 << 62, (1 << 63) - 1, 1 << 63, usize::MAX] {
        for (lent, right) in [(width.digest(), 1), (width.digest() - 1, 3), (0, 3)] {
            group.case();
            let call = Call::OneShot(width, Input::Claimed(length), lent);
            let number = group.call(&mut [0; 128], call).number;
            group.number("one_shot", number, right);
        }
    }
    for (count, fill) in [(0, 10), (5, 63), (BLOCKS - 1, 0), (BLOCKS - 1, 63)] {
        let image = image_at(width, count, fill);
        let taken = State::read(&image).bytes_taken() as usize;
        // With this length the sum of bytes is 2^64, which a sum in 64 bits would take for 0.
        let sum_wraps = usize::MAX - taken + 1;
        for length in [limit - taken, limit, 1 << 63, usize::MAX, sum_wraps, sum_wraps + 9] {
            group.case();
            let number = group.call(&mut image.clone(), Call::Feed(Input::Claimed(length))).number;
            group.number("feed", number, 1);
        }
    }
    group
}

/// Words that are not the initial ones: each bit of each word flipped, each word zero, all of them zero,
/// and those that the message's first block leaves.
pub fn other_words(width: Width) -> Vec<[u32; 10]> {
    let initial = State::fresh(width).words;
    let mut all = vec![[0; 10], State::read(&image_at(width, 1, 0)).words];
    for word in 0..width.words() {
        for change in (0..32).map(|bit| 1 << bit).chain([initial[word]]) {
            let mut words = initial;
            words[word] ^= change;
            all.push(words);
        }
    }
    all
}

/// Records and images without a block: taken with the initial words, and with no other.
pub fn no_blocks(width: Width) -> Group {
    let mut group = Group::new(format!("no blocks, {}", width.bits()));
    group.case();
    let fresh = State::fresh(width);
    let (number, image) = group.import(width, &fresh.record());
    group.number("import of the initial words", number, 0);
    group.same("state of the initial words", &image, &fresh.image());
    for words in other_words(width) {
        for (count, right) in [(0, 7), (1, 0), (BLOCKS, 5)] {
            group.case();
            let record = State { words, count, ..State::fresh(width) }.record();
            let (number, image) = group.import(width, &record);
            group.number("import of other words", number, right);
            if right != 0 {
                group.same("state after a refused import", &image, &fresh.image());
            }
            let (number, _) = group.import(width, &record[1..]);
            group.number("import of a record cut short", number, 4);
        }
        for fill in [0, 1, 55, 63] {
            for (count, right) in [(0, 64), (1, 0)] {
                group.case();
                let image = State { words, ..State::read(&image_at(width, count, fill)) }.image();
                let number = group.feed(&mut image.clone(), b"abc").number;
                group.number("feed", number, right);
                group.every_call(&image);
            }
        }
    }
    for fill in 0..64 {
        group.case();
        let mut image = image_at(width, 0, fill);
        let digest = group.digest(&mut image);
        group.same("digest", &digest, &model::published(width, &message(fill)));
        group.every_call(&State { words: [0; 10], ..State::read(&image) }.image());
    }
    group
}

pub fn damaged_records(width: Width) -> Group {
    let mut group = Group::new(format!("records with one bit flipped, {}", width.bits()));
    for count in [0, 1, BLOCKS - 1] {
        let record = record_at(width, count);
        for bit in 0..8 * record.len() {
            group.case();
            let mut damaged = record.clone();
            damaged[bit / 8] ^= 1 << (bit % 8);
            let (_, image) = group.import(width, &damaged);
            group.every_call(&image);
        }
    }
    group
}

pub fn wrong_lengths(width: Width) -> Group {
    let mut group = Group::new(format!("wrong lengths, {}", width.bits()));
    let whole = image_at(width, 3, 0);
    let part = image_at(width, 3, 7);
    for length in 0..=64 {
        group.case();
        for byte in [0, 0xff] {
            // Zeros have a wrong start as well, and all ones a count too high: the length must be told first.
            let (number, _) = group.import(width, &vec![byte; length]);
            if length != width.record() {
                group.number("import", number, 4);
            }
        }
        for image in [whole, part] {
            let finished = group.call(&mut image.clone(), Call::Finish(length)).number;
            group.number("finish", finished, if length == width.digest() { 0 } else { 3 });
            let exported = group.call(&mut image.clone(), Call::Export(length)).number;
            if length != width.record() {
                group.number("export", exported, 3);
            }
        }
        let call = Call::OneShot(width, Input::Bytes(b"abc"), length);
        let number = group.call(&mut [0; 128], call).number;
        group.number("one_shot", number, if length == width.digest() { 0 } else { 3 });
    }
    group
}

/// Every bit of good images flipped, and bytes 0 to 7 set to every value. The model says which of
/// them are ill-formed: bytes 0 to 7 never make an image so.
pub fn flipped_images(width: Width) -> Group {
    let mut group = Group::new(format!("images with one bit flipped, {}", width.bits()));
    for (count, fill) in [(0, 0), (1, 40), (BLOCKS - 1, 62)] {
        let good = image_at(width, count, fill);
        for bit in 0..8 * good.len() {
            group.case();
            let mut image = good;
            image[bit / 8] ^= 1 << (bit % 8);
            group.every_call(&image);
        }
    }
    for byte in 0..=255 {
        group.case();
        let mut image = image_at(width, 1, 40);
        image[..8].fill(byte);
        group.every_call(&image);
    }
    group
}
