//! Random sequences of calls from a seed, on states good and damaged.

use crate::call::{Call, Image, Input, Width, WIDTHS};
use crate::group::Group;
use crate::model::{self, State, BLOCKS};
use crate::sheet::Sheet;
use crate::sheets::TELLING;

/// The generator splitmix64: any seed will do.
struct Random(u64);

impl Random {
    fn next(&mut self) -> u64 {
        self.0 = self.0.wrapping_add(0x9e37_79b9_7f4a_7c15);
        let mut mixed = self.0;
        mixed = (mixed ^ (mixed >> 30)).wrapping_mul(0xbf58_476d_1ce4_e5b9);
        mixed = (mixed ^ (mixed >> 27)).wrapping_mul(0x94d0_49bb_1331_11eb);
        mixed ^ (mixed >> 31)
    }

    fn below(&mut self, limit: usize) -> usize {
        (self.next() % limit as u64) as usize
    }

    fn one_in(&mut self, chances: usize) -> bool {
        self.below(chances) == 0
    }

    fn pick<T: Copy>(&mut self, from: &[T]) -> T {
        from[self.below(from.len())]
    }

    fn bytes(&mut self, length: usize) -> Vec<u8> {
        (0..length).map(|_| self.next() as u8).collect()
    }

    /// A number of any size, small ones as likely as great ones.
    fn any_size(&mut self) -> u64 {
        self.next() >> self.below(64)
    }
}

fn any_count(random: &mut Random) -> u64 {
    let near = random.below(3) as u64;
    let any = random.any_size();
    random.pick(&[near, BLOCKS - 1 - near, BLOCKS - 1 - near, BLOCKS + near, any])
}

/// Mostly up to 200 bytes; often just as many as end a block, so that export is not always refused.
fn any_piece(random: &mut Random, fill: u64) -> Vec<u8> {
    let to_block_end = 64 - (fill % 64) as usize + 64 * random.below(3);
    let short = random.below(201);
    let long = random.below(3000);
    let length = match random.below(32) {
        0 => 0,
        1 => long,
        2..=9 => to_block_end,
        _ => short,
    };
    random.bytes(length)
}

fn output_length(random: &mut Random, right: usize) -> usize {
    if random.one_in(8) {
        return random.below(65);
    }
    right
}

fn any_record(random: &mut Random, width: Width, exported: &[u8]) -> Vec<u8> {
    if random.one_in(3) {
        return exported.to_vec();
    }
    let mut record = random.bytes(width.digest());
    record.extend(any_count(random).to_le_bytes());
    if random.one_in(8) {
        let length = random.below(65);
        record.resize(length, 0);
    }
    record
}

/// Up to two other bytes in the place of none, one, two or all that follow.
fn damaged_sheet(random: &mut Random, text: &[u8]) -> Vec<u8> {
    let from = random.below(text.len() + 1);
    let to = random.pick(&[from, from + 1, from + 2, text.len()]).min(text.len());
    let between: Vec<u8> = (0..random.below(3)).map(|_| random.pick(TELLING)).collect();
    [&text[..from], &between, &text[to..]].concat()
}

/// Often the last sheet that was written, as it was or damaged; else one of any state, well formed or not.
fn any_sheet(random: &mut Random, written: &[u8]) -> Vec<u8> {
    let width = random.pick(&WIDTHS);
    let (count, fill) = (any_count(random), random.below(66));
    match random.below(8) {
        0..=3 => written.to_vec(),
        4..=5 => damaged_sheet(random, written),
        _ => Sheet { width, count, words: random.bytes(width.digest()), tail: random.bytes(fill) }.text(),
    }
}

/// Changes one thing; not every change makes the image ill-formed.
fn damage(random: &mut Random, image: &mut Image) {
    let (from, to) = random.pick(&[(0, 1), (0, 8), (8, 16), (16, 24), (40, 64), (64, 128), (0, 128)]);
    match random.below(4) {
        0 => image[from..to].copy_from_slice(&random.bytes(to - from)),
        1 => image[8..16].copy_from_slice(&any_count(random).to_le_bytes()),
        2 => image[16..24].copy_from_slice(&random.any_size().to_le_bytes()),
        _ => image[from + random.below(to - from)] ^= 1 << random.below(8),
    }
}

/// The last record and the last sheet that were written.
#[derive(Default)]
struct Written {
    record: Vec<u8>,
    sheet: Vec<u8>,
}

fn one_call_on_sheets(group: &mut Group, random: &mut Random, image: &mut Image, written: &mut Written) {
    let before = *image;
    let text = any_sheet(random, &written.sheet);
    let length = model::answer(image, &Call::SheetLength).value as usize;
    let call = match random.below(16) {
        0 => Call::SheetLength,
        1..=7 => Call::WriteSheet(output_length(random, length)),
        _ => Call::ReadSheet(&text),
    };
    let answer = group.call(image, call);
    match (call, answer.number) {
        (Call::WriteSheet(_), 0) => written.sheet = answer.output,
        // Refused, it left a fresh 160; mostly the sequence goes on from the state before.
        (Call::ReadSheet(_), 5..) if !random.one_in(8) => *image = before,
        _ => (),
    }
}

fn one_call(group: &mut Group, random: &mut Random, image: &mut Image, written: &mut Written) {
    if random.one_in(6) {
        return one_call_on_sheets(group, random, image, written);
    }
    let State { width: own, fill, .. } = State::read(image);
    let width = random.pick(&WIDTHS);
    let record = any_record(random, width, &written.record);
    let piece = any_piece(random, fill);
    let call = match random.below(64) {
        0 => Call::Fresh(width),
        1 => Call::Reset,
        2..=5 => Call::Import(width, &record),
        6..=11 => Call::OneShot(width, Input::Bytes(&piece), output_length(random, width.digest())),
        12..=20 => Call::Finish(output_length(random, own.digest())),
        21..=29 => Call::Export(output_length(random, own.record())),
        30..=35 => Call::Fault,
        _ => Call::Feed(Input::Bytes(&piece)),
    };
    let answer = group.call(image, call);
    if let (Call::Export(_), 0) = (call, answer.number) {
        written.record = answer.output;
    }
}

pub fn sequences(seed: u64, calls: u64) -> Group {
    let mut group = Group::new(format!("random sequences, seed {seed}"));
    let mut random = Random(seed);
    let mut image = State::fresh(Width::W160).image();
    let mut written = Written::default();
    for _ in 0..calls {
        group.case();
        // Most damage is done to a copy, so that the sequence goes on; some of it stays.
        if random.one_in(8) {
            let mut copy = image;
            for _ in 0..=random.below(3) {
                damage(&mut random, &mut copy);
            }
            one_call(&mut group, &mut random, &mut copy, &mut written);
            if random.one_in(50) {
                image = copy;
            }
        } else {
            one_call(&mut group, &mut random, &mut image, &mut written);
        }
    }
    for number in [0, 1, 2, 3, 4, 5, 7, 8, 60, 61, 62, 63, 64] {
        let met = group.numbers.contains_key(&number) as u32;
        group.number(&format!("whether number {number} came up"), met, 1);
    }
    group
}
