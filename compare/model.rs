//! What every call must answer: the Rust crate's compression with the scope's rules around it.
//! It shares no code with the library and is written for reading, not for speed.

use crate::call::{Answer, Call, Image, Width};
use crate::sheet::{self, Sheet};
use crate::{c128, c160, c256, c320};

/// The widths by their number in byte 0 of an image.
const NUMBERED: [Width; 4] = [Width::W160, Width::W320, Width::W128, Width::W256];

pub const BLOCKS: u64 = 1 << 55;
pub const BYTES: u128 = 1 << 61;

pub struct State {
    pub width: Width,
    pub count: u64,
    pub fill: u64,
    pub words: [u32; 10],
    pub tail: [u8; 64],
}

fn compress(width: Width, words: &mut [u32; 10], block: &[u8; 64]) {
    match width {
        Width::W128 => c128::compress((&mut words[..4]).try_into().unwrap(), block),
        Width::W160 => c160::compress((&mut words[..5]).try_into().unwrap(), block),
        Width::W256 => c256::compress((&mut words[..8]).try_into().unwrap(), block),
        Width::W320 => c320::compress(words, block),
    }
}

fn to_bytes(words: &[u32]) -> Vec<u8> {
    words.iter().flat_map(|word| word.to_le_bytes()).collect()
}

fn to_words(bytes: &[u8]) -> [u32; 10] {
    let mut words = [0; 10];
    for (word, four) in words.iter_mut().zip(bytes.chunks_exact(4)) {
        *word = u32::from_le_bytes(four.try_into().unwrap());
    }
    words
}

fn to_number(bytes: &[u8]) -> u64 {
    u64::from_le_bytes(bytes.try_into().unwrap())
}

impl State {
    pub fn fresh(width: Width) -> State {
        let words = match width {
            Width::W128 => to_bytes(&c128::H0),
            Width::W160 => to_bytes(&c160::H0),
            Width::W256 => to_bytes(&c256::H0),
            Width::W320 => to_bytes(&c320::H0),
        };
        State { width, count: 0, fill: 0, words: to_words(&words), tail: [0; 64] }
    }

    pub fn read(image: &Image) -> State {
        State {
            width: NUMBERED[image[0] as usize % 4],
            count: to_number(&image[8..16]),
            fill: to_number(&image[16..24]),
            words: to_words(&image[24..64]),
            tail: image[64..].try_into().unwrap(),
        }
    }

    pub fn image(&self) -> Image {
        let mut image = [0; 128];
        image[0] = NUMBERED.iter().position(|width| *width == self.width).unwrap() as u8;
        image[8..16].copy_from_slice(&self.count.to_le_bytes());
        image[16..24].copy_from_slice(&self.fill.to_le_bytes());
        image[24..64].copy_from_slice(&to_bytes(&self.words));
        image[64..].copy_from_slice(&self.tail);
        image
    }

    /// Number and index of what is wrong: the least pair of all that hold, or zeros where none does.
    pub fn fault(&self) -> (u32, u64) {
        let tail = (0..64).map(|at| (62, at, at >= self.fill && self.tail[at as usize] != 0));
        let spare = (self.width.words()..10).map(|at| (63, at as u64, self.words[at] != 0));
        let others = [(60, 0, self.fill >= 64), (61, 0, self.count >= BLOCKS), (64, 0, !self.begins())];
        let hold = tail.chain(spare).chain(others).filter(|(_, _, holds)| *holds);
        hold.map(|(number, index, _)| (number, index)).min().unwrap_or((0, 0))
    }

    /// The fault as the first condition of a call.
    fn at_fault(&self) -> (bool, u32) {
        let (number, _) = self.fault();
        (number != 0, number)
    }

    /// Without a block taken, the words are those of an empty message.
    fn begins(&self) -> bool {
        self.count != 0 || self.words == State::fresh(self.width).words
    }

    pub fn bytes_taken(&self) -> u128 {
        64 * self.count as u128 + self.fill as u128
    }

    /// Takes one byte; a full tail is compressed at once.
    fn take(&mut self, byte: u8) {
        self.tail[self.fill as usize] = byte;
        self.fill += 1;
        if self.fill == 64 {
            compress(self.width, &mut self.words, &self.tail);
            self.count += 1;
            self.fill = 0;
            self.tail = [0; 64];
        }
    }

    fn digest(mut self) -> Vec<u8> {
        let bits = 8 * self.bytes_taken() as u64;
        self.take(0x80);
        while self.fill != 56 {
            self.take(0);
        }
        bits.to_le_bytes().into_iter().for_each(|byte| self.take(byte));
        to_bytes(&self.words[..self.width.words()])
    }

    pub fn record(&self) -> Vec<u8> {
        let mut record = to_bytes(&self.words[..self.width.words()]);
        record.extend(self.count.to_le_bytes());
        record
    }

    fn of_record(width: Width, record: &[u8]) -> State {
        let (words, count) = record.split_at(width.digest());
        State { words: to_words(words), count: to_number(count), ..State::fresh(width) }
    }

    pub fn sheet(&self) -> Vec<u8> {
        let words = to_bytes(&self.words[..self.width.words()]);
        let tail = self.tail[..self.fill as usize].to_vec();
        Sheet { width: self.width, count: self.count, words, tail }.text()
    }

    fn of_sheet(sheet: &Sheet) -> State {
        let fill = sheet.tail.len();
        let mut tail = [0; 64];
        tail[..fill].copy_from_slice(&sheet.tail);
        State { width: sheet.width, count: sheet.count, fill: fill as u64, words: to_words(&sheet.words), tail }
    }
}

/// The digest by definition: `message` is padded as a whole, cut into blocks and chained from
/// `words`, its length counted on from `count` blocks.
pub fn continued(width: Width, mut words: [u32; 10], count: u64, message: &[u8]) -> Vec<u8> {
    let bits = 8 * (64 * count + message.len() as u64);
    let mut padded = message.to_vec();
    padded.push(0x80);
    while padded.len() % 64 != 56 {
        padded.push(0);
    }
    padded.extend(bits.to_le_bytes());
    for block in padded.chunks_exact(64) {
        compress(width, &mut words, block.try_into().unwrap());
    }
    to_bytes(&words[..width.words()])
}

pub fn published(width: Width, message: &[u8]) -> Vec<u8> {
    continued(width, State::fresh(width).words, 0, message)
}

/// The number of the first condition that holds, in the call's order; 0 where none does.
fn first(conditions: &[(bool, u32)]) -> u32 {
    conditions.iter().find(|(holds, _)| *holds).map_or(0, |(_, number)| *number)
}

fn feed(image: &mut Image, length: usize, piece: &[u8]) -> u32 {
    let mut state = State::read(image);
    let number = first(&[state.at_fault(), (state.bytes_taken() + length as u128 >= BYTES, 1)]);
    if number == 0 {
        piece.iter().for_each(|byte| state.take(*byte));
        *image = state.image();
    }
    number
}

fn finish(image: &Image, output: &mut [u8]) -> u32 {
    let state = State::read(image);
    let number = first(&[state.at_fault(), (output.len() != state.width.digest(), 3)]);
    if number == 0 {
        output.copy_from_slice(&state.digest());
    }
    number
}

fn export(image: &Image, output: &mut [u8]) -> u32 {
    let state = State::read(image);
    let number = first(&[state.at_fault(), (output.len() != state.width.record(), 3), (state.fill != 0, 2)]);
    if number == 0 {
        output.copy_from_slice(&state.record());
    }
    number
}

fn import(image: &mut Image, width: Width, record: &[u8]) -> u32 {
    *image = State::fresh(width).image();
    if record.len() != width.record() {
        return 4;
    }
    let state = State::of_record(width, record);
    if state.count >= BLOCKS {
        return 5;
    }
    if !state.begins() {
        return 7;
    }
    *image = state.image();
    0
}

fn one_shot(width: Width, length: usize, message: &[u8], output: &mut [u8]) -> u32 {
    let number = first(&[(output.len() != width.digest(), 3), (length as u128 >= BYTES, 1)]);
    if number == 0 {
        output.copy_from_slice(&published(width, message));
    }
    number
}

fn sheet_length(image: &Image) -> u64 {
    let state = State::read(image);
    if state.fault() != (0, 0) {
        return 0;
    }
    state.sheet().len() as u64
}

fn write_sheet(image: &Image, output: &mut [u8]) -> u32 {
    let state = State::read(image);
    let number = first(&[state.at_fault(), (output.len() as u64 != sheet_length(image), 3)]);
    if number == 0 {
        output.copy_from_slice(&state.sheet());
    }
    number
}

fn read_sheet(image: &mut Image, text: &[u8], place: &mut u64) -> u32 {
    *image = State::fresh(Width::W160).image();
    *place = 0;
    let Some(sheet) = Sheet::read(text) else {
        *place = sheet::place(text);
        return 8;
    };
    let state = State::of_sheet(&sheet);
    let number = first(&[(state.count >= BLOCKS, 5), (!state.begins(), 7)]);
    if number == 0 {
        *image = state.image();
    }
    number
}

pub fn answer(before: &Image, call: &Call) -> Answer {
    let mut image = *before;
    let mut output = call.output();
    let mut value = call.value();
    let number = match *call {
        Call::Fresh(width) => {
            image = State::fresh(width).image();
            0
        }
        Call::Reset => {
            image = State::fresh(State::read(before).width).image();
            0
        }
        Call::Fault => {
            let (number, index) = State::read(before).fault();
            value = index;
            number
        }
        Call::Feed(piece) => feed(&mut image, piece.length(), piece.bytes()),
        Call::Finish(_) => finish(&image, &mut output),
        Call::Export(_) => export(&image, &mut output),
        Call::Import(width, record) => import(&mut image, width, record),
        Call::OneShot(width, message, _) => one_shot(width, message.length(), message.bytes(), &mut output),
        Call::SheetLength => {
            value = sheet_length(&image);
            0
        }
        Call::WriteSheet(_) => write_sheet(&image, &mut output),
        Call::ReadSheet(text) => read_sheet(&mut image, text, &mut value),
    };
    Answer { number, image, output, value, spilt: false }
}
