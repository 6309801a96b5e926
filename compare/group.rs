//! A group of cases: runs each call on both sides, compares all of both answers and keeps count.

use crate::call::{hex, Answer, Call, Image, Input, Width};
use crate::{library, model};
use std::collections::BTreeMap;

#[derive(Default)]
pub struct Group {
    name: String,
    calls: u64,
    cases: u64,
    different: u64,
    case_differs: bool,
    /// How often each number was the right answer.
    pub numbers: BTreeMap<u32, u64>,
    /// How many sheets were written and read; what had to be refused is not counted.
    pub sheets_written: u64,
    pub sheets_read: u64,
}

impl Group {
    pub fn new(name: impl Into<String>) -> Group {
        Group { name: name.into(), ..Group::default() }
    }

    /// Begins the next case; what follows is counted for it.
    pub fn case(&mut self) {
        self.cases += 1;
        self.case_differs = false;
    }

    /// Compares one call on both sides; where it gives a fault, the library must tell the same one of the
    /// state that the call left. The case goes on from the model's answer.
    pub fn call(&mut self, image: &mut Image, call: Call) -> Answer {
        let right = model::answer(image, &call);
        for empty in library::empty_pointers(&call) {
            let given = library::answer(image, &call, empty);
            self.calls += 1;
            *self.numbers.entry(right.number).or_default() += 1;
            self.answers(image, &call, &given, &right);
            if given.number >= 60 {
                let told = library::answer(&given.image, &Call::Fault, empty);
                let right = Answer { number: given.number, ..model::answer(&given.image, &Call::Fault) };
                self.answers(&given.image, &Call::Fault, &told, &right);
            }
        }
        match (call, right.number) {
            (Call::WriteSheet(_), 0) => self.sheets_written += 1,
            (Call::ReadSheet(_), 0) => self.sheets_read += 1,
            _ => (),
        }
        *image = right.image;
        right
    }

    fn answers(&mut self, image: &Image, call: &Call, given: &Answer, right: &Answer) {
        if given != right {
            let state = hex(image);
            self.differs(&format!("{call}, state {state}"), &given.to_string(), &right.to_string());
        }
    }

    /// Compares what a call gave with what is known from elsewhere.
    pub fn same(&mut self, what: &str, given: &[u8], right: &[u8]) {
        if given != right {
            self.differs(what, &hex(given), &hex(right));
        }
    }

    pub fn number(&mut self, what: &str, given: u32, right: u32) {
        if given != right {
            self.differs(what, &given.to_string(), &right.to_string());
        }
    }

    fn differs(&mut self, what: &str, given: &str, right: &str) {
        if self.different == 0 {
            println!("first difference in {}, call {}: {what}", self.name, self.calls);
            println!("  given: {given}");
            println!("  right: {right}");
        }
        if !self.case_differs {
            self.different += 1;
        }
        self.case_differs = true;
    }

    /// Prints the group's line, with how often each number was the right one; says whether all was equal.
    pub fn end(&self) -> bool {
        let equal = self.cases - self.different;
        print!("{}: {equal} of {} equal ({} calls; numbers", self.name, self.cases, self.calls);
        for (number, times) in &self.numbers {
            print!(" {number}:{times}");
        }
        if self.sheets_written + self.sheets_read > 0 {
            print!("; sheets written {}, read {}", self.sheets_written, self.sheets_read);
        }
        println!(")");
        self.different == 0
    }

    pub fn fresh(&mut self, width: Width) -> Image {
        let mut image = [0xee; 128];
        self.call(&mut image, Call::Fresh(width));
        image
    }

    pub fn feed(&mut self, image: &mut Image, piece: &[u8]) -> Answer {
        self.call(image, Call::Feed(Input::Bytes(piece)))
    }

    pub fn digest(&mut self, image: &mut Image) -> Vec<u8> {
        let length = model::State::read(image).width.digest();
        self.call(image, Call::Finish(length)).output
    }

    pub fn import(&mut self, width: Width, record: &[u8]) -> (u32, Image) {
        let mut image = [0xee; 128];
        let answer = self.call(&mut image, Call::Import(width, record));
        (answer.number, image)
    }

    pub fn sheet(&mut self, image: &mut Image) -> Vec<u8> {
        let length = self.call(image, Call::SheetLength).value as usize;
        self.call(image, Call::WriteSheet(length)).output
    }

    /// Reads a sheet; where it is taken, its state must give the same sheet again.
    pub fn read_sheet(&mut self, text: &[u8]) -> Answer {
        let mut image = [0xee; 128];
        let answer = self.call(&mut image, Call::ReadSheet(text));
        if answer.number == 0 {
            let again = self.sheet(&mut image);
            self.same("sheet of the state that was read", &again, text);
        }
        answer
    }

    /// Every call that a state can refuse, each on the state as given, with fault and reset.
    pub fn every_call(&mut self, image: &Image) {
        let width = model::State::read(image).width;
        self.call(&mut image.clone(), Call::Fault);
        for length in [0, 5, 64, 200] {
            self.feed(&mut image.clone(), &[0x77; 200][..length]);
        }
        for length in [0, width.digest(), width.record(), width.digest() + 1] {
            self.call(&mut image.clone(), Call::Finish(length));
            self.call(&mut image.clone(), Call::Export(length));
        }
        let sheet = self.call(&mut image.clone(), Call::SheetLength).value as usize;
        // The last is the longest sheet's.
        for length in [0, sheet, sheet + 1, 254] {
            self.call(&mut image.clone(), Call::WriteSheet(length));
        }
        self.call(&mut image.clone(), Call::Reset);
    }
}
