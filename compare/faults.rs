//! Cases on states with faults: each of the five alone, at every index, and every choice of them at once.

use crate::call::{Call, Input, Width};
use crate::group::Group;
use crate::model::{State, BLOCKS};
use crate::sheets::state_at;

/// A state, and the number and the index that are right for it.
type Known = (State, u32, usize);

fn fills_and_counts(width: Width) -> Vec<Known> {
    let mut all = Vec::new();
    for (count, taken) in [(0, 0), (1, 1), (BLOCKS - 1, 63)] {
        for fill in 0..64 {
            // No byte that was taken is 0.
            let (number, index) = if fill < taken { (62, fill) } else { (0, 0) };
            all.push((State { fill: fill as u64, ..state_at(width, count, taken) }, number, index));
        }
        for fill in [64, 65, 66, 127, 128, 255, 256, 320, 1 << 32, 1 << 63, u64::MAX] {
            all.push((State { fill, ..state_at(width, count, taken) }, 60, 0));
        }
        for count in [BLOCKS, BLOCKS + 1, 1 << 56, 1 << 63, u64::MAX] {
            all.push((state_at(width, count, taken), 61, 0));
        }
    }
    all
}

/// One byte of the tail set, or two, before the fill and from it on.
fn tails(width: Width) -> Vec<Known> {
    let mut all = Vec::new();
    for fill in 0..64 {
        for first in 0..64 {
            for (byte, second) in [(0x01, first), (0x80, first), (0x80, 63.min(first + 1)), (0xff, 63)] {
                let mut state = state_at(width, 2, fill);
                state.tail[second] = 0x10;
                state.tail[first] = byte;
                let lowest = if first < fill { second } else { first };
                let (number, index) = if lowest < fill { (0, 0) } else { (62, lowest) };
                all.push((state, number, index));
            }
        }
    }
    all
}

/// One spare word set, or two, with a block taken and with none.
fn spare_words(width: Width) -> Vec<Known> {
    let mut all = Vec::new();
    for (first, second) in (width.words()..10).flat_map(|first| (first..10).map(move |second| (first, second))) {
        for word in [1, 0x8000_0000, 0xff00_0000] {
            for count in [0, 1] {
                let mut state = state_at(width, count, 9);
                state.words[second] = 0x0001_0000;
                state.words[first] = word;
                all.push((state, 63, first));
            }
        }
    }
    all
}

/// Every choice of the five at once. The last is done first, so that the first has the last word on what
/// is right.
fn choices(width: Width) -> Vec<Known> {
    let mut damages: Vec<(u32, usize, fn(&mut State))> = vec![
        (60, 0, |state| state.fill = 64),
        (61, 0, |state| state.count = BLOCKS),
        (62, 40, |state| state.tail[40] = 1),
        (63, 9, |state| state.words[9] = 1),
        (64, 0, |state| state.words[0] ^= 1),
    ];
    damages.retain(|(number, ..)| *number != 63 || width != Width::W320);
    let mut all = Vec::new();
    for chosen in 0..1 << damages.len() {
        let mut known = (state_at(width, 0, 9), 0, 0);
        for (_, (number, index, damage)) in damages.iter().enumerate().rev().filter(|(at, _)| chosen >> at & 1 == 1) {
            damage(&mut known.0);
            (known.1, known.2) = (*number, *index);
        }
        all.push(known);
    }
    all
}

/// Each call that a state can refuse, with right lengths and with wrong ones: the fault is told first.
fn refused(group: &mut Group, state: State, number: u32) {
    let (image, width) = (state.image(), state.width);
    let sheet = State { fill: state.fill.min(63), ..state }.sheet().len();
    let feeds = [Input::Bytes(&[]), Input::Bytes(b"abc"), Input::Claimed(usize::MAX)].map(Call::Feed);
    let writes = [[0, width.digest()].map(Call::Finish), [0, width.record()].map(Call::Export), [0, sheet].map(Call::WriteSheet)];
    for call in feeds.into_iter().chain(writes.concat()) {
        let given = group.call(&mut image.clone(), call).number;
        group.number(&call.to_string(), given, number);
    }
    let length = group.call(&mut image.clone(), Call::SheetLength).value;
    group.number("length of no sheet", length as u32, 0);
}

pub fn told(width: Width) -> Group {
    let mut group = Group::new(format!("faults, {}", width.bits()));
    for (state, number, index) in [fills_and_counts, tails, spare_words, choices].into_iter().flat_map(|known| known(width)) {
        group.case();
        let answer = group.call(&mut state.image(), Call::Fault);
        group.number("fault", answer.number, number);
        group.number("index of a fault", answer.value as u32, index as u32);
        if number != 0 {
            refused(&mut group, state, number);
        }
    }
    group
}
