//! Cases on digests and records of messages.

use crate::call::{bytes, message, Call, Input, Width};
use crate::group::Group;
use crate::model::{self, State};
use crate::published;

pub fn vectors(width: Width) -> Group {
    let mut group = Group::new(format!("vectors {}", width.bits()));
    for vector in published::VECTORS {
        group.case();
        let message = vector.message();
        let digest = bytes(vector.digest(width));
        group.same(vector.name, &model::published(width, &message), &digest);
        by_one_shot(&mut group, width, &message, &digest);
        by_pieces(&mut group, width, &[&message], &digest);
    }
    group
}

fn by_one_shot(group: &mut Group, width: Width, message: &[u8], digest: &[u8]) {
    let call = Call::OneShot(width, Input::Bytes(message), width.digest());
    let answer = group.call(&mut [0; 128], call);
    group.same("digest by one_shot", &answer.output, digest);
}

fn by_pieces(group: &mut Group, width: Width, pieces: &[&[u8]], digest: &[u8]) {
    let mut image = group.fresh(width);
    for piece in pieces {
        group.feed(&mut image, piece);
    }
    let given = group.digest(&mut image);
    group.same("digest by pieces", &given, digest);
}

pub fn lengths(width: Width) -> Group {
    let mut group = Group::new(format!("lengths 0 to 200 in many cuts, {}", width.bits()));
    for length in 0..=200 {
        let message = message(length);
        let digest = model::published(width, &message);
        group.case();
        by_one_shot(&mut group, width, &message, &digest);
        for cut in 0..=length {
            group.case();
            by_pieces(&mut group, width, &[&message[..cut], &message[cut..]], &digest);
        }
        for size in [1, 7, 63, 64, 65] {
            let pieces: Vec<&[u8]> = message.chunks(size).collect();
            group.case();
            by_pieces(&mut group, width, &pieces, &digest);
            let with_empty: Vec<&[u8]> = pieces.iter().flat_map(|piece| [&[], *piece, &[]]).collect();
            group.case();
            by_pieces(&mut group, width, &with_empty, &digest);
        }
    }
    group
}

/// Finishing after every byte: each digest is that of the bytes so far, and feeding goes on.
pub fn finish_and_go_on(width: Width) -> Group {
    let mut group = Group::new(format!("finish after every byte, {}", width.bits()));
    let message = message(300);
    let mut image = State::fresh(width).image();
    for taken in 0..message.len() {
        group.case();
        let digest = group.digest(&mut image);
        group.same("digest so far", &digest, &model::published(width, &message[..taken]));
        group.feed(&mut image, &message[taken..taken + 1]);
    }
    group
}

pub fn restarts(width: Width) -> Group {
    let mut group = Group::new(format!("export and import at multiples of 64, {}", width.bits()));
    let message = message(1100);
    for taken in (0..=1024).step_by(64) {
        group.case();
        let mut before = group.fresh(width);
        group.feed(&mut before, &message[..taken]);
        let record = group.call(&mut before, Call::Export(width.record())).output;
        let (_, mut after) = group.import(width, &record);
        group.same("state after import", &after, &before);
        let again = group.call(&mut after, Call::Export(width.record())).output;
        group.same("record of the imported state", &again, &record);
        group.feed(&mut after, &message[taken..]);
        let digest = group.digest(&mut after);
        group.same("digest across the restart", &digest, &model::published(width, &message));
    }
    group
}

pub fn mid_block(width: Width) -> Group {
    let mut group = Group::new(format!("export after every byte, {}", width.bits()));
    let mut image = State::fresh(width).image();
    for taken in 0..=256 {
        group.case();
        let number = group.call(&mut image, Call::Export(width.record())).number;
        group.number("export", number, if taken % 64 == 0 { 0 } else { 2 });
        group.feed(&mut image, &[taken as u8]);
    }
    group
}
