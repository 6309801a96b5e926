//! Compares every call of the library with the model, group by group. Its arguments are the seed of
//! the random sequences and their number of calls. The exit status says whether all was equal.
//!
//! compare/run puts the Rust crate's c128.rs, c160.rs, c256.rs and c320.rs beside a copy of these files.

mod c128;
mod c160;
mod c256;
mod c320;
mod call;
mod faults;
mod group;
mod library;
mod messages;
mod model;
mod published;
mod random;
mod refusals;
mod sheet;
mod sheets;

use call::{Width, WIDTHS};
use group::Group;
use std::process::ExitCode;

const GROUPS: [fn(Width) -> Group; 19] = [
    messages::vectors,
    messages::lengths,
    messages::finish_and_go_on,
    messages::restarts,
    messages::mid_block,
    refusals::high_counts,
    refusals::last_bytes,
    refusals::lengths_beyond_memory,
    refusals::no_blocks,
    refusals::damaged_records,
    refusals::wrong_lengths,
    refusals::flipped_images,
    faults::told,
    sheets::after_every_byte,
    sheets::counts_and_fills,
    sheets::no_blocks,
    sheets::byte_values,
    sheets::named_places,
    sheets::damaged,
];

fn main() -> ExitCode {
    let arguments: Vec<String> = std::env::args().skip(1).collect();
    let numbers: Vec<u64> = arguments.iter().filter_map(|argument| argument.parse().ok()).collect();
    let [seed, calls] = numbers[..] else {
        eprintln!("the seed and the number of calls are numbers below 2^64, not '{}'", arguments.join(" "));
        return ExitCode::FAILURE;
    };
    println!("seed {seed}, {calls} random calls");
    let (mut equal, mut written, mut read) = (true, 0, 0);
    let mut end = |group: Group| {
        equal &= group.end();
        written += group.sheets_written;
        read += group.sheets_read;
    };
    end(refusals::table());
    for group in GROUPS {
        for width in WIDTHS {
            end(group(width));
        }
    }
    end(random::sequences(seed, calls));
    println!("sheets written {written}, read {read}");
    println!("{}", if equal { "all equal" } else { "DIFFERENT" });
    if equal {
        ExitCode::SUCCESS
    } else {
        ExitCode::FAILURE
    }
}
