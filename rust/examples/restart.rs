//! Hashes a log across a restart in the middle of a block: the hasher's sheet is written to a file
//! before it and read after.
//!
//! `cargo run --example restart`

use ripemd::Ripemd160;
use std::error::Error;
use std::path::Path;
use std::{env, fs, process};

/// 78 bytes, which are no multiple of 64: there is a sheet of them, and no record.
const FIRST: &str = "08:00 head 3 dispensed 250 microlitres
08:01 head 4 dispensed 125 microlitres
";
const REST: &str = "08:02 head 3 dispensed 250 microlitres
08:05 end of shift
";

fn before_restart(sheet: &Path) -> Result<(), Box<dyn Error>> {
    let mut hasher = Ripemd160::new();
    hasher.update(FIRST);
    fs::write(sheet, hasher.to_sheet())?;
    Ok(())
}

/// Goes on with the next bytes of the log: those of the unfinished block are in the sheet.
fn after_restart(sheet: &Path) -> Result<[u8; 20], Box<dyn Error>> {
    let mut hasher = Ripemd160::from_sheet(fs::read(sheet)?)?;
    hasher.update(REST);
    Ok(hasher.finalize())
}

fn main() -> Result<(), Box<dyn Error>> {
    let sheet = env::temp_dir().join(format!("ripemd-restart-{}", process::id()));
    before_restart(&sheet)?;
    print!("{}", fs::read_to_string(&sheet)?);
    let digest = after_restart(&sheet)?;
    fs::remove_file(&sheet)?;
    assert_eq!(digest, Ripemd160::digest([FIRST, REST].concat()));
    let hex: String = digest.iter().map(|byte| format!("{byte:02x}")).collect();
    println!("digest={hex}");
    Ok(())
}
