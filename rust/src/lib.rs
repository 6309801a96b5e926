//! RIPEMD-128, 160, 256 and 320 by a static library that is proved to compute the published digests.
//!
//! ```
//! use ripemd::Ripemd160;
//!
//! let mut hasher = Ripemd160::new();
//! hasher.update(b"message ");
//! hasher.update(b"digest");
//! let hex: String = hasher.finalize().iter().map(|byte| format!("{byte:02x}")).collect();
//! assert_eq!(hex, "5d0689ef49d2fae572b881b123a85ffa21595f36");
//! ```
//!
//! # Across a restart
//!
//! After a multiple of 64 bytes the hasher can be kept as a record.
//!
//! ```
//! use ripemd::{Error, Ripemd320};
//!
//! let message = [7; 100];
//! let mut before = Ripemd320::new();
//! before.update(&message[..64]);
//! let record = before.serialize()?;
//!
//! let mut after = Ripemd320::deserialize(&record)?;
//! after.update(&message[64..]);
//! assert_eq!(after.serialize().unwrap_err(), Error::MidBlock);
//! assert_eq!(after.finalize(), Ripemd320::digest(message));
//! # Ok::<(), Error>(())
//! ```
//!
//! # In the middle of a block
//!
//! After any number of bytes the hasher can be kept as a state sheet: four lines of text, which can
//! also be printed and typed in again. `examples/restart.rs` does this through a file.
//!
//! ```
//! use ripemd::{Ripemd160, SheetError};
//!
//! let mut before = Ripemd160::new();
//! before.update("message ");
//! let sheet = before.to_sheet();
//! assert_eq!(sheet, "width=160
//! blocks=0
//! words=0123456789abcdeffedcba9876543210f0e1d2c3
//! tail=6d65737361676520
//! ");
//!
//! let mut after = Ripemd160::from_sheet(&sheet)?;
//! after.update("digest");
//! assert_eq!(after.finalize(), Ripemd160::digest("message digest"));
//!
//! let mistyped = sheet.replace("0123", "0l23");
//! let refused = Ripemd160::from_sheet(mistyped).unwrap_err();
//! assert_eq!(refused, SheetError::Shape { place: 26, line: 3 });
//! # Ok::<(), SheetError>(())
//! ```
//!
//! # After a memory fault
//!
//! A hasher is 128 bytes of memory. Every call that uses them is refused where they hold what no
//! message leaves there, or panics where it has no error to give; `check` only looks. The error says
//! what is wrong, where, and what to do.
//!
//! ```
//! use ripemd::Ripemd160;
//!
//! let mut hasher = Ripemd160::new();
//! hasher.update("message ");
//! let kept = hasher.to_sheet();
//! hasher.update("digest");
//! if let Err(error) = hasher.check() {
//!     eprintln!("number {}: {error}", error.number());
//!     hasher = Ripemd160::from_sheet(&kept)?;
//!     hasher.update("digest");
//! }
//! assert_eq!(hasher.finalize(), Ripemd160::digest("message digest"));
//! # Ok::<(), ripemd::SheetError>(())
//! ```
//!
//! # From a reader
//!
//! ```
//! use ripemd::Ripemd160;
//!
//! let mut hasher = Ripemd160::new();
//! std::io::copy(&mut "abc".as_bytes(), &mut hasher)?;
//! assert_eq!(hasher.finalize(), Ripemd160::digest("abc"));
//! # Ok::<(), std::io::Error>(())
//! ```
//!
//! # Coming from RustCrypto's ripemd 0.2.0
//!
//! - The methods belong to the types: drop `use ripemd::Digest`.
//! - A digest is an array, such as `[u8; 20]` of `Ripemd160`.
//! - `serialize` gives the record of `Ripemd160Core` and its like, the same bytes, and is refused in
//!   the middle of a block. The old `Ripemd160` appended its part-filled block; `to_sheet` keeps it.
//! - `deserialize` refuses a block count of 2^55 or more, and `update` a message of 2^61 bytes or
//!   more: from there on the old crate's bit length overflowed.
//! - `deserialize` refuses a block count of 0 with words other than the initial ones, such as a record
//!   that was wiped to zeros. The old crate took it.
//!
//! # Coming from version 1
//!
//! - In place of `Error::IllFormed`, number 6, five cases say what is wrong with a state:
//!   [`Error::Fill`], [`Error::Count`], [`Error::Tail`], [`Error::SpareWord`] and [`Error::Start`].
//! - Two of them carry an index, so write `error.number()` for `error as u32`.
//!
//! # Building
//!
//! `tests/library` in the repository's root writes the library to `target/staticlib`, where
//! the build looks for it; `RIPEMD_LIB_DIR` names another folder. It is x86-64 code.
#![deny(missing_docs, unsafe_code)]

#[cfg(test)]
mod damage;
mod error;
mod ffi;
mod hasher;

pub use error::{Error, SheetError};

use ffi::Image;
use hasher::{given, hasher};
use std::{fmt, io};

hasher!(Ripemd128, "128", ffi::W128, 16, 24);
hasher!(Ripemd160, "160", ffi::W160, 20, 28);
hasher!(Ripemd256, "256", ffi::W256, 32, 40);
hasher!(Ripemd320, "320", ffi::W320, 40, 48);
