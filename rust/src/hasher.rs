//! All hashers from one text: they differ in name, width and lengths alone.

use crate::Error;

/// What a call gave; where it was refused and has no error to give, a panic that says why.
pub(crate) fn given<T>(call: &str, result: Result<T, Error>) -> T {
    result.unwrap_or_else(|error| panic!("{call}: {error}"))
}

macro_rules! hasher {
    ($name:ident, $bits:literal, $width:expr, $digest:literal, $record:literal) => {
        #[doc = concat!("RIPEMD-", $bits, ": takes a message in pieces and gives its digest of ", $digest, " bytes.")]
        ///
        /// ```
        #[doc = concat!("use ripemd::", stringify!($name), ";")]
        ///
        #[doc = concat!("let mut hasher = ", stringify!($name), "::new();")]
        /// hasher.update("ab");
        /// hasher.update("c");
        #[doc = concat!("assert_eq!(hasher.finalize(), ", stringify!($name), "::digest(\"abc\"));")]
        /// ```
        #[derive(Clone)]
        pub struct $name {
            image: Image,
        }

        impl $name {
            /// Length of a digest in bytes.
            pub const DIGEST_LENGTH: usize = $digest;

            /// Length of a record in bytes.
            pub const RECORD_LENGTH: usize = $record;

            /// A hasher that has taken nothing.
            pub fn new() -> Self {
                Self { image: ffi::fresh($width) }
            }

            /// Takes the next piece of the message.
            ///
            /// # Panics
            ///
            /// Where [`try_update`](Self::try_update) gives an error.
            pub fn update(&mut self, piece: impl AsRef<[u8]>) {
                given(concat!(stringify!($name), "::update"), self.try_update(piece.as_ref()));
            }

            /// Takes the next piece of the message. Refused where [`check`](Self::check) gives an
            /// error, and with [`Error::TooLong`], it takes nothing of it; if it was too long, a
            /// shorter piece may still be taken.
            pub fn try_update(&mut self, piece: &[u8]) -> Result<(), Error> {
                ffi::feed(&mut self.image, piece)
            }

            /// The digest of all that was taken. Panics as [`peek`](Self::peek) does.
            pub fn finalize(self) -> [u8; $digest] {
                self.peek()
            }

            /// The digest of all that was taken; the hasher then begins a new message. Panics as
            /// [`peek`](Self::peek) does.
            pub fn finalize_reset(&mut self) -> [u8; $digest] {
                let digest = self.peek();
                self.reset();
                digest
            }

            /// The digest of all that was taken so far; the message may go on.
            ///
            /// # Panics
            ///
            /// Where the state was damaged in memory, as [`check`](Self::check) tells.
            pub fn peek(&self) -> [u8; $digest] {
                let mut digest = [0; $digest];
                let finished = ffi::finish(&self.image, &mut digest);
                given(concat!(stringify!($name), "::peek"), finished);
                digest
            }

            /// Forgets all that was taken.
            pub fn reset(&mut self) {
                ffi::reset(&mut self.image);
            }

            /// The digest of a whole message.
            pub fn digest(message: impl AsRef<[u8]>) -> [u8; $digest] {
                let mut digest = [0; $digest];
                let finished = ffi::one_shot($width, message.as_ref(), &mut digest);
                given(concat!(stringify!($name), "::digest"), finished);
                digest
            }

            #[doc = concat!("The record of all that was taken, ", $record, " bytes, from which")]
            /// [`deserialize`](Self::deserialize) goes on. Refused where [`check`](Self::check) gives
            /// an error, and with [`Error::MidBlock`] unless the bytes taken are a multiple of 64;
            /// [`to_sheet`](Self::to_sheet) can be had after any byte.
            pub fn serialize(&self) -> Result<[u8; $record], Error> {
                let mut record = [0; $record];
                ffi::export(&self.image, &mut record)?;
                Ok(record)
            }

            /// A hasher that goes on from a record. Refused with [`Error::RecordLength`],
            /// [`Error::RecordCount`] or [`Error::RecordWords`]; other damage to a record cannot be seen.
            pub fn deserialize(record: &[u8]) -> Result<Self, Error> {
                Ok(Self { image: ffi::import($width, record)? })
            }

            /// The sheet of all that was taken, whatever its length: four lines of text, from which
            /// [`from_sheet`](Self::from_sheet) goes on. The last has the bytes after the last
            /// multiple of 64 as they are, so that much of the message can be read there. Panics as
            /// [`peek`](Self::peek) does.
            pub fn to_sheet(&self) -> String {
                let written = ffi::write_sheet(&self.image);
                let sheet = given(concat!(stringify!($name), "::to_sheet"), written);
                String::from_utf8(sheet).expect("a sheet is ASCII")
            }

            /// A hasher that goes on from a sheet, text or bytes. Refused as [`SheetError`] says; other
            /// damage to a sheet, such as one digit for another, cannot be seen.
            pub fn from_sheet(sheet: impl AsRef<[u8]>) -> Result<Self, SheetError> {
                Ok(Self { image: ffi::read_sheet($width, sheet.as_ref())? })
            }

            /// What is wrong with the state, and where, if it was damaged in memory: one of the cases
            /// of [`Error`] from [`Error::Fill`] on. Every other call that uses the state looks first
            /// too; this one does nothing else, so it serves after a suspected memory fault, before
            /// the state is trusted again.
            ///
            /// Damage that leaves the state of some other message cannot be seen, such as one word for
            /// another after the first block, or one width for another.
            pub fn check(&self) -> Result<(), Error> {
                ffi::check(&self.image)
            }
        }

        impl Default for $name {
            fn default() -> Self {
                Self::new()
            }
        }

        /// Shows the name alone: what was hashed stays out of logs.
        impl fmt::Debug for $name {
            fn fmt(&self, f: &mut fmt::Formatter<'_>) -> fmt::Result {
                f.debug_struct(stringify!($name)).finish_non_exhaustive()
            }
        }

        /// Takes each buffer whole, or refuses it whole with the [`Error`] of `try_update` inside.
        impl io::Write for $name {
            fn write(&mut self, piece: &[u8]) -> io::Result<usize> {
                self.try_update(piece)?;
                Ok(piece.len())
            }

            fn flush(&mut self) -> io::Result<()> {
                Ok(())
            }
        }
    };
}

pub(crate) use hasher;
