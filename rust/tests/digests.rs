//! Digests: published ones, and the same one by every way to ask for it.

use std::io::Write;

const MESSAGE: &[u8; 200] = &[0x5a; 200];

fn hex(bytes: &[u8]) -> String {
    bytes.iter().map(|byte| format!("{byte:02x}")).collect()
}

macro_rules! digests {
    ($width:ident, $name:ident, $empty:literal, $abc:literal) => {
        mod $width {
            use super::*;
            use ripemd::$name;

            #[test]
            fn published() {
                assert_eq!(hex(&$name::new().finalize()), $empty);
                assert_eq!(hex(&$name::digest("abc")), $abc);
            }

            #[test]
            fn every_cut_gives_one_digest() {
                for cut in 0..=MESSAGE.len() {
                    let mut hasher = $name::default();
                    hasher.update(&MESSAGE[..cut]);
                    hasher.update("");
                    hasher.update(MESSAGE[cut..].to_vec());
                    assert_eq!(hasher.finalize(), $name::digest(MESSAGE), "cut at {cut}");
                }
            }

            #[test]
            fn peek_changes_nothing() {
                let mut hasher = $name::new();
                for (taken, byte) in MESSAGE.iter().enumerate() {
                    assert_eq!(hasher.peek(), $name::digest(&MESSAGE[..taken]));
                    hasher.update([*byte]);
                }
                assert_eq!(hasher.finalize(), $name::digest(MESSAGE));
            }

            #[test]
            fn a_clone_goes_its_own_way() {
                let mut one = $name::new();
                one.update("a");
                let mut other = one.clone();
                one.update("bc");
                other.update("x");
                assert_eq!(one.finalize(), $name::digest("abc"));
                assert_eq!(other.finalize(), $name::digest("ax"));
            }

            #[test]
            fn reset_forgets() {
                let mut hasher = $name::new();
                hasher.update(MESSAGE);
                hasher.reset();
                hasher.update("abc");
                assert_eq!(hex(&hasher.finalize_reset()), $abc);
                assert_eq!(hex(&hasher.finalize()), $empty);
            }

            #[test]
            fn written_to() {
                let mut hasher = $name::new();
                hasher.write_all(&MESSAGE[..70]).unwrap();
                assert_eq!(hasher.write(&MESSAGE[70..]).unwrap(), 130);
                hasher.flush().unwrap();
                assert_eq!(hasher.finalize(), $name::digest(MESSAGE));
            }

            #[test]
            fn shown_by_name_alone() {
                assert_eq!(
                    format!("{:?}", $name::new()),
                    concat!(stringify!($name), " { .. }")
                );
            }
        }
    };
}

digests!(
    width128,
    Ripemd128,
    "cdf26213a150dc3ecb610f18f6b38b46",
    "c14a12199c66e4ba84636b0f69144c77"
);
digests!(
    width160,
    Ripemd160,
    "9c1185a5c5e9fc54612808977ee8f548b2258d31",
    "8eb208f7e05d987a9b044a8e98c6b087f15a0bfc"
);
digests!(
    width256,
    Ripemd256,
    "02ba4c4e5f8ecd1877fc52d64d30e37a2d9774fb1e5d026380ae0168e3c5522d",
    "afbd6e228b9d8cbbcef5ca2d03e6dba10ac0bc7dcbe4680e1e42d2e975459b65"
);
digests!(
    width320,
    Ripemd320,
    "22d65d5661536cdc75c1fdf5c6de7b41b9f27325ebc61e8557177d705a0ec880151c3a32a00899b8",
    "de4c01b3054f8930a79d09ae738e92301e5a17085beffdc1b8d116713e74f82fa942d64cdbc4682d"
);
