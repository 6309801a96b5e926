//! The published digests: RIPEMD-128 and RIPEMD-160 from the designers' paper, RIPEMD-256 and RIPEMD-320 from their pages.

use crate::call::Width;

pub struct Vector {
    pub name: &'static str,
    text: &'static str,
    times: usize,
    digest128: &'static str,
    digest160: &'static str,
    digest256: &'static str,
    digest320: &'static str,
}

impl Vector {
    pub fn message(&self) -> Vec<u8> {
        self.text.repeat(self.times).into()
    }

    /// The digest in lower-case hex.
    pub fn digest(&self, width: Width) -> &'static str {
        match width {
            Width::W128 => self.digest128,
            Width::W160 => self.digest160,
            Width::W256 => self.digest256,
            Width::W320 => self.digest320,
        }
    }
}

pub const VECTORS: [Vector; 9] = [
    Vector {
        name: "empty",
        text: "",
        times: 1,
        digest128: "cdf26213a150dc3ecb610f18f6b38b46",
        digest160: "9c1185a5c5e9fc54612808977ee8f548b2258d31",
        digest256: "02ba4c4e5f8ecd1877fc52d64d30e37a2d9774fb1e5d026380ae0168e3c5522d",
        digest320: "22d65d5661536cdc75c1fdf5c6de7b41b9f27325ebc61e8557177d705a0ec880151c3a32a00899b8",
    },
    Vector {
        name: "a",
        text: "a",
        times: 1,
        digest128: "86be7afa339d0fc7cfc785e72f578d33",
        digest160: "0bdc9d2d256b3ee9daae347be6f4dc835a467ffe",
        digest256: "f9333e45d857f5d90a91bab70a1eba0cfb1be4b0783c9acfcd883a9134692925",
        digest320: "ce78850638f92658a5a585097579926dda667a5716562cfcf6fbe77f63542f99b04705d6970dff5d",
    },
    Vector {
        name: "abc",
        text: "abc",
        times: 1,
        digest128: "c14a12199c66e4ba84636b0f69144c77",
        digest160: "8eb208f7e05d987a9b044a8e98c6b087f15a0bfc",
        digest256: "afbd6e228b9d8cbbcef5ca2d03e6dba10ac0bc7dcbe4680e1e42d2e975459b65",
        digest320: "de4c01b3054f8930a79d09ae738e92301e5a17085beffdc1b8d116713e74f82fa942d64cdbc4682d",
    },
    Vector {
        name: "message-digest",
        text: "message digest",
        times: 1,
        digest128: "9e327b3d6e523062afc1132d7df9d1b8",
        digest160: "5d0689ef49d2fae572b881b123a85ffa21595f36",
        digest256: "87e971759a1ce47a514d5c914c392c9018c7c46bc14465554afcdf54a5070c0e",
        digest320: "3a8e28502ed45d422f68844f9dd316e7b98533fa3f2a91d29f84d425c88d6b4eff727df66a7c0197",
    },
    Vector {
        name: "a..z",
        text: "abcdefghijklmnopqrstuvwxyz",
        times: 1,
        digest128: "fd2aa607f71dc8f510714922b371834e",
        digest160: "f71c27109c692c1b56bbdceb5b9d2865b3708dbc",
        digest256: "649d3034751ea216776bf9a18acc81bc7896118a5197968782dd1fd97d8d5133",
        digest320: "cabdb1810b92470a2093aa6bce05952c28348cf43ff60841975166bb40ed234004b8824463e6b009",
    },
    Vector {
        name: "abcdbcde..nopq",
        text: "abcdbcdecdefdefgefghfghighijhijkijkljklmklmnlmnomnopnopq",
        times: 1,
        digest128: "a1aa0689d0fafa2ddc22e88b49133a06",
        digest160: "12a053384a9c0c88e405a06c27dcf49ada62eb2b",
        digest256: "3843045583aac6c8c8d9128573e7a9809afb2a0f34ccc36ea9e72f16f6368e3f",
        digest320: "d034a7950cf722021ba4b84df769a5de2060e259df4c9bb4a4268c0e935bbc7470a969c9d072a1ac",
    },
    Vector {
        name: "A..Za..z0..9",
        text: "ABCDEFGHIJKLMNOPQRSTUVWXYZabcdefghijklmnopqrstuvwxyz0123456789",
        times: 1,
        digest128: "d1e959eb179c911faea4624c60c5c702",
        digest160: "b0e20b6e3116640286ed3a87a5713079b21f5189",
        digest256: "5740a408ac16b720b84424ae931cbb1fe363d1d0bf4017f1a89f7ea6de77a0b8",
        digest320: "ed544940c86d67f250d232c30b7b3e5770e0c60c8cb9a4cafe3b11388af9920e1b99230b843c86a4",
    },
    Vector {
        name: "8*1234567890",
        text: "1234567890",
        times: 8,
        digest128: "3f45ef194732c2dbb2c4a2c769795fa3",
        digest160: "9b752e45573d4b39f4dbd3323cab82bf63326bfb",
        digest256: "06fdcc7a409548aaf91368c06a6275b553e3f099bf0ea4edfd6778df89a890dd",
        digest320: "557888af5f6d8ed62ab66945c6d2a0a47ecd5341e915eb8fea1d0524955f825dc717e4a008ab2d42",
    },
    Vector {
        name: "1000000*a",
        text: "a",
        times: 1_000_000,
        digest128: "4a7f5723f954eba1216c9d8f6320431f",
        digest160: "52783243c1697bdbe16d37f97f68f08325dc1528",
        digest256: "ac953744e10e31514c150d4d8d7b677342e33399788296e43ae4850ce4f97978",
        digest320: "bdee37f4371e20646b8b0d862dda16292ae36f40965e8c8509e63d1dbddecc503e2b63eb9245bb66",
    },
];
