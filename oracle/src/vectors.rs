//! The published examples of FIPS 197: appendix A for expansion, B and C for blocks, in hex.

pub struct Expansion {
    pub key: &'static str,
    /// The words after the key's own.
    pub first: &'static str,
    /// The last four words.
    pub last: &'static str,
}

pub const EXPANSIONS: [Expansion; 3] = [
    Expansion {
        key: "2b7e151628aed2a6abf7158809cf4f3c",
        first: "a0fafe1788542cb123a339392a6c7605",
        last: "d014f9a8c9ee2589e13f0cc8b6630ca6",
    },
    Expansion {
        key: "8e73b0f7da0e6452c810f32b809079e562f8ead2522c6b7b",
        first: "fe0c91f72402f5a5ec12068e6c827f6b0e7a95b95c56fec2",
        last: "e98ba06f448c773c8ecc720401002202",
    },
    Expansion {
        key: "603deb1015ca71be2b73aef0857d77811f352c073b6108d72d9810a30914dff4",
        first: "9ba354118e6925afa51a8b5f2067fcdea8b09c1a93d194cdbe49846eb75d5b9a",
        last: "fe4890d1e6188d0b046df344706c631e",
    },
];

pub struct Block {
    pub key: &'static str,
    pub plain: &'static str,
    pub cipher: &'static str,
}

pub const BLOCKS: [Block; 4] = [
    Block {
        key: "2b7e151628aed2a6abf7158809cf4f3c",
        plain: "3243f6a8885a308d313198a2e0370734",
        cipher: "3925841d02dc09fbdc118597196a0b32",
    },
    Block {
        key: "000102030405060708090a0b0c0d0e0f",
        plain: "00112233445566778899aabbccddeeff",
        cipher: "69c4e0d86a7b0430d8cdb78070b4c55a",
    },
    Block {
        key: "000102030405060708090a0b0c0d0e0f1011121314151617",
        plain: "00112233445566778899aabbccddeeff",
        cipher: "dda97ca4864cdfe06eaf70a0ec0d7191",
    },
    Block {
        key: "000102030405060708090a0b0c0d0e0f101112131415161718191a1b1c1d1e1f",
        plain: "00112233445566778899aabbccddeeff",
        cipher: "8ea2b7ca516745bfeafc49904b496089",
    },
];
