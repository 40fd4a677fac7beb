#!/usr/bin/env python3
"""Writes the vectors of known answers in the form of docs/KNOWN-ANSWERS.md.

convert.py FOLDER > FILE, where FOLDER holds NIST's response files for AES in ECB (ECBGFSbox128.rsp and the others named below).
The examples of FIPS 197 and SP 800-38A stand in this file, since NIST has them in documents only.
"""
import os
import sys

RESPONSES = ["ECB%s%d.rsp" % (test, bits) for test in ("GFSbox", "KeySbox", "VarTxt", "VarKey") for bits in (128, 192, 256)]

# The key, the plain text and the cipher text.
FIPS_197 = [
    ("B", "2b7e151628aed2a6abf7158809cf4f3c", "3243f6a8885a308d313198a2e0370734", "3925841d02dc09fbdc118597196a0b32"),
    ("C.1", "000102030405060708090a0b0c0d0e0f", "00112233445566778899aabbccddeeff", "69c4e0d86a7b0430d8cdb78070b4c55a"),
    ("C.2", "000102030405060708090a0b0c0d0e0f1011121314151617", "00112233445566778899aabbccddeeff", "dda97ca4864cdfe06eaf70a0ec0d7191"),
    ("C.3", "000102030405060708090a0b0c0d0e0f101112131415161718191a1b1c1d1e1f", "00112233445566778899aabbccddeeff", "8ea2b7ca516745bfeafc49904b496089"),
]

PLAIN_38A = [
    "6bc1bee22e409f96e93d7e117393172a",
    "ae2d8a571e03ac9c9eb76fac45af8e51",
    "30c81c46a35ce411e5fbc1191a0a52ef",
    "f69f2445df4f9b17ad2b417be66c3710",
]

# Two sections, one for each direction; the key; the cipher text of each plain text above.
SP_800_38A = [
    ("F.1.1", "F.1.2", "2b7e151628aed2a6abf7158809cf4f3c", [
        "3ad77bb40d7a3660a89ecaf32466ef97",
        "f5d3d58503b9699de785895a96fdbaaf",
        "43b1cd7f598ece23881b00e3ed030688",
        "7b0c785e27e8ad3f8223207104725dd4",
    ]),
    ("F.1.3", "F.1.4", "8e73b0f7da0e6452c810f32b809079e562f8ead2522c6b7b", [
        "bd334f1d6e45f25ff712a214571fa5cc",
        "974104846d0ad3ad7734ecb3ecee4eef",
        "ef7afd2270e2e60adce0ba2face6444e",
        "9a4b41ba738d6c72fb16691603c18e0e",
    ]),
    ("F.1.5", "F.1.6", "603deb1015ca71be2b73aef0857d77811f352c073b6108d72d9810a30914dff4", [
        "f3eed1bdb5d2a03c064b5a7e3db181f8",
        "591ccb10d410ed26dc5ba74a31362870",
        "b6ed21b99ca6f4f9f153e7b1beafed1d",
        "23304b7a39f9f3ff067d8d8f9e24ecc7",
    ]),
]


def encrypt(key, plain, cipher):
    print("E", key, plain, cipher)


def decrypt(key, plain, cipher):
    print("D", key, cipher, plain)


def documents():
    for section, key, plain, cipher in FIPS_197:
        print("# FIPS 197, appendix", section)
        encrypt(key, plain, cipher)
        decrypt(key, plain, cipher)
    for forth, back, key, ciphers in SP_800_38A:
        print("# SP 800-38A,", forth)
        for plain, cipher in zip(PLAIN_38A, ciphers):
            encrypt(key, plain, cipher)
        print("# SP 800-38A,", back)
        for plain, cipher in zip(PLAIN_38A, ciphers):
            decrypt(key, plain, cipher)


def response(path):
    """A case is complete with the second of its texts, whichever comes first in its section."""
    section, case = None, {}
    with open(path) as lines:
        for line in lines:
            line = line.strip()
            if line in ("[ENCRYPT]", "[DECRYPT]"):
                section = line
                print("# NIST CAVP,", os.path.basename(path), section)
            elif "=" in line and not line.startswith("#"):
                name, value = (part.strip() for part in line.split("=", 1))
                if name == "COUNT":
                    case = {}
                case[name] = value
                if "PLAINTEXT" in case and "CIPHERTEXT" in case:
                    write = encrypt if section == "[ENCRYPT]" else decrypt
                    write(case["KEY"], case["PLAINTEXT"], case["CIPHERTEXT"])
                    case = {}


def main():
    if len(sys.argv) != 2:
        sys.exit(__doc__)
    documents()
    for name in RESPONSES:
        response(os.path.join(sys.argv[1], name))


main()
