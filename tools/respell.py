#!/usr/bin/env python3
"""Gives the repository's own definitions and lemmas the spelling of Rattle's library: words in snake case, types in camel case.

usage: respell.py      once, at the top of the repository, after port.py

It reads which names specs/ and proofs/ declare, and respells those alone: `keySize` to `key_size`, `first-on` to `first_on`. Where a
lemma would fall together with a definition, the lemma gets `_law` after its name. It prints each name that had to be told apart.
"""
import collections
import glob
import re

# What a file of proofs/ binds for itself, by a λ or a pattern.
LOCAL = """a-is by-half by-other one-lt same-pool free-room at-standby otherSize Kept-back here-d here-m new-x new-y most-next v-is new-d
new-m new-p w-is norm-pos at-active k-is""".split()
# Lemmas under the name of a claim that is proved from them.
TOLD_APART = {"byteLaws": "byte_level", "pairLaws": "pair_level", "nibbleLaws": "nibble_level", "at-once": "at_once_law"}
DECLARED = re.compile(r"\s*(?:abbrev |unfoldable |pub |data |record )*([^\s:(){}]+)(?:\s+[({].*)? : ")
TOKEN = re.compile(r"[^\s(){}\[\],;.:@\"`λ→∷≡×⊎¬↦|←⌜⌝]+")
LEMMAS = glob.glob("crates/*/specs/**/*.antt", recursive=True) + glob.glob("crates/*/proofs/*.antt")


def snake(name):
    if name[0].isupper() and "-" not in name:
        return name
    word = re.sub(r"([a-z0-9'])([A-Z])", lambda it: it[1] + "_" + it[2].lower(), name.replace("-", "_"))
    return word[0].lower() + word[1:] if "_" in word else word


def declared(path):
    with open(path) as file:
        return {it[1] for line in file if not line.strip().startswith("--") for it in [DECLARED.match(line)] if it}


def mapping():
    names = set(LOCAL)
    for path in LEMMAS:
        names |= declared(path)
    by_new = collections.defaultdict(set)
    for name in names - set(TOLD_APART):
        by_new[snake(name)].add(name)
    turned = dict(TOLD_APART)
    for new, olds in by_new.items():
        for old in olds:
            law = len(olds) > 1 and "-" in old
            turned[old] = new + "_law" if law else new
    for old, new in sorted(turned.items()):
        if new != snake(old):
            print(f"told apart: {old} is {new}")
    return {old: new for old, new in turned.items() if old != new}


def respelled(text, names, kept=None):
    def turn(it):
        name = it[0]
        if name not in names or (kept is not None and name in kept):
            return name
        # A step of a generated proof, as in c.before.key-size-of.
        step = kept is not None and re.search(r"(?<![\w.-])(?:c|l|w|tie)(?:\.[\w-]+)*\.$", text[: it.start()])
        return name if step else names[name]

    return TOKEN.sub(turn, text)


def in_comment(text, names):
    return re.sub(r"`[^`\n]*`|\b[a-z]+[A-Z]\w*", lambda it: respelled(it[0], names), text)


def turn_antt(text, names, kept):
    lines = []
    for line in text.split("\n"):
        lines.append(in_comment(line, names) if line.strip().startswith("--") else respelled(line, names, kept))
    return "\n".join(lines)


def turn_rt(text, names):
    parts = re.split(r'("(?:[^"\\\n]|\\.)*"|//[^\n]*)', text)
    turned = []
    for part in parts:
        if part.startswith('"'):
            turned.append(part)
        elif part.startswith("//"):
            turned.append(in_comment(part, names))
        else:
            turned.append(respelled(part, names))
    return "".join(turned)


def main():
    names = mapping()
    pages = ["README.md"] + glob.glob("docs/*.md")
    for path in LEMMAS + glob.glob("crates/*/proofs/*/**/*.antt", recursive=True) + glob.glob("crates/*/src/**/*.rt", recursive=True) + glob.glob("crates/*/must-fail/*.edit") + pages:
        with open(path) as file:
            text = file.read()
        if path.endswith(".antt"):
            by_hand = path not in LEMMAS
            new = turn_antt(text, names, declared(path) if by_hand else None)
        elif path.endswith(".md"):
            new = in_comment(text, names)
        elif path.endswith(".rt"):
            new = turn_rt(text, names)
        else:
            new = respelled(text, names)
        if new != text:
            with open(path, "w") as file:
                file.write(new)


main()
