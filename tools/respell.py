#!/usr/bin/env python3
"""Brings the repository's own definitions, lemmas, fields and constructors to snake case, after port.py has run: `digestOf` to `digest_of`, `cut-anywhere`
to `cut_anywhere`. Run once, at the top of the repository: tools/respell.py [--try]

What stays: types, modules and facts (upper camel case), names that Rattle makes (the answers of goals), names of the library, and all of src/ but its
clauses. In must-fail edits, README.md, docs/ and tests/map a name turns where its new spelling is a definition's. It says which names fall together.
"""
import glob
import re
import sys

TRY = "--try" in sys.argv
WORD = re.compile(r"[^\s(){}\[\].,;:`'\"/|@#]+(?:'+)?")
SIGNED = re.compile(r"^\s*(?:abbrev |unfoldable )?(?:pub )?([^\s(){}\[\].,;:]+) :(?: (.*))?$")
MADE = re.compile(r"\b(tie|goal)\.")
NOT_A_NAME = {"use", "mod", "pub", "let", "in", "module", "where", "record", "data", "--"}


# A lemma that would have its definition's name gets `_lem`.
LEMMAS = {n: n.replace("-", "_") + "_lem" for n in ["all-rounds", "digest-from", "digits_in", "fresh-record", "from-words", "head-of", "length-bytes", "state-in", "tail-shown", "up-to", "whole-blocks", "words-shown"]}


def snake(name):
    if name in LEMMAS:
        return LEMMAS[name]
    name = re.sub(r"(?<=[a-z0-9])(?=[A-Z])", "_", name)
    if re.search(r"[a-z0-9_]", name):
        name = re.sub(r"(?<=[^\W_])-(?=[^\W_])", "_", name)
    return "_".join(p if p in ("W128", "W160", "W256", "W320") else p.lower() if re.fullmatch(r"[A-Z][a-z0-9]*", p) else p for p in name.split("_"))


def read(path):
    with open(path, encoding="utf-8") as f:
        return f.read()


def library_names(texts):
    """What files import from elsewhere: never turned in that file."""
    found = {}
    for path, text in texts.items():
        names = set()
        for module, group in re.findall(r"^(?:ghost )?use ([^\s{;]+)\.\{([^}]*)\}", text, re.M):
            if not re.match(r"Rattle\.(" + "|".join(CRATES) + r")\.", module):
                names |= {w.strip().split(" as ")[-1] for w in group.split(",")}
        found[path] = names
    return found


CRATES = [c.split("/")[1] for c in glob.glob("crates/*/")]
proofs = sorted(glob.glob("crates/*/specs/**/*.antt", recursive=True) + glob.glob("crates/*/proofs/**/*.antt", recursive=True))
sources = sorted(glob.glob("crates/*/src/**/*.rt", recursive=True))
texts = {p: read(p) for p in proofs + sources}
imported = library_names(texts)
own, turned = set(), {}
for path in proofs:
    for line in texts[path].split("\n"):
        m = SIGNED.match(line)
        if not m or m.group(1) in NOT_A_NAME or MADE.search(m.group(2) or "") or not re.match(r"[a-z]", m.group(1)):
            continue
        own.add(m.group(1))
        if snake(m.group(1)) != m.group(1):
            turned.setdefault(m.group(1), set()).add(path)
for name, where in sorted(turned.items()):
    new = snake(name)
    others = {p for p, t in texts.items() if new in WORD.findall(t)}
    if others or any(snake(n) == new for n in turned if n != name):
        print("falls together:", name, "->", new, sorted(others)[:4], [n for n in turned if n != name and snake(n) == new])
    elsewhere = [p for p in texts if name in imported[p]]
    if elsewhere:
        print("the library's too:", name, "own in", sorted(where)[:3], "imported in", sorted(elsewhere)[:3], len(elsewhere))
new_names = own | {snake(n) for n in own}


def turn(path, text, may):
    def put(m):
        w = m.group(0)
        return snake(w) if may(w) else w

    return WORD.sub(put, text)


changed = 0


def write(path, old, new):
    global changed
    if new != old:
        changed += 1
        if not TRY:
            with open(path, "w", encoding="utf-8") as f:
                f.write(new)


for path, text in texts.items():
    lines = text.split("\n")
    # A name that Rattle makes in this file hides one of the repository's.
    made = {m.group(1) for m in map(SIGNED.match, lines) if m and MADE.search(m.group(2) or "")}
    write(path, text, turn(path, text, lambda w: w in turned and w not in imported[path] and w not in made))
for path in sorted(glob.glob("crates/*/must-fail/*.edit")):
    text = read(path)
    write(path, text, "\n".join(turn(path, l, lambda w: re.match(r"[a-z]", w) and snake(w) != w and snake(w) in new_names) if re.match(r"(old|new):", l) else l for l in text.split("\n")))
for path in ["README.md", "tests/map"] + sorted(glob.glob("docs/*.md")):
    text = read(path)
    write(path, text, re.sub(r"`[^`\n]+`", lambda m: turn(path, m.group(0), lambda w: re.match(r"[a-z]", w) and snake(w) != w and snake(w) in new_names), text))
print(len(turned), "names,", changed, "files")
