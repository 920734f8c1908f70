#!/usr/bin/env python3
"""Brings the repository's own definitions and lemmas to the spelling of today's library: words in snake case, types and modules in camel case.

usage: python3 tools/respell.py        at the top of the repository, once, after the kit's port.py

A name of specs/ and proofs/ that begins with a small letter and goes on in camel case is written in snake case, wherever it stands: in .antt and .rt files and their comments, in README.md and docs/*.md.
Strings keep their letters. Functions of src/ are in snake case already. Where a lemma would then have the name of a Rust function or of a definition beside it, it gets `_lem`.
Edits under must-fail/ are not touched: each is brought over by hand.
"""

import os
import re
import sys

# A dash joins two names; each is respelled for itself.
CAMEL = re.compile(r"(?<![A-Za-z0-9_'])[a-z][a-z0-9]*[A-Z][A-Za-z0-9]*(?![A-Za-z0-9_])")
STRING = re.compile(r'"(?:[^"\\\n]|\\.)*"')

# Lemmas that are named after what they prove of a function: (crate, name) as they stood.
LEMMAS = {
    "device": ["flowPlays", "honestRuns", "layersCompose", "playsTrace", "readsThen", "shownRuns", "withinOver", "memoryRuns"],
    "model": [
        "aloneIsLess", "alwaysTidy", "answersReach", "chainAbove", "chainOnce", "cutNamed", "examplesHold", "noPartHeavier", "nowIsFirst", "readsBack", "readsResized",
        "readsWritten", "stackComes", "stackFits", "sweepsLighter", "weighsOneWay",
    ],
    "nodes": ["readsBack"],
}

# Names that would fall together with a definition: the lemma gives way.
APART = {"crates/paging/proofs/Calls.antt": {"put_full": "put_full_lem"}, "crates/pages/proofs/Flags.antt": {"second_word": "second_word_lem"}}

# The library's own word for what the older one called getD.
WORDS = {"getD": "get_or"}


def snake(name):
    if name in WORDS:
        return WORDS[name]
    return re.sub(r"(?<=[a-z0-9])([A-Z])", lambda m: "_" + m.group(1).lower(), name).lower()


def respelled(text, lemmas):
    return CAMEL.sub(lambda m: snake(m.group()) + ("_lem" if m.group() in lemmas else ""), text)


def outside_strings(text, turn):
    out, at = [], 0
    for m in STRING.finditer(text):
        out += [turn(text[at:m.start()]), m.group()]
        at = m.end()
    return "".join(out + [turn(text[at:])])


def lemmas_of(root, crate, text):
    """The lemmas that give way in a file: those of its own crate, and those of another crate that it takes from there."""
    found = set(LEMMAS.get(crate, []))
    for other, names in LEMMAS.items():
        if other != crate:
            for m in re.finditer(r"use Rattle\.%s\.proofs\.[A-Za-z_.]+\.\{([^}]*)\}" % other, text):
                found |= {n.strip() for n in m.group(1).split(",")} & set(names)
    return found


def turn_file(root, path, crate):
    with open(path, encoding="utf-8") as f:
        text = f.read()
    lemmas = lemmas_of(root, crate, text)
    new = text
    for old, apart in APART.get(os.path.relpath(path, root), {}).items():
        new = re.sub(r"(?<![A-Za-z0-9_'-])%s(?![A-Za-z0-9_'-])" % old, apart, new)
    new = outside_strings(new, lambda t: respelled(t, lemmas))
    if new != text:
        with open(path, "w", encoding="utf-8") as f:
            f.write(new)
    return new != text


def turn_page(path):
    """A page: only what stands in backquotes is a name."""
    with open(path, encoding="utf-8") as f:
        text = f.read()
    new = re.sub(r"`[^`\n]*`", lambda m: respelled(m.group(), set()), text)
    if new != text:
        with open(path, "w", encoding="utf-8") as f:
            f.write(new)
    return new != text


def main():
    root = os.getcwd()
    if not os.path.isdir(os.path.join(root, "crates")):
        print("run it at the top of the repository", file=sys.stderr)
        return 2
    turned = 0
    for crate in sorted(os.listdir(os.path.join(root, "crates"))):
        for folder, dirs, files in os.walk(os.path.join(root, "crates", crate)):
            dirs[:] = sorted(d for d in dirs if d not in ("out", "must-fail"))
            for name in sorted(files):
                if name.endswith((".rt", ".antt")):
                    turned += turn_file(root, os.path.join(folder, name), crate)
    for page in ["README.md"] + [os.path.join("docs", p) for p in sorted(os.listdir("docs"))]:
        if page.endswith(".md"):
            turned += turn_page(os.path.join(root, page))
    print(f"{turned} files respelled")
    return 0


if __name__ == "__main__":
    raise SystemExit(main())
