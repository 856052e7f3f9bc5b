#!/usr/bin/env python3
"""Brings the repository's own definitions and lemmas to today's spelling: words in snake case, facts and
types in camel case. Run once at the top of the checkout, after the kit's port.py.

It goes by whole names. In .antt files, and in .rt files outside strings, a name in lower camel case becomes
snake case; a fact whose name had dashes becomes camel case; a field or a definition of specs/ whose name had a
dash becomes snake case. Lemmas keep a dash that joins two names. Paths of modules, which are named after
functions of src/, are already in snake case and are not touched.
"""

import glob
import re

# Facts whose names had dashes. Two of them would fall together with another name and get one of their own.
FACTS = {
    name: "".join(part[0].upper() + part[1:] for part in name.split("-"))
    for name in """
    Accepts-exactly First-breach Fits-all Fits-file Fits-one Fits-reading Halts-in-time Inputs-within
    Laws-stand Lawful-before Machine-laws Names-first One-file-form One-form One-sheet-form Programs-lawful
    Programs-numbered Read-exactly Reads-back Rules-stand Same-bytes Script-back Script-one-form Step-words
    Turns-stand Worked-cases Worked-keep Worked-numbers Worked-programs Worked-run Worked-sends
    Worked-sheet-accepted Worked-sheet-refused Written-back Written-reads-back
    """.split()
}
FACTS["Offsets-tell"] = "OffsetsAlwaysTell"  # OffsetsTell is the fact about one offset
FACTS["Run-promise"] = "RunPromiseOf"  # RunPromise is the planned bench's

# Definitions and fields of specs/ whose names had a dash.
WORDS = {
    "mark-at": "mark_at",
    "all-lawful": "all_lawful",
    "reckoner-apart": "reckoner_apart",
    "panel-apart": "panel_apart",
    "script-apart": "script_apart",
    "search-date": "search_date",
    "getD-maps": "get_or-maps",
}

# Lemmas that would fall together with the definition that they are about.
LEMMAS = {
    "all_among": ("judge", "Decided"),
    "same_relation": ("judge", "Decided"),
    "rows_code": ("translate", "Maps"),
    "pairs_end": ("plant", "Pairs"),
}

NAME = re.compile(r"(?<![\w'◌-])[A-Za-z_][\w']*(?:-[\w'*+≤<≡∷]+)*")
STRING = re.compile(r'(b?"(?:[^"\\]|\\.)*")')


def snake(part):
    if not re.match(r"[a-z]", part):
        return part
    return re.sub(r"(?<=[a-z0-9])([A-Z])", lambda m: "_" + m.group(1).lower(), part)


def respelled(name):
    if name in FACTS:
        return FACTS[name]
    if name in WORDS:
        return WORDS[name]
    return "-".join(snake(part) for part in name.split("-"))


def text(s):
    return NAME.sub(lambda m: respelled(m.group(0)), s)


def lemmas(path, s):
    """Gives a lemma `_lem` where its definition takes its name."""
    crate, module = path.split("/")[1], path.split("/")[-1][:-5]
    for name, home in LEMMAS.items():
        here = (crate, module) == home
        cites = re.search(r"use Rattle\.%s\.proofs\.%s\.\{[^}]*\b%s\b" % (*home, name), s)
        if here or cites:
            s = re.sub(r"(?<![\w.'-])%s(?![\w'-])" % name, name + "_lem", s)
    return s


def rt(s):
    """The code of a .rt file but for its strings."""
    out = []
    for line in s.split("\n"):
        parts = STRING.split(line)
        out.append("".join(p if i % 2 else text(p) for i, p in enumerate(parts)))
    return "\n".join(out)


def main():
    for path in sorted(glob.glob("crates/*/specs/**/*.antt", recursive=True)
                       + glob.glob("crates/*/proofs/**/*.antt", recursive=True)):
        old = open(path, encoding="utf-8").read()
        new = text(lemmas(path, old))
        if new != old:
            open(path, "w", encoding="utf-8").write(new)
    for path in sorted(glob.glob("crates/*/src/**/*.rt", recursive=True)):
        old = open(path, encoding="utf-8").read()
        new = rt(old)
        if new != old:
            open(path, "w", encoding="utf-8").write(new)


main()
