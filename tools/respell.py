#!/usr/bin/env python3
"""Brings the names of this repository's own definitions and lemmas to snake case, once, after port.py.

usage: python3 tools/respell.py [--list]    at the top; --list only prints each name, old and new

What it turns: each name that a file of specs/ or of proofs/ (but for the proofs of single functions) defines and that
holds a capital after a small letter, or a dash. Types keep their capitals. Names of functions of src/, strings and
comments stay, but for names between backticks and names with a capital inside.
"""

import os
import re
import subprocess
import sys

HEAD = re.compile(r"^[ ]*(?:(?:abbrev|unfoldable|pub|ruleset)\s+)*([^\s:(){};,.]+)(?:\s+\{[^}]*\})?\s*:(?=\s)", re.M)
CUT = re.compile(r"([\s(){};,.\[\]|`:\"]+)")

# Types that had a dash or a small letter; a numeral is a word.
BY_HAND = {
    "Goes_on": "GoesOn",
    "Read-verb": "ReadVerb",
    "Read-order": "ReadOrder",
    "Number-at": "NumberAt",
    "Verb-at": "VerbAt",
    "Line-at": "LineAt",
    "Body-if": "BodyIf",
    "keyIs32": "key_is_32",
    "keysAre32": "keys_are_32",
}

# Lemmas whose names would fall together with those of definitions. port.py has turned the last six already.
LEMMAS = """
is-add is-remove is-contains digit-of own-fits with-party party-of call-tests move-tests chain-rises live-keys
rows-below record-fits keys-fit good-form add-won clean-won mark-won at-answer over-removed past-removed found-again
rooms-fit bytes-at line-at with-row
""".split()
TURNED_LEMMAS = "at_call four_bytes goes_on one_more read_again runs_past".split()


def snake(name):
    name = re.sub(r"(?<=[a-z0-9])([A-Z])", lambda m: "_" + m.group(1).lower(), name)
    return name.replace("-", "_")


def files(suffixes):
    for top, dirs, names in os.walk("crates"):
        dirs[:] = sorted(d for d in dirs if d != "out")
        for n in sorted(names):
            if n.endswith(suffixes):
                yield os.path.join(top, n)


def of_one_function(path):
    """A file of proofs/F/."""
    parts = path.split(os.sep)
    return "proofs" in parts and parts.index("proofs") < len(parts) - 2


def defined():
    names = {}
    for p in files(".antt"):
        if of_one_function(p):
            continue
        with open(p) as f:
            for m in HEAD.finditer(f.read()):
                names.setdefault(m.group(1), set()).add(p)
    return names


def turned():
    names = defined()
    out = {}
    for n in names:
        if n in BY_HAND:
            out[n] = BY_HAND[n]
        elif n in LEMMAS:
            out[n] = snake(n) + "_lem"
        elif re.match(r"[a-z]", n) and re.search(r"[a-z0-9][A-Z]|-", n):
            out[n] = snake(n)
    return out, names


def from_outside(text):
    """The names that a file imports from the libraries."""
    crates = "|".join(sorted(os.listdir("crates")))
    found = set()
    for m in re.finditer(r"^\s*(?:ghost |pub )*use ([^\s{;]+)\.\{([^}]*)\}", text, re.M):
        if not re.match(rf"Rattle\.(?:{crates})\.", m.group(1)):
            found |= {w.strip() for part in m.group(2).split(",") for w in part.split(" as ")}
    return found


def turn_code(code, names):
    parts = CUT.split(code)
    for i in range(0, len(parts), 2):
        after_dot = i > 0 and parts[i - 1].endswith(".")
        before_dot = i + 1 < len(parts) and re.match(r"\.[^\s{]", parts[i + 1] + "x")
        alias = i > 1 and parts[i - 2] == "as" and parts[i - 1] == " "
        if parts[i] in LEMMAS and (after_dot or before_dot or alias):
            parts[i] = snake(parts[i])
        elif parts[i] in TURNED_LEMMAS and not (after_dot or before_dot or alias):
            parts[i] = names.get(parts[i], parts[i])
        elif parts[i] not in TURNED_LEMMAS:
            parts[i] = names.get(parts[i], parts[i])
    return "".join(parts)


def turn_words(comment, names):
    comment = re.sub(r"`([^`]*)`", lambda m: "`" + turn_code(m.group(1), names) + "`", comment)
    capitals = {o: n for o, n in names.items() if re.search(r"[a-z0-9][A-Z]", o)}
    return turn_code(comment, capitals)


def turn(text, names, mark):
    lines = []
    for line in text.split("\n"):
        at = re.search(rf"(?:^|(?<=\s)){re.escape(mark)}(?=\s|$)", line)
        at = at.start() if at else len(line)
        code = "".join(s if i % 2 else turn_code(s, names) for i, s in enumerate(re.split(r'("(?:[^"\\]|\\.)*")', line[:at])))
        lines.append(code + turn_words(line[at:], names))
    return "\n".join(lines)


def main(argv):
    names, places = turned()
    if argv == ["--list"]:
        for o in sorted(names):
            print(o, names[o])
        return 0
    for p in files((".antt", ".rt")):
        with open(p) as f:
            text = f.read()
        outside = from_outside(text)
        lemmas = {o: o + "_lem" for o in TURNED_LEMMAS if p.endswith(".antt")}
        here = {o: n for o, n in (names | lemmas).items() if o not in outside}
        now = turn(text, here, "--" if p.endswith(".antt") else "//")
        if now != text:
            with open(p, "w") as f:
                f.write(now)
    return 0


if __name__ == "__main__":
    raise SystemExit(main(sys.argv[1:]))
