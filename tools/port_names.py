#!/usr/bin/env python3
"""Brings this project's own definitions, fields and lemmas to today's spelling of names, after the kit's port.py.

usage: python3 tools/port_names.py      at the top of the repository, once, right after port.py

A word is in snake case: a name such as roundUp reads round_up, wherever it stands in crates/ (clauses, definitions, laws, proofs and
their comments). A dash goes on joining the names in a law's name, also where port.py took it away. Fields and definitions of specs/ that had a dash, which are the
standard's own words, get the underscores that they have there. The proof of a function f is f_spec. Strings, functions of src/ and
exported names have no such spelling, so none of them changes; docs/PORT.md names what was looked at where two names fall together.
"""

import glob
import re

TOKEN = re.compile(r"(?<![\w'\-])[a-z][\w'\-]*")

# fields and definitions of coding/specs: the standard's words
STANDARD = (
    "bit-rate-scale bit-rate-value-minus1 cbr-flag cpb-cnt cpb-cnt-minus1 cpb-removal-delay-length-minus1 cpb-size-scale "
    "cpb-size-value-minus1 delay-length dpb-output-delay-length-minus1 initial-cpb-removal-delay-length-minus1 time-offset-length"
).split()

# laws and facts in proofs whose dash port.py took away, since one of the library's had the same name; row_at is also a definition's name
DASHED = (
    "at-most begun-all begun-more bits-fit bits-none by-order by-row decimal-step digits-step div-is end-below end-fits excess-lt "
    "exponent-lt field-row fields-back filled-more filled-none first-fits first-one found-at from-zero goes-on is-free is-true kept-same "
    "last-fits last-row least-fits left-over length-more map-at none-said on-row one-shl params-at past-end put-then read-done rising-le "
    "row-fits rows-at rows-back rows-few same-size stands-read tail-at then-one told-at turn-at unsigned-back value-row write-done "
    "written-all written-at written-back"
).split()
ROW_AT = (
    "crates/demands/proofs/Printed.antt",
    "crates/lookup/proofs/rows_up_to/Proof.antt",
    "crates/params/proofs/FieldAtLaws.antt",
    "crates/params_read/proofs/read_params/Proof.antt",
)

# names that port.py took for one of the library's
GARBLED = {"not_IsShort": "not-short"} | {name.replace("-", "_"): name for name in DASHED}


def spelled(name):
    if name in GARBLED:
        return GARBLED[name]
    if name in STANDARD:
        return name.replace("-", "_")
    name = name.replace("getD", "get_or")
    return re.sub(r"([a-z0-9])([A-Z])", lambda m: m.group(1) + "_" + m.group(2).lower(), name)


LISTED = re.compile(r"--     (\S.*?) {2,}(\S.*)")
GOES_ON = re.compile(r"--      +(\S.*)")


def aligned(text):
    """The lists of names at the head of a file, each with its second column where the longest name leaves it."""
    lines, done, at = text.split("\n"), [], 0
    while at < len(lines):
        block = []
        while at < len(lines) and (LISTED.fullmatch(lines[at]) or (block and GOES_ON.fullmatch(lines[at]))):
            block.append(lines[at])
            at += 1
        heads = [m for m in map(LISTED.fullmatch, block) if m]
        columns = [m.start(2) for m in heads]
        if len(heads) > 1 and columns.count(max(set(columns), key=columns.count)) * 2 > len(columns):
            width = max(len(m.group(1)) for m in heads) + 3
            for line in block:
                m = LISTED.fullmatch(line)
                name, text = m.groups() if m else ("", GOES_ON.fullmatch(line).group(1))
                done.append("--     " + name.ljust(width) + text)
        else:
            done += block
        if at < len(lines) and not LISTED.fullmatch(lines[at]):
            done.append(lines[at])
            at += 1
    return "\n".join(done)


def main():
    for path in sorted(glob.glob("crates/*/**/*.antt", recursive=True) + glob.glob("crates/*/src/**/*.rt", recursive=True)):
        with open(path, encoding="utf-8") as file:
            old = file.read()
        new = TOKEN.sub(lambda m: spelled(m.group(0)), old)
        if path in ROW_AT:
            new = re.sub(r"(?<![\w'\-.])row_at(?![\w'\-])", "row-at", new)
        of_function = re.fullmatch(r"crates/\w+/proofs/(?:\w+/)*\+?(\w+)/Proof\.antt", path)
        if of_function:
            name = of_function.group(1)
            new = re.sub(r"(?<![\w'\-])" + name.replace("_", "-") + r"-spec(?![\w'\-])", name + "_spec", new)
        if path.endswith(".antt"):
            new = aligned(new)
        if new != old:
            with open(path, "w", encoding="utf-8") as file:
                file.write(new)


if __name__ == "__main__":
    main()
