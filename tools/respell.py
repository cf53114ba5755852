#!/usr/bin/env python3
"""Brings the repository's own words to Rattle's spelling: what is in lower camel case becomes snake case.

usage: tools/respell.py [--table]        in the top folder, after port.py; --table prints old and new, and writes nothing

It turns each lower camel case name that an .antt file of crates/ declares, and the few that only a binder declares, wherever it stands in .antt,
.rt and .edit files of crates/ and tests/mutants/, parts behind a dash too. Types and modules keep their capitals, and a dash that joins two names
stays. Where a law would fall together with the word that it is about, the law gets _lem.
"""

import os
import re
import sys

WORD = re.compile(r'[^\s(){}.;,@"«»`\[\]|]+')
DECLARED = re.compile(r'^ *(?:(?:pub|abbrev|unfoldable|data|record) +)*([^\s(){}.;,@"«»:]+)(?: [\{(][^{}()]*[\})])* :(?: |$)', re.M)
CAMEL = re.compile(r"[a-z][a-z0-9]*[A-Z]")
BOUND = ("fromBefore", "toBefore", "aboveName", "allRaces", "somePairBy", "returnsAt")
# names that an import gives a word
GIVEN = {
    "hasBit": "has_bit",
    "Bits·has": "has_bit",
    "commonBit": "common_bit",
    "racesOf": "races_of",
    "sheetOf": "sheet_of",
    "isGathered": "is_gathered",
    "witnessedBy": "witnessed_by",
    "Parts·doubtful": "parts_doubtful",
    "Count·ones": "count_ones",
    "Output·numberOf": "output_number_of",
    "Output·number_of": "output_number_of",
    "Admission·numberOf": "admission_number_of",
    "Pair·numberOf": "pair_number_of",
    "Judged·numberOf": "judged_number_of",
    "Witnessed·numberOf": "witnessed_number_of",
}
# laws that port.py's spelling brings to the new name of what they are about
LAWS = {"too_many": "too_many_lem", "edge_in": "edge_in_lem", "kept_in": "kept_in_lem"}
WHERE_LAWS = ("theory_paths", "theory_listing", "call_listing", "theory_edits", "chart/proofs")


def files(endings):
    for top in ("crates", "tests/mutants"):
        for folder, folders, names in os.walk(top):
            folders[:] = sorted(d for d in folders if d != "out")
            for name in sorted(names):
                if name.endswith(endings):
                    yield os.path.join(folder, name)


def in_snake_case(name):
    def part(p):
        return re.sub(r"(?<=[a-z0-9])[A-Z]", lambda m: "_" + m[0].lower(), p) if CAMEL.match(p) else p

    return "-".join(part(p) for p in name.split("-"))


def table():
    declared = set(BOUND)
    for path in files(".antt"):
        with open(path, encoding="utf-8") as f:
            declared |= set(DECLARED.findall(f.read()))
    new = {n: in_snake_case(n) for n in declared if n != in_snake_case(n)}
    return dict(sorted((new | GIVEN).items()))


def main(words):
    new = table()
    if words == ["--table"]:
        for old in new:
            print(old, new[old], sep="\t")
        return
    # a second run finds the laws respelled
    first = "edgeIn" in new
    for path in files((".antt", ".rt", ".edit")):
        with open(path, encoding="utf-8") as f:
            old = f.read()
        laws = LAWS if first and path.endswith(".antt") and any("crates/" + w in path for w in WHERE_LAWS) else {}
        text = WORD.sub(lambda m: laws.get(m[0], new.get(m[0], m[0])), old)
        if text != old:
            with open(path, "w", encoding="utf-8") as f:
                f.write(text)


main(sys.argv[1:])
