#!/usr/bin/env python3
"""Brings the repository's own definitions and lemmas to the spelling of today's Rattle: words in snake case.

    python3 tools/spell.py            once, at the top, straight after port.py
    python3 tools/spell.py --look     says what it would rename, and which new names stand there already

Three kinds of names change: those written in camel case (labelNumber: label_number), the library's old word getD within
a lemma's name (getD-up: get_or-up), and definitions and fields of specs/ joined by a dash (outer-long: outer_long).
Edits and the pages that cite names (docs/TRACE.md, docs/DECISIONS.md, README.md, in backquotes) follow, there also for
the names that port.py itself respelled. Functions of src/ are in snake case already and keep their names, and so do
strings, inputs and outputs.
"""
import os
import re
import sys

TOKEN = re.compile(r"[^\s(){}\[\],;.«»\"`@:|]+")
CAMEL = re.compile(r"^[a-z][a-z0-9]*[A-Z]")
DECLARED = re.compile(r"^\s*(?:(?:pub|abbrev|unfoldable)\s+)*([^\s(){}\[\],;.«»:]+)\s*:", re.M)
BOUND = re.compile(r"[({]((?:[^\s(){}\[\],;.«»:]+\s+)+):")
# what port.py respelled, as it says itself: definitions and lemmas that a library spelled alike
PORTED = """
above-kept add-at add-kept add-low add-spec add-words added-next added-none after-kept after-same all-append all-both
all-end all-fit all-hold all-keep all-map all-read all-same all-seen all-set all-sound all-start all-take among-none
and-assoc and-both and-left and-right answerIn any-append any-at any-below any-next any-none any-same as-long at-home
at-i at-j at-last at-place atStart below-all below-end bool-cases both-equal bounded-at by-less by-number bytes-fit
bytesOf call-met callOf clear-spec cleared-more comes-back copied-all copied-more copied-none copy-spec count-left
count-spec counted-is counted-start counting-more counts-same cut-at cut-most cutAt cutsOf digits-above digits-low
digits-more doing-end doing-step done-refused drop-past equal-words field-is fieldOwn fieldsOf fill-spec filled-more
filled-none finish-spec finish-with first-next first-of firstOf formOf from-end from-first from-next front-length
front-long front-rest front-same full-is gather-append gather-cong gather-none getD-part goes-first goes-number
goes-with half-length has-one head-in held-both held-next held-same held-spec heldAt high-fits holds-then home-at
home-by home-here homeOf in-one in-row inner-start inputOf is-below is-home is-within isByte isNumber joinOf keep-all
keep-append keep-at keep-spec kept-from kept-here kept-line kept-next keyOf kindOf label-of laid-none laid-one
laneLines laneOf last-end last-set last-word lastOf late-is lead-is least-step left-as left-both left-end left-is
leftAt lends-again length-part length-removed length-up lent-back lent-fits lent-is lent-none lent-other lies-in
line-kept line-other lineOf listed-more listing-start long-kept low-fits machine-or machineOf made-all made-at
made-each made-held made-none madeOf main-spec many-more move-down-spec move-up-spec mul-at mul-low mul-next mul-words
needOf new-is next-of no-gap no-number none-before none-below none-elsewhere none-in none-left none-of none-other
none-rest none-yet not-first not-least not-low number-at number-is number-of number-short number-step numberOf on-same
one-more one-up one-value open-spec or-left or-right orElse ordered-same other-word outer-carried outer-start part-end
part-free part-length part-sound partAt passed-here passed-none pick-same pick-total pick-true place-found place-here
place-is place-none placeOf planOf put-all put-back put-is put-one put-same put-spec rank-most read-all read-length
read-more read-none read-pos reads-kept restOf rising-step room-at room-back room-next room-within roomCheck roomFor
row-count row-in row-is row-moved row-read rowLine rowOf rows-all rows-are rows-bound rows-empty rows-end rows-fit
rows-long rows-next rows-none rows-of rows-right rows-short rowsAt rowsFrom rowsOf run-at run-end run-ends run-is
run-length run-more run-room run-spec runOf same-first same-length same-map same-refl same-rest same-spec same-test
sameWords shareOf sideOf sofar-is some-lane sort-sorted sorted-back sorted-rest sorting-start sound-empty sound-none
span-last span-none span-value spanOf spread-at start-is start-spec startOf started-none step-spec store-spec storeOf
stored-at stored-is stored-more stored-next sub-at sub-held sub-part sub-word sum-fits sum-ones summing-start
swap-spec swapped-other switched-other take-from-spec take-none take-out take-short take-spec take-whole taken-next
taken-none taken-refused textOf to-number told-back too-short tuple-is tupleOf up-kept up-more up-next up-none
up-split upFrom value-in valueOf valuesOf whole-is whole-long whole-run widthOf window-more with-each with-it with-row
word-after words-are words-long wordsIn wordsOf write-spec written-all written-is written-none zero-or-not
enum-told is-field
""".split()


def snake(name):
    parts = []
    for part in name.split("-"):
        if part == "getD":
            part = "get_or"
        elif CAMEL.match(part):
            part = re.sub(r"(?<=[a-z0-9])([A-Z])", lambda m: "_" + m.group(1).lower(), part).lower()
        parts.append(part)
    return "-".join(parts)


def texts(ends):
    for folder, dirs, files in os.walk("crates"):
        dirs[:] = sorted(d for d in dirs if d not in ("out", "data"))
        for name in sorted(files):
            if name.endswith(ends):
                path = os.path.join(folder, name)
                with open(path, encoding="utf-8") as f:
                    yield path, f.read()


def bare(text):
    """Without comments and strings, where no name is declared."""
    return re.sub(r"--.*|//.*|\"[^\"\n]*\"", "", text)


def names():
    """Old name: new name, for every declared name of the repository that changes."""
    # lemmas that port.py respelled and that would fall together with a definition: the dash stays
    new = {"all_get_d": "all-get_or", "made_at": "made-at", "row_count": "row-count", "take_out": "take-out"}
    for path, text in texts(".antt"):
        text = bare(text)
        found = set(DECLARED.findall(text))
        for group in BOUND.findall(text):
            found |= set(group.split())
        for name in found:
            if any(CAMEL.match(part) for part in name.split("-")):
                new[name] = snake(name)
        if "/specs/" in path:
            for name in DECLARED.findall(text):
                if "-" in name and re.match(r"[a-z]", name):
                    new[name] = snake(name).replace("-", "_")
    return new


def respelled(text, new):
    return TOKEN.sub(lambda m: new.get(m.group(0), m.group(0)), text)


def kept_strings(text, new):
    """respelled, but for what stands in strings."""
    return "".join(part if part.startswith('"') else respelled(part, new)
                   for part in re.split(r"(\"(?:[^\"\\\n]|\\.)*\")", text))


def write(path, text, was):
    if text != was:
        with open(path, "w", encoding="utf-8") as f:
            f.write(text)
        return 1
    return 0


def main():
    new = names()
    standing = {}
    for path, text in texts((".antt", ".rt")):
        for word in TOKEN.findall(bare(text)):
            standing.setdefault(word, set()).add(path)
    if "--look" in sys.argv:
        for old in sorted(new):
            print(old, new[old], *sorted(standing.get(new[old], ()))[:4])
        return
    cited = {old: snake(old).replace("-", "_") for old in PORTED}
    cited.update({old: word for old, word in new.items() if old not in cited})
    changed = 0
    for path, text in texts((".antt", ".rt")):
        changed += write(path, kept_strings(text, new) if path.endswith(".rt") else respelled(text, new), text)
    for path, text in texts(".edit"):
        changed += write(path, kept_strings(text, cited), text)
    for path in ("docs/TRACE.md", "docs/DECISIONS.md", "README.md"):
        with open(path, encoding="utf-8") as f:
            text = f.read()
        changed += write(path, re.sub(r"`[^`\n]+`", lambda m: respelled(m.group(0), cited), text), text)
    print(f"spell: {len(new)} names, {changed} files changed")


main()
