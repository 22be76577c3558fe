#!/usr/bin/env python3
"""Brings the repository's own definitions and lemmas to today's spelling, once, after the toolchain's own script.

usage: tools/respell.py [--dry]        at the top of a checkout that `port.py` has just turned

Words are in snake case, types in camel case, a prime is an apostrophe. Of the names that specs/ and proofs/ declare,

- one whose value is a type keeps or gets a capital (`Kept-on` is `KeptOn`);
- every other one loses its capitals and its dashes (`rowsOf` is `rows_of`, `be-drop` is `be_drop`);
- a lemma that would get the name of a definition has `_lem` after it (`be-bytes` is `be_bytes_lem`).

A dash stays where the library or the check made the name. Names of src/, exported C names, strings, inputs and outputs
are left alone; a definition may have the name of the function that computes it. It stops where two names of a file
would fall together otherwise. It also turns the must-fail edits, tests/hold-definitions, and names between backticks in
README.md and docs/ (landings apart, which tell of their day).
"""
import collections
import os
import re
import sys

NAME = re.compile(r"[A-Za-z0-9_'\-₀-₉≢◌∈μ]+")
SIGNATURE = re.compile(r"^(\s*)((?:(?:pub|abbrev|unfoldable|data|record)\s+)*)((?:[^\s:(){}\[\];,.]+\s+)+)(?:\{[^}]*\}\s*|\([^)]*\)\s*)*:\s(.*)$")
# where the rule's answer would not be read well
OTHER = {
    "none≢some": "none_not_some",
    "few-luacds": "luacds_few",
}
# lemmas that port.py gave the name that a definition of their file gets now
LEMMAS = {
    "crates/manage/proofs/EndState.antt": ["ends_as"],
    "crates/manage/proofs/Phases.antt": ["too_many"],
    "crates/manage/proofs/Room.antt": ["too_many"],
    "crates/paper/proofs/Ruled.antt": ["refers_to"],
    "crates/paper/proofs/RouteOnly.antt": ["read_out"],
    "crates/tables/proofs/Enrolling.antt": ["stored_bytes"],
}
# what port.py respelled by itself
PORTED = """afterCall, agree-differ, all-append, all-end, all-in, all-map, all-of, all-pass, all-placed, all-read, all-same,
all-sound, all-stay, and-no, and-yes, answerOf, any-append, any-none, any-same, any-some, any-step, as-many,
at-places, at-read, below-end, below-next, between-cons, by-one, bytes-back, bytes-below, bytes-fit, bytes-most,
bytes-word, bytesAt, bytesOf, calls-count, chosen-less, chosen-more, chosen-none, closed-none, codeOf, copy-more,
counts-of, cut-twice, decimal-step, deedOf, digits-last, digits-long, digits-more, digits-same, drop-min, each-last,
each-more, each-none, empty-stands, end-is, end-later, ended-by, ended-same, ended-some, ends-as, ends-on, fill-end,
fill-more, fill-spec, filled-more, find-first, find-none, first-back, first-fits, first-part, firstOf, fitted-none,
follows-both, found-at, found-before, found-none, found-nowhere, front-kept, gather-append, gather-none, gather-ones,
head-at, headOf, held-new, heldOf, idAt, idsIn, in-all, in-count, in-insert, in-left, in-list, in-map, in-pairs,
in-parts, in-right, in-use, is-none, isNumber, isOf, isSome, join-one, keep-all, keep-append, keep-same, kept-again,
kept-at, kept-less, kept-next, kept-same, kept-whole, key-right, keys-none, kindOf, laid-end, laid-next, left-end,
left-step, length-back, length-ids, length-rest, lent-back, lentBy, line-kept, line-read, line-taken, lineOf,
lines-next, lines-none, link-fits, link-left, list-back, list-read, list-right, listing-none, live-on, liveAfter,
liveOf, map-first, map-more, map-same, markOf, next-last, next-one, no-member, no-more, no-other, no-run, no-word,
noRow, none-any, none-found, none-kept, none-yet, not-back, nothing-is, number-digits, number-is, number-of,
number-word, numberOf, of-part, on-row, once-last, one-more, one-none, one-unit, oneOf, oneWord, only-one, open-own,
openRows, opens-not, opens-one, orderOf, out-of, outOf, own-row, ownedBy, pair-end, pair-found, pairs-end, part-in,
part-out, parts-next, place-here, place-in, place-none, placeOf, placed-by, put-first, put-full, put-one, put-other,
put-some, put-spec, putAt, putIn, putOf, read-more, read-next, read-out, readOf, readingOf, reads-so, refers-to,
release-spec, room-for, round-trip, row-of, rowAt, rowOf, rows-end, rows-few, rows-fit, rows-on, rowsAt, rowsOf,
run-end, run-holds, run-long, run-more, run-none, run-room, runAt, runFrom, same-at, same-head, same-kept, same-left,
same-more, same-new, same-none, same-parts, same-refl, same-row, same-spec, same-test, second-back, second-fits,
seek-found, set-at, sets-end, skip-step, skip-stop, some-after, some-read, sorted-none, stands-by, stands-of,
stays-on, step-spec, stored-bytes, take-same, then-at, then-less, then-same, token-back, tokens-none, too-large,
too-long, too-many, too-short, topBit, turns-more, unit-row, unitOf, valuesOf, walk-end, walk-more, walk-none,
widen-spec, wordAt, wrote-as, wrote-none""".replace("\n", " ").split(", ")


def texts(ext, *tops):
    for top in tops:
        for folder, dirs, files in os.walk(top):
            dirs[:] = sorted(d for d in dirs if d not in ("out", "target", ".git"))
            for f in sorted(files):
                if f.endswith(ext):
                    yield os.path.join(folder, f)


def read(p):
    with open(p, encoding="utf-8") as f:
        return f.read()


def snake(name):
    name = name.replace("getD", "get_or").replace("-", "_")
    name = re.sub(r"([a-z0-9])([A-Z]+)(?=[A-Z][a-z])", r"\1_\2_", name)
    name = re.sub(r"([a-z0-9])([A-Z])", r"\1_\2", name)
    name = re.sub(r"([A-Z])([A-Z][a-z])", r"\1_\2", name)
    return name if name[:1].isupper() else name.lower()


def spelled(name, is_type):
    if name in OTHER:
        return OTHER[name]
    if is_type:
        return "".join(p[:1].upper() + p[1:] for p in re.split("-", name))
    if name[:1].isupper() and "-" in name:
        # a law about a type keeps the type's capital
        return name.replace("-", "_")
    return snake(name)


def declared():
    """Each name with whether its values are types, and the names of fields. Of a function's own proof only what is in
    camel case: its other names are the check's."""
    names, fields, others = {}, set(), set()
    for p in texts(".antt", "crates"):
        walk = re.search(r"/proofs/.*/", p)
        inside = False
        for line in read(p).split("\n"):
            if re.search(r"^\s*--", line):
                continue
            for n in re.findall(r"\bas ([a-z]\w*[A-Z]\w*)", line):
                names.setdefault(n, False)
            m = SIGNATURE.match(line)
            if re.match(r"\S", line):
                inside = re.match(r"(pub )?record\b.*\bwhere\s*$", line) is not None
            elif re.match(r"\s+(pub )?record\b.*\bwhere\s*$", line):
                inside = True
            if not m:
                continue
            is_type = re.search(r"\bType\b", m.group(4).split("→")[-1]) is not None
            heads = m.group(3).split()
            for n in heads:
                if walk and not re.search(r"^[a-z0-9_]*[A-Z]", n):
                    continue
                names[n] = names.get(n, False) or is_type
                if inside and m.group(1) and "record" not in m.group(2):
                    fields.add(n)
                else:
                    others.add(n)
    return names, fields, fields - others


def renamed(names, fields):
    to = {}
    plain = {spelled(n, t) for n, t in names.items() if "-" not in n}
    for n, is_type in names.items():
        new = spelled(n, is_type)
        if "-" in n and new in plain and n not in fields:
            new += "_lem"
        if new != n:
            to[n] = new
    return to


OURS = set(os.listdir("crates"))


def is_ours(module):
    parts = module.split(".")
    return parts[0] == "Rattle" and len(parts) > 1 and parts[1] in OURS


def of_file(p, to):
    """The names of a file: those that it takes from a library stay, and so does what follows a library's alias."""
    text = read(p)
    here = {**to, **{n: n + "_lem" for n in LEMMAS.get(p, [])}}
    for module, names in re.findall(r"\buse ([\w.·-]+)\.\{([^}]*)\}", text):
        if not is_ours(module):
            for n in NAME.findall(names):
                here.pop(n, None)
    for module, alias in re.findall(r"\buse ([\w.·-]+) as (\w+)", text):
        if not is_ours(module):
            here["@" + alias] = alias
    return here


FIELDS = set()


def turn(text, to):
    """Each whole name of `to`, but a dashed one that a value's path ends in, unless it is a field: the check makes those."""
    def one(m):
        n = m.group(0)
        if n not in to:
            return n
        before = text[:m.start()]
        if before.endswith("."):
            head = re.search(r"([^\s(){}\[\];,]*)\.$", before).group(1)
            if "-" in n and n not in FIELDS and not head[:1].isupper() or "@" + head in to:
                return n
        return to[n]
    return NAME.sub(one, text)


def turn_rt(text, to):
    """Clauses and imports alone: no string, no comment but between backticks."""
    out = []
    for part in re.split(r'(b?"(?:[^"\\]|\\.)*"|//[^\n]*)', text):
        out.append(ticks(part, to) if part.startswith("//") else part if part.startswith(('"', 'b"')) else turn(part, to))
    return "".join(out)


def turn_antt(text, to):
    out = []
    for line in text.split("\n"):
        m = re.search(r"(^|\s)--(\s|$)", line)
        code, note = (line[:m.start()], line[m.start():]) if m else (line, "")
        out.append(turn(code, to) + ticks(note, to))
    return "\n".join(out)


def ticks(text, to):
    return re.sub(r"`[^`\n]*`", lambda m: turn(m.group(0), to), text)


def turn_edit(text, to):
    """An edit's lines are code of a definition or a function; their projections are written tight."""
    out = []
    for line in text.split("\n"):
        if line.startswith(("old:", "new:")):
            line = re.sub(r"\((\w+) \.(\w+)\)", r"\1.\2", line)
            line = re.sub(r"([\w)]) \.([a-z])", r"\1.\2", line)
            line = turn(line, to)
        elif line.startswith("#"):
            line = ticks(line, to)
        out.append(line)
    return "\n".join(out)


def fallen(to):
    """Where a new name meets one that its file already has, or another that falls to the same."""
    bad = []
    for p in list(texts(".antt", "crates")) + list(texts(".rt", "crates")):
        text = read(p)
        if p.endswith(".antt"):
            text = "\n".join(re.sub(r"(^|\s)--(\s.*)?$", "", l) for l in text.split("\n"))
        else:
            text = re.sub(r'b?"(?:[^"\\]|\\.)*"|//[^\n]*', "", text)
        here = collections.Counter(NAME.findall(text))
        got = collections.defaultdict(set)
        for n in here:
            got[of_file(p, to).get(n, n)].add(n)
        for new, olds in got.items():
            # a function, or the path of its proof
            named = re.search(r"\bfn " + new + r"\b|[.:]{1,2}\{?([\w, ]*, )?" + new + r"\b|\b" + new + r"\(", text)
            if len(olds) > 1 and not (named and not any("-" in n for n in olds)):
                bad.append((p, new, sorted(olds)))
    return bad


def move_contracts():
    """The check makes a module `specs.contracts` now, so paper's definitions of that name move."""
    old, new = "crates/paper/specs/Contracts.antt", "crates/paper/specs/Promises.antt"
    if os.path.exists(old):
        os.rename(old, new)
    for p in list(texts(".antt", "crates")) + list(texts(".rt", "crates")):
        text = read(p)
        turned = re.sub(r"(Rattle\.paper\.specs\.|pub mod )Contracts\b", r"\1Promises", text)
        if turned != text:
            with open(p, "w", encoding="utf-8") as f:
                f.write(turned)


def main():
    names, fields, only_fields = declared()
    FIELDS.update(fields)
    to = renamed(names, only_fields)
    bad = fallen(to)
    for p, new, olds in bad:
        print(f"falls together: {p}: {new}: {', '.join(olds)}")
    if "--dry" in sys.argv:
        print(len(to), "names")
        return
    if bad and "--anyway" not in sys.argv:
        sys.exit("name them in OTHER")
    move_contracts()
    wide = dict(to)
    for n in PORTED:
        wide.setdefault(n, snake(n))
    for p in list(texts(".antt", "crates")) + list(texts(".rt", "crates")) + list(texts(".edit", "crates")):
        old = read(p)
        new = turn_edit(old, wide) if p.endswith(".edit") else turn_antt(old, of_file(p, to)) if p.endswith(".antt") else turn_rt(old, of_file(p, to))
        if new != old:
            with open(p, "w", encoding="utf-8") as f:
                f.write(new)
    pages = [p for p in texts(".md", "docs") if "/landings/" not in p] + ["README.md"]
    for p in pages:
        old = read(p)
        new = ticks(old, wide)
        if new != old:
            with open(p, "w", encoding="utf-8") as f:
                f.write(new)
    old = read("tests/hold-definitions")
    with open("tests/hold-definitions", "w", encoding="utf-8") as f:
        f.write(turn(old, wide))


main()
