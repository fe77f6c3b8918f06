#!/usr/bin/env python3
"""Finds the places of older forms in the Rattle code (crates/*/src), and the laws that nothing cites, for docs/DESIGN-PASS.md.

    python3 tools/places.py [TREE]             how many of each kind: in all, and of these kept
    python3 tools/places.py [TREE] --list [W]  each place: kind, file:line, its text; W: only kinds with this text in them
    python3 tools/places.py [TREE] --layers    the counts of each crate and layer

A place is kept where one of the comment lines right above it, or above its function or struct, says `Kept: REASON`.
"""
import collections
import os
import re
import sys

words = sys.argv[1:]
LIST = "--list" in words
LAYERS = "--layers" in words
rest = [w for w in words if not w.startswith("--")]
TREE = rest[0] if rest and os.path.isdir(os.path.join(rest[0], "crates")) else "."
WORD = rest[-1] if LIST and rest and rest[-1] != TREE else ""

Place = collections.namedtuple("Place", "kind file line text kept")
places = []

KINDS = (
    "1 a flag that says whether the values beside it mean something",
    "1 such a flag asked",
    "1 a refusal given back by hand",
    "1 a number for a refusal, a state, a reason or a verdict",
    "1 such a number used",
    "1 a number as a result that is a kind, an order, a verdict or a refusal",
    "2 functions that are alike but for a type, a size or a constant",
    "3 a loop that counts by hand",
    "4 a conjunction or a conversion by a function of our own",
    "4 equality, order or copying by a function of our own",
    "5 the bytes, their form and their base as three parameters",
    "5 a function with a clause that three or more functions require",
    "5 a function with three parameters that three or more functions have",
    "6 a list with the number of its entries beside it, as parameters",
    "6 two or more lists that are written side by side, as parameters",
    "6 a sorted list searched by hand",
    "7 a switch on which step to run, a table of functions",
    "8 a law that nothing cites",
)
FLAGS = "ok|found|has|held|holder|tip|timed|heighted|placed"
SIZES = "few|some|many|least|most|two|8|32"


def files(part, ending):
    for root, folders, names in os.walk(os.path.join(TREE, "crates")):
        # `out` has the kit's copies
        folders[:] = sorted(f for f in folders if f != "out")
        if part in root.replace(TREE, "", 1).split(os.sep):
            for name in sorted(names):
                if name.endswith(ending):
                    yield os.path.join(root, name)


def bare(line):
    return re.sub(r"//.*", "", line)


def kept_above(lines, at):
    at -= 1
    while at >= 0 and lines[at].strip().startswith(("//", "#[")):
        if "Kept:" in lines[at]:
            return True
        at -= 1
    return False


def functions(lines):
    """Each function: its first line, its last, its head without clauses, whether a line is of its body."""
    at = 0
    while at < len(lines):
        if not re.match(r"\s*(pub(?:\(crate\))? )?(const )?fn \w+", lines[at]):
            at += 1
            continue
        first, head = at, ""
        indent = re.match(r"\s*", lines[at]).group()
        while at < len(lines):
            line = bare(lines[at])
            if not re.match(r"\s*(requires|ensures)\b", line):
                head += line.strip() + " "
            if line.rstrip() in (indent + "{", indent + "{}") or line.rstrip().endswith("{") and not re.match(r"\s*(requires|ensures)\b", line):
                break
            at += 1
        start = at
        while at < len(lines) and lines[at].rstrip() not in (indent + "}", indent + "{}"):
            at += 1
        yield first, at, head, start
        at += 1


def note(kind, file, lines, at, owner=None, text=None):
    kept = kept_above(lines, at) or owner is not None and kept_above(lines, owner)
    places.append(Place(kind, os.path.relpath(file, TREE), at + 1, (text or lines[at]).strip(), kept))


sources = {file: open(file).read().split("\n") for file in files("src", ".rt")}
heads = []
for file, lines in sources.items():
    for first, last, head, start in functions(lines):
        heads.append((file, lines, first, last, head, start))

for file, lines in sources.items():
    owner_of = {i: first for f, l, first, last, head, start in heads if f == file for i in range(first, last + 1)}
    struct = None
    for at, line in enumerate(lines):
        code, owner = bare(line), owner_of.get(at)
        if re.match(r"\s*(pub )?struct \w+", code):
            struct = at
        if struct is not None and re.match(r"\s*(pub )?(%s): bool," % FLAGS, code):
            note(KINDS[0], file, lines, at, struct)
        if code.strip() == "}":
            struct = None
        if re.search(r"\bif !?\w+(\.\w+)*\.(%s)\b" % FLAGS, code):
            note(KINDS[1], file, lines, at, owner)
        if re.search(r"\bAnswer::Refused\(", code) and "=>" not in code:
            note(KINDS[2], file, lines, at, owner)
        if re.match(r"\s*(pub )?const [A-Z_0-9]+: u(8|64) = \d+;", code) and re.search(r"(refusal|state|reason|verdict)\.rt$", file):
            note(KINDS[3], file, lines, at)
        if re.search(r"\b(refusal|state|reason|verdict)::[A-Z][A-Z_]+\b", code) and "Answer::Refused(" not in code:
            note(KINDS[4], file, lines, at, owner)
        if re.search(r"\bwhile\b|\bloop \{", code):
            note(KINDS[7], file, lines, at, owner)
        if re.search(r"\b(both|either|all4|all8|one_if|wide)\(", code) and not re.search(r"\bfn ", code):
            note(KINDS[8], file, lines, at, owner)
        if re.search(r"\bdyn\b|: fn\(|\bmatch (step|phase|stage|mode)\b", code):
            note(KINDS[16], file, lines, at, owner)

requires = collections.defaultdict(set)
groups = collections.defaultdict(set)
shapes = collections.defaultdict(list)
for number, (file, lines, first, last, head, start) in enumerate(heads):
    own = re.search(r"fn (\w+)", head).group(1)
    if re.search(r"->\s*u(8|64)\b", head) and re.search(r"^(cmp|kind_number|state_|reason_)|refusal$|verdict$", own):
        note(KINDS[5], file, lines, first)
    if re.match(r"(cmp|compare|same|equal|copy|swap)(_|$)", own):
        note(KINDS[9], file, lines, first)
    if re.search(r"\w+: &(mut )?\[u8\],.*\bhex: bool,.*\bbase: usize", head):
        note(KINDS[10], file, lines, first)
    body = [bare(lines[i]).strip() for i in range(start, last)]
    text = " ".join(body)
    if re.search(r"\b(lo|low|left)\b", text) and re.search(r"\b(hi|high|right)\b", text) and re.search(r"\bwhile\b", text) and "/ 2" in text:
        note(KINDS[15], file, lines, first)
    lent = re.findall(r"(\w+): (&(?:mut )?\[\w+(?:; \w+)?\]|\[\w+; \w+\]|u64|usize)", head)
    if [n for n, t in lent if "[" in t] and [n for n, t in lent if "[" not in t and re.fullmatch(r"n|m|k|c|count|len|rows|left|number", n)]:
        note(KINDS[13], file, lines, first, text=head)
    if len([n for n, t in lent if t == "&mut [u64]" or t == "&mut [usize]"]) >= 2:
        note(KINDS[14], file, lines, first, text=head)
    for i in range(first, start):
        clause = re.match(r"\s*requires (?:\w+ )?\{ (.*) \}", lines[i])
        if clause:
            for part in re.split(r" × ", clause.group(1)):
                requires[part.strip("() ")].add(number)
    given = sorted(set(re.findall(r"\b(\w+: (?:&(?:mut )?)?(?:\[[^\]]*\]|\w+))", re.sub(r"->.*", "", head))))
    for i in range(len(given)):
        for j in range(i + 1, len(given)):
            for k in range(j + 1, len(given)):
                groups[(given[i], given[j], given[k])].add(number)
    if last - start >= 4:
        # numbers, and names that differ by their ends alone, count as the same
        shape = re.sub(r"\b\d+\b", "0", re.sub(r"\b(\w+?)_(%s)\b" % SIZES, r"\1", " ".join([re.sub(r"^.*?\(", "(", head)] + body)))
        shapes[shape].append(number)


def note_functions(kind, numbers):
    for number in sorted(numbers):
        file, lines, first, last, head, start = heads[number]
        note(kind, file, lines, first, text=re.search(r"fn \w+", head).group())


note_functions(KINDS[6], {n for found in shapes.values() if len(found) > 1 for n in found} | {n for n, h in enumerate(heads) if re.search(r"fn \w+_(%s)\b" % SIZES, h[4])})
note_functions(KINDS[11], {n for found in requires.values() if len(found) >= 3 for n in found})
note_functions(KINDS[12], {n for found in groups.values() if len(found) >= 3 for n in found})

# Laws: what proofs and specs declare, and how often its name stands anywhere else.
texts = {file: open(file).read() for part in ("proofs", "specs") for file in files(part, ".antt")}
seen = collections.Counter()
for text in list(texts.values()) + ["\n".join(lines) for lines in sources.values()]:
    for line in text.split("\n"):
        if not line.startswith("use "):
            seen.update(re.findall(r"[^\s(){}\[\],;.:λ]+", line.split(" -- ")[0] if not line.lstrip().startswith("--") else ""))
for file, text in texts.items():
    if "/paper/" in file or "/theorems/" in file or not re.search(r"(Laws|As|Codec)\.antt$|/proofs/[A-Z]", file):
        continue
    lines = text.split("\n")
    for at, line in enumerate(lines):
        law = re.match(r"\s*(?:pub )([^\s:]+) : .*(≡|→|⊥|×)", line)
        if law:
            name = law.group(1)
            own = sum(1 for l in lines if re.match(r"\s*(pub )?%s\b" % re.escape(name), l))
            inside = sum(len(re.findall(r"(?<![^\s(){}\[\],;.:λ])%s(?![^\s(){}\[\],;.:λ])" % re.escape(name), l)) for l in lines if re.match(r"\s*(pub )?%s(\s|$)" % re.escape(name), l))
            if seen[name] <= inside:
                note(KINDS[17], file, lines, at, text=name)

if LIST:
    for p in sorted(places):
        if WORD in p.kind:
            print("%s\t%s:%d\t%s%s" % (p.kind, p.file, p.line, "[kept] " if p.kept else "", p.text))
else:
    counts = collections.Counter()
    for p in places:
        part = p.file.split("/")
        where = part[1] + ("/" + part[3] if len(part) > 4 else "") if LAYERS else ""
        counts[(where, p.kind, p.kept)] += 1
    for where in sorted({w for w, kind, kept in counts}) if LAYERS else [""]:
        if where:
            print("== " + where)
        for kind in KINDS:
            open_, kept = counts[(where, kind, False)], counts[(where, kind, True)]
            if open_ or kept or not LAYERS:
                print("%-76s %4d%s" % (kind, open_ + kept, ", of these kept %d" % kept if kept else ""))
