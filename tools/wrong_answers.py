#!/usr/bin/env python3
"""Tries each wrong answer of tools/wrong-answers.txt: edits a copy of the crates and asks the prover.

  wrong_answers.py DIR [WORD..]   DIR: a folder outside the repository to make the copy in (kept, so that a second run is
                                  quicker); WORD..: only those with one of these words in the call's name or in what is wrong

A function's proof rests on the contracts of the functions that it calls, not on their code: so one `rt check` judges many
edits, as long as no two are in one function. Each edit has to be refused at a fact, and these are shown; a proof file that no
longer fits the edited code, as one that names a goal which is gone, refuses nothing. Goals and facts are named after what the
code tests (`if c == 0`: `c-eq0`), so an edit of a test also has lines '~ OLD NEW', which bring these names in the function's
proof files. Exit status 1 if an edit is not refused. What `rt check` said of each round stands in DIR/round-N.log.
"""
import glob, os, re, shutil, subprocess, sys

HERE = os.path.dirname(os.path.dirname(os.path.abspath(__file__)))
CRATES = ("queue", "image", "pokerbox")

# What the check says where a proof file does not fit or cannot be read, and where it tells nothing of a goal.
MISSING = re.compile(r"has no (?:field|item|member|constructor|`)|no goal|not in scope|is no name|cannot be named|operand is missing|expected the end|cannot continue")
UNTOLD = re.compile(r"was not admitted|resource limit")


def edits():
    text = open(os.path.join(HERE, "tools/wrong-answers.txt")).read()
    for block in re.split(r"\n\s*\n", text):
        lines = [l for l in block.split("\n") if l and not l.startswith("#")]
        if not lines:
            continue
        call, wrong = lines[0].split(": ", 1)
        path, fn = lines[1].split()
        crate, rest = path.split("/", 1)
        old = [l[2:] for l in lines[2:] if l[0] == "-"]
        new = [l[2:] for l in lines[2:] if l[0] == "+"]
        names = dict(l[2:].split() for l in lines[2:] if l[0] == "~")
        yield {"call": call, "wrong": wrong, "crate": crate, "file": os.path.join("crates", path), "src": rest, "fn": fn, "old": old, "new": new, "names": names}


def span(lines, fn):
    """The lines of function fn: from its head to the brace that closes it."""
    heads = [i for i, l in enumerate(lines) if re.match(r"\s*(pub(?:\(crate\))? )?fn %s\b" % re.escape(fn), l)]
    if len(heads) != 1:
        sys.exit("function %s: %d of them" % (fn, len(heads)))
    indent = re.match(r"\s*", lines[heads[0]]).group()
    end = next(i for i in range(heads[0], len(lines)) if lines[i] == indent + "}")
    return heads[0], end


def apply(folder, e):
    path = os.path.join(folder, e["file"])
    lines = open(path).read().split("\n")
    a, b = span(lines, e["fn"])
    n = len(e["old"])
    hits = [i for i in range(a, b) if [l.strip() for l in lines[i:i + n]] == e["old"]]
    if not hits:
        sys.exit("%s, %s: not found: %s" % (e["file"], e["fn"], e["old"][0]))
    # Where a line stands more than once, the last one is meant.
    i = hits[-1]
    lines[i:i + n] = e["new"]
    open(path, "w").write("\n".join(lines))
    if not e["names"]:
        return
    found = [f for at in ("", "*/") for plus in ("", "+") for f in glob.glob(os.path.join(folder, "crates", e["crate"], "proofs", module(e), at + plus + e["fn"], "*.antt"))]
    names = re.compile(r"(?<![\w'])(%s)(?![\w'])" % "|".join(map(re.escape, sorted(e["names"], key=len, reverse=True))))
    for path in found:
        text = open(path).read()
        open(path, "w").write(names.sub(lambda m: e["names"][m[1]], text))


def module(e):
    """The folder of the module's proofs, below proofs/: that of its file, and none for the root."""
    found = re.sub(r"^src/|\.rt$", "", e["src"])
    return "" if found in ("lib", "main") else found


def rounds(todo):
    out = []
    for e in todo:
        key = (e["file"], e["fn"])
        for r in out:
            if r["crate"] == e["crate"] and key not in r["keys"]:
                break
        else:
            r = {"crate": e["crate"], "keys": set(), "edits": []}
            out.append(r)
        r["keys"].add(key)
        r["edits"].append(e)
    return out


def restore(folder):
    """The crates as they are here; what a check kept in out/ stays."""
    for crate in CRATES:
        for part in ("src", "specs", "proofs"):
            to = os.path.join(folder, "crates", crate, part)
            shutil.rmtree(to, ignore_errors=True)
            shutil.copytree(os.path.join(HERE, "crates", crate, part), to)
    with open(os.path.join(HERE, "crates.txt")) as f:
        listed = [l for l in f if l.split(":")[0].strip() in CRATES]
    with open(os.path.join(folder, "crates.txt"), "w") as f:
        f.writelines(listed)


def main():
    if len(sys.argv) < 2 or sys.argv[1].startswith("-"):
        sys.exit(__doc__)
    folder = os.path.abspath(sys.argv[1])
    if (folder + os.sep).startswith(HERE + os.sep):
        sys.exit("wrong_answers.py: %s is inside the repository, whose `rt ci` would refuse the copy" % folder)
    words = sys.argv[2:]
    todo = [e for e in edits() if not words or any(w in e["call"] + ": " + e["wrong"] for w in words)]
    os.makedirs(folder, exist_ok=True)
    taken = 0
    for n, r in enumerate(rounds(todo)):
        restore(folder)
        for e in r["edits"]:
            apply(folder, e)
        print("== round %d: %d edits of %s" % (n + 1, len(r["edits"]), r["crate"]), flush=True)
        p = subprocess.run(["rt", "check"], cwd=os.path.join(folder, "crates", r["crate"]),
                           stdout=subprocess.PIPE, stderr=subprocess.STDOUT, text=True, errors="replace")
        log = os.path.join(folder, "round-%d.log" % (n + 1))
        open(log, "w").write(p.stdout)
        for e in r["edits"]:
            facts = refused(p.stdout, e, folder)
            taken += not facts
            print("%s  %s: %s (%s)" % ("refused" if facts else "NOT REFUSED", e["call"], e["wrong"], ", ".join(facts) or log), flush=True)
    restore(folder)
    print("%d tried, %d not refused" % (len(todo), taken))
    sys.exit(1 if taken else 0)


def refused(out, e, folder):
    """The facts at which e was refused; none where its function was proved, or where its proof files do not fit the edit."""
    facts = []
    # With a file: the goal whose answer no longer says what the function has to.
    files = re.compile(r"\./proofs/%s(?:\w+/)?\+?%s/(?:Answers|Invariants|Proof)\.antt:\S* error: (.*)" % (re.escape(module(e)) + "/" if module(e) else "", re.escape(e["fn"])))
    # Without: the goal that the prover does not close by itself, at a line of the function.
    # An attribute above its head counts as a line of the function.
    lines = open(os.path.join(folder, e["file"])).read().split("\n")
    a, b = span(lines, e["fn"])
    while a and lines[a - 1].lstrip().startswith("#["):
        a -= 1
    alone = re.compile(r"(?:note|error): %s:(\d+):\d+: it is not proved that .*?\(`([^`]+)`\)" % re.escape(e["src"]))
    for line in out.split("\n"):
        m = files.search(line)
        if m:
            goal = re.match(r"`([^`]+)`: (.*)", m[1])
            if not goal or MISSING.search(goal[2]):
                return []
            if goal[1] not in facts and not UNTOLD.search(goal[2]):
                facts.append(goal[1])
        m = alone.search(line)
        if m and a < int(m[1]) <= b + 1 and m[2] not in facts:
            facts.append(m[2])
    return facts


if __name__ == "__main__":
    main()
