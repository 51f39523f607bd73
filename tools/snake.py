#!/usr/bin/env python3
"""Turns the names that this repository defines from dashes to underscores, which is how Rattle spells words.

usage: python3 tools/snake.py        at the top of the repository, once, right after the kit's port.py

A name is this repository's where a file of specs/ or proofs/ declares it: a definition, a lemma, a field, a constructor, or a name that a `let`
binds. Where a file brings a name in from a library, the name stays in that file. The names of goals, which the prover makes, stay too. In comments
and in the pages only names between backticks are turned. It prints each name that falls together with another in a file.
"""

import os
import re
import sys

ROOTS = ["crates"]
# Types, and definitions that would have the name of a function of their own crate.
TOGETHER = {
    "One-two": "OneTwo",
    "To-depth": "ToDepth",
    "To-four": "ToFour",
    "To-three": "ToThree",
    "abutment-of": "abutment_in",
    "backfill-of": "backfill_in",
    "balance-by": "balance_at",
    "change-at": "change_from",
    "earthquakes-in": "earthquake_count",
    "lean-of": "lean_from",
    "no-load": "blank_load",
    "no-loads": "blank_loads",
    "no-sums": "zero_sums",
    "number-below": "lesser_number",
    "parts-of": "parts_in",
    "river-count": "rows_in_river",
    "row-fault": "fault_of_row",
    "set-in": "carried_set",
    "shaft-of": "shaft_in",
    "stance-of": "stance_toward",
    "sums-of": "sums_from",
    "terms-of": "terms_from",
    "tie-order": "order_of_ties",
    "tied-from": "tied_above",
    "totals-of": "totals_from",
    "waterway-of": "waterway_in",
    "winds-in": "wind_count",
}
PAGES = ["README.md", "docs"]
WORD = re.compile(r"[^\s(){}\[\];,.λ⌜⌝`\"]+")
DASHED = re.compile(r"[A-Za-z0-9_'₀-₉μκ]+(?:-[A-Za-z0-9_'₀-₉μκ]+)+")
SIGNATURE = re.compile(r"\s*(?:unfoldable |abbrev |pub |data |record |module )*([^\s:(){},;=]+(?: [^\s:(){},;=]+)*)\s*(?:[({].*)?:(?!=)\s*(.*)")
HEAD = re.compile(r"\s*(?:unfoldable |abbrev |pub )*(?:data|record) ([^\s:(){},;=]+)")
ALIAS = re.compile(r"(?m)^use \S+ as ([^\s;]+)")
# What port.py turned where it is declared, and left where it is read.
READ = {"no-dead"}
LET = re.compile(r"\blet ([^\s:(){},;=]+)")
BOUND = re.compile(r"[({]([^\s(){}:]+(?: [^\s(){}:]+)*) :")
LAMBDA = re.compile(r"λ ([^.()]+)\.")
IMPORT = re.compile(r"(?:ghost )?use ([^\s;]+)\.\{([^}]*)\}", re.S)


def files(ends):
    for root in ROOTS:
        for folder, dirs, names in os.walk(root):
            dirs[:] = sorted(d for d in dirs if d != "out")
            for name in sorted(names):
                if name.endswith(ends):
                    yield os.path.join(folder, name)


def read(path):
    with open(path, encoding="utf-8", newline="") as f:
        return f.read()


def own_crates():
    return set(os.listdir("crates"))


def from_libraries(text, crates):
    """The dashed names that a file brings in from what is not this repository's."""
    found = set()
    for path, names in IMPORT.findall(text):
        parts = path.split(".")
        if parts[0] == "Rattle" and len(parts) > 1 and parts[1] in crates:
            continue
        for it in names.split(","):
            for word in it.split(" as "):
                found.add(word.strip())
    return found


def is_goal(rest):
    return rest.startswith(("tie.", "needs.", "goal.", "put-decimal-lts.", "statement"))


def declared(crates):
    found = set()
    for path in files(".antt"):
        text = read(path)
        library = from_libraries(text, crates)
        goals = set()
        for line in text.split("\n"):
            if line.lstrip().startswith("--"):
                continue
            m = SIGNATURE.match(line)
            if m:
                if is_goal(m.group(2)):
                    goals.update(m.group(1).split())
                else:
                    found.update(w for w in m.group(1).split() if w not in library)
            m = HEAD.match(line)
            if m:
                found.add(m.group(1))
            for w in LET.findall(line):
                found.add(w)
            for pattern in (BOUND, LAMBDA):
                for ws in pattern.findall(line):
                    found.update(ws.split())
        found.update(ALIAS.findall(text))
        found -= goals if path.endswith("Proof.antt") else set()
    dashed = {w for w in found if DASHED.fullmatch(w) and not w.startswith("Need-")} | READ
    return dashed, {w for w in found if "_" in w}


def respelled(word):
    return TOGETHER.get(word, word.replace("-", "_"))


def turned(text, names, library):
    """The text with each word of names that stands in it turned, but for those of the library."""
    return WORD.sub(lambda m: respelled(m.group(0)) if m.group(0) in names and m.group(0) not in library else m.group(0), text)


def in_ticks(text, names):
    return re.sub(r"`[^`\n]+`", lambda m: turned(m.group(0), names, set()), text)


def turn(path, names, crates):
    text = read(path)
    library = from_libraries(text, crates)
    mark = "--" if path.endswith(".antt") else "//" if path.endswith(".rt") else "#"
    out = []
    for line in text.split("\n"):
        code, sep, comment = line, "", ""
        if path.endswith(".edit"):
            if line.startswith("#") or line.startswith("file:"):
                out.append(in_ticks(line, names))
                continue
        else:
            at = re.search(r"(?:^|(?<=\s))" + re.escape(mark) + r"(?:\s|$)", line)
            if at and line[: at.start()].count('"') % 2 == 0:
                code, sep, comment = line[: at.start()], "", line[at.start() :]
        if path.endswith(".rt") and '"' in code:
            pieces = re.split(r'("(?:[^"\\]|\\.)*")', code)
            code = "".join(p if p.startswith('"') else turned(p, names, library) for p in pieces)
        else:
            code = turned(code, names, library)
        out.append(code + sep + in_ticks(comment, names))
    new = "\n".join(out)
    before = set(WORD.findall(text))
    for w in sorted(before & names):
        if w not in library and respelled(w) in before:
            print(f"together: {path}: {w} and {respelled(w)}")
    if new != text:
        with open(path, "w", encoding="utf-8", newline="") as f:
            f.write(new)
        return 1
    return 0


def pages():
    for it in PAGES:
        if os.path.isdir(it):
            for name in sorted(os.listdir(it)):
                if name.endswith(".md"):
                    yield os.path.join(it, name)
        elif os.path.exists(it):
            yield it


def main():
    if not os.path.isdir("crates"):
        sys.exit("run it at the top of the repository")
    crates = own_crates()
    names, joined = declared(crates)
    n = sum(turn(p, names, crates) for p in files((".antt", ".rt")))
    # port.py turns no edit, so an edit may also have a dashed name that it turned elsewhere
    both = names | {w.replace("_", "-") for w in joined if DASHED.fullmatch(w.replace("_", "-"))}
    n += sum(turn(p, both, crates) for p in files((".edit",)))
    for p in pages():
        text = read(p)
        new = in_ticks(text, both - {"P-12"})
        if new != text:
            with open(p, "w", encoding="utf-8", newline="") as f:
                f.write(new)
            n += 1
    print(f"{len(names)} names, {n} files")


if __name__ == "__main__":
    main()
