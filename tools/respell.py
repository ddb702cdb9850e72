#!/usr/bin/env python3
"""Respells the names that this repository declares in specs/ and proofs/.

Run once, at the top of the repository. A name with dashes that begins with a small letter becomes snake case, one that
begins with a capital becomes camel case. Names that the check makes (goals, invariants, measures) keep their dashes, and
so do words in comments, strings and code; names in clauses, in ghost fields and between backticks follow.
"""
import glob
import re

# Names whose plain respelling would fall together with a name of the library that stands in the same file.
CHOSEN = {
    "bit-and": "bit_of_and",
    "bit-or": "bit_of_or",
    "bit-one": "bit_of_one",
    "bit-zero": "bit_of_zero",
}

IDENTIFIER = r"[^\s(){}.,;:«»\[\]λ→`\"]+"
DECLARES = re.compile(
    r"\s*(?:(?:pub|abbrev|unfoldable|data|record)\s+)*(" + IDENTIFIER + r")\s*(?:\([^)]*\)|\{[^}]*\}|\s)*:\s(.*)"
)
MADE = re.compile(r"\s*goal\.")
DASHED = re.compile(r"[A-Za-z0-9'_]+(-[A-Za-z0-9'_]+)+")
# Names bound by `let` and by `λ`, imports under another name, and arguments.
BINDS = re.compile(r"(?:\blet |λ )\(?(" + IDENTIFIER + r")(?= :| =|\.|,)")
RENAMES = re.compile(r"\bas (" + IDENTIFIER + r")(?=[},;])")
BOUND = re.compile(r"[({](" + IDENTIFIER + r"(?: " + IDENTIFIER + r")*) : ")


def respelled(name):
    if name in CHOSEN:
        return CHOSEN[name]
    if name[0].isupper():
        return "".join(part[:1].upper() + part[1:] for part in name.split("-"))
    return name.replace("-", "_")


def proof_files():
    found = glob.glob("crates/*/specs/**/*.antt", recursive=True)
    return sorted(found + glob.glob("crates/*/proofs/**/*.antt", recursive=True))


def code_files():
    return sorted(glob.glob("crates/*/src/**/*.rt", recursive=True))


def declared_names():
    """The dashed names of the repository's own, each with its new spelling."""
    found = set()
    for path in proof_files():
        for line in open(path, encoding="utf-8"):
            declares = DECLARES.match(line)
            if declares and not MADE.match(declares.group(2)):
                found.add(declares.group(1))
            if line.startswith(("use ", "pub use ")):
                found.update(RENAMES.findall(line))
                continue
            found.update(BINDS.findall(line))
            for binder in BOUND.findall(line):
                found.update(binder.split(" "))
    for path in code_files():
        for line in open(path, encoding="utf-8"):
            if line.startswith("ghost use"):
                found.update(RENAMES.findall(line))
    return {name: respelled(name) for name in found if DASHED.fullmatch(name)}


def snake_names():
    """What a page may still call by dashes: each snake-case name of specs/, under its dashed form."""
    names = {}
    for path in sorted(glob.glob("crates/*/specs/**/*.antt", recursive=True)):
        for line in open(path, encoding="utf-8"):
            declares = DECLARES.match(line)
            if declares and "_" in declares.group(1):
                names[declares.group(1).replace("_", "-")] = declares.group(1)
    return names


def in_term(text, names):
    return re.sub(IDENTIFIER, lambda m: names.get(m.group(), m.group()), text)


def in_answer(text, names):
    """Keeps the steps of the code, which the check names: `c.STEP`, `w.STEP`, `l.STEP`."""
    kept = re.split(r"((?<![\w'.\-])[cwl]\.[\w'+\-]+)", text)
    return "".join(part if place % 2 else in_term(part, names) for place, part in enumerate(kept))


def in_prose(text, names):
    return re.sub(r"`[^`]*`", lambda m: in_term(m.group(), names), text)


def in_proof_file(text, names):
    of_goals = re.search(r"^use .* as goal$", text, re.MULTILINE)
    change = in_answer if of_goals else in_term
    out = []
    for line in text.split("\n"):
        comment = re.search(r"(^|\s)-- ", line)
        cut = comment.start() if comment else len(line)
        out.append(change(line[:cut], names) + in_prose(line[cut:], names))
    return "\n".join(out)


def in_code(text, names):
    """Changes `ghost use` lines, ghost fields and clauses, and leaves the code."""
    out = []
    depth = 0
    for line in text.split("\n"):
        begins = re.match(r"\s*(ghost|requires|ensures|invariant)\b", line)
        if line.lstrip().startswith("//"):
            out.append(in_prose(line, names))
        elif depth > 0 or begins:
            out.append(in_term(line, names))
            depth += line.count("{") - line.count("}")
        else:
            out.append(line)
    return "\n".join(out)


def rewrite(path, change, names):
    old = open(path, encoding="utf-8").read()
    new = change(old, names)
    if new != old:
        open(path, "w", encoding="utf-8").write(new)


def main():
    names = declared_names()
    for path in proof_files():
        rewrite(path, in_proof_file, names)
    for path in code_files():
        rewrite(path, in_code, names)
    in_pages = {**snake_names(), **names}
    for path in sorted(glob.glob("docs/*.md") + ["README.md"]):
        rewrite(path, in_prose, in_pages)
    for name in sorted(names):
        print(name, names[name])


main()
