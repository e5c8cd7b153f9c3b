#!/usr/bin/env python3
"""Spells the repository's own definitions and lemmas in snake case: types and modules keep their capital letters, every other name that is declared in specs/ or in a lemma
file of proofs/ loses its dashes and inner capitals. Run once, at the top, right after port.py: in a repository whose proofs are turned already it does nothing.

usage: python3 tools/respell.py [--check]

Functions of src/, exported C names, strings, inputs and outputs stay. Names that would fall together in one file are listed in APART, each with a name of its own.
"""
import glob
import os
import re
import sys

WORD = re.compile(r"[^\s(){}.;,@\"«»:=\[\]⟨⟩`|]+")
NAME = r"[a-z][A-Za-z0-9_'₀-₉-]*"
# Two that would be spelled alike, and what the second is called.
APART = {
    "table-of": "table_of_decoded",
    "in_list": "in_list_is",
    "with_pair": "with_pair_is",
    "pair_then": "pair_then_is",
    "reading_step": "reading_step_is",
    "report-lines": "report_lines_is",
    "name-rest": "name_rest_is",
    "on-pair": "on_pair_is",
    "on-byte": "on_byte_is",
    "judged-from": "judged_from_is",
    "then-look": "then_look_is",
    "then-step": "then_step_is",
    "zeros-at": "zeros_at_is",
    "zeros-from": "zeros_from_is",
    "source-merged": "source_merged_is",
}


def snake(name):
    return re.sub(r"(?<=[a-z0-9])([A-Z])", lambda m: "_" + m[1].lower(), name).replace("-", "_").lower()


def is_proof(path):
    return os.path.basename(path) == "Proof.antt"


def declared(text):
    """Names at the head of a line: declarations, fields, constructors, where-blocks."""
    found = set()
    for line in text.split("\n"):
        m = re.match(rf"\s*(?:(?:abbrev|unfoldable|pub|private)\s+)*({NAME})(?:\s+\{{[^{{}}]*\}})*\s*:(?!:)", line)
        if m and not line.strip().startswith("--"):
            found.add(m[1])
    return found


def bound(text):
    """Names that a let, a binder or a function's pattern makes."""
    found = set(re.findall(rf"\blet\s+({NAME})\s*[:=]", text))
    for group in re.findall(r"[({]((?:[^\s(){}:]+\s+)+):\s", text):
        found.update(w for w in group.split() if re.fullmatch(NAME, w))
    for group in re.findall(r"λ\s+([^.()]*)\.", text):
        found.update(w for w in group.split() if re.fullmatch(NAME, w))
    return found


def imports(text):
    """(module, names) of each use line."""
    for m in re.finditer(r"(?m)^(?:ghost )?use ([^\s{;]+?)\.\{([^}]*)\}", text):
        yield m[1], [w.strip() for w in m[2].split(",")]


def main():
    check = "--check" in sys.argv
    crates = sorted(os.listdir("crates"))
    if glob.glob("crates/*/proofs/**/Answers.antt", recursive=True):
        print("respell: the proofs are turned already: nothing to do")
        return
    antt = [p for c in crates for p in glob.glob(f"crates/{c}/specs/**/*.antt", recursive=True) + glob.glob(f"crates/{c}/proofs/**/*.antt", recursive=True)]
    texts = {p: open(p, encoding="utf-8").read() for p in antt}
    own = set()
    for p, t in texts.items():
        if not is_proof(p):
            own |= {n for n in declared(t) if snake(n) != n}
    if not own:
        print("respell: nothing to do")
        return
    own_path = re.compile(r"Rattle\.(" + "|".join(crates) + r")\.")
    table = {n: APART.get(n, snake(n)) for n in own | set(APART)}

    def turn(path, t):
        foreign = {n for m, ns in imports(t) if not own_path.match(m + ".") for n in ns}
        mine = dict(table)
        if is_proof(path):
            known = {n for m, ns in imports(t) if own_path.match(m + ".") for n in ns}
            mine = {n: s for n, s in table.items() if n in known}
        else:
            mine.update({n: snake(n) for n in bound(t) if snake(n) != n})
        mine = {n: s for n, s in mine.items() if n not in foreign}
        used = set(WORD.findall(t))
        made = {}
        for n in sorted(used):
            s = mine.get(n, n)
            if s in made and made[s] != n:
                print(f"falls together in {path}: {made[s]} and {n} as {s}")
            made[s] = n
        fields = {n: s for n, s in table.items() if is_proof(path) and n in FIELDS}

        def word(m):
            n = m[0]
            if m.start() and t[m.start() - 1] == "." and is_proof(path):
                return fields.get(n, n)
            return mine.get(n, n)

        return WORD.sub(word, t)

    global FIELDS
    FIELDS = set()
    for p, t in texts.items():
        if not is_proof(p):
            for body in re.findall(r"(?ms)^(?:pub )?record .*?where\n(.*?)(?=^\S|\Z)", t):
                FIELDS |= {n for n in declared(body) if snake(n) != n}
    changed = 0
    for p, t in texts.items():
        new = turn(p, t)
        if new != t:
            changed += 1
            if not check:
                open(p, "w", encoding="utf-8").write(new)
    # In Rust, edits and pages the names stand in clauses and in quotes: a dash or an inner capital tells them.
    others = [p for pattern in ("crates/*/src/**/*.rt", "crates/*/must-fail/*.edit", "docs/*.md", "README.md") for p in glob.glob(pattern, recursive=True)]
    for p in others:
        t = open(p, encoding="utf-8").read()

        def word(m):
            n = m[0]
            before, after = t[max(0, m.start() - 2):m.start()], t[m.end():m.end() + 1]
            if p.endswith(".md") and not (before.endswith("`") and after == "`"):
                return n
            return n if p.endswith(".rt") and "_" in n else table.get(n, n)

        new = WORD.sub(word, t)
        if new != t:
            changed += 1
            if not check:
                open(p, "w", encoding="utf-8").write(new)
    print(f"respell: {len(table)} names, {changed} files")


main()
