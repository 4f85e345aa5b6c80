#!/usr/bin/env python3
"""Brings the names of definitions and lemmas to today's spelling; run once at the top, after port.py and before any edit by hand.

usage: python3 tools/respell_names.py

A name that specs/ or proofs/ declares and that begins in lower case is turned to snake case. A dash stays where it joins two names (of definitions
of this repository or of the library) and becomes '_' before a plain word. The proof of a function f is f_spec. Types and modules keep their names,
and so does what src/ declares. Where a lemma would fall together with a definition, the lemma ends in _lem (APART). It says what it did, and stops
where two names would fall together that APART does not keep apart.
"""

import collections
import os
import re
import sys

SEPARATORS = r"\s(){}\[\];,.\"«»"
TOKEN = re.compile("[^" + SEPARATORS + "]+")
DECLARED = re.compile(r"^\s*(?:(?:abbrev|unfoldable|pub|data|record|ruleset) +)*([^" + SEPARATORS + r":]+)(?: +[^:]*)? *: ")
IMPORTED = re.compile(r"use (?:Rattle\.std|native|lib|borrow|mir|denote|base|contract|types|prog)\S*\.\{([^}]*)\}")
WORDS = "eq lt le add sub mul div mod and or not cons nil append suc zero one true false min max length set take drop".split()
NO_NAME = {"let", "in", "elim", "λ", "|", "→", "--", "use"}

# Lemmas that would have the name of a definition that stands beside them: by their names before this script, with the folder below crates/
# where that is a lemma's name and elsewhere another thing's.
APART = {
    "info-in": ("", "info_in_lem"),
    "nodes-in": ("", "nodes_in_lem"),
    "role-text": ("", "role_text_lem"),
    "state-at": ("", "state_at_lem"),
    "string-count": ("", "string_count_lem"),
    "string-table": ("", "string_table_lem"),
    "viewed-as": ("", "viewed_as_lem"),
    "wire-type": ("", "wire_type_lem"),
    "long-string": ("", "long_string_lem"),
    "found_in": ("walk/proofs/claim", "found_in_lem"),
    "read_whole": ("walk/proofs/claim", "read_whole_lem"),
    "same_kind": ("walk/proofs/claim", "same_kind_lem"),
    "same_number": ("walk/proofs/claim", "same_number_lem"),
    "same_text": ("walk/proofs/claim", "same_text_lem"),
    "string_bytes": ("wire/proofs/laws", "string_bytes_lem"),
    "turn_on": ("walk/proofs", "turn_on_lem"),
    "step_by": ("protobuf/proofs", "step_by_lem"),
}


def files(ending, below="crates"):
    for folder, dirs, names in os.walk(below):
        dirs[:] = sorted(d for d in dirs if d not in ("out", "target"))
        for name in sorted(names):
            if name.endswith(ending):
                yield os.path.join(folder, name)


def read(path):
    with open(path, encoding="utf-8") as f:
        return f.read()


def snake(word):
    if not word[:1].islower():
        return word
    word = re.sub(r"([a-z0-9'ℕℤ])([A-Z])", r"\1_\2", word)
    word = re.sub(r"([A-Z])([A-Z][a-z])", r"\1_\2", word)
    return "".join(c.lower() if c.isascii() else c for c in word)


def declared(path, text):
    for line in text.splitlines():
        found = DECLARED.match(line)
        if found and found.group(1) not in NO_NAME and not line.lstrip().startswith(("--", "use ", "pub use ")):
            yield found.group(1)


def respelled(name, names):
    """The name in today's spelling: a dash stays between two of the names."""
    if not name[:1].islower() or "--" in name or name.endswith("-"):
        return name
    parts = [snake(p) for p in name.split("-")]
    is_name = lambda w: w in names or w[:1].isupper()
    whole, left = parts[0], parts[0]
    for part in parts[1:]:
        if is_name(left) and is_name(part):
            whole, left = whole + "-" + part, part
        else:
            whole, left = whole + "_" + part, part if is_name(part) else left + "_" + part
    return whole


def main():
    antt, rt = list(files(".antt")), list(files(".rt"))
    texts = {p: read(p) for p in antt + rt}
    where = collections.defaultdict(set)
    for p in antt:
        for name in declared(p, texts[p]):
            where[name].add(p)
    names = set(WORDS) | {snake(n) for n in where if "-" not in n}
    for t in texts.values():
        for found in IMPORTED.finditer(t):
            names.update(w.strip() for w in found.group(1).split(","))
    new = {n: respelled(n, names) for n in where}
    for p in antt:
        folder, last = os.path.split(p)
        if last == "Proof.antt":
            f = os.path.basename(folder)
            for n in declared(p, texts[p]):
                if n[-5:] in ("-spec", "_spec") and n[:-5].replace("-", "_") == f:
                    new[n] = f + "_spec"
    new.update({old: name for old, (folder, name) in APART.items() if not folder})
    new = {old: name for old, name in new.items() if old != name}

    together = collections.defaultdict(set)
    for old, name in new.items():
        together[name].add(old)
    bad = [f"{name} would stand for {', '.join(sorted(olds))}" for name, olds in sorted(together.items()) if len(olds) > 1]
    for old, name in sorted(new.items()):
        if name in where and name not in new:
            users = {p for p in texts if old in TOKEN.findall(texts[p])}
            bad += [f"{p}: {old} would fall together with {name}" for p in sorted(users) if name in TOKEN.findall(texts[p]) and name not in APART]
    if bad:
        print("\n".join(bad))
        return 1

    def turned(path, text):
        here = dict(new)
        for old, (folder, name) in APART.items():
            if folder and f"crates/{folder}" in path:
                here[old] = name
        return TOKEN.sub(lambda m: here.get(m.group(0), m.group(0)), text)

    count = 0
    for p in antt + rt:
        now = turned(p, texts[p])
        if now != texts[p]:
            count += 1
            with open(p, "w", encoding="utf-8") as f:
                f.write(now)
    print(f"{len(new)} of {len(where)} names turned, in {count} files")
    return 0


if __name__ == "__main__":
    sys.exit(main())
