#!/usr/bin/env python3
"""Brings the names that this repository's proofs and definitions give to the spelling of today's Rattle.

usage: python3 tools/respell_names.py [--list] [FOLDER]

Words are in snake case: a definition, lemma, field, constructor or local name in camel case or with dashes gets underscores.
Types, modules, names of Rattle's own (goals, contexts, the library's lemmas) and everything in Rust code, comments and strings
keep theirs. Run once, after the kit's own script. --list prints the names and changes nothing.
"""

import os
import re
import sys

# A lemma that would fall together with the definition that it is about gets a name of its own.
OWN = {
    "count_at": "count_at_lem",
    "first_key": "first_key_lem",
    "leaf-at": "leaf_at_lem",
    "loaded-at": "loaded_at_lem",
    "no_line": "no_line_lem",
    "not_after": "not_after_lem",
    "ok-line": "ok_line_lem",
}

# Names whose signatures the patterns below don't see.
ALSO = ("atSaw", "bays-after", "letterByte")

TOKEN = re.compile(r"[^\s(){}\[\],;.:\"]+")
SIGNATURE = re.compile(r"\s*(?:(?:abbrev|unfoldable|pub|record|data|pattern)\s+)*([^\s(){}\[\],;.:\"]+)\s*(?:\{[^}]*\}|\([^)]*\)|\s)*:\s+(\S.*)?$")
BOUND = re.compile(r"(?:\blet |λ |\bin let )([^=.:→]+?)(?: =| :|\.)")
PARAMETER = re.compile(r"[({]([^(){}:]+?) : ")


def antt_files(root):
    for folder, _, files in sorted(os.walk(os.path.join(root, "crates"))):
        for f in sorted(files):
            if f.endswith(".antt") and "/out/" not in folder:
                yield os.path.join(folder, f)


def rt_files(root):
    for folder, _, files in sorted(os.walk(os.path.join(root, "crates"))):
        for f in sorted(files):
            if f.endswith(".rt") and "/out/" not in folder:
                yield os.path.join(folder, f)


def text(path):
    with open(path, encoding="utf-8") as f:
        return f.read()


def is_function_proof(path):
    return os.path.basename(path) in ("Answers.antt", "Invariants.antt", "Choices.antt", "Proof.antt")


def snake(name):
    parts = name.replace("-", "_")
    return re.sub(r"(?<=[a-z0-9])([A-Z])", lambda m: "_" + m.group(1).lower(), parts)


def wants(name):
    """Whether a name of the repository's has another spelling: a word with dashes or in camel case."""
    if not re.match(r"[a-zα-ω]", name) or name.startswith("_"):
        return False
    return "-" in name or bool(re.search(r"[a-z0-9][A-Z]", name))


def defined(root):
    """Each name that a file of the repository gives, but for those of Rattle's goals."""
    names, goals = set(), set()
    for path in antt_files(root):
        for line in text(path).splitlines():
            if line.lstrip().startswith("--") or line.startswith("use ") or line.startswith("pub use "):
                continue
            line = line.split(" -- ")[0]
            m = SIGNATURE.match(line)
            if m:
                said = (m.group(2) or "").strip()
                if is_function_proof(path) and re.match(r"(goal|need|given|needs|choice)\w*\.", said):
                    goals.add(m.group(1))
                else:
                    names.add(m.group(1))
            for found in BOUND.findall(line) + PARAMETER.findall(line):
                names.update(TOKEN.findall(found))
    return names, goals


def imported(root):
    """Names that come from the library."""
    names = set()
    for path in list(antt_files(root)) + list(rt_files(root)):
        for m in re.finditer(r"use (Rattle\.std\S*|Rattle\.core\S*|mathlib\S*|native\S*|Prim\S*|lib\S*)\.\{([^}]*)\}", text(path)):
            for item in m.group(2).split(","):
                names.add(item.split(" as ")[0].strip())
    return names


def mapping(root):
    names, goals = defined(root)
    library = imported(root)
    turned = {}
    for name in sorted(names.union(ALSO)):
        if name in OWN:
            turned[name] = OWN[name]
        elif wants(name) and name not in library and name not in goals:
            turned[name] = snake(name)
    return turned, names, goals, library


def turn(line, turned, comment):
    """The line with each whole name turned, up to a comment, and outside strings."""
    out, i, quoted = [], 0, False
    cut = len(line)
    at = line.find(comment)
    while at >= 0:
        if line[:at].count('"') % 2 == 0 and (comment == "//" or at == 0 or line[at - 1] in " \t"):
            cut = at
            break
        at = line.find(comment, at + 1)
    head, tail = line[:cut], line[cut:]
    pieces = head.split('"')
    for k in range(0, len(pieces), 2):
        pieces[k] = TOKEN.sub(lambda m: turned.get(m.group(0), m.group(0)), pieces[k])
    return '"'.join(pieces) + tail


def main():
    args = [a for a in sys.argv[1:] if a != "--list"]
    root = args[0] if args else "."
    turned, names, goals, library = mapping(root)
    if "--list" in sys.argv:
        for old, new in sorted(turned.items()):
            print(old, new)
        taken = {}
        for old, new in sorted(turned.items()):
            taken.setdefault(new, []).append(old)
        for new, olds in sorted(taken.items()):
            if len(olds) > 1 or new in names or new in library:
                print("together:", new, olds, "defined" if new in names else "", "library" if new in library else "")
        return
    for path in list(antt_files(root)) + list(rt_files(root)):
        old = text(path)
        mark = "--" if path.endswith(".antt") else "//"
        new = "".join(turn(line, turned, mark) for line in old.splitlines(keepends=True))
        if new != old:
            with open(path, "w", encoding="utf-8") as f:
                f.write(new)


if __name__ == "__main__":
    main()
