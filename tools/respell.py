#!/usr/bin/env python3
"""Respells the repository's own definitions and lemmas: words in snake case, so `blockBytes` is `block_bytes` and `not-ok` is `not_ok`.

usage: python3 tools/respell.py [ROOT] [--dry]

It goes over a tree that port.py has turned, once. Names of facts and types (with a capital first), goals that the toolchain names,
functions of src/ and names that a file takes from std stay as they are. It prints each new name, and each place where two names fall together.
"""

import os
import re
import sys

WORD = r"[A-Za-z0-9_'\-]"
SIGNATURE = re.compile(rf"^(\s*)(?:(?:abbrev|unfoldable|pub|let)\s+)*([A-Za-z]{WORD}*) :\s*(.*)$")
GOAL = re.compile(r"^(?:need|goal|needs|goals|Needs|Goals|Given)\.")
USE = re.compile(r"(?:ghost )?use ([\w.'+\-◌·]+)\.\{([^}]*)\}", re.S)
# Where the plain rule would give two things one name, or a word that is taken.
OTHERWISE = {
    "onLoan": "is_on_loan",  # the field `on-loan` becomes `on_loan`
    "class-from": "class_from_lem",
    "open-lines": "open_lines_lem",
    "power-of": "power_of_lem",
    "size-by": "size_by_lem",
    "blocks-stand": "blocks_stand_lem",  # functions of src/ have these two names
    "restore-at": "restore_at_lem",
    "getD-reserves": "get_or_reserves",  # the library's `getD` is `get_or` now
    "getD-shorter": "get_or_shorter",
    "getD-zeros": "get_or_zeros",
    "Powers-smallest": "PowersSmallest",  # a fact has no dash between plain words
}


def snake(name):
    if name in OTHERWISE:
        return OTHERWISE[name]
    if not name[0].islower():
        return name
    name = re.sub(r"(?<=[a-z0-9])([A-Z])", lambda m: "_" + m.group(1).lower(), name)
    return re.sub(r"-(?=[a-z0-9])", "_", name)


def files(root, endings):
    for folder, dirs, names in os.walk(root):
        dirs[:] = sorted(d for d in dirs if d not in ("out", ".git", "target", "tools"))
        for n in sorted(names):
            if n.endswith(endings):
                yield os.path.join(folder, n)


def defined(text):
    for line in text.split("\n"):
        m = SIGNATURE.match(line)
        if m and not line.lstrip().startswith("let ") and not GOAL.match(m.group(3)):
            yield m.group(2)


def taken_from_std(text):
    out = set()
    for m in USE.finditer(text):
        if m.group(1).startswith(("Rattle.std", "mathlib", "lib.", "Prim", "native")):
            for part in m.group(2).split(","):
                out.add(part.strip().split(" as ")[-1].strip())
    return out


def main(argv):
    dry = "--dry" in argv
    rest = [a for a in argv if not a.startswith("--")]
    root = rest[0] if rest else "."
    crates = os.path.join(root, "crates")
    names = {}
    for p in files(crates, (".antt",)):
        with open(p, encoding="utf-8") as f:
            for n in defined(f.read()):
                names.setdefault(n, set()).add(os.path.relpath(p, crates))
    new = {n: snake(n) for n in names if snake(n) != n}
    for n in sorted(new):
        print(f"{n} -> {new[n]}")
    back = {}
    for n in names:
        back.setdefault(new.get(n, n), set()).add(n)
    for n, olds in sorted(back.items()):
        if len(olds) > 1:
            print("together:", n, {o: sorted(names[o]) for o in sorted(olds)})
    pattern = re.compile(rf"(?<!{WORD})(" + "|".join(re.escape(n) for n in sorted(new, key=len, reverse=True)) + rf")(?!{WORD})")
    for p in files(root, (".antt", ".rt", ".edit", ".md")):
        with open(p, encoding="utf-8") as f:
            text = f.read()
        keep = taken_from_std(text)
        for n in new:
            if n not in keep and re.search(rf"(?<!{WORD}){re.escape(n)}(?!{WORD})", text) and re.search(rf"(?<!{WORD}){re.escape(new[n])}(?!{WORD})", text):
                print(f"both in one file: {n} and {new[n]} in {os.path.relpath(p, root)}")
        if p.endswith(".md"):
            turned = re.sub(r"`[^`\n]*`", lambda m: pattern.sub(lambda w: new[w.group(1)], m.group(0)), text)
        else:
            turned = pattern.sub(lambda m: m.group(0) if m.group(1) in keep else new[m.group(1)], text)
        if turned != text and not dry:
            with open(p, "w", encoding="utf-8") as f:
                f.write(turned)
    return 0


if __name__ == "__main__":
    raise SystemExit(main(sys.argv[1:]))
