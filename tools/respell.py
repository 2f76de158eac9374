#!/usr/bin/env python3
"""Spells the repository's own definitions, lemmas and fields as today's Rattle does. Run once, at the top, after port.py.

A name that one of our .antt files declares and that has a dash in it gets underscores for the dashes. One that begins with
a capital, a fact or a record, is put together in camel case. Names that Rattle makes of the code (the goals that
proofs/F/Answers.antt and Invariants.antt answer) stay, and so do the library's. Code, strings, inputs and outputs have no
dash in a name, so in .rt files only clauses, ghost items and comments change. Stops, and writes nothing, where a new
name stands in the tree already, so that no two names fall together.
"""
import os
import re
import sys

# Two lemmas would take the name of the library's function that they are about, and one that of ours.
SPECIAL = {"bit-and": "bit-bit_and", "put-mid": "Put-put_mid", "program-one": "program_one_lem"}
# Words of specs/ that say what a function or a field of the code is, and have its name from now on: no clause sees code's names.
MIRRORS = {"after-erase", "after-program", "after-short", "erase-count", "erase-delay", "long-text", "program-count", "program-delay", "pulse-ended"}
# Bound variables, which no declaration shows.
BOUND = {"unfed-front", "fits-text", "fits-image", "its-maker", "its-device", "program-verify"}

KEYWORD = r"(?:(?:abbrev|unfoldable)(?: pub)?|pub(?: record| data)?|record|data)"
DECLARED = re.compile(rf"^\s*(?:{KEYWORD} )?([^\s:(){{}}\[\],;]+)((?:\s*[({{][^:]*:.*[)}}])*)\s*:\s")
EDGE = r"(?<![^\s(){{}}\[\],;.`⟦|←]){}(?![^\s(){{}}\[\],;.`:⟧|])"


def files(root):
    for folder, dirs, names in os.walk(os.path.join(root, "crates")):
        dirs[:] = sorted(d for d in dirs if d != "out")
        for name in sorted(names):
            if name.endswith((".antt", ".rt")):
                yield os.path.join(folder, name)


def made_by_rattle(line):
    return re.search(r":\s*goal\.\S+\s*$", line)


def respelled(name):
    if name in SPECIAL:
        return SPECIAL[name]
    words = name.split("-")
    if name[0].isupper():
        return words[0] + "".join(w[:1].upper() + w[1:] for w in words[1:])
    return "_".join(words)


def declared(texts):
    found = set()
    for path, text in texts.items():
        if not path.endswith(".antt"):
            continue
        for line in text.splitlines():
            m = DECLARED.match(line)
            if m and not made_by_rattle(line) and not line.lstrip().startswith(("--", "let ", "use ", "λ ")):
                if re.fullmatch(r"[A-Za-z][\w']*(?:-[\w']+)+", m.group(1)):
                    found.add(m.group(1))
    return found


def main(root):
    texts = {p: open(p, encoding="utf-8").read() for p in files(root)}
    names = {n: respelled(n) for n in declared(texts) | BOUND}
    whole = "\n".join(texts.values())
    taken = [f"{n} -> {new}" for n, new in sorted(names.items()) if n not in MIRRORS and re.search(EDGE.format(re.escape(new)), whole)]
    if taken or len(set(names.values())) < len(names):
        print("these would fall together with another name: " + ", ".join(taken), file=sys.stderr)
        return 1
    pattern = re.compile(EDGE.format("(" + "|".join(re.escape(n) for n in sorted(names, key=len, reverse=True)) + ")"))
    changed = 0
    for path, text in texts.items():
        new = pattern.sub(lambda m: names[m.group(1)], text)
        if new != text:
            with open(path, "w", encoding="utf-8") as f:
                f.write(new)
            changed += 1
    for n in sorted(names):
        print(f"{n} -> {names[n]}")
    print(f"{len(names)} names, {changed} files")
    return 0


if __name__ == "__main__":
    raise SystemExit(main(sys.argv[1] if len(sys.argv) > 1 else "."))
