#!/usr/bin/env python3
"""Brings this repository's own names in specs/, proofs/ and clauses to the spelling of today's Rattle: words in snake case.

usage: python3 tools/respell.py [--dry]     at the top of a checkout in which port.py has run, once

port.py respells those of our names that its own rules reach. What it leaves are definitions and lemmas in lower camel
case, as wordAt or putBits-agree. Each such word becomes snake case, word_at and put_bits-agree, wherever it stands as a
whole word in crates/: in .antt files, in .rt files, where only clauses, ghost use lines and comments have such words,
and in must-fail edits, where a word of the older library, as getD, goes along and is mended by hand. Functions of src/,
exported C names, strings, inputs and outputs have no lower camel case, and stay. It stops, and writes nothing, where two
such words would fall together, and tells where a new name meets one that is there already.
"""

import os
import re
import sys

WORD = re.compile(r"(?<![A-Za-z0-9_'])[a-z][a-z0-9]*(?:[A-Z][a-z0-9]*)+(?![A-Za-z0-9_'])")


def files(top):
    for folder, dirs, names in os.walk(os.path.join(top, "crates")):
        dirs[:] = sorted(d for d in dirs if d != "out")
        for name in sorted(names):
            if name.endswith((".rt", ".antt", ".edit")):
                yield os.path.join(folder, name)


def snake(word):
    return re.sub(r"(?<=[a-z0-9])([A-Z])", lambda m: "_" + m.group(1).lower(), word)


def main(argv):
    top = "."
    texts = {p: open(p, encoding="utf-8").read() for p in files(top)}
    words = sorted({w for t in texts.values() for w in WORD.findall(t)})
    new = {w: snake(w) for w in words}
    bad = [w for w in words if re.search(r"[A-Z]", new[w])]
    made = {}
    for w in words:
        made.setdefault(new[w], []).append(w)
    bad += ["/".join(ws) for ws in made.values() if len(ws) > 1]
    if bad:
        print("fall together, or have no snake case: " + ", ".join(bad))
        return 1
    # A word that the new name would meet: a bare word of an .antt file, which no dot makes a field or a path.
    met = {}
    for p, t in texts.items():
        if not p.endswith(".antt"):
            continue
        code = re.sub(r"--.*", "", t)
        for w in set(re.findall(r"(?<![A-Za-z0-9_'.-])[a-z][a-z0-9_]*(?![A-Za-z0-9_'.-])", code)):
            if w in made:
                met.setdefault(w, []).append(p)
    for w, ps in sorted(met.items()):
        print(f"meets: {made[w][0]} -> {w}: {len(ps)} files, as {ps[0]}")
    if "--dry" in argv:
        print(f"{len(words)} words")
        return 0
    n = 0
    for p, t in texts.items():
        u = WORD.sub(lambda m: new[m.group(0)], t)
        if u != t:
            open(p, "w", encoding="utf-8").write(u)
            n += 1
    print(f"respelled {len(words)} words in {n} files")
    return 0


if __name__ == "__main__":
    raise SystemExit(main(sys.argv[1:]))
