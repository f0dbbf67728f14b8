#!/usr/bin/env python3
"""Brings the names of definitions and lemmas in specs/ and proofs/ to snake case: a word that was in camel case, or whose parts were joined by dashes.

usage: tools/spell_names.py [--list]      at the top of the repository; --list prints the names and changes nothing

Run once, after the port of the repository to the Rattle of docs/PORT.md. Types, modules, functions of src/ and what Rattle itself makes keep their names.
It goes by words: a word of a .antt or .rt file or of a must-fail edit that is such a name. A word behind a dot is one only in a path of this repository or
if it is a field of a record. A lemma that would have its definition's name gets `_lem`; other names that would
fall together are printed and left as they are.
"""

import os
import re
import sys

WORD = re.compile(r"[^\s(){}\[\].,;:⌜⌝\"`=|]+")
# a lemma that has had the new spelling of a definition all along
LEMMAS = {"body_bytes": "body_bytes_lem"}
DECLARED = re.compile(r"^ *(?:abbrev |unfoldable |pub )*([^\s(){}.,;:]+) +:(?: |$)")
FIELD = re.compile(r"^ +(?:pub )?([^\s(){}.,;:]+) +:(?: |$)")
RECORD = re.compile(r"^ *(?:abbrev |unfoldable |pub )*record ")


def files(ends):
    for folder, dirs, names in os.walk("crates"):
        dirs[:] = sorted(d for d in dirs if d != "out")
        for name in sorted(names):
            if name.endswith(ends):
                yield os.path.join(folder, name)


def own(path):
    """Whether a file holds names of this repository's own: specs/ and the lemma files, not the proof of one function."""
    parts = path.split(os.sep)
    return path.endswith(".antt") and (parts[2] == "specs" or parts[2] == "proofs" and parts[-1] not in ("Proof.antt", "Invariants.antt"))


def spelled(name):
    if not re.match(r"[a-z]", name):
        return name
    new = re.sub(r"(?<=[a-z0-9])(?=[A-Z])", "_", name) if not re.search(r"[-→]", name) else name
    new = new.lower() if new != name else new
    return re.sub(r"(?<=[\w'])-(?=\w)", "_", new)


def read(path):
    with open(path, encoding="utf-8") as f:
        return f.read()


def names():
    found, fields = {}, set()
    for path in files(".antt"):
        if not own(path):
            continue
        record = False
        for line in read(path).split("\n"):
            if RECORD.match(line):
                record = True
            elif line and not line.startswith("  "):
                record = False
            m = DECLARED.match(line)
            if m and (not line.startswith("        ") or line.lstrip().startswith("pub ")):
                new = spelled(m.group(1))
                if new != m.group(1):
                    found[m.group(1)] = new
                    if record and FIELD.match(line):
                        fields.add(m.group(1))
    return found, fields


def in_one_file(old, new):
    """Whether a file has both words, the new one as a name and not as a field."""
    for path in files(".antt"):
        text = re.sub(r"--.*", "", read(path))
        if old in WORD.findall(text) and re.search(r"(?<![\w.'-])" + re.escape(new) + r"(?![\w'-])(?! = start)(?! = table)(?!\.)", text):
            if new not in LEMMAS:
                return True
    return False


def apart(found):
    """The same names, where a lemma that would have the name of a definition, or of a word that stands in some file, gets `_lem`; what still falls together."""
    words = set()
    for path in files(".antt"):
        text = read(path)
        words |= {m.group(0) for m in WORD.finditer(text) if not (m.start() and text[m.start() - 1] == ".")}
    camel = {n for o, n in found.items() if "-" not in o}
    new = {o: n + "_lem" if "-" in o and (n in camel or n in words) else n for o, n in found.items()}
    seen = {}
    for o, n in new.items():
        seen.setdefault(n, []).append(o)
    together = {o for n, olds in seen.items() if len(olds) > 1 or n in words and in_one_file(olds[0], n) for o in olds}
    return new | {o: n for o, n in LEMMAS.items() if o in new.values()}, together


def turn(text, found, fields):
    def word(m):
        w, at = m.group(0), m.start()
        if w not in found:
            return w
        if at and text[at - 1] == "." and w not in fields:
            path = re.search(r"[^\s(){},;]*$", text[:at]).group(0)
            if not path.startswith("Rattle."):
                return w
        return found[w]

    return WORD.sub(word, text)


def of_library(text):
    """The names that a file takes from a library."""
    lines = re.findall(r"^use (?!Rattle\.(?!std\b|core\b))\S+\.\{([^}]*)\}", text, re.M)
    return {part.split(" as ")[0].strip() for line in lines for part in line.split(",")}


def main(argv):
    found, fields = names()
    found, clash = apart(found)
    for old in sorted(clash):
        print(f"left: {old} (-> {found[old]})")
    found = {o: n for o, n in found.items() if o not in clash}
    if argv == ["--list"]:
        print("\n".join(f"{o} {n}" for o, n in sorted(found.items())))
        return 0
    for path in files((".antt", ".rt", ".edit")):
        old = read(path)
        here = {o: n for o, n in found.items() if o not in of_library(old)}
        new = "\n".join(l if path.endswith(".edit") and l.startswith("#") else turn(l, here, fields) for l in old.split("\n"))
        if new != old:
            with open(path, "w", encoding="utf-8") as f:
                f.write(new)
    return 0


if __name__ == "__main__":
    raise SystemExit(main(sys.argv[1:]))
