#!/usr/bin/env python3
"""Brings the repository's own definitions and lemmas to today's spelling: words in snake case, types and modules in camel case.

usage: python3 tools/respell.py          once, at the top, after port.py
       python3 tools/respell.py --dry    says what it would do

A name is the repository's own where a file of specs/, or a shared file of proofs/, declares it. A name that the library has too stays, and so does one whose new spelling is taken.
Functions and types of src/, exported names, strings, inputs and outputs keep their names. Writes tools/respelled.tsv, old name and new.
"""

import glob
import os
import re
import sys

DECLARES = re.compile(r"^(\s*)((?:(?:abbrev|unfoldable|pub|record|data) )*)([^\s:(){}\[\],;.]+)((?: \{[^}]*\}| \((?:[^()]|\([^()]*\))*\))*) :(?= |$)")
TOKEN = re.compile(r"[^\s(){}\[\],;.@`\"]+")
BARE = re.compile(r"(?<![.\w'-])[^\s(){}\[\],;.@`\"]+")
LETTERS = re.compile(r"^[A-Za-z0-9_'→<≤≡×∷-]+$")


def files(*patterns):
    return sorted(f for p in patterns for f in glob.glob(p, recursive=True) if "/out/" not in f and os.path.isfile(f))


def snake(name):
    name = re.sub(r"(?<=[a-z0-9])([A-Z]+)(?![a-z])", lambda m: "_" + m.group(1).lower(), name)
    name = re.sub(r"(?<=[a-z0-9])([A-Z])(?=[a-z])", lambda m: "_" + m.group(1).lower(), name)
    return re.sub(r"(?<=[\w'])-(?=\w)", "_", name)


def own():
    """The declared names of specs/ and of the shared files of proofs/."""
    found = set()
    for f in files("crates/*/specs/**/*.antt", "crates/*/proofs/**/*.antt"):
        if os.path.basename(f) == "Proof.antt":
            continue
        for line in open(f, encoding="utf-8"):
            m = DECLARES.match(line)
            if m and LETTERS.match(m.group(3)):
                found.add(m.group(3))
    return found


def library():
    """What the files import of the library."""
    found = set()
    for f in files("crates/**/*.antt", "crates/**/*.rt"):
        for m in re.finditer(r"use (?!Rattle\.(?!std\b))[\w.·]+\.\{([^}]*)\}", open(f, encoding="utf-8").read()):
            found |= {w.strip() for w in m.group(1).split(",")}
    return found


def spelled():
    """Each name with its new spelling, and what stays because its new spelling is taken."""
    mine, theirs = own(), library()
    words = set()
    for f in files("crates/*/specs/**/*.antt", "crates/*/proofs/**/*.antt"):
        if os.path.basename(f) != "Proof.antt":
            for line in open(f, encoding="utf-8"):
                words |= set(BARE.findall(re.sub(r"(^| )-- .*", "", line)))
    for f in files("crates/**/*.rt"):
        for line in clauses(open(f, encoding="utf-8").read()):
            words |= set(BARE.findall(line))
    new, stay = {}, {}
    camel = [n for n in sorted(mine) if snake(n) != n and re.search(r"[a-z][A-Z]", n)]
    for name in camel + sorted(mine - set(camel)):
        to = snake(name) if not name[0].isupper() else name[0] + re.sub(r"(?<=[\w'])-(?=\w)", "_", name[1:])
        if to == name:
            continue
        if name in theirs:
            stay[name] = "the library's"
            continue
        # a lemma of its definition's name is told apart from it, as the library does
        if (to in new.values() or to in mine) and "-" in name:
            to += "_lem"
        elif to in mine and to not in theirs and to not in new and name in camel:
            new[to] = to + "_lem"
        if to in words and to not in new or to in new.values():
            stay[name] = f"{to} is taken"
        else:
            new[name] = to
    return new, stay


def turned(text, new):
    return TOKEN.sub(lambda m: new.get(m.group(0), m.group(0)), text)


def antt(text, new):
    """Names in code, and in comments those with an upper-case letter or in backticks."""
    camel = {k: v for k, v in new.items() if re.search(r"[a-z][A-Z]", k)}
    out = []
    for line in text.split("\n"):
        at = 0 if line.startswith("--") else line.find(" -- ")
        if at < 0:
            out.append(turned(line, new))
            continue
        note = re.sub(r"`([^`]*)`", lambda m: "`" + turned(m.group(1), new) + "`", line[at:])
        out.append(turned(line[:at], new) + turned(note, camel))
    return "\n".join(out)


def of_clauses(text):
    """Each line, and whether it is an import or a clause."""
    clause = False
    for line in text.split("\n"):
        start = re.match(r"\s*(pub )?(ghost|requires|ensures)\b", line)
        clause = bool(start) or (clause and not re.match(r"\s*(\{|\}|where|pub|fn|use|//|#|let|if|match|while)|^\s*$", line))
        yield line, clause


def clauses(text):
    return [line for line, clause in of_clauses(text) if clause]


def source(text, new):
    """Imports and clauses only: no code."""
    return "\n".join(turned(line, new) if clause else line for line, clause in of_clauses(text))


def main():
    new, stay = spelled()
    for name, why in stay.items():
        print(f"stays: {name} ({why})")
    print(f"{len(new)} names")
    if "--dry" in sys.argv:
        return
    for f in files("crates/**/*.antt", "crates/**/*.rt", "crates/*/must-fail/*.edit"):
        text = open(f, encoding="utf-8").read()
        if f.endswith(".edit"):
            spec = re.search(r"^file: (\S+)", text, re.M).group(1).endswith(".antt")
            after = "\n".join(turned(l, new) if spec and re.match(r"(old|new): ", l) else l for l in text.split("\n"))
        else:
            after = antt(text, new) if f.endswith(".antt") else source(text, new)
        if after != text:
            open(f, "w", encoding="utf-8").write(after)
    with open("tools/respelled.tsv", "w", encoding="utf-8") as f:
        f.writelines(f"{k}\t{v}\n" for k, v in sorted(new.items()))


if __name__ == "__main__":
    main()
