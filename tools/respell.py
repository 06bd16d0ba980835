#!/usr/bin/env python3
"""Brings the definitions and lemmas of this repository to the spelling of today's Rattle: words in snake case.

usage: python3 tools/respell.py            at the top, once, after the kit's port.py
       python3 tools/respell.py --say      only prints what would be renamed, and which names fall together

In specs/, proofs/*.antt and the clauses of src/ each name with a hyphen gets underscores, and each name in camel case that
begins with a small letter is written in snake case; a name that a file takes from Rattle's own modules stays. In proofs/F/ (the
proof of one function) only names are turned that the file takes from this repository's modules, since the rest are Rattle's.
Comments follow where they name a definition. Must-fail edits are not touched. RENAMED says which names get another spelling
than that, because two would fall together.
"""

import glob
import re
import sys

WORD = re.compile(r"(?<![\w'-])[^\W\d][\w']*(?:-[\w']+)*")

# Names that would fall together with another, and what they are called instead.
RENAMED = {
    "None-found": "none_found",
    "classOf": "byte_class",
    "is-marker": "is_marker_by",
    "putOn": "postfixed",
    "rowAt": "row_of_words",
    "rowsLeft": "rows_to_go",
    "run-key": "run_key_marked",
}
# Names that stay: a hypothesis about the letter in it, and a lemma of Rattle that one file names by its whole path.
KEPT = {"hK", "leb-true"}


def snake(name):
    if name in RENAMED:
        return RENAMED[name]
    if name in KEPT:
        return name
    name = name.replace("-", "_")
    if not name[0].isupper():
        name = re.sub(r"(?<=[a-z0-9'])([A-Z])", lambda m: "_" + m.group(1).lower(), name)
        name = re.sub(r"(?<=[a-z0-9_])([A-Z])", lambda m: m.group(1).lower(), name)
    return name


def parts(text, mark):
    """The text as pieces: (is it code, piece). Strings, characters and comments are not code."""
    pattern = re.compile(re.escape(mark) + r"[^\n]*|b?\"(?:[^\"\\\n]|\\.)*\"|b'(?:[^'\\\n]|\\.)'|(?<![\w'])'(?:[^'\\\n]|\\.)'")
    at = 0
    for m in pattern.finditer(text):
        yield True, text[at:m.start()]
        yield False, m.group()
        at = m.end()
    yield True, text[at:]


def files():
    for p in sorted(glob.glob("crates/*/specs/**/*.antt", recursive=True) + glob.glob("crates/*/proofs/*.antt")):
        yield p, "--", True
    for p in sorted(glob.glob("crates/*/src/*.rt")):
        yield p, "//", True
    for p in sorted(glob.glob("crates/*/proofs/*/**/*.antt", recursive=True)):
        yield p, "--", False


USE = re.compile(r"\buse\s+([\w.+'-]+)\.\{([^}]*)\}")
OWN = sorted(p.split("/")[1] for p in glob.glob("crates/*/src"))


def imported(text):
    """The names that a file takes from other modules: from this repository's, and from Rattle's."""
    own, kit = set(), set()
    for m in USE.finditer(text):
        names = {w for w in WORD.findall(m.group(2))}
        module = m.group(1).split(".")
        mine = module[0] == "Rattle" and module[1] in OWN and not (module[2] == "proofs" and module[-1] in ("Statement", "Tie"))
        (own if mine else kit).update(names)
    return own, kit


def main():
    say = "--say" in sys.argv
    named = {}
    for p, mark, whole in files():
        if not whole:
            continue
        text = open(p, encoding="utf-8").read()
        own, kit = imported(text)
        for code, piece in parts(text, mark):
            if code:
                for m in WORD.finditer(piece):
                    n = snake(m.group())
                    if n != m.group() and m.group() not in kit:
                        named[m.group()] = n
    together = []
    for p, mark, whole in files():
        text = open(p, encoding="utf-8").read()
        own, kit = imported(text)
        turned = {o: n for o, n in named.items() if o in own or (whole and o not in kit)}
        seen = {}

        def turn(m, code):
            old = m.group()
            new = turned.get(old, old)
            if code:
                seen.setdefault(new, set()).add(old)
            return new

        out = []
        for code, piece in parts(text, mark):
            if code:
                out.append(WORD.sub(lambda m: turn(m, True), piece))
            elif piece.startswith(mark):
                out.append(WORD.sub(lambda m: turn(m, False), piece))
            else:
                out.append(piece)
        for new, olds in seen.items():
            if len(olds) > 1:
                together.append((p, new, sorted(olds)))
        if not say:
            new = "".join(out)
            if new != text:
                open(p, "w", encoding="utf-8").write(new)
    for p, new, olds in together:
        print(f"together: {p}: {new} from {', '.join(olds)}")
    print(f"{len(named)} names {'would be ' if say else ''}turned, {len(together)} places where two fall together")
    if say:
        for o in sorted(named):
            print(f"  {o} -> {named[o]}")


main()
