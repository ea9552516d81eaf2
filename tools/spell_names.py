#!/usr/bin/env python3
"""Spells the repository's own names as today's Rattle does: words in snake case, a dash only where it joins two words of specs/.

usage: python3 tools/spell_names.py [--list]     at the top of the repository, after port.py and before any edit by hand

A name is turned in every .rt and .antt file below crates/ (strings in .rt files aside). It stops, and writes nothing, where two names
would fall together. --list prints the names that it would turn.
"""

import os
import re
import sys

# What ends a name in antt. A dash, a prime and any letter are part of one.
NAME = re.compile(r"[^\s(){}\[\];,.\"⌜⌝]+")
DECLARED = re.compile(r"^\s*(?:(?:unfoldable|abbrev|pub)\s+)*(?:(?:data|record)\s+)?([^\s(){};,.:]+)(?:\s+(?:\([^()]*\)|\{[^{}]*\}))*\s*:\s")
# Lemmas that would get the name of their function, or of another's lemma.
OWN = {
    "all-rows": "take-table_in",
    "back_to": "back_to_lem",
    "bit-of": "bit_of_dec",
    "cell-line": "line_at-lines_in",
    "cell_row": "row_at-table_in",
    "either-beyond": "either_beyond_lem",
    "look-row": "look_row_lem",
    "near-at": "near_at_lem",
    "output-length": "output_length_lem",
    "refers_to": "refers_to_lem",
    "same-dir": "same_dir_lem",
    "same-list": "same_list_lem",
    "two-parents": "not_two_parents",
}
STRING = re.compile(r'(b?"(?:[^"\\]|\\.)*")')


def files():
    for folder, dirs, names in os.walk("crates"):
        dirs[:] = sorted(d for d in dirs if d != "out")
        for name in sorted(names):
            if name.endswith((".rt", ".antt")):
                yield os.path.join(folder, name)


def declared(path):
    names = set()
    for line in open(path, encoding="utf-8"):
        if not line.lstrip().startswith("--"):
            m = DECLARED.match(line)
            if m:
                names.add(m.group(1))
    return names


def snake(name):
    return re.sub(r"(?<=[a-z0-9])([A-Z])", lambda m: "_" + m.group(1).lower(), name)


def turned(name, words):
    """The spelling of a name: words are those of specs/, as they are spelled after the turn."""
    if not re.match(r"[a-z]", name):
        return name
    parts = [snake(p) for p in name.split("-")]
    out = parts[0]
    for before, part in zip(parts, parts[1:]):
        out += ("-" if before in words and part in words else "_") + part
    return out


def main(argv):
    paths = list(files())
    specs, own = set(), set()
    functions = set()
    for p in paths:
        if p.endswith(".antt") and not p.endswith("/Proof.antt"):
            names = declared(p)
            own |= names
            if "/specs/" in p:
                specs |= names
                for line in open(p, encoding="utf-8"):
                    m = re.match(r"^(?:unfoldable |abbrev )pub ([a-z][^\s:]*) :", line)
                    if m:
                        functions.add(snake(m.group(1)).replace("-", "_"))
    turn = {}
    for name in own:
        new = OWN.get(name) or (turned(name, set()) if name in specs else turned(name, functions))
        if new != name:
            turn[name] = new
    used = set()
    # a definition may have the name of the function whose answer it says
    for p in (p for p in paths if p.endswith(".antt") and not p.endswith("/Proof.antt")):
        used |= set(NAME.findall(open(p, encoding="utf-8").read()))
    bad = [(a, b) for a, b in turn.items() if b in used and b not in turn]
    seen = {}
    for a, b in turn.items():
        if b in seen:
            bad.append((a, seen[b] + " -> " + b))
        seen[b] = a
    for a, b in sorted(bad):
        print(f"falls together: {a} and {b}")
    if "--list" in argv:
        print("\n".join(f"{a} {b}" for a, b in sorted(turn.items())))
    if bad:
        return 1
    if "--list" in argv:
        return 0
    for p in paths:
        text = open(p, encoding="utf-8").read()
        walk = p.endswith("/Proof.antt")

        def spell(m):
            # what a walk through code cites behind a dot is mostly a name that Rattle made
            if walk and m.start() and m.string[m.start() - 1] == "." and m.group() not in specs:
                return m.group()
            # a Rust name has neither a dash nor a capital within
            if p.endswith(".rt") and re.fullmatch(r"[a-z0-9_]+", m.group()):
                return m.group()
            return turn.get(m.group(), m.group())

        if p.endswith(".rt"):
            new = "".join(s if i % 2 else NAME.sub(spell, s) for i, s in enumerate(STRING.split(text)))
        else:
            new = NAME.sub(spell, text)
        if new != text:
            open(p, "w", encoding="utf-8").write(new)
    print(f"turned: {len(turn)} names")
    return 0


if __name__ == "__main__":
    raise SystemExit(main(sys.argv[1:]))
