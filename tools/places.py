#!/usr/bin/env python3
"""Count the places in src/ that a design pass looks at: python3 tools/places.py [COMMIT] [--list].

One row a kind of place, by the points of docs/DESIGN-PASS.md. Without a commit the files that stand are read.
"""
import re
import subprocess
import sys
from pathlib import Path

ROOT = Path(__file__).resolve().parent.parent

# (point, kind of place, pattern on one line of source without its comment)
LINES = [
    ("1", "own enum", r"^\s*(pub(\(crate\))? )?enum \w+"),
    ("1", "refusal by its number, as a field or a parameter", r"^\s*pub refusal:|fn refused.*\bnumber: "),
    ("1", "kind, direction or side by its number", r"\b(kind|d|side): (u8|u16|u32|usize)\b|fn number_(of|back)\b"),
    ("1", "number that stands for none", r"^(?!\s*use ).*(\bNONE\b|\bUNSEEN\b|\b65535\b|\b1023\b|Sheet::LINES(;|$| <=)|q < Sheet::LINES)"),
    ("1", "count that stands for not found", r"^\s*n$|absent < |looping < |if i < n \{"),
    ("1", "0 or 1 for no or yes", r"\] [=!]= [01]\b|\] = 1;|fn bit_of\b|\+= (pass|look_in|visit)|\) == 1 \{"),
    ("3", "loop over a range", r"^\s*('\w+: )?for \w+ in [^.\[]*\.\."),
    ("3", "loop that counts by hand, or ends by a test", r"^\s*('\w+: )?while "),
    ("4", "own function for what the library converts or compares", r"^\s*(pub(\(crate\))? )?fn (wide|broad|smaller|larger|at_most_all|bit_of|after|lines_from|is_digit|word|number<W.*)\b"),
    ("4", "value packed into a number, or taken out of one", r"fn (cell_of|row_of|line_of|field_of|link_of|packed|row_by)\b"),
    ("6", "slice or array whose length or meaning stands beside it", r"\b(cells|lines|spots|truth|queue|m): &(mut )?\[(u8|u16|u32)|text: &\[u8\], at: usize"),
    ("7", "bool parameter that chooses the step", r"\bsized: bool"),
]

# Facts that stand in contracts, and the parameters that travel with them.
FACTS = ["Given", "Layout", "Laid", "Looking", "Sights", "Room", "Marks", "Searching", "Linked", "InOrder", "Accepted", "InRange", "row_limit", "line_limit"]


def files(commit):
    if commit:
        names = subprocess.run(["git", "ls-tree", "-r", "--name-only", commit, "crates"], cwd=ROOT, capture_output=True, text=True, check=True).stdout.split()
        for name in names:
            if re.fullmatch(r"crates/\w+/src/.*\.rt", name):
                text = subprocess.run(["git", "show", f"{commit}:{name}"], cwd=ROOT, capture_output=True, text=True, check=True).stdout
                yield name, text
    else:
        for path in sorted(ROOT.glob("crates/*/src/**/*.rt")):
            yield str(path.relative_to(ROOT)), path.read_text()


KEPT_WORDS = set("let mut for in if else return while loop match true false break continue as self Some None Ok Err".split())


def shape(body):
    """A body with its names, types and numbers taken out."""
    tokens = re.findall(r"[A-Za-z_]\w*|\d\w*|[^\s\w]", re.sub(r"//.*", "", body))
    return tuple(t if t in KEPT_WORDS or not re.match(r"\w", t) else "x" for t in tokens)


def bodies(text):
    """Name and body of each function."""
    for m in re.finditer(r"^( *)(?:pub(?:\(crate\))? )?(?:extern \"C\" )?fn (\w+)", text, re.M):
        start = re.compile(rf"(?<=\n){m.group(1)}\{{\n|\{{\n").search(text, m.end())
        end = re.compile(rf"^{m.group(1)}\}}$", re.M).search(text, start.end()) if start else None
        if end:
            yield m.group(2), text[start.end():end.start()]


def contracts(text):
    """What stands between each function's parameters and its body."""
    for m in re.finditer(r"\bfn \w+(?:<[^>]*>)?\([^)]*\)(.*?)\n\{|\bfn \w+(?:<[^>]*>)?\([^)]*\)(.*?)\n    \{", text, re.S):
        yield m.group(1) or m.group(2) or ""


def main():
    listing = "--list" in sys.argv
    commit = next((a for a in sys.argv[1:] if not a.startswith("-")), None)
    sources = list(files(commit))
    for point, kind, pattern in LINES:
        found = []
        for name, text in sources:
            for i, line in enumerate(text.splitlines(), 1):
                if re.search(pattern, line.split("//")[0].rstrip()):
                    found.append(f"    {name}:{i}: {line.strip()}")
        print(f"{point}  {len(found):4}  {kind}")
        if listing:
            print("\n".join(found))
    groups = {}
    for name, text in sources:
        for f, body in bodies(text):
            groups.setdefault(shape(body), []).append(f"{name}: {f}")
    twins = [group for form, group in groups.items() if len(form) > 14 and len(group) > 1]
    print(f"2  {sum(map(len, twins)):4}  function whose body is another's but for names, types and numbers, in {len(twins)} groups")
    if listing:
        print("\n".join("    " + ", ".join(group) for group in twins))
    many = []
    facts = dict.fromkeys(FACTS, 0)
    for name, text in sources:
        for f, params in re.findall(r"\bfn (\w+)(?:<[^>]*>)?\(([^)]*)\)", re.sub(r"//.*", "", text)):
            n = len([p for p in params.split(",") if p.strip()])
            if n > 5:
                many.append(f"    {name}: {f} takes {n}")
        for clauses in contracts(text):
            asked = " ".join(re.findall(r"requires.*", clauses))
            for fact in FACTS:
                facts[fact] += bool(re.search(rf"\b{fact}\b", asked))
    print(f"5  {len(many):4}  function of more than five parameters")
    if listing:
        print("\n".join(many))
    for fact, n in facts.items():
        if n > 2:
            print(f"5  {n:4}  functions that ask for {fact}")


main()
