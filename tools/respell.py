#!/usr/bin/env python3
"""Brings the names of definitions, lemmas, record fields and local lemmas to snake case: a dash in them becomes `_`.

usage: python3 tools/respell.py        at the top of the repository, once, after the spelling of the language itself was turned

It rewrites the .antt and .rt files of crates/ and the must-fail edits. Left as they are: names that the checker makes (after `goal.`),
names of the library, prose in comments but for what stands in backticks, and string literals. It stops before it writes anything if two
names of one crate would fall together, and names each file in which two imports would.
"""

import glob
import re
import sys

DEFINED = re.compile(r"^(?:pub |abbrev |unfoldable )*([^\s(){}\[\].,;:λ`\"]+) :(?!=)")
INNER = re.compile(r"^\s+(?:pub )?([^\s(){}\[\].,;:λ`\"]+) :(?!=)")
TOKEN = re.compile(r"[^\s(){}\[\].,;:\"λ⟨⟩|`]+")
USE = re.compile(r"^(?:ghost )?use ([^{\s;]+)\.\{([^}]*)\}")


def files():
    found = []
    for kind in ("specs/**/*.antt", "proofs/**/*.antt", "src/**/*.rt", "must-fail/*.edit"):
        found += glob.glob("crates/*/" + kind, recursive=True)
    return sorted(found)


def own_names(paths):
    names = {}
    for path in paths:
        if not path.endswith(".antt"):
            continue
        with open(path, encoding="utf-8") as f:
            for line in f:
                for form in (DEFINED, INNER):
                    m = form.match(line)
                    if m and ": goal." not in line:
                        names.setdefault(m.group(1), set()).add(path.split("/")[1])
    return names


def snake(name):
    return name.replace("-", "_")


def fallen(names):
    bad = []
    for name in names:
        if "-" in name and snake(name) in names and names[name] & names[snake(name)]:
            bad.append(f"{name} and {snake(name)} of {sorted(names[name] & names[snake(name)])}")
    return bad


def borrowed(text):
    """Names that a file takes from the library."""
    taken = set()
    for line in text.splitlines():
        m = USE.match(line)
        if m and re.match(r"Rattle\.(std|core|std_\w+)\.|borrow\.|Prim\.", m.group(1)):
            taken |= {w.strip().split(" as ")[-1] for w in m.group(2).split(",")}
    return taken


def turn_tokens(text, renamed, kept):
    def one(m):
        word = m.group(0)
        before = text[max(0, m.start() - 5):m.start()]
        return renamed[word] if word in renamed and word not in kept and before != "goal." else word

    return TOKEN.sub(one, text)


def turn_line(line, mark, renamed, kept):
    made = re.match(r"^pub ([^\s]+) : goal\.", line)
    at = line.find(mark)
    while at >= 0 and line[:at].count('"') % 2:
        at = line.find(mark, at + 1)
    code, prose = (line, "") if at < 0 else (line[:at], line[at:])
    if made:
        kept = kept | {made.group(1)}
    parts = re.split(r'("(?:[^"\\]|\\.)*")', code)
    code = "".join(p if k % 2 else turn_tokens(p, renamed, kept) for k, p in enumerate(parts))
    prose = re.sub(r"`[^`]*`", lambda m: turn_tokens(m.group(0), renamed, set()), prose)
    return code + prose


def turn(path, renamed):
    with open(path, encoding="utf-8") as f:
        old = f.read()
    kept = borrowed(old)
    made = set(re.findall(r"(?m)^pub (\S+) : goal\.", old))
    mark = "--" if path.endswith(".antt") else "//"
    new = "".join(turn_line(line, mark, renamed, kept | made) for line in old.splitlines(keepends=True))
    seen, twice = set(), set()
    for line in new.splitlines():
        m = USE.match(line)
        for w in (m.group(2).split(",") if m else []):
            w = w.strip().split(" as ")[-1]
            if w and w in seen:
                twice.add(w)
            seen.add(w)
    if twice:
        print(f"twice imported in {path}: {sorted(twice)}")
    if new != old:
        with open(path, "w", encoding="utf-8") as f:
            f.write(new)
        return 1
    return 0


def main():
    paths = files()
    names = own_names(paths)
    bad = fallen(names)
    if bad:
        print("fall together:\n" + "\n".join(bad))
        return 1
    renamed = {n: snake(n) for n in names if "-" in n}
    print(f"{len(renamed)} names, {sum(turn(p, renamed) for p in paths)} files")
    return 0


if __name__ == "__main__":
    sys.exit(main())
