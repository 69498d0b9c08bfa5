#!/usr/bin/env python3
"""Brings the names that this repository's specs/ and proofs/ declare to today's spelling: words in snake case.

usage: snake_case.py [--list]      at the top of the repository, once, after port.py

A name that is declared in a crate's specs/ or proofs/ (definitions, lemmas, fields, constructors, variables, and what `as` introduces)
has `_` in place of each dash afterwards, in specs/, in proofs/, in src/, in must-fail/ and, between backticks, in comments and pages.
A name of a library or one that the checker makes (Rattle's names of goals and steps) stays. It is only spelling: --list prints the names
and writes nothing, and tells which would fall together with another name (none did) or are a library's too.
"""
import glob
import os
import re
import sys

TOKEN = r"[^\s(){}.;,@\"«»\[\]\\`:]+"
DECLARED = re.compile(r"^\s*(?:let\s+)?(?:(?:abbrev|unfoldable|pub|mutual|record|data|prop)\s+)*(" + TOKEN + r")(?:\s+[({].*?[)}])*\s*:\s")
SEVERAL = re.compile(r"^\s*(?:pub\s+)?((?:" + TOKEN + r"\s+)+" + TOKEN + r")\s+:\s")
NAMED = re.compile(r"(?:λ|let|in)\s+(" + TOKEN + r")\s*[:=.]")
BOUND = re.compile(r"[({]((?:" + TOKEN + r"\s+)*" + TOKEN + r")\s*:\s")
ALIAS = re.compile(r"\bas\s+(" + TOKEN + r")")
IMPORT = re.compile(r"^\s*(?:pub\s+)?use\s+(\S+?)(?:\.\{(.*)\})?(?:\s+as\s+.*)?;?\s*$")
# Names that Rattle makes and that a proof cites; a repository's own name of the same spelling keeps its dash in such files.
MADE = re.compile(r"^(Need|After|At|In|Then|Else|Named|calls|loop|invariant|decreases|returns|overflow|enum|struct|array|shared|branch)\d*-|-(requires|ensures|init|preserved|smaller|test|lts|kinds|claims)\d*(-\d+)?$")


def read(p):
    with open(p, encoding="utf-8", newline="") as f:
        return f.read()


def own(crates, path):
    return re.match(r"Rattle\.(\w+)", path) and re.match(r"Rattle\.(\w+)", path).group(1) in crates


def main():
    crates = sorted(os.path.basename(p) for p in glob.glob("crates/*") if os.path.isdir(p))
    files = sorted(glob.glob("crates/*/specs/**/*.antt", recursive=True) + glob.glob("crates/*/proofs/**/*.antt", recursive=True))
    walks = {p for p in files if re.search(r"/proofs/.*/Proof\.antt$", p)}
    declared, foreign, plain = {}, {}, set()
    for p in files:
        text = re.sub(r"--.*", "", read(p))
        for line in text.splitlines():
            m = IMPORT.match(line)
            if m or line.lstrip().startswith("use"):
                for n in ALIAS.findall(line):
                    n = n.rstrip(";")
                    if "-" in n:
                        declared.setdefault(n, set()).add(p)
                if m and m.group(2) and not own(crates, m.group(1)):
                    for n in re.split(r"[,\s]+", m.group(2)):
                        foreign.setdefault(n, set()).add(p)
                continue
            found = []
            m = DECLARED.match(line)
            if m:
                found.append(m.group(1))
            m = SEVERAL.match(line)
            if m:
                found += m.group(1).split()
            found += NAMED.findall(line) + ALIAS.findall(line)
            for group in BOUND.findall(line):
                found += group.split()
            for n in found:
                plain.add(n)
                if "-" in n and re.match(r"^[^\W\d_]", n) and not re.search(r"[◌<>=→×+*/≤≡]", n):
                    declared.setdefault(n, set()).add(p)
    names = {}
    for n, where in declared.items():
        if all(p in walks for p in where) and MADE.search(n):
            continue
        names[n] = n.replace("-", "_")
    taken = {}
    for n, s in names.items():
        if s in plain or s in foreign:
            taken[n] = s
    both = {n for n in names if n in foreign}
    if "--list" in sys.argv:
        for n in sorted(names):
            print(n, names[n])
        print("taken:", sorted(taken.items()), file=sys.stderr)
        print("also of a library:", sorted(both), file=sys.stderr)
        return
    token = re.compile(r"(?<![^\s(){}.;,@\"«»\[\]\\`:])" + TOKEN)

    def turn(text, stays=()):
        return token.sub(lambda m: names[m.group(0)] if m.group(0) in names and m.group(0) not in stays else m.group(0), text)

    ticks = lambda text: re.sub(r"`[^`\n]*`", lambda m: turn(m.group(0)), text)

    def code(text, mark, stays):
        out = []
        for line in text.split("\n"):
            at = line.find(mark)
            if at < 0:
                out.append(turn(line, stays))
            else:
                out.append(turn(line[:at], stays) + ticks(line[at:]))
        return "\n".join(out)

    every = files + sorted(glob.glob("crates/*/src/**/*.rt", recursive=True))
    for p in every:
        old = read(p)
        stays = {n for n in both if p in foreign[n]}
        new = code(old, "--" if p.endswith(".antt") else "//", stays)
        if new != old:
            open(p, "w", encoding="utf-8", newline="").write(new)
    for p in sorted(glob.glob("crates/*/must-fail/*.edit")):
        old = read(p)
        new = turn(old)
        if new != old:
            open(p, "w", encoding="utf-8", newline="").write(new)
    for p in ["README.md"] + sorted(glob.glob("docs/*.md")):
        old = read(p)
        new = ticks(old)
        if new != old:
            open(p, "w", encoding="utf-8", newline="").write(new)


main()
