#!/usr/bin/env python3
"""Brings the repository's own definitions and lemmas to one spelling: words in snake case, facts in camel case.

usage: tools/respell.py          once, at the top, right after port.py

A name is declared by `name : type` in a file of specs/ or proofs/, also below `where` and in a record, or is bound by one of
the words in BOUND. Names of Rattle source, of the library, and those that Rattle makes for goals and steps stay. Names that
would fall together with one that is there already are printed, and nothing is written then, but for those in SAME: a
definition that has a function's name, in a namespace of its own.
"""
import glob
import re
import sys

# bound by let, by a pattern or by a case
BOUND = "at-word is-v items-cons items-nil made-cons made-nil many-are no-so onward-walk pairs-are records-few relaxed-walks same-hops same-tour settle-walk some-room yes-so".split()
SAME = "arc_at arc_words arcs_of arcs_words keyword_of may_end next_words number_taken without_return".split()
DECLARED = re.compile(r"^\s*(?:(?:abbrev|unfoldable|pub|data|record|mutual)\s+)*([^\s:(){}]+)\s*(?:\([^=]*\)|\{[^=]*\})?\s*:\s")
TOKEN = re.compile(r"(?<![\w'.·◌-])[A-Za-z_ℕℤ][\w']*(?:-[\w'+*≤<≡]+)*|(?<=\.)[A-Za-z_ℕℤ][\w']*(?:-[\w'+*≤<≡]+)*")
GIVEN = re.compile(r"use Rattle\.\w+\.proofs\.\S+\.(?:Goals|Given)\.\{(.*)\}")
LIBRARY = re.compile(r"use Rattle\.std\.\S+\.\{(.*)\}")


def spelled(name):
    if name[0].isupper():
        return "".join(w[0].upper() + w[1:] for w in name.split("-"))
    return name.replace("-", "_")


def answers(path):
    return path.endswith(("/Answers.antt", "/Invariants.antt"))


def listed(pattern, text):
    return {n.strip().split(" as ")[-1].strip() for m in pattern.finditer(text) for n in m.group(1).split(",")}


files = sorted(glob.glob("crates/*/specs/**/*.antt", recursive=True) + glob.glob("crates/*/proofs/**/*.antt", recursive=True) + glob.glob("crates/*/src/**/*.rt", recursive=True))
text = {f: open(f, encoding="utf-8").read() for f in files}
names = {n for n in BOUND}
for f in files:
    if f.endswith(".antt") and not answers(f):
        names |= {m.group(1) for m in map(DECLARED.match, text[f].splitlines()) if m}
turned = {n: spelled(n) for n in names if "-" in n and re.match(r"[A-Za-z]", n)}
there = {}
for f in files:
    for t in TOKEN.findall(text[f]):
        there.setdefault(t, f)
clash = [n for n in turned if turned[n] in there and turned[n] not in SAME] + [n for n in turned if sorted(turned.values()).count(turned[n]) > 1]
for n in clash:
    print(f"{n} would be {turned[n]}, which stands in {there.get(turned[n])}")
if clash:
    sys.exit(1)
count = 0
for f in files + sorted(glob.glob("crates/*/must-fail/*.edit")):
    old = text[f] if f in text else open(f, encoding="utf-8").read()
    stays = listed(LIBRARY, old) | (listed(GIVEN, old) if answers(f) else set())
    # a step or a goal that Rattle names stands behind a dot
    def turn(m):
        n = m.group(0)
        # behind a dot stands a field, or a step that Rattle names after a call: `c.arc-at`
        step = turned.get(n) in SAME and answers(f) and old[m.start() - 1] == "."
        return n if n in stays or step else turned.get(n, n)
    new = TOKEN.sub(turn, old)
    if new != old:
        open(f, "w", encoding="utf-8").write(new)
        count += 1
for f in ["README.md"] + sorted(glob.glob("docs/*.md")):
    old = open(f, encoding="utf-8").read()
    new = re.sub(r"`[^`\n]*`", lambda m: TOKEN.sub(lambda t: turned.get(t.group(0), t.group(0)), m.group(0)), old)
    if new != old:
        open(f, "w", encoding="utf-8").write(new)
        count += 1
print(f"{len(turned)} names turned, in {count} files")
