#!/usr/bin/env python3
"""Respells the repository's own definitions, lemmas and labels in snake case, once, after the port's script.

Names that begin with a capital (types and facts) stay, and so do the names of goals, which the checker makes.
Prints the names that would fall together with another of the repository's own."""
import glob
import re
import sys

WORD = r"[^\s(){}\[\],;.:=→λ∷×]+"
GOAL = re.compile(r"^(?:abbrev |unfoldable )*(?:pub )?(" + WORD + r")\s*:\s*(?:goal|need)\.")
DEFINED = re.compile(r"^(?:abbrev |unfoldable )*(?:pub )?(?:record |data )?(" + WORD + r")\s.*")
LABEL = re.compile(r"^\s+(?:pub )?(?:let )?(" + WORD + r")\s+:\s")
MANY = re.compile(r"^\s+(" + WORD + r"(?: " + WORD + r")+)\s+:\s")
ALIAS = re.compile(r" as (" + WORD + r")(?=[,}])")
LET = re.compile(r"\blet (" + WORD + r")\s+[:=]")
BOUND = re.compile(r"\((" + WORD + r"(?: " + WORD + r")*) : ")


def snake(name):
    name = re.sub(r"(?<=[a-z0-9])([A-Z])", lambda m: "_" + m.group(1).lower(), name)
    return re.sub(r"_+", "_", name.replace("-", "_").lower())


def odd(name):
    return bool(re.fullmatch(r"[a-z][A-Za-z0-9'_-]*", name)) and bool(re.search(r"[A-Z-]", name))


files = [f for pattern in ("crates/*/specs/**/*.antt", "crates/*/proofs/**/*.antt")
         for f in glob.glob(pattern, recursive=True)]
goals, own, every = set(), {}, {}
rust = glob.glob("crates/*/src/**/*.rt", recursive=True)
for path in files + rust:
    for line in open(path, encoding="utf-8"):
        if line.startswith(("use ", "ghost use ")):
            for name in ALIAS.findall(line):
                if odd(name):
                    own.setdefault(name, set()).add(path)
        if path in rust:
            continue
        if line.startswith(("use ", "--", "mod ", "pub mod", "unfolding")):
            continue
        goal = GOAL.match(line)
        if goal:
            goals.add(goal.group(1))
            continue
        found = []
        if DEFINED.match(line) and not line.startswith(" "):
            found.append(DEFINED.match(line).group(1))
        if LABEL.match(line):
            found.append(LABEL.match(line).group(1))
        if MANY.match(line):
            found += MANY.match(line).group(1).split()
        found += LET.findall(line)
        for group in BOUND.findall(line):
            found += group.split()
        for name in found:
            every.setdefault(name, set()).add(path)
            if odd(name):
                own.setdefault(name, set()).add(path)
# A lemma that would have the name of what it is about.
APART = {"at-end": "at_end_lem", "bytes-at": "bytes_at_lem", "code-at": "code_at_lem", "may-follow": "may_follow_lem",
         "one-clause": "one_clause_answers", "goes_on": "goes_on_lem"}
renamed = {name: snake(name) for name in own if name not in goals}
renamed.update(APART)
for name in sorted(set(own) & goals):
    print("a goal's name, left:", name)
back = {}
for name, new in renamed.items():
    back.setdefault(new, []).append(name)
for new, names in sorted(back.items()):
    if len(names) > 1 or new in every and new not in APART:
        print("fall together:", new, names, sorted(every.get(new, ()))[:2], [sorted(own[n])[:2] for n in names])
if "--write" not in sys.argv:
    sys.exit()
TOKEN = re.compile(r"(?<![\w'-])(" + "|".join(sorted(map(re.escape, renamed), key=len, reverse=True)) + r")(?![\w'-])")
pages = ["README.md"] + glob.glob("docs/*.md")
changed = 0
for path in files + rust + pages:
    text = open(path, encoding="utf-8").read()
    if path in files:
        new = "\n".join(
            line if line.startswith("--") or re.match(r"^(?:abbrev |unfoldable )*(?:pub )?" + WORD + r"\s*:\s*(?:goal|need)\.", line)
            else TOKEN.sub(lambda m: renamed[m.group(1)], line) for line in text.split("\n"))
    elif path in rust:
        new = "\n".join(
            TOKEN.sub(lambda m: renamed[m.group(1)], line)
            if re.match(r"\s*(ghost |pub ghost |requires|ensures)", line) else line for line in text.split("\n"))
    else:
        new = re.sub(r"`[^`\n]*`", lambda q: TOKEN.sub(lambda m: renamed[m.group(1)], q.group(0)), text)
    if new != text:
        open(path, "w", encoding="utf-8").write(new)
        changed += 1
print(len(renamed), "names,", changed, "files")
