#!/usr/bin/env python3
"""Spells this repository's own ghost names in snake case, and gives the crate `log` another name.

usage: python3 tools/snake_names.py      at the top of a checkout, once, after /opt/rattle/port/port.py

A name counts as the repository's own where one of its specs/ or proofs/ files declares or binds it; a name that an
answer declares for a goal is the check's and stays. Each `-` of an own name becomes `_`, or goes where the name is a fact's or a type's. Text in strings and comments
stays. The toolchain has a library `log`, so the crate of that name becomes `folding_log`. Nothing else is changed.
"""
import collections
import os
import re
import sys

NAME = r"[A-Za-z][\w'\-≤≡<≠∷]*"
TOKEN = re.compile(r"(?<![\w'\-≤≡<≠∷])" + NAME)
HEAD = re.compile(r"^\s*(?:(?:abbrev|unfoldable|pub|module|data|record|ruleset)\s+)*(" + NAME + r"(?:\s+" + NAME + r")*)\s*:")
BINDERS = (
    re.compile(r"[({]((?:" + NAME + r"\s+)*" + NAME + r")\s*:"),
    re.compile(r"\blet\s+(" + NAME + r")\s*[:=]"),
    re.compile(r"λ\s+((?:" + NAME + r"\s+)*" + NAME + r")\."),
    re.compile(r"\bas\s+(" + NAME + r")\s*[,}]"),
    re.compile(r"^(" + NAME + r"(?:\s+" + NAME + r")+)\s*="),
)
OLD_CRATE, NEW_CRATE = "log", "folding_log"


def spelled(name):
    """A fact or a type keeps its capitals, `Joined-at` is `JoinedAt`; another name is in snake case."""
    if name == "getD-greater":
        return "get_or_greater"
    if name[0].isupper():
        return "".join(part[0].upper() + part[1:] for part in name.split("-"))
    return name.replace("-", "_")


def files(*endings):
    for folder, dirs, names in os.walk("crates"):
        dirs[:] = sorted(d for d in dirs if d not in ("out", "target"))
        for name in sorted(names):
            if name.endswith(endings):
                yield os.path.join(folder, name)


def read(path):
    with open(path, encoding="utf-8") as f:
        return f.read()


def code_of(line, comment):
    """The line's part before a comment, and the comment."""
    quoted = False
    for i, c in enumerate(line):
        if c == '"' and (i == 0 or line[i - 1] != "\\"):
            quoted = not quoted
        if not quoted and line.startswith(comment, i) and (comment == "//" or i == 0 or line[i - 1] in " \t"):
            return line[:i], line[i:]
    return line, ""


def own_names():
    own, goals = set(), set()
    for path in files(".antt"):
        for line in read(path).split("\n"):
            code, _ = code_of(line, "--")
            goal = re.match(r"^(?:abbrev |pub )*(" + NAME + r")\s*:\s*goal\.", code)
            if goal:
                goals.add(goal.group(1))
                continue
            head = HEAD.match(code)
            found = head.group(1).split() if head else []
            for binder in BINDERS:
                for m in binder.finditer(code):
                    found += m.group(1).split()
            own.update(n for n in found if "-" in n)
    for path in files(".rt"):
        for m in re.finditer(r"\bas (" + NAME + r")\s*[,}]", read(path)):
            if "-" in m.group(1):
                own.add(m.group(1))
    return own - goals


def renamed(text, comment, new):
    out = []
    for line in text.split("\n"):
        code, rest = code_of(line, comment)
        pieces = re.split(r'("(?:[^"\\]|\\.)*")', code)
        for i in range(0, len(pieces), 2):
            pieces[i] = TOKEN.sub(lambda m: new.get(m.group(0), m.group(0)), pieces[i])
        out.append("".join(pieces) + rest)
    return "\n".join(out)


def crate_renamed(text):
    text = re.sub(r"\bRattle\." + OLD_CRATE + r"\b", "Rattle." + NEW_CRATE, text)
    return re.sub(r"\buse " + OLD_CRATE + r"::", "use " + NEW_CRATE + "::", text)


def main():
    own = own_names()
    new = {n: spelled(n) for n in own}
    groups = collections.defaultdict(set)
    for n, m in new.items():
        groups[m].add(n)
    together = {m: ns for m, ns in groups.items() if len(ns) > 1}
    if together:
        print("names that fall together:", together, file=sys.stderr)
        return 1
    for path in files(".antt", ".rt"):
        text = read(path)
        turned = crate_renamed(renamed(text, "//" if path.endswith(".rt") else "--", new))
        if turned != text:
            with open(path, "w", encoding="utf-8") as f:
                f.write(turned)
    if os.path.isdir(os.path.join("crates", OLD_CRATE)):
        os.rename(os.path.join("crates", OLD_CRATE), os.path.join("crates", NEW_CRATE))
    lines = read("crates.txt").split("\n")
    lines = [line if line.startswith("#") else re.sub(r"(?<![\w])" + OLD_CRATE + r"(?![\w])", NEW_CRATE, line) for line in lines]
    with open("crates.txt", "w", encoding="utf-8") as f:
        f.write("\n".join(lines))
    print(f"{len(own)} names respelled")
    return 0


if __name__ == "__main__":
    raise SystemExit(main())
