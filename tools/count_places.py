#!/usr/bin/env python3
"""Lists the places in src/ that docs/DESIGN-PASS.md counts, point by point: candidates, to be read one by one.

usage: tools/count_places.py [ROOT] [--lines]     counts alone, or with each place
"""

import re
import sys
from collections import defaultdict
from pathlib import Path

PATTERNS = {
    "1a own enums": r"^(pub(\(crate\))? )?enum ",
    "1b numbers of a byte, for kinds or refusals": r": u8\b|-> u8|\(u8|as u8",
    "1c answers and errors handed on by hand": r"None => (return )?None|Err\([a-z_]+\) => (Err|Ok\(Err)"
    r"|Ok\(([a-z()]+)\) => Ok\(|return None;|return Err\(ground\)",
    "3 loops that count": r"'[a-z]+: (while|loop|for [a-z_, ()]+ in .*\.\.)|enumerate\(\)|[a-z] [+-]= 1;"
    r"|saturating_add\(1\)",
    "4a comparisons and printing": r"^impl.*(PartialEq|Eq|PartialOrd|Ord|Clone|Default|Display).* for ",
    "4b conversions by functions": r"fn (settled|nothing_got|answer_of|gained|refused|of_[a-z]+|word|rank|order|mark|stamp_of)\(",
    "4c conversions by `as`": r" as (u8|u32|u64|usize|char)\b",
    "5a facts that a caller has to show": r"requires ",
    "5b parameters that travel together": r"stamp, home, in_hand|\bstamp: Stamp,$|rt: &HostRuntime",
    "6 lengths beside buffers, and arrays": r"used: usize|count: usize|held: usize|: \[[A-Za-z0-9]+; [0-9]+\]",
    "7 switches on a step, pointers, dyn": r"match (form|letter|request|call|sweep\.numbers\(\)|letter\.tag|tag|asked)\b"
    r"|fn\(|dyn ",
}


def sources(root):
    return sorted(root.glob("crates/*/src/**/*.rt"))


def shape(line):
    """The line with its names, texts and numbers taken out."""
    line = re.sub(r'b?"[^"]*"', "T", line.split("//")[0].strip())
    line = re.sub(r"\b[a-z_][a-z0-9_]*\b", "n", line)
    return re.sub(r"\b\d[\d_]*\b", "0", line)


def twins(files, root, run=6):
    """Pairs of files with runs of so many lines of one shape; lines that say little do not count."""
    at = defaultdict(list)
    for file in files:
        lines = [(i, shape(text)) for i, text in enumerate(file.read_text().splitlines(), 1)]
        lines = [(i, s) for i, s in lines if len(s) > 3 and not s.startswith("n n::") and "ghost" not in s]
        for k in range(len(lines) - run + 1):
            window = tuple(s for _, s in lines[k : k + run])
            if len(set(window)) >= 4:
                at[window].append((file.relative_to(root), lines[k][0]))
    pairs = defaultdict(int)
    for places in at.values():
        for i, (a, x) in enumerate(places):
            for b, y in places[i + 1 :]:
                if a != b or abs(x - y) >= run:
                    pairs[(str(a), str(b))] += 1
    return pairs


def main():
    arguments = [a for a in sys.argv[1:] if not a.startswith("--")]
    root = Path(arguments[0] if arguments else ".").resolve()
    show = "--lines" in sys.argv
    files = sources(root)
    for name, pattern in PATTERNS.items():
        found = [
            f"{file.relative_to(root)}:{i}: {text.strip()}"
            for file in files
            for i, text in enumerate(file.read_text().splitlines(), 1)
            if re.search(pattern, text) and not text.strip().startswith(("//", "ghost use"))
        ]
        print(f"{len(found):4}  {name}")
        if show:
            print("\n".join("        " + place for place in found))
    pairs = twins(files, root)
    print(f"{len(pairs):4}  2 pairs of files that share runs of six lines of one shape")
    if show:
        for (a, b), n in sorted(pairs.items(), key=lambda p: -p[1]):
            print(f"        {n:3} {a} {b}")
    proofs = [p for p in root.glob("crates/*/proofs/**/*.antt")]
    lines = sum(len(p.read_text().splitlines()) for p in proofs)
    answers = sum(len(re.findall(r"(?m)^pub \S+ : goal\.", p.read_text())) for p in proofs)
    print(f"{lines:4}  8 lines of proofs/, in {len(proofs)} files, with {answers} answers and invariants")


main()
