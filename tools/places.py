#!/usr/bin/env python3
"""Counts the places of docs/DESIGN-PASS.md in src/, as they stand at a commit or in the working tree.

    tools/places.py [COMMIT] [--list]
    tools/places.py --kept

Each point has patterns over the lines of crates/*/src/*.rt; what a pattern finds is a place to look at, not always one to change. With
--list each place is printed. Point 2 also lists names of functions and public structs that stand in more than one crate, point 5 facts
and parameters that stand in three contracts or more, point 8 counts proof files. --kept prints the lines 'Kept:' as the page's table."""
import re
import subprocess
import sys
from collections import Counter, defaultdict

PATTERNS = {
    "1 enums of our own": r"^(pub |pub\(crate\) )?enum ",
    "1 fields that hold an answer or its number": r"^    (pub )?(answer|number): ",
    "1 flags and values beside an answer": r"^    (pub )?(on|found|line|value): ",
    "1 answers read by number or flag": r"\.(is_done|is_converted|number)\(\)|number (==|!=) |fault (==|!=) |own (==|<) ",
    "1 numbers of refusals in code": r"(return |number: |\{ |else \{ )(3[1-9]|4[0-9])\b",
    "3 while loops": r"^ *while ",
    "3 for loops over an index": r"^ *for [a-z]\w* in [^.]*\.\.",
    "4 conversions by hand": r"fn (wide\d*|word_of|byte_of|big_endian\d+|length_bytes?|digest_bytes?|step_block|word_bytes|exchange|least|differences|power)\b",
    "4 copies of a field before its use": r"^ *let \w+ = \w+\.\w+;$",
    "4 fields named twice": r"^ +(\w+): \1,$",
    "6 lengths and places beside a buffer": r"^ *(pub(\(crate\))? |let mut )?(held|count|at|written|used|stored)(: usize| = 0;)",
    "7 switches on a letter or a fault": r"match (letter|call)|if (call|letter) ==|fn gated_|let o = gated|if fault != 0",
}
FACT = re.compile(r"«?\w+»?(?:\.\w+)* ≡ (?:s_box|tables|K|mask_bytes)\b|length «?\w+»?\.(?:now|old) ≡ \d+")
TRAVEL = [r"malformed: bool,\s*generator: Generator,\s*due: bool", r"key: \[u8; 32\],\s*(?:v|counter): \[u8; 16\]",
          r"repetition: u32,\s*proportion: u32", r"&\[u32; 1024\],\s*\w+: &\[u32; 60\]", r"generator: Generator,\s*reseeded: bool",
          r"text: &[^,]*,\s*held: usize"]


def files(commit):
    if not commit:
        names = subprocess.run(["git", "ls-files", "crates"], capture_output=True, text=True, check=True).stdout.split()
        return {n: open(n).read() for n in names if n.endswith((".rt", ".antt"))}
    names = subprocess.run(["git", "ls-tree", "-r", "--name-only", commit, "crates"], capture_output=True, text=True, check=True)
    wanted = [n for n in names.stdout.split() if n.endswith(".rt") or n.endswith(".antt")]
    text = {}
    for n in wanted:
        if n.endswith(".rt"):
            text[n] = subprocess.run(["git", "show", f"{commit}:{n}"], capture_output=True, text=True, check=True).stdout
        else:
            text[n] = ""
    return text


def kept(text):
    """The rows of what stays as it is, by the lines beside it."""
    for name, lines in sorted(text.items()):
        for reason in re.findall(r"(?://|--) Kept: (.*)", lines):
            print(f"| `{name.removeprefix('crates/').removesuffix('.rt').replace('/src/', '/')}` | {reason.rstrip('.')} |")


def main():
    if "--kept" in sys.argv:
        return kept(files(None))
    args = [a for a in sys.argv[1:] if not a.startswith("-")]
    show = "--list" in sys.argv
    text = files(args[0] if args else None)
    source = {n: t for n, t in text.items() if re.fullmatch(r"crates/\w+/src/.*\.rt", n)}
    for what, pattern in PATTERNS.items():
        found = [f"    {n}:{i}: {line.strip()}" for n, t in source.items() for i, line in enumerate(t.split("\n"), 1)
                 if re.search(pattern, line)]
        print(f"{what}: {len(found)}")
        if show:
            print("\n".join(found))
    for what, pattern in (("functions", r"^ *(?:pub |pub\(crate\) )?fn (\w+)"), ("public structs", r"^pub struct (\w+)")):
        where = defaultdict(set)
        for n, t in source.items():
            for name in re.findall(pattern, t, re.M):
                where[name].add(n.split("/")[1])
        twice = {k: v for k, v in where.items() if len(v) > 1 and k not in ("main", "new")}
        print(f"2 names of {what} in more than one crate: {len(twice)}")
        if show:
            print("\n".join(f"    {k}: {' '.join(sorted(v))}" for k, v in sorted(twice.items())))
    facts = Counter()
    for t in source.values():
        facts.update(re.sub(r".* ≡ ", "≡ ", f) for c in re.findall(r"^ *requires[^\n]*", t, re.M) for f in FACT.findall(c))
    facts = {f: k for f, k in facts.items() if k > 2}
    print(f"5 facts in three contracts or more: {len(facts)}, in {sum(facts.values())} clauses: {facts}")
    for pattern in TRAVEL:
        k = sum(len(re.findall(pattern, t)) for t in source.values())
        print(f"5 parameters together, {pattern}: {k}")
    proofs = [n for n in text if re.fullmatch(r"crates/\w+/proofs/.*/(Answers|Invariants)\.antt", n)]
    lemmas = [n for n in text if re.fullmatch(r"crates/\w+/proofs/\w+\.antt", n)]
    print(f"8 answer and invariant files: {len(proofs)}; lemma files: {len(lemmas)}")


if __name__ == "__main__":
    main()
