#!/usr/bin/env python3
"""Counts the places of docs/DESIGN-PASS.md a second way: by the shape of what the functions of src/ are built of, not by lines.

    tools/shapes.py [COMMIT] [--list]

Point 1: structs that hold a value beside a number or flag that tells whether it holds, and matches over numbers. Point 2: functions whose
bodies are the same but for names and numbers. Point 3: loops other than for over a slice or iterator, by whether their variable is an
index. Point 4: bodies that are a match over all values to give another, and arrays of elements taken by hand. Point 5: parameters that
stand together in three signatures or more, and conditions that three contracts ask. Point 6: parameters that are a buffer and a number.
Point 7: matches over letters. With --list each place is printed."""
import re
import sys
from collections import defaultdict

from places import files

TOKEN = re.compile(r"b?'(?:\\.|[^'])'|b?\"(?:\\.|[^\"])*\"|\w+|[^\w\s]")
KEPT = set("fn let mut if else match for in while loop return self Self Some None Ok Err true false as impl struct is_ok is_err".split())


def bare(text):
    """The text without comments and contracts."""
    text = re.sub(r"//[^\n]*", "", text)
    return re.sub(r"^\s*(?:requires|ensures)\b.*(?:\n\s*×.*)*", "", text, flags=re.M)


def functions(text):
    """Each function: its name, parameters and body."""
    for start in re.finditer(r"\bfn (\w+)(?:<[^>(]*>)?\(", text):
        at, depth = start.end(), 1
        while depth:
            depth += {"(": 1, ")": -1}.get(text[at], 0)
            at += 1
        params = text[start.end() : at - 1]
        open_, semi = text.find("{", at), text.find(";", at)
        if open_ < 0 or 0 <= semi < open_ and "[" not in text[at:semi]:
            continue
        end, depth = open_ + 1, 1
        while depth:
            depth += {"{": 1, "}": -1}.get(text[end], 0)
            end += 1
        yield start[1], params, text[open_:end]


def shape(body):
    """The body's tokens, with one word for every name and one for every number."""
    out = []
    for token in TOKEN.findall(body):
        if token in KEPT or not re.match(r"\w", token):
            out.append(token)
        else:
            out.append("0" if token[0].isdigit() or token[0] in "'\"" or token[:2] in ("b'", 'b"') else "x")
    return " ".join(out)


def parts(params):
    """The parameters of a signature, without what they are lent by."""
    depth, part = 0, ""
    for c in params + ",":
        depth += {"(": 1, "[": 1, "<": 1, ")": -1, "]": -1, ">": -1}.get(c, 0)
        if c == "," and depth == 0:
            if part.strip():
                yield " ".join(part.split())
            part = ""
        else:
            part += c


def count(source):
    found = defaultdict(list)
    same, together, asked = defaultdict(list), defaultdict(list), defaultdict(list)
    for file, text in sorted(source.items()):
        crate = file.split("/")[1]
        for name, fields in re.findall(r"\bstruct (\w+)[^{;]*\{([^}]*)\}", bare(text)):
            kinds = re.findall(r"(\w+): ([^,\n]+)", fields)
            tells = [n for n, k in kinds if re.fullmatch(r"answer|number|found|line|value|seeded|reseeded|on", n) and k in ("u32", "bool", "u64", "usize")]
            if tells and len(kinds) > 1:
                found["1 structs with a number or flag that may tell of what stands beside it"].append(f"{file} {name}: {', '.join(tells)}")
        for clause in re.findall(r"^\s*requires \{(.*)\}", text, re.M):
            for condition in clause.split(" × "):
                condition = re.sub(r"[«»()]|\.(?:now|old)\b|\bself\.", "", condition).strip()
                if re.search(r"[≡≤<]|[A-Z]", condition):
                    asked[re.sub(r"\b[a-z]\w*\b(?! \w)", "x", condition) if "≡" not in condition else condition].append(f"{file} {condition}")
        plain = bare(text)
        for name, params, body in functions(plain):
            where = f"{file} {name}"
            if len(TOKEN.findall(body)) >= 25:
                same[shape(body)].append(where)
            listed = [p for p in parts(params) if ":" in p]
            for i, one in enumerate(listed):
                for other in listed[i + 1 :]:
                    together[tuple(sorted((one, other)))].append(where)
            if any(re.search(r": &(mut )?\[|: &str", p) for p in listed):
                for p in listed:
                    if re.fullmatch(r"\w+: usize", p):
                        found["6 a number of bytes or a place beside a lent buffer"].append(f"{where}: {p}")
            for variable, over in re.findall(r"\bfor (\w+) in ([^{]*?\.\.[^{]*?) \{", body):
                index = re.search(rf"\[[^\]]*\b{variable}\b[^\]]*\]", body)
                found["3 for over numbers that index" if index else "3 for over numbers that do not index"].append(f"{where}: {over}")
            for word in re.findall(r"\b(while|loop)\b", body):
                found["3 while and loop"].append(f"{where}: {word}")
            for match in re.findall(r"match [^{]* \{(.*?)\n {4,8}\}", body, re.S):
                arms = re.findall(r"^\s*([^\n=]*?) =>", match, re.M)
                if arms and all(re.fullmatch(r"[\d| ]+|_|[A-Z_]{3,}", a) for a in arms):
                    found["1 and 7 matches over numbers"].append(where)
                if sum(a.startswith("b'") for a in arms) > 1:
                    found["7 matches over letters"].append(where)
            for line in re.findall(r"\[([^\[\]\n;]*\[[^\n]*)\]", body):
                taken = re.findall(r"(\w+)\[[^\]]*\]", line)
                if len(taken) > 3 and len(set(taken)) == 1:
                    found["4 four elements or more taken one by one"].append(where)
            for cast in re.findall(r"\bas (usize|u64|u32|u8)\b", body):
                found["4 conversions by as"].append(f"{where}: {cast}")
    twins = {k: v for k, v in same.items() if len(v) > 1}
    found["2 functions of one shape, 25 words or more"] = [f"{' ~ '.join(v)}" for v in twins.values()]
    groups = {k: v for k, v in together.items() if len(v) > 2}
    found["5 two parameters together, three times or more"] = [f"{' & '.join(k)}: {len(v)}" for k, v in groups.items()]
    found["5 conditions that three contracts or more ask"] = [f"{k}: {len(v)}" for k, v in asked.items() if len(v) > 2]
    return found


def main():
    args = [a for a in sys.argv[1:] if not a.startswith("-")]
    text = files(args[0] if args else None)
    source = {n: t for n, t in text.items() if re.fullmatch(r"crates/\w+/src/.*\.rt", n) and not n.endswith("word_cipher/src/table.rt")}
    for what, places in sorted(count(source).items()):
        print(f"{what}: {len(places)}")
        if "--list" in sys.argv:
            print("\n".join(f"    {place}" for place in places))


main()
