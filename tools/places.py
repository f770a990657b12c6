#!/usr/bin/env python3
"""Lists the places of docs/DESIGN-PASS.md: old forms in src/ for which today's Rattle has another.

usage: python3 tools/places.py [--list] [POINT..]      at the top; POINT is 1 to 8, all without one

It goes by text: what it lists is a place to read, and what it can't see (a twin that is written differently, say) the page names by hand.
"""

import os
import re
import sys
from collections import Counter, defaultdict
from difflib import SequenceMatcher

CODES = r"kind|method|fuel|source|edition|ice|supply|asked|layout"
WORDS = {"if", "else", "let", "mut", "while", "for", "in", "return", "fn", "pub", "match", "as", "true", "false", "requires", "ensures", "result"}


def sources():
    for folder, dirs, names in os.walk("crates"):
        dirs[:] = sorted(d for d in dirs if d != "out")
        if os.path.basename(folder) == "src":
            for name in sorted(names):
                yield os.path.join(folder, name)


def uncommented(text):
    return re.sub(r"^[ ]*//.*$", "", text, flags=re.M)


def items(text, word):
    """The items that begin with a word, up to the brace that closes them: (line, text)."""
    for m in re.finditer(rf"^[ ]*(?:pub(?:\(crate\))? )?(?:extern \"C\" )?{word} ", text, re.M):
        end = text.find(f"\n{re.match(r' *', m.group()).group()}}}", m.start())
        yield text.count("\n", 0, m.start()) + 1, text[m.start():end + 2 if end > 0 else len(text)].strip()


ALL = {path: uncommented(open(path, encoding="utf-8").read()) for path in sources()}
FUNCTIONS = [(path, line, f) for path, text in ALL.items() for line, f in items(text, "fn") if not path.endswith("table.rt")]
STRUCTS = [(path, line, s) for path, text in ALL.items() for line, s in items(text, "struct") if "{" in s.split("\n")[0]]
ENUMS = [(path, line, e) for path, text in ALL.items() for line, e in items(text, "enum")]


def name(item):
    return re.search(r"(?:fn|struct|enum) (\w+)", item).group(1)


def body(f):
    at = re.search(r"^[ ]*\{$|\{$", f, re.M)
    return f[at.start():] if at else ""


def shape(text):
    text = re.sub(r"\d\w*", "N", text)
    return " ".join(re.sub(r"[A-Za-z_]\w*", lambda m: m.group() if m.group() in WORDS else "x", text).split())


def point_1():
    for path, line, e in ENUMS:
        if re.search(r"\bNone,|\bRefused\(", e):
            yield path, line, f"enum {name(e)}: an Option or a Result by another name"
    for path, line, s in STRUCTS:
        for field in re.findall(r"(\w+): (?:bool|Refusal|u8),", s):
            yield path, line, f"struct {name(s)}: {field} says what of the rest holds"
        for field in re.findall(rf"\b({CODES}): u64,", s):
            yield path, line, f"struct {name(s)}: {field} is a number for a kind"
    for path, line, f in FUNCTIONS:
        if re.search(r"-> Refusal\b", f):
            yield path, line, f"fn {name(f)}: answers a refusal that may be none"
        if re.search(rf"\b({CODES})\)? [=!<]=? \d|\d <=? [\w.]*({CODES})\b|match ({CODES}) \{{\s*\d", body(f)):
            yield path, line, f"fn {name(f)}: compares a number for a kind"


def point_2():
    """Functions of at least 30 words that agree in nine of ten but for names and numbers, and structs with fields of the same names."""
    shapes = [(path, line, name(f), shape(body(f)).split()) for path, line, f in FUNCTIONS if len(shape(body(f)).split()) >= 30]
    for path, line, f, own in shapes:
        for other, _, g, theirs in shapes:
            if (path, f) != (other, g) and SequenceMatcher(None, own, theirs, autojunk=False).ratio() >= 0.9:
                yield path, line, f"fn {f}: like {g} in {other}"
                break
    groups = defaultdict(list)
    for path, line, s in STRUCTS:
        fields = re.findall(r"(\w+): [^,]+,", s)
        if len(fields) > 1:
            groups[tuple(fields)].append((path, line, name(s)))
    for fields, twins in groups.items():
        for path, line, s in twins if len(twins) > 1 else []:
            yield path, line, f"struct {s}: has {' and '.join(fields)}, as {len(twins)} have"


def point_3():
    for path, text in ALL.items():
        for m in re.finditer(r"^([ ]*)while ([^\n]*) \{\n(.*?)^\1\}", text, re.M | re.S):
            steps = re.findall(r"\b(\w+) (?:[+-]= 1;|= \w+ [+-] 1;)", m.group(3))
            counted = any(re.search(rf"\b{s}\b", m.group(2) + m.group(3)) for s in steps)
            if counted:
                yield path, text.count("\n", 0, m.start()) + 1, f"while {m.group(2)}: counts by hand"


def point_4():
    for path, line, f in FUNCTIONS:
        inside = body(f)
        if len(re.findall(r"(\w+)((?:\.\w+)+) == (?!\1)\w+\2", inside)) > 1:
            yield path, line, f"fn {name(f)}: equality by hand"
        if re.search(r"(\w+)\[(\w+)\] = (\w+)\[\2\];", inside):
            yield path, line, f"fn {name(f)}: copying by hand"
        if len(re.findall(r"\w+::\w+ => \d+,", inside)) > 1:
            yield path, line, f"fn {name(f)}: conversion by hand"
        if re.fullmatch(r"\{\s*\w+ \{\s*(\w+: \w+(\.\w+)?,?\s*)+\}\s*\}", inside) and re.search(r"fn \w+\(\w+: \w+\)", f):
            yield path, line, f"fn {name(f)}: conversion by hand"


def point_5():
    places = defaultdict(dict)
    for path, line, f in FUNCTIONS:
        for clause in re.findall(r"requires(?: \w+)? \{ (.*) \}", f):
            for fact in re.split(r" × ", clause):
                fact = fact.strip(" ")
                fact = fact[1:-1] if fact.startswith("(") and fact.endswith(")") else fact
                places[re.sub(r"\b[a-z_]+\.(now|old)", r"it.\1", fact)][path, line] = name(f)
    for fact, where in places.items():
        if len(where) > 2:
            for (path, line), f in where.items():
                yield path, line, f"fn {f}: requires {fact}, as {len(where)} do"
    pairs = Counter()
    for path, line, f in FUNCTIONS:
        head = f.split("ensures")[0].split("requires")[0]
        params = re.findall(r"(\w+): ([^,()]+?)(?=[,)])", head)
        for i, a in enumerate(params):
            for b in params[i + 1:]:
                pairs[a, b] += 1
    for ((a, _), (b, _)), count in pairs.items():
        if count > 4:
            yield "crates", 0, f"{a} and {b} travel together through {count} functions"


def point_6():
    for path, line, f in FUNCTIONS:
        head = f.split("ensures")[0].split("requires")[0]
        if re.search(r"&mut \[u8\],\s+at: usize", head):
            yield path, line, f"fn {name(f)}: a buffer with a place beside it"
        if re.search(r"\w+: &\[\w+\],\s+\w+: &\[\w+\]", head):
            yield path, line, f"fn {name(f)}: parallel arrays"
        if re.search(r"used: u64,\s+\w+: \[\w+; \d\]|\w+: \[\w+; \d\],\s+used: u64", head):
            yield path, line, f"fn {name(f)}: entries with their number beside them"
    for path, line, s in STRUCTS:
        if re.search(r"\w+: u64,\s+(pub )?\w+: \[\w+; \d\]", s) or re.search(r"count: usize", s):
            yield path, line, f"struct {name(s)}: a count beside what is counted"


def point_7():
    for path, line, f in FUNCTIONS:
        head = f.split("ensures")[0].split("requires")[0]
        for param, kind in re.findall(r"(\w+): (bool|Step|Asked)\b", head):
            yield path, line, f"fn {name(f)}: {param}: {kind} says which way to go"


def point_8():
    for crate in sorted(os.listdir("crates")):
        answers = lemmas = 0
        for folder, _, names in os.walk(os.path.join("crates", crate, "proofs")):
            for n in names:
                text = open(os.path.join(folder, n), encoding="utf-8").read()
                if n == "Answers.antt":
                    answers += len(re.findall(r"^[^\s\-(){}][^=\n]* =", text, re.M))
                elif n.endswith(".antt"):
                    lemmas += len(re.findall(r"^(?:unfoldable |abbrev )?pub [^:\n]+ :", text, re.M))
        if answers or lemmas:
            yield f"crates/{crate}/proofs", 0, f"{answers} answers, {lemmas} lemmas"


def main():
    listed = "--list" in sys.argv
    wanted = [a for a in sys.argv[1:] if a != "--list"] or list("12345678")
    for number in wanted:
        found = list(globals()[f"point_{number}"]())
        print(f"point {number}: {len(found)}")
        for path, line, what in found if listed else []:
            print(f"    {path}{':' + str(line) if line else ''}: {what}")


main()
