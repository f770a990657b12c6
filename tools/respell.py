#!/usr/bin/env python3
"""Brings the repository's own definitions and lemmas to today's spelling: words in snake case, types in camel case.

usage: python3 tools/respell.py      at the top, once, after the kit's port.py

A name is the repository's own where a file of specs/ or proofs/ has it and imports it from no library. Names that the kit makes (of goals,
places and invariants) stay. A symbol of the resolution keeps its capitals: P-ME becomes P_ME. Comments, README and docs/ follow inside
backticks. It prints the names that would fall together with another name of the same file, and then writes nothing.
"""

import os
import re
import sys

NAME = r"[^\W\d][\w'₀-₉]*(?:-[\w'₀-₉]+)*"
WORD = re.compile(rf"(?<![\w'₀-₉-]){NAME}")
MADE = re.compile(r"(Need|After|At|In|invariant|decreases|returns|loop)-")
USE = re.compile(r"^\s*(?:ghost )?use ([\w.'+-]+)(?:\.\{(.*?)\})?(?: as ([\w'-]+))?;?\s*$", re.M)
HEAD = re.compile(rf"^\s*(?:abbrev |unfoldable |pub |record |data )*((?:{NAME} )*{NAME})(?: *[({{][^=]*?[)}}])* : (.*)$", re.M)


def files(root):
    for folder, dirs, names in os.walk(os.path.join(root, "crates")):
        dirs[:] = sorted(d for d in dirs if d not in ("out", "must-fail"))
        for n in sorted(names):
            if n.endswith((".antt", ".rt")):
                yield os.path.join(folder, n)


def own(module):
    return module.startswith("Rattle.") and module.split(".")[1] not in ("std", "core")


def split(text, rt):
    """The text in pieces: (True, code to respell) and (False, what stays but for backticks)."""
    out = []
    if not rt:
        for line in text.splitlines(keepends=True):
            at = line.find("--")
            while at > 0 and not line[at - 1].isspace():
                at = line.find("--", at + 1)
            code = line if at < 0 else line[:at]
            out.append((True, code))
            if at >= 0:
                out.append((False, line[at:]))
        return out
    for line in text.splitlines(keepends=True):
        at = line.find("//")
        code = line if at < 0 else line[:at]
        out.append((True, code))
        if at >= 0:
            out.append((False, line[at:]))
    return out


def words(code):
    quiet = re.sub(r'"[^"]*"', lambda m: " " * len(m.group(0)), code)
    return [m.group(0) for m in WORD.finditer(quiet)]


def imported(text):
    """Names that a file takes from a library."""
    names = set()
    for module, items, _ in USE.findall(text):
        if items and not own(module):
            for it in items.split(","):
                names.add(it.strip().split(" as ")[-1])
                names.add(it.strip().split(" as ")[0])
    return names


def kinds(texts):
    """Which declared names are types."""
    types = set()
    for p, t in texts.items():
        if p.endswith(".rt"):
            continue
        for names, sig in HEAD.findall(t):
            end = sig.split(" where")[0].strip()
            if re.search(r"(^|→ )Type \d$", end):
                types.update(names.split())
        types.update(re.findall(rf"\b(?:record|data) ({NAME})", t))
    return types


def turned(name, types):
    if name in types:
        return "".join(w[:1].upper() + w[1:] for w in name.split("-"))
    return name.replace("-", "_")


def main():
    root = os.getcwd()
    texts = {p: open(p, encoding="utf-8").read() for p in files(root)}
    types = kinds(texts)
    found = {p: [w for is_code, piece in split(t, p.endswith(".rt")) if is_code for w in words(piece)] for p, t in texts.items()}
    mine = set()
    for p, ws in found.items():
        lib = imported(texts[p])
        mine.update(w for w in ws if "-" in w and w not in lib and not MADE.match(w))
    together = []
    news = {}
    for p, t in texts.items():
        lib = imported(t)
        rename = {w: turned(w, types) for w in set(found[p]) if w in mine and w not in lib}
        there = set(found[p])
        for w, n in sorted(rename.items()):
            if n in there:
                together.append(f"{os.path.relpath(p, root)}: {w} and {n}")
        by = {}
        for w, n in rename.items():
            by.setdefault(n, set()).add(w)
        together += [f"{os.path.relpath(p, root)}: {' and '.join(sorted(ws))}" for n, ws in by.items() if len(ws) > 1]
        news[p] = rename
    if together and "--anyway" not in sys.argv:
        print("\n".join(together))
        return 1
    everywhere = {w: turned(w, types) for w in mine}

    def code(piece, rename):
        return WORD.sub(lambda m: rename.get(m.group(0), m.group(0)), piece)

    def ticks(piece):
        return re.sub(r"`[^`\n]*`", lambda m: code(m.group(0), everywhere), piece)

    for p, t in texts.items():
        new = "".join(code(piece, news[p]) if is_code else ticks(piece) for is_code, piece in split(t, p.endswith(".rt")))
        if new != t:
            with open(p, "w", encoding="utf-8") as f:
                f.write(new)
    pages = [os.path.join(root, "README.md")] + [os.path.join(d, n) for d, _, ns in os.walk(os.path.join(root, "docs")) for n in sorted(ns) if n.endswith(".md")]
    for p in pages:
        t = open(p, encoding="utf-8").read()
        new = ticks(t)
        if new != t:
            with open(p, "w", encoding="utf-8") as f:
                f.write(new)
    print(f"{len(mine)} names, {len(types & mine)} of them types")
    return 0


if __name__ == "__main__":
    raise SystemExit(main())
