#!/usr/bin/env python3
"""Every name that the rules, the promises and the last digits in docs/ cite is declared in crates/, and every file and must-fail edit that they cite is there.
   tests/promises.py --check"""
import glob, os, re, sys

ROOT = os.path.dirname(os.path.dirname(os.path.abspath(__file__)))
DECLARED = re.compile(r"\b(?:fn|struct|enum|trait|type|static|mod|record|data) ([^\s:(){}<;]+)|^ *(?:(?:abbrev|unfoldable|pub) )*([^\s:(){}]+(?: [^\s:(){}]+)*) : ")
NAME = re.compile(r"[A-Za-z][\w'?-]*$")
PLACE = re.compile(r"\b([a-z_]+)/([A-Za-z_0-9]+)\b")


def declared():
    names = set()
    for path in glob.glob(f"{ROOT}/crates/**/*", recursive=True):
        if path.endswith((".rt", ".antt")):
            names.add(os.path.basename(path).rsplit(".", 1)[0])
            for line in open(path, encoding="utf-8"):
                for found in DECLARED.finditer(line):
                    names.update((found.group(1) or found.group(2)).split())
    return names | set(os.listdir(f"{ROOT}/crates"))


def is_there(crate, name):
    places = (f"must-fail/{name}.edit", f"specs/{name}.antt", f"proofs/{name}.antt", f"{name}.antt", name)
    return any(os.path.exists(f"{ROOT}/crates/{crate}/{place}") for place in places)


def missing(text, names):
    gone = []
    for row in text.split("\n"):
        for cited in re.findall(r"`([^`]+)`", row):
            for name in (part for part in re.split(r"::|\.", cited) if NAME.match(part)):
                if name not in names:
                    gone.append(name)
        for crate, name in PLACE.findall(re.sub(r"`[^`]*`", "", row)):
            if os.path.isdir(f"{ROOT}/crates/{crate}") and not is_there(crate, name):
                gone.append(f"{crate}/{name}")
    return gone


def main():
    names = declared()
    if missing("| x | `no-such-law`, exact/Rules `P_ME_limited`, exact/no_such_edit |", names) != ["no-such-law", "exact/no_such_edit"]:
        sys.exit("promises: a name that isn't there went unseen")
    for document in ("RULES", "PROMISES", "LAST-DIGITS"):
        gone = missing(open(f"{ROOT}/docs/{document}.md", encoding="utf-8").read(), names)
        if gone:
            sys.exit(f"promises: docs/{document}.md cites what isn't there: {', '.join(gone)}")


main()
