#!/usr/bin/env python3
"""The refusals of c/yagmurzol.h and bin/desk.py are those of the rules: every number has its name in the header, and the words of both are
those of README's table, with its fields in bin/desk.py.
   tests/header.py --check"""
import ast, os, re, sys

ROOT = os.path.dirname(os.path.dirname(os.path.abspath(__file__)))
CONSTANT = re.compile(r"YAGMURZOL_([A-Z_]+) = (\d+),?\s*/\*(.*?)\*/", re.S)
NUMBER = re.compile(r"^number_of (\w+) = (\d+)$", re.M)
ROW = re.compile(r"^\| (\d+) \| ([^|]*) \| (.*) \|$", re.M)
TABLE = re.compile(r"^REFUSALS = (\{.*?^\})$", re.M | re.S)


def read(path):
    return open(os.path.join(ROOT, path), encoding="utf-8").read()


def plain(words):
    """Words as a header has them: one space between two, and no letter beyond ASCII."""
    return " ".join(words.split()).replace("³", "3").replace("×", "x")


def differences(header, rules, readme, command):
    """What the refusals of the header, the rules, README's table and the command don't share."""
    constants = {int(number): (name, plain(words)) for name, number, words in CONSTANT.findall(header)}
    # The header alone has a name for 0, which is no refusal.
    names = {0: "NONE"} | {int(number): re.sub(r"(?<=[a-z])(?=[A-Z])", "_", name).upper() for name, number in NUMBER.findall(rules)}
    table = readme[readme.index("| refused | field | what is wrong |"):]
    rows = {int(number): (field, text) for number, field, text in ROW.findall(table[:table.index("\n\n")])}
    said = ast.literal_eval(TABLE.search(command).group(1))
    wrong = [f"the name of {number}" for number in names.keys() | constants.keys() if constants.get(number, ("",))[0] != names.get(number)]
    wrong += [f"the words of {number}" for number in rows.keys() | constants.keys() - {0}
              if constants.get(number, ("", ""))[1] != plain(rows.get(number, ("", "?"))[1])]
    wrong += [f"the command's words of {number}" for number in rows.keys() | said.keys() if said.get(number) != rows.get(number)]
    return sorted(wrong)


def main():
    texts = [read("c/yagmurzol.h"), read("crates/ship/specs/Refusals.antt"), read("README.md"), read("bin/desk.py")]
    falsified = [
        (0, "YAGMURZOL_TRIAL = 15", "YAGMURZOL_SPEED = 15", ["the name of 15"]),
        (0, "deadweight not 100 to", "deadweight not 10 to", ["the words of 6"]),
        (1, "number_of Edition = 19", "number_of Edition = 19\nnumber_of Manoeuvre = 20", ["the name of 20"]),
        (2, "| 2 | check sums | the check sums", "| 2 | check sums | the sums", ["the command's words of 2", "the words of 2"]),
        (3, '"fuel consumption"', '"consumption"', ["the command's words of 10"]),
        (3, "m³", "m3", ["the command's words of 8"]),
    ]
    for which, old, new, expected in falsified:
        changed = [text.replace(old, new) if place == which else text for place, text in enumerate(texts)]
        if differences(*changed) != expected:
            sys.exit(f"header: '{new}' for '{old}' went unseen")
    wrong = differences(*texts)
    if wrong:
        sys.exit(f"header: the rules, README's table, c/yagmurzol.h and bin/desk.py differ in {', '.join(wrong)}")


main()
