"""What the archive gives, needs and keeps, as `nm` and `readelf` tell it.

    archive.py LIBRARY

It ends with 1 if the archive gives a name that isn't one of the header's functions, needs more than the four functions by which every
C compiler moves and compares bytes, keeps anything from one call to the next, or wants a stack that can be executed."""
import re
import subprocess
import sys

OURS = {"yagmurzol_" + call for call in ("ask", "refusal", "lower", "upper", "doubles", "speeds", "index")}
EVERYWHERE = {"memcpy", "memmove", "memset", "memcmp"}


def told(tool, *options):
    return subprocess.run([tool, *options, sys.argv[1]], check=True, stdout=subprocess.PIPE, universal_newlines=True).stdout.splitlines()


# A name, its kind and, where it is given here, its place and size.
name_line = re.compile(r"(.+?) ([A-Za-z?])(?: +[0-9a-f]+)* *$")
names = [found.groups() for found in map(name_line.match, told("nm", "--format=posix")) if found]
given = {name: kind for name, kind in names if kind.isupper() and kind != "U"}
needed = {name for name, kind in names if kind in "Uwv"} - set(given)
# A section: number, name, kind, address, place, size, size of an entry, flags and three figures more.
section_line = re.compile(r" *\[ *\d+\] (.*?) +\S+ +[0-9a-f]{16} [0-9a-f]+ ([0-9a-f]+) [0-9a-f]+ +([A-Za-z]*) +\d")
table = told("readelf", "--wide", "--sections")
sections = [section_line.match(line).groups() for line in table if re.match(r" *\[ *\d+\]", line)]
# Each member says whether it wants its stack executable; one that doesn't say so does.
members = sum(1 for line in table if line.startswith("File: "))
stacks = [flags for name, size, flags in sections if name == ".note.GNU-stack" and "X" not in flags]
# What can be written and isn't empty. The linker closes .data.rel.ro before the program begins: constants that hold addresses.
kept = {name for name, size, flags in sections if "W" in flags and int(size, 16) > 0 and not name.startswith(".data.rel.ro")}

faults = {
    "gives other names too": set(given) - OURS,
    "does not give": OURS - set(given),
    "gives what is no function": {name for name, kind in names if name in given and kind not in "TU"},
    "needs more than bytes moved and compared": needed - EVERYWHERE,
    "keeps data": kept,
    "wants a stack that can be executed": set() if members == len(stacks) > 0 else {f"{members - len(stacks)} of {members}"},
}
for fault, which in faults.items():
    if which:
        print(f"hull: the archive {fault}: {' '.join(sorted(which))}", file=sys.stderr)
if any(faults.values()):
    sys.exit(1)
print(f"hull: the archive gives {len(given)} functions, keeps no data and needs {', '.join(sorted(needed)) or 'nothing'}")
