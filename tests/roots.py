#!/usr/bin/env python3
"""The table of cube roots that `quick_root` starts from, made of whole numbers alone: entry i is the greatest whole number whose cube is at
most i times 1,073,741,824, for i from 1 to 1,024; 0 stands before them, so that an entry's number is its place.
   tests/roots.py            writes the table's files
   tests/roots.py --check    says whether they are what it would write"""
import sys, textwrap

sys.dont_write_bytecode = True  # the generators leave no file but those they write

from table import hold, lines

ENTRIES = 1024
STEP = 1073741824
ROOM = "crates/root_table"


def entries():
    """Each from the one before it, by trying the next whole numbers."""
    found, r = [], 0
    for i in range(ENTRIES + 1):
        while (r + 1) ** 3 <= i * STEP:
            r += 1
        found.append(r)
    assert r < 1 << 16
    return found


def listed(entries):
    return f"""-- The table of cube roots, as tests/roots.py makes it. Assumes nothing.
use Rattle.std.specs.Prelude.{{ℕ, List, [], ◌∷◌, get_or}}

-- The entries from 0 to 1,024.
unfoldable pub entries : List ℕ
entries =
    {lines(entries, chr(10) + "    ∷ ", 20)} ∷ []

-- The entry of that number.
unfoldable pub entry_of : ℕ → ℕ
entry_of i = get_or entries i 0
"""


def static(entries):
    rows = "\n    ".join(textwrap.wrap(" ".join(f"{entry}," for entry in entries), 95))
    return f"""// The table of cube roots, as tests/roots.py makes it.

// Entry i is the whole cube root of i times 2^30.
pub(crate) static ROOTS: [u16; {len(entries)}] = [
    {rows}
];
"""


if __name__ == "__main__":
    table = entries()
    hold(ROOM, {"specs/Table.antt": listed(table), "src/table.rt": static(table)})
