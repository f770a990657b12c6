#!/usr/bin/env python3
"""The table of powers of 2 that `power` takes logarithms and powers from: its numbers as lists (specs/Table.antt) and as the
code's tables (src/table.rt). Every number is made of whole numbers alone, by square roots.
   tests/table.py            writes these files
   tests/table.py --check    says whether they are what it would write"""
import math, os, sys

ROOT = os.path.dirname(os.path.dirname(os.path.abspath(__file__)))
ROOM = "crates/power"
UNIT = 63  # an entry counts 2^-63
PARTS = [("coarse", 5, 32), ("middle", 10, 50), ("fine", 15, 61)]  # 2^(i / 2^k), for so many i
GUARD = 200  # bits after those of the unit, of which the roundings reach the last 20 at most


def root(k):
    """2^(1 / 2^k) rounded down and up, in units of 2^-(63 + 200)."""
    low = high = 2 << UNIT + GUARD
    for _ in range(k):
        low, high = math.isqrt(low << UNIT + GUARD), math.isqrt((high << UNIT + GUARD) - 1) + 1
    return low, high


def part(k, count):
    """2^(i / 2^k) rounded down to units of 2^-63, for i from 0."""
    step, entries = root(k), []
    low = high = 1 << UNIT + GUARD
    for _ in range(count):
        assert low >> GUARD == high >> GUARD, "more bits are wanted"
        entries.append(low >> GUARD)
        low, high = low * step[0] >> UNIT + GUARD, (high * step[1] >> UNIT + GUARD) + 1
    return entries


def lines(entries, separator, width=5):
    rows = (entries[at:at + width] for at in range(0, len(entries), width))
    return separator.join(" ∷ ".join(map(str, row)) for row in rows)


def listed(parts):
    """The three parts as lists."""
    text = """-- The table of powers of 2, as tests/table.py makes it. Assumes nothing.
use Rattle.std.specs.Prelude.{ℕ, List, [], ◌∷◌}
"""
    for name, k, entries in parts:
        text += f"""
-- 2^(i/{2 ** k}), rounded down to units of 2^-63, for i from 0.
unfoldable pub {name}s : List ℕ
{name}s =
    {lines(entries, chr(10) + "    ∷ ")} ∷ []
"""
    return text


def statics(parts):
    text = "// The table of powers of 2, as tests/table.py makes it.\n"
    for name, k, entries in parts:
        text += f"""
// 2^(i/{2 ** k}), in units of 2^-63.
pub(crate) static {name.upper()}S: [u64; {len(entries)}] = [
{"".join(f"    {entry},{chr(10)}" for entry in entries)}];
"""
    return text


def hold(room, files):
    """Writes the files of a room, or says whether they are these."""
    for name, text in files.items():
        path = os.path.join(ROOT, room, name)
        if sys.argv[1:] == ["--check"]:
            if open(path, encoding="utf-8").read() != text:
                sys.exit(f"{os.path.basename(sys.argv[0])}: {room}/{name} isn't what it writes")
        else:
            os.makedirs(os.path.dirname(path), exist_ok=True)
            open(path, "w", encoding="utf-8").write(text)


if __name__ == "__main__":
    parts = [(name, k, part(k, count)) for name, k, count in PARTS]
    hold(ROOM, {"specs/Table.antt": listed(parts), "src/table.rt": statics(parts)})
