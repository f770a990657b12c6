#!/usr/bin/env python3
"""Makes sample/fleet.blocks, the file that the desk reads, from the table sample/ships.txt.

    python3 sample/fleet.py           writes the file
    python3 sample/fleet.py --check   fails unless the stored file is the one that the table makes
"""
import pathlib
import re
import struct
import sys

HERE = pathlib.Path(__file__).resolve().parent
TYPES = ["bulk", "gas", "tanker", "container", "reefer", "combination", "vehicle", "general"]
FUELS = ["diesel", "light", "heavy", "propane", "butane", "lng", "methanol", "ethanol"]
SOURCES = ["test", "maker"]
ICE_CLASSES = {"-": 0, "IA Super": 1, "IA": 1, "IB": 2, "IC": 2}
EDITIONS = {"EEXI": 0, "EEDI 308": 1, "EEDI 322": 2}
CUT = 200


def number(cell):
    """A whole figure; an empty cell is 0, and so the desk sees that it is empty."""
    return 0 if cell == "-" else int(cell)


def ends(cell, unit):
    """Low and high of a range in so many parts of one, or the same figure twice."""
    if cell == "-":
        return 0, 0
    figures = [round(float(part) * unit) for part in cell.split("-")]
    return figures[0], figures[-1]


def consumption(cell):
    """'180.0 heavy test' as SFC low, SFC high, fuel number, source number."""
    if cell == "none":
        return 0, 0, 0, 3
    sfc, fuel, source = cell.split()
    return (*ends(sfc, 10), FUELS.index(fuel) + 1, SOURCES.index(source) + 1)


def engine(cell):
    """'8000 kW limit 7000 180.0 heavy test' as the 20 bytes of an engine entry."""
    power, limit, rest = re.fullmatch(r"(\S+) kW(?: limit (\d+))? (.+)", cell).groups()
    return struct.pack("<IIIHHBBH", *ends(power, 1), int(limit or 0), *consumption(rest), 0)


def speed(cell):
    """Method, speed low, speed high, trial power, trial deadweight."""
    method, *words = cell.split()
    if method == "statistical":
        return 4, 0, 0, 0, 0
    low, high = ends(words[0], 100)
    if method == "declared":
        return 1, low, high, 0, 0
    if method == "trial":
        return 2, low, high, int(words[2]), 0
    assert method == "design", cell
    return 3, low, high, int(words[2]), int(words[4])


def hull(cell):
    """'110.00 x 18.20 x 7.05 m 10900 m3' or 'lightweight 13900 t' as lightweight and volume, and length, breadth and draught."""
    if cell.startswith("lightweight"):
        return (int(cell.split()[1]), 0), (0, 0, 0)
    if cell == "-":
        return (0, 0), (0, 0, 0)
    *sizes, volume = re.fullmatch(r"(\S+) x (\S+) x (\S+) m (\d+) m3", cell).groups()
    return (0, int(volume)), tuple(ends(size, 100)[0] for size in sizes)


def cranes(cell):
    """'2x 40.0 t 28.0 m ; 1x 60.0 t 20.0 m' as the load and reach of each crane."""
    figures = []
    for kind in cell.split(";") if cell != "-" else []:
        count, load, reach = re.fullmatch(r"(\d+)x (\S+) t (\S+) m", kind.strip()).groups()
        figures += int(count) * [(ends(load, 10)[0], ends(reach, 10)[0])]
    return figures


def newer(hull_cell, crane_cell, edition="EEXI"):
    """Bytes 132 to 187, which only layout 2 has."""
    weight_and_volume, sizes = hull(hull_cell)
    entries = cranes(crane_cell)
    loads = b"".join(struct.pack("<HH", *entry) for entry in entries).ljust(32, b"\0")
    return struct.pack("<IIBB2x", *weight_and_volume, len(entries), EDITIONS[edition]) + loads + struct.pack("<III", *sizes)


def check(data):
    a, b = 1, 0
    for byte in data:
        a = (a + byte) % 65536
        b = (b + a) % 65536
    return struct.pack("<HH", a, b)


def block(row):
    """A row with hull and cranes is a block of layout 2, of a new ship if it has an edition too; one without them is of layout 1."""
    _, kind, imo, deadweight, gross_tonnage, volume, speed_cell, aux, ice, sent, *newer_cells, aux_consumption, engine_cells = row
    method, low, high, trial_power, trial_deadweight = speed(speed_cell)
    engines = [engine(cell.strip()) for cell in engine_cells.split(";")]
    sfc_low, sfc_high, fuel, source = consumption(aux_consumption)
    aux_method, table_power = (1, 0) if aux == "rule" else (2, int(aux.split()[1]))
    layout = 2 if newer_cells else 1
    data = struct.pack("<HBBIIIIIIII", layout, TYPES.index(kind) + 1, method, int(imo), int(deadweight), number(gross_tonnage),
                       number(volume), low, high, trial_power, trial_deadweight)
    data += struct.pack("<BBBBIHHB3x", aux_method, ICE_CLASSES[ice], len(engines), source, table_power, sfc_low, sfc_high, fuel)
    data = (data + b"".join(engines)).ljust(132, b"\0")
    data = (data + (newer(*newer_cells) if newer_cells else b"")).ljust(508, b"\0")
    data += check(data)
    if sent == "damaged":
        data = data[:12] + bytes([data[12] ^ 1]) + data[13:]
    return data[:CUT] if sent == "cut" else data


def rows():
    for line in (HERE / "ships.txt").read_text().splitlines():
        if line.strip() and not line.startswith("#"):
            yield [cell.strip() for cell in line.split("|")]


def main():
    data = b"".join(block(row) for row in rows())
    stored = HERE / "fleet.blocks"
    if sys.argv[1:] == ["--check"]:
        if not stored.exists() or stored.read_bytes() != data:
            sys.exit("sample: fleet.blocks is not what ships.txt makes; python3 sample/fleet.py writes it")
    else:
        stored.write_bytes(data)


main()
