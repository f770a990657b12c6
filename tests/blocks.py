#!/usr/bin/env python3
"""Cases for the programs `files`, `fleet` and `speeds`, from the rules alone (docs/RULES.md): the tables of both layouts, the table of
refusals, the writer, what `fleet` prints for ship S in each ice class and edition, with a lightweight and on trial at rated power, and what
`speeds` prints where a recorded speed is V_ref.

    tests/blocks.py            writes stdin and stdout of the programs
    tests/blocks.py --check    says whether the stored ones are these

Each case states by hand which refusal the document gives. A second reading of the table, `refusal` below, has to agree before
anything is written. Nothing here was taken from a program's output."""
import os
import sys
from fractions import Fraction

ROOT = os.path.join(os.path.dirname(os.path.abspath(__file__)), "..", "crates")

# ── The block: bytes, field ──────────────────────────────────────────────────────────────────────

PLACES = {
    "layout": (0, 2), "type": (2, 1), "method": (3, 1), "imo": (4, 4), "deadweight": (8, 4), "gross": (12, 4),
    "volume": (16, 4), "speed_low": (20, 4), "speed_high": (24, 4), "trial_power": (28, 4), "trial_deadweight": (32, 4),
    "aux_method": (36, 1), "ice": (37, 1), "engines": (38, 1), "aux_source": (39, 1), "table_power": (40, 4),
    "aux_low": (44, 2), "aux_high": (46, 2), "aux_fuel": (48, 1),
}
ENTRY = {"mcr_low": (0, 4), "mcr_high": (4, 4), "limit": (8, 4), "sfc_low": (12, 2), "sfc_high": (14, 2), "fuel": (16, 1), "source": (17, 1)}
for k in range(4):
    for name, (at, width) in ENTRY.items():
        PLACES[f"{name}{k}"] = (52 + 20 * k + at, width)
# Layout 2's own fields; in layout 1 they are zero.
NEWER = {"lightweight": (132, 4), "displacement": (136, 4), "cranes": (140, 1), "edition": (141, 1), "length": (176, 4), "breadth": (180, 4),
         "draught": (184, 4)}
for k in range(8):
    NEWER[f"load{k}"], NEWER[f"reach{k}"] = (144 + 4 * k, 2), (146 + 4 * k, 2)
PLACES.update(NEWER)
ZERO = [49, 50, 51] + [52 + 20 * k + j for k in range(4) for j in (18, 19)] + [142, 143] + list(range(188, 508))


def sums(data):
    a, b = 1, 0
    for byte in data:
        a = (a + byte) % 65536
        b = (b + a) % 65536
    return a, b


def seal(data):
    """The 508 bytes with their checks behind them."""
    a, b = sums(data[:508])
    return bytes(data[:508]) + a.to_bytes(2, "little") + b.to_bytes(2, "little")


def block(ship, **changed):
    """The block of a ship with some fields changed; `bytes` gives single bytes besides."""
    data = bytearray(508)
    single = changed.pop("bytes", {})
    for name, number in {**ship, **changed}.items():
        at, width = PLACES[name]
        data[at:at + width] = number.to_bytes(width, "little")
    for at, byte in single.items():
        data[at] = byte
    return seal(data)


def fields(piece):
    return {name: int.from_bytes(piece[at:at + width], "little") for name, (at, width) in PLACES.items()}


def p_me(f, k, end="low"):
    """P_ME of an engine in kW, with the low end of its MCR or the high one."""
    rated, limit = Fraction(75 * f[f"mcr_{end}{k}"], 100), f[f"limit{k}"]
    return min(Fraction(83 * limit, 100), rated) if limit else rated


# ── A second reading of the table of refusals ────────────────────────────────────────────────────


def newer_are_right(f):
    """Whether layout 2's own fields are as rule 18 wants them."""
    kind, light, cranes = f["type"], f["lightweight"], f["cranes"]
    if light and not (kind in (1, 3) and 100 <= light <= 200000):
        return False
    if cranes > 8 or cranes and kind != 8:
        return False
    for k in range(8):
        for figure in (f[f"load{k}"], f[f"reach{k}"]):
            if not (1 <= figure <= 10000 if k < cranes else figure == 0):
                return False
    length, breadth, draught = (Fraction(f[name], 100) for name in ("length", "breadth", "draught"))
    if kind != 8:
        return not any((length, breadth, draught, f["displacement"]))
    if not (10 <= length <= 500 and 2 <= breadth <= 100 and Fraction(1, 2) <= draught <= 40):
        return False
    return 100 <= f["displacement"] <= 1000000 and f["displacement"] <= length * breadth * draught


def edition_is_right(f):
    """Whether the edition is one, and an EEDI's ship one that can have it: rule 19."""
    engines = range(f["engines"])
    sources = [f["aux_source"]] + [f[f"source{k}"] for k in engines]
    limited = any(f[f"limit{k}"] for k in engines)
    return f["edition"] == 0 or f["edition"] in (1, 2) and not limited and 3 not in sources and f["method"] == 1


def refusal(piece):
    if len(piece) != 512:
        return 1
    if seal(piece) != piece:
        return 2
    f = fields(piece)
    if f["layout"] not in (1, 2):
        return 3
    digits = f"{f['imo']:07d}"
    weighted = sum(w * int(d) for w, d in zip((7, 6, 5, 4, 3, 2), digits))
    if len(digits) != 7 or f["imo"] < 1000000 or digits[-1] != str(weighted)[-1]:
        return 4
    if f["type"] not in (range(1, 8) if f["layout"] == 1 else range(1, 9)):
        return 5
    if not 100 <= f["deadweight"] <= 600000:
        return 6
    if not (100 <= f["gross"] <= 400000 if f["type"] == 7 else f["gross"] == 0):
        return 7
    if not (100 <= f["volume"] <= 1000000 if f["type"] == 1 else f["volume"] == 0):
        return 8
    if f["engines"] not in (1, 2, 3, 4):
        return 9
    used, unused = range(f["engines"]), range(f["engines"], 4)
    for k in used:
        low, high, limit = f[f"mcr_low{k}"], f[f"mcr_high{k}"], f[f"limit{k}"]
        if not 100 <= low <= 120000 or not 100 <= high <= 120000 or not (limit == 0 or 100 <= limit <= low):
            return 9
    consumptions = [(f["aux_source"], f["aux_low"], f["aux_high"], f["aux_fuel"])]
    consumptions += [(f[f"source{k}"], f[f"sfc_low{k}"], f[f"sfc_high{k}"], f[f"fuel{k}"]) for k in used]
    for source, low, high, fuel in consumptions:
        if source not in (1, 2, 3):
            return 10
        if source < 3 and not (500 <= low <= 4000 and 500 <= high <= 4000 and 1 <= fuel <= 8):
            return 10
        if source == 3 and (low or high or fuel):
            return 10
    if not (f["aux_method"] == 1 and f["table_power"] == 0 or f["aux_method"] == 2 and 1 <= f["table_power"] <= 50000):
        return 11
    if f["ice"] not in (0, 1, 2):
        return 12
    method, ends = f["method"], (f["speed_low"], f["speed_high"])
    if method not in (1, 2, 3, 4) or method == 3 and f["type"] not in (1, 3, 4):
        return 13
    if any(not 500 <= v <= 6000 for v in ends) if method < 4 else any(ends):
        return 13
    mcrs = [(f[f"mcr_low{k}"], f[f"mcr_high{k}"]) for k in used]
    if any(low > high for low, high in [ends] + mcrs + [(low, high) for _, low, high, _ in consumptions]):
        return 14
    if method > 1 and any(low != high for low, high in [ends] + mcrs):
        return 14
    if f["type"] == 8 and ends[0] != ends[1]:
        return 14
    power, tonnes = f["trial_power"], f["trial_deadweight"]
    if method in (1, 4) and (power or tonnes):
        return 15
    if method in (2, 3):
        total = sum(p_me(f, k) for k in used)
        if not 1 <= power <= 600000 or power > 5 * total or total > 5 * power:
            return 15
    if method == 2 and tonnes:
        return 15
    if method == 3:
        capacity = Fraction(f["deadweight"]) * (Fraction(7, 10) if f["type"] == 4 else 1)
        if tonnes == 0 or tonnes > 5 * capacity or capacity > 5 * tonnes:
            return 15
    if any(piece[at] for at in ZERO) or any(any(piece[52 + 20 * k:72 + 20 * k]) for k in unused):
        return 16
    if f["layout"] == 1 and any(f[name] for name in NEWER):
        return 16
    if not newer_are_right(f):
        return 18
    return 0 if edition_is_right(f) else 19


# ── Ships that are accepted ──────────────────────────────────────────────────────────────────────

S = {"layout": 1, "type": 1, "method": 1, "imo": 9074729, "deadweight": 50000, "volume": 60000, "speed_low": 1400, "speed_high": 1400,
     "aux_method": 1, "engines": 1, "aux_source": 1, "aux_low": 2000, "aux_high": 2000, "aux_fuel": 1,
     "mcr_low0": 8000, "mcr_high0": 8000, "sfc_low0": 1800, "sfc_high0": 1800, "fuel0": 3, "source0": 1}
OTHER = {**S, "type": 2, "volume": 0}  # any type but 1 and 7
VEHICLE = {**S, "type": 7, "volume": 0, "gross": 50000, "deadweight": 20000}
TRIAL = {**S, "method": 2, "trial_power": 6000}
DESIGN = {**S, "method": 3, "trial_power": 6000, "trial_deadweight": 40000}
TANKER = {**DESIGN, "type": 3, "volume": 0}
BOXES = {**DESIGN, "type": 4, "volume": 0}
STATISTICAL = {**S, "method": 4, "speed_low": 0, "speed_high": 0}
# Layout 2: S without any newer figure, and coasters of 5,500 t, 105.00 x 16.20 x 6.20 m and 8,000 m³, without cranes and with eight
S2 = {**S, "layout": 2}
COASTER = {**S2, "type": 8, "volume": 0, "deadweight": 5500, "length": 10500, "breadth": 1620, "draught": 620, "displacement": 8000}
CRANES = {**COASTER, "cranes": 8, **{f"{name}{k}": number + k for k in range(8) for name, number in (("load", 400), ("reach", 250))}}
COASTER_TRIAL = {**CRANES, "method": 2, "trial_power": 6000}
COASTER_STATISTICAL = {**COASTER, "method": 4, "speed_low": 0, "speed_high": 0}


def engine(k, mcr=8000, **more):
    return {f"mcr_low{k}": mcr, f"mcr_high{k}": mcr, f"sfc_low{k}": 1800, f"sfc_high{k}": 1800, f"fuel{k}": 3, f"source{k}": 1,
            **{f"{name}{k}": number for name, number in more.items()}}


FOUR = {**S, "engines": 4, **engine(1), **engine(2), **engine(3)}

cases = []


def case(wanted, piece):
    assert refusal(piece) == wanted, (len(cases), wanted, refusal(piece))
    cases.append((wanted, piece))


def ends(number, ship, name, low, high, also=lambda value: {}):
    """Both ends of a range, and the numbers just outside."""
    for value, wanted in ((low - 1, number), (low, 0), (high, 0), (high + 1, number)):
        case(wanted, block(ship, **{name: value, **also(value)}))


def same(*names):
    return lambda value: {name: value for name in names}


for ship in (S, OTHER, VEHICLE, TRIAL, DESIGN, TANKER, BOXES, STATISTICAL, FOUR):
    case(0, block(ship))
    case(0, block(ship, layout=2))
for ship in (COASTER, CRANES, COASTER_TRIAL, COASTER_STATISTICAL):
    case(0, block(ship))

# 1: not 512 bytes
for length in (0, 1, 511, 513, 1024):
    case(1, (block(S) * 2)[:length])

# 2: check differs
whole = block(S)
for at in (508, 509, 510, 511, 507, 0, 300):
    case(2, whole[:at] + bytes([whole[at] ^ 1]) + whole[at + 1:])
case(2, bytes(512))
case(2, whole[:9] + whole[10:11] + whole[9:10] + whole[11:])  # two bytes exchanged: only B differs

# 3: layout not 1 or 2
for layout in (0, 3, 256, 257, 258, 512, 65535):
    case(3, block(S, layout=layout))
    case(3, block(COASTER, layout=layout))

# 4: IMO number
for imo, wanted in ((1000007, 0), (9999993, 0), (999990, 4), (10000000, 4), (9074728, 4), (9074720, 4), (1000000, 4), (9999999, 4), (0, 4), (4294967295, 4)):
    case(wanted, block(S, imo=imo))
for imo in (9176187, 9319466, 1234567):  # one digit of six moved on, the check digit left
    last = str(sum(w * int(d) for w, d in zip((7, 6, 5, 4, 3, 2), str(imo))))[-1]
    right = imo // 10 * 10 + int(last)
    case(0, block(S, imo=right))
    for place in (1, 2, 3, 4, 5, 6):
        moved = right + 10 ** place
        if str(moved)[-place - 1] != "0" and len(str(moved)) == 7:
            case(4, block(S, imo=moved))  # the weights 2 to 7 all show in the last digit

# 5: type not 1–7, in layout 2 not 1–8
case(5, block(OTHER, type=0))
case(0, block(S, type=1))
case(0, block(VEHICLE, type=7))
case(5, block(OTHER, type=8))
case(5, block(OTHER, type=255))
case(5, block(COASTER, layout=1))
for kind in (0, 9, 255):
    case(5, block(OTHER, layout=2, type=kind))
    case(5, block(COASTER, type=kind))
for kind in (2, 3, 4, 5, 6):
    case(0, block(OTHER, type=kind))
    case(0, block(OTHER, layout=2, type=kind))

# 6: deadweight not 100–600,000
ends(6, S, "deadweight", 100, 600000)
case(6, block(S, deadweight=0))
case(6, block(S, deadweight=4294967295))

# 7: gross tonnage
ends(7, VEHICLE, "gross", 100, 400000)
case(7, block(VEHICLE, gross=0))
case(7, block(S, gross=1))
case(7, block(OTHER, gross=50000))
case(7, block(COASTER, gross=1))

# 8: cargo volume
ends(8, S, "volume", 100, 1000000)
case(8, block(S, volume=0))
case(8, block(OTHER, volume=1))
case(8, block(VEHICLE, volume=60000))
case(8, block(COASTER, volume=1))
case(8, block(COASTER, volume=8000))

# 9: engines, MCR, limit
case(9, block(S, engines=0))
case(9, block(FOUR, engines=5))
case(9, block(FOUR, engines=255))
for n in (2, 3):
    used = {**S, "engines": n, **{name: number for k in range(1, n) for name, number in engine(k).items()}}
    case(0, block(used))
for ship, k in ((S, 0), (FOUR, 1), (FOUR, 2), (FOUR, 3)):
    ends(9, ship, f"mcr_low{k}", 100, 120000, same(f"mcr_high{k}"))
    ends(9, {**ship, f"mcr_low{k}": 100}, f"mcr_high{k}", 100, 120000)
    ends(9, ship, f"limit{k}", 100, 8000)
    case(0, block(ship, **{f"limit{k}": 0}))
    case(9, block(ship, **{f"limit{k}": 1}))
    ranged = {**ship, f"mcr_low{k}": 7000}
    case(0, block(ranged, **{f"limit{k}": 7000}))
    case(9, block(ranged, **{f"limit{k}": 7001}))

# 10: consumption, of the auxiliary engines and of each main engine
for ship, low, high, fuel, source in [(S, "aux_low", "aux_high", "aux_fuel", "aux_source")] + [
        (FOUR if k else S, f"sfc_low{k}", f"sfc_high{k}", f"fuel{k}", f"source{k}") for k in range(4)]:
    for kind in (1, 2):
        given = {**ship, source: kind}
        ends(10, {**given, high: 4000}, low, 500, 4000)
        ends(10, {**given, low: 500}, high, 500, 4000)
        ends(10, given, fuel, 1, 8)
        case(10, block(given, **{low: 0, high: 0}))  # empty SFC
    case(10, block(ship, **{source: 0}))
    case(10, block(ship, **{source: 4}))
    neither = {**ship, source: 3, low: 0, high: 0, fuel: 0}
    case(0, block(neither))
    for name in (low, high, fuel):
        case(10, block(neither, **{name: 1}))

# 11: auxiliary power
for method, power, wanted in ((0, 0, 11), (1, 0, 0), (1, 1, 11), (2, 0, 11), (2, 1, 0), (2, 50000, 0), (2, 50001, 11), (3, 0, 11), (3, 500, 11)):
    case(wanted, block(S, aux_method=method, table_power=power))

# 12: ice class above 2
for ice, wanted in ((0, 0), (1, 0), (2, 0), (3, 12), (255, 12)):
    case(wanted, block(S, ice=ice))

# 13: method and speed
case(13, block(S, method=0))
case(13, block(STATISTICAL, method=5))
for kind, wanted in ((1, 0), (2, 13), (3, 0), (4, 0), (5, 13), (6, 13), (7, 13)):
    case(wanted, block({**(S if kind == 1 else VEHICLE if kind == 7 else OTHER), "method": 3, "trial_power": 6000, "trial_deadweight": 40000}, type=kind))
case(13, block(COASTER, method=3, trial_power=6000, trial_deadweight=5000))
case(13, block(COASTER, method=5))
ends(13, COASTER, "speed_low", 500, 6000, same("speed_high"))
ends(13, {**S, "speed_high": 6000}, "speed_low", 500, 6000)
ends(13, {**S, "speed_low": 500}, "speed_high", 500, 6000)
for ship in (TRIAL, DESIGN):
    ends(13, ship, "speed_low", 500, 6000, same("speed_high"))
for name in ("speed_low", "speed_high"):
    case(13, block(STATISTICAL, **{name: 1}))

# 14: low ends above high ends, and ends that differ
for ship, low, high in ((S, "speed_low", "speed_high"), (S, "aux_low", "aux_high"), (S, "mcr_low0", "mcr_high0"), (S, "sfc_low0", "sfc_high0"),
                        (FOUR, "mcr_low3", "mcr_high3"), (FOUR, "sfc_low3", "sfc_high3")):
    case(0, block(ship, **{low: 1300, high: 1301}))
    case(0, block(ship, **{low: 1300, high: 1300}))
    case(14, block(ship, **{low: 1301, high: 1300}))
for ship in (TRIAL, DESIGN, STATISTICAL):
    case(14, block(ship, mcr_low0=7999))
    case(0, block(ship, sfc_low0=1799, aux_low=1999))
    second = {**ship, "engines": 2, **engine(1)}
    case(0, block(second))
    case(14, block(second, mcr_high1=8001))
for ship in (TRIAL, DESIGN):
    case(14, block(ship, speed_low=1399))

# 14 with type 8: no range of speed, of power and consumption as with other types
case(14, block(COASTER, speed_low=1399))
case(14, block(COASTER, speed_high=1401))
case(14, block(COASTER_TRIAL, speed_low=1399))
case(0, block(COASTER, mcr_low0=7999, sfc_low0=1799, aux_low=1999))
for ship in (COASTER_TRIAL, COASTER_STATISTICAL):
    case(14, block(ship, mcr_low0=7999))
    case(0, block(ship, sfc_low0=1799, aux_low=1999))

# 15: the trial
for ship in (S, STATISTICAL):
    case(15, block(ship, trial_power=1))
    case(15, block(ship, trial_deadweight=1))
case(15, block(TRIAL, trial_deadweight=1))
for ship in (TRIAL, DESIGN):
    case(15, block(ship, trial_power=0))
    ends(15, ship, "trial_power", 1200, 30000)  # 6,000 kW, a fifth and five times
    limited = {**ship, "limit0": 7000}  # 5,810 kW
    ends(15, limited, "trial_power", 1162, 29050)
    limited = {**ship, "limit0": 7228}  # 5,999.24 kW
    ends(15, limited, "trial_power", 1200, 29996)
    limited = {**ship, "limit0": 7229}  # 6,000.07, so 6,000 kW
    ends(15, limited, "trial_power", 1200, 30000)
    least = {**ship, "mcr_low0": 100, "mcr_high0": 100}  # 75 kW
    ends(15, least, "trial_power", 15, 375)
    most = {**ship, "engines": 4, **engine(0, 120000), **engine(1, 120000), **engine(2, 120000), **engine(3, 120000)}  # 360,000 kW
    ends(15, most, "trial_power", 72000, 600000)
    uneven = {**ship, "engines": 2, **engine(1, 401)}  # 6,300.75 kW
    ends(15, uneven, "trial_power", 1261, 31503)
for ship in (DESIGN, TANKER):
    case(15, block(ship, trial_deadweight=0))
    ends(15, ship, "trial_deadweight", 10000, 250000)
ends(15, BOXES, "trial_deadweight", 7000, 175000)  # 70 % of 50,000
ends(15, {**BOXES, "deadweight": 50001}, "trial_deadweight", 7001, 175003)  # 35,000.7
case(15, block(DESIGN, trial_deadweight=4294967295))
case(15, block(TRIAL, trial_power=4294967295))

# 16: bytes that must be zero, unused engine entries, and in layout 1 every newer field
for at in ZERO[:11] + [132, 133, 300, 506, 507]:
    case(16, block(S, bytes={at: 1}))
    case(16, block(FOUR, bytes={at: 255}))
for at in ZERO[:11] + [142, 143, 188, 189, 300, 506, 507]:
    case(16, block(S2, bytes={at: 1}))
    case(16, block(CRANES, bytes={at: 255}))
for at in range(132, 188):
    case(16, block(S, bytes={at: 1}))
for name, values in (("lightweight", (99, 100, 10000, 200000, 200001)), ("displacement", (100, 8000, 1000000)), ("cranes", (1, 8, 9)),
                     ("load0", (1, 10000, 10001)), ("reach7", (1, 10000, 10001)), ("length", (999, 1000, 50000, 50001)),
                     ("breadth", (199, 200, 10000, 10001)), ("draught", (49, 50, 4000, 4001)), ("edition", (2, 3))):
    for value in values:
        case(16, block(S, **{name: value}))
case(16, block({**COASTER, "layout": 1, "type": 6}))
for k in (1, 2, 3):
    for name in ENTRY:
        case(16, block(S, **{f"{name}{k}": 1}))
case(16, block(S, **engine(1)))
case(16, block({**S, "engines": 3, **engine(1), **engine(2), **engine(3)}))
case(16, block(S, mcr_low1=2, mcr_high1=1))  # an unused entry has no order

# 18: the newer fields
OTHERS = [S2] + [{**OTHER, "layout": 2, "type": kind} for kind in range(2, 7)] + [{**VEHICLE, "layout": 2}]  # all but type 8
for ship in OTHERS[0], OTHERS[2]:
    ends(18, ship, "lightweight", 100, 200000)
    for value, wanted in ((0, 0), (1, 18), (4294967295, 18)):
        case(wanted, block(ship, lightweight=value))
for ship in [*(ship for ship in OTHERS if ship["type"] not in (1, 3)), COASTER]:
    for value in (1, 100, 10000, 200000):
        case(18, block(ship, lightweight=value))


def cranes(count, filled):
    """So many cranes by number, and so many entries filled."""
    return {"cranes": count, **{f"{name}{k}": 300 if k < filled else 0 for k in range(8) for name in ("load", "reach")}}


for count in range(9):
    case(0, block(COASTER, **cranes(count, count)))
    if count > 0:
        case(18, block(COASTER, **cranes(count, count - 1)))
    if count < 8:
        case(18, block(COASTER, **cranes(count, count + 1)))
for count in (9, 10, 255):
    case(18, block(COASTER, **cranes(count, 8)))
for ship in OTHERS:
    case(18, block(ship, cranes=1, load0=300, reach0=300))
    case(18, block(ship, cranes=1))
    case(18, block(ship, reach7=1))
for k in range(8):
    for name in (f"load{k}", f"reach{k}"):
        ends(18, CRANES, name, 1, 10000)
        case(18, block(COASTER, **{**cranes(k, k), name: 1}))
        case(18, block(COASTER, **{**cranes(k + 1, k + 1), name: 0}))
case(18, block(CRANES, load3=65535))
# Each hull figure beside figures so large that the volume fits.
ends(18, {**COASTER, "breadth": 10000, "draught": 4000}, "length", 1000, 50000)
ends(18, {**COASTER, "length": 50000, "draught": 4000}, "breadth", 200, 10000)
ends(18, {**COASTER, "length": 50000, "breadth": 10000}, "draught", 50, 4000)
ends(18, {**COASTER, "length": 50000, "breadth": 10000, "draught": 4000}, "displacement", 100, 1000000)
for name in ("length", "breadth", "draught", "displacement"):
    case(18, block(COASTER, **{name: 0}))
    case(18, block(COASTER, **{name: 4294967295}))
    case(18, block(S2, **{name: COASTER[name]}))
    for ship in OTHERS:
        case(18, block(ship, **{name: 1}))
# The volume against length x breadth x draught: 100 x 20 x 5 m are 10,000 m³; 99.99 x 20.01 x 5.01 m are 10,024.007…
for length, breadth, draught, full in ((10000, 2000, 500, 10000), (9999, 2001, 501, 10024), (1000, 200, 500, 100), (1000, 201, 500, 100),
                                       (50000, 4000, 500, 100000), (49999, 4000, 500, 99998), (50000, 10000, 2000, 1000000)):
    box = {"length": length, "breadth": breadth, "draught": draught}
    for volume in (full - 1, full, full + 1):
        case(18 if volume > full or volume < 100 else 0, block(COASTER, **box, displacement=volume))
case(18, block(COASTER, length=1000, breadth=200, draught=499, displacement=100))
case(18, block(COASTER, length=1000, breadth=200, draught=50, displacement=10))

# 19: the edition
NEW = {**S2, "edition": 1}
AMENDED = {**FOUR, "layout": 2, "edition": 2, "lightweight": 10000, "ice": 1}
LIGHT = {**VEHICLE, "layout": 2, "gross": 60000}  # 0.333, below 0.35
for edition, wanted in ((1, 0), (2, 0), (3, 19), (128, 19), (255, 19)):
    case(wanted, block(S2, edition=edition))
for k, ship in enumerate([*OTHERS[1:6], LIGHT, CRANES]):  # every other type, the editions in turn
    case(0, block(ship, edition=1 + k % 2))
case(0, block(AMENDED))
case(0, block(NEW, speed_low=1350, sfc_low0=1750, mcr_low0=7900, aux_low=1999))
none = {"source": 3, "sfc_low": 0, "sfc_high": 0, "fuel": 0}
no_main, no_last = ({f"{name}{k}": number for name, number in none.items()} for k in (0, 3))
no_aux = {"aux_source": 3, "aux_low": 0, "aux_high": 0, "aux_fuel": 0}
for fault in ({"limit0": 8000}, no_main, no_aux):
    case(19, block(NEW, **fault))
case(0, block(S2, limit0=8000, **no_main, **no_aux))  # of the EEXI; the other methods stand in layout 2 above
for fault in ({"limit1": 8000}, {"limit3": 8000}, no_last, no_aux):
    case(19, block(AMENDED, **fault))
for ship, edition in ((TRIAL, 1), (DESIGN, 2), (STATISTICAL, 1), (COASTER_TRIAL, 2)):
    case(19, block(ship, layout=2, edition=edition))
case(16, block(NEW, limit1=8000))  # an unused entry
case(16, block(NEW, source1=3))
case(16, block(S2, edition=3, bytes={142: 1}))
case(18, block(NEW, limit0=8000, lightweight=99))
case(14, block(COASTER, edition=1, speed_low=1399))

# The order: a block that breaks rule n and every later one
later = [(6, {"deadweight": 99}), (7, {"gross": 1}), (8, {"volume": 99}), (9, {"mcr_low0": 99}), (10, {"fuel0": 9}), (11, {"aux_method": 3}),
         (12, {"ice": 3}), (13, {"speed_high": 6001}), (14, {"aux_low": 2001}), (15, {"trial_power": 1})]
first = [(4, {"imo": 9074728}), (5, {"type": 8}), *later, (16, {"bytes": {132: 1}})]
second = [(4, {"imo": 9074728}), (5, {"type": 9}), *later, (16, {"bytes": {188: 1}}), (18, {"lightweight": 99}), (19, {"edition": 3})]
for ship, faults in ((S, first), (S2, second), (COASTER, second), (CRANES, second[:-2] + [(18, {"reach7": 0}), (19, {"edition": 255})])):
    for i, (number, fault) in enumerate(faults):
        broken = {}
        for _, later_fault in faults[i:]:
            broken.update(later_fault)
        case(number, block(ship, **broken))
        case(number, block(ship, **fault))
        if number < faults[-1][0]:
            case(number, block(ship, **fault, **faults[i + 1][1]))
    everything = {name: value for _, fault in faults for name, value in fault.items()}
    for layout in (0, 3):
        case(3, block(ship, **{**everything, "layout": layout}))
    case(2, block(ship, **everything)[:511] + b"\xff")
    case(1, block(ship, **everything)[:511])
case(16, block(S, lightweight=99))  # in layout 1 no figure stands there, right or wrong
case(16, block(COASTER, bytes={143: 1}, draught=49))
case(5, block(COASTER, layout=1, draught=49))

# ── Writing ──────────────────────────────────────────────────────────────────────────────────────

# A refused block has the empty record. All its figures are 0, its layout too, and a record is tested from 3.
EMPTY = 3
writes = []


def write(size, number, piece, wanted):
    """The ship of a piece into a file of that size, at the block of that number."""
    file = bytearray((7 * i + 3) % 251 for i in range(size))
    given = bytes(file)
    read = refusal(piece)
    answer = EMPTY if read else 17 if (number + 1) * 512 > size else 0
    assert answer == wanted, (len(writes), wanted, answer)
    if answer == 0:
        file[number * 512:(number + 1) * 512] = piece
    a, b = sums(file)
    head = len(piece).to_bytes(2, "little") + size.to_bytes(2, "little") + number.to_bytes(8, "little")
    writes.append((head + piece + given, f"{read} {answer} {a} {b}\n"))


for wanted, piece in cases:  # every block again: an accepted one is the file's afterwards, a refused one leaves it
    write(512, 0, piece, EMPTY if wanted else 0)
for ship in (S, VEHICLE, TRIAL, DESIGN, BOXES, STATISTICAL, FOUR, S2, {**S2, "lightweight": 10000}, COASTER, CRANES, AMENDED):
    for number in range(4):
        write(2048, number, block(ship), 0)
for size, number, wanted in ((0, 0, 17), (511, 0, 17), (512, 0, 0), (512, 1, 17), (513, 0, 0), (1023, 1, 17), (1024, 1, 0), (1024, 2, 17),
                             (1535, 2, 17), (1536, 2, 0), (1600, 1, 0), (2047, 3, 17), (2048, 3, 0), (2048, 4, 17)):
    write(size, number, block(S), wanted)
    write(size, number, block(CRANES), wanted)
for number in (2 ** 55 - 1, 2 ** 55, 2 ** 55 + 1, 2 ** 56, 2 ** 63, 2 ** 64 - 1):  # number × 512 passes 2^64 from 2^55 on
    write(2048, number, block(S), 17)
# The record's own refusal comes before 17.
write(2048, 1, bytes(512), EMPTY)
write(0, 1, bytes(512), EMPTY)
write(2048, 2 ** 64 - 1, block(S, ice=3), EMPTY)
write(512, 1, block(COASTER, draught=49), EMPTY)
write(512, 1, block(NEW, limit0=8000), EMPTY)

# ── Lines of `fleet` ─────────────────────────────────────────────────────────────────────────────

C_F = {number: Fraction(factor) for number, factor in enumerate("3.206 3.151 3.114 3.000 3.030 2.750 1.375 1.913".split(), 1)}
F_M = {0: 1, 1: Fraction("1.05"), 2: 1}  # none, IA Super or IA, IB or IC
lines = []


def grams(f, end):
    """What a ship emits an hour with every low end, or with every high one; her auxiliary power is by rule, and every SFC given."""
    engines = range(f["engines"])
    mcr = sum(f[f"mcr_{end}{k}"] for k in engines)
    aux = Fraction(5 * mcr, 100) if mcr < 10000 else Fraction(25 * mcr, 1000) + 250
    main = sum(p_me(f, k, end) * Fraction(f[f"sfc_{end}{k}"], 10) * C_F[f[f"fuel{k}"]] for k in engines)
    return main + aux * Fraction(f[f"aux_{end}"], 10) * C_F[f["aux_fuel"]]


def as_recorded(f):
    """Whether V_ref is a recorded speed: declared, or of a trial at the sum of P_ME, at design draught with k 1 and at Capacity."""
    rated = f["trial_power"] == sum(p_me(f, k) for k in range(f["engines"]))
    k_is_1 = f["deadweight"] > {1: 200000, 3: 100000}.get(f["type"], 600000)
    return {1: True, 2: rated, 3: rated and k_is_1 and f["trial_deadweight"] == f["deadweight"], 4: False}[f["method"]]


def only_fractions(f):
    """Whether V_ref is a recorded speed and f_c is 1."""
    light = f["type"] == 1 and 100 * f["deadweight"] < 55 * f["volume"] or f["type"] == 7 and 100 * f["deadweight"] < 35 * f["gross"] and not f["edition"]
    return f["type"] < 8 and as_recorded(f) and not light


def millionths(f, end, speed):
    """The index with every low end or every high one, and with that speed."""
    capacity = f["deadweight"] * (Fraction(7, 10) if f["type"] == 4 else 1) + Fraction("0.08") * f["lightweight"]
    f_m = 1 if f["edition"] == 1 else F_M[f["ice"]]
    return grams(f, end) / capacity / Fraction(f[speed], 100) / f_m * 10 ** 6


def state(stated, piece, wanted, figures):
    """One more line of a program, with the refusal of the piece or the figures of its ship."""
    number = refusal(piece)
    answer = f"refused {number}" if number else figures(fields(piece))
    assert answer == wanted, (len(stated), wanted, answer)
    stated.append((piece, f"{len(stated)} {wanted}\n"))


def bounds(f):
    """Of a ship for which only fractions enter: the index of the most favourable rounded down, of the least favourable rounded up. The last
    digits of others are free."""
    assert only_fractions(f), f
    return f"{f['imo']} {millionths(f, 'low', 'speed_high') // 1} {-(-millionths(f, 'high', 'speed_low') // 1)}"


def line(piece, wanted):
    state(lines, piece, wanted, bounds)


line(block(S), "9074729 5170857 5170858")
line(bytes(512), "refused 2")
for ice, wanted in ((1, "9074729 4924625 4924626"), (2, "9074729 5170857 5170858"), (3, "refused 12"), (255, "refused 12")):
    line(block(S, ice=ice), wanted)
# Layout 2 without newer figures, and f_i of 1.016, 1.00016 and 1.32
for light, ice, wanted in ((0, 0, "9074729 5170857 5170858"), (0, 1, "9074729 4924625 4924626"), (10000, 0, "9074729 5089426 5089427"),
                           (10000, 1, "9074729 4847072 4847073"), (10000, 2, "9074729 5089426 5089427"), (100, 0, "9074729 5170029 5170030"),
                           (200000, 0, "9074729 3917316 3917317"), (1, 0, "refused 18"), (99, 0, "refused 18"), (200001, 0, "refused 18")):
    line(block(S2, lightweight=light, ice=ice), wanted)
for piece, wanted in ((block(S, layout=3), 3), (block(S, layout=258), 3), (block(COASTER, layout=1), 5), (block(COASTER, type=9), 5),
                      (block(COASTER, method=3, trial_power=6000, trial_deadweight=5000), 13), (block(COASTER, speed_low=1399), 14),
                      (block(S, lightweight=10000), 16), (block(CRANES, reach7=0, bytes={143: 1}), 16), (block(S2, cranes=1, load0=300, reach0=280), 18),
                      (block(CRANES, reach7=0), 18), (block(COASTER, displacement=10547), 18), (block(CRANES, cranes=9), 18)):
    line(piece, f"refused {wanted}")
# New ships: f_m in the amended edition alone, and no f_c of a light vehicle carrier, 3,619,600 g/h over 20,000 t x 14 knots
plain, iced = "9074729 5170857 5170858", "9074729 4924625 4924626"
for ice, wanted in ((0, (plain, plain, plain)), (1, (iced, plain, iced)), (2, (plain, plain, plain))):
    for edition in range(3):
        line(block(S2, ice=ice, edition=edition), wanted[edition])
line(block(S2, ice=1, edition=1, lightweight=10000), "9074729 5089426 5089427")
line(block(S2, ice=1, edition=2, lightweight=10000), "9074729 4847072 4847073")
line(block(LIGHT, edition=1), "9074729 12927142 12927143")
line(block(LIGHT, edition=2), "9074729 12927142 12927143")
line(block(LIGHT, edition=2, ice=1), "9074729 12311564 12311565")
for piece, wanted in ((block(S2, edition=3), 19), (block(S2, edition=255), 19), (block(NEW, limit0=8000), 19), (block(NEW, **no_main), 19),
                      (block(S2, edition=2, **no_aux), 19), (block(TRIAL, layout=2, edition=1), 19), (block(STATISTICAL, layout=2, edition=2), 19),
                      (block(S2, edition=3, lightweight=99), 18), (block(S2, edition=1, bytes={142: 1}), 16), (block(S, edition=1), 16)):
    line(piece, f"refused {wanted}")
# A trial of 14.50 knots at rated power: 3,619,600 g/h over 50,000 t x 14.5 knots; with SFC 175.0-180.0; with two engines, 5,851.5 kW by
# a limit and 1,501.5 kW, together 4,442,135.62 g/h; by a limit 5,810 kW at 14.00 knots, a whole number of millionths; of a container ship
RATED = {**TRIAL, "speed_low": 1450, "speed_high": 1450}
TWO = {**RATED, "engines": 2, "limit0": 7050, **engine(1, 2002), "trial_power": 7353}
for piece, wanted in ((block(RATED), "4992551 4992552"), (block(RATED, sfc_low0=1750), "4863696 4992552"), (block(TWO), "6127083 6127084"),
                      (block(TRIAL, limit0=7000, trial_power=5810), "5018716 5018716"), (block(RATED, type=4, volume=0), "7132216 7132217")):
    line(piece, f"9074729 {wanted}")
# At design draught and Capacity, where k is 1: over 250,000 t, with f_i over 252,000 t, in class IA; the smallest ships with that k
LARGE = {**RATED, "method": 3, "deadweight": 250000, "trial_deadweight": 250000, "volume": 300000}
for piece, wanted in ((block(LARGE), "998510 998511"), (block(LARGE, layout=2, lightweight=25000), "990585 990586"),
                      (block(LARGE, layout=2, lightweight=25000, ice=1), "943414 943415"),
                      (block(LARGE, deadweight=200001, trial_deadweight=200001), "1248131 1248132"),
                      (block(LARGE, type=3, volume=0, deadweight=100001, trial_deadweight=100001), "2496250 2496251")):
    line(piece, f"9074729 {wanted}")

# ── Lines of `speeds` ────────────────────────────────────────────────────────────────────────────

speeds = []


def pairs(f):
    """Of a ship whose recorded speed is V_ref: the high end twice, for the most favourable, and the low end twice. The last digits of others
    are free."""
    assert as_recorded(f), f
    most, least = 10000 * f["speed_high"], 10000 * f["speed_low"]
    return f"{f['imo']} {most} {most} {least} {least}"


def speed(piece, wanted):
    state(speeds, piece, wanted, pairs)


knots = "9074729 14000000 14000000 14000000 14000000"
speed(block(S), knots)
speed(bytes(512), "refused 2")
# Declared, 14.00 knots: every type and both layouts; ice classes, light cargo, limiter, no source, cranes, lightweight and editions are no
# matter, nor are ranges of power and consumption alone
for piece in (*(block(OTHER, type=kind) for kind in range(2, 7)), block(VEHICLE), block(COASTER), block(CRANES),
              block(S, ice=1), block(S, ice=2), block(S, volume=100000), block(S, limit0=7000), block(S, **no_main, **no_aux),
              block(S2), block(S2, lightweight=10000), block(NEW), block(NEW, ice=1), block(AMENDED), block(LIGHT), block(LIGHT, edition=2),
              block(S, mcr_low0=7900), block(S, sfc_low0=1750, aux_low=1900), block(COASTER, mcr_low0=7900, sfc_low0=1750),
              block(FOUR, mcr_low3=7900)):
    speed(piece, knots)
for imo in (1000007, 9999993):
    speed(block(S, imo=imo), f"{imo} 14000000 14000000 14000000 14000000")
# Ranges of speed: the high end of the most favourable ship, the low end of the least favourable; both ends of the field
for low, high, wanted in ((1350, 1400, "14000000 14000000 13500000 13500000"), (1399, 1400, "14000000 14000000 13990000 13990000"),
                          (1234, 1235, "12350000 12350000 12340000 12340000"), (500, 6000, "60000000 60000000 5000000 5000000"),
                          (500, 500, "5000000 5000000 5000000 5000000"), (6000, 6000, "60000000 60000000 60000000 60000000")):
    for ship in (S, {**NEW, "mcr_low0": 7900, "sfc_low0": 1750}):
        speed(block(ship, speed_low=low, speed_high=high), f"9074729 {wanted}")
speed(block(COASTER, speed_low=1005, speed_high=1005), "9074729 10050000 10050000 10050000 10050000")
# On trial at rated power: 5,810 kW by a limit, 6,000 where 83 % of it are more; with light cargo, as a container ship, a light vehicle carrier
# and a general cargo ship; 14.50 knots, also with a range of consumption and by two engines
for piece in (block(TRIAL), block(TRIAL, limit0=7000, trial_power=5810), block(TRIAL, limit0=8000), block(TRIAL, volume=100000, ice=1),
              block(TRIAL, type=4, volume=0), block({**LIGHT, "method": 2, "trial_power": 6000}), block(COASTER_TRIAL)):
    speed(piece, knots)
quick = "9074729 14500000 14500000 14500000 14500000"
for piece in (block(RATED), block(RATED, sfc_low0=1750), block(TWO)):
    speed(piece, quick)
# At design draught and Capacity, where k is 1; 8 % of a lightweight are no part of Capacity
for piece in (block(LARGE), block(LARGE, layout=2, lightweight=25000, ice=1), block(LARGE, volume=600000),
              block(LARGE, deadweight=200001, trial_deadweight=200001),
              block(LARGE, type=3, volume=0, deadweight=100001, trial_deadweight=100001)):
    speed(piece, quick)
# Refusals, as of `fleet`; of rules 13 to 15 those that concern the speed
for piece, wanted in ((block(S, layout=3), 3), (block(S, imo=9074728), 4), (block(COASTER, layout=1), 5), (block(S, deadweight=99), 6),
                      (block(S, gross=1), 7), (block(S, volume=99), 8), (block(S, limit0=8001), 9), (block(S, sfc_low0=0, sfc_high0=0), 10),
                      (block(S, aux_method=3), 11), (block(S, ice=3), 12), (block(S, speed_low=499), 13), (block(S, speed_high=6001), 13),
                      (block(STATISTICAL, speed_high=1), 13), (block(OTHER, method=3, trial_power=6000, trial_deadweight=50000), 13),
                      (block(S, speed_low=1401), 14), (block(TRIAL, speed_low=1399), 14), (block(TRIAL, mcr_low0=7999), 14),
                      (block(STATISTICAL, mcr_low0=7999), 14), (block(COASTER, speed_low=1399), 14), (block(S, trial_power=1), 15),
                      (block(TRIAL, trial_power=1199), 15), (block(TRIAL, trial_power=30001), 15), (block(DESIGN, trial_deadweight=9999), 15),
                      (block(S, bytes={49: 1}), 16), (block(S, lightweight=10000), 16), (block(S2, lightweight=99), 18),
                      (block(CRANES, reach7=0), 18), (block(S2, edition=3), 19), (block(TRIAL, layout=2, edition=1), 19),
                      (block(STATISTICAL, layout=2, edition=2), 19)):
    speed(piece, f"refused {wanted}")
speed(block(S), knots)
speed(block(S)[:511], "refused 1")
assert {text.split()[2] for _, text in speeds if "refused" in text} == {str(number) for number in (*range(1, 17), 18, 19)}

# ── Stored ───────────────────────────────────────────────────────────────────────────────────────

MADE = {
    "files/stdin": b"".join(given for given, _ in writes),
    "files/stdout": "".join(line for _, line in writes).encode(),
    "fleet/stdin": b"".join(piece for piece, _ in lines),
    "fleet/stdout": "".join(text for _, text in lines).encode(),
    "speeds/stdin": b"".join(piece for piece, _ in speeds),
    "speeds/stdout": "".join(text for _, text in speeds).encode(),
}
given = {wanted for wanted, _ in cases}
assert given == {*range(17), 18, 19}, given
if sys.argv[1:] == ["--check"]:
    wrong = [name for name, data in MADE.items() if open(os.path.join(ROOT, name), "rb").read() != data]
    print(f"tests/blocks.py: {len(cases)} blocks, {len(writes)} writes; " + ("not as stored: " + ", ".join(wrong) if wrong else "as stored"))
    sys.exit(1 if wrong else 0)
for name, data in MADE.items():
    with open(os.path.join(ROOT, name), "wb") as file:
        file.write(data)
print(f"tests/blocks.py: {len(cases)} blocks, {len(writes)} writes")
