"""bin/desk's lines for people: each refusal in README's words, the three indices, IMO numbers at both ends, bounds of every size."""
import re

from blocks import BLOCK, BROTHERS, FAULTS, Known, block, damaged, fault, imo_is_right
from hold import against, faults
from started import run

# The ships of which the manual page has lines, by the number of their block; the one that is too small stands between them too.
SMALL = block(imo=3962352, deadweight=99)
EXAMPLES = {"fleet": {0: block(), 1: damaged(block()), 2: SMALL}, "speeds": {0: block(), 1: damaged(block()), 8: block(BROTHERS)}}


def examples(page):
    """The lines of each example, by their blocks' numbers."""
    shown = re.findall(r"^\.nf\n((?:block .*\n)+)\.fi\n", page, re.M)
    lines = [text.replace("\\(pc", "·").replace("\\-", "-").splitlines() for text in shown]
    return [{int(line.split()[1].rstrip(":")): line for line in text} for text in lines]


def manual(place):
    """The manual page's own examples, word for word: one of each command, in the order of its synopsis."""
    page = (place.root / "bin" / "desk.1").read_text(encoding="utf-8")
    found = examples(page)
    right = [list(ships) for ships in EXAMPLES.values()]
    whole = [list(lines) for lines in found] == right
    yield "desk, the manual page's examples", [] if whole else [f"they are {found}; right are lines of blocks {right}"]
    small = found[0][2].partition(": ")[2] if whole else ""
    for (command, ships), lines in zip(EXAMPLES.items(), found):
        numbers = range(max(ships) + 1)
        text = "".join(lines.get(number, f"block {number}: {small}") + "\n" for number in numbers)
        ran = place.desk(command, given=b"".join(ships.get(number, SMALL) for number in numbers))
        yield f"desk {command}, the manual page's example", faults(ran, text.encode(), status=1)


def refusals(place, command):
    """One run; each refusal's line is a case of its own. 17 is only given when writing."""
    numbers = [2, *FAULTS]
    known = place.independent.know([fault(number) for number in numbers] + [block()[:77]])
    numbers.append(1)
    table = place.independent.table
    ran = place.desk(command, given=known.data(range(len(numbers))))
    yield f"desk {command}, the table of refusals is whole", [] if sorted(table) == list(range(1, 20)) else [f"it has {sorted(table)}"]
    yield f"desk {command}, every refusal", faults(ran, known.lines(range(len(numbers))), status=1)
    came = dict(enumerate(ran.out.decode("utf-8", "replace").splitlines()))
    for at, number in enumerate(numbers):
        field, words = table[number]
        right = f"block {at}: {'IMO 9074729, ' if number >= 5 else ''}refused {number} ({field}): {words}"
        yield f"desk {command}, refusal {number}", against("line", came.get(at, "").encode(), right.encode())
    plain = place.desk(command, "--plain", given=known.data(range(len(numbers))))
    yield f"desk {command}, every refusal, plain", faults(plain, known.lines(range(len(numbers)), True), status=1)


def editions(place):
    """Ada Holm with ice class IA, in layout 1 and in each edition of layout 2: f_m is 1.05 but under MEPC.308(73) alone."""
    ships = [block(ice=1)] + [block(ice=1, layout=2, edition=edition) for edition in range(3)]
    with_f_m, without = "at least 4.924625, at most 4.924626", "at least 5.170857, at most 5.170858"
    lines = [f"{with_f_m} g CO2/(t·nm), EEXI", f"{with_f_m} g CO2/(t·nm), EEXI", f"{without} g CO2/(t·nm), EEDI under MEPC.308(73)",
             f"{with_f_m} g CO2/(t·nm), EEDI under MEPC.308(73) as amended by MEPC.322(74)"]
    right = "".join(f"block {at}: IMO 9074729, {line}\n" for at, line in enumerate(lines)).encode()
    yield "desk, all three editions", faults(place.desk("fleet", given=b"".join(ships)), right)


def imo_numbers(place):
    """The first and the last right number, all their neighbours, and numbers of other than seven digits."""
    numbers = [*range(999970, 1000030), *range(9999960, 10000030), 0, 9, 100007, 99999993, 4294967295]
    right = [number for number in numbers if imo_is_right(number)]
    assert right[0] == 1000007 and right[-1] == 9999993 and 1000019 in right
    refused = "refused 4 ({}): {}".format(*place.independent.table[4])
    lines = [f"IMO {number}, at least 5.170857, at most 5.170858 g CO2/(t·nm), EEXI" if number in right else refused for number in numbers]
    text = "".join(f"block {at}: {line}\n" for at, line in enumerate(lines)).encode()
    data = b"".join(block(imo=number) for number in numbers)
    yield "desk, IMO numbers at both ends", faults(place.desk("fleet", given=data), text, status=1)
    plain = "".join(f"{at} {number} 5170857 5170858\n" if number in right else f"{at} refused 4\n" for at, number in enumerate(numbers))
    yield "desk, IMO numbers at both ends, plain", faults(place.desk("fleet", "--plain", given=data), plain.encode(), status=1)
    for number in (1000007, 9999993):
        right = f"block 0: IMO {number}, at least 5.170857, at most 5.170858 g CO2/(t·nm), EEXI\n".encode()
        yield f"desk, IMO number {number}", faults(place.desk("fleet", given=block(imo=number)), right)


# The least and the greatest index that the rules allow, about; one that is a whole number, 10, and ranges that begin and end there.
EXTREMES = [
    {"type": 3, "layout": 2, "volume": 0, "lightweight": 200000, "ice": 1, "deadweight": 600000, "speed_low": 6000, "speed_high": 6000,
     "mcr_low0": 100, "mcr_high0": 100, "sfc_low0": 500, "sfc_high0": 500, "fuel0": 7, "aux_low": 500, "aux_high": 500, "aux_fuel": 7},
    {"type": 4, "volume": 0, "deadweight": 100, "speed_low": 500, "speed_high": 500, "engines": 4, "aux_method": 2, "table_power": 50000,
     "aux_low": 4000, "aux_high": 4000, **{f"{name}{k}": figure for k in range(4) for name, figure in (
         ("mcr_low", 120000), ("mcr_high", 120000), ("sfc_low", 4000), ("sfc_high", 4000), ("fuel", 1), ("source", 1))}},
    *({"type": 2, "volume": 0, "deadweight": 36196, "speed_low": low, "speed_high": high}
      for low, high in ((1000, 1000), (900, 1000), (1000, 1100))),
]
# What else a pair can be like: lower bound, upper bound.
LOOKS = [
    lambda lower, upper: lower > 10 ** 6 and 10 ** 4 <= lower % 10 ** 6 < 10 ** 5,
    lambda lower, upper: lower > 10 ** 6 and 10 <= lower % 10 ** 6 < 100,
    lambda lower, upper: lower > 10 ** 6 and lower % 10 ** 6 == 1,
    lambda lower, upper: lower < 10 ** 5,
]


def sister(look):
    """The first ship that looks so among gas carriers with Ada Holm's consumptions, which emit 452.45 g an hour for each kW."""
    for power, speed in ((8000, 1500), (3000, 1700), (100, 5999)):
        for deadweight in range(100, 600001):
            lower, rest = divmod(45245 * power * 10 ** 6, deadweight * speed)
            if look(lower, lower + (rest > 0)):
                speeds, powers = {"speed_low": speed, "speed_high": speed}, {"mcr_low0": power, "mcr_high0": power}
                return {"type": 2, "volume": 0, "deadweight": deadweight, **speeds, **powers}
    raise AssertionError("no ship looks so")


def bounds(place):
    """Whatever their size, bounds have six digits behind the point, and no more before it than they need."""
    known = place.independent.know([block(**ship) for ship in EXTREMES] + [block(**sister(look)) for look in LOOKS])
    pairs = [tuple(int(word) for word in words.split()[1:]) for words in known.plain]
    assert pairs[0][0] < 150 and pairs[1][1] > 1500000 * 10 ** 6, pairs
    assert pairs[2] == (10 ** 7, 10 ** 7) and pairs[3][0] == pairs[4][1] == 10 ** 7, pairs
    assert all(look(*pair) for look, pair in zip(LOOKS, pairs[len(EXTREMES):])), pairs
    ran = place.desk("fleet", given=known.data(range(len(pairs))))
    yield "desk, bounds of every size", faults(ran, known.lines(range(len(pairs))))
    right = "block 2: IMO 9074729, at least 10.000000, at most 10.000000 g CO2/(t·nm), EEXI"
    came = ran.out.decode("utf-8", "replace").splitlines()
    yield "desk, a bound that is a whole number", against("line", (came[2] if len(came) > 2 else "").encode(), right.encode())


def sample(place):
    """The sample's lines are the program's, said for people, with the bounds that have free last digits too."""
    data = (place.root / "sample" / "fleet.blocks").read_bytes()
    plain = place.desk("fleet", "--plain", "sample/fleet.blocks")
    program = run(place.fleet, data)
    yield "desk, the sample, plain", faults(plain, program.out, status=1)
    pieces = [data[at:at + BLOCK] for at in range(0, len(data), BLOCK)]
    known = Known(pieces, [line.split(" ", 1)[1] for line in program.out.decode().splitlines()], place.independent.table)
    yield "desk, the sample", faults(place.desk("fleet", "sample/fleet.blocks"), known.lines(range(len(pieces))), status=1)


def locales(place):
    """The words are the same in every locale, those of letters beyond ASCII too."""
    known = place.independent.know([block(), fault(8), fault(18)])
    for locale in ("C", "POSIX", "en_US.ISO-8859-1", "no-such-locale", None):
        ran = place.desk("fleet", given=known.data(range(3)), env={"LC_ALL": locale, "LANG": locale, "PYTHONUTF8": "0", "PYTHONCOERCECLOCALE": "0"})
        yield f"desk, locale {locale}", faults(ran, known.lines(range(3)), status=1)


def self_check(place):
    """Of the manual page: an example that is lost, and a line with another number, are noticed."""
    page = ".nf\nblock 0: a\nblock 8: b\\(pcc\n.fi\n.nf\ndesk: NAME\n.fi\n.nf\nblock 1: d\n.fi\n"
    right = [{0: "block 0: a", 8: "block 8: b·c"}, {1: "block 1: d"}]
    wrong = [page.replace(*change) for change in (("block 8", "block 7"), ("block 1: d\n", ""), ("b\\(", "\\("))]
    return ["the examples"] * (examples(page) != right) + [f"that {bad!r} is wrong" for bad in wrong if examples(bad) == right]


def cases(place):
    yield from manual(place)
    for command in EXAMPLES:
        yield from refusals(place, command)
    for part in (editions, imo_numbers, bounds, sample, locales):
        yield from part(place)
