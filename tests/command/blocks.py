"""Blocks of ships, made from docs/RULES.md alone, and the lines that they must get: the plain ones from the independent desk
(tests/desk.rs), those of declared speeds from the blocks' bytes; the people's ones worked out here from these, the bytes and README's
table of refusals."""
import random
import re
import subprocess

BLOCK = 512
MOST = 65536  # as many blocks as the program reads
SEED = 20260917

PLACES = {
    "layout": (0, 2), "type": (2, 1), "method": (3, 1), "imo": (4, 4), "deadweight": (8, 4), "gross": (12, 4),
    "volume": (16, 4), "speed_low": (20, 4), "speed_high": (24, 4), "trial_power": (28, 4), "trial_deadweight": (32, 4),
    "aux_method": (36, 1), "ice": (37, 1), "engines": (38, 1), "aux_source": (39, 1), "table_power": (40, 4),
    "aux_low": (44, 2), "aux_high": (46, 2), "aux_fuel": (48, 1),
    "lightweight": (132, 4), "edition": (141, 1),
}
ENTRY = {"mcr_low": (0, 4), "mcr_high": (4, 4), "limit": (8, 4), "sfc_low": (12, 2), "sfc_high": (14, 2), "fuel": (16, 1), "source": (17, 1)}
for k in range(4):
    PLACES.update({f"{name}{k}": (52 + 20 * k + at, width) for name, (at, width) in ENTRY.items()})

# The first ship of the sample: 5.170857 to 5.170858 g.
ADA = {"layout": 1, "type": 1, "method": 1, "imo": 9074729, "deadweight": 50000, "volume": 60000, "speed_low": 1400, "speed_high": 1400,
       "aux_method": 1, "engines": 1, "aux_source": 1, "aux_low": 2000, "aux_high": 2000, "aux_fuel": 1,
       "mcr_low0": 8000, "mcr_high0": 8000, "sfc_low0": 1800, "sfc_high0": 1800, "fuel0": 3, "source0": 1}
# The sample's ship with ranges: 13.80 to 14.30 knots.
BROTHERS = {**ADA, "imo": 3255931, "deadweight": 58000, "volume": 71700, "speed_low": 1380, "speed_high": 1430, "aux_high": 2150,
            "aux_source": 2, "mcr_low0": 8400, "mcr_high0": 8500, "sfc_low0": 1740, "sfc_high0": 1810, "source0": 2}
# One fault for each refusal from 3 on; `byte` is the place of a single byte that is made 1. For 4 the IMO number itself is moved.
FAULTS = {3: {"layout": 3}, 4: {}, 5: {"type": 9}, 6: {"deadweight": 99}, 7: {"gross": 1}, 8: {"volume": 99},
          9: {"engines": 0}, 10: {"sfc_low0": 0, "sfc_high0": 0}, 11: {"aux_method": 3}, 12: {"ice": 3}, 13: {"speed_low": 499},
          14: {"speed_low": 1401}, 15: {"trial_power": 1}, 16: {"byte": 300}, 18: {"layout": 2, "lightweight": 99},
          19: {"layout": 2, "edition": 3}}
INDEX = ["EEXI", "EEDI under MEPC.308(73)", "EEDI under MEPC.308(73) as amended by MEPC.322(74)"]


def seal(data):
    """The 508 bytes with both check sums behind them. Byte i is in the second sum 508 - i times."""
    a = 1 + sum(data)
    b = 508 + sum((508 - at) * byte for at, byte in enumerate(data) if byte)
    return bytes(data) + (a % 65536).to_bytes(2, "little") + (b % 65536).to_bytes(2, "little")


def block(ship=ADA, **changed):
    data = bytearray(508)
    fields = {**ship, **changed}
    if "byte" in fields:
        data[fields.pop("byte")] = 1
    for name, number in fields.items():
        at, width = PLACES[name]
        data[at:at + width] = number.to_bytes(width, "little")
    return seal(data)


def damaged(whole):
    return whole[:12] + bytes([whole[12] ^ 1]) + whole[13:]


def imo_is_right(number):
    """Seven digits, and the last one is that of the first six weighted 7 to 2 and summed."""
    digits = [int(digit) for digit in str(number)]
    return len(digits) == 7 and sum(w * d for w, d in zip((7, 6, 5, 4, 3, 2), digits)) % 10 == digits[6]


def imo(six):
    return next(10 * six + last for last in range(10) if imo_is_right(10 * six + last))


def fault(number, ship=ADA):
    """The ship's block with what gives that refusal."""
    if number == 2:
        return damaged(block(ship))
    moved = {"imo": ship["imo"] ^ 1} if number == 4 else {}
    return block({**ship, **FAULTS[number], **moved})


def any_ship(dice):
    """A ship of any kind whose pair is her exact index rounded down and up, so that nothing is free in her line."""
    kind, layout = dice.randint(1, 6), dice.randint(1, 2)
    edition = dice.randint(0, 2) if layout == 2 else 0
    deadweight = dice.randint(100, 600000)
    speed = dice.randint(500, 5900)
    ship = {**ADA, "type": kind, "layout": layout, "edition": edition, "imo": imo(dice.randint(100000, 999999)), "deadweight": deadweight,
            "volume": max(100, deadweight) if kind == 1 else 0, "speed_low": speed, "speed_high": speed + dice.choice((0, 0, 37, 100)),
            "ice": dice.randint(0, 2), "engines": dice.randint(1, 4), "aux_fuel": dice.randint(1, 8)}
    if layout == 2 and kind in (1, 3):
        ship["lightweight"] = dice.choice((0, dice.randint(100, 200000)))
    for engine in range(ship["engines"]):
        power, sfc = dice.randint(100, 119000), dice.randint(500, 3900)
        ship.update({f"mcr_low{engine}": power, f"mcr_high{engine}": power + dice.choice((0, 0, 900)), f"sfc_low{engine}": sfc,
                     f"sfc_high{engine}": sfc + dice.choice((0, 0, 55)), f"fuel{engine}": dice.randint(1, 8), f"source{engine}": dice.randint(1, 2)})
    return ship


def declared(piece):
    """What `speeds` prints of a ship with a declared speed: the most favourable one inside her range has the high end."""
    assert piece[3] == 1, "the speed isn't declared"
    low, high, imo_number = (int.from_bytes(piece[at:at + 4], "little") for at in (20, 24, 4))
    return f"{imo_number} {high}0000 {high}0000 {low}0000 {low}0000"


def shown(millionths):
    return f"{millionths // 10 ** 6}.{millionths % 10 ** 6:06d}"


def refusals(readme):
    """README's table: refusal, field, words."""
    table = readme[readme.index("| refused | field | what is wrong |"):]
    rows = re.findall(r"^\| (\d+) \| ([^|]+) \| ([^|]+) \|$", table[:table.index("\n\n")], re.M)
    return {int(number): (field, words) for number, field, words in rows}


class Known:
    """Pieces of at most 512 bytes with what the desk must say of each, without its number."""

    def __init__(self, pieces, plain, table):
        self.pieces, self.plain, self.table = pieces, plain, table
        self.people = [self._people(piece, words) for piece, words in zip(pieces, plain)]

    def _people(self, piece, words):
        ship = f"IMO {int.from_bytes(piece[4:8], 'little')}, "
        if words.startswith("refused "):
            number = int(words[8:])
            field, why = self.table[number]
            return f"{ship if number >= 5 else ''}refused {number} ({field}): {why}"
        return ship + self._bounds(piece, [int(word) for word in words.split()[1:]])

    @staticmethod
    def _bounds(piece, figures):
        lower, upper = figures
        return f"at least {shown(lower)}, at most {shown(upper)} g CO2/(t·nm), {INDEX[piece[141]]}"

    def speeds(self):
        """The same pieces with what `desk speeds` must say of them; their speeds are declared."""
        plain = [words if words.startswith("refused") else declared(piece) for piece, words in zip(self.pieces, self.plain)]
        return KnownSpeeds(self.pieces, plain, self.table)

    def accepted(self):
        return [at for at, words in enumerate(self.plain) if not words.startswith("refused")]

    def data(self, order):
        return b"".join([self.pieces[at] for at in order])

    def lines(self, order, plain=False, first=0):
        """The whole text for these pieces in this order."""
        if plain:
            text = "".join([f"{number} {self.plain[at]}\n" for number, at in enumerate(order, first)])
        else:
            text = "".join([f"block {number}: {self.people[at]}\n" for number, at in enumerate(order, first)])
        return text.encode()


class KnownSpeeds(Known):
    """Pieces with what `desk speeds` must say of each. A ship has two pairs where they differ: where her speed is a range."""

    @staticmethod
    def _bounds(piece, figures):
        most, least = (f"at least {shown(lower)}, at most {shown(upper)} knots" for lower, upper in (figures[:2], figures[2:]))
        return f"speed {most}" if most == least else f"speed of the most favourable ship {most}, of the least favourable {least}"


class Desk:
    """The independent desk, which answers at most 65,536 pieces at once, and the words for its refusals."""

    def __init__(self, root, room):
        self.program = room / "independent"
        subprocess.run(["rustc", "-O", "-o", str(self.program), str(root / "tests" / "desk.rs")], check=True)
        self.table = refusals((root / "README.md").read_text(encoding="utf-8"))

    def answers(self, data):
        text = subprocess.run([str(self.program)], input=data, stdout=subprocess.PIPE, check=True).stdout.decode()
        return [line.split(" ", 1)[1] for line in text.splitlines()]

    def know(self, pieces):
        """The last piece may be short, no other."""
        assert len(pieces) <= MOST and all(len(piece) == BLOCK for piece in pieces[:-1])
        plain = self.answers(b"".join(pieces))
        assert len(plain) == len(pieces), "the independent desk lost a line"
        return Known(pieces, plain, self.table)

    def pool(self):
        """1,700 ships with bounds and 299 refusals of every number but 1, shuffled. The count is prime: no part holds it evenly."""
        dice = random.Random(SEED)
        pieces = [block(any_ship(dice)) for _ in range(1700)]
        numbers = [2, *FAULTS]
        for at in range(299):
            pieces.append(fault(numbers[at % len(numbers)], {**ADA, "imo": imo(dice.randint(100000, 999999))}))
        dice.shuffle(pieces)
        known = self.know(pieces)
        assert len(set(pieces)) == 1999 and len(known.accepted()) == 1700, "the pool isn't what it should be"
        return known
