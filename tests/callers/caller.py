"""The library called from Python by ctypes: for every piece of a file it holds the seven calls to each other and to the promises of the
C header, and prints the line that `fleet` prints for such a block, then the one that `speeds` prints.

    caller.py LIBRARY FILE   a shared object; pieces one after another, each its length in four bytes, the lowest first, and its bytes
    caller.py LIBRARY        prints size and alignment of each struct and the places of its parts"""
import ctypes
import struct
import sys


class Pair(ctypes.Structure):
    _fields_ = [("lower", ctypes.c_double), ("upper", ctypes.c_double)]


class Answer(ctypes.Structure):
    _fields_ = [("refusal", ctypes.c_uint8), ("lower", ctypes.c_uint64), ("upper", ctypes.c_uint64), ("pair", Pair)]


class Knots(ctypes.Structure):
    _fields_ = [("lower", ctypes.c_uint64), ("upper", ctypes.c_uint64)]


class Speed(ctypes.Structure):
    _fields_ = [("refusal", ctypes.c_uint8), ("most", Knots), ("least", Knots)]


library = ctypes.CDLL(sys.argv[1])
CALLS = {"ask": Answer, "refusal": ctypes.c_uint8, "lower": ctypes.c_uint64, "upper": ctypes.c_uint64, "doubles": Pair, "speeds": Speed}
for name, gives in CALLS.items():
    call = getattr(library, "yagmurzol_" + name)
    call.argtypes, call.restype = [ctypes.c_char_p, ctypes.c_size_t], gives
library.yagmurzol_index.argtypes = [ctypes.c_char_p, ctypes.c_size_t, Knots, Knots]
library.yagmurzol_index.restype = Answer


def hold(kept, promise):
    if not kept:
        sys.exit(f"piece {number}: {promise}")


def parts(refusal, lower, upper, pair):
    """All parts, the doubles bit for bit."""
    return refusal, lower, upper, struct.pack("<2d", pair.lower, pair.upper)


def whole(answer):
    return parts(answer.refusal, answer.lower, answer.upper, answer.pair)


def hold_promises(answer, length):
    hold((answer.refusal == 1) == (length != 512), "refusal 1 goes with every length but 512")
    hold((answer.refusal == 0) == (answer.upper > 0), "there are bounds exactly where there is no refusal")
    hold(answer.refusal == 0 or answer.lower == 0, "no lower bound goes with a refusal")
    hold(answer.lower <= answer.upper < 2 ** 53, "the lower bound is at most the upper one, and that is below 2 to the 53rd")
    for double, bound in ((answer.pair.lower, answer.lower), (answer.pair.upper, answer.upper)):
        hold(double.is_integer() and int(double) == bound, "a double is the whole bound")
        hold(struct.pack("<d", bound) == struct.pack("<d", double), "a double is the whole bound bit for bit")


def figures(speed):
    """The most favourable ship's lower and upper bound, then the least favourable's."""
    return [speed.most.lower, speed.most.upper, speed.least.lower, speed.least.upper]


def hold_speed(speed, answer):
    hold(speed.refusal == answer.refusal, "yagmurzol_speeds gives the answer's refusal")
    for knots in (speed.most, speed.least):
        hold((speed.refusal == 0) == (knots.upper > 0), "there is a speed exactly where there is no refusal")
        hold(knots.lower <= knots.upper < 2 ** 53, "a speed's lower bound is at most its upper one, and that is below 2 to the 53rd")
        hold(10 ** 6 * (knots.upper - knots.lower - 2) <= knots.upper, "a speed's bounds are a millionth and 2 apart, or less")


def index(piece, length, speed):
    return whole(library.yagmurzol_index(piece, length, Knots(*speed[:2]), Knots(*speed[2:])))


def others(own):
    """Each figure a little and far off, the ships exchanged, the bounds exchanged, the ship's before, none, and the greatest."""
    moved = [own[:at] + [(own[at] + step) % 2 ** 64] + own[at + 1:] for at in range(4) for step in (1, -1, 2 ** 32)]
    return moved + [own[2:] + own[:2], [own[1], own[0], own[3], own[2]], before[1], [0] * 4, [2 ** 64 - 1] * 4]


def ask_with_others(piece, answer, speed):
    """After another ship's speed the ship's own still gives her index: nothing is kept from one call to the next. Pairs that aren't her
    own are refusal 13, after every refusal of the block itself. The first pieces have all of them, each later one a single one, in turn."""
    own, right, length = figures(speed), whole(answer), len(piece)
    chosen = others(own) if number < 256 else others(own)[number % 17:][:1]
    refused = (13, 0, 0, bytes(16)) if answer.refusal == 0 else right
    hold(figures(library.yagmurzol_speeds(before[0], 512)) == before[1], "another ship's speed is what it was")
    hold(index(piece, length, own) == right, "another ship's speed in between changes no index")
    for other in chosen:
        hold(index(piece, length, other) == (right if other == own else refused), "any other speed is refusal 13, after the block's own")


def ask(piece, length):
    """All seven calls, and the first one again."""
    answer = library.yagmurzol_ask(piece, length)
    hold_promises(answer, length)
    singles = [getattr(library, "yagmurzol_" + name)(piece, length) for name in ("refusal", "lower", "upper", "doubles")]
    hold(parts(*singles) == whole(answer), "the four calls give the parts of the answer")
    hold(whole(library.yagmurzol_ask(piece, length)) == whole(answer), "asked again it answers the same")
    speed = library.yagmurzol_speeds(piece, length)
    hold_speed(speed, answer)
    hold(index(piece, length, figures(speed)) == whole(answer), "the index from the ship's own speed is the answer")
    return answer, speed


def lines(piece):
    """The lines of `fleet` and of `speeds`. A ship is the other one of the next."""
    global before
    copy = bytes(bytearray(piece))  # other memory with the same bytes
    answer, speed = ask(piece, len(piece))
    ask_with_others(piece, answer, speed)
    hold(piece == copy, "the lent bytes are unchanged")
    if not piece:
        nothing, nowhere = ask(None, 0)
        same = whole(nothing) == whole(answer) and figures(nowhere) == figures(speed)
        hold(same, "the answer is the same of no bytes at a null pointer")
    if answer.refusal:
        return f"{number} refused {answer.refusal}\n{number} refused {speed.refusal}\n"
    before = piece, figures(speed)
    ship = f"{number} {int.from_bytes(piece[4:8], 'little')}"
    return f"{ship} {answer.lower} {answer.upper}\n{ship} {' '.join(map(str, figures(speed)))}\n"


def print_shapes():
    for name, shape in (("answer", Answer), ("pair", Pair), ("speed_answer", Speed), ("knots", Knots)):
        places = [getattr(shape, part).offset for part, _ in shape._fields_]
        print(f"{name} {ctypes.sizeof(shape)} by {ctypes.alignment(shape)}:", *places)


if len(sys.argv) < 3:
    print_shapes()
    sys.exit()
number, before = 0, (bytes(512), [0] * 4)
with open(sys.argv[2], "rb") as file:
    while head := file.read(4):
        length = int.from_bytes(head, "little")
        sys.stdout.write(lines(file.read(length)))
        number += 1
