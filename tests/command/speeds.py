"""bin/desk speeds: speeds of every size and of ships with ranges, files of every kind, long ones, and what can't be read or written. What is
said of both commands the other files try with `desk fleet` in full, and this one once with `desk speeds`."""
import collections
import signal

from blocks import BLOCK, BROTHERS, MOST, KnownSpeeds, block, fault
from hold import against, either, faults, said
from inputs import HungUp, Stalled
from outputs import Collected, Leaving, Written
from setting import heading
from started import closed, ignoring, run
from terminal import progress, summed

KNOTS = "speed at least {0}, at most {0} knots"
BOTH = "speed of the most favourable ship at least {0}, at most {0} knots, of the least favourable at least {1}, at most {1} knots"
# What changes Ada Holm, and what is said of her then. A range of rated power alone changes no declared speed.
SHIPS = [
    ({}, KNOTS.format("14.000000")),
    ({"speed_low": 500, "speed_high": 500}, KNOTS.format("5.000000")),
    ({"speed_low": 6000, "speed_high": 6000}, KNOTS.format("60.000000")),
    ({"speed_low": 1001, "speed_high": 1001}, KNOTS.format("10.010000")),
    ({"speed_low": 999, "speed_high": 1000}, BOTH.format("10.000000", "9.990000")),
    ({"speed_low": 500, "speed_high": 6000}, BOTH.format("60.000000", "5.000000")),
    ({"speed_low": 1390, "mcr_high0": 8100, "sfc_high0": 1850}, BOTH.format("14.000000", "13.900000")),
    ({"sfc_high0": 1850, "aux_high": 2150}, KNOTS.format("14.000000")),
    ({"mcr_high0": 8100}, KNOTS.format("14.000000")),
    ({"layout": 2, "edition": 1, "ice": 1, "speed_high": 1430}, BOTH.format("14.300000", "14.000000")),
    ({"layout": 2, "edition": 2, "lightweight": 9000}, KNOTS.format("14.000000")),
]


def ships(place):
    """Whatever her size, edition and ranges, a line is the IMO number and the speed, with six digits behind the point."""
    data = b"".join(block(**changed) for changed, _ in SHIPS)
    right = "".join(f"block {at}: IMO 9074729, {words}\n" for at, (_, words) in enumerate(SHIPS)).encode()
    ran = place.desk("speeds", given=data)
    yield "desk speeds, ships of every kind", faults(ran, right)
    came = dict(enumerate(ran.out.splitlines(True)))
    for at, line in enumerate(right.splitlines(True)):
        yield f"desk speeds, Ada Holm with {SHIPS[at][0] or 'nothing changed'}", against("line", came.get(at, b""), line)
    known = place.independent.know([block(BROTHERS), block()]).speeds()
    yield "desk speeds, ranges, plain", faults(place.desk("speeds", "--plain", given=known.data([0, 1])), known.lines([0, 1], True))


def sample(place):
    """The sample's lines are the program's, said for people: those of trials and statistical speeds too, whose bounds differ. The same
    blocks are refused as by `fleet`."""
    data = (place.root / "sample" / "fleet.blocks").read_bytes()
    program = run(place.programs["speeds"], data)
    yield "desk speeds, the sample, plain", faults(place.desk("speeds", "--plain", "sample/fleet.blocks"), program.out, status=1)
    pieces = [data[at:at + BLOCK] for at in range(0, len(data), BLOCK)]
    words = [line.split(" ", 1)[1] for line in program.out.decode().splitlines()]
    known = KnownSpeeds(pieces, words, place.independent.table)
    yield "desk speeds, the sample", faults(place.desk("speeds", "sample/fleet.blocks"), known.lines(range(len(pieces))), status=1)
    between = [line for line in words if "refused" not in line and line.split()[1] != line.split()[2]]
    yield "speeds, the sample has speeds between bounds", [] if len(between) > 5 else [f"only {between}"]
    refused = [[line if "refused" in line else "" for line in lines] for lines in (words, place.independent.answers(data))]
    yield "speeds, the sample's refusals are fleet's", [] if refused[0] == refused[1] else [f"they are {refused[0]}; right is {refused[1]}"]


def files(place):
    """One input has no heading, several have; an empty file has its heading alone, a name that isn't there none."""
    data, plain, people = place.some(4, command="speeds")
    first, empty = place.file(data, "first"), place.file(b"", "empty")
    for name, words, given in (("no FILE", [], data), ("-", ["-"], data), ("-- and one file", ["--", first], None)):
        yield f"desk speeds, {name}", faults(place.desk("speeds", *words, given=given), people, status=1)
    ran = place.desk("speeds", first, empty, first)
    yield "desk speeds, several files", faults(ran, heading(first) + people + heading(empty) + heading(first) + people, status=1)
    yield "desk speeds, several files, plain", faults(place.desk("speeds", "--plain", first, empty, first), plain + plain, status=1)
    choices = [heading("first") + people + heading(name) + people for name in ("-", "standard input")]
    ran = place.desk("speeds", "first", "-", given=data, cwd=place.room)
    yield "desk speeds, a file and standard input", faults(ran, either(*choices), status=1)
    ran = place.desk("speeds", first, "nowhere", first)
    told = said("desk: nowhere: No such file or directory")
    yield "desk speeds, a name that isn't there", faults(ran, heading(first) + people + heading(first) + people, told, 2)
    (place.room / "fleet").write_bytes(data)
    yield "desk speeds, a file named fleet", faults(place.desk("speeds", "fleet", cwd=place.room), people, status=1)
    good, _, right = place.some(3, refusals=False, command="speeds")
    yield "desk speeds, no refusal", faults(place.desk("speeds", given=good), right)
    yield "desk speeds, an empty file", faults(place.desk("speeds", empty), b"")


def cut(place):
    """A last piece of less than 512 bytes is refused with 1."""
    data, plain, people = place.some(2, 256, refusals=False, command="speeds")
    yield "desk speeds, 2 blocks and 256 bytes", faults(place.desk("speeds", place.file(data)), people, status=1)
    yield "desk speeds, 2 blocks and 256 bytes, plain", faults(place.desk("speeds", "--plain", given=data), plain, status=1)


def long_files(place):
    """Beyond what the program takes at once, and over several parts: in order and numbered on, by pipe and by name. A terminal is told how
    far it is, and the summary."""
    data, plain, people = place.some(MOST + 5000, 99, command="speeds")
    yield "desk speeds, a long file by pipe, plain", faults(place.desk("speeds", "--plain", given=data), plain, status=1)
    counts = collections.Counter(int(line.split()[2]) for line in plain.splitlines() if b"refused" in line)
    ships = MOST + 5001
    told = progress(summed(ships, ships - sum(counts.values()), counts), ships)
    ran = place.desk("speeds", place.file(data), err=Collected(True))
    yield "desk speeds, a long file and how far it is", faults(ran, people, told, 1)
    data, plain, _ = place.some(MOST, refusals=False, command="speeds")
    yield "desk speeds, as many blocks as the program takes, plain", faults(place.desk("speeds", "--plain", given=data), plain)


def unread(place):
    """The whole blocks have their lines, the piece after them has none; the other files are still read."""
    data, _, people = place.some(3, 200, command="speeds")
    whole = place.some(3, command="speeds")[2]
    for kind in (Stalled, HungUp):
        told = said(f"desk: standard input: {kind.reason}, after 3 whole blocks")
        yield f"desk speeds, 3 blocks, then {kind.reason}", faults(place.desk("speeds", given=kind(data)), whole, told, 2)
    path = place.file(data)
    ran = place.desk("speeds", place.room, path)
    yield "desk speeds, a folder", faults(ran, heading(path) + people, said(f"desk: {place.room}: Is a directory"), 2)
    ran = place.desk("speeds", before=(closed(0),))
    yield "desk speeds, standard input is closed", faults(ran, b"", said("desk: standard input: Bad file descriptor"), 2)


def unwritten(place):
    data, _, people = place.some(300, command="speeds")
    path = place.file(data)
    for words in ([path], ["--plain", path]):
        ran = place.desk("speeds", *words, out=Written("/dev/full"))
        yield f"desk speeds, a full disk, {len(words)} words", faults(ran, b"", said("desk: standard output: No space left on device"), 2)
    ran = place.desk("speeds", path, before=(closed(1),))
    yield "desk speeds, standard output is closed", faults(ran, b"", said("desk: standard output: Bad file descriptor"), 2)
    for lines in (0, 1):
        for name, before in (("", ()), (", signal ignored", (ignoring(signal.SIGPIPE),))):
            ran = place.desk("speeds", path, path, out=Leaving(lines), before=before)
            right = b"".join((heading(path) + people).splitlines(True)[:lines])
            yield f"desk speeds, the reader goes after {lines} lines{name}", faults(ran, right, b"", 141)


def locales(place):
    """The words are the same in every locale, those of letters beyond ASCII too."""
    known = place.independent.know([block(), fault(8), fault(18)]).speeds()
    ran = place.desk("speeds", given=known.data(range(3)), env={"LC_ALL": "C", "LANG": "C", "PYTHONUTF8": "0", "PYTHONCOERCECLOCALE": "0"})
    yield "desk speeds, locale C", faults(ran, known.lines(range(3)), status=1)


def cases(place):
    for part in (ships, sample, files, cut, long_files, unread, unwritten, locales):
        yield from part(place)
