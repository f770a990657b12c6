"""bin/desk where its program isn't there, or isn't to be trusted: a loader in a made-up kit runs the right program and spoils what it says.
`desk fleet` has every case; of `desk speeds` are those that depend on its own lines and on its own program."""
import os
import sys

from blocks import ADA, MOST, block
from hold import beginning, faults, said
from setting import PROGRAMS, heading

MARKED = block({**ADA, "imo": 1000007})
LOADER = '''#!{python}
import os, signal, subprocess, sys
data = b"" if {unread} else sys.stdin.buffer.read()
lines = subprocess.run({words} + sys.argv[-1:], input=data, stdout=subprocess.PIPE).stdout.splitlines(True)
status, message, ended_by = 0, "", None
if {marked} in data or {unread}:
    {spoil}
sys.stdout.buffer.write(b"".join(lines))
sys.stdout.flush()
sys.stderr.write(message)
sys.stderr.flush()
if ended_by:
    signal.signal(ended_by, signal.SIG_DFL) if ended_by != signal.SIGKILL else None
    os.kill(os.getpid(), ended_by)
sys.exit(status)
'''
# What is done to the lines of five blocks, or more.
SPOILS = {
    "loses the first line": "del lines[0]", "loses a line": "del lines[2]", "loses the last line": "del lines[-1]",
    "loses all lines": "lines = []",
    "doubles a line": "lines.insert(2, lines[2])", "doubles the last line": "lines.append(lines[-1])",
    "says a line too many": "lines.append(b'%d refused 1\\n' % len(lines))",
    "exchanges two lines": "lines[1:3] = lines[2:0:-1]",
    "says another number": "lines[2] = b'7' + lines[2][1:]",
    "counts from 1": "lines = [b'%d %b' % (n, l.split(b' ', 1)[1]) for n, l in enumerate(lines, 1)]",
    "says half a line at the end": "lines[-1] = lines[-1][:-9]", "leaves out the last line break": "lines[-1] = lines[-1][:-1]",
    "leaves out a line break": "lines[2] = lines[2][:-1]", "leaves a line empty": "lines[2] = b'\\n'",
    "leaves out a bound": "lines[2] = b'2 9074729 5170857\\n'", "says words for figures": "lines[2] = b'2 9074729 some more\\n'",
    "refuses by no number": "lines[2] = b'2 refused\\n'",
    "says what is no text": "lines[2] = b'2 \\xff\\xfe 1 2\\n'",
    "says something on standard error": "message = 'fleet: cannot write standard output\\n'",
    "ends by a signal": "ended_by = signal.SIGKILL", "ends by the signal of a closed pipe": "ended_by = signal.SIGPIPE",
    "ends by a signal after two lines": "lines, ended_by = lines[:2], signal.SIGSEGV",
    "ends with a status": "status = 3", "ends with a status and no line": "lines, status = [], 1", "ends with status 141": "status = 141",
    "says a speed": "lines[2] = b'2 1000007 14000000 14000000 14000000 14000000\\n'",
}
# Those of them that are tried with `desk speeds` too, and what else can be done to its lines.
SHARED = ("loses a line", "loses all lines", "doubles a line", "exchanges two lines", "says another number", "says half a line at the end",
          "says something on standard error", "ends with a status")
SPEED_SPOILS = {
    **{name: SPOILS[name] for name in SHARED},
    "says an index": "lines[2] = b'2 1000007 5170857 5170858\\n'",
    "says indices alone": "lines = [b' '.join(line.split()[:4]) + b'\\n' for line in lines]",
    "leaves out a figure": "lines[2] = b' '.join(lines[2].split()[:5]) + b'\\n'",
    "says a figure too many": "lines[2] = lines[2][:-1] + b' 14000000\\n'",
    "says a word for a figure": "lines[2] = lines[2].replace(b' 14000000\\n', b' fourteen\\n')",
}


def kit(place, name, spoil, unread=False):
    """A kit whose loader runs the program and does that to what it says of a marked block; or it reads nothing at all."""
    folder = place.room / "kits" / name / "toolchain" / "lib"
    folder.mkdir(parents=True, exist_ok=True)
    loader = folder / "ld-linux-x86-64.so.2"
    loader.write_text(LOADER.format(python=sys.executable, words=repr(place.fleet[:-1]), marked=repr(MARKED), spoil=spoil, unread=unread))
    loader.chmod(0o755)
    return {"RATTLE_HOME": str(place.room / "kits" / name)}


def unspoiled(place):
    """The made-up kit alone is no fault: what the next cases see comes from the spoiling."""
    known, env = place.independent.know([MARKED] * 5), kit(place, "right", "pass")
    for command, lines in (("fleet", known.lines(range(5))), ("speeds", known.speeds().lines(range(5)))):
        yield f"desk {command}, a loader that spoils nothing", faults(place.desk(command, given=known.data(range(5)), env=env), lines)


def short(place, command, spoils, plain_ones):
    """What was printed is a beginning of the right lines, in whole lines: no spoiled one is among them."""
    known = place.independent.know([block(), block(type=9), MARKED, block(ice=1), block()])
    data, known = known.data(range(5)), known if command == "fleet" else known.speeds()
    people, plain = known.lines(range(5)), known.lines(range(5), True)
    for name, spoil in spoils.items():
        ran = place.desk(command, given=data, env=kit(place, name, spoil))
        yield f"desk {command}, a program that {name}", faults(ran, beginning(people, whole=True), said("desk: .+"), 2)
    for name in plain_ones:
        ran = place.desk(command, "--plain", place.file(data), env={"RATTLE_HOME": str(place.room / "kits" / name)})
        yield f"desk {command}, a program that {name}, plain", faults(ran, beginning(plain, whole=True), said("desk: .+"), 2)


def of_fleet(place):
    plain_ones = ("loses a line", "doubles a line", "says another number", "says half a line at the end", "ends with a status", "says a speed")
    yield from short(place, "fleet", SPOILS, plain_ones)


def of_speeds(place):
    yield from short(place, "speeds", SPEED_SPOILS, ("doubles a line", "says an index", "says indices alone"))


def in_a_later_part(place):
    """Only the part with the marked block is spoiled: the parts before have all their lines."""
    order = place.order(2 * MOST, 3, False)
    data = place.pool.data(order) + MARKED
    right, least = place.pool.lines(order, True) + b"%d 1000007 5170857 5170858\n" % len(order), len(place.pool.lines(order[:MOST], True))
    for name in ("loses the last line", "says something on standard error"):
        ran = place.desk("fleet", "--plain", given=data, env={"RATTLE_HOME": str(place.room / "kits" / name)})
        yield f"desk, a program that {name} in a later part", faults(ran, beginning(right, least, True), said("desk: .+"), 2)


def unread(place):
    """A program that is gone before it has read: that is no closed pipe of the desk's own."""
    data, _, people = place.some(5000)
    for name, spoil in (("reads nothing", "lines = []"), ("reads nothing and ends with a status", "lines, status = [], 9")):
        env = kit(place, name, spoil, unread=True)
        ran = place.desk("fleet", given=data, env=env)
        yield f"desk, a program that {name}", faults(ran, b"", said("desk: .+"), 2)


def in_one_of_two(place):
    """Where the second file is spoiled, the first is still right."""
    known = place.independent.know([block()] * 4 + [MARKED])
    first, second = place.file(known.data(range(4))), place.file(known.data(range(5)))
    ran = place.desk("fleet", first, second, env={"RATTLE_HOME": str(place.room / "kits" / "loses a line")})
    begun = heading(first) + known.lines(range(4))
    right = begun + heading(second) + known.lines(range(5))
    yield "desk, a line lost in the second file", faults(ran, beginning(right, len(begun), True), said("desk: .+"), 2)


def not_there(place):
    """How to make the program is said, in one line, however many files there are."""
    copy = place.copy("without a program", programs=())
    data, _, _ = place.some(3)
    path = place.file(data)
    for name, words, given in (("a file", ["fleet", path], None), ("a pipe", ["fleet"], data), ("plain", ["fleet", "--plain", path], None),
                               ("two files", ["fleet", path, path], None), ("two files", ["speeds", path, path], None)):
        told = said(f"desk: .*bin/prove {words[0]}\\b.*")
        yield f"desk {words[0]}, no program, {name}", faults(place.desk(*words, given=given, root=copy), b"", told, 2)


def one_alone(place):
    """A command needs its own program alone, and asks for no other. The folder is named in the message, so it bears neither's name."""
    for there, gone in (PROGRAMS, PROGRAMS[::-1]):
        copy = place.copy(f"only {PROGRAMS.index(there)}", programs=(there,))
        data, _, people = place.some(3, command=there)
        yield f"desk {there}, no {gone}", faults(place.desk(there, given=data, root=copy), people, status=1)
        told = said(f"desk: (?!.*{there}).*bin/prove {gone}\\b.*")
        yield f"desk {gone}, only {there}", faults(place.desk(gone, given=data, root=copy), b"", told, 2)


def not_a_program(place):
    """Another's lines aren't the command's own either; those of `fleet` have two figures less."""
    data, _, _ = place.some(3, refusals=False)
    for command, other in (PROGRAMS, PROGRAMS[::-1]):
        copy = place.copy(f"with another program for {command}")
        program = copy / "target" / "bin" / command
        for name, text in (("an empty file", b""), ("a text", b"#!/bin/sh\nexit 0\n"), (other, (program.parent / other).read_bytes())):
            program.write_bytes(text)
            yield f"desk {command}, in its program's place {name}", faults(place.desk(command, given=data, root=copy), b"", said("desk: .+"), 2)


def no_kit(place):
    """A kit without a loader, one whose loader isn't executable, and an rt that fails."""
    data, _, _ = place.some(3)
    for name in ("nowhere", "kits"):
        ran = place.desk("fleet", given=data, env={"RATTLE_HOME": str(place.room / name)})
        yield f"desk, a kit without a loader, {name}", faults(ran, b"", said("desk: .+"), 2)
    env = kit(place, "shut", "pass")
    for loader in (place.room / "kits" / "shut").rglob("ld-linux*"):
        loader.chmod(0o644)
    yield "desk, a loader that isn't executable", faults(place.desk("fleet", given=data, env=env), b"", said("desk: .+"), 2)
    folder = place.room / "another rt"
    folder.mkdir()
    (folder / "rt").write_text("#!/bin/sh\necho 'rt: no kit' >&2\nexit 1\n")
    (folder / "rt").chmod(0o755)
    ran = place.desk("fleet", given=data, env={"RATTLE_HOME": None, "PATH": f"{folder}:{os.environ['PATH']}"})
    yield "desk, an rt that fails", faults(ran, b"", said("desk: .+"), 2)


def cases(place):
    for part in (unspoiled, of_fleet, of_speeds, in_a_later_part, unread, in_one_of_two, not_there, one_alone, not_a_program, no_kit):
        yield from part(place)
