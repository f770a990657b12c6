"""The programs `fleet` and `speeds` alone: what can't be read or written is told from the end of the input and from success. `fleet` has
every case; of `speeds` are those that its name, its longer lines and its own count of blocks could change."""
import os
import signal

from blocks import ADA, block
from hold import beginning, faults
from inputs import HungUp, Opened, Stalled
from outputs import Leaving, Stuffed, Unwritable, Written
from started import at_most, closed, ignoring, run

# Whole blocks and bytes after them. A program reads 65,536 bytes at a time, which is 128 blocks.
AMOUNTS = {
    "fleet": [(0, 0), (0, 1), (0, 200), (0, 511), (1, 0), (3, 0), (3, 200), (127, 511), (128, 0), (128, 1), (129, 0), (256, 0), (300, 0),
              (300, 200)],
    "speeds": [(0, 511), (3, 200), (128, 1), (300, 200)],
}
LEAVING = {"fleet": (0, 1, 5000), "speeds": (0, 5000)}
# Her speed by method 4 is over a hundred knots: 479 MW in a refrigerated cargo ship of 100 t.
FASTEST = {**ADA, "type": 5, "method": 4, "volume": 0, "deadweight": 100, "speed_low": 0, "speed_high": 0, "engines": 4,
           **{f"{name}{k}": figure for k in range(4) for name, figure in (
               ("mcr_low", 120000), ("mcr_high", 120000), ("sfc_low", 1800), ("sfc_high", 1800), ("fuel", 3), ("source", 1))}}


def unread(name):
    return f"{name}: cannot read standard input\n".encode()


def unwritten(name):
    return f"{name}: cannot write standard output\n".encode()


def no_input(place, name):
    program = place.programs[name]
    for what, given, before in (("a folder", place.room, ()), ("a closed one", None, (closed(0),)),
                                ("one for writing alone", Opened(place.file(b""), os.O_WRONLY), ())):
        yield f"{name}, input is {what}", faults(run(program, given, before=before), b"", unread(name))
    with_kit, env = [place.root / "bin" / "with-kit", name], {"RATTLE_HOME": place.kit}
    yield f"bin/with-kit {name}, input is a folder", faults(run(with_kit, place.room), b"", unread(name))
    yield f"bin/with-kit {name}, input is closed", faults(run(with_kit, before=(closed(0),), env=env), b"", unread(name))
    ran = run(with_kit, place.some(3)[0], out=Written("/dev/full"), env=env)
    yield f"bin/with-kit {name}, a full disk", faults(ran, b"", unwritten(name))


def reading_fails(place, name):
    """The whole blocks have their lines, the piece has none; with a proper end it has."""
    program = place.programs[name]
    for count, rest in AMOUNTS[name]:
        data, plain, _ = place.some(count, rest, command=name)
        whole = place.some(count, command=name)[1]
        title = f"{name}, {count} blocks and {rest} bytes"
        yield f"{title}, then EAGAIN", faults(run(program, Stalled(data)), whole, unread(name))
        yield f"{title}, then EIO", faults(run(program, HungUp(data)), whole, unread(name))
        yield f"{title}, then the end", faults(run(program, data), plain)


def writing_fails(place, name):
    program = place.programs[name]
    data, plain, _ = place.some(300, 200, command=name)
    full, no_output = {"out": Written("/dev/full")}, {"before": (closed(1),)}
    yield f"{name}, a full disk", faults(run(program, data, **full), b"", unwritten(name))
    yield f"{name}, output closed", faults(run(program, data, **no_output), b"", unwritten(name))
    yield f"{name}, output for reading alone", faults(run(program, data, out=Unwritable()), b"", unwritten(name))
    for size in (1, 1000, 4096, len(plain) - 1) if name == "fleet" else (1000, len(plain) - 1):
        ran = run(program, data, out=Written(place.room / f"{name} limit {size}"), before=(at_most(size),))
        yield f"{name}, a disk with room for {size} bytes", faults(ran, plain[:size], unwritten(name))
    ran = run(program, data, out=Written(place.room / f"{name} just enough"), before=(at_most(len(plain)),))
    yield f"{name}, a disk with just enough room", faults(ran, plain)
    ran = run(program, Stalled(data), out=Written("/dev/full"))
    yield f"{name}, reading fails and then writing", faults(ran, b"", unwritten(name))
    ran = run(program, Stalled(b"half"), out=Written("/dev/full"))
    yield f"{name}, reading fails and nothing is to be written", faults(ran, b"", unread(name))
    for what, how in (("a full disk", {"out": Written("/dev/full")}), ("output closed", no_output)):
        yield f"{name}, no input and {what}", faults(run(program, b"", **how), b"")


def full_pipe(place, name):
    data, plain, _ = place.some(10000, command=name)
    ran = run(place.programs[name], data, out=Stuffed())
    yield f"{name}, a pipe that is full", faults(ran, beginning(plain, 4096), unwritten(name))


def reader_goes(place, name):
    program = place.programs[name]
    data, plain, _ = place.some(20000, command=name)
    for lines in LEAVING[name]:
        right = b"".join(plain.splitlines(True)[:lines])
        ran = run(program, data, out=Leaving(lines))
        yield f"{name}, the reader goes after {lines} lines", faults(ran, right, b"", 128 + signal.SIGPIPE)
        ran = run(program, data, out=Leaving(lines), before=(ignoring(signal.SIGPIPE),))
        yield f"{name}, the reader goes after {lines} lines, signal ignored", faults(ran, right, b"", 128 + signal.SIGPIPE)


def most_blocks(place, name):
    """After 65,536 blocks it ends by itself, though the writer stays: a read that would fail there isn't made."""
    data, plain, _ = place.some(65536, refusals=False, command=name)
    for what, more in (("65,536 blocks", b""), ("65,536 blocks and more", data[:700])):
        if more or name == "fleet":
            yield f"{name}, {what}, then EIO", faults(run(place.programs[name], HungUp(data + more)), plain)


def longest_lines(place):
    """Four speeds of nine digits: each line is that of the ship alone, but for its number; and that speed is the rules' own."""
    ship, count = block(FASTEST), 20000
    words = run(place.programs["speeds"], ship).out.split()
    average, margin, power = 1.06 * 100 ** 0.31518, 0.95, 0.0272 * 100 ** 1.38634
    millionths = 10 ** 6 * margin * average * (4 * 0.75 * 120000 / (0.75 * power)) ** (1 / 3)
    fits = len(words) == 6 and all(len(word) == 9 and abs(int(word) / millionths - 1) < 2e-6 for word in words[2:])
    yield "speeds, a speed of nine digits", [] if fits else [f"it is {words}; right is about {millionths:.0f}"]
    right = b"".join([b" ".join([b"%d" % number, *words[1:]]) + b"\n" for number in range(count)])
    yield "speeds, the longest lines", faults(run(place.programs["speeds"], ship * count), right)


def cases(place):
    for name in ("fleet", "speeds"):
        for part in (no_input, reading_fails, writing_fails, full_pipe, reader_goes, most_blocks):
            yield from part(place, name)
    yield from longest_lines(place)
