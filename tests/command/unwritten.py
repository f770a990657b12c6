"""bin/desk where its lines can't be written, or nobody reads them any more."""
import signal

from hold import beginning, faults, said
from outputs import Leaving, Stuffed, Unwritable, Written
from started import at_most, closed, ignoring


def cannot(reason):
    return said(f"desk: standard output: {reason}")


def full(place):
    """Nothing more is done after the first write that fails: the name that isn't there is no longer looked for."""
    data, _, _ = place.some(300)
    path = place.file(data)
    for name, words in (("", ["fleet", path]), (", plain", ["fleet", "--plain", path]), (", help", ["--help"]), (", version", ["--version"]),
                        (", and a name that isn't there", ["fleet", path, "nowhere"])):
        ran = place.desk(*words, out=Written("/dev/full"))
        yield f"desk, a full disk{name}", faults(ran, b"", cannot("No space left on device"), 2)
    yield "desk, a full disk, by pipe", faults(place.desk("fleet", given=data, out=Written("/dev/full")), b"", cannot("No space left on device"), 2)
    ran = place.desk("fleet", given=place.some(70000, refusals=False)[0], out=Written("/dev/full"))
    yield "desk, a full disk, 70,000 blocks", faults(ran, b"", cannot("No space left on device"), 2)
    yield "desk, a full disk and nothing to write", faults(place.desk("fleet", given=b"", out=Written("/dev/full")), b"")


def no_output(place):
    data, _, _ = place.some(3)
    for words in (["fleet"], ["fleet", "--plain"], ["--help"], ["--version"]):
        ran = place.desk(*words, given=data, before=(closed(1),))
        yield f"desk, standard output is closed, {' '.join(words)}", faults(ran, b"", cannot("Bad file descriptor"), 2)
    path = place.file(data)
    ran = place.desk("fleet", path, path, before=(closed(0), closed(1)))
    yield "desk, standard input and output are closed", faults(ran, b"", cannot("Bad file descriptor"), 2)
    ran = place.desk("fleet", given=data, out=Unwritable())
    yield "desk, standard output is for reading alone", faults(ran, b"", cannot("Bad file descriptor"), 2)


def little_room(place):
    """What stands in the file is a beginning of the right lines. With so little the command may have no room for its own work either."""
    data, plain, people = place.some(300)
    path = place.file(data)
    for words, right in ((["fleet"], people), (["fleet", "--plain"], plain)):
        for size in (1000, len(right) - 1):
            ran = place.desk(*words, path, out=Written(place.room / f"room {len(right)} {size}"), before=(at_most(size),))
            yield f"desk, a disk with room for {size} bytes, {' '.join(words)}", faults(ran, beginning(right), said("desk: .+: File too large"), 2)


def much_room(place):
    """In a later part of a long file, at the very last byte, and just enough."""
    data, _, people = place.long
    path = place.file(data)
    for size in (10 ** 7 + 1, len(people) - 1, len(people)):
        ran = place.desk("fleet", path, out=Written(place.room / f"room {size}"), before=(at_most(size),))
        told, status = (b"", 1) if size == len(people) else (cannot("File too large"), 2)
        yield f"desk, a disk with room for {size} bytes of {len(people)}", faults(ran, people[:size], told, status)


def full_pipe(place):
    data, plain, _ = place.some(10000)
    ran = place.desk("fleet", "--plain", given=data, out=Stuffed())
    yield "desk, a pipe that is full", faults(ran, beginning(plain, 4096), cannot("Resource temporarily unavailable"), 2)


def reader_goes(place):
    """Quietly, with status 141, whether or not the signal for it is ignored; what was read is right. That nobody is left running a
    second later is held with every run."""
    data, plain, people = place.long
    path = place.file(data)
    for words, right in ((["fleet"], people.splitlines(True)), (["fleet", "--plain"], plain.splitlines(True))):
        for lines in (0, 1, 100000):
            for name, before in (("", ()), (", signal ignored", (ignoring(signal.SIGPIPE),))):
                given = {"given": data} if lines == 1 else {}
                ran = place.desk(*words, *([] if given else [path]), **given, out=Leaving(lines), before=before)
                yield f"desk, the reader goes after {lines} lines{name}, {' '.join(words)}", faults(ran, b"".join(right[:lines]), b"", 141)


def reader_goes_early(place):
    """From a short run too, whose lines would all fit into the pipe, and from the command's own words."""
    path = place.file(place.some(3)[0])
    for words in (["fleet", path], ["fleet", "--plain", path], ["fleet", path, path], ["--help"], ["--version"]):
        for name, before in (("", ()), (", signal ignored", (ignoring(signal.SIGPIPE),))):
            ran = place.desk(*words, out=Leaving(0), before=before)
            yield f"desk, nobody reads {words[0]} {len(words)}{name}", faults(ran, b"", b"", 141)
    ran = place.desk("fleet", path, "nowhere", out=Leaving(0))
    yield "desk, nobody reads, and a name that isn't there", faults(ran, b"", b"", 141)


def cases(place):
    for part in (full, no_output, little_room, much_room, full_pipe, reader_goes, reader_goes_early):
        yield from part(place)
