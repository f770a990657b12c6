"""bin/desk where something can't be read: it says so, ends with 2, and everything else still has its lines."""
import os

from blocks import MOST
from hold import against, either, faults, said
from inputs import HungUp, Stalled
from outputs import Written
from setting import heading
from started import closed

NOBODY = 65534


def not_files(place):
    """A folder, a name that isn't there, and a file whose first read fails, alone and beside good ones."""
    data, plain, people = place.some(4)
    place.file(data, "before")
    place.file(data[:1024], "after")
    two = place.pool.lines(place.order(4)[:2])
    (place.room / "a folder").mkdir()
    reasons = {"a folder": "Is a directory", "no such file": "No such file or directory", "before/within": "Not a directory",
               "/proc/self/mem": "Input/output error(, after 0 whole blocks)?"}
    for name, reason in reasons.items():
        told = said(f"desk: {name}: {reason}")
        yield f"desk, {name}", faults(place.desk("fleet", name, cwd=place.room), b"", told, 2)
        ran = place.desk("fleet", "before", name, "after", cwd=place.room)
        yield f"desk, {name} between files", faults(ran, heading("before") + people + heading("after") + two, told, 2)
        ran = place.desk("fleet", "--plain", name, "before", cwd=place.room)
        yield f"desk, {name} before a file, plain", faults(ran, plain, told, 2)
    ran = place.desk("fleet", *reasons, cwd=place.room)
    yield "desk, nothing that can be read", faults(ran, b"", said(*(f"desk: {name}: {reason}" for name, reason in reasons.items())), 2)


def without_refusals(place):
    """What can't be read is told by the status also where all else has bounds."""
    data, _, people = place.some(3, refusals=False)
    ran = place.desk("fleet", "good", "nowhere", cwd=place.file(data, "good").parent)
    yield "desk, bounds and a name that isn't there", faults(ran, heading("good") + people, said("desk: nowhere: No such file or directory"), 2)


def no_standard_input(place):
    data, _, people = place.some(3)
    ran = place.desk("fleet", given=place.room)
    yield "desk, standard input is a folder", faults(ran, b"", said("desk: standard input: Is a directory"), 2)
    for words in ([], ["-"]):
        ran = place.desk("fleet", *words, before=(closed(0),))
        yield f"desk, standard input is closed, FILE {' '.join(words)}", faults(ran, b"", said("desk: standard input: Bad file descriptor"), 2)
    path = place.file(data)
    yield "desk, standard input is closed and not wanted", faults(place.desk("fleet", path, before=(closed(0),)), people, status=1)
    ran = place.desk("fleet", path, "-", before=(closed(0),))
    yield "desk, standard input is closed beside a file", faults(ran, heading(path) + people, said("desk: standard input: Bad file descriptor"), 2)


def no_permission(place):
    """Root may read everything: then the command runs as another user, from a copy that he may read."""
    data, _, people = place.some(4)
    folder = place.room / "permission"
    folder.mkdir(mode=0o755)
    for name in ("before", "secret", "after"):
        (folder / name).write_bytes(data)
        (folder / name).chmod(0o000 if name == "secret" else 0o644)
    (folder / "closed folder").mkdir(mode=0o700)
    (folder / "closed folder").chmod(0o000)
    other = {"user": NOBODY, "group": NOBODY, "extra_groups": []} if os.geteuid() == 0 else {}
    how = {"cwd": folder, "root": place.copy("copy"), "env": {"RATTLE_HOME": place.kit_for_all()}, **other}
    for name in ("secret", "closed folder/within"):
        told = said(f"desk: {name}: Permission denied")
        yield f"desk, no permission, {name}", faults(place.desk("fleet", name, **how), b"", told, 2)
        ran = place.desk("fleet", "before", name, "after", **how)
        yield f"desk, no permission between files, {name}", faults(ran, heading("before") + people + heading("after") + people, told, 2)
    yield "desk, as another user", faults(place.desk("fleet", "before", **how), people, status=1)


def failure(kind, count, name="standard input"):
    """Where no whole block was read, how many there were needn't be said."""
    after = f", after {count} whole blocks?" if count else "(, after 0 whole blocks)?"
    return said(f"desk: {name}: {kind.reason}{after}")


def reading_fails(place):
    """The whole blocks have their lines, the piece after them has none."""
    for kind in (Stalled, HungUp):
        for count, rest in ((0, 0), (0, 200), (1, 0), (3, 0), (3, 200), (128, 0), (300, 511)):
            data, _, people = place.some(count, rest)
            people = place.some(count)[2]
            ran = place.desk("fleet", given=kind(data))
            yield f"desk, {count} blocks and {rest} bytes, then {kind.reason}", faults(ran, people, failure(kind, count), 2)
    data, plain, _ = place.some(5, 200, refusals=False)
    right = place.some(5, refusals=False)[1]
    ran = place.desk("fleet", "--plain", given=Stalled(data))
    yield "desk, reading fails, plain", faults(ran, right, failure(Stalled, 5), 2)


def reading_fails_beside(place):
    """The files before and after still have all their lines."""
    data, _, people = place.some(6, 300)
    whole = place.some(6)[2]
    path = place.file(data)
    choices = [heading(path) + people + heading(name) + whole + heading(path) + people for name in ("-", "standard input")]
    ran = place.desk("fleet", path, "-", path, given=HungUp(data))
    yield "desk, reading fails between two files", faults(ran, either(*choices), failure(HungUp, 6), 2)


def reading_fails_late(place):
    """In the second part of a long input. The count may be written with or without a comma."""
    count = MOST + 700
    data, _, _ = place.some(count, 99, refusals=False)
    right = place.some(count, refusals=False)[1]
    ran = place.desk("fleet", "--plain", given=HungUp(data))
    yield f"desk, {count} blocks and 99 bytes, then {HungUp.reason}", faults(ran, right, failure(HungUp, f"({count}|{count:,})"), 2)


def nobody_to_tell(place):
    """Where standard error is closed or full too, the status still tells it, and no message goes into a file."""
    data, _, people = place.some(3)
    path = place.file(data)
    for name, how in (("closed", {"before": (closed(2),)}), ("closed with its input", {"before": (closed(2), closed(0))}),
                      ("full", {"err": Written("/dev/full")})):
        ran = place.desk("fleet", path, "nowhere", path, **how)
        yield f"desk, standard error {name}", faults(ran, heading(path) + people + heading(path) + people, status=2)
    yield "desk, its files are as they were", against("the file", path.read_bytes(), data)


def cases(place):
    for part in (not_files, without_refusals, no_standard_input, no_permission):
        yield from part(place)
    for part in (reading_fails, reading_fails_beside, reading_fails_late, nobody_to_tell):
        yield from part(place)
