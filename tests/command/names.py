"""bin/desk's files: none, standard input, one, several with headings, empty ones and cut ones, and names of every kind."""
import os
import re

from hold import brief, either, faults
from setting import heading
from started import run

# Names, and how they are shown.
NAMES = {
    b"two words": "two words", b"-dash": "-dash", b"--plain": "--plain", b"line\nbreak": "line\\nbreak",
    b"break\n": "break\\n", b"not \xff UTF-8 \xc3": "not \\xff UTF-8 \\xc3", b"red \x1b[31m": "red \\x1b[31m", b"del \x7f": "del \\x7f",
    b"back\\slash": "back\\\\slash", b"no\\nbreak": "no\\\\nbreak", "F\u00e4hre".encode(): "F\u00e4hre", b"==> a <==": "==> a <==",
    b"it's \"$(x)`y` *": "it's \"$(x)`y` *", b" ": " ",
}
# Characters that can't be printed either, of which only is said that they aren't shown as they are.
OTHERS = [b"a\tb", b"a\rb", b"a\x01b", "a\u0085b".encode(), "a\u202eb".encode()]


def inputs(place):
    """One input has no heading, however it comes."""
    data, plain, people = place.some(5, refusals=False)
    path = place.file(data, "one.blocks")
    for name, words, given in (("no FILE", [], data), ("no FILE, a file by <", [], path), ("-", ["-"], data), ("--", ["--"], data),
                               ("one file", [path], None), ("-- and one file", ["--", path], None)):
        yield f"desk, {name}", faults(place.desk("fleet", *words, given=given), people)
    for name, words, given in (("no FILE", [], data), ("-", ["-"], data), ("one file", [path], None), ("-- and one file", ["--", path], None)):
        yield f"desk, {name}, plain", faults(place.desk("fleet", "--plain", *words, given=given), plain)


def several(place):
    data, plain, people = place.some(4)
    first, second, empty = place.file(data, "first"), place.file(data[512:1024], "second"), place.file(b"", "empty")
    other = place.pool.lines(place.order(4)[1:2])
    ran = place.desk("fleet", "first", "second", cwd=place.room)
    yield "desk, two files", faults(ran, heading("first") + people + heading("second") + other, status=1)
    ran = place.desk("fleet", second, first, second)
    right = heading(second) + other + heading(first) + people + heading(second) + other
    yield "desk, a file twice", faults(ran, right, status=1)
    ran = place.desk("fleet", "--plain", first, second)
    yield "desk, two files, plain", faults(ran, plain + place.pool.lines(place.order(4)[1:2], True), status=1)
    choices = [heading("first") + people + heading(name) + people + heading("second") + other for name in ("-", "standard input")]
    ran = place.desk("fleet", "first", "-", "second", given=data, cwd=place.room)
    yield "desk, standard input between two files", faults(ran, either(*choices), status=1)
    ran = place.desk("fleet", empty, first, empty)
    yield "desk, an empty file beside another", faults(ran, heading(empty) + heading(first) + people + heading(empty), status=1)
    good = place.file(place.some(3, refusals=False)[0], "good")
    ran = place.desk("fleet", good, empty)
    yield "desk, two files without refusals", faults(ran, heading(good) + place.some(3, refusals=False)[2] + heading(empty))
    ran = place.desk("fleet", good, first)
    yield "desk, refusals in the second file alone", faults(ran, heading(good) + place.some(3, refusals=False)[2] + heading(first) + people, status=1)
    ran = place.desk("fleet", first, good)
    yield "desk, refusals in the first file alone", faults(ran, heading(first) + people + heading(good) + place.some(3, refusals=False)[2], status=1)


def empty_and_cut(place):
    empty = place.file(b"")
    yield "desk, an empty file", faults(place.desk("fleet", empty), b"")
    yield "desk, an empty file, plain", faults(place.desk("fleet", "--plain", empty), b"")
    yield "desk, empty input", faults(place.desk("fleet", given=b""), b"")
    for count, rest in ((0, 1), (2, 256), (128, 511)):
        data, plain, people = place.some(count, rest, refusals=False)
        yield f"desk, {count} blocks and {rest} bytes", faults(place.desk("fleet", place.file(data)), people, status=1)
        yield f"desk, {count} blocks and {rest} bytes, plain", faults(place.desk("fleet", "--plain", given=data), plain, status=1)


def names(place):
    """All in one run, so that no name disturbs another's lines; then those that could be taken for something else, alone."""
    folder = place.room / "names"
    folder.mkdir()
    data, _, people = place.some(2, refusals=False)
    paths = [os.fsdecode(name) for name in NAMES]
    for path in paths:
        (folder / path).write_bytes(data)
    right = b"".join(heading(shown) + people for shown in NAMES.values())
    yield "desk, names of every kind", faults(place.desk("fleet", "--", *paths, cwd=folder), right)
    for name in (b"--help", b"--version", b"--"):
        (folder / os.fsdecode(name)).write_bytes(data)
    for name in (b"-dash", b"--plain", b"--help", b"--version", b"--", b"line\nbreak", b"not \xff UTF-8 \xc3"):
        yield f"desk, {name!r} alone", faults(place.desk("fleet", "--", os.fsdecode(name), cwd=folder), people)
    gone = [os.fsdecode(name) + "?" for name in NAMES]
    told = "".join(f"desk: {shown}?: No such file or directory\n" for shown in NAMES.values()).encode()
    yield "desk, names that aren't there", faults(place.desk("fleet", "--", *gone, cwd=folder), b"", told, 2)
    for name in OTHERS:
        (folder / os.fsdecode(name)).write_bytes(data)
    ran = place.desk("fleet", *map(os.fsdecode, OTHERS), cwd=folder)
    yield "desk, names with other characters that can't be printed", faults(ran, escaped(len(OTHERS), people))


def escaped(count, people):
    """So many times a heading between whose a and b stands a backslash with letters and digits, and nothing else; then the lines."""
    pattern = re.compile(rb"(==> a(\\[A-Za-z0-9{}+]+)+b <==\n" + re.escape(people) + rb"){%d}" % count)
    return lambda came: None if pattern.fullmatch(came) else f"other headings or lines in {brief(came)}"


def self_check(place):
    """A name that is shown as it is, a heading that is lost, and another line are noticed."""
    fault, good = escaped(2, b"x\n"), b"==> a\\tb <==\nx\n==> a\\xc2\\x85b <==\nx\n"
    wrong = [good.replace(b"\\t", b"\t"), good.replace(b"\\t", b""), good[:-2], b"==> a\\tb <==\nx\n", good.replace(b"\\x85", b"\x85")]
    return ["that names are right"] * bool(fault(good)) + [f"that {bad} is wrong" for bad in wrong if not fault(bad)]


def places(place):
    """The command is found and finds its program from any folder; the kit is found by rt where RATTLE_HOME isn't there."""
    data, _, people = place.some(3, refusals=False)
    path = place.file(data, "here")
    ran = place.desk("fleet", "here", cwd=place.room, env={"RATTLE_HOME": None} if "RATTLE_HOME" not in os.environ else None)
    yield "desk, the kit found by rt", faults(ran, people)
    ran = run(["bin/desk", "fleet", path], cwd=place.root)
    yield "desk, by a relative path", faults(ran, people)
    ran = run(["desk", "fleet", "here"], cwd=place.room, env={"PATH": f"{place.root / 'bin'}:{os.environ['PATH']}"})
    yield "desk, by PATH", faults(ran, people)
    copy = place.copy("a desk elsewhere")
    yield "desk, in a folder with spaces", faults(place.desk("fleet", path, root=copy), people)


def cases(place):
    for part in (inputs, several, empty_and_cut, names, places):
        yield from part(place)
