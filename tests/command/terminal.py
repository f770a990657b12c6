"""bin/desk where standard error is a terminal: how far it is, and the summary; neither where it is a file."""
import collections
import os
import re

from blocks import FAULTS, block, fault
from hold import faults
from outputs import Collected, Same, Written
from setting import LONG

# How many of each refusal: no number here is that of another, of a refusal or of a block.
COUNTS = {2: 31, 4: 43, 6: 52, 10: 67, 18: 71, 19: 89}
BOUNDS = 500
WIDTH = 80


def screen(text):
    """The lines that a terminal shows in the end: carriage returns, erasing to the end of the line, and lines that don't fit."""
    rows, row, column = [], [], 0
    for part in re.findall(r"\x1b\[\d*[A-Za-z]|[\s\S]", text):
        if part in ("\x1b[K", "\x1b[0K", "\x1b[2K"):
            row = [] if "2" in part else row[:column]
        elif part == "\r":
            column = 0
        elif part == "\n" or column == WIDTH:
            rows.append("".join(row).rstrip())
            row, column = [], 0
        if part.isprintable():
            row[column:column + 1] = part
            column += 1
    return rows + ["".join(row).rstrip()]


def one_number(text):
    """Figures without the commas between thousands."""
    return re.sub(r"(?<=\d),(?=\d{3})", "", text)


def summary(lines, ships, bounds, counts):
    """Which of the figures that the summary must have are missing: how many ships, all or those with bounds, how many refused, and each
    refusal with its number. The words around them are free."""
    text = one_number("\n".join(lines))
    found = set(re.findall(r"\d+", text))
    missing = [] if {str(ships), str(bounds)} & found else [f"{ships} ships"]
    missing += [] if str(ships - bounds) in found else [f"{ships - bounds} refused"]
    for number, count in counts.items():
        if not re.search(rf"\b{count}\b\D{{1,20}}\b{number}\b|\b{number}\b\D{{1,40}}\b{count}\b", text):
            missing.append(f"{count} by refusal {number}")
    return f"the summary has not {', not '.join(missing)}: {text[-400:]!r}" if missing else None


def summed(ships, bounds, counts):
    """Standard error of a terminal that shows the summary in the end."""
    return lambda came: summary(screen(came.decode("utf-8", "replace")), ships, bounds, counts)


def self_check(place):
    """The summary with a figure that is another, and a screen with rests of a line, are noticed."""
    text = "1,234 ships, 1,192 with bounds, 42 refused\n31 refused 2\n11 refused 6\n"
    right = (1234, 1192, {2: 31, 6: 11})
    wrong = [text.replace(*change) for change in ((",234", ",235"), ("42", "41"), ("31", "32"), ("11 refused 6", ""), ("11", "12"))]
    wrong[0] = wrong[0].replace(",192", ",193")
    unseen = ["that a summary is right"] * bool(summary([text], *right)) + [f"that {bad} is wrong" for bad in wrong if not summary([bad], *right)]
    shown = [screen("abcdef\rxy\x1b[K\nz\r\x1b[K"), screen("abc\rx\n"), screen("a" * 81), screen("a" * 80 + "\n")]
    unseen += [] if shown == [["xy", ""], ["xbc", ""], ["a" * 80, "a"], ["a" * 80, ""]] else ["what a terminal shows"]
    told = progress(lambda came: None, 100)
    unseen += ["that progress is told"] * bool(told(b"\r\x1b[Kdesk: 50 blocks of fleet\r\x1b[Kdesk: 100 ships\n"))
    dull = [b"", b"desk: 50 blocks\n", b"100 blocks\r\x1b[K", b"0 blocks\r\x1b[Kdesk: 100 ships, 50 refused\n", b"50 " + b"t" * 78 + b"\r\x1b[K"]
    return unseen + [f"that {bad} is wrong" for bad in dull if not told(bad)]


def short(place):
    pieces = [fault(number) for number, count in COUNTS.items() for _ in range(count)] + [block()] * BOUNDS
    known = place.independent.know(pieces)
    data, right = known.data(range(len(pieces))), known.lines(range(len(pieces)))
    told = summed(len(pieces), BOUNDS, COUNTS)
    yield "desk, the summary", faults(place.desk("fleet", given=data, err=Collected(True)), right, told, 1)
    ran = place.desk("fleet", "--plain", given=data, err=Collected(True))
    yield "desk, the summary, plain", faults(ran, known.lines(range(len(pieces)), True), told, 1)
    path, twice = place.file(data), {number: 2 * count for number, count in COUNTS.items()}
    ran = place.desk("fleet", "--plain", path, path, err=Collected(True))
    yield "desk, the summary of two files", faults(ran, 2 * known.lines(range(len(pieces)), True), summed(2 * len(pieces), 2 * BOUNDS, twice), 1)
    ran = place.desk("fleet", "--plain", place.room / "none", path, err=Collected(True))
    yield "desk, the summary behind a message", faults(ran, known.lines(range(len(pieces)), True), behind_message(place, told), 2)
    ran = place.desk("fleet", given=block(), err=Collected(True))
    yield "desk, the summary without refusals", faults(ran, known.lines([len(pieces) - 1]), summed(1, 1, {}))


def behind_message(place, told):
    """The message stands on the terminal as it would in a file, on a line of its own."""
    def fault(came):
        rows = screen(came.decode())
        message = f"desk: {place.room / 'none'}: No such file or directory"
        return told(came) if message in "".join(rows[:3]) else f"the message isn't there: {rows[:3]}"
    return fault


def progress(told, count):
    """Before the summary it tells how far it is, in states of one line that are written over, none of them longer than the terminal is
    wide."""
    def fault(came):
        states = [state for line in came.decode("utf-8", "replace").split("\n") for state in re.split(r"\r|\x1b\[\d*K", line)[:-1]]
        far = [int(figure) for state in states for figure in re.findall(r"\d+", one_number(state))]
        if not any(0 < figure < count for figure in far):
            return f"it doesn't tell how far it is: {states[:3]}"
        wide = [state for state in states if len(state) > WIDTH]
        return f"longer than a line: {wide[0]!r}" if wide else told(came)
    return fault


def long_file(place):
    data, plain, people = place.long
    answers = collections.Counter(place.pool.plain[at] for at in place.long_order)
    counts = {int(words[8:]): count for words, count in answers.items() if words.startswith("refused")}
    told = summed(LONG, LONG - sum(counts.values()), counts)
    (place.room / "fleet").write_bytes(data)
    ran = place.desk("fleet", "fleet", cwd=place.room, err=Collected(True))
    yield "desk, how far it is", faults(ran, people, progress(told, LONG), 1)
    ran = place.desk("fleet", "--plain", given=data, err=Collected(True))
    yield "desk, how far it is, plain", faults(ran, plain, progress(told, LONG), 1)
    ran = place.desk("fleet", "fleet", cwd=place.room, err=Written(place.room / "told"))
    yield "desk, standard error is a file", faults(ran, people, b"", 1)
    name = "n\x1b[31m" * 20
    os.rename(place.room / "fleet", place.room / name)
    ran = place.desk("fleet", "--plain", name, cwd=place.room, err=Collected(True))
    yield "desk, how far it is, a long name", faults(ran, plain, progress(told, LONG), 1)
    yield "desk, no escape of a name on the terminal", ["it is there"] if b"\x1b[31m" in ran.err else []


def one_terminal(place):
    """Both on one terminal: no line is hurt by what is told beside it."""
    data, plain, _ = place.some(40000, refusals=False)
    both = Collected(True)

    def right(came):
        rows = screen(came.decode("utf-8", "replace"))
        lines = [row for row in rows if re.match(r"\d", row)]
        if lines != plain.decode().splitlines():
            return f"{len(lines)} lines, of which {len(set(lines) - set(plain.decode().splitlines()))} aren't right"
        return summary([row for row in rows if not re.match(r"\d", row)], 40000, 40000, {})
    yield "desk, lines and summary on one terminal", faults(place.desk("fleet", "--plain", given=data, out=both, err=Same(both)), right)


def cases(place):
    assert not set(COUNTS.values()) & set(FAULTS)
    for part in (short, long_file, one_terminal):
        yield from part(place)
