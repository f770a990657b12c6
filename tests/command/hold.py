"""What a run left behind is held to what it must leave: standard output, standard error and status, all three. `self_check` shows that
these comparisons notice what is wrong."""
import re
from typing import NamedTuple, Optional

LONGEST = 60  # seconds; a run that takes longer is stopped


class Ran(NamedTuple):
    out: bytes
    err: bytes
    status: Optional[int]  # as a shell says it; None where it had to be stopped


def first_difference(came, right):
    """None, or the first line that is another, is missing or is too many."""
    if came == right:
        return None
    have, want = came.splitlines(True), right.splitlines(True)
    at = next((at for at, (a, b) in enumerate(zip(have, want)) if a != b), min(len(have), len(want)))
    here = [brief(lines[at]) if at < len(lines) else "nothing" for lines in (have, want)]
    return f"line {at + 1} of {len(have)} is {here[0]}; right is {here[1]}, of {len(want)} lines"


def brief(text):
    return repr(bytes(text[:150]))[1:]


def beginning(right, least=0, whole=False):
    """Output that may have been cut off: a beginning of the right lines, of so many bytes at least, perhaps of whole lines."""
    def fault(came):
        if not right.startswith(came):
            return first_difference(came, right[:len(came)])
        if len(came) < least:
            return f"only {len(came)} bytes came"
        return "a line is cut off" if whole and came and not came.endswith(b"\n") else None
    return fault


def either(*choices):
    """One of several texts, where the manual page leaves the choice."""
    return lambda came: None if came in choices else first_difference(came, choices[0])


def said(*patterns):
    """So many lines on standard error, each of which fits its pattern from end to end."""
    def fault(came):
        lines = came.decode("utf-8", "backslashreplace").split("\n")
        fits = len(lines) == len(patterns) + 1 and lines[-1] == "" and all(re.fullmatch(p, line) for p, line in zip(patterns, lines))
        return None if fits else f"{brief(came)} doesn't fit {patterns}"
    return fault


def against(what, came, right):
    """Right is the very bytes, or a function that finds the fault."""
    fault = right(came) if callable(right) else first_difference(came, right)
    return [f"{what}: {fault}"] if fault else []


def faults(ran, out, err=b"", status=0):
    if ran.status is None:
        return [f"it did not end in {LONGEST} seconds; standard error: {brief(ran.err)}"]
    found = against("standard output", ran.out, out) + against("standard error", ran.err, err)
    if ran.status != status:
        found.append(f"status {ran.status}; right is {status}")
    return found


def wrong_ones(lines):
    """The lines with one kind of fault each."""
    first, second, third = lines.splitlines(True)
    yield "a line lost at the end", first + second
    yield "a line lost in the middle", first + third
    yield "no line at all", b""
    yield "a line twice", first + second + second + third
    yield "two lines in another order", second + first + third
    yield "half a line", first + second + third[:-3]
    yield "no line break at the end", lines[:-1]
    yield "another number", first + b"7" + second[1:] + third
    yield "another figure", first.replace(b"5170857", b"5170856") + second + third
    yield "a line too many", lines + b"3 refused 1\n"


def self_check():
    """Every kind of expectation, falsified: gives what went unseen."""
    lines, message = b"0 9074729 5170857 5170858\n1 refused 2\n2 refused 6\n", b"desk: a b: Is a directory\n"
    right = Ran(lines, message, 2)
    pattern = said("desk: a b: Is a directory")
    unseen = [] if faults(right, lines, message, 2) == faults(right, beginning(lines), pattern, 2) == [] else ["that all is right"]
    for what, out in wrong_ones(lines):
        wrong = right._replace(out=out)
        unseen += [what] if not faults(wrong, lines, message, 2) else []
        unseen += [what + ", either"] if not faults(wrong, either(lines, b"other\n"), message, 2) else []
        cut = lines.startswith(out)
        unseen += [what + ", a beginning"] if bool(faults(wrong, beginning(lines, 0), message, 2)) == cut else []
    for err in (b"", message[:-1], message + message, b"desk: a: Is a directory\n", message + b"desk: more\n", b"\n" + message, message.upper()):
        for expected in (message, pattern):
            unseen += [f"the message {err!r}"] if not faults(right._replace(err=err), lines, expected, 2) else []
    for status in (0, 1, 141, None):
        unseen += [f"status {status}"] if not faults(right._replace(status=status), lines, message, 2) else []
    unseen += ["a beginning too short"] if not faults(right._replace(out=b""), beginning(lines, 1), message, 2) else []
    unseen += ["a beginning with half a line"] if not faults(right._replace(out=lines[:-3]), beginning(lines, 1, True), message, 2) else []
    unseen += ["a word too many"] if not faults(right._replace(status=0), lines) else []
    return unseen
