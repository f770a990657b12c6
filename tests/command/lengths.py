"""bin/desk on inputs that come slowly, stop in the middle, grow while they are read, or are longer than the program takes at once."""
import os
import threading
import time

from blocks import BLOCK, MOST
from hold import faults, first_difference
from setting import LONG, heading
from started import on_one_processor

PAUSE = 1.0


def broken_off(place):
    """A writer that stops in the middle of a block, into a pipe and into a named one."""
    data, plain, people = place.some(3, 256, refusals=False)
    yield "desk, a writer that stops within a block", faults(place.desk("fleet", given=data), people, status=1)
    name = place.room / "a named pipe"
    os.mkfifo(name)
    for words, right in (([name], people), (["--plain", name], plain)):
        writer = threading.Thread(target=lambda: name.write_bytes(data), daemon=True)
        writer.start()
        yield f"desk, a named pipe whose writer stops within a block, {len(words)} words", faults(place.desk("fleet", *words), right, status=1)
        writer.join(1)


def in_pieces(data, sizes, pause):
    """Writes so many bytes, waits, and so on; the rest at the end."""
    def write(descriptor):
        at = 0
        for size in sizes:
            os.write(descriptor, data[at:at + size])
            at += size
            time.sleep(pause)
        rest = memoryview(data)[at:]
        while rest:
            rest = rest[os.write(descriptor, rest):]
    return write


def stalls(place):
    """However the bytes come, and however long they don't."""
    data, plain, people = place.some(3, refusals=False)
    ran = place.desk("fleet", given=in_pieces(data, [BLOCK // 2], PAUSE))
    yield "desk, a pipe that stalls within the first block", faults(ran, people)
    ran = place.desk("fleet", "--plain", given=in_pieces(data, [BLOCK + 7, 1], PAUSE / 2))
    yield "desk, a pipe that stalls twice within the second block", faults(ran, plain)
    data, plain, people = place.some(40, 300, refusals=False)
    ran = place.desk("fleet", given=in_pieces(data, [1, 510, 1, 1, 511, 512, 513, 700, 1300, 64] * 3, 0.01))
    yield "desk, a pipe of odd pieces", faults(ran, people, status=1)


def pause_between_parts(place):
    """A pause after exactly as many blocks as the program takes at once, and one within the next block."""
    data, plain, _ = place.some(MOST + 500, refusals=False)

    def write(descriptor):
        for begin, end in ((0, MOST * BLOCK), (MOST * BLOCK, MOST * BLOCK + 100), (MOST * BLOCK + 100, len(data))):
            rest = memoryview(data)[begin:end]
            while rest:
                rest = rest[os.write(descriptor, rest):]
            time.sleep(0.5 if end < len(data) else 0)
    yield "desk, a pipe that stalls between two parts", faults(place.desk("fleet", "--plain", given=write), plain)


def grown(place, order, begun, plain):
    """Output of a file that grew by half blocks: every line is right for its block, but that the last may be of half a block."""
    def fault(came):
        count = came.count(b"\n")
        if not begun <= count <= len(order):
            return f"{count} lines, but the file had {begun} to {len(order)} blocks"
        whole = place.pool.lines(order[:count], plain)
        half = place.pool.lines(order[:count - 1], plain) + (f"{count - 1} refused 1\n".encode() if plain else place.broken_off(count - 1))
        return None if came in (whole, half) else first_difference(came, whole)
    return fault


def grows(place):
    """A writer appends whole blocks and a half for a second. No half block lies across a page, so no other length is ever seen."""
    order = place.order(MOST + 9000, 7, False)
    data, begun = place.pool.data(order), MOST - 300
    for words in ([], ["--plain"]):
        path = place.file(data[:begun * BLOCK])
        stop = threading.Event()
        writer = threading.Thread(target=append, args=(path, memoryview(data)[begun * BLOCK:], stop))
        writer.start()
        ran = place.desk("fleet", *words, path)
        stop.set()
        writer.join()
        # All blocks have bounds: only half a block is refused.
        found = faults(ran, grown(place, order, begun, bool(words)), status=int(b"refused" in ran.out))
        yield f"desk, a file that grows {' '.join(words)}", found


def append(path, data, stop):
    """33 blocks and a half at a time, so that every other length ends within a block."""
    with open(path, "ab", buffering=0) as file:
        until, at, size = time.monotonic() + 1, 0, 67 * BLOCK // 2
        while at < len(data) and time.monotonic() < until and not stop.is_set():
            at += file.write(data[at:at + size])
            time.sleep(0.002)


def long_files(place):
    """200,000 blocks by name, by pipe and by <, for people and plain, each line held."""
    data, plain, people = place.long
    path = place.file(data)
    for name, words, given in (("by name", [path], None), ("by pipe", [], data), ("by <", [], path)):
        yield f"desk, {LONG} blocks {name}", faults(place.desk("fleet", *words, given=given), people, status=1)
        yield f"desk, {LONG} blocks {name}, plain", faults(place.desk("fleet", "--plain", *words, given=given), plain, status=1)
    data, _, people = place.some(LONG, refusals=False)
    yield f"desk, {LONG} blocks without refusals", faults(place.desk("fleet", given=data), people)


def at_the_edge(place):
    """As many blocks as the program takes at once, one more, one less, and a byte more; then two such files."""
    for count, rest in ((MOST - 1, 0), (MOST, 0), (MOST + 1, 0), (MOST, 1), (MOST - 1, 511), (2 * MOST, 1)):
        data, plain, people = place.some(count, rest, refusals=False)
        ran = place.desk("fleet", "--plain", given=data)
        yield f"desk, {count} blocks and {rest} bytes, plain", faults(ran, plain, status=int(rest > 0))
        if count == MOST:
            ran = place.desk("fleet", place.file(data))
            yield f"desk, {count} blocks and {rest} bytes", faults(ran, people, status=int(rest > 0))
    data, plain, people = place.some(MOST + 2, refusals=False)
    path = place.file(data)
    yield "desk, two long files", faults(place.desk("fleet", path, path), 2 * (heading(path) + people))
    yield "desk, two long files, plain", faults(place.desk("fleet", "--plain", path, path), 2 * plain)
    yield "desk, a long file on one processor", faults(place.desk("fleet", path, before=(on_one_processor,)), people)


def self_check(place):
    """Of a file that grew: a line lost, another's line, half a block that isn't the last, and too few lines are noticed."""
    order = place.order(5)
    lines, half = place.pool.lines(order, True).splitlines(True), b"4 refused 1\n"
    fault = grown(place, order, 3, True)
    right = [lines[:3], lines, lines[:4] + [half]]
    wrong = [lines[:2], lines[:3] + lines[4:], lines[:3] + [b"3" + lines[4][1:]], lines[:3] + [b"3 refused 1\n", half], lines[:4] + [lines[4][:-2]]]
    unseen = ["that a file grew"] if any(fault(b"".join(good)) for good in right) else []
    return unseen + [f"that {bad} is wrong" for bad in wrong if not fault(b"".join(bad))]


def cases(place):
    for part in (broken_off, stalls, pause_between_parts, grows, long_files, at_the_edge):
        yield from part(place)
