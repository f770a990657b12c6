"""The desk for people: runs the proved programs `fleet` and `speeds` on files of blocks and says their answers in words. bin/desk starts
it, with standard input as descriptor 3; bin/desk.1 is its manual.

This command decides nothing about a ship. It reads, cuts long files into parts, counts a program's lines against the bytes that it
sent in, and says aloud what could not be read, written or run."""
import collections
import contextlib
import gc
import hashlib
import mmap
import os
import pickle
import signal
import subprocess
import sys

VERSION = "2.9"  # the second desk, after so many landings that a customer can tell (docs/landings)
USAGE = """usage: desk fleet [--plain] [FILE...]
       desk speeds [--plain] [FILE...]
       desk --help | --version

Reads blocks of 512 bytes from each FILE, or from standard input, and prints for each block the bounds of the ship's index ('fleet') or of her
speed ('speeds'), or why she is refused. --plain prints the program's own lines: number, IMO number, lower and upper bound in millionths, of a
speed those of the most and of the least favourable ship; or number, 'refused', refusal.
Exit status: 0 all have bounds, 1 there were refusals, 2 something could not be read, written or run. The manual is bin/desk.1.
"""
ROOT = os.path.dirname(os.path.dirname(os.path.realpath(__file__)))
STANDARD_INPUT = 3
BLOCK = 512
# A part's bytes: few enough that the parts of a long file keep all processors busy, and below the 65,536 blocks that the program takes.
PART = 16384 * BLOCK
MOST_PROCESSES = 64  # each has five files open, and a process may have 1,024
PROGRAMS = {"fleet": 2, "speeds": 4}  # how many bounds a line of each has
IMO_NUMBER, EDITION = 4, 141  # their places in a block
EDITIONS = {0: "EEXI", 1: "EEDI under MEPC.308(73)", 2: "EEDI under MEPC.308(73) as amended by MEPC.322(74)"}
# Field and words of each refusal, as README's table has them.
REFUSALS = {
    1: ("length", "the block is not 512 bytes: the file broke off"),
    2: ("check sums", "the check sums differ: a byte was changed on the way"),
    3: ("layout", "the layout is neither 1 nor 2"),
    4: ("IMO number", "the IMO number, or its check digit"),
    5: ("ship type", "the ship type is none of the eight, or a general cargo ship in layout 1"),
    6: ("deadweight", "deadweight not 100 to 600,000 t"),
    7: ("gross tonnage", "gross tonnage: a vehicle carrier's not 100 to 400,000, or given for another type"),
    8: ("cargo volume", "cargo volume: a bulk carrier's not 100 to 1,000,000 m³, or given for another type"),
    9: ("engines", "engines not one to four, a rated power not 100 to 120,000 kW, or a limit that is neither empty nor 100 kW to the rated power"),
    10: ("fuel consumption", "a fuel consumption that is empty or not 50 to 400 g/kWh, an unknown fuel or source, or figures where the source says there are none"),
    11: ("auxiliary power", "auxiliary power: neither rule nor table, or a table figure that doesn't go with it"),
    12: ("ice class", "the ice class is neither 0 (none) nor 1 (IA Super or IA) nor 2 (IB or IC)"),
    13: ("speed", "the speed method or the speed: not 5 to 60 knots, or a method that the type doesn't have; or speed bounds were handed in that aren't the ship's own"),
    14: ("ranges", "a low end above its high end, a range of speed or rated power without a declared speed, or a range of a general cargo ship's speed"),
    15: ("trial", "the trial's power or deadweight"),
    16: ("unused fields", "something stands where nothing may"),
    17: ("block number", "only when writing: the file has no such block"),
    18: ("build", "lightweight, cranes or hull: a figure that the type doesn't have, one outside its limits, or a hull fuller than length × breadth × draught"),
    19: ("edition", "the edition is neither 0 (EEXI) nor 1 nor 2 (EEDI); or an EEDI with a power limiter, a consumption without a source, or a speed that isn't declared"),
}

# What was read of a file, from block `first` on: so many bytes; `last` where none come after them, and `why` where that is because a
# read failed.
Part = collections.namedtuple("Part", "first size last why")
# How long a part's text is, how many blocks it has, how often each refusal was given; or what went wrong instead.
Answer = collections.namedtuple("Answer", "length blocks refused wrong")


class Trouble(Exception):
    """Something could not be read, written or run."""


class Unread(Exception):
    """Nobody reads standard output any more. Who has closed a pipe wants no more lines, and no word about it."""


def tell(text):
    """To standard error; where that can't be written either, the status alone tells."""
    try:
        os.write(2, text.encode("utf-8", "surrogateescape"))
    except OSError:
        pass


def say(words):
    tell(f"desk: {words}\n")


def put(text):
    """All of it to standard output."""
    rest = memoryview(text)
    while rest:
        try:
            rest = rest[os.write(1, rest):]
        except BrokenPipeError:
            raise Unread
        except OSError as error:
            raise Trouble(f"standard output: {error.strerror}")


def hold_places():
    """A standard stream that is closed keeps its number, so that no file opened later is taken for it; its use fails as before."""
    for number, way in ((1, os.O_RDONLY), (2, os.O_RDONLY), (STANDARD_INPUT, os.O_WRONLY)):
        try:
            os.fstat(number)
        except OSError:
            os.open(os.devnull, way)


def shown(name):
    """A file's name on one line, and no two names alike."""
    escape = lambda letter: letter.encode("unicode_escape", "surrogateescape").decode("ascii").replace("\\udc", "\\x")
    return "".join(letter if letter.isprintable() and letter != "\\" else escape(letter) for letter in name)


# ── The program ──────────────────────────────────────────────────────────────────────────────

def program_path(program):
    return os.path.join(ROOT, "target", "bin", program)


def program_words(program):
    """The command that runs the proved program under the kit."""
    if not hasattr(os, "memfd_create"):
        raise Trouble("Python 3.8 or newer, under Linux, is needed")
    if not os.path.exists(program_path(program)):
        raise Trouble(f"the program is not there: 'bin/prove {program}' in {shown(ROOT)} proves and makes it, and tells how far it is")
    asked = subprocess.run([os.path.join(ROOT, "bin", "with-kit"), "--words", program], stdout=subprocess.PIPE, stderr=subprocess.DEVNULL)
    if asked.returncode:
        raise Trouble("the Rattle kit is not found: its command rt is not on the PATH, and RATTLE_HOME is not set")
    return [os.fsdecode(word) for word in asked.stdout.splitlines()]


def held_lines(text, size, bounds):
    """The words of each of the program's lines: as many lines as so many bytes have pieces, numbered from 0, each with so many bounds."""
    lines = text.decode("ascii", "replace").split("\n")
    pieces = -(-size // BLOCK)
    if lines.pop():
        raise Trouble("the program's last line broke off")
    if len(lines) != pieces:
        raise Trouble(f"the program printed {len(lines)} lines for {pieces} blocks")
    answers = [line.split(" ") for line in lines]
    for number, words in enumerate(answers):
        figures = words[1:] if len(words) == 2 + bounds else words[2:] if len(words) == 3 and words[1] == "refused" else [""]
        if words[0] != str(number) or not all(map(str.isdecimal, figures)):
            raise Trouble(f"the program's line for block {number} of a part is '{shown(lines[number])}'")
    return answers


class Desk:
    """Answers one part at a time. Its blocks, the program's lines and its own text are files in memory: nobody waits for a reader, and
    a process made later shares them."""

    def __init__(self, program, words, plain):
        self.bounds, self.words, self.plain = PROGRAMS[program], words, plain
        self.blocks, self.lines, self.text = (os.memfd_create(name) for name in ("blocks", "lines", "text"))
        os.ftruncate(self.blocks, PART)
        self.bytes = mmap.mmap(self.blocks, PART)

    def read(self, file, first):
        """Up to a part's bytes. Where a read fails, the piece of a block before it is no end of the file, so it isn't answered."""
        os.ftruncate(self.blocks, PART)
        got = 0
        with memoryview(self.bytes) as room:
            while got < PART:
                try:
                    more = os.readv(file, [room[got:]])
                except OSError as error:
                    return Part(first, got - got % BLOCK, True, error.strerror)
                if not more:
                    return Part(first, got, True, None)
                got += more
        return Part(first, got, False, None)

    def run(self, size):
        """What the program printed for the first so many bytes."""
        os.ftruncate(self.blocks, size)
        os.ftruncate(self.lines, 0)
        for file in (self.blocks, self.lines):
            os.lseek(file, 0, os.SEEK_SET)
        ran = subprocess.run(self.words, stdin=self.blocks, stdout=self.lines, stderr=subprocess.PIPE)
        if ran.stderr:
            raise Trouble(f"the program said: {shown(os.fsdecode(ran.stderr.strip()))}")
        if ran.returncode:
            raise Trouble(f"the program ended with status {ran.returncode}" if ran.returncode > 0 else f"the program was ended by signal {-ran.returncode}")
        return os.pread(self.lines, os.fstat(self.lines).st_size, 0)

    def answer(self, part):
        """Puts the part's lines into the text."""
        if not part.size:
            return Answer(0, 0, {}, None)
        try:
            answers = held_lines(self.run(part.size), part.size, self.bounds)
            text = (plain_text(answers, part.first) if self.plain else people_text(answers, part.first, self.bytes)).encode("utf-8")
            os.ftruncate(self.text, 0)
            if os.pwrite(self.text, text, 0) != len(text):
                raise Trouble("there is no room for its lines")
        except Trouble as trouble:
            return Answer(0, 0, {}, str(trouble))
        except OSError as error:
            return Answer(0, 0, {}, f"the program could not be run: {error.strerror}")
        return Answer(len(text), len(answers), collections.Counter(int(words[2]) for words in answers if len(words) == 3), None)


# ── Lines for people ─────────────────────────────────────────────────────────────────────────

def decimal(millionths):
    digits = millionths.zfill(7)
    return digits[:-6] + "." + digits[-6:]


def refusal(number):
    field, words = REFUSALS.get(number, ("", ""))
    return f"refused {number} ({field}): {words}" if field else f"refused {number}"


def between(lower, upper):
    return f"at least {decimal(lower)}, at most {decimal(upper)}"


def speed_words(most, most_upper, least, least_upper):
    """One pair where the most and the least favourable ship have the same."""
    if (most, most_upper) == (least, least_upper):
        return f"speed {between(most, most_upper)} knots"
    return f"speed of the most favourable ship {between(most, most_upper)} knots, of the least favourable {between(least, least_upper)} knots"


def people_line(words, blocks, at):
    """An answer in words; the block's bytes are those from `at` on. From refusal 5 on its IMO number has been found right."""
    if len(words) == 6:
        return f"IMO {words[1]}, {speed_words(*words[2:])}"
    if len(words) == 4:
        edition = blocks[at + EDITION]
        return f"IMO {words[1]}, {between(*words[2:])} g CO2/(t·nm), {EDITIONS.get(edition, f'edition {edition}')}"
    number = int(words[2])
    at += IMO_NUMBER
    imo = f"IMO {int.from_bytes(blocks[at:at + 4], 'little')}, " if number > 4 else ""
    return imo + refusal(number)


def people_text(answers, first, blocks):
    return "".join([f"block {first + at}: {people_line(words, blocks, at * BLOCK)}\n" for at, words in enumerate(answers)])


def plain_text(answers, first):
    return "".join([f"{number} {' '.join(words[1:])}\n" for number, words in enumerate(answers, first)])


# ── Parts on all processors ──────────────────────────────────────────────────────────────────

class Here:
    """Answers parts in this process, where another would gain nothing."""

    def __init__(self, desk):
        self.desk = desk

    def give(self, part):
        self.part = part

    def take(self):
        return self.desk.answer(self.part)

    def end(self):
        pass


class Worker:
    """A process that answers the parts that are read into its desk, and ends when nobody gives it any."""

    def __init__(self, desk, elders):
        self.desk = desk
        order, mine = os.pipe()
        yours, result = os.pipe()
        self.process = os.fork()
        if self.process == 0:
            # What leads to the elder ones is closed here, so that each of them sees when the command is gone.
            for end in [mine, yours] + [end.fileno() for elder in elders for end in (elder.order, elder.result)]:
                os.close(end)
            serve(desk, os.fdopen(order, "rb"), os.fdopen(result, "wb"))
        os.close(order)
        os.close(result)
        self.order, self.result = os.fdopen(mine, "wb", 0), os.fdopen(yours, "rb")

    def give(self, part):
        self.part = part
        try:
            pickle.dump(part, self.order)
        except OSError:
            pass  # it has ended, as will be seen when its answer is taken

    def take(self):
        try:
            return pickle.load(self.result)
        except (OSError, EOFError, pickle.UnpicklingError):
            return Answer(0, 0, {}, "a process that answers parts has ended before its time")

    def end(self):
        self.order.close()
        os.waitpid(self.process, 0)
        self.result.close()


def serve(desk, order, result):
    """A worker's life. It ends without a word when the command is gone."""
    try:
        while True:
            pickle.dump(desk.answer(pickle.load(order)), result)
            result.flush()
    except (EOFError, BrokenPipeError):
        pass
    finally:
        os._exit(0)


def processes():
    """One for each processor, and one more, so that none is idle while the command reads and writes for one of them."""
    processors = len(os.sched_getaffinity(0))
    return 1 if processors == 1 else min(processors + 1, MOST_PROCESSES)


def answers_of(file, desk_at, most):
    """The answers to a file's parts, in their order, each with its part and the desk that has its text. Up to so many parts are at work at
    once; a file of one part needs no other process."""
    places, part = collections.deque(), None
    try:
        while not (part and part.last):
            first = part.first + PART // BLOCK if part else 0
            if len(places) < most:
                desk = desk_at(len(places))
                part = desk.read(file, first)
                place = Here(desk) if most == 1 or part.last and not places else Worker(desk, places)
                places.append(place)
            else:
                place = places.popleft()
                places.append(place)
                yield place.desk, place.part, place.take()
                part = place.desk.read(file, first)
            place.give(part)
        for place in places:
            yield place.desk, place.part, place.take()
    finally:
        for place in places:
            place.end()


# ── The command ──────────────────────────────────────────────────────────────────────────────

class Fleet:
    """All files of one call: what was printed, and what went wrong."""

    def __init__(self, program, plain, headed):
        self.program, self.words, self.plain, self.headed = program, program_words(program), plain, headed
        self.desks, self.most = [], processes()
        self.looked_at, self.told = os.isatty(2), False
        self.blocks, self.refused, self.failed = 0, collections.Counter(), False

    def desk_at(self, number):
        """The desks are made when they are first needed, and serve the later files too."""
        if number == len(self.desks):
            self.desks.append(Desk(self.program, self.words, self.plain))
        return self.desks[number]

    def file(self, name):
        """Prints the answers of one file. What fails with it is said, and the next one follows."""
        title = "standard input" if name == "-" else shown(name)
        try:
            file = STANDARD_INPUT if name == "-" else os.open(name, os.O_RDONLY | os.O_NOCTTY)
        except OSError as error:
            self.fail(f"{title}: {error.strerror}")
            return
        self.answer_file(file, title)
        if name != "-":
            os.close(file)

    def answer_file(self, file, title):
        done = 0
        # Closed at once where something fails, so that no process is left when the command ends.
        with contextlib.closing(answers_of(file, self.desk_at, self.most)) as answers:
            for desk, part, found in answers:
                if found.wrong:
                    self.fail(f"{title}: {found.wrong}" + (f"; the blocks from {done} on are not answered" if done else ""))
                    return
                heading = f"==> {title} <==\n" if self.headed and part.first == 0 and (found.blocks or not part.why) else ""
                self.progress("")
                put(heading.encode("utf-8") + os.pread(desk.text, found.length, 0))
                done += found.blocks
                self.refused.update(found.refused)
                if not part.last:
                    self.progress(f"desk: {done:,} blocks")
                elif part.why:
                    self.fail(f"{title}: {part.why}" + (f", after {done} whole block{'s' * (done != 1)}" if done else ""))
                self.blocks += found.blocks

    def progress(self, words):
        """The line on a terminal that tells how far it is; it goes before anything else is written."""
        if self.looked_at and (words or self.told):
            tell(f"\r\033[K{words}")
            self.told = bool(words)

    def fail(self, words):
        self.failed = True
        self.progress("")
        say(words)

    def end(self):
        """The summary, where somebody looks, and the status."""
        refused = sum(self.refused.values())
        if self.looked_at:
            say(f"{self.blocks:,} ships, {self.blocks - refused:,} with bounds, {refused:,} refused")
            for number in sorted(self.refused):
                say(f"{self.refused[number]:,} {refusal(number).partition(':')[0]}")
        return 2 if self.failed else 1 if refused else 0


def made(program):
    try:
        with open(program_path(program), "rb") as file:
            return f"SHA-256 {hashlib.sha256(file.read()).hexdigest()}"
    except OSError:
        return f"is not there; 'bin/prove {program}' makes it"


def version():
    put("".join([f"desk {VERSION}\n"] + [f"{program} {made(program)}\n" for program in PROGRAMS]).encode("utf-8"))
    return 0


def answer(program, words):
    """`desk fleet` or `desk speeds` with these words behind it; answers the status."""
    names, plain = [], False
    while words:
        word = words.pop(0)
        if word == "--":
            names += words
            break
        if word == "--help":
            return usage()
        if word == "--plain":
            plain = True
        elif word.startswith("-") and word != "-":
            raise Trouble(f"'{shown(word)}' is no option; 'desk --help' has them all")
        else:
            names.append(word)
    names = names or ["-"]
    asked = Fleet(program, plain, len(names) > 1 and not plain)
    for name in names:
        asked.file(name)
    return asked.end()


def usage():
    put(USAGE.encode("utf-8"))
    return 0


def run(words):
    if not words:
        raise Trouble("what shall be done? 'desk --help' says what there is")
    if words[0] in PROGRAMS:
        return answer(words[0], words[1:])
    if words == ["--help"]:
        return usage()
    if words == ["--version"]:
        return version()
    raise Trouble(f"'{shown(words[0])}' is no command; 'desk --help' has them all")


def main():
    signal.signal(signal.SIGINT, signal.SIG_DFL)
    gc.disable()  # nothing here holds itself, and looking for what does costs a fifth of the time
    hold_places()
    try:
        status = run(sys.argv[1:])
    except Trouble as trouble:
        say(str(trouble))
        status = 2
    except Unread:
        status = 141
    except OSError as error:
        say(f"the command cannot go on: {error.strerror}")
        status = 2
    try:
        os.close(1)  # a disk far away may find only now that it has no room
    except OSError as error:
        say(f"standard output: {error.strerror}")
        status = 2
    os._exit(status)


main()
