"""bin/desk's own words: help, version, and what it doesn't understand."""
import hashlib
import re

from hold import faults
from setting import PROGRAMS


def has(*patterns):
    """Text that each of these is found in; the words around them are free."""
    def fault(came):
        text = came.decode("utf-8", "replace")
        missing = [pattern for pattern in patterns if not re.search(pattern, text)]
        return f"{missing} isn't in {text[:200]!r}" if missing else None
    return fault


def programs_of(root):
    return {name: root / "target" / "bin" / name for name in PROGRAMS}


def versions(number, root):
    """The command's own version, and what each program in that folder is."""
    text = f"desk {number}\n"
    for name, program in programs_of(root).items():
        made = f"SHA-256 {hashlib.sha256(program.read_bytes()).hexdigest()}" if program.exists() else f"is not there; 'bin/prove {name}' makes it"
        text += f"{name} {made}\n"
    return text.encode()


def version(place):
    """The manual page's version is 2 and how many notes docs/landings has; the command says the same, and what its programs are."""
    page = (place.root / "bin" / "desk.1").read_text(encoding="utf-8")
    number = re.search(r'^\.TH .*"desk ([\d.]+)"', page, re.M).group(1)
    landed = f"2.{len(list((place.root / 'docs' / 'landings').glob('*.md')))}"
    yield "desk, the manual page's version", [] if number == landed else [f"it is {number}; right is {landed}"]
    yield "desk --version", faults(place.desk("--version"), versions(number, place.root))
    copy = place.copy("changed")
    for name, program in programs_of(copy).items():
        kept = program.read_bytes()
        program.write_bytes(kept + b"\n")
        yield f"desk --version, another {name}", faults(place.desk("--version", root=copy), versions(number, copy))
        program.unlink()
        yield f"desk --version, no {name}", faults(place.desk("--version", root=copy), versions(number, copy))
        program.write_bytes(kept)
    copy = place.copy("without programs", programs=())
    yield "desk --version, no program", faults(place.desk("--version", root=copy), versions(number, copy))


def help_words(place):
    told = has("desk fleet", "desk speeds", "--plain", "FILE", "--help", "--version")
    yield "desk --help", faults(place.desk("--help"), told)
    copy = place.copy("help alone", programs=())
    yield "desk --help, no program", faults(place.desk("--help", root=copy), told)


def not_understood(place):
    """Nothing is read and no line is printed, though there would be a file."""
    path = place.file(place.some(3)[0])
    for words in ([], ["fleets"], ["Fleet", path], [path], [""], ["--plain"], ["--plain", "fleet", path], ["--versions"], ["-h2"],
                  ["fleet", "--nothing", path], ["fleet", "--plain", "--nothing", path], ["fleet", "-x", path], ["fleet", "--plain=no", path],
                  ["speed", path], ["Speeds", path], ["--speeds", path], ["--plain", "speeds", path], ["speeds", "--nothing", path],
                  ["speeds", "--plain=no", path]):
        shown = " ".join("FILE" if word == path else repr(word) for word in words)
        yield f"desk, not understood: {shown or 'nothing'}", faults(place.desk(*words), b"", has(r"\S"), 2)


def self_check(place):
    """Words that aren't there are noticed."""
    fault = has("desk fleet", "desk speeds")
    return [f"that {bad} is wrong" for bad in (b"", b"desk", b"desk fleet", b"desk speeds", b"desk fleets, speeds") if not fault(bad)]


def cases(place):
    for part in (version, help_words, not_understood):
        yield from part(place)
