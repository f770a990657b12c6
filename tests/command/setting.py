"""What every case needs: the desk's folder, a room for files, the programs' commands, the independent desk, its pool of blocks and a
long file of them."""
import os
import pathlib
import random
import shutil
import stat
import subprocess

import blocks
from started import run

ROOT = pathlib.Path(__file__).resolve().parents[2]
LONG = 200000  # blocks of a long file
PROGRAMS = ("fleet", "speeds")


class Setting:
    def __init__(self, room):
        self.root, self.top = ROOT, pathlib.Path(room)
        # Another user has to come in where no permission is tested.
        self.room = self.top
        self.room.chmod(0o755)
        self.programs = {name: words_of(name) for name in PROGRAMS}
        self.fleet = self.programs["fleet"]
        loader = pathlib.Path(self.fleet[self.fleet.index("--library-path") - 1])
        self.kit = str(loader.parents[2])
        self.independent = blocks.Desk(ROOT, self.room)
        self.pool = self.independent.pool()
        self.pools = {"fleet": self.pool, "speeds": self.pool.speeds()}
        self.accepted = self.pool.accepted()
        self.files = 0
        self.long_order = self.order(LONG, 11)
        self.long = self.some_of(self.long_order)

    def enter(self, name):
        """A room of its own for the cases of one file."""
        self.room = self.top / name
        self.room.mkdir()
        self.room.chmod(0o755)

    def file(self, data, name=None):
        """A file in the room, by its path."""
        self.files += 1
        path = self.room / (name or f"{self.files}.blocks")
        path.write_bytes(data)
        return path

    def order(self, count, seed=1, refusals=True):
        """So many places of the pool, any of them, or with bounds alone."""
        return random.Random(seed).choices(range(len(self.pool.pieces)) if refusals else self.accepted, k=count)

    def some(self, count, rest=0, refusals=True, seed=1, command="fleet"):
        """So many blocks of the pool and a piece of another: bytes, and the command's lines plain and for people."""
        data, plain, people = self.some_of(self.order(count, seed, refusals), command)
        if rest:
            data += self.pool.pieces[0][:rest]
            plain += f"{count} refused 1\n".encode()
            people += self.broken_off(count)
        return data, plain, people

    def some_of(self, order, command="fleet"):
        pool = self.pools[command]
        return pool.data(order), pool.lines(order, True), pool.lines(order)

    def broken_off(self, number):
        field, words = self.independent.table[1]
        return f"block {number}: refused 1 ({field}): {words}\n".encode()

    def desk(self, *words, given=None, root=None, env=None, **more):
        """bin/desk with these words; the kit is named, so that it needn't be looked for each time."""
        return run([(root or self.root) / "bin" / "desk", *words], given, env={"RATTLE_HOME": self.kit, **(env or {})}, **more)

    def copy(self, name, programs=PROGRAMS):
        """A folder with the command in it, readable to all, and with these programs, or with no place for any."""
        root = self.room / name
        shutil.copytree(ROOT / "bin", root / "bin", symlinks=True)
        if programs:
            (root / "target" / "bin").mkdir(parents=True)
        for program in programs:
            shutil.copy(ROOT / "target" / "bin" / program, root / "target" / "bin" / program)
        open_to_all(root)
        return root

    def kit_for_all(self):
        """The kit's loader and its libraries, where every user can read them."""
        inside = pathlib.Path("toolchain", "lib")
        shutil.copytree(self.kit / inside, self.room / "kit" / inside)
        open_to_all(self.room / "kit")
        return str(self.room / "kit")


def words_of(program):
    """The command that runs it."""
    words = subprocess.run([ROOT / "bin" / "with-kit", "--words", program], stdout=subprocess.PIPE, check=True).stdout
    return os.fsdecode(words).splitlines()


def open_to_all(folder):
    for path in [folder, *folder.rglob("*")]:
        path.chmod(path.stat().st_mode | stat.S_IRGRP | stat.S_IROTH | (0o111 if path.is_dir() or os.access(path, os.X_OK) else 0))


def heading(name):
    return b"==> " + os.fsencode(name) + b" <==\n"
