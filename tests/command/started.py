"""Starts a command, awaits its end, and stops it where that doesn't come."""
import os
import pathlib
import resource
import signal
import subprocess
import threading
import time

from hold import LONGEST, Ran, faults
from inputs import source
from outputs import Collected

MARK = "DESK_TEST_RUN"

# What is done in the new process before the command: a list of these is `before`.


def closed(descriptor):
    return lambda: os.close(descriptor)


def ignoring(number):
    return lambda: signal.signal(number, signal.SIG_IGN)


def at_most(size):
    """No file may grow beyond so many bytes: a write there fails, as on a full disk."""
    def limit():
        signal.signal(signal.SIGXFSZ, signal.SIG_IGN)
        resource.setrlimit(resource.RLIMIT_FSIZE, (size, size))
    return limit


def on_one_processor():
    os.sched_setaffinity(0, {min(os.sched_getaffinity(0))})


class Run:
    """A command from its start to its end. `given` is its input: bytes, a path, a function that writes, or one of inputs.py's; `out` and
    `err` are collected where nothing else is said."""
    count = 0

    def __init__(self, words, given=None, out=None, err=None, before=(), env=None, **more):
        Run.count += 1
        self.mark = f"{MARK}={os.getpid()}-{Run.count}"
        self.given, self.out, self.err = source(given), out or Collected(), err or Collected()
        environment = {**os.environ, "LC_ALL": "C.UTF-8", **(env or {}), MARK: self.mark.split("=")[1]}
        self.child = subprocess.Popen(
            [os.fspath(word) for word in words], stdin=self.given.descriptor, stdout=self.out.descriptor, stderr=self.err.descriptor,
            env={name: value for name, value in environment.items() if value is not None}, start_new_session=True,
            preexec_fn=(lambda: [step() for step in before]) if before else None, **more)
        for part in (self.given, self.err, self.out):
            part.started()

    def processes(self):
        """Those that are still running, by their session or by the mark in their environment. One that only waits to be asked for its
        status isn't."""
        found = []
        for name in filter(str.isdigit, os.listdir("/proc")):
            try:
                state, _, _, session = pathlib.Path("/proc", name, "stat").read_text().rsplit(")", 1)[1].split()[:4]
                if state not in "ZX" and (int(session) == self.child.pid or self.marked(name)):
                    found.append(int(name))
            except OSError:
                pass
        return found

    def marked(self, process):
        return self.mark.encode() in pathlib.Path("/proc", process, "environ").read_bytes().split(b"\0")

    def end(self, longest=LONGEST, patience=1):
        """Awaits the end. Whoever is still there so many seconds later is stopped, and that is a fault of its own."""
        waiting = threading.Thread(target=self.child.wait)
        waiting.start()
        waiting.join(longest)
        status = self.child.returncode
        left = self.left(0 if status is None else patience)
        waiting.join()
        out, err = self.out.ended(), self.err.ended()
        self.given.ended()
        if status is None:
            return Ran(out, err, None)
        return Ran(out, err + (b"(a process was left running)\n" if left else b""), 128 - status if status < 0 else status)

    def left(self, seconds):
        """Who is there after so many seconds, stopped one by one."""
        until = time.monotonic() + seconds
        while self.processes() and time.monotonic() < until:
            time.sleep(0.02)
        left = self.processes()
        for process in left:
            try:
                os.kill(process, signal.SIGKILL)
            except ProcessLookupError:
                pass
        return left


def run(words, given=None, **more):
    return Run(words, given, **more).end()


def self_check():
    """A run that doesn't end, one that leaves somebody behind, and one that is ended by a signal are noticed."""
    unseen = []
    ran = Run(["sleep", "30"]).end(longest=0.1)
    unseen += [] if ran.status is None and faults(ran, b"") else ["that a run doesn't end"]
    for how in ("sleep 30 &", "setsid sleep 30 &", "env -i sleep 30 &"):
        ran = Run(["sh", "-c", how]).end(patience=0.2)
        unseen += [] if faults(ran, b"") else [f"that somebody is left behind by {how}"]
    ran = run(["sh", "-c", "kill -9 $$"])
    unseen += [] if ran.status == 137 else ["an end by a signal"]
    return unseen
