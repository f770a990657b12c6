"""Inputs of a run. Each has the descriptor that the command gets, and is told when the command has started and when it has ended."""
import fcntl
import os
import pathlib
import threading
import time
import tty

PIPE_SIZE = 1031  # F_SETPIPE_SZ, which Python has a name for from 3.10 on
STAY = 0.01  # seconds; a terminal closed right after its last bytes has lost them in one of 200 runs


class Stalled:
    """A pipe that doesn't wait: after the bytes a read fails with EAGAIN, since the writer stays open."""
    reason = "Resource temporarily unavailable"

    def __init__(self, data):
        self.descriptor, self.writer = os.pipe()
        fcntl.fcntl(self.writer, PIPE_SIZE, 1 << 18)
        os.set_blocking(self.descriptor, False)
        if data:
            assert os.write(self.writer, data) == len(data), "the pipe doesn't hold that much"

    def started(self):
        os.close(self.descriptor)

    def ended(self):
        os.close(self.writer)


class HungUp:
    """A terminal's own side, whose other side writes the bytes and goes: then a read fails with EIO."""
    reason = "Input/output error"

    def __init__(self, data):
        self.descriptor, self.other = os.openpty()
        tty.setraw(self.other)
        self.data, self.thread = data, None

    def started(self):
        os.close(self.descriptor)
        self.thread = threading.Thread(target=pour, args=(self.other, self.data, STAY))
        self.thread.start()

    def ended(self):
        self.thread.join()


def pour(descriptor, data, stay=0):
    """Writes all, stays so many seconds and closes. Whoever reads may be gone: that is no fault here."""
    try:
        with open(descriptor, "wb", buffering=0) as file:
            rest = memoryview(data)
            while rest:
                rest = rest[file.write(rest):]
            time.sleep(stay)
    except OSError:
        pass


class Piped:
    """A pipe; its bytes are written by a function that gets its descriptor, or all at once."""

    def __init__(self, data):
        self.descriptor, self.writer = os.pipe()
        write = data if callable(data) else lambda descriptor: pour(os.dup(descriptor), data)
        self.thread = threading.Thread(target=self.feed, args=(write,))

    def feed(self, write):
        try:
            write(self.writer)
        except BrokenPipeError:
            pass
        os.close(self.writer)

    def started(self):
        os.close(self.descriptor)
        self.thread.start()

    def ended(self):
        self.thread.join()


class Opened:
    """A file, a folder or a device, opened for reading."""

    def __init__(self, path, flags=os.O_RDONLY):
        self.descriptor = os.open(path, flags)

    def started(self):
        os.close(self.descriptor)

    def ended(self):
        pass


def source(given):
    if given is None:
        return Opened(os.devnull)
    if isinstance(given, pathlib.Path):
        return Opened(given)
    return Piped(given) if isinstance(given, bytes) or callable(given) else given
