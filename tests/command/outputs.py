"""Outputs of a run. Each has the descriptor that the command gets, is told when the command has started, and says at its end what came."""
import fcntl
import os
import pathlib
import stat
import struct
import termios
import threading
import tty


class Collected:
    """All that is written into a pipe, or into a terminal of 24 lines and 80 columns."""

    def __init__(self, terminal=False):
        self.text, self.thread = bytearray(), threading.Thread(target=self.collect, daemon=True)
        if terminal:
            self.reader, self.descriptor = os.openpty()
            tty.setraw(self.descriptor)
            fcntl.ioctl(self.descriptor, termios.TIOCSWINSZ, struct.pack("HHHH", 24, 80, 0, 0))
        else:
            self.reader, self.descriptor = os.pipe()

    def collect(self):
        # A terminal whose other side is closed fails with EIO instead of an end.
        try:
            while True:
                piece = os.read(self.reader, 1 << 16)
                if not piece:
                    break
                self.text += piece
        except OSError:
            pass
        os.close(self.reader)

    def started(self):
        os.close(self.descriptor)
        self.thread.start()

    def ended(self):
        self.thread.join()
        return bytes(self.text)


class Leaving:
    """A pipe whose reader goes away after so many lines, or before there is any."""

    def __init__(self, lines):
        self.reader, self.descriptor = os.pipe()
        self.lines, self.text, self.thread = lines, b"", threading.Thread(target=self.read, daemon=True)
        if lines == 0:
            os.close(self.reader)

    def read(self):
        with open(self.reader, "rb") as file:
            self.text = b"".join([line for _, line in zip(range(self.lines), file)])

    def started(self):
        os.close(self.descriptor)
        if self.lines:
            self.thread.start()

    def ended(self):
        if self.lines:
            self.thread.join()
        return self.text


class Written:
    """A file that is written anew, or a device; what stands in a file afterwards is what came."""

    def __init__(self, path):
        self.path = path
        self.descriptor = os.open(path, os.O_WRONLY | (0 if os.path.exists(path) else os.O_CREAT))

    def started(self):
        os.close(self.descriptor)

    def ended(self):
        regular = stat.S_ISREG(os.stat(self.path).st_mode)
        return pathlib.Path(self.path).read_bytes() if regular else b""


class Stuffed(Collected):
    """A pipe that doesn't wait and is read only after the end: when it is full, writing fails."""

    def __init__(self):
        super().__init__()
        os.set_blocking(self.descriptor, False)

    def started(self):
        os.close(self.descriptor)

    def ended(self):
        self.thread.start()
        return super().ended()


class Unwritable:
    """A descriptor that is open for reading alone."""

    def __init__(self):
        self.descriptor = os.open(os.devnull, os.O_RDONLY)

    def started(self):
        os.close(self.descriptor)

    def ended(self):
        return b""


class Same:
    """The terminal that another output goes to."""

    def __init__(self, other):
        self.descriptor = other.descriptor

    def started(self):
        pass

    def ended(self):
        return b""
