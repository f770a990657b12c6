"""bin/desk takes as much memory however long its input is."""
import pathlib
import time

from hold import faults
from started import Run


def largest(run):
    """The greatest resident size, in kB, that any of its processes has had, looked at until it ends."""
    most = 0
    while run.child.poll() is None:
        for process in run.processes():
            try:
                status = pathlib.Path("/proc", str(process), "status").read_text()
            except OSError:
                continue
            sizes = [line.split()[1] for line in status.splitlines() if line.startswith("VmHWM:")]
            most = max([most, *map(int, sizes)])
        time.sleep(0.02)
    return most


def cases(place):
    sizes = []
    for count in (100000, 400000):
        order = place.order(100000, 13, False) * (count // 100000)
        run = Run([place.root / "bin" / "desk", "fleet", "--plain"], place.pool.data(order), env={"RATTLE_HOME": place.kit})
        sizes.append(largest(run))
        yield f"desk, {count} blocks, memory", faults(run.end(), place.pool.lines(order, True)) + ([] if sizes[-1] else ["no size was seen"])
    yield "desk, memory doesn't grow", [] if sizes[1] <= 2 * sizes[0] else [f"{sizes[1]} kB for four times the blocks that took {sizes[0]} kB"]
