"""How the output goes: parts of writes, limits, readers that are slow or gone."""
import fcntl
import os
import pathlib
import resource
import signal
import subprocess
import tempfile
import time

from .rows import LONG, LONG_REPORT, SMALL
from .running import DONE, PROGRAM, SAID, TIMEOUT, WRITE, Taker, ends, file_of, interrupted, run, wants


def waits_in_a_write(child):
    """Waits until a process sleeps, as it does in a write to a pipe that is full."""
    for _ in range(TIMEOUT * 100):
        state = pathlib.Path(f"/proc/{child.pid}/stat").read_text().rpartition(")")[2].split()[0]
        if state == "S":
            return
        if state == "Z":
            raise AssertionError("it ended before all was read")
        time.sleep(0.01)
    raise AssertionError("it never waited")


def interrupted_write():
    for number in (1, 2):
        ends(interrupted("write", number, LONG), DONE, LONG_REPORT, f"write {number}: ")


def partial_writes():
    """A write that waits at a full pipe and is stopped and continued has taken a part: the rest is written after it."""
    with file_of(LONG) as file:
        child = subprocess.Popen([PROGRAM, "replay"], stdin=file, stdout=subprocess.PIPE, stderr=subprocess.PIPE, pipesize=4_096)
        taken = b""
        for _ in range(8):
            waits_in_a_write(child)
            child.send_signal(signal.SIGSTOP)
            os.waitpid(child.pid, os.WUNTRACED)
            child.send_signal(signal.SIGCONT)
            taken += os.read(child.stdout.fileno(), 4_096)
        status, rest, said = Taker(child).taken()
    ends((status, taken + rest, said), DONE, LONG_REPORT)


def slowly_read_output():
    with file_of(LONG) as file:
        child = subprocess.Popen([PROGRAM, "replay"], stdin=file, stdout=subprocess.PIPE, stderr=subprocess.PIPE, pipesize=4_096, bufsize=0)
        taken = b""
        while piece := child.stdout.read(3_001):
            taken += piece
            time.sleep(0.001)
        said = child.stderr.read()
    ends((child.wait(TIMEOUT), taken, said), DONE, LONG_REPORT)


def output_that_would_block():
    """A pipe that nobody reads and whose writes don't wait takes what it holds, and then fails."""
    reading, writing = os.pipe()
    holds = fcntl.fcntl(writing, fcntl.F_GETPIPE_SZ)
    os.set_blocking(writing, False)
    status, _, said = run(input=LONG, stdout=writing)
    os.close(writing)
    with open(reading, "rb") as pipe:
        taken = pipe.read()
    ends((status, taken, said), WRITE, LONG_REPORT[:holds])


def limited_size_of_a_file():
    """The write that meets the limit takes a part, and the next one fails."""

    def limited_file(most):
        signal.signal(signal.SIGXFSZ, signal.SIG_IGN)
        resource.setrlimit(resource.RLIMIT_FSIZE, (most, most))

    for most in [0, 1, 4_096, 100_000, len(LONG_REPORT) - 1, len(LONG_REPORT)]:
        with tempfile.TemporaryFile() as file, file_of(LONG) as rows:
            status, _, said = run(stdin=rows, stdout=file, restore_signals=False, preexec_fn=lambda: limited_file(most))
            file.seek(0)
            ends((status, file.read(), said), DONE if most == len(LONG_REPORT) else WRITE, LONG_REPORT[:most], f"{most} octets: ")


def output_that_nobody_reads():
    """The signal that a closed pipe raises is ignored, so the write fails."""
    reading, writing = os.pipe()
    os.close(reading)
    for rows in (SMALL, b"no rows"):
        wants(run(input=rows, stdout=writing), (WRITE, None, SAID[WRITE]))
    os.close(writing)


TESTS = [
    interrupted_write,
    partial_writes,
    slowly_read_output,
    output_that_would_block,
    limited_size_of_a_file,
    output_that_nobody_reads,
]
