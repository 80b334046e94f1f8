"""What the tests share: how the program is run, and what it says with each status."""
import contextlib
import os
import pathlib
import shutil
import subprocess
import sys
import tempfile
import threading

ROOT = pathlib.Path(__file__).resolve().parent.parent.parent
PROGRAM = sys.argv[1] if len(sys.argv) > 1 else str(ROOT / "crates/scalebricks/out/scalebricks")
# How many octets the program asks of its input at a time, and how many it takes in all.
TURN = 65_536
LIMIT = 67_108_864
DONE, REFUSED, WORDS, READ, WRITE, MEMORY, LARGE = range(7)
SAID = {
    DONE: b"",
    REFUSED: b"",
    WORDS: b"scalebricks: words refused\n",
    READ: b"scalebricks: read fault\n",
    WRITE: b"scalebricks: write fault\n",
    MEMORY: b"scalebricks: out of memory\n",
    LARGE: b"scalebricks: input too large\n",
}
TIMEOUT = 60


class Skipped(Exception):
    pass


def run(words=("replay",), **how):
    """Runs the program to its end: its status, and what stands on standard output and standard error."""
    how = {"stdout": subprocess.PIPE, "stderr": subprocess.PIPE, "timeout": TIMEOUT, **how}
    if "stdin" not in how and "input" not in how:
        how["stdin"] = subprocess.DEVNULL
    ran = subprocess.run([PROGRAM, *words], **how)
    return ran.returncode, ran.stdout, ran.stderr


def wants(given, wanted, of=""):
    def short(octets):
        return octets if not isinstance(octets, bytes) or len(octets) < 120 else octets[:50] + b" .. " + octets[-50:]

    if given != wanted:
        raise AssertionError(f"{of}wanted {[*map(short, wanted)]}, given {[*map(short, given)]}")


def ends(given, status, printed=b"", of=""):
    wants(given, (status, printed, SAID[status]), of)


@contextlib.contextmanager
def file_of(octets):
    with tempfile.TemporaryFile() as file:
        file.write(octets)
        file.seek(0)
        yield file


def interrupted(call, number, rows):
    """Runs the program on the rows; its call of this number is interrupted by a signal before it has moved anything."""
    if not shutil.which("strace"):
        raise Skipped("there is no strace, which makes a call fail so")
    if subprocess.run(["strace", "-o", os.devnull, "true"], capture_output=True).returncode:
        raise Skipped("strace can't trace here")
    inject = ["strace", "-o", os.devnull, "-e", f"trace={call}", "-e", f"inject={call}:error=EINTR:when={number}"]
    with file_of(rows) as file:
        ran = subprocess.run([*inject, PROGRAM, "replay"], stdin=file, capture_output=True, timeout=TIMEOUT)
    return ran.returncode, ran.stdout, ran.stderr


class Taker:
    """Takes what a process writes while others feed it."""

    def __init__(self, child):
        self.child = child
        self.streams = {}
        self.threads = [threading.Thread(target=self.take, args=(stream,)) for stream in (child.stdout, child.stderr)]
        for thread in self.threads:
            thread.start()

    def take(self, stream):
        self.streams[stream] = stream.read()

    def taken(self):
        status = self.child.wait(TIMEOUT)
        for thread in self.threads:
            thread.join()
        return status, self.streams[self.child.stdout], self.streams[self.child.stderr]
