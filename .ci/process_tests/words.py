"""The words of the command line, and the mode that reads no input."""
import os

from .rows import SMALL, SMALL_REPORT
from .running import DONE, SAID, WORDS, WRITE, ends, file_of, run, wants


def refused_words():
    for words in [
        (), ("fly",), ("Replay",), ("replay ",), ("",), ("replay", "replay"), ("replay", ""), ("replay", "grind"), ("Storm",), ("storm", "replay"),
        ("--help",), ("-h",), ("replay", "--help"), ("--version",), ("replay", "--nonsense"), (b"replay\xff",),
        ("--workers", "4"), ("--workers", "replay"), ("replay", "--workers"), ("replay", "--workers", ""), ("replay", "--workers="),
        ("replay", "--workers", "0"), ("replay", "--workers", "65"), ("replay", "--lanes", "0"), ("replay", "--lanes", "9"),
        ("replay", "--seed", "4294967296"), ("replay", "--seed", "-1"), ("replay", "--seed=-1"), ("replay", "--workers", "four"),
        ("replay", "--workers", "+4"), ("replay", "--workers", "04"), ("replay", "--seed", "00"), ("replay", "--seed", "0x1"),
        ("replay", "--workers", "4", "--workers", "4"), ("replay", "--seed", "1", "--seed=1"), ("grind", "--lanes", "9"),
        ("storm", "--lanes", "0"), ("storm", "--lanes", "9"), ("storm", "--lanes"), ("storm", "--workers", "65"),
    ]:
        with file_of(SMALL) as file:
            ends(run(words, stdin=file), WORDS, of=f"{words}: ")
            wants((os.lseek(file.fileno(), 0, os.SEEK_CUR),), (0,), "octets read: ")


def words_taken():
    for words in [
        ("--workers", "1", "replay"), ("replay", "--workers=64"), ("--lanes", "8", "replay", "--seed", "0"), ("replay", "--lanes", "1"),
        ("--seed=4294967295", "replay"), ("--", "replay"), ("--workers", "7", "--", "replay"),
        ("storm",), ("storm", "--lanes", "1"), ("--lanes=8", "storm", "--workers", "1", "--seed", "7"), ("--", "storm"),
    ]:
        ends(run(words, input=SMALL), DONE, SMALL_REPORT, f"{words}: ")


def grind_by_any_workers():
    """Its rows are its own: it reads nothing, and a standard input that can't be read is no fault."""
    lines = set()
    for workers in ("1", "4", "7", "64"):
        with file_of(SMALL) as file:
            status, printed, said = run(("grind", "--seed", "1", "--workers", workers), stdin=file)
            wants((os.lseek(file.fileno(), 0, os.SEEK_CUR),), (0,), "octets read: ")
        wants((status, said), (DONE, b""), f"{workers} workers: ")
        lines.add(printed)
    wants((len(lines),), (1,), "lines: ")
    line = lines.pop()
    counts = line.split()
    wants((line[:61],), (b"grind seed 1 rows 37487 accepted 1000 refused 0 packets 20000",))
    wants((line, int(counts[12]) + int(counts[14])), (b" ".join(counts) + b"\n", 20_000))
    ends(run(("grind",), stdin=None, preexec_fn=lambda: os.close(0)), DONE, line)
    with open("/dev/full", "wb") as full:
        wants(run(("grind",), stdout=full), (WRITE, None, SAID[WRITE]))


TESTS = [
    refused_words,
    words_taken,
    grind_by_any_workers,
]
