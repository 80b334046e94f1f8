"""Little memory: status 5 and no output, or status 0 and all of it."""
import resource

from .rows import moves_and_report, rows_and_report
from .running import DONE, MEMORY, WORDS, ends, file_of, run, wants


def little_memory_for_flows():
    ends_in_little_memory(*rows_and_report(4_000, 4_000, nodes=16, blocks=64))


def little_memory_for_turns():
    ends_in_little_memory(*moves_and_report(10_000))


def little_memory_for_storms():
    """Threads that can't be started are no want of memory: what starts them does their work."""
    ends_in_little_memory(*moves_and_report(2_000), words=("storm", "--lanes", "8"))


def ends_in_little_memory(rows, report, words=("replay",)):
    """Where memory suffices for it to start, it ends with 0 and all output, or with 5 and none."""
    met = {DONE: 0, MEMORY: 0}
    for kilobytes in [*range(1_024, 8_192, 256), *range(8_192, 131_072, 4_096)]:
        how = {"preexec_fn": lambda: resource.setrlimit(resource.RLIMIT_AS, (kilobytes << 10, kilobytes << 10))}
        starts = run(["fly"], **how)[0] == WORDS
        with file_of(rows) as file:
            given = run(words, stdin=file, **how)
        if not starts:
            wants(given[1:2], (b"",), f"{kilobytes} KB: ")
            continue
        status = MEMORY if given[0] == MEMORY else DONE
        ends(given, status, report if status == DONE else b"", f"{kilobytes} KB: ")
        met[status] += 1
    if not all(met.values()):
        raise AssertionError(f"done {met[DONE]} times, and out of memory {met[MEMORY]} times")


TESTS = [
    little_memory_for_flows,
    little_memory_for_turns,
    little_memory_for_storms,
]
