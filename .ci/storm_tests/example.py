"""The outputs that stand beside examples/moved_in_a_storm.csv are all those that it may have."""
import itertools
import pathlib

EXAMPLE = pathlib.Path(__file__).resolve().parent.parent.parent / "examples/moved_in_a_storm"
SAID = {"teid 77 base 192.168.0.9": 1, "teid 78 base 192.168.0.10": 1, "unknown": 0}


def outputs():
    for node, seen, fib, said in itertools.product(range(4), range(3), range(3), SAID):
        found = SAID[said]
        packet = f"packet 0 in 0 to {node} hops {int(node != 0)} seen {seen} fib {fib} {said}\n"
        yield f"set accepted owner 0 turn 1\n{packet}done packets 1 found {found} unknown {1 - found}\n"


def has_all_outputs(tools):
    rows = pathlib.Path(f"{EXAMPLE}.csv").read_bytes()
    allowed = {output for output in outputs() if tools.checked(2, rows, output.encode())[0]}
    if allowed != {path.read_text() for path in EXAMPLE.parent.glob(f"{EXAMPLE.name}.*.out")}:
        raise AssertionError(f"allowed: {sorted(allowed)}")
