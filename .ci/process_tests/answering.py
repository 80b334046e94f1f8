"""Statuses 0 and 1: the report, a refused row, a refused block."""
from .rows import SMALL, SMALL_REPORT
from .running import DONE, REFUSED, ends, file_of, run


def done_and_refused():
    ends(run(input=SMALL), DONE, SMALL_REPORT)
    ends(run(input=b"cluster,4,1\nbegin\nend\n"), DONE, b"done packets 0 found 0 unknown 0\n")
    ends(run(input=b""), REFUSED, b"refused row 1 NoBegin\n")
    ends(run(input=b"cluster,4,1\nbegin\npacket,4,10.0.0.1,192.0.2.7,1,2,3\n"), REFUSED, b"refused row 3 Node\n")


def refused_blocks():
    rows = "".join(f"flow,10.{i >> 16}.{i >> 8 & 255}.{i & 255},192.0.2.7,1,2,6,{i % 2},1,192.168.0.9\n" for i in range(1_537))
    ends(run(input=f"cluster,2,1\n{rows}begin\nend\n".encode()), REFUSED, b"refused block 0 BlockFull\n")
    # As many flows as a block may have, but more than the searches of its groups can serve.
    rows = rows[: rows.index("flow,10.0.6.0,")]
    ends(run(input=f"cluster,16,1\n{rows}begin\nend\n".encode()), REFUSED, b"refused block 0 RowsFull\n")


def last_turn_of_an_owner():
    """A flow is set once more often than its owner has turns."""
    update = "set,10.0.0.1,192.0.2.7,1000,443,6,1,1,192.168.0.9\n"
    lines = "".join(f"set accepted owner 0 turn {turn}\n" for turn in range(1, 65_536))
    report = f"{lines}set refused spent\ndone packets 0 found 0 unknown 0\n"
    with file_of(f"cluster,4,1\nbegin\n{update * 65_536}end\n".encode()) as file:
        ends(run(stdin=file), DONE, report.encode())


TESTS = [
    done_and_refused,
    refused_blocks,
    last_turn_of_an_owner,
]
