"""Inputs that a storm refuses, and what it says of each."""

KEY = "10.0.0.1,192.0.2.7,1000,443,6"
FLOW = f"{KEY},1,77,192.168.0.9"


def script(*rows):
    return "".join(f"{row}\n" for row in ("cluster,4,1", "begin", *rows))


def flows(count, nodes):
    rows = "".join(f"flow,10.{i >> 16}.{i >> 8 & 255}.{i & 255},192.0.2.7,1,2,6,{i % nodes},1,192.168.0.9\n" for i in range(count))
    return f"cluster,{nodes},1\n{rows}begin\nend\n"


CASES = (
    ("", "row 1 NoBegin"),
    ("cluster,4,1\n", "row 2 NoBegin"),
    ("cluster,1,1\nbegin\nend\n", "row 1 Number"),
    ("cluster,17,1\n", "row 1 Number"),
    ("cluster,4,0\n", "row 1 Number"),
    ("cluster,4,257\n", "row 1 Number"),
    ("cluster,4\n", "row 1 Fields"),
    ("begin\n", "row 1 Kind"),
    (f"cluster,4,1\nset,{FLOW}\n", "row 2 Kind"),
    (f"cluster,4,1\nflow,{FLOW}\nflow,{FLOW}\n", "row 3 Duplicate"),
    (f"cluster,4,1\nflow,{KEY},4,77,192.168.0.9\n", "row 2 Node"),
    (f"cluster,4,1\nflow,{KEY},256,77,192.168.0.9\n", "row 2 Number"),
    (f"cluster,4,1\nflow,{KEY},1,4294967296,192.168.0.9\n", "row 2 Number"),
    (f"cluster,4,1\nflow,{KEY},1,77,192.168.0\n", "row 2 Address"),
    (f"cluster,4,1\nflow,{KEY},1,77,192.168.0.09\n", "row 2 Address"),
    ("cluster,4,1\nbegin,\n", "row 2 Fields"),
    (script(), "row 3 NoEnd"),
    (script("end", "sync"), "row 4 AfterEnd"),
    (script("end", '""'), "row 4 AfterEnd"),
    (script(f"flow,{FLOW}"), "row 3 Kind"),
    (script("carry,0,0,1,table"), "row 3 CarryInStorm"),
    (script("carry"), "row 3 CarryInStorm"),
    (script('"carry",9,9,0,neither'), "row 3 CarryInStorm"),
    (script(f"packet,1,{KEY},0"), "row 3 Fields"),
    (script(f"packet,4,{KEY}"), "row 3 Node"),
    (script("packet,1,10.0.0.1,192.0.2.7,65536,443,6"), "row 3 Number"),
    (script("packet,1,10.0.0.1,192.0.2.7,01,443,6"), "row 3 Number"),
    (script("del,10.0.0.1,192.0.2.256,1,443,6"), "row 3 Address"),
    (script("del,10.0.0.1.1,192.0.2.7,1,443,6"), "row 3 Address"),
    (script('"sync', 'end"'), "row 3 Kind"),
    (script(*["sync"] * 256, "end"), "row 258 TooManyPhases"),
    (script(*["sync"] * 255, "sync,", "end"), "row 258 Fields"),
    (flows(1_537, 2), "block 0 BlockFull"),
    (flows(1_536, 16), "block 0 RowsFull"),
)


def judged(tools):
    for rows, why in CASES:
        rows, line = rows.encode(), f"refused {why}\n".encode()
        tools.allowed(2, rows, line, f"{rows[:60]}: ")
        tools.refused(2, rows, line + line, f"{rows[:60]}, twice: ")
        tools.refused(2, rows, b"", f"{rows[:60]}, nothing: ")
    tools.refused(2, script("end").encode(), b"refused row 3 Kind\n")
    tools.allowed(2, script(*["sync"] * 255, "end").encode(), b"done packets 0 found 0 unknown 0\n")


def refused(tools):
    for rows, why in CASES:
        given = tools.printed("storm", rows.encode(), status=1)
        if given != f"refused {why}\n".encode():
            raise AssertionError(f"{rows[:60]!r}: wanted {why}, given {given}")
    tools.printed("storm", script(*["sync"] * 255, "end").encode())
