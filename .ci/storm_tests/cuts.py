"""Outputs by hand that show one thing each: what a lane has seen of one group tells of the other groups of its owner, and
a packet meets versions of its own phase.

Two flows of two groups, all of one owner: it changes the first, the second, and the first again, in its turns 1, 2 and 3.
All records are node 0's, so that each version can be met, and the tunnel tells which one it was.
"""
import itertools

FIRST, SECOND = "10.0.0.1,192.0.2.7,1000,443,6", "10.0.0.2,192.0.2.7,1001,443,6"
TUNNELS = {FIRST: (1, 3, 5), SECOND: (2, 4)}
# Of each case the two packets: ingress, key, seen, fib; and the lanes with which they may be so.
CASES = (
    ("seen before what was seen", (1, FIRST, 2, 0), (1, SECOND, 0, 0), [2]),
    ("seen after it", (1, FIRST, 2, 0), (1, SECOND, 1, 0), [1, 2]),
    ("seen at another node", (1, FIRST, 2, 0), (0, SECOND, 0, 0), [1, 2]),
    ("seen at the latest turn", (1, SECOND, 1, 0), (1, FIRST, 1, 0), [1, 2]),
    ("seen at a later turn", (1, SECOND, 1, 0), (1, FIRST, 2, 0), [1, 2]),
    ("seen by an ended version", (1, SECOND, 1, 0), (1, FIRST, 0, 0), [2]),
    ("found before what was found", (1, FIRST, 0, 2), (1, SECOND, 0, 0), [2]),
    ("found so, from another node", (1, FIRST, 0, 2), (0, SECOND, 0, 0), [2]),
    ("found after it", (1, FIRST, 0, 2), (1, SECOND, 0, 1), [1, 2]),
    ("found before what was seen", (0, FIRST, 2, 0), (0, SECOND, 1, 0), [1, 2]),
    ("seen before what was found", (0, FIRST, 0, 2), (0, SECOND, 0, 1), [1, 2]),
    ("of no version", (0, FIRST, 0, 0), (0, SECOND, 2, 0), []),
)
PHASES = f"""cluster,2,1
flow,{FIRST},0,1,192.168.0.9
begin
packet,1,{FIRST}
set,{FIRST},0,3,192.168.0.9
sync
packet,1,{FIRST}
set,{FIRST},0,5,192.168.0.9
sync
packet,1,{FIRST}
end
"""


def rows_of(packets):
    flows = "".join(f"flow,{key},0,{tunnels[0]},192.168.0.9\n" for key, tunnels in TUNNELS.items())
    turns = ((FIRST, 3), (SECOND, 4), (FIRST, 5))
    sets = "".join(f"set,{key},0,{tunnel},192.168.0.9\n" for key, tunnel in turns)
    looks = "".join(f"packet,{ingress},{key}\n" for ingress, key, _, _ in packets)
    return f"cluster,2,1\n{flows}begin\n{sets}{looks}end\n".encode()


def packet(number, ingress, key, seen, fib):
    # A version that never was has a tunnel of no flow.
    tunnel = TUNNELS[key][fib] if fib < len(TUNNELS[key]) else 9
    return f"packet {number} in {ingress} to 0 hops {int(ingress != 0)} seen {seen} fib {fib} teid {tunnel} base 192.168.0.9\n"


def output_of(packets):
    lines = [f"set accepted owner 0 turn {turn}\n" for turn in (1, 2, 3)]
    lines += [packet(number, *path) for number, path in enumerate(packets)]
    return f"{''.join(lines)}done packets 2 found 2 unknown 0\n".encode()


def phases_judged(tools):
    """Each packet of three phases meets each pair of versions; the other two meet the first of their phases."""
    for number, seen, fib in itertools.product(range(3), repeat=3):
        lines = [packet(place, 1, FIRST, place, place) for place in range(3)]
        lines[number] = packet(number, 1, FIRST, seen, fib)
        lines[1:1], lines[3:3] = ["set accepted owner 0 turn 1\n"], ["set accepted owner 0 turn 2\n"]
        output = f"{''.join(lines)}done packets 3 found 3 unknown 0\n".encode()
        is_allowed, said = tools.checked(3, PHASES.encode(), output)
        of_phase = range(number, min(number + 2, 3))
        if is_allowed != (seen in of_phase and fib in of_phase) or not is_allowed and not said.startswith(f"line {2 * number + 1}: "):
            raise AssertionError(f"packet {number}, seen {seen}, fib {fib}: {said}")


def judged(tools):
    for name, *packets, may_have in CASES:
        for lanes in (1, 2):
            is_allowed, said = tools.checked(lanes, rows_of(packets), output_of(packets))
            if is_allowed != (lanes in may_have) or not is_allowed and not said.startswith("line 5: "):
                raise AssertionError(f"{name}, {lanes} lanes: {said}")
