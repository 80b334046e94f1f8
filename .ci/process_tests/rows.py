"""Inputs that are drawn, and what the program prints for them, worked out from what was drawn."""
import random


def rows_and_report(flows, packets, nodes=4, blocks=8, octets=None):
    """An input, filled up with blank lines to a number of octets if that is given, and what the program prints for it.

    Every packet's key is that of a flow, so its node and its record are those of the flow's row. The blank lines follow
    the first row, and the last row has no end, so that no octet of the last ones can be left out.
    """
    draw = random.Random(flows * 1_000_003 + packets)
    rows, known, lines = [f"cluster,{nodes},{blocks}\n"], [], []
    for flow in range(flows):
        key = f"10.0.{flow // 256}.{flow % 256},192.0.2.{draw.randrange(256)},{draw.randrange(65_536)},443,6"
        node, teid, base = draw.randrange(nodes), draw.getrandbits(32), f"192.168.{draw.randrange(256)}.9"
        known.append((key, node, teid, base))
        rows.append(f"flow,{key},{node},{teid},{base}\n")
    rows.append("begin\n")
    for packet in range(packets):
        key, node, teid, base = draw.choice(known)
        ingress = draw.randrange(nodes)
        rows.append(f"packet,{ingress},{key}\n")
        hops = int(node != ingress)
        lines.append(f"packet {packet} in {ingress} to {node} hops {hops} seen 0 fib 0 teid {teid} base {base}\n")
    rows.append("end\n")
    lines.append(f"done packets {packets} found {packets} unknown 0\n")
    first, others = rows[0].encode(), "".join(rows[1:]).encode()[:-1]
    if octets is not None:
        first += b"\n" * (octets - len(first + others))
    return first + others, "".join(lines).encode()


SMALL, SMALL_REPORT = rows_and_report(1, 1)
# Some 150 KB of rows, and some 130 KB of report: more than two turns, and more than a pipe holds.
LONG, LONG_REPORT = rows_and_report(1_000, 2_000)


def moves_and_report(turns, nodes=16):
    """An input of updates that send one flow from node to node, and what the program prints for it."""
    key = "10.0.0.1,192.0.2.7,1000,443,6"
    rows = [f"set,{key},{turn % nodes},{turn},192.168.0.9\n" for turn in range(1, turns + 1)]
    lines = [f"set accepted owner 0 turn {turn}\n" for turn in range(1, turns + 1)]
    node = turns % nodes
    lines.append(f"packet 0 in {node} to {node} hops 0 seen {turns} fib {turns} teid {turns} base 192.168.0.9\n")
    lines.append("done packets 1 found 1 unknown 0\n")
    script = f"{''.join(rows)}sync\npacket,{node},{key}\nend\n"
    return f"cluster,{nodes},1\nbegin\n{script}".encode(), "".join(lines).encode()
