#!/usr/bin/env python3
"""Writes the rows of a benchmark to standard output, the same ones for the same words.

  make_input.py FLOWS PACKETS [NODES [BLOCKS [SEED [UPDATES [SYNCS]]]]]

Nodes are drawn evenly; a tenth of the packets have keys that no flow has. Updates stand evenly among the packets, and
syncs among the updates: of four updates two move a flow, one deletes one and one sets a new one. Defaults: 16 nodes,
256 blocks, seed 1, no updates and no syncs.
"""
import random
import sys


def address(number):
    return ".".join(str(number >> shift & 255) for shift in (24, 16, 8, 0))


def update(draw, number, keys, nodes):
    """The row of an update: a flow that moves, twice, one that is deleted, or a new one."""
    key = keys[draw.randrange(len(keys))]
    if number % 4 == 2:
        return f"del,{key}\n"
    if number % 4 == 3:
        key = f"{address(0x0C000000 + number)},{address(draw.getrandbits(32))},{1024 + draw.randrange(60000)},443,6"
    return f"set,{key},{draw.randrange(nodes)},{number + 1},{address(0xC0A80000 + draw.randrange(256))}\n"


def main():
    words = [int(word) for word in sys.argv[1:]]
    flows, packets = words[0], words[1]
    defaults = [16, 256, 1, 0, 0]
    nodes, blocks, seed, updates, syncs = words[2:] + defaults[len(words) - 2 :]
    draw = random.Random(seed)
    write = sys.stdout.write

    keys = []
    write(f"cluster,{nodes},{blocks}\n")
    for flow in range(flows):
        # Sources differ, so keys do.
        key = f"{address(0x0A000000 + flow)},{address(draw.getrandbits(32))},{1024 + draw.randrange(60000)},443,6"
        keys.append(key)
        write(f"flow,{key},{draw.randrange(nodes)},{flow + 1},{address(0xC0A80000 + draw.randrange(256))}\n")
    write("begin\n")
    changes = random.Random(seed + 1)
    changed = 0
    for packet in range(packets):
        while changed * packets < packet * updates:
            write(update(changes, changed, keys, nodes))
            changed += 1
            if changed * syncs // updates > (changed - 1) * syncs // updates:
                write("sync\n")
        if draw.randrange(10) == 0:
            key = f"{address(0x0B000000 + draw.getrandbits(24))},192.0.2.1,{draw.randrange(65536)},443,6"
        else:
            key = keys[draw.randrange(flows)]
        write(f"packet,{draw.randrange(nodes)},{key}\n")
    write("end\n")


if __name__ == "__main__":
    main()
