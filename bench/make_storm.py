#!/usr/bin/env python3
"""Writes the rows of a storm whose updates race with its packets to standard output, the same ones for the same words.

  make_storm.py SEED [quiet]

Few keys have all updates and nearly all packets, and updates stand in bursts between bursts of packets. Two to sixteen
nodes, one to a few phases; there are more flows about in some, so that groups have several keys and some no index. The
last phase has packets alone. In a quiet storm no phase has both updates and packets.
"""
import pathlib
import random
import sys

sys.path.insert(0, str(pathlib.Path(__file__).resolve().parent))
from make_input import address  # noqa: E402


class Storm:
    def __init__(self, seed, quiet):
        self.draw = random.Random(seed)
        self.quiet = quiet
        self.nodes = self.draw.randrange(2, 17)
        self.blocks = self.draw.choice((1, 1, 2, self.nodes - 1, self.nodes, 2 * self.nodes))
        self.teids = 0
        flows = self.draw.choice((0, 1, 2, 6, 40, 300, 1_150))
        self.flows = [self.key(0x0A000000 + flow) for flow in range(flows)]
        others = [self.key(0x0B000000 + key) for key in range(self.draw.choice((1, 2, 8)))]
        self.hot = [*self.draw.sample(self.flows, min(flows, self.draw.choice((1, 2, 5, 40)))), *others]
        self.unknown = [self.key(0x0C000000 + key) for key in range(6)]

    def key(self, source):
        return f"{address(source)},{address(self.draw.getrandbits(32))},{self.draw.randrange(65_536)},443,6"

    def flow(self, key):
        self.teids += 1
        return f"{key},{self.draw.randrange(self.nodes)},{self.teids},{address(0xC0A80000 + self.draw.randrange(256))}"

    def rows(self):
        yield f"cluster,{self.nodes},{self.blocks}"
        for key in self.flows:
            yield f"flow,{self.flow(key)}"
        yield "begin"
        for _ in range(self.draw.choice((1, 1, 2, 4))):
            yield from self.phase()
            yield "sync"
        for key in [*self.hot, *self.hot, *self.unknown]:
            yield self.packet(key)
        yield "end"

    def phase(self):
        rounds = self.draw.choice((1, 3, 10, 30))
        updates, packets = self.draw.randrange(1, 16), self.draw.randrange(1, 60)
        if self.quiet:
            yield from (self.update() for _ in range(rounds * updates))
            yield "sync"
            rounds, updates = 1, 0
        for _ in range(rounds):
            yield from (self.update() for _ in range(updates))
            yield from (self.packet(self.some_key()) for _ in range(packets))

    def update(self):
        key = self.draw.choice(self.hot)
        return f"del,{key}" if self.draw.randrange(5) == 0 else f"set,{self.flow(key)}"

    def some_key(self):
        if self.draw.randrange(20) == 0:
            return self.draw.choice(self.flows + self.unknown)
        return self.draw.choice(self.hot)

    def packet(self, key):
        return f"packet,{self.draw.randrange(self.nodes)},{key}"


def rows_of_storm(seed, quiet=False):
    return "".join(f"{row}\n" for row in Storm(seed, quiet).rows()).encode()


def main():
    if sys.argv[2:] not in ([], ["quiet"]):
        sys.exit(__doc__)
    sys.stdout.buffer.write(rows_of_storm(int(sys.argv[1]), bool(sys.argv[2:])))


if __name__ == "__main__":
    main()
