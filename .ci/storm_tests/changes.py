"""Changes that no order of steps explains, each made in a copy of an output of a storm.

A change yields the output's lines with one or two of them changed, once for each place where it can be made for certain.
Of versions, nodes and answers that is the last phase, which has packets alone, so that a packet's whole line is determined.
"""
import collections
import re

# A storm's rows and its output's lines, with their ends, and its number of lanes.
Storm = collections.namedtuple("Storm", "rows lines lanes")

PACKET = re.compile(
    r"packet (?P<number>\d+) in (?P<ingress>\d+)(?: to (?P<node>\d+) hops (?P<hops>\d))? seen (?P<seen>\d+)(?: fib (?P<fib>\d+))? "
    r"(?P<said>.*)\n"
)
UPDATE = re.compile(r"(set|del) accepted owner (?P<owner>\d+) turn (?P<turn>\d+)\n")


def last_packets(storm):
    """Places and matches of the last phase's packets."""
    count = len(storm.rows) - 2 - max(place for place, row in enumerate(storm.rows) if row in ("sync\n", "begin\n"))
    for place in range(len(storm.lines) - 1 - count, len(storm.lines) - 1):
        yield place, PACKET.fullmatch(storm.lines[place])


def with_line(lines, place, *now):
    return [*lines[:place], *now, *lines[place + 1 :]]


def with_part(storm, place, match, name, now):
    line = storm.lines[place]
    return with_line(storm.lines, place, f"{line[: match.start(name)]}{now}{line[match.end(name) :]}")


def exchanged(lines, place, other):
    return with_line(with_line(lines, place, lines[other]), other, lines[place])


def with_number_changed(name, by):
    def change(storm):
        for place, match in last_packets(storm):
            if match[name] is not None and int(match[name]) + by >= 0:
                yield with_part(storm, place, match, name, int(match[name]) + by)

    return change


def another_node(storm):
    nodes = int(storm.rows[0].split(",")[1])
    for place, match in last_packets(storm):
        if match["node"] is not None:
            node = (int(match["node"]) + 1) % nodes
            now = f" to {node} hops {int(node != int(match['ingress']))}"
            line = storm.lines[place]
            yield with_line(storm.lines, place, f"{line[: match.start('node') - 4]}{now}{line[match.end('hops') :]}")


def other_hops(storm):
    for place, match in last_packets(storm):
        if match["hops"] is not None:
            yield with_part(storm, place, match, "hops", 1 - int(match["hops"]))


def found(storm):
    return [(place, match) for place, match in last_packets(storm) if match["said"] != "unknown"]


def unknown(storm):
    return [(place, match) for place, match in last_packets(storm) if match["said"] == "unknown"]


def another_tunnel(storm):
    for place, match in found(storm):
        yield with_line(storm.lines, place, re.sub(r" teid \d+", " teid 1000000", storm.lines[place]))


def another_base(storm):
    for place, match in found(storm):
        yield with_line(storm.lines, place, re.sub(r" base \S+", " base 10.0.0.1", storm.lines[place]))


def unknown_for_found(storm):
    for place, match in found(storm):
        yield with_part(storm, place, match, "said", "unknown")


def found_for_unknown(storm):
    for place, match in unknown(storm):
        yield with_part(storm, place, match, "said", "teid 1 base 192.168.0.1")


def nowhere_for_somewhere(storm):
    for place, match in last_packets(storm):
        if match["node"] is not None:
            now = f"packet {match['number']} in {match['ingress']} seen {match['seen']} unknown\n"
            yield with_line(storm.lines, place, now)


def somewhere_for_nowhere(storm):
    for place, match in last_packets(storm):
        if match["node"] is None:
            hops = int(match["ingress"] != "0")
            now = f"packet {match['number']} in {match['ingress']} to 0 hops {hops} seen {match['seen']} fib {match['seen']} unknown\n"
            yield with_line(storm.lines, place, now)


def other_counts(storm):
    done, packets, count, found_, of_found, unknown_, of_unknown = storm.lines[-1].split()
    for more in ((1, 0, 0), (0, 1, 0), (0, 0, 1), (0, 1, -1), (1, 1, 0)):
        count_, of_found_, of_unknown_ = (int(number) + by for number, by in zip((count, of_found, of_unknown), more))
        yield with_line(storm.lines, len(storm.lines) - 1, f"{done} {packets} {count_} {found_} {of_found_} {unknown_} {of_unknown_}\n")


def another_turn(storm):
    for place, line in enumerate(storm.lines):
        if match := UPDATE.fullmatch(line):
            yield with_part(storm, place, match, "turn", int(match["turn"]) + 1)
            yield with_part(storm, place, match, "owner", int(match["owner"]) + 1)


def refused_for_accepted(storm):
    for place, line in enumerate(storm.lines):
        if UPDATE.fullmatch(line):
            yield with_line(storm.lines, place, f"{line[:3]} refused {'absent' if line.startswith('del') else 'spent'}\n")


def accepted_for_refused(storm):
    for place, line in enumerate(storm.lines):
        if " refused " in line:
            yield with_line(storm.lines, place, f"{line[:3]} accepted owner 0 turn 1\n")


def updates_exchanged(storm):
    updates = [place for place, line in enumerate(storm.lines) if line.startswith(("set ", "del "))]
    for place, other in zip(updates, updates[1:]):
        if storm.lines[place] != storm.lines[other]:
            yield exchanged(storm.lines, place, other)


def packets_exchanged(storm):
    packets = [place for place, line in enumerate(storm.lines) if line.startswith("packet ")]
    for place, other in zip(packets, packets[1:]):
        yield exchanged(storm.lines, place, other)


def line_left_out(storm):
    for place in range(len(storm.lines)):
        yield with_line(storm.lines, place)


def line_twice(storm):
    for place, line in enumerate(storm.lines):
        yield with_line(storm.lines, place, line, line)


def end_left_out(storm):
    yield [*storm.lines[:-1], storm.lines[-1][:-1]]
    yield []


def looks_of_lanes(storm):
    """The packets of the output by lane and key, with their matches."""
    keys = [row.split(",", 2)[2] for row in storm.rows if row.startswith("packet,")]
    looks = {}
    for place, line in enumerate(storm.lines):
        if match := PACKET.fullmatch(line):
            number = int(match["number"])
            looks.setdefault((number % storm.lanes, keys[number]), []).append((place, match))
    return looks.values()


def goes_back_at(name):
    """Two packets of a lane that met one node's table or FIB have their paths exchanged, so that versions fall there."""

    def change(storm):
        at = "ingress" if name == "seen" else "node"
        for looks in looks_of_lanes(storm):
            for (place, match), (other, later) in zip(looks, looks[1:]):
                if match[name] and later[name] and match[at] == later[at] and int(match[name]) < int(later[name]):
                    start = "ingress" if name == "seen" else "fib"
                    line, other_line = storm.lines[place], storm.lines[other]
                    before = line[: match.start(start)] + other_line[later.start(start) :]
                    after = other_line[: later.start(start)] + line[match.start(start) :]
                    yield with_line(with_line(storm.lines, place, before), other, after)

    return change


CHANGES = {
    "seen is one more": with_number_changed("seen", 1),
    "seen is one less": with_number_changed("seen", -1),
    "fib is one more": with_number_changed("fib", 1),
    "fib is one less": with_number_changed("fib", -1),
    "the packet has another number": with_number_changed("number", 1),
    "the packet has another ingress": with_number_changed("ingress", 1),
    "the packet comes to another node": another_node,
    "the packet has other hops": other_hops,
    "the record has another tunnel": another_tunnel,
    "the record has another base station": another_base,
    "a known flow is unknown": unknown_for_found,
    "an unknown flow is found": found_for_unknown,
    "a packet goes nowhere": nowhere_for_somewhere,
    "a packet doesn't go nowhere": somewhere_for_nowhere,
    "the last line counts wrong": other_counts,
    "an update has another turn or owner": another_turn,
    "an accepted update is refused": refused_for_accepted,
    "a refused update is accepted": accepted_for_refused,
    "two updates' lines are exchanged": updates_exchanged,
    "two packets' lines are exchanged": packets_exchanged,
    "a line is left out": line_left_out,
    "a line stands twice": line_twice,
    "the last line has no end": end_left_out,
    "a lane goes back at a table": goes_back_at("seen"),
    "a lane goes back at a FIB": goes_back_at("fib"),
}

