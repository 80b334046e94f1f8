"""How the input comes: its limit, its pieces, reads that fail or are interrupted."""
import os
import socket
import subprocess
import time

from .rows import LONG, LONG_REPORT, SMALL, SMALL_REPORT, rows_and_report
from .running import DONE, LARGE, LIMIT, PROGRAM, READ, TURN, Taker, ends, file_of, interrupted, run, wants


def limit_of_the_input():
    rows, report = rows_and_report(3, 5, octets=LIMIT)
    for more, status, printed in [(b"", DONE, report), (b"\n", LARGE, b"")]:
        with file_of(rows + more) as file:
            ends(run(stdin=file), status, printed)
            wants((os.lseek(file.fileno(), 0, os.SEEK_CUR),), (len(rows + more),), "octets read: ")


def input_without_end():
    with open("/dev/zero", "rb") as zeros:
        ends(run(stdin=zeros), LARGE)


def inputs_about_a_turn():
    for turns, more in [(1, -1), (1, 0), (1, 1), (2, -1), (2, 0), (2, 1)]:
        octets = turns * TURN + more
        rows, report = rows_and_report(500 * turns, 500 * turns, octets=octets)
        wants((len(rows),), (octets,), "octets made: ")
        with file_of(rows) as file:
            ends(run(stdin=file), DONE, report, f"{octets} octets of a file: ")
        ends(run(input=rows), DONE, report, f"{octets} octets of a pipe: ")


def input_in_pieces():
    for size in [1_000, TURN - 1, TURN + 1]:
        child = subprocess.Popen([PROGRAM, "replay"], stdin=subprocess.PIPE, stdout=subprocess.PIPE, stderr=subprocess.PIPE)
        taker = Taker(child)
        for start in range(0, len(LONG), size):
            child.stdin.write(LONG[start : start + size])
            child.stdin.flush()
            time.sleep(0.001)
        child.stdin.close()
        ends(taker.taken(), DONE, LONG_REPORT, f"pieces of {size}: ")


def input_octet_by_octet():
    child = subprocess.Popen([PROGRAM, "replay"], stdin=subprocess.PIPE, stdout=subprocess.PIPE, stderr=subprocess.PIPE, bufsize=0)
    taker = Taker(child)
    for octet in SMALL:
        child.stdin.write(bytes([octet]))
        time.sleep(0.001)
    child.stdin.close()
    ends(taker.taken(), DONE, SMALL_REPORT)


def read_that_fails_in_mid_stream():
    """The peer of a socket that closes it with octets unread resets it: what was sent is read, and then a read fails."""
    for sent in [0, 1, len(SMALL), TURN - 1, TURN, TURN + 1, len(LONG)]:
        ours, theirs = socket.socketpair()
        child = subprocess.Popen([PROGRAM, "replay"], stdin=theirs, stdout=subprocess.PIPE, stderr=subprocess.PIPE)
        theirs.send(b"unread")
        theirs.close()
        ours.sendall(LONG[:sent] if sent != len(SMALL) else SMALL)
        ours.close()
        ends(Taker(child).taken(), READ, of=f"after {sent} octets: ")


def input_that_would_block():
    reading, writing = os.pipe()
    os.set_blocking(reading, False)
    ends(run(stdin=reading), READ)
    os.close(reading), os.close(writing)


def interrupted_read():
    # The first read is the loader's, of the C library.
    for number in (2, 3, 5):
        ends(interrupted("read", number, LONG), DONE, LONG_REPORT, f"read {number}: ")


TESTS = [
    limit_of_the_input,
    input_without_end,
    inputs_about_a_turn,
    input_in_pieces,
    input_octet_by_octet,
    read_that_fails_in_mid_stream,
    input_that_would_block,
    interrupted_read,
]
