"""Standard streams that are closed, full, or of the wrong kind."""
import os

from .rows import LONG, SMALL
from .running import DONE, READ, REFUSED, SAID, WORDS, WRITE, ends, run, wants


def folder_as_input():
    folder = os.open("/", os.O_RDONLY)
    ends(run(stdin=folder), READ)
    os.close(folder)


def closed_input():
    ends(run(stdin=None, preexec_fn=lambda: os.close(0)), READ)


def input_that_is_only_written():
    with open("/dev/null", "wb") as only_written:
        ends(run(stdin=only_written), READ)


def full_device_as_output():
    for rows in (SMALL, b"no rows", LONG):
        with open("/dev/full", "wb") as full:
            given = run(input=rows, stdout=full)
        wants(given, (WRITE, None, SAID[WRITE]))


def closed_output():
    wants(run(input=SMALL, preexec_fn=lambda: os.close(1)), (WRITE, b"", SAID[WRITE]))


def output_that_is_only_read():
    with open("/dev/null", "rb") as only_read:
        wants(run(input=SMALL, stdout=only_read), (WRITE, None, SAID[WRITE]))


def status_without_standard_error():
    for status, words, rows in [(DONE, ["replay"], SMALL), (REFUSED, ["replay"], b""), (WORDS, ["fly"], b"")]:
        wants(run(words, input=rows, preexec_fn=lambda: os.close(2))[:1], (status,))
        with open("/dev/full", "wb") as full:
            wants(run(words, input=rows, stderr=full)[:1], (status,))


TESTS = [
    folder_as_input,
    closed_input,
    input_that_is_only_written,
    full_device_as_output,
    closed_output,
    output_that_is_only_read,
    status_without_standard_error,
]
