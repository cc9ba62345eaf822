#!/usr/bin/env python3
"""Turns a log of nbdkit's filter `log` into a trace that stackjudge judges.

usage: nbdkit_log.py CONFIG LOG > TRACE

    nbdkit --filter=log file disk.img logfile=LOG
    stackjudge check --gaps CONFIG TRACE

The export is partition 0 of CONFIG. The log tells requests and answers: each request is taken to go to the device when
it comes in, or as soon as one of CONFIG's tags is free, and the device to end it just before its answer. The log has no
bytes, so sizes, bounds, tags, order and statuses are judged, and that each request is answered once; not what was read."""

import re
import sys

from machine_lines import Lines, run

KINDS = "Read|Write|Zero|Flush|Trim|Cache"
CALL = re.compile(rf"connection=(\d+) ({KINDS}) id=(\d+)(?: offset=0x(\w+) count=0x(\w+))?(.*)\.\.\.$")
ANSWER = re.compile(rf"connection=(\d+) \.\.\.(?:{KINDS}) id=(\d+) return=(-?\d+)(?: error=(\w+))?")
PROTECTED = ("07 27 00", "MEDIA_WRITE_PROTECTED")
FAILURES = {"EPERM": PROTECTED, "EROFS": PROTECTED, "ENOSPC": ("07 27 07", "MEDIA_WRITE_PROTECTED")}
OTHER = ("04 00 00", "IO_DEVICE_ERROR")


def convert(lines, log):
    """Writes the lines of a log. Requests that are neither reads, writes nor flushes have none."""
    found = {}
    for line in log:
        if call := CALL.search(line):
            connection, what, number, offset, length, words = call.groups()
            if what in ("Trim", "Cache"):
                continue
            kind = {"Zero": "write"}.get(what, what.lower())
            place = (int(offset, 16), int(length, 16)) if offset else (0, 0)
            through = "fua=1" in words
            found[connection, number] = lines.call(kind, *place, through, f"00*{place[1]}" if what == "Zero" else "?")
        elif answer := ANSWER.search(line):
            connection, number, result, error = answer.groups()
            request = found.pop((connection, number), None)
            if request is not None:
                lines.end(request, *(() if result == "0" else FAILURES.get(error, OTHER)))


def main(config, log):
    """Writes the trace of a log."""
    with open(log, encoding="utf-8") as it:
        convert(Lines(config, sys.stdout), it)


if __name__ == "__main__":
    if len(sys.argv) != 3:
        sys.exit("usage: nbdkit_log.py CONFIG LOG > TRACE")
    run(main)
