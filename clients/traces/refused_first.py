#!/usr/bin/env python3
"""Reorders a trace whose recorder can't tell that a call will be refused: such a call loses the bytes that it brought, and
its answer, which may stand some lines behind, comes next. stackjudge asks for both.

usage: refused_first.py CONFIG TRACE > TRACE

Whether a call is refused is the machine's rule, in its order: no open handle, a device that is being removed, bounds,
no byte, as many open requests as CONFIG says. An answer that comes never is left out: the judge tells of it."""

import sys

from machine_lines import run, settings_of

LONGEST = 268_435_456


def refusal(words, settings, removing, most):
    """Returns whether a call of these words is refused, when this many more may be open."""
    kind, place = words[2], words[words.index("in") + 1]
    if place == "-" or removing:
        return True
    if kind == "flush":
        return most < 1
    size, offset, length = settings["sector_size"], int(words[3]), int(words[4])
    count = settings["partition"][int(place)]["count"]
    is_whole = offset % size == 0 and length % size == 0
    return not is_whole or offset + length > count * size or length > LONGEST or length == 0 or most < 1


def reordered(lines, settings):
    """Yields the lines, each refused call with its answer behind it."""
    answers = {line.split()[1]: line for line in lines if line.startswith("answer ")}
    taken, opened, removing = set(), set(), False
    for line in lines:
        words = line.split()
        verb = words[0] if words else ""
        if verb == "call" and refusal(words, settings, removing, settings.get("open_requests", 64) - len(opened)):
            yield " ".join(words[: words.index("in") + 2])
            taken.add(words[1])
            if words[1] in answers:
                yield answers[words[1]]
            continue
        if verb == "answer" and words[1] in taken:
            continue
        if verb == "call":
            opened.add(words[1])
        if verb == "answer":
            opened.discard(words[1])
        removing = removing or verb in ("remove", "surprise")
        yield line


def main(config, trace):
    settings = settings_of(config)
    with open(trace) if trace != "-" else sys.stdin as file:
        lines = file.read().splitlines()
    for line in reordered(lines, settings):
        print(line)


if __name__ == "__main__":
    if len(sys.argv) != 3:
        sys.exit(__doc__)
    run(main)
