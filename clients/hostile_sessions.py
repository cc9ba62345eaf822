#!/usr/bin/env python3
"""Random sessions of the NBD protocol, some cut, changed or at limits, held against a reading of the protocol written apart.

usage: hostile_sessions.py COUNT SEED FILE FIRST SERVER..

SERVER.. serves the bytes of FILE from sector FIRST on, on its standard input and output, in sectors of 512 bytes. Each
session is sent whole. Replies to requests may come in any order, each just once. A sector that was read has the value
that it had before, or one that was written in the session; afterwards the file has one that was written. Prints what was
tried; the status is 0 where nothing was wrong."""

import random
import resource
import struct
import subprocess
import sys

SECTOR = 512
LONGEST = 32 << 20
READ, WRITE, LEAVE, FLUSH, ZEROES = 0, 1, 2, 3, 6
FUA, NO_HOLE = 1, 2
EINVAL, ENOSPC = 22, 28
GREETING = b"NBDMAGICIHAVEOPT\0\3"
# The most bytes that a server may have in memory.
RESIDENT = 160 << 20


def request(kind, cookie, offset, length, flags=0, data=b""):
    return struct.pack(">IHHQQI", 0x25609513, flags, kind, cookie, offset, length) + data


def option(code, data=b""):
    return b"IHAVEOPT" + struct.pack(">II", code, len(data)) + data


def reply(code, kind, data=b""):
    return struct.pack(">QIII", 0x3E889045565A9, code, kind, len(data)) + data


# WHAT A CLIENT SENDS


def opening(rng):
    """Returns the bytes up to the first request."""
    flags = struct.pack(">I", 3 if rng.random() < 0.97 else rng.getrandbits(32))
    go = option(7, struct.pack(">IH", 0, 0))
    asked = [option(1), go, go]
    for _ in range(rng.choice((0, 0, 1, 3))):
        code = rng.choice((3, 6, 8, 9, 10, rng.getrandbits(32)))
        asked.insert(0, option(code, rng.choice((b"", bytes(4), bytes(6), rng.randbytes(rng.choice((5, 40, 9000)))))))
    return flags + b"".join(asked[: -2] if rng.random() < 0.5 else asked[:-3] + asked[-1:])


def requests(rng, size):
    """Returns the messages of the requests, and of the session's end."""
    messages = []
    for cookie in range(rng.choice((0, 3, 16, 60))):
        kind = rng.choice((READ, WRITE, WRITE, READ, FLUSH, ZEROES, ZEROES, rng.choice((4, 5, 7, 99))))
        length = rng.choice((1, 1, 8, 8, 33, 128)) * SECTOR
        offset = rng.randrange(0, size // SECTOR) * SECTOR
        flags = rng.choice((0, 0, 0, FUA, NO_HOLE, rng.getrandbits(16)))
        wrong = rng.random()
        if wrong < 0.05:
            offset = rng.choice((offset + 1, size, (1 << 64) - 512, size - 512))
        elif wrong < 0.1:
            length = rng.choice((0, 1, 511, LONGEST + 512, (1 << 32) - 512)) if kind != WRITE else rng.choice((0, 1, 511))
        data = rng.randbytes(length) if kind == WRITE and rng.random() < 0.8 else bytes(length if kind == WRITE else 0)
        messages.append(request(kind, cookie + 1000, offset, length, flags, data))
    end = rng.random()
    if end < 0.7:
        messages.append(request(LEAVE, 0, 0, 0))
    elif end < 0.8:
        messages.append(rng.randbytes(28))
    return messages


def session(rng, size):
    """Returns what a client sends, in some sessions cut or changed."""
    stream = opening(rng) + b"".join(requests(rng, size))
    change = rng.random()
    at = rng.randrange(0, len(stream))
    if change < 0.1:
        return stream[:at]
    if change < 0.2:
        return stream[:at] + bytes([rng.randrange(256)]) + stream[at + 1 :]
    if change < 0.25:
        return stream[:at] + rng.randbytes(rng.randrange(9)) + stream[at:]
    return stream


# WHAT IS SAID TO IT


class Ended(Exception):
    """The session ends; it is given whether the client left by the protocol."""


class Reader:
    """The bytes that a client sent."""

    def __init__(self, stream):
        self.rest = memoryview(stream)

    def take(self, count):
        if len(self.rest) < count:
            raise Ended(False)
        taken, self.rest = self.rest[:count], self.rest[count:]
        return bytes(taken)


def export(size):
    return struct.pack(">QH", size, 1 | 4 | 8 | 64)


def information(code, size, data):
    """Returns the replies to NBD_OPT_INFO and NBD_OPT_GO, and whether it may go on."""
    name = struct.unpack(">I", data[:4])[0] if len(data) >= 6 else 0
    if len(data) < 6 + name:
        return reply(code, 0x80000003), False
    if name:
        return reply(code, 0x80000006), False
    if len(data) != 6 + 2 * struct.unpack(">H", data[4:6])[0]:
        return reply(code, 0x80000003), False
    told = reply(code, 3, bytes(2) + export(size)) + reply(code, 3, struct.pack(">HIII", 3, SECTOR, 4096, LONGEST))
    return told + reply(code, 1), True


def haggled(reader, size, said):
    """Reads options up to one that leads to requests, and adds the replies."""
    (flags,) = struct.unpack(">I", reader.take(4))
    if flags & ~3:
        raise Ended(False)
    while True:
        magic, code, length = struct.unpack(">8sII", reader.take(16))
        if magic != b"IHAVEOPT":
            raise Ended(False)
        data = reader.take(length)
        if code == 1:
            if length:
                raise Ended(False)
            said += export(size) + (b"" if flags & 2 else bytes(124))
            return
        if length > 8192:
            said += reply(code, 0x80000009)
        elif code == 2:
            said += reply(code, 1)
            raise Ended(True)
        elif code == 3:
            said += reply(code, 2, bytes(4)) + reply(code, 1) if not length else reply(code, 0x80000003)
        elif code in (6, 7):
            told, goes_on = information(code, size, data)
            said += told
            if goes_on and code == 7:
                return
        else:
            said += reply(code, 0x80000001)


def fault(kind, flags, offset, length, size):
    """Returns the error of a request that isn't carried out, or 0."""
    known = {READ: FUA, WRITE: FUA, FLUSH: FUA, ZEROES: FUA | NO_HOLE}
    if kind not in known or flags & ~known[kind]:
        return EINVAL
    if kind == FLUSH:
        return 0
    if length == 0 or (kind != ZEROES and length > LONGEST) or offset % SECTOR or length % SECTOR:
        return EINVAL
    if offset + length > size:
        return EINVAL if kind == READ else ENOSPC
    return 0


def answered(reader, size, asked, written):
    """Reads requests until none comes, and adds what was asked, and what may be written in each sector."""
    while True:
        magic, flags, kind, cookie, offset, length = struct.unpack(">IHHQQI", reader.take(28))
        if magic != 0x25609513:
            raise Ended(False)
        if kind == LEAVE:
            raise Ended(True)
        data = reader.take(length if kind == WRITE else 0)
        error = fault(kind, flags, offset, length, size)
        asked.append((cookie, error, offset, length if kind == READ and not error else 0))
        if kind in (WRITE, ZEROES) and not error:
            data = data or bytes(length)
            for at in range(0, length, SECTOR):
                written.setdefault(offset + at, []).append(data[at : at + SECTOR])


def expected(stream, size):
    """Returns what is said before the requests, what is asked, what is written, and whether the client leaves."""
    said, asked, written = bytearray(GREETING), [], {}
    reader = Reader(stream)
    try:
        haggled(reader, size, said)
        answered(reader, size, asked, written)
    except Ended as ended:
        return bytes(said), asked, written, ended.args[0]


# WHAT THE SERVER DID


def hold(got, asked, written, was):
    """Holds the replies against what was asked."""
    waiting = {}
    for it in asked:
        waiting.setdefault(it[0], []).append(it)
    while got:
        magic, error, cookie = struct.unpack(">IIQ", got[:16])
        assert magic == 0x67446698, "no reply"
        one = next(it for it in waiting[cookie] if it[1] == error)
        waiting[cookie].remove(one)
        _, _, offset, length = one
        data, got = got[16 : 16 + length], got[16 + length :]
        for at in range(0, length, SECTOR):
            sector, value = offset + at, data[at : at + SECTOR]
            assert value == was[sector : sector + SECTOR] or value in written.get(sector, []), f"byte {sector}"
    assert not any(waiting.values()), "a request without a reply"


def tried(rng, path, first, words, size):
    """Runs a session, and returns how many requests it had."""
    stream = session(rng, size)
    with open(path, "rb") as file:
        was = file.read()[first:]
    done = subprocess.run(words, input=stream, capture_output=True, timeout=60, check=False)
    said, asked, written, left = expected(stream, size)
    assert done.returncode == (0 if left else 1), f"status {done.returncode}"
    assert done.stdout.startswith(said), "the handshake"
    # Where a changed number is another's, replies can't be told from each other.
    if len({it[0] for it in asked}) == len(asked):
        hold(done.stdout[len(said) :], asked, written, was)
    with open(path, "rb") as file:
        now = file.read()[first:]
    for sector in range(0, size, SECTOR):
        values = written.get(sector, [was[sector : sector + SECTOR]])
        assert now[sector : sector + SECTOR] in values, f"byte {sector} of the file"
    return len(asked)


def main(count, seed, path, first, *words):
    with open(path, "rb") as file:
        size = len(file.read()) - int(first) * SECTOR
    total = 0
    for number in range(int(count)):
        rng = random.Random(f"{seed} {number}")
        try:
            total += tried(rng, path, int(first) * SECTOR, words, size)
        except (AssertionError, StopIteration, KeyError, struct.error, subprocess.TimeoutExpired) as wrong:
            print(f"session {number} of seed {seed}: {wrong!r}")
            return 1
    most = resource.getrusage(resource.RUSAGE_CHILDREN).ru_maxrss << 10
    print(f"{count} sessions, {total} requests, at most {most >> 20} MiB")
    return 0 if most < RESIDENT else 1


if __name__ == "__main__":
    sys.exit(main(*sys.argv[1:]))
