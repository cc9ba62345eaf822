#!/usr/bin/env python3
"""Sixteen requests out at once, and something goes wrong.

usage: in_flight.py gone|short|full FOLDER | target FOLDER PROCESS | unread SERVER..

A server of the file FOLDER/disk, of a mebibyte of zeros, listens on FOLDER/socket. gone: a client goes with sixteen
writes out, and the next finds each written or not, and each sector whole. short: the file has half of its bytes: a read
of the rest fails, and those beside it don't. full: the file system has room for some of the writes alone; each that
succeeded is read. target: PROCESS is the target below the server; it is killed with sixteen writes out, each of which
fails; FOLDER/down is made, and once FOLDER/up is there all goes on. unread: SERVER.. serves a client on its standard
input and output, which sends on and reads no reply, until nobody takes more; the server then has little memory, and
answers each request once it is read. Its status is 0 where all was as it should be."""

import os
import select
import signal
import struct
import sys
import threading
import time

from nbd_client import ENOSPC, FLUSH, READ, WRITE, Client

LENGTH = 4096
OUT = 16
EIO = 5
# The bytes of each request of a client that reads nothing, and the most that its server may have in memory.
UNREAD = 64 << 10
RESIDENT = 96 << 20


def connected(folder):
    """Returns a client. The server may not listen yet."""
    for _ in range(50):
        try:
            return Client(["socat", "-", f"UNIX-CONNECT:{folder}/socket"])
        except EOFError:
            time.sleep(0.1)
    raise EOFError


def answers(client, numbers):
    """Returns error and bytes of each of the requests, in their order."""
    got = {}
    while len(got) < len(numbers):
        number, error, data = client.reply()
        got[number] = error, data
    return [got[it] for it in numbers]


def writes(client, byte, places):
    return [client.send(WRITE, at * LENGTH, LENGTH, bytes([byte + at % OUT]) * LENGTH) for at in places]


def reads(client, places):
    return answers(client, [client.send(READ, at * LENGTH, LENGTH) for at in places])


def gone(folder):
    places = range(OUT)
    first = connected(folder)
    assert all(error == 0 for error, _ in answers(first, writes(first, 1, places)))
    writes(first, 101, places)
    first.kill()
    first.server.wait()
    second = connected(folder)
    for _ in range(3):
        for at, (error, data) in zip(places, reads(second, places)):
            assert error == 0
            assert all(len(set(data[i : i + 512])) == 1 for i in range(0, LENGTH, 512)), at
            assert set(data) <= {1 + at, 101 + at}, at
    assert all(error == 0 for error, _ in answers(second, writes(second, 201, places)))
    assert [data[0] for _, data in reads(second, places)] == [201 + at for at in places]
    return second.leave()


def short(folder):
    client = connected(folder)
    os.truncate(f"{folder}/disk", 1 << 19)
    for _ in range(20):
        found = reads(client, [at * 16 + at for at in range(OUT)])
        assert [error for error, _ in found] == [0] * 8 + [EIO] * 8, found
        assert all(not any(data) for _, data in found)
    return client.leave()


def full(folder):
    client = connected(folder)
    places = range(0, 256, 2)
    errors = []
    for at in range(0, len(places), OUT):
        errors += [error for error, _ in answers(client, writes(client, 1, places[at : at + OUT]))]
    assert set(errors) == {0, ENOSPC}, set(errors)
    ((error, _),) = answers(client, [client.send(FLUSH)])
    assert error == 0
    for at, error in zip(places, errors):
        ((read_error, data),) = reads(client, [at])
        assert read_error == 0
        assert error != 0 or set(data) == {1 + at % OUT}, at
    return client.leave()


def target(folder, process):
    client = connected(folder)
    places = range(OUT)
    assert all(error == 0 for error, _ in answers(client, writes(client, 1, places)))
    os.kill(process, signal.SIGSTOP)
    numbers = writes(client, 101, places)
    time.sleep(0.3)
    os.kill(process, signal.SIGKILL)
    assert [error for error, _ in answers(client, numbers)] == [EIO] * OUT
    open(f"{folder}/down", "wb").close()
    while not os.path.exists(f"{folder}/up"):
        time.sleep(0.05)
    for at, (error, data) in zip(places, reads(client, places)):
        assert error == 0 and set(data) <= {1 + at, 101 + at}, (at, error)
    assert all(error == 0 for error, _ in answers(client, writes(client, 201, places)))
    assert [data[0] for _, data in reads(client, places)] == [201 + at for at in places]
    return client.leave()


def resident(process):
    """Returns how many bytes a process had in memory at most."""
    with open(f"/proc/{process}/status") as lines:
        (line,) = [it for it in lines if it.startswith("VmHWM:")]
    return int(line.split()[1]) << 10


def sent_unread(client, message):
    """Sends a message over and over until nobody takes more for two seconds, and returns the bytes that were taken."""
    pipe = client.server.stdin.fileno()
    os.set_blocking(pipe, False)
    count = 0
    while select.select([], [pipe], [], 2)[1]:
        try:
            count += os.write(pipe, message[count % len(message) :])
        except BlockingIOError:
            pass
    os.set_blocking(pipe, True)
    return count


def unread(*words):
    for kind in READ, WRITE:
        client = Client(words)
        data = bytes(UNREAD) if kind == WRITE else b""
        message = struct.pack(">IHHQQI", 0x25609513, 0, kind, 7, 0, UNREAD) + data
        count = sent_unread(client, message)
        assert resident(client.server.pid) < RESIDENT, resident(client.server.pid)
        rest = -count % len(message)
        sender = threading.Thread(target=client.put, args=[message[len(message) - rest :]])
        sender.start()
        for _ in range((count + rest) // len(message)):
            assert struct.unpack(">IIQ", client.take(16)) == (0x67446698, 0, 7)
            client.take(UNREAD if kind == READ else 0)
        sender.join()
        assert client.leave() == 0
    return 0


if __name__ == "__main__":
    what, *more = sys.argv[1:]
    case = {"gone": gone, "short": short, "full": full, "target": target, "unread": unread}[what]
    sys.exit(case(*[int(it) if it.isdecimal() and what == "target" else it for it in more]))
