#!/usr/bin/env python3
"""Sessions over a file below a volatile cache (losing.c), each ended by SIGKILL at a random moment.

usage: sessions.py [--lie | --fail N [--careless] | --plain] [--linger N] [--out REQUESTS] [--seed N] [--first SECTOR]
    [--trace] KILLS FOLDER SERVER..

SERVER.. is a program that serves the file FOLDER/disk.img, which is there, to one NBD client on its standard input
and output, as `nbdkit -s saddlemug.so file=FOLDER/disk.img` does; FOLDER/losing.so is the cache. --first SECTOR: where
in the file the client's first sector stands.

Of each sector it is known which values a read may give (now), and which a loss of power may leave (left). Each read is
held against the first, and the file after each kill against the second. Of several requests that are out no two have a
sector in common. --plain: no cache; then what a read may give is left. --fail N: each Nth sync fails. --linger: how
many microseconds a sync may take before, and a write behind, what it does. --lie: a sync does nothing, and --careless: a
failed sync is taken for one that was not made. Both have to be caught.

--trace: the server writes a trace to FOLDER/trace. Those of all sessions are joined in FOLDER/traces, each up to its last
whole line, by `lost` or, with --plain, by `ended`. Each session begins by reading all sectors, and one that only does so
is the last.

Prints how many sectors could have had several values, and what was found; its status is 0 where nothing was wrong."""

import argparse
import os
import random
import sys
import time

sys.path.insert(0, os.path.join(os.path.dirname(os.path.abspath(__file__)), "..", "..", "clients"))
from nbd_client import FLUSH, READ, WRITE, Client  # noqa: E402

SECTOR = 512
SECTORS = 1024
NEAR = 256


class Table:
    """What each sector may hold, the newest value first."""

    def __init__(self, values):
        self.now = [[it] for it in values]
        self.left = [[it] for it in values]

    def wrote(self, sector, value, error, fua):
        """A write of one sector was answered. An error of None: it was not answered."""
        if error == 0:
            self.now[sector] = [value]
            self.left[sector] = [value] if fua else [value] + self.left[sector]
        else:
            self.now[sector] = [value] + self.now[sector]
            self.left[sector] = [value] + self.left[sector]

    def synced(self):
        self.left = [list(it) for it in self.now]

    def doubted(self):
        """A sync failed, or may have: what was not synced before may be gone."""
        self.now = [list(it) for it in self.left]


class Request:
    """What is asked, of sectors of which no other request is that is out."""

    def __init__(self, kind, first=0, values=(), fua=False):
        self.kind, self.first, self.values, self.fua = kind, first, values, fua
        self.error, self.data = None, b""

    def send(self, client):
        length = len(self.values) * SECTOR
        data = b"".join(self.values) if self.kind == WRITE else b""
        return client.send(self.kind, self.first * SECTOR, length, data, self.fua)


class Sessions:
    """Sessions over one file."""

    def __init__(self, words, chosen):
        self.words, self.chosen = words, chosen
        self.random = random.Random(chosen.seed)
        self.image = os.path.join(chosen.folder, "disk.img")
        self.traces = os.path.join(chosen.folder, "traces")
        self.table = Table(self.on_file())
        self.uncertain = self.older = 0
        self.wrong = []
        self.stamp = 0
        if chosen.trace:
            open(self.traces, "wb").close()

    def on_file(self):
        with open(self.image, "rb") as it:
            it.seek(self.chosen.first * SECTOR)
            data = it.read(SECTORS * SECTOR)
        return [data[at : at + SECTOR] for at in range(0, len(data), SECTOR)]

    def env(self, number):
        env = dict(os.environ)
        if not self.chosen.plain:
            env |= {"LD_PRELOAD": os.path.join(self.chosen.folder, "losing.so"), "LOSING_FILE": "disk.img"}
            env |= {"LOSING_SEED": str(self.chosen.seed * 10000 + number), "LOSING_FAIL": str(self.chosen.fail)}
            env |= {"LOSING_LIE": "1"} if self.chosen.lie else {}
            env |= {"LOSING_LINGER": str(self.chosen.linger)}
        return env

    def batch(self, near):
        """Returns requests to be out at once."""
        found, taken = [], set()
        for _ in range(self.random.randint(1, self.chosen.out)):
            kind = self.random.choices([WRITE, FLUSH, READ], [11, 1, 4])[0]
            count = self.random.choice([1, 1, 2, 7, 64, 70])
            first = min(near + self.random.randrange(NEAR), SECTORS - count)
            if kind == FLUSH:
                found.append(Request(FLUSH))
            elif taken.isdisjoint(range(first, first + count)):
                taken.update(range(first, first + count))
                values = [self.value(first + at) for at in range(count)]
                found.append(Request(kind, first, values, kind == WRITE and self.random.randrange(11) == 0))
        return found

    def value(self, sector):
        self.stamp += 1
        if self.random.randrange(8) == 0:
            return bytes(SECTOR)
        if self.chosen.trace:
            # A short text of a trace, and the same at both ends.
            ends = b"%x of %x" % (self.stamp, sector)
            return ends.ljust(SECTOR - len(ends), b"|") + ends
        return (b"%d of %d|" % (self.stamp, sector) * SECTOR)[:SECTOR]

    def carry(self, client, batch, dies):
        """Sends them all and takes the replies. Where the server dies, those that come."""
        try:
            by_number = {it.send(client): it for it in batch}
            if dies:
                time.sleep(self.random.random() * 0.002)
                client.kill()
            for _ in range(len(batch)):
                number, error, data = client.reply()
                by_number[number].error, by_number[number].data = error, data
        except (EOFError, BrokenPipeError):
            pass

    def note(self, batch):
        """What the answers say. A flush concerns what was answered before it was called, and so not the others; and
        where a sync failed beside it, perhaps nothing."""
        before = self.table.now
        doubtful = any(it.error != 0 and (it.fua or it.kind == FLUSH) for it in batch)
        if any(it.error == 0 and it.kind == FLUSH for it in batch) and not doubtful:
            self.table.synced()
        for it in batch:
            for at, value in enumerate(it.values):
                sector = it.first + at
                if it.kind == WRITE:
                    self.table.wrote(sector, value, it.error, it.fua)
                elif it.error == 0:
                    got = it.data[at * SECTOR : (at + 1) * SECTOR]
                    if got not in before[sector] and not (doubtful and got in self.table.left[sector]):
                        self.wrong.append(f"a read of sector {sector} gave {got[:20]}")
        if doubtful and not self.chosen.careless:
            self.table.doubted()

    def compare(self):
        """After a kill the file has of each sector a value that may be left."""
        allowed = self.table.now if self.chosen.plain else self.table.left
        for sector, value in enumerate(self.on_file()):
            self.uncertain += len(set(allowed[sector])) > 1
            self.older += value != allowed[sector][0]
            if value not in allowed[sector]:
                wanted = [it[:20] for it in allowed[sector][:3]]
                self.wrong.append(f"sector {sector} has {value[:20]}, and not {wanted}")
            self.table.now[sector], self.table.left[sector] = [value], [value]

    def read_all(self, client):
        """Reads all sectors, as the file has them."""
        batch = [Request(READ, at, [b""] * 64) for at in range(0, SECTORS, 64)]
        self.carry(client, batch, False)
        self.note(batch)

    def join(self):
        """Puts the trace of a session behind those before it."""
        with open(os.path.join(self.chosen.folder, "trace"), "rb") as it:
            data = it.read()
        with open(self.traces, "ab") as it:
            it.write(data[: data.rfind(b"\n") + 1] + (b"ended\n" if self.chosen.plain else b"lost\n"))

    def last(self, number):
        """Reads all, so that what the last session left is in the traces."""
        client = Client(self.words, self.env(number))
        self.read_all(client)
        client.kill()
        client.server.communicate()
        self.join()

    def session(self, number):
        client = Client(self.words, self.env(number))
        if self.chosen.trace:
            self.read_all(client)
        near = self.random.randrange(SECTORS - NEAR)
        for steps in range(self.random.randrange(2, max(4, 120 // self.chosen.out)), -1, -1):
            batch = self.batch(near)
            self.carry(client, batch, steps == 0)
            self.note(batch)
        client.kill()
        client.server.communicate()
        if self.chosen.trace:
            self.join()
        self.compare()


def main():
    parser = argparse.ArgumentParser()
    parser.add_argument("--lie", action="store_true")
    parser.add_argument("--plain", action="store_true")
    parser.add_argument("--careless", action="store_true")
    parser.add_argument("--fail", type=int, default=0)
    parser.add_argument("--out", type=int, default=1)
    parser.add_argument("--seed", type=int, default=1)
    parser.add_argument("--first", type=int, default=0)
    parser.add_argument("--linger", type=int, default=0)
    parser.add_argument("--trace", action="store_true")
    parser.add_argument("kills", type=int)
    parser.add_argument("folder")
    parser.add_argument("server", nargs=argparse.REMAINDER)
    chosen = parser.parse_args()
    sessions = Sessions(chosen.server, chosen)
    for number in range(chosen.kills):
        sessions.session(number)
    if chosen.trace:
        sessions.last(chosen.kills)
    print(f"{chosen.kills} kills, {sessions.uncertain} uncertain sectors, {sessions.older} not at their newest", end="")
    print(f", {len(sessions.wrong)} wrong")
    print(*sessions.wrong[:3], sep="\n", end="")
    return len(sessions.wrong) != 0


if __name__ == "__main__":
    sys.exit(main())
