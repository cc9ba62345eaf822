#!/usr/bin/env python3
"""A test bench over the stack: random calls, cancels, resets and removals, each answer compared with what was written, and
each run judged as it goes.

usage: bench.py [RUNS [EVENTS [SEED]]]

Each request has sectors of its own, so its answer is known: a read that succeeds brings what the last write there left; a
write that fails leaves each of its sectors old or new. No two flushes are open, so the judge follows one reading."""

import random
import sys
import time

from saddlemug import Act, Cancel, CancelRemove, Finish, Flush, Judge, Open, QueryRemove, Read, Remove, ReplyKind, Reset
from saddlemug import Stack, Status, SurpriseRemove, Write

CONFIG = """
sector_size = 512
sectors = 4096
max_transfer = 4
depth = 4
window = 8
[[partition]]
first = 64
count = 1024
"""
SECTOR, PLACES, LONGEST = 512, 64, 16  # a place is LONGEST sectors


class Run:
    """One stack, and what may stand in each sector."""

    def __init__(self, chance):
        self.chance, self.stack, self.judge = chance, Stack(CONFIG), Judge(CONFIG)
        self.handle = self.carry(Open(0)).id
        self.may = [{bytes(SECTOR)} for _ in range(PLACES * LONGEST)]
        self.open, self.free = {}, list(range(PLACES))

    def carry(self, event):
        """Carries an event out, and tells the judge what it did."""
        reply = self.stack.step(event)
        self.judge.take(*self.stack.labels())
        assert self.judge.settled, f"{event} leaves something undone"
        return reply

    def call(self):
        """Calls a read, a write or a flush on a place that no open request has."""
        place = self.free[self.chance.randrange(len(self.free))]
        offset, count = place * LONGEST * SECTOR, self.chance.randint(1, LONGEST)
        kind = self.chance.randrange(5)
        if kind == 0 and not any(isinstance(event, Flush) for _, event, _ in self.open.values()):
            event = Flush(self.handle)
        elif kind < 3:
            event = Read(self.handle, offset, count * SECTOR)
        else:
            data = b"".join(bytes([self.chance.randrange(256)]) * SECTOR for _ in range(count))
            event = Write(self.handle, offset, data, self.chance.random() < 0.2)
        reply = self.carry(event)
        if reply.kind == ReplyKind.REQUEST:
            self.open[reply.id.number] = (place, event, reply.id)
            self.free.remove(place)

    def take(self):
        """Takes the answers, and compares them."""
        for answer in self.stack.answers():
            place, event, _ = self.open.pop(answer.number)
            self.free.append(place)
            first = place * LONGEST
            if isinstance(event, Write):
                for k in range(len(event.data) // SECTOR):
                    new = event.data[k * SECTOR : (k + 1) * SECTOR]
                    self.may[first + k] = {new} | (set() if answer.status == Status.SUCCESS else self.may[first + k])
            elif isinstance(event, Read) and answer.status == Status.SUCCESS:
                for k in range(event.length // SECTOR):
                    found = answer.data[k * SECTOR : (k + 1) * SECTOR]
                    assert found in self.may[first + k], f"sector {first + k} of request {answer.number} is none of its own"
                    self.may[first + k] = {found}

    def step(self):
        """One event, mostly of the adapter."""
        what = self.chance.random()
        if what < 0.3 and self.free:
            self.call()
        elif what < 0.6:
            self.carry(Act(self.chance.randrange(4)))
        elif what < 0.96:
            self.carry(Finish(self.chance.randrange(4)))
        elif what < 0.985 and self.open:
            self.carry(Cancel(self.handle, self.chance.choice(list(self.open.values()))[2]))
        elif what < 0.995:
            self.carry(self.chance.choice([QueryRemove(), CancelRemove()]))
        else:
            self.carry(Reset())

    def end(self):
        """Removes the device, and has all that is out come back."""
        self.carry(QueryRemove())
        self.carry(Remove() if self.chance.random() < 0.5 else SurpriseRemove())
        for tag in range(4):
            self.carry(Act(tag))
            self.carry(Finish(tag))
        self.take()
        assert not self.open, f"{len(self.open)} requests were never answered"
        self.stack.close()
        self.judge.close()


def main(runs=20, events=2000, seed=1):
    began = time.process_time()
    for number in range(runs):
        run = Run(random.Random(seed + number))
        for _ in range(events):
            run.step()
            run.take()
        run.end()
    spent = time.process_time() - began
    print(f"{runs} runs of {events} events, each answer as it should be, and each run legal")
    print(f"{runs * events / spent:.0f} events a second", file=sys.stderr)


if __name__ == "__main__":
    main(*map(int, sys.argv[1:]))
