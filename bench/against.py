"""Runs two builds of the program side by side: `against.py PROGRAM OTHER`. Both carry out each script in turn, so that
other work on the machine meets both. Of each script it prints the processor time of both (user and system, the least
of the runs), the most memory of both, and the ratios of the other to the program. Both have to print the same. Memory
counts what this process has (about 15 MB), so less than that is not seen."""
import collections
import filecmp
import os
import subprocess
import sys
import tempfile

from measure import SETTINGS, THREADS, cancelled, mixed, refused, small, transfers

SECTORS = 4096
# The longest transfer in one piece, in bytes.
LONGEST = 65_535 * 4096
# Calls of a run by clients, by all of them.
CALLS = 19_200

# A script: its name, the lines, and the settings that are not the usual ones.
Case = collections.namedtuple('Case', 'name lines settings', defaults=[{}])


def ended(tag):
    return ['act %d' % tag, 'finish %d' % tag]


def refused_between(rounds):
    """Calls of the greatest length, which the partition does not hold, each before a read of one sector."""
    yield 'open 0'
    for _ in range(rounds):
        yield from ['write 1 0 268439552 5a', 'read 1 0 512', *ended(0)]


def busy(rounds):
    """Writes that come back busy sixteen times each, and then succeed."""
    yield 'open 0'
    for turn in range(rounds):
        yield 'write 1 %d 512 %02x' % (turn % 1000 * 512, turn % 256)
        yield from ['finish 0'] * 16 + ended(0)


def resets(rounds):
    """A reset under each request: one had acted, the other did nothing."""
    yield 'open 0'
    for _ in range(rounds):
        yield from ['write 1 0 512 a5', 'read 1 512 512', 'act 0', 'reset', 'finish 0', 'finish 1']


def pauses(rounds):
    """A call while the disk may go, which is sent once it stays."""
    yield 'open 0'
    for _ in range(rounds):
        yield from ['read 1 0 512', 'query-remove', 'read 1 512 512', *ended(0), 'cancel-remove', *ended(0)]


def flushes(rounds):
    yield 'open 0'
    for _ in range(rounds):
        yield from ['flush 1', *ended(0)]


def queued(rounds, queue):
    """A queue of so many requests, of which one ends before the next is called."""
    yield 'open 0'
    for _ in range(queue):
        yield 'read 1 0 512'
    for turn in range(rounds):
        yield from [*ended(0), 'write 1 0 512 %02x' % (turn % 256)]


def cancelled_when_sent(rounds):
    """Requests that are cancelled when all of them is at the adapter, and succeed."""
    yield 'open 0'
    for turn in range(rounds):
        yield from ['read 1 0 512', 'cancel 1 %d' % (turn + 1), *ended(0)]


def in_pieces(rounds, pieces, sectors, is_cancelled):
    """Writes and reads of so many pieces of so many sectors each, one request after another. Where they are cancelled,
    the first piece goes on and all others never start."""
    yield 'open 0'
    for turn in range(rounds):
        length = pieces * sectors * 512
        yield 'read 1 0 %d' % length if turn % 2 else 'write 1 0 %d 5a' % length
        if is_cancelled:
            yield 'cancel 1 %d' % (turn + 1)
        yield from ended(0) * (1 if is_cancelled else pieces)


def long_runs(rounds, length):
    """Reads of one run of so many bytes, which are printed."""
    yield from ['open 0', 'write 1 0 %d a5' % length, *ended(0)]
    for _ in range(rounds):
        yield from ['read 1 0 %d' % length, *ended(0)]


def one_long(length):
    """One write and one read of so many bytes."""
    yield from ['open 0', 'write 1 0 %d a5' % length, *ended(0), 'read 1 0 %d' % length, *ended(0)]


def sizes(depth, window, transfer=64, sectors=SECTORS, size=512):
    return dict(depth=depth, window=window, transfer=transfer, sectors=sectors, count=sectors - 1, size=size)


CASES = [
    Case('one out', small(66_666, 1)),
    Case('eight out', small(66_664, 8), sizes(8, 8)),
    Case('32 out', small(66_656, 32), sizes(32, 32)),
    Case('flushes', flushes(50_000)),
    Case('queue of 16', queued(50_000, 16), sizes(1, 16)),
    Case('queue of 64', queued(50_000, 64), sizes(1, 64)),
    Case('held, 64', queued(50_000, 64), sizes(1, 1)),
    Case('cancels in 4', cancelled(50_000, 4), sizes(1, 4)),
    Case('cancels in 64', cancelled(50_000, 64), sizes(1, 64)),
    Case('held cancels', cancelled(50_000, 64), sizes(1, 1)),
    Case('sent cancels', cancelled_when_sent(40_000)),
    Case('busy', busy(8_000)),
    Case('busy, 32 tags', busy(8_000), sizes(32, 32)),
    Case('resets', resets(20_000), sizes(2, 2)),
    Case('pauses', pauses(20_000), sizes(2, 2)),
    Case('mixed reads', mixed(10_000)),
    Case('64 sectors', transfers(10_000, 64)),
    Case('64 pieces', in_pieces(60, 64, 64, False), sizes(1, 1, 64, 8192)),
    Case('4096 pieces', in_pieces(4, 4096, 16, False), sizes(1, 1, 16, 70_000)),
    Case('sector pieces', in_pieces(20, 2048, 1, False), sizes(1, 1, 1)),
    Case('their cancel', in_pieces(60, 2048, 1, True), sizes(1, 1, 1)),
    Case('runs of 2 MB', long_runs(60, 4096 * 488), sizes(1, 1, 4096)),
    Case('runs of 50 MB', long_runs(6, 4096 * 12_288), sizes(1, 1, 16_384, 16_384, 4096)),
    Case('long request', one_long(LONGEST), sizes(1, 1, 65_535, 65_536, 4096)),
    Case('refused calls', refused(20)),
    Case('refused large', refused_between(20)),
]


def spent(words, out):
    """Processor time of a run in seconds, and its most memory in MB. What it prints goes to a file."""
    with open(out, 'wb') as file:
        child = subprocess.Popen(words, stdout=file)
        _, status, used = os.wait4(child.pid, 0)
    if status != 0:
        sys.exit('%s: status %d' % (' '.join(words), os.waitstatus_to_exitcode(status)))
    return used.ru_utime + used.ru_stime, used.ru_maxrss / 1024


def compare(name, programs, words, folder, times):
    """Runs both programs with these words in turn, and prints a row of what they took."""
    outs = [os.path.join(folder, 'out%d' % which) for which in range(2)]
    seconds, memory = ([[], []] for _ in range(2))
    for _ in range(times):
        for which, program in enumerate(programs):
            took, had = spent([program, *words], outs[which])
            seconds[which].append(took)
            memory[which].append(had)
    if not filecmp.cmp(*outs, shallow=False):
        sys.exit('%s: the two programs print different texts' % name)
    this, other = (max(min(each), 1e-6) for each in seconds)
    had, other_had = (max(each) for each in memory)
    row = (name, this, other, other / this, had, other_had, other_had / had)
    print('%-14s %8.3f s %8.3f s %7.2f   %6.0f MB %6.0f MB %6.2f' % row, flush=True)


def main():
    programs = [os.path.abspath(program) for program in sys.argv[1:3]]
    print('%-14s %8s   %8s   %7s   %6s    %6s    %6s' % ('', 'this', 'other', 'ratio', 'this', 'other', 'ratio'))
    with tempfile.TemporaryDirectory() as folder:
        config, script = os.path.join(folder, 'config.toml'), os.path.join(folder, 'script')
        for case in CASES:
            with open(config, 'w') as file:
                file.write(SETTINGS.format(**(case.settings or sizes(1, 1))))
            with open(script, 'w') as file:
                file.writelines(line + '\n' for line in case.lines)
            compare(case.name, programs, ['trace', config, script], folder, 5)
        with open(config, 'w') as file:
            file.write(SETTINGS.format(**sizes(4, 64)))
        for threads in THREADS:
            words = ['clients', config, str(threads), str(CALLS // 2 // threads)]
            compare('%d clients' % threads, programs, words, folder, 3)


main()
