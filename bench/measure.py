"""Runs the programs, and prints what it took: `trace STACKRUN` on scripts that it makes, `clients STACKRUN` with threads,
`labels STACKJUDGE` on a long trace."""
import os
import re
import subprocess
import sys
import tempfile
import time

SETTINGS = """sector_size = {size}
sectors = {sectors}
max_transfer = {transfer}
depth = {depth}
window = {window}
open_requests = {window}
[[partition]]
first = 1
count = {count}
"""


def small(rounds, out):
    """One-sector writes and reads, of which so many are out at any time."""
    def request(turn):
        offset = turn * 7 % 1000 * 512
        return 'read 1 %d 512' % offset if turn % 2 else 'write 1 %d 512 %02x' % (offset, turn % 256)
    yield 'open 0'
    for turn in range(out):
        yield request(turn)
    for turn in range(rounds):
        yield 'act %d' % (turn % out)
        yield 'finish %d' % (turn % out)
        yield request(out + turn)


def mixed(rounds):
    """Reads of sixteen sectors, each full of another byte."""
    yield 'open 0'
    for sector in range(16):
        yield 'write 1 %d 512 %02x' % (sector * 512, sector)
        yield from ['act 0', 'finish 0']
    for _ in range(rounds):
        yield from ['read 1 0 8192', 'act 0', 'finish 0']


def transfers(rounds, sectors):
    """Writes and reads of so many sectors in turn, one out."""
    yield 'open 0'
    for turn in range(rounds):
        yield 'read 1 0 %d' % (sectors * 512) if turn % 2 else 'write 1 0 %d 5a' % (sectors * 512)
        yield from ['act 0', 'finish 0']


def cancelled(rounds, queue):
    """Cancels in the middle of a queue of so many, each followed by a new read."""
    yield 'open 0'
    for _ in range(queue):
        yield 'read 1 0 512'
    for turn in range(rounds):
        yield 'cancel 1 %d' % (queue // 2 + 1 + turn)
        yield 'read 1 0 512'


def refused(rounds):
    """Calls of the greatest length, which the partition does not hold, in turn of one byte and of another."""
    yield 'open 0'
    for turn in range(rounds):
        yield 'write 1 0 268439552 %02x' % (turn % 2)


def long(length):
    """One write and one read of so many bytes."""
    yield from ['open 0', 'write 1 0 %d a5' % length, 'act 0', 'finish 0', 'read 1 0 %d' % length, 'act 0', 'finish 0']


def measure(program, name, settings, lines, times):
    with tempfile.TemporaryDirectory() as folder:
        config = os.path.join(folder, 'config.toml')
        script = os.path.join(folder, 'script')
        with open(config, 'w') as f:
            f.write(settings)
        # Line by line: a child's most memory counts what this process had when it began.
        events = asked = 0
        with open(script, 'w') as f:
            for line in lines:
                f.write(line + '\n')
                events += 1
                if line.startswith(('read', 'write')):
                    asked += int(line.split()[3])
        user, both = [], []
        for _ in range(times):
            with open(os.path.join(folder, 'out'), 'wb') as out:
                child = subprocess.Popen([program, 'trace', config, script], stdout=out)
                _, status, used = os.wait4(child.pid, 0)
            user.append(used.ru_utime)
            both.append(used.ru_utime + used.ru_stime)
        seconds = max(min(both), 1e-6)
        print('%-13s %6d events: %.3f s of user time, %.3f s with system, the least of %d; a second %.0f events, %.1f MB asked for; %.0f MB at most; status %d' % (
            name, events, min(user), seconds, times, events / seconds, asked / seconds / 1e6, used.ru_maxrss / 1024, os.WEXITSTATUS(status)))


# Threads of clients, and the calls of a run, by all of them.
THREADS = (1, 4, 16, 32)
CALLS = 6_400


def rounds_by_one(threads, rounds):
    """What so many clients call in so many rounds, by one client, one call after another."""
    yield 'open 0'
    for turn in range(rounds):
        for client in range(threads):
            for call in ('write 1 %d 512 %02x' % (client * 512, (client + turn) % 256), 'read 1 %d 512' % (client * 512)):
                yield from [call, 'act 0', 'finish 0']


def seconds_of(words, times):
    """Wall clock of the fastest of so many runs, and what the last one printed."""
    taken = []
    for _ in range(times):
        begun = time.monotonic()
        said = subprocess.run(words, stdout=subprocess.PIPE, check=True).stdout
        taken.append(time.monotonic() - begun)
    return min(taken), said


def clients(program):
    """As many calls by 1, 4, 16 and 32 threads, and by no thread through `trace`."""
    with tempfile.TemporaryDirectory() as folder:
        config, script = os.path.join(folder, 'config.toml'), os.path.join(folder, 'script')
        with open(config, 'w') as f:
            f.write(SETTINGS.format(size=512, sectors=4096, transfer=64, depth=4, window=64, count=1024))
        for threads in THREADS:
            rounds = CALLS // 2 // threads
            seconds, said = seconds_of([program, 'clients', config, str(threads), str(rounds)], 3)
            want = 'threads %d rounds %d answered %d differing 0\n' % (threads, rounds, CALLS)
            if said.decode() != want:
                sys.exit('%s clients: %r' % (program, said))
            print('%-13s %6d calls: %.3f s of wall clock, the least of 3; a second %.0f calls' % (
                '%d threads' % threads, CALLS, seconds, CALLS / seconds))
        with open(script, 'w') as f:
            f.writelines(line + '\n' for line in rounds_by_one(THREADS[-1], CALLS // 2 // THREADS[-1]))
        seconds, _ = seconds_of([program, 'trace', config, script], 3)
        print('%-13s %6d calls: %.3f s of wall clock, the least of 3; a second %.0f calls, with their text' % (
            'by trace', CALLS, seconds, CALLS / seconds))


def trace(program):
    disk = dict(size=512, sectors=4096, transfer=64, count=1024)
    one, eight, most = ({'depth': n, 'window': n, **disk} for n in (1, 8, 32))
    measure(program, 'one out', SETTINGS.format(**one), small(66_666, 1), 9)
    measure(program, 'eight out', SETTINGS.format(**eight), small(66_664, 8), 9)
    measure(program, '32 out', SETTINGS.format(**most), small(66_656, 32), 9)
    for queue in (4, 64):
        waiting = SETTINGS.format(depth=1, window=queue, **disk)
        measure(program, 'cancels in %d' % queue, waiting, cancelled(50_000, queue), 9)
    measure(program, 'mixed reads', SETTINGS.format(**one), mixed(10_000), 9)
    measure(program, '64 sectors', SETTINGS.format(**one), transfers(10_000, 64), 9)
    measure(program, 'refused calls', SETTINGS.format(**one), refused(20), 3)
    # The longest transfer in one piece: 65,535 sectors of 4,096 bytes.
    disk = SETTINGS.format(size=4096, sectors=65_536, transfer=65_535, depth=1, window=1, count=65_535)
    measure(program, 'long request', disk, long(65_535 * 4096), 3)


def used_by(words, path):
    """Writes what a run prints to a path; its processor time, and the most memory that it had, in bytes."""
    with open(path, 'wb') as out:
        child = subprocess.Popen(words, stdout=out)
        _, status, used = os.wait4(child.pid, 0)
    if status != 0:
        sys.exit('%s: status %d' % (' '.join(words), os.waitstatus_to_exitcode(status)))
    return used.ru_utime + used.ru_stime, used.ru_maxrss * 1024


def labels(judge):
    """A trace of a million labels, recorded and judged: 200,000 writes and reads of one sector, of which two are out."""
    with tempfile.TemporaryDirectory() as folder:
        config, script, told, said = (os.path.join(folder, name) for name in ('config.toml', 'script', 'trace', 'out'))
        with open(config, 'w') as f:
            f.write(SETTINGS.format(size=512, sectors=4096, transfer=64, depth=2, window=2, count=1024))
        with open(script, 'w') as f:
            f.writelines(line + '\n' for line in small(200_000, 2))
        seconds, memory = used_by([judge, 'record', config, script], told)
        print('%-13s %.3f s of processor time; %.0f MB at most; %.1f MB of text' % (
            'recorded', seconds, memory / 1e6, os.path.getsize(told) / 1e6))
        runs = [used_by([judge, 'check', config, told], said) for _ in range(3)]
        seconds, memory = min(seconds for seconds, _ in runs), max(memory for _, memory in runs)
        with open(said) as f:
            line = f.read().strip()
        print('%-13s %s: %.3f s of processor time, the least of 3; a second %.0f labels; %.0f MB at most' % (
            'judged', line, seconds, int(line.split()[1]) / seconds, memory / 1e6))
    readings(judge)


def readings(judge):
    """The traces whose starts may be of several requests: as they name these, and as they don't."""
    folder = os.path.join(os.path.dirname(os.path.abspath(__file__)), '..', 'examples', 'judged', 'readings')
    with tempfile.TemporaryDirectory() as scratch:
        untold = os.path.join(scratch, 'trace')
        for name in sorted(os.listdir(folder)):
            trace = os.path.join(folder, name, 'trace')
            if not os.path.exists(trace):
                continue
            with open(trace) as f, open(untold, 'w') as to:
                to.writelines(re.sub(r' of \d+$', '', line) for line in f)
            took = []
            for path in (trace, untold):
                begun = time.process_time() + os.times().children_user
                subprocess.run([judge, 'check', os.path.join(folder, 'config.toml'), path],
                               stdout=subprocess.DEVNULL, stderr=subprocess.DEVNULL, check=False)
                took.append(os.times().children_user + time.process_time() - begun)
            print('%-18s %.2f s of processor time with the requests of starts, %.2f s without' % (name, *took))


def main():
    {'trace': trace, 'clients': clients, 'labels': labels}[sys.argv[1]](sys.argv[2])


if __name__ == '__main__':
    main()
