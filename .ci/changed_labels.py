"""Changes each label of the traces of examples/ in each of its fields, and has each change judged.

usage: changed_labels.py JUDGE

JUDGE is the program `stackjudge`. A changed label has to be refused in its own line where the lines before leave the field
one value: the number of a call, of a piece that starts and of its tag; how many bytes a call brings; the bytes of an act; and what is
answered, but for its number. Any other change may be the label of another run: it is refused in its line or a later one, or
the trace is legal. No line before the changed one is refused.
"""
import os
import re
import subprocess
import sys

TOP = os.path.dirname(os.path.dirname(os.path.realpath(__file__)))
SECTOR = 512
# Offsets and lengths are below it.
WORD = 1 << 64
# The judge keeps a partition of more sectors than this in no memory that a gate has.
MOST_SECTORS = 1 << 20
MEDIUM_ERROR = 'bad 84 02 03 11 00'
BARE = ('pause', 'resume', 'remove', 'surprise', 'removed')
# An exit status of the judge that tells of no verdict has such a line.
REFUSED = re.compile(r'line (\d+): ')

THERE, ANYWHERE = True, False


class Wrong(Exception):
    pass


def read(path):
    with open(path, encoding='utf-8') as file:
        return file.read()


def nearest(name, folder):
    while not os.path.isfile(os.path.join(folder, name)):
        folder = os.path.dirname(folder)
    return os.path.join(folder, name)


def traces():
    """Gives the settings and the lines of each trace of a folder of examples/ that has a script."""
    for at, folders, names in os.walk(f'{TOP}/examples'):
        folders.sort()
        if 'script' in names and 'trace' in names:
            settings = nearest('config.toml', at)
            counts = re.findall(r'^count = (\d+)', read(settings), re.M)
            if all(int(it) <= MOST_SECTORS for it in counts):
                yield settings, read(f'{at}/trace').splitlines()


def bytes_of(text):
    """The bytes of runs as a5*512,00*1."""
    return b''.join(bytes([int(byte, 16)]) * int(count) for byte, _, count in (it.partition('*') for it in text.split(',') if it))


def runs_of(data):
    """The longest runs of some bytes, behind a space, or nothing where there are none."""
    runs = [(it.group()[0], len(it.group())) for it in re.finditer(rb'(?s)(.)\1*', data)]
    return ''.join(f'{"," if at else " "}{byte:02x}*{count}' for at, (byte, count) in enumerate(runs))


def other_bytes(text):
    """Bytes with the first one changed, without the last one, and with one more."""
    data = bytes_of(text)
    if data:
        yield runs_of(bytes([data[0] ^ 1]) + data[1:])
        yield runs_of(data[:-1])
    yield runs_of(data + b'\0')


def others(number):
    """The next number, and 0, which no request and no piece has."""
    yield int(number) + 1, ANYWHERE
    yield 0, THERE


def call(line):
    """Another number, another field of its request, and other bytes, which are as many as it is long."""
    words = re.fullmatch(r'call (\d+) (\w+)(?: at)?(?: (\d+) (\d+))?( through)? in (\S+)(?: (\S+))?', line)
    number, kind, offset, length, through, partition, data = words.groups()
    offset, length, through, data = int(offset or 0), int(length or 0), through or '', data or ''

    def told(number=number, kind=kind, offset=offset, length=length, through=through, partition=partition, data=runs_of(bytes_of(data))):
        extent = f' {offset} {length}' if kind != 'flush' else f' at {offset} {length}' if offset or length else ''
        return f'call {number} {kind}{extent}{through} in {partition}{data}'

    for other in (int(number) + 1, 0):
        yield told(number=other), THERE
    yield told(partition=int(partition) ^ 1 if partition != '-' else 0), ANYWHERE
    if partition != '-':
        yield told(partition='-'), ANYWHERE
    for other in {'read', 'write', 'flush'} - {kind}:
        yield told(kind=other), ANYWHERE
    for more in (SECTOR, 1):
        yield told(offset=(offset + more) % WORD), ANYWHERE
        yield told(length=(length + more) % WORD), ANYWHERE
    yield told(through='' if through else ' through'), ANYWHERE
    for at, other in enumerate(other_bytes(data)):
        yield told(data=other), THERE if at or not data else ANYWHERE


def start(line):
    """Another piece or tag, and a block with one of its bytes changed, or without the last one."""
    _, piece, _, tag, block, *rest = line.split()
    block, rest = bytes.fromhex(block), ''.join(f' {it}' for it in rest)
    for other in (int(piece) + 1, 0):
        yield f'start {other} tag {tag} {block.hex()}{rest}', THERE
    for other in (int(tag) ^ 1, 255):
        yield f'start {piece} tag {other} {block.hex()}{rest}', THERE
    for at, byte in enumerate(block):
        yield f'start {piece} tag {tag} {(block[:at] + bytes([byte ^ 1]) + block[at + 1:]).hex()}{rest}', ANYWHERE
    yield f'start {piece} tag {tag} {block[:-1].hex()}{rest}', ANYWHERE


def act(line):
    _, piece, data = (line + ' ').split(' ')[:3]
    for other, due in others(piece):
        yield f'act {other}{runs_of(bytes_of(data))}', due
    for other in other_bytes(data):
        yield f'act {piece}{other}', THERE


def returned(line):
    """Another piece, another class, and a failure with another field."""
    _, piece, told = line.split(' ', 2)
    for other, due in others(piece):
        yield f'return {other} {told}', due
    for other in {'good', 'busy', MEDIUM_ERROR} - {told}:
        yield f'return {piece} {other}', ANYWHERE
    fields = told.split()[1:]
    for at, field in enumerate(fields):
        other = [*fields[:at], f'{int(field, 16) ^ 1:02x}', *fields[at + 1:]]
        yield f'return {piece} bad {" ".join(other)}', ANYWHERE
    if len(fields) > 2:
        yield f'return {piece} bad {" ".join(fields[:2])}', ANYWHERE


def answer(line):
    _, number, status, information, data = (line + ' ').split(' ')[:5]
    same = runs_of(bytes_of(data))
    for other, due in others(number):
        yield f'answer {other} {status} {information}{same}', due
    for other in ('CANCELLED' if status == 'SUCCESS' else 'SUCCESS', 'INVALID_HANDLE' if status == 'DEVICE_BUSY' else 'DEVICE_BUSY'):
        yield f'answer {number} {other} {information}{same}', THERE
    yield f'answer {number} {status} {int(information) + 1}{same}', THERE
    for other in other_bytes(data):
        yield f'answer {number} {status} {information}{other}', THERE


def numbered(line):
    word, number = line.split()
    for other, due in others(number):
        yield f'{word} {other}', due


def bare(line):
    yield from ((other, ANYWHERE) for other in BARE if other != line)


KINDS = {'call': call, 'start': start, 'act': act, 'fault': numbered, 'return': returned, 'answer': answer, 'cancel': numbered}


def judged(program, settings, lines):
    """The number of the line that is refused, or 0."""
    ran = subprocess.run([program, 'check', settings, '-'], input='\n'.join(lines) + '\n', capture_output=True, text=True, timeout=60)
    told = REFUSED.match(ran.stdout)
    if ran.stderr or not (told or ran.stdout.startswith('legal: ')):
        raise Wrong(f'no verdict: {ran.stderr or ran.stdout}')
    return int(told[1]) if told else 0


def try_change(program, settings, lines, at, other, due):
    """Judges a trace with another label in a place, counted from 0. Returns whether it is refused there, later or nowhere."""
    stop = judged(program, settings, [*lines[:at], other, *lines[at + 1:]])
    where = f'{settings}: {other!r} in the place of {lines[at]!r}, line {at + 1}'
    if 0 < stop <= at:
        raise Wrong(f'{where}: line {stop}, before it, is refused')
    if due == THERE and stop != at + 1:
        raise Wrong(f'{where}: it is taken')
    return 'there' if stop == at + 1 else 'later' if stop else 'legal'


def main():
    program = os.path.abspath(sys.argv[1])
    counts, labels = dict.fromkeys(('there', 'later', 'legal'), 0), 0
    try:
        for settings, lines in traces():
            labels += len(lines)
            for at, line in enumerate(lines):
                for other, due in KINDS.get(line.split()[0], bare)(line):
                    counts[try_change(program, settings, lines, at, other, due)] += 1
    except (Wrong, subprocess.TimeoutExpired) as wrong:
        print(f'FAILED: changed labels: {wrong}', file=sys.stderr)
        return 1
    print(f'{labels} labels, {sum(counts.values())} changes: ' + ', '.join(f'{many} {what}' for what, many in counts.items()))
    return 0


if __name__ == '__main__':
    sys.exit(main())
