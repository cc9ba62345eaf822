"""Refuses each request for memory in turn: of the program on three scripts, and of built tests.

usage: refused_memory.py PROGRAM TESTS..

The program either says that there is no memory, behind a beginning of what it would have printed; or a read, a write or a
flush is refused, and all else is as if the script had not had that line; or it does as well without. So no number and no
label went with a refusal. Each script asks for its first transfer twice, so the same call is served when it is asked again.

A test ends well, or for want of memory. What it compares before that is as ever. Where a test has threads, which of its
requests is refused may differ from run to run, and how many there are.
"""
import os
import re
import subprocess
import sys
import tempfile

SETTINGS = """sector_size = 512
sectors = 4096
max_transfer = 64
depth = 2
window = 2
open_requests = 4
[[partition]]
first = 2048
count = 1024
"""

SCRIPTS = {
    'a sector': 'open 0,write 1 0 512 a5,write 1 0 512 a5,act 0,finish 0,act 1,finish 1,read 1 0 512,act 0,finish 0,close 1',
    'four pieces, cancelled': 'open 0,write 1 0 131072 a5,cancel 1 1,write 1 0 131072 a5,cancel 1 1,cancel 1 2,'
    'act 0,finish 0,act 1,finish 1,act 0,finish 0,act 1,finish 1',
    'a removal': 'open 0,read 1 0 512,query-remove,read 1 512 512,read 1 512 512,remove,act 0,finish 0,read 1 0 512',
}

REFUSED = 'refused E5'

# How a test that ended for want of memory says so: by the name of its error.
WANT_OF_MEMORY = re.compile(r'AllocError|AllocFailed|NoMemory')

# A test of a disk in a file, which fails a piece that it has no memory for, as it then sees; and one of a hundred removals,
# which asks for nothing that the others of its crate don't ask for.
NOT_REFUSED = ('files::each_command_is_carried_out_or_fails', 'removing::goes_beside_a_held_read')


class Wrong(Exception):
    pass


def counted(words, shim, at, folder):
    """Runs it with one request for memory refused; its status, what it printed, and how many requests there were."""
    count = os.path.join(folder, 'count')
    added = {'LD_PRELOAD': shim, 'REFUSE_AT': str(at), 'REFUSE_COUNT': count}
    ran = subprocess.run(words, cwd=folder, env={**os.environ, **added}, capture_output=True, text=True, timeout=60)
    asked = 0
    if os.path.exists(count):
        with open(count) as f:
            asked = int(f.read())
        os.remove(count)
    return ran.returncode, ran.stdout, ran.stderr, asked


class Traces:
    def __init__(self, program, shim, folder):
        self.program, self.shim, self.folder = program, shim, folder
        self.config = os.path.join(folder, 'config.toml')
        with open(self.config, 'w') as f:
            f.write(SETTINGS)
        self.ample = {}

    def run(self, lines, at):
        script = os.path.join(self.folder, 'script')
        with open(script, 'w') as f:
            f.write('\n'.join(lines) + '\n')
        return counted([self.program, 'trace', self.config, script], self.shim, at, self.folder)

    def parts(self, lines):
        """What each line prints with ample memory, and how many requests for memory the whole takes."""
        key = tuple(lines)
        if key not in self.ample:
            status, out, err, asked = self.run(lines, 0)
            if status or err:
                raise Wrong('%s ends with %d' % (lines, status))
            self.ample[key] = ['> ' + part for part in out.split('> ')[1:]], asked
        return self.ample[key]

    def sweep(self, name, lines):
        wanted, asked = self.parts(lines)
        if asked == 0:
            raise Wrong('%s: no request for memory was counted' % name)
        for at in range(1, asked + 1):
            status, out, err, _ = self.run(lines, at)
            where = '%s, request %d for memory' % (name, at)
            if status == 1 and err == 'stackrun: no memory\n':
                if not ''.join(wanted).startswith(out):
                    raise Wrong(where + ': not a beginning of the text')
                continue
            if status or err:
                raise Wrong('%s: status %d, %r' % (where, status, err))
            shown = ['> ' + part for part in out.split('> ')[1:]]
            if shown == wanted:
                continue
            turned = [k for k, part in enumerate(shown) if part == '> %s\n%s\n' % (lines[k], REFUSED) and part != wanted[k]]
            if len(turned) != 1:
                raise Wrong(where + ': no line, or more than one, was refused')
            k = turned[0]
            others, _ = self.parts(lines[:k] + lines[k + 1:])
            if shown[:k] + shown[k + 1:] != others:
                raise Wrong('%s: line %d was refused, and something else changed' % (where, k + 1))
        return asked


def sweep_tests(program, shim, folder):
    listed = subprocess.run([program, '--list'], capture_output=True, text=True, timeout=60).stdout
    total = 0
    for line in listed.splitlines():
        if not line.endswith(': test'):
            continue
        name = line[: -len(': test')]
        if name in NOT_REFUSED:
            continue
        status, _, _, asked = counted([program, name], shim, 0, folder)
        if status:
            raise Wrong('%s ends with %d' % (name, status))
        for at in range(1, asked + 1):
            status, out, err, _ = counted([program, name], shim, at, folder)
            if status and not WANT_OF_MEMORY.search(out + err):
                raise Wrong('%s, request %d for memory: status %d, %s' % (name, at, status, (out + err)[-300:]))
        total += asked
    if total == 0:
        raise Wrong('%s: no request for memory was counted' % program)
    return total


def main():
    program, *tests = map(os.path.abspath, sys.argv[1:])
    here = os.path.dirname(os.path.abspath(__file__))
    with tempfile.TemporaryDirectory() as folder:
        shim = os.path.join(folder, 'refuse.so')
        subprocess.run([os.environ.get('CC', 'cc'), '-O1', '-shared', '-fPIC', '-o', shim, os.path.join(here, 'refuse.c')], check=True)
        try:
            traces = Traces(program, shim, folder)
            of_traces = sum(traces.sweep(name, script.split(',')) for name, script in SCRIPTS.items())
            of_tests = sum(sweep_tests(it, shim, folder) for it in tests)
        except (Wrong, subprocess.TimeoutExpired) as wrong:
            print('FAILED: memory refused: %s' % wrong, file=sys.stderr)
            return 1
    print('each of %d requests for memory of the program and %d of the tests was refused in turn' % (of_traces, of_tests))
    return 0


sys.exit(main())
