#!/usr/bin/env python3
"""How fast a target is read through the plugin, beside iscsi-perf, which reads it straight: fio over NBD, nbdkit, the plugin
and its stack, and iscsi-perf by turns, each with sixteen reads out, over a target of tgt's that it starts.

usage: speed.py [--rounds N] [--seconds N] [--first] PLUGIN

--first: all of it goes before the machine's other load (SCHED_RR, as root); else that spoils the figures. Prints of reads of 4
and 128 KiB each one's median of reads a second, their processor time of one read in microseconds (fio and nbdkit, or
iscsi-perf), and the quotient. Its status is 0 where both quotients are 0.7 at least."""

import argparse
import json
import os
import re
import resource
import statistics
import subprocess
import sys
import tempfile
import time

NAME = "iqn.2026-11.example:disk"
PORT = 23260
SIZE = 256 << 20
URL = f"iscsi://127.0.0.1:{PORT}/{NAME}/1"


def run(*words):
    """Runs a command, and returns what it printed."""
    return subprocess.run(words, check=True, capture_output=True, text=True).stdout


def start_target(folder):
    """Starts a target, whose unit 1 is a file with one partition, and returns its process."""
    with open(f"{folder}/unit", "wb") as it:
        it.write(os.urandom(SIZE))
    run("sh", "-c", f"echo start=2048, size={SIZE // 512 - 2048}, type=83 | PATH=$PATH:/sbin sfdisk -q -X dos {folder}/unit")
    target = subprocess.Popen(["tgtd", "-f", "--iscsi", f"portal=127.0.0.1:{PORT}", "-C", str(PORT)], stderr=subprocess.DEVNULL)
    admin = ["tgtadm", "-C", str(PORT), "--lld", "iscsi", "--op"]
    for _ in range(50):
        if subprocess.run([*admin, "show", "--mode", "target"], capture_output=True).returncode == 0:
            break
        time.sleep(0.1)
    run(*admin, "new", "--mode", "target", "--tid", "1", "-T", NAME)
    run(*admin, "new", "--mode", "logicalunit", "--tid", "1", "--lun", "1", "-b", f"{folder}/unit")
    run(*admin, "bind", "--mode", "target", "--tid", "1", "-I", "ALL")
    return target


def processor_time():
    """The processor time of all commands that ended, in seconds."""
    used = resource.getrusage(resource.RUSAGE_CHILDREN)
    return used.ru_utime + used.ru_stime


def read_straight(size, seconds):
    """Returns reads a second of iscsi-perf, and its processor time of one."""
    before = processor_time()
    said = run("iscsi-perf", "-m", "16", "-b", str(size // 512), "-t", str(seconds), URL)
    rate = int(re.findall(r"iops average (\d+)", said)[-1])
    return rate, (processor_time() - before) / (rate * seconds)


def read_through(plugin, size, seconds):
    """Returns reads a second of fio through the plugin, and the processor time of one, of fio and nbdkit."""
    before = processor_time()
    fio = f'fio --name=b --ioengine=nbd --uri="$uri" --rw=read --bs={size} --iodepth=16 --size=240m --time_based --runtime={seconds}'
    said = run("nbdkit", "-U", "-", plugin, f"iscsi={URL}", "--run", f"{fio} --output-format=json")
    read = json.loads(said[said.index("{") :])["jobs"][0]["read"]
    return read["iops"], (processor_time() - before) / read["total_ios"]


def compare(plugin, size, chosen):
    """Prints the medians, and returns their quotient."""
    rows = [(read_through(plugin, size, chosen.seconds), read_straight(size, chosen.seconds)) for _ in range(chosen.rounds)]
    middle = lambda who, what: statistics.median(row[who][what] for row in rows)
    quotient = middle(0, 0) / middle(1, 0)
    print(f"{size // 1024} KiB: through the plugin {middle(0, 0):.0f} a second, {middle(0, 1) * 1e6:.0f} us each;", end="")
    print(f" iscsi-perf {middle(1, 0):.0f}, {middle(1, 1) * 1e6:.0f} us; {quotient:.2f}")
    return quotient


def main():
    parser = argparse.ArgumentParser()
    parser.add_argument("--rounds", type=int, default=5)
    parser.add_argument("--seconds", type=int, default=2)
    parser.add_argument("--first", action="store_true")
    parser.add_argument("plugin")
    chosen = parser.parse_args()
    if chosen.first:
        os.sched_setscheduler(0, os.SCHED_RR, os.sched_param(10))
    with tempfile.TemporaryDirectory() as folder:
        target = start_target(folder)
        try:
            quotients = [compare(os.path.abspath(chosen.plugin), size, chosen) for size in (4096, 131072)]
        finally:
            target.kill()
            target.wait()
    return min(quotients) < 0.7


if __name__ == "__main__":
    sys.exit(main())
