#!/usr/bin/env python3
"""Times a server of NBD beside others, in one run.

usage: disk.py disk PROGRAM | plugin PLUGIN

disk: nbd_disk over a disk in a file, beside nbdkit's file plugin and qemu-nbd on the same image. plugin: the plugin for
nbdkit, over a disk in memory, beside nbdkit's memory plugin.

Reads and writes of 4 and 128 KiB at depth 1 and 16 by fio, and sequential copies both ways by nbdcopy over one
connection. The servers take turns; of each the median of the rounds counts, since some vary by half. Prints MiB a second
and the processor time that the server took for a MiB, user's and system's, and the ratio of each to the better of the
others, above 1 where the first is faster, or takes less; and at last the ratio by the best rounds."""

import json
import os
import shutil
import socket
import statistics
import subprocess
import sys
import tempfile
import threading
import time

WHICH, PROGRAM = sys.argv[1:]
ROUNDS = int(os.environ.get("ROUNDS", "5"))
SECONDS = os.environ.get("SECONDS_EACH", "2")
MEBIBYTES = 512
SECTORS = MEBIBYTES * 2048
SETTINGS = f"""sector_size = 512
sectors = {SECTORS + 2048}
max_transfer = 2048
depth = 4
window = 4
[[partition]]
first = 2048
count = {SECTORS}
"""
PACKAGES = {"fio": "fio", "nbdcopy": "libnbd-bin", "nbdkit": "nbdkit", "qemu-nbd": "qemu-utils"}


class Program:
    """The program behind a socket: it is started for each connection, with the connection as input and output."""

    def __init__(self, path, image):
        self.listener = socket.socket(socket.AF_UNIX)
        self.listener.bind(path)
        self.listener.listen()
        self.words = [PROGRAM, "config.toml", "0", "--disk", image]
        self.took = 0.0
        self.thread = threading.Thread(target=self.serve, daemon=True)
        self.thread.start()

    def serve(self):
        while True:
            try:
                client, _ = self.listener.accept()
            except OSError:
                return
            with client:
                ran = subprocess.Popen(self.words, stdin=client, stdout=client, stderr=subprocess.DEVNULL)
            _, _, used = os.wait4(ran.pid, 0)
            self.took += used.ru_utime + used.ru_stime

    def used(self):
        """Returns the seconds of processor time so far, of the connections that ended."""
        time.sleep(0.05)
        return self.took

    def stop(self):
        self.listener.close()


class Command:
    """A server that listens by itself."""

    def __init__(self, words, path):
        self.ran = subprocess.Popen(words, stdout=subprocess.DEVNULL)
        while not os.path.exists(path):
            time.sleep(0.02)

    def used(self):
        """Returns the seconds of processor time so far."""
        with open(f"/proc/{self.ran.pid}/stat", encoding="utf-8") as it:
            words = it.read().rpartition(")")[2].split()
        return (int(words[11]) + int(words[12])) / os.sysconf("SC_CLK_TCK")

    def stop(self):
        self.ran.terminate()
        self.ran.wait()


def servers(image):
    """Returns how each server is started at a path."""
    size = SECTORS * 512
    if WHICH == "plugin":
        return {
            "saddlemug": lambda path: Command(
                ["nbdkit", "-f", "-U", path, PROGRAM, "settings=config.toml", "partition=0"], path
            ),
            "nbdkit memory": lambda path: Command(["nbdkit", "-f", "-U", path, "memory", str(size)], path),
        }
    return {
        "nbd_disk": lambda path: Program(path, image),
        "nbdkit file": lambda path: Command(
            ["nbdkit", "-f", "-U", path, "--filter=offset", "file", image, "offset=1048576", f"range={size}"], path
        ),
        "qemu-nbd": lambda path: Command(
            ["qemu-nbd", "-t", "-k", path, "--image-opts", f"driver=raw,offset=1048576,size={size},file.driver=file,file.filename={image}"],
            path,
        ),
    }


def by_fio(uri, kind, block, depth):
    """Returns MiB a second, and how many MiB it moved."""
    words = ["fio", "--name=b", "--ioengine=nbd", f"--uri={uri}", f"--rw={kind}", f"--bs={block}", f"--iodepth={depth}"]
    words += [f"--size={MEBIBYTES}m", "--time_based", f"--runtime={SECONDS}", "--output-format=json"]
    ran = subprocess.run(words, capture_output=True, text=True, check=True)
    said = json.loads(ran.stdout[ran.stdout.index("{") :])["jobs"][0]["read" if "read" in kind else "write"]
    return said["bw"] / 1024, said["io_bytes"] / 1048576


def by_copy(words):
    """Returns MiB a second, and how many MiB it moved."""
    start = time.monotonic()
    subprocess.run(["nbdcopy", "--connections=1", *words], check=True, stderr=subprocess.DEVNULL)
    return MEBIBYTES / (time.monotonic() - start), MEBIBYTES


def measures(uri):
    """Returns what is measured, each by its name."""
    found = {}
    for kind in ("randread", "randwrite"):
        for block in ("4k", "128k"):
            for depth in (1, 16):
                found[f"{kind[4:]} {block}, depth {depth}"] = lambda k=kind, b=block, d=depth: by_fio(uri, k, b, d)
    found["copy out"] = lambda: by_copy([uri, "null:"])
    found["copy in"] = lambda: by_copy(["source", uri])
    return found


def measured(server, measure):
    """Returns MiB a second, and MiB for a second of the server's processor time."""
    before = server.used()
    rate, moved = measure()
    return rate, moved / max(server.used() - before, 0.001)


def rounds(here):
    """Returns all rounds of each measure and server, by time and by processor time."""
    found = {}
    for turn in range(ROUNDS):
        for name, start in servers(os.path.join(here, "image")).items():
            path = os.path.join(here, f"socket.{turn}.{name[:5].strip()}")
            server = start(path)
            uri = f"nbd+unix:///?socket={path}"
            if WHICH == "plugin" or turn == 0 and name == "nbd_disk":
                by_copy(["source", uri])
            for what, measure in measures(uri).items():
                found.setdefault((what, name), []).append(measured(server, measure))
            server.stop()
    return found


def to_the_better(figures):
    """Returns the ratio of the first to the better of the others."""
    return f"{figures[0] / max(figures[1:]):.2f}"


def show(found):
    """Prints a row for each measure."""
    names = list(servers(""))
    print(f"| MiB a second | {' | '.join(names)} | ratio | ms a MiB: {' | '.join(names)} | ratio | by best rounds |")
    print("|---" * (2 * len(names) + 4) + "|")
    for what in measures(""):
        of_each = [list(zip(*found[what, name])) for name in names]
        rates, thrift = zip(*([statistics.median(it) for it in pair] for pair in of_each))
        cells = [f"{x:.0f}" for x in rates] + [to_the_better(rates)]
        cells += [f"{1000 / x:.2f}" for x in thrift] + [to_the_better(thrift)]
        cells.append(to_the_better([max(rounds_of) for rounds_of, _ in of_each]))
        print(f"| {what} | {' | '.join(cells)} |")


def main():
    missing = [f"{tool} ({package})" for tool, package in PACKAGES.items() if not shutil.which(tool)]
    if missing:
        print("missing: " + ", ".join(missing))
        return 2
    here = tempfile.mkdtemp()
    os.chdir(here)
    try:
        with open("config.toml", "w", encoding="utf-8") as it:
            it.write(SETTINGS)
        with open("source", "wb") as it:
            for _ in range(MEBIBYTES):
                it.write(os.urandom(1 << 20))
        if WHICH == "disk":
            made = [PROGRAM, "config.toml", "0", "--disk", "image", "--create"]
            quiet = {"stdin": subprocess.DEVNULL, "stdout": subprocess.DEVNULL, "stderr": subprocess.DEVNULL}
            subprocess.run(made, check=False, **quiet)
        show(rounds(here))
        return 0
    finally:
        shutil.rmtree(here)


if __name__ == "__main__":
    sys.exit(main())
