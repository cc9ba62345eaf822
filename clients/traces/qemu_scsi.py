#!/usr/bin/env python3
"""Turns what qemu traces of a SCSI disk into a trace that stackjudge judges.

usage: qemu_scsi.py CONFIG LOG > TRACE

    printf '%s\\n' scsi_req_dequeue scsi_disk_new_request scsi_disk_check_condition > events
    qemu-system-x86_64 .. -device virtio-scsi-pci -device scsi-hd,drive=.. -trace events=events -D LOG
    stackjudge check --gaps CONFIG TRACE

The disk is that of CONFIG, and the commands are those of the guest's driver, block for block: a READ, a WRITE or a
SYNCHRONIZE CACHE is a request and its one piece. Other commands, and transfers in front of partition 0, are left out.
qemu's tags are addresses: in their place stand the lowest that are free. The log has no bytes."""

import re
import sys

from machine_lines import Lines, run

NEW = re.compile(r"scsi_disk_new_request Command: lun=0 tag=(0x\w+) data=((?: 0x\w\w)+)")
SENSE = re.compile(r"scsi_disk_check_condition Command complete tag=(0x\w+) sense=(\d+)/(\d+)/(\d+)")
END = re.compile(r"scsi_req_dequeue target 0 lun 0 tag (\d+)")
STATUSES = {3: "DEVICE_DATA_ERROR", 7: "MEDIA_WRITE_PROTECTED"}


def transfer(block):
    """Returns kind, first sector, count and write-through of a block; None for another command."""
    if block[0] in (0x28, 0x2A):
        first, count = int.from_bytes(block[2:6], "big"), int.from_bytes(block[7:9], "big")
    elif block[0] in (0x88, 0x8A):
        first, count = int.from_bytes(block[2:10], "big"), int.from_bytes(block[10:14], "big")
    else:
        return ("flush", None, 0, False) if block[0] == 0x35 else None
    return "read" if block[0] in (0x28, 0x88) else "write", first, count, block[1] & 8 != 0


def begin(lines, block):
    """Calls what a block asks for, or returns None where it is left out."""
    asked = transfer(block)
    if asked is None or asked[1] is not None and asked[1] < lines.base:
        return None
    kind, first, count, through = asked
    if kind == "flush":
        return lines.call(kind, block=block)
    return lines.call(kind, (first - lines.base) * lines.size, count * lines.size, through, block=block)


def convert(lines, log):
    """Writes the lines of a log."""
    found, sense = {}, {}
    for line in log:
        if new := NEW.search(line):
            tag = int(new[1], 16)
            found[tag] = begin(lines, bytes(int(it, 16) for it in new[2].split()))
        elif told := SENSE.search(line):
            sense[int(told[1], 16)] = tuple(map(int, told.groups()[1:]))
        elif (end := END.search(line)) and int(end[1]) in found:
            request, failed = found.pop(int(end[1])), sense.pop(int(end[1]), None)
            if request is not None and failed is None:
                lines.end(request)
            elif request is not None:
                lines.end(request, "{:02x} {:02x} {:02x}".format(*failed), STATUSES.get(failed[0], "IO_DEVICE_ERROR"))


def main(config, log):
    """Writes the trace of a log."""
    with open(log, encoding="utf-8") as it:
        convert(Lines(config, sys.stdout), it)


if __name__ == "__main__":
    if len(sys.argv) != 3:
        sys.exit("usage: qemu_scsi.py CONFIG LOG > TRACE")
    run(main)
