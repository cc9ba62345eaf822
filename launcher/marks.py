#!/usr/bin/env python3
"""marks.py FILE DESCRIPTOR: marks an image that is open there, for as long as it is open anywhere. Its status is 3 where
somebody else uses the image, and 4 where the marks would keep off the program's own lock.
marks.py --await FILE PROCESS: waits until the image is there, and marks it for as long as the process lives.

QEMU's tools tell each other what they do with an image by shared locks on single bytes of an open file: from byte 100 on
what one does, from byte 200 on what it suffers of nobody else (qemu's block/file-posix.c). clients/own_disk takes the
same."""
import errno
import fcntl
import os
import select
import struct
import sys

DOES = 100
SUFFERS_NOT = 200
TO_READ, TO_WRITE, TO_RESIZE = 0, 1, 3

IN_USE = 3
IN_THE_WAY = 4

# fcntl.h: struct flock, whose process is 0
FLOCK = "hhqqi0q"


def lock_of(kind, byte):
    return struct.pack(FLOCK, kind, os.SEEK_SET, byte, 1, 0)


def mark(image, byte):
    """Locks a byte for as long as the file is open. False where somebody keeps that off."""
    try:
        fcntl.fcntl(image, fcntl.F_OFD_SETLK, lock_of(fcntl.F_RDLCK, byte))
    except OSError as error:
        return error.errno not in (errno.EAGAIN, errno.EACCES)
    return True


def is_marked(image, byte):
    """Has somebody else locked a byte?"""
    found = fcntl.fcntl(image, fcntl.F_OFD_GETLK, lock_of(fcntl.F_WRLCK, byte))
    return struct.unpack(FLOCK, found)[0] != fcntl.F_UNLCK


def mark_all(image, writes):
    """Tells QEMU's tools what the program does, and looks at what they do. False where that doesn't go together."""
    own = [DOES + TO_READ, SUFFERS_NOT + TO_WRITE, SUFFERS_NOT + TO_RESIZE] + [DOES + TO_WRITE] * writes
    others = [DOES + TO_WRITE, DOES + TO_RESIZE, SUFFERS_NOT + TO_READ] + [SUFFERS_NOT + TO_WRITE] * writes
    return all(mark(image, byte) for byte in own) and not any(is_marked(image, byte) for byte in others)


def leaves_room(path):
    """Can the program lock the file? Over a network the two kinds of locks may be one."""
    image = os.open(path, os.O_RDONLY)
    try:
        fcntl.flock(image, fcntl.LOCK_EX | fcntl.LOCK_NB)
    except OSError:
        return False
    finally:
        os.close(image)
    return True


def mark_open(path, image):
    if not mark_all(image, os.access(path, os.W_OK)):
        sys.exit(IN_USE)
    if not leaves_room(path):
        sys.exit(IN_THE_WAY)


def mark_coming(path, process):
    """The program makes the file, and locks it, before it is marked."""
    ended = select.poll()
    ended.register(os.pidfd_open(process))
    while not os.path.exists(path):
        if ended.poll(10):
            return
    image = os.open(path, os.O_RDONLY)
    mark_all(image, True)
    ended.poll()


if sys.argv[1] == "--await":
    mark_coming(sys.argv[2], int(sys.argv[3]))
else:
    mark_open(sys.argv[1], int(sys.argv[2]))
