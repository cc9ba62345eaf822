"""Clients of the NBD protocol for tests, which may have many requests out: one starts a server on pipes, one calls a socket."""

import signal
import socket
import struct
import subprocess

READ, WRITE, LEAVE, FLUSH = range(4)
FUA = 1
ENOSPC = 28


class Client:
    """A server that was started, and the one session with it."""

    def __init__(self, words, env=None, errors=subprocess.DEVNULL):
        pipe = subprocess.PIPE
        self.server = subprocess.Popen(words, stdin=pipe, stdout=pipe, stderr=errors, env=env, bufsize=0)
        self.greet(self.server.stdout, self.server.stdin)

    def greet(self, incoming, outgoing):
        """Begins the session on these streams."""
        self.incoming, self.outgoing = incoming, outgoing
        self.out = {}
        self.number = 0
        greeting = self.take(18)
        assert greeting[:16] == b"NBDMAGICIHAVEOPT", greeting
        self.put(struct.pack(">I", 3) + b"IHAVEOPT" + struct.pack(">II", 1, 0))
        self.size, self.flags = struct.unpack(">QH", self.take(10))

    def take(self, count):
        """Returns so many bytes from the server. EOFError: it ended."""
        got = b""
        while len(got) < count:
            some = self.incoming.read(count - len(got))
            if not some:
                raise EOFError
            got += some
        return got

    def put(self, data):
        """Sends bytes."""
        rest = memoryview(data)
        while rest:
            rest = rest[self.outgoing.write(rest) :]

    def send(self, kind, offset=0, length=0, data=b"", fua=False):
        """Sends a request, and returns its number."""
        self.number += 1
        self.out[self.number] = length if kind == READ else 0
        flags = FUA if fua else 0
        self.put(struct.pack(">IHHQQI", 0x25609513, flags, kind, self.number, offset, length) + data)
        return self.number

    def reply(self):
        """Returns the number of the request that is answered next, its error (0: none) and the bytes that were read."""
        magic, error, number = struct.unpack(">IIQ", self.take(16))
        assert magic == 0x67446698, magic
        length = self.out.pop(number)
        return number, error, self.take(length) if error == 0 else b""

    def kill(self):
        """Ends the server at once, as kill -9 does."""
        self.server.send_signal(signal.SIGKILL)

    def leave(self):
        """Ends the session as a client should, and returns the server's status."""
        self.put(struct.pack(">IHHQQI", 0x25609513, 0, LEAVE, 0, 0, 0))
        self.server.stdin.close()
        return self.server.wait(30)


class Caller(Client):
    """A session over a socket."""

    def __init__(self, path):
        self.socket = socket.socket(socket.AF_UNIX)
        self.socket.connect(path)
        stream = self.socket.makefile("rwb", buffering=0)
        self.greet(stream, stream)

    def leave(self):
        """Ends the session as a client should."""
        self.put(struct.pack(">IHHQQI", 0x25609513, 0, LEAVE, 0, 0, 0))
        self.socket.close()
