"""Lines of a trace (docs/TRACES.md), from what a log tells of requests that begin and end."""

import os
import sys
import tomllib


class Piece:
    """A command: its number, its tag and its sectors of the partition."""

    def __init__(self, request, first, count):
        self.request, self.first, self.count = request, first, count
        self.number = self.tag = None


def settings_of(path):
    """What a file of settings has."""
    with open(path, "rb") as file:
        try:
            return tomllib.load(file)
        except ValueError as error:
            sys.exit(f"{path}: {error}")


def run(convert):
    """Converts what the command line names, and says what can't be read or written."""
    try:
        convert(*sys.argv[1:])
        sys.stdout.flush()
    except OSError as error:
        if error.filename is None:
            os.dup2(os.open(os.devnull, os.O_WRONLY), 1)
        sys.exit(f"{os.path.basename(sys.argv[0])}: {error.filename or 'standard output'}: {error.strerror}")


class Request:
    """A read, a write or a flush that is open."""

    def __init__(self, number, kind, first, count):
        self.number, self.kind, self.first, self.count = number, kind, first, count
        self.through, self.block, self.pieces = False, None, []


class Lines:
    """Prints the lines of one run, with `?` for bytes that the log doesn't have."""

    def __init__(self, config, out):
        settings = settings_of(config)
        self.size, self.longest, self.depth = settings["sector_size"], settings["max_transfer"], settings["depth"]
        self.base = settings["partition"][0]["first"]
        self.out = out
        self.requests = self.pieces = 0
        self.waiting, self.tags = [], [None] * self.depth

    def say(self, line):
        print(line, file=self.out)

    def call(self, kind, offset=0, length=0, through=False, told="?", block=None):
        """A request comes in, and goes to the device as far as tags are free: by its block, or by what is due."""
        self.requests += 1
        first, count = offset // self.size, length // self.size
        request = Request(self.requests, kind, first, count)
        request.through, request.block = through, block
        words = f"call {request.number} {kind}"
        if kind != "flush":
            words += f" {offset} {length}{' through' if through else ''}"
        self.say(f"{words} in 0" + (f" {told}" if kind == "write" else ""))
        cuts = range(first, first + count, self.longest) if kind != "flush" else [0]
        request.pieces = [Piece(request, at, min(self.longest, first + count - at)) for at in cuts]
        self.waiting += request.pieces
        self.start()
        return request

    def start(self):
        """Sends what waits, in order, on the lowest free tags."""
        while self.waiting and None in self.tags:
            piece = self.waiting.pop(0)
            self.pieces += 1
            piece.number, piece.tag = self.pieces, self.tags.index(None)
            self.tags[piece.tag] = piece
            self.say(f"start {piece.number} tag {piece.tag} {self.block(piece).hex()} of {piece.request.number}")

    def block(self, piece):
        """Returns the command block of a piece."""
        if piece.request.block is not None:
            return piece.request.block
        if piece.request.kind == "flush":
            return bytes([0x35]) + bytes(9)
        through, address = 8 if piece.request.through else 0, self.base + piece.first
        write = piece.request.kind == "write"
        if address + piece.count <= 1 << 32 and piece.count < 1 << 16:
            code = 0x2A if write else 0x28
            return bytes([code, through]) + address.to_bytes(4, "big") + b"\0" + piece.count.to_bytes(2, "big") + b"\0"
        code = 0x8A if write else 0x88
        return bytes([code, through]) + address.to_bytes(8, "big") + piece.count.to_bytes(4, "big") + bytes(2)

    def end(self, request, sense=None, status="SUCCESS"):
        """The device has ended a request, with sense data where it failed."""
        for piece in request.pieces:
            if piece.tag is None:
                raise SystemExit(f"request {request.number} ended, and no tag of {self.depth} was free for it")
            if sense is None:
                self.say(f"act {piece.number}{' ?' if request.kind != 'flush' else ''}")
            else:
                self.say(f"fault {piece.number}")
            self.say(f"return {piece.number} {'good' if sense is None else f'bad 84 02 {sense}'}")
            self.tags[piece.tag] = None
        moved = request.count * self.size if sense is None and request.kind != "flush" else 0
        told = " ?" if moved and request.kind == "read" else ""
        self.say(f"answer {request.number} {status} {moved}{told}")
        self.start()
