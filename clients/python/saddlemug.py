"""The storage stack of libsaddlemug, for Python: volumes, stacks that are stepped event by event, and storage of one's own.

It needs the shared library (`make -C clients shared`), which it looks for in SADDLEMUG_LIBRARY, beside this file, in
`../out`, and where the system's loader looks. It takes no other package.

    with Volume(CONFIG) as volume:
        volume.write(0, b"a" * 512)
        assert volume.read(0, 512) == b"a" * 512

    with Stack(CONFIG) as stack, Judge(CONFIG) as judge:
        handle = stack.step(Open(0)).id
        judge.take(*stack.labels())
        request = stack.step(Read(handle, 0, 512)).id
        judge.take(*stack.labels())
        for event in (Act(0), Finish(0)):
            stack.step(event)
            judge.take(*stack.labels())
        print(stack.answers())

Each call that fails raises `Failed`, which has the status by number and by name. The contract of each call is that of the C
call of the same name in saddlemug.h. One stack or volume is used by one thread at a time."""

from __future__ import annotations

import ctypes
import ctypes.util
import enum
import os
from ctypes import POINTER, byref, c_bool, c_size_t, c_uint8, c_uint32, c_uint64, c_void_p
from dataclasses import dataclass
from typing import Iterator, Optional, Union

__all__ = [
    "Act", "Answer", "Armed", "Asked", "Cancel", "CancelRemove", "Close", "Completion", "Disk", "Failed", "Finish",
    "Flush", "Id", "Judge", "Label", "LabelKind", "Mark", "MemoryDisk", "Open", "Partition", "QueryRemove", "Read", "Refused",
    "Remove", "Reply", "ReplyKind", "Reset", "Stack", "Status", "SurpriseRemove", "Volume", "Write", "settings_fault", "version",
]


class Status(enum.IntEnum):
    """The statuses of the calls and answers, as ntstatus.h has them (without STATUS_)."""

    SUCCESS = 0x00000000
    DEVICE_BUSY = 0x80000011
    INVALID_HANDLE = 0xC0000008
    INVALID_PARAMETER = 0xC000000D
    NO_SUCH_DEVICE = 0xC000000E
    INVALID_DEVICE_REQUEST = 0xC0000010
    NONEXISTENT_SECTOR = 0xC0000015
    DELETE_PENDING = 0xC0000056
    INSUFFICIENT_RESOURCES = 0xC000009A
    DEVICE_DATA_ERROR = 0xC000009C
    MEDIA_WRITE_PROTECTED = 0xC00000A2
    DEVICE_NOT_READY = 0xC00000A3
    CANCELLED = 0xC0000120
    IO_DEVICE_ERROR = 0xC0000185
    NOT_FOUND = 0xC0000225


class Failed(Exception):
    """A call that was not carried out."""

    def __init__(self, call: str, status: Status, why: Optional[str] = None):
        super().__init__(f"{call}: {status.name} ({status:#010x})" + (f": {why}" if why else ""))
        self.status = status


def _check(call: str, status: int) -> None:
    if status:
        raise Failed(call, Status(status))


# The version of saddlemug.h that this file speaks to.
_VERSION = 0x000201


# The structs of saddlemug.h.


class _Room(ctypes.Structure):
    _fields_ = [("at", c_void_p)]


class _Sizes(ctypes.Structure):
    _fields_ = [("sector_size", c_uint64), ("sectors", c_uint64)]


class _Run(ctypes.Structure):
    _fields_ = [("count", c_uint64), ("are_zeros", c_bool)]


class _Id(ctypes.Structure):
    _fields_ = [("number", c_uint64), ("slot", c_uint32)]


class _Partition(ctypes.Structure):
    _fields_ = [("first", c_uint32), ("count", c_uint32), ("type", c_uint8)]


class _Memory(ctypes.Structure):
    _fields_ = [
        ("sectors", c_uint64), ("sector_size", c_uint32), ("max_transfer", c_uint32), ("depth", c_uint32),
        ("window", c_uint32), ("open_requests", c_uint32), ("partition_count", c_uint32), ("partitions", _Partition * 4),
        ("write_protected", c_bool),
    ]


class _Event(ctypes.Structure):
    _fields_ = [
        ("kind", c_uint32), ("partition", c_uint8), ("tag", c_uint8), ("through", c_bool), ("one", c_bool),
        ("handle", _Id), ("request", _Id), ("offset", c_uint64), ("length", c_uint64),
    ]


class _Reply(ctypes.Structure):
    _fields_ = [("kind", c_uint32), ("status", c_uint32), ("id", _Id)]


class _Completion(ctypes.Structure):
    _fields_ = [
        ("srb_status", c_uint8), ("scsi_status", c_uint8), ("has_sense", c_bool), ("key", c_uint8), ("asc", c_uint8),
        ("ascq", c_uint8),
    ]


class _Label(ctypes.Structure):
    _fields_ = [
        ("kind", c_uint32), ("status", c_uint32), ("number", c_uint64), ("information", c_uint64), ("piece_low", c_uint64),
        ("piece_high", c_uint64), ("tag", c_uint32), ("class_", c_uint32), ("request", c_uint32), ("partition", c_uint32),
        ("offset", c_uint64), ("length", c_uint64), ("through", c_uint32), ("completion", _Completion), ("bytes", c_uint64),
    ]


class _Answer(ctypes.Structure):
    _fields_ = [("number", c_uint64), ("information", c_uint64), ("status", c_uint32), ("bytes", c_uint64)]


class _Disk(ctypes.Structure):
    _fields_ = [
        ("sectors", c_uint64), ("max_transfer", c_uint32), ("depth", c_uint32), ("window", c_uint32),
        ("open_requests", c_uint32),
    ]


class _Asked(ctypes.Structure):
    _fields_ = [("kind", c_uint32), ("through", c_uint32), ("first", c_uint64), ("count", c_uint64)]


class _Armed(ctypes.Structure):
    _fields_ = [
        ("piece_low", c_uint64), ("piece_high", c_uint64), ("asked", _Asked), ("bytes", c_void_p), ("length", c_uint64),
        ("block_length", c_uint32), ("block", c_uint8 * 16),
    ]


class _Booking(ctypes.Structure):
    _fields_ = [
        ("piece_low", c_uint64), ("piece_high", c_uint64), ("length", c_uint64), ("tag", c_uint8), ("failed", c_bool),
        ("completion", _Completion),
    ]


_ROOM = POINTER(_Room)
_CALLS = {
    "saddlemug_version": (c_uint32, []),
    "saddlemug_settings_words": (c_uint64, [c_void_p, c_size_t, c_void_p, c_size_t]),
    "saddlemug_memory_open_into": (c_uint32, [_ROOM, POINTER(_Memory), POINTER(c_uint64), c_size_t, c_uint8]),
    "saddlemug_stack_memory_open_into": (c_uint32, [_ROOM, POINTER(_Memory), POINTER(c_uint64), c_size_t]),
    "saddlemug_open_into": (c_uint32, [_ROOM, c_void_p, c_size_t, c_uint8]),
    "saddlemug_sizes": (_Sizes, [_ROOM]),
    "saddlemug_run": (_Run, [_ROOM, c_uint64, c_uint64]),
    "saddlemug_read": (c_uint32, [_ROOM, c_uint64, c_void_p, c_size_t]),
    "saddlemug_write": (c_uint32, [_ROOM, c_uint64, c_void_p, c_size_t, c_bool]),
    "saddlemug_flush": (c_uint32, [_ROOM]),
    "saddlemug_close_full": (None, [_ROOM]),
    "saddlemug_stack_open_into": (c_uint32, [_ROOM, c_void_p, c_size_t]),
    "saddlemug_stack_step": (c_uint32, [_ROOM, POINTER(_Event), c_void_p, c_size_t, POINTER(_Reply)]),
    "saddlemug_stack_take_label": (c_bool, [_ROOM, POINTER(_Label), c_void_p, c_size_t]),
    "saddlemug_stack_first_answer": (c_bool, [_ROOM, POINTER(_Answer)]),
    "saddlemug_stack_take_answer": (c_bool, [_ROOM, POINTER(_Answer), c_void_p, c_size_t]),
    "saddlemug_stack_take_answer_of": (c_bool, [_ROOM, c_uint64, POINTER(_Answer), c_void_p, c_size_t]),
    "saddlemug_stack_close_full": (None, [_ROOM]),
    "saddlemug_over_open": (c_uint32, [_ROOM, POINTER(_Disk), c_void_p, c_size_t]),
    "saddlemug_over_armed": (c_uint32, [_ROOM, c_uint8, POINTER(_Armed)]),
    "saddlemug_over_book": (c_uint32, [_ROOM, POINTER(_Booking)]),
    "saddlemug_label_words": (c_uint64, [POINTER(_Label), c_void_p, c_size_t, c_void_p, c_size_t]),
    "saddlemug_judge_open_into": (c_uint32, [_ROOM, c_void_p, c_size_t]),
    "saddlemug_judge_take": (c_uint32, [_ROOM, POINTER(_Label), c_void_p, c_size_t]),
    "saddlemug_judge_take_line": (c_uint32, [_ROOM, c_void_p, c_size_t]),
    "saddlemug_judge_words": (c_uint64, [_ROOM, c_void_p, c_size_t]),
    "saddlemug_judge_settled": (c_bool, [_ROOM]),
    "saddlemug_judge_close_full": (None, [_ROOM]),
}


def _load() -> ctypes.CDLL:
    here = os.path.dirname(os.path.abspath(__file__))
    places = [os.environ.get("SADDLEMUG_LIBRARY"), f"{here}/libsaddlemug.so", f"{here}/../out/libsaddlemug.so"]
    found = next((it for it in places if it and os.path.exists(it)), None) or ctypes.util.find_library("saddlemug")
    if not found:
        raise ImportError("libsaddlemug.so is not found: `make -C clients shared` builds it, SADDLEMUG_LIBRARY names it")
    library = ctypes.CDLL(found)
    if not hasattr(library, "saddlemug_version") or library.saddlemug_version() < _VERSION:
        raise ImportError(f"{found} is older than this file")
    for name, (result, arguments) in _CALLS.items():
        call = getattr(library, name)
        call.restype, call.argtypes = result, arguments
    return library


_c = _load()


def _completion(label: _Label) -> Optional[Completion]:
    told = label.completion
    if label.class_ != 2:
        return None
    return Completion(told.srb_status, told.scsi_status, (told.key, told.asc, told.ascq) if told.has_sense else None)


def _room_for(length: int) -> ctypes.Array:
    """A buffer, which C wants to be there also for no bytes."""
    return (c_uint8 * max(length, 1))()


def _settings(settings: Union[str, bytes]) -> bytes:
    return settings.encode() if isinstance(settings, str) else settings


def version() -> tuple[int, int, int]:
    """The version of the library."""
    number = _c.saddlemug_version()
    return number >> 16, number >> 8 & 255, number & 255


def settings_fault(settings: Union[str, bytes]) -> Optional[str]:
    """What is wrong with a TOML text of settings, in the words of the programs; None where a stack of it can be started."""
    text, buffer = _settings(settings), _room_for(64)
    count = _c.saddlemug_settings_words(text, len(text), buffer, len(buffer))
    return bytes(buffer)[:count].decode() if count else None


@dataclass(frozen=True)
class Partition:
    """A partition of a disk in memory, in sectors, with the type of its entry in the partition table, 1 to 255."""

    first: int
    count: int
    type: int = 7


@dataclass(frozen=True)
class MemoryDisk:
    """A disk in memory, in place of a TOML text: what each number means stands in docs/USING.md, "Settings"."""

    sectors: int
    partitions: tuple[Partition, ...] = ()
    sector_size: int = 512
    max_transfer: int = 128
    depth: int = 4
    window: int = 4
    open_requests: int = 64
    write_protected: bool = False
    bad_sectors: tuple[int, ...] = ()


def _memory(disk: MemoryDisk) -> tuple[_Memory, ctypes.Array, int]:
    told = _Memory(
        disk.sectors, disk.sector_size, disk.max_transfer, disk.depth, disk.window, disk.open_requests, len(disk.partitions),
        write_protected=disk.write_protected,
    )
    for place, it in enumerate(disk.partitions[:4]):
        told.partitions[place] = _Partition(it.first, it.count, it.type)
    return told, (c_uint64 * max(len(disk.bad_sectors), 1))(*disk.bad_sectors), len(disk.bad_sectors)


def _check_open(status: int, text: bytes) -> None:
    if status:
        raise Failed("open", Status(status), settings_fault(text))


class Volume:
    """One partition of a new disk in memory as an array of bytes. `settings` is a TOML text (docs/USING.md), or the numbers
    of a disk."""

    def __init__(self, settings: Union[str, bytes, MemoryDisk], partition: int = 0):
        self._room = _Room(None)
        if isinstance(settings, MemoryDisk):
            disk, bad, count = _memory(settings)
            _check("open", _c.saddlemug_memory_open_into(byref(self._room), byref(disk), bad, count, partition))
        else:
            text = _settings(settings)
            _check_open(_c.saddlemug_open_into(byref(self._room), text, len(text), partition), text)

    @property
    def sector_size(self) -> int:
        """Bytes of a sector."""
        return _c.saddlemug_sizes(self._open()).sector_size

    @property
    def sectors(self) -> int:
        """Sectors of the partition."""
        return _c.saddlemug_sizes(self._open()).sectors

    def run(self, offset: int, length: int) -> tuple[int, bool]:
        """How many bytes from here on are alike, at most so many, and whether they are known to be zeros, since nothing was
        written there. No bytes where these are no whole sectors of the partition, one at least."""
        run = _c.saddlemug_run(self._open(), offset, length)
        return run.count, run.are_zeros

    def read(self, offset: int, length: int) -> bytes:
        """Reads whole sectors, 65,536 at most; both numbers are in bytes."""
        buffer = _room_for(length)
        _check("read", _c.saddlemug_read(self._open(), offset, buffer, length))
        return bytes(buffer)[:length]

    def write(self, offset: int, data: bytes, through: bool = False) -> None:
        """Writes whole sectors, past volatile caches if `through` (SBC: FUA)."""
        _check("write", _c.saddlemug_write(self._open(), offset, data, len(data), through))

    def flush(self) -> None:
        """Flushes the disk's caches (SBC: SYNCHRONIZE CACHE)."""
        _check("flush", _c.saddlemug_flush(self._open()))

    def close(self) -> None:
        """Ends the volume and its disk. A second call does nothing."""
        if self._room.at:
            _c.saddlemug_close_full(byref(self._room))

    def _open(self):
        if not self._room.at:
            raise Failed("volume", Status.INVALID_HANDLE)
        return byref(self._room)

    def __enter__(self) -> Volume:
        return self

    def __exit__(self, *_) -> None:
        self.close()


@dataclass(frozen=True)
class Id:
    """A handle or an open request. Numbers rise from 1, and none is given twice; a slot is."""

    number: int
    slot: int


# The events of a stack. Offsets and lengths are in bytes.


@dataclass(frozen=True)
class Open:
    """A handle on a partition, counted from 0 (IRP_MJ_CREATE)."""

    partition: int


@dataclass(frozen=True)
class Close:
    """The handle is closed, and its requests cancelled (IRP_MJ_CLEANUP)."""

    handle: Id


@dataclass(frozen=True)
class Read:
    handle: Id
    offset: int
    length: int


@dataclass(frozen=True)
class Write:
    handle: Id
    offset: int
    data: bytes
    through: bool = False


@dataclass(frozen=True)
class Flush:
    handle: Id


@dataclass(frozen=True)
class Cancel:
    """All requests of the handle, or the one that is named (CancelIoEx)."""

    handle: Id
    request: Optional[Id] = None


@dataclass(frozen=True)
class Mark:
    """The open request of this number, whatever its handle (IoCancelIrp)."""

    number: int


@dataclass(frozen=True)
class QueryRemove:
    """May the disk go? Where it may, requests are held from now on."""


@dataclass(frozen=True)
class CancelRemove:
    """The query is taken back, and held requests go on."""


@dataclass(frozen=True)
class Remove:
    """The disk is removed, after a query."""


@dataclass(frozen=True)
class SurpriseRemove:
    """The disk was pulled out."""


@dataclass(frozen=True)
class Act:
    """The adapter carries out, or fails, the command on a tag, counted from 0."""

    tag: int


@dataclass(frozen=True)
class Finish:
    """The adapter hands the command on a tag back, whether or not it acted."""

    tag: int


@dataclass(frozen=True)
class Reset:
    """Each command that did nothing fails, and each that is out will come back bad."""


Event = Union[
    Open, Close, Read, Write, Flush, Cancel, Mark, QueryRemove, CancelRemove, Remove, SurpriseRemove, Act, Finish, Reset
]
# In the order of `enum saddlemug_event_kind`.
_EVENTS = [
    Open, Close, Read, Write, Flush, Cancel, Mark, QueryRemove, CancelRemove, Remove, SurpriseRemove, Act, Finish, Reset
]


def _event(event: Event) -> _Event:
    told = _Event(kind=_EVENTS.index(type(event)))
    for name in ("partition", "tag", "offset", "length", "through"):
        if hasattr(event, name):
            setattr(told, name, getattr(event, name))
    if hasattr(event, "handle"):
        told.handle = _Id(event.handle.number, event.handle.slot)
    if isinstance(event, Cancel) and event.request:
        told.one, told.request = True, _Id(event.request.number, event.request.slot)
    if isinstance(event, Mark):
        told.request = _Id(event.number, 0)
    return told


class ReplyKind(enum.IntEnum):
    HANDLE = 0
    DONE = 1
    REQUEST = 2
    ANSWERED = 3
    REFUSED = 4
    IGNORED = 5


@dataclass(frozen=True)
class Reply:
    """What a step answers: a new handle or request in `id`; why it was refused, or how it was answered at once, in `status`."""

    kind: ReplyKind
    status: Status
    id: Id


class LabelKind(enum.IntEnum):
    CALLED = 0
    STARTED = 1
    ACTED = 2
    FAULTED = 3
    RETURNED = 4
    ANSWERED = 5
    CANCELLED = 6
    PAUSED = 7
    RESUMED = 8
    REMOVING = 9
    SURPRISED = 10
    REMOVED = 11


@dataclass(frozen=True)
class Completion:
    """How a command failed: SRB status (WDK), SCSI status (SAM), and the sense key and its two codes (SPC), if there are any."""

    srb_status: int
    scsi_status: int
    sense: Optional[tuple[int, int, int]]


@dataclass(frozen=True)
class Label:
    """What a step did. What the kind doesn't have is 0 or empty."""

    kind: LabelKind
    number: int
    status: Status
    information: int
    piece: int
    tag: int
    returned: int  # 0 good, 1 busy, 2 bad
    completion: Optional[Completion]  # of a piece that came back bad
    request: int  # 0 read, 1 write, 2 flush
    partition: int  # counted from 1; 0 where the handle isn't open
    offset: int
    length: int
    through: bool
    data: bytes

    def line(self) -> str:
        """The label as a line of a trace (docs/TRACES.md)."""
        told, room = _label(self), 64 + 8 * len(self.data)
        buffer = _room_for(room)
        count = _c.saddlemug_label_words(byref(told), self.data, len(self.data), buffer, room)
        return bytes(buffer[: count - 1]).decode() if count else ""


def _label(it: Label) -> _Label:
    told = _Label(
        it.kind, it.status, it.number, it.information, it.piece & (1 << 64) - 1, it.piece >> 64, it.tag, it.returned, it.request,
        it.partition, it.offset, it.length, it.through, bytes=len(it.data),
    )
    if it.completion:
        sense = it.completion.sense
        told.completion = _Completion(it.completion.srb_status, it.completion.scsi_status, sense is not None, *(sense or ()))
    return told


class Refused(Exception):
    """What a judge didn't take: which it was of all that it was told, counted from 1; the number of why, and its sentence."""

    def __init__(self, place: int, number: int, why: str):
        super().__init__(f"line {place}: {why}")
        self.place, self.number, self.why = place, number, why


class Judge:
    """The judge of runs of the machine of these settings (docs/TRACES.md), before the first label. It is told the labels of a
    stack, or lines, which may be those of any stack."""

    def __init__(self, settings: Union[str, bytes]):
        self._room, self._count, text = _Room(None), 0, _settings(settings)
        _check_open(_c.saddlemug_judge_open_into(byref(self._room), text, len(text)), text)

    def take(self, *told: Union[Label, str]) -> None:
        """Tells labels, or lines, in their order. Raises `Refused` at the first that no run has behind the others."""
        for it in told:
            self._count += 1
            if isinstance(it, str):
                line = it.encode()
                number = _c.saddlemug_judge_take_line(self._open(), line, len(line))
            else:
                label = _label(it)
                number = _c.saddlemug_judge_take(self._open(), byref(label), it.data, len(it.data))
            if number:
                raise Refused(self._count, number, self._why())

    @property
    def settled(self) -> bool:
        """Whether what was told, which is to be all of a step, leaves nothing undone."""
        return _c.saddlemug_judge_settled(self._open())

    def close(self) -> None:
        """Ends the judge. A second call does nothing."""
        if self._room.at:
            _c.saddlemug_judge_close_full(byref(self._room))

    def _why(self) -> str:
        buffer = _room_for(256)
        count = _c.saddlemug_judge_words(self._open(), buffer, len(buffer))
        return bytes(buffer[:count]).decode()

    def _open(self):
        if not self._room.at:
            raise Failed("judge", Status.INVALID_HANDLE)
        return byref(self._room)

    def __enter__(self) -> Judge:
        return self

    def __exit__(self, *_) -> None:
        self.close()


@dataclass(frozen=True)
class Answer:
    number: int
    status: Status
    information: int
    data: bytes


@dataclass(frozen=True)
class Disk:
    """A disk of the program's own: its sectors, the longest command in sectors, tags, requests at work and open at once."""

    sectors: int
    max_transfer: int = 2048
    depth: int = 32
    window: int = 64
    open_requests: int = 64


class Asked(enum.IntEnum):
    READ = 0
    WRITE = 1
    FLUSH = 2
    OTHERWISE = 3


@dataclass(frozen=True)
class Armed:
    """A command at the adapter that could act. `room` is where its bytes stand: those of a write, or the place for those that
    a read brings, until it is booked."""

    tag: int
    piece: int
    kind: Asked
    through: bool
    first: int
    count: int
    block: bytes
    room: memoryview


class Stack:
    """A stack over a new disk in memory, of TOML settings with no rule `busy` or `delay`, or the numbers of a disk; or over
    storage of the program's own, where `first` is sector 0 of a `Disk`, with its partition table."""

    def __init__(self, settings: Union[str, bytes, MemoryDisk, Disk], first: Optional[bytes] = None):
        self._room = _Room(None)
        self._longest = 1 << 20
        if isinstance(settings, Disk):
            if first is None:
                raise TypeError("a stack over a Disk needs its first sector")
            disk = _Disk(settings.sectors, settings.max_transfer, settings.depth, settings.window, settings.open_requests)
            _check("open", _c.saddlemug_over_open(byref(self._room), byref(disk), first, len(first)))
        elif isinstance(settings, MemoryDisk):
            memory, bad, count = _memory(settings)
            _check("open", _c.saddlemug_stack_memory_open_into(byref(self._room), byref(memory), bad, count))
        else:
            text = _settings(settings)
            _check_open(_c.saddlemug_stack_open_into(byref(self._room), text, len(text)), text)

    def step(self, event: Event) -> Reply:
        """Carries one event out. Labels of the step before that were not taken are let go."""
        told, reply = _event(event), _Reply()
        data = event.data if isinstance(event, Write) else b""
        if isinstance(event, (Read, Write)):
            self._longest = max(self._longest, event.length if isinstance(event, Read) else len(data))
        _check("step", _c.saddlemug_stack_step(self._open(), byref(told), data, len(data), byref(reply)))
        return Reply(ReplyKind(reply.kind), Status(reply.status), Id(reply.id.number, reply.id.slot))

    def labels(self) -> Iterator[Label]:
        """Takes the labels of the last step, the earliest first."""
        label, buffer = _Label(), self._buffer()
        while _c.saddlemug_stack_take_label(self._open(), byref(label), buffer, len(buffer)):
            yield Label(
                LabelKind(label.kind), label.number, Status(label.status), label.information,
                label.piece_low | label.piece_high << 64, label.tag, label.class_, _completion(label), label.request,
                label.partition, label.offset, label.length, bool(label.through), ctypes.string_at(buffer, min(label.bytes, len(buffer))),
            )

    def first_answer(self) -> Optional[Answer]:
        """The waiting answer of the lowest number, without its bytes; it goes on waiting."""
        answer = _Answer()
        if not _c.saddlemug_stack_first_answer(self._open(), byref(answer)):
            return None
        return Answer(answer.number, Status(answer.status), answer.information, b"")

    def answers(self) -> list[Answer]:
        """Takes all answers that wait, the lowest number first."""
        answer, buffer, found = _Answer(), self._buffer(), []
        while _c.saddlemug_stack_take_answer(self._open(), byref(answer), buffer, len(buffer)):
            found.append(self._told(answer, buffer))
        return found

    def answer(self, number: int) -> Optional[Answer]:
        """Takes the answer of the request of this number, if it waits."""
        answer, buffer = _Answer(), self._buffer()
        if not _c.saddlemug_stack_take_answer_of(self._open(), number, byref(answer), buffer, len(buffer)):
            return None
        return self._told(answer, buffer)

    def armed(self, tag: int) -> Optional[Armed]:
        """The command on a tag that could act, of a stack over storage of one's own; None where there is none."""
        armed = _Armed()
        status = _c.saddlemug_over_armed(self._open(), tag, byref(armed))
        if status == Status.NOT_FOUND:
            return None
        _check("armed", status)
        place = (c_uint8 * armed.length).from_address(armed.bytes) if armed.length else (c_uint8 * 0)()
        return Armed(
            tag, armed.piece_low | armed.piece_high << 64, Asked(armed.asked.kind), bool(armed.asked.through),
            armed.asked.first, armed.asked.count, bytes(armed.block[: armed.block_length]), memoryview(place).cast("B"),
        )

    def book_done(self, armed: Armed) -> None:
        """Books that the command's bytes were moved: those of a read stand in its room."""
        self._book(armed, _Booking(length=len(armed.room)))

    def book_failed(self, armed: Armed, key: int, asc: int, ascq: int) -> None:
        """Books that the command failed, with CHECK CONDITION and this sense (SPC)."""
        self._book(armed, _Booking(failed=True, completion=_Completion(0x84, 2, True, key, asc, ascq)))

    def close(self) -> None:
        """Ends the stack, and its disk in memory. A second call does nothing."""
        if self._room.at:
            _c.saddlemug_stack_close_full(byref(self._room))

    @staticmethod
    def _told(answer: _Answer, buffer: ctypes.Array) -> Answer:
        data = ctypes.string_at(buffer, min(answer.bytes, len(buffer)))
        return Answer(answer.number, Status(answer.status), answer.information, data)

    def _book(self, armed: Armed, booking: _Booking) -> None:
        booking.tag = armed.tag
        booking.piece_low, booking.piece_high = armed.piece & (1 << 64) - 1, armed.piece >> 64
        _check("book", _c.saddlemug_over_book(self._open(), byref(booking)))

    def _buffer(self) -> ctypes.Array:
        if getattr(self, "_kept", None) is None or len(self._kept) < self._longest:
            self._kept = (c_uint8 * self._longest)()
        return self._kept

    def _open(self):
        if not self._room.at:
            raise Failed("stack", Status.INVALID_HANDLE)
        return byref(self._room)

    def __enter__(self) -> Stack:
        return self

    def __exit__(self, *_) -> None:
        self.close()
