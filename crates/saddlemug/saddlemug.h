/* The static library of the crate `saddlemug`: a disk behind the proved storage stack, for C, in memory or over storage of
 * the program's own.
 *
 * Link libsaddlemug.a, and behind one that isn't installed the toolchain's c/liblibc_c.a, through which the library calls `malloc`, `realloc` and
 * `free`. The library has no state of its own: what it keeps stands behind a room that the caller owns. One room is used by
 * one call at a time, on one thread; rooms do not share anything. No call may be made from a signal handler.
 *
 * What is checked: the calls that open and close look at their pointers and at the room, and so do the two that tell and book
 * commands (`saddlemug_stack_armed`, `saddlemug_stack_book`). Where a pointer is null, or the room to open into isn't empty, they
 * answer INVALID_PARAMETER; to close an empty room, or none, does nothing. Nothing else is checked: a room that another call
 * takes has to hold what the call says, each pointer has to point to as many bytes as its length says (it is not null, also for
 * a length of 0), and no two of them may overlap. For the calls of the library themselves, by which these go, that holds too:
 * saddlemug_open_into, saddlemug_close_full and the like check nothing.
 *
 * A status is an NTSTATUS as `ntstatus.h` has it: 0 for success, and else one of these.
 */
#ifndef SADDLEMUG_H
#define SADDLEMUG_H

#include <stdbool.h>
#include <stddef.h>
#include <stdint.h>
#include <string.h>

#ifdef __cplusplus
extern "C" {
#endif

#define SADDLEMUG_SUCCESS UINT32_C(0x00000000)
#define SADDLEMUG_DEVICE_BUSY UINT32_C(0x80000011)
#define SADDLEMUG_INVALID_HANDLE UINT32_C(0xC0000008)
#define SADDLEMUG_INVALID_PARAMETER UINT32_C(0xC000000D)
#define SADDLEMUG_NO_SUCH_DEVICE UINT32_C(0xC000000E)
#define SADDLEMUG_INVALID_DEVICE_REQUEST UINT32_C(0xC0000010)
#define SADDLEMUG_NONEXISTENT_SECTOR UINT32_C(0xC0000015)
#define SADDLEMUG_DELETE_PENDING UINT32_C(0xC0000056)
#define SADDLEMUG_INSUFFICIENT_RESOURCES UINT32_C(0xC000009A)
#define SADDLEMUG_DEVICE_DATA_ERROR UINT32_C(0xC000009C)
#define SADDLEMUG_MEDIA_WRITE_PROTECTED UINT32_C(0xC00000A2)
#define SADDLEMUG_DEVICE_NOT_READY UINT32_C(0xC00000A3)
#define SADDLEMUG_CANCELLED UINT32_C(0xC0000120)
#define SADDLEMUG_IO_DEVICE_ERROR UINT32_C(0xC0000185)
#define SADDLEMUG_NOT_FOUND UINT32_C(0xC0000225)

/* VERSIONS: a byte for each of the three numbers, the first on the left. This header is of 0.2.1.
 *
 * A program compiled over this header runs over each shared library of its soname, libsaddlemug.so.0, that is no older: the
 * numbers, the structs with their sizes and places, and what the calls take and answer stay as they are. New calls may come, and
 * new numbers at the end of an enum; then the last of the three numbers rises, or the second. Whatever else changes raises the
 * soname's number, and that is the first of the three. The inline functions here are compiled into the program. */
#define SADDLEMUG_VERSION UINT32_C(0x000201)

/* The version of the library that is linked or loaded. */
uint32_t saddlemug_version(void);

/* The status's name as `ntstatus.h` has it, without STATUS_, of 24 bytes at most and without a zero at its end: as much of it as
 * `length` says goes into the buffer. Answers how long the name is: 0 where no status of this library has the number. */
uint64_t saddlemug_status_word(uint32_t status, uint8_t *buffer, size_t length);

/* Room for a name, with its zero. */
#define SADDLEMUG_NAME_ROOM 32

/* The name with STATUS_, in the caller's room, which is answered; or words for a status without a name. */
static inline const char *
saddlemug_status_name(uint32_t status, char room[SADDLEMUG_NAME_ROOM])
{
	static const char prefix[] = "STATUS_", none[] = "a status without a name";
	uint64_t length;
	memcpy(room, prefix, sizeof prefix);
	length = saddlemug_status_word(status, (uint8_t *) room + 7, SADDLEMUG_NAME_ROOM - 8);
	if (length == 0)
		memcpy(room, none, sizeof none);
	else
		room[7 + (length < SADDLEMUG_NAME_ROOM - 8 ? length : SADDLEMUG_NAME_ROOM - 8)] = 0;
	return room;
}

/* VOLUMES: one partition as an array of bytes. Each call is carried out whole before it returns. */

/* Room for a volume: zeros before `saddlemug_open` and after `saddlemug_close`. What is in it is the library's alone; it may
 * be moved between two calls, and is never copied. */
struct saddlemug {
	void *at;
};

struct saddlemug_sizes {
	uint64_t sector_size; /* bytes of a sector, 512 or 4096 */
	uint64_t sectors;     /* of the partition, 1 to 2^32 - 1 */
};

/* Opens partition `partition`, counted from 0, of a new disk, into an empty room. `settings` is a TOML document in UTF-8 of
 * `length` bytes (docs/USING.md, "Settings"), which the library does not keep. The disk holds zeros, but for its partition
 * table. The caller ends it by `saddlemug_close`.
 *
 * INVALID_PARAMETER where the text gives no settings, its partitions don't fit the disk, or there is no such partition;
 * INSUFFICIENT_RESOURCES; the status of a command that the disk failed (DEVICE_DATA_ERROR where sector 0 is bad). The room is
 * then still empty. INVALID_PARAMETER also where the room isn't empty, which is then as it was, or a pointer is null. */
uint32_t saddlemug_open_into(struct saddlemug *room, const uint8_t *settings, size_t length, uint8_t partition);

static inline uint32_t
saddlemug_open(struct saddlemug *room, const uint8_t *settings, size_t length, uint8_t partition)
{
	if (room == NULL || room->at != NULL || settings == NULL)
		return SADDLEMUG_INVALID_PARAMETER;
	return saddlemug_open_into(room, settings, length, partition);
}

/* What is wrong with settings, in the words of the programs, as `config: missing key` or `mbr: overlap`, without a zero at the
 * end: as much of it as `room` says goes into the buffer. Answers how long it is: 0 where a stack of the settings can be started,
 * for which one is. A volume of them can then be opened just where they have its partition. No stack can be started of settings
 * with a rule that is `busy` or `delay`, which are for volumes: they are then `config: out of range`. */
uint64_t saddlemug_settings_words(const uint8_t *settings, size_t length, uint8_t *buffer, size_t room);

/* The same with a zero at the end, cut to `room` bytes, of which there is one at least. True where something is wrong; also where
 * a pointer is null. */
static inline bool
saddlemug_settings_fault(const uint8_t *settings, size_t length, char *buffer, size_t room)
{
	static const char none[] = "no settings";
	uint64_t count = sizeof none - 1;
	if (buffer == NULL || room == 0)
		return true;
	if (settings == NULL)
		memcpy(buffer, none, count < room ? count : room - 1);
	else
		count = saddlemug_settings_words(settings, length, (uint8_t *) buffer, room - 1);
	buffer[count < room ? count : room - 1] = 0;
	return count != 0;
}

/* A partition of a disk in memory. */
struct saddlemug_partition {
	uint32_t first; /* its first sector */
	uint32_t count; /* how many sectors it has */
	uint8_t type;   /* the type of its entry in the partition table, 1 to 255 */
};

/* A disk in memory by numbers, in place of a text: what each means stands in docs/USING.md, "Settings". */
struct saddlemug_memory {
	uint64_t sectors;         /* of the disk, 1 to 2^40 */
	uint32_t sector_size;     /* bytes of a sector, 512 or 4096 */
	uint32_t max_transfer;    /* sectors of the longest command, 1 to 65,536 */
	uint32_t depth;           /* tags, 1 to 32 */
	uint32_t window;          /* requests at work at once, 1 to 64 */
	uint32_t open_requests;   /* requests open at once, 1 to 64 */
	uint32_t partition_count; /* 0 to 4: how many of these there are */
	struct saddlemug_partition partitions[4];
	bool write_protected;     /* 0 or 1 */
};

/* As `saddlemug_open`, of such a disk whose sectors `bad` can't be read or written: `count` of them, each below `sectors`. Where
 * there are none, `bad` may be null here, and not in the call below. */
uint32_t saddlemug_memory_open_into(struct saddlemug *room, const struct saddlemug_memory *disk, const uint64_t *bad, size_t count,
	uint8_t partition);

static inline uint32_t
saddlemug_open_memory(struct saddlemug *room, const struct saddlemug_memory *disk, const uint64_t *bad, size_t count, uint8_t partition)
{
	static const uint64_t none = 0;
	if (room == NULL || room->at != NULL || disk == NULL || (bad == NULL && count != 0))
		return SADDLEMUG_INVALID_PARAMETER;
	return saddlemug_memory_open_into(room, disk, bad == NULL ? &none : bad, count, partition);
}

struct saddlemug_sizes saddlemug_sizes(struct saddlemug *volume);

struct saddlemug_run {
	uint64_t count; /* how many bytes are alike */
	bool are_zeros; /* they are known to be zeros, or not known to be */
};

/* Tells how many bytes from byte `offset` of the partition on, at most `count`, are alike. Nothing is asked of the disk. What no
 * write was asked of since the volume was opened is known to be zeros, by parts of 32 KiB; nothing is any more, once memory to note
 * a write was refused. A run that isn't known to be zeros may end before the next zeros, after 128 MiB.
 *
 * No bytes just where these are no whole sectors of the partition, one at least. */
struct saddlemug_run saddlemug_run(struct saddlemug *volume, uint64_t offset, uint64_t count);

/* Reads `length` bytes from byte `offset` of the partition on: whole sectors, at most 65,536 of them. A call of no bytes
 * there succeeds.
 *
 * INVALID_PARAMETER just where they are no whole sectors of the partition, or too many; INSUFFICIENT_RESOURCES where memory
 * for a copy of them was refused; DEVICE_BUSY once 2^62 - 1 requests were made; any other status is the device's. The buffer
 * is then as it was. */
uint32_t saddlemug_read(struct saddlemug *volume, uint64_t offset, uint8_t *buffer, size_t length);

/* Writes them, past volatile caches if `through` (SBC: FUA). The statuses are those of a read. After a status of the device
 * each sector of the write is as it was or was written; after the other three nothing has changed. Nothing else of the disk
 * changes in any case. */
uint32_t saddlemug_write(struct saddlemug *volume, uint64_t offset, const uint8_t *bytes, size_t length, bool through);

/* Flushes the disk's caches (SBC: SYNCHRONIZE CACHE). The statuses are those of a read, but never INVALID_PARAMETER. */
uint32_t saddlemug_flush(struct saddlemug *volume);

/* Ends the volume, and its disk with all bytes. The room is empty then. With an empty room, or none, it does nothing. */
void saddlemug_close_full(struct saddlemug *volume);

static inline void
saddlemug_close(struct saddlemug *volume)
{
	if (volume != NULL && volume->at != NULL)
		saddlemug_close_full(volume);
}

/* STACKS, for test benches and for storage of one's own: calls, adapter steps, cancels, resets and removals one by one. The
 * disk's adapter does nothing by itself: a command acts when it is told to, and its request is answered once its commands
 * were handed back. */

/* Room for a stack, as for a volume: between `saddlemug_stack_open`, or `saddlemug_stack_open_over`, and
 * `saddlemug_stack_close`. All calls below serve both kinds, but for the two that say so. */
struct saddlemug_stack {
	void *at;
};

/* As `saddlemug_open`, but for the partition. INVALID_PARAMETER also where a rule of the settings is `busy` or `delay`: the caller
 * says when a command comes back. */
uint32_t saddlemug_stack_open_into(struct saddlemug_stack *room, const uint8_t *settings, size_t length);

static inline uint32_t
saddlemug_stack_open(struct saddlemug_stack *room, const uint8_t *settings, size_t length)
{
	if (room == NULL || room->at != NULL || settings == NULL)
		return SADDLEMUG_INVALID_PARAMETER;
	return saddlemug_stack_open_into(room, settings, length);
}

/* As `saddlemug_open_memory`, but for the partition. */
uint32_t saddlemug_stack_memory_open_into(struct saddlemug_stack *room, const struct saddlemug_memory *disk, const uint64_t *bad, size_t count);

static inline uint32_t
saddlemug_stack_open_memory(struct saddlemug_stack *room, const struct saddlemug_memory *disk, const uint64_t *bad, size_t count)
{
	static const uint64_t none = 0;
	if (room == NULL || room->at != NULL || disk == NULL || (bad == NULL && count != 0))
		return SADDLEMUG_INVALID_PARAMETER;
	return saddlemug_stack_memory_open_into(room, disk, bad == NULL ? &none : bad, count);
}

/* A handle or an open request. Numbers rise from 1, and none is given twice; a slot is. */
struct saddlemug_id {
	uint64_t number;
	uint32_t slot;
};

enum saddlemug_event_kind {
	SADDLEMUG_OPEN,            /* a handle on `partition`, counted from 0 (IRP_MJ_CREATE) */
	SADDLEMUG_CLOSE,           /* `handle` is closed, and its requests cancelled (IRP_MJ_CLEANUP) */
	SADDLEMUG_READ,            /* of `length` bytes from byte `offset` of the partition of `handle` on */
	SADDLEMUG_WRITE,           /* of the bytes that come with the event, from `offset` on, past volatile caches if `through` */
	SADDLEMUG_FLUSH,           /* of the disk's caches, through `handle` */
	SADDLEMUG_CANCEL_IO_EX,    /* all requests that are open on `handle`, or only `request` if `one` */
	SADDLEMUG_MARK,            /* the open request of the number of `request`, whatever its handle (IoCancelIrp) */
	SADDLEMUG_QUERY_REMOVE,    /* may the disk go? where it may, requests are held from now on */
	SADDLEMUG_CANCEL_REMOVE,   /* the query is taken back, and held requests go on */
	SADDLEMUG_REMOVE,          /* the disk is removed, after a query */
	SADDLEMUG_SURPRISE_REMOVE, /* the disk was pulled out */
	SADDLEMUG_ACT,             /* the adapter carries out, or fails, the command on `tag`, counted from 0 */
	SADDLEMUG_FINISH,          /* the adapter hands the command on `tag` back, whether or not it acted */
	SADDLEMUG_RESET            /* each command that did nothing fails, and each that is out will come back bad */
};

/* What the kind doesn't name above is not read; a bool is 0 or 1 all the same. */
struct saddlemug_event {
	uint32_t kind;
	uint8_t partition;
	uint8_t tag;
	bool through;
	bool one;
	struct saddlemug_id handle;
	struct saddlemug_id request;
	uint64_t offset;
	uint64_t length;
};

enum saddlemug_reply_kind {
	SADDLEMUG_IS_HANDLE,   /* `id` is the new handle */
	SADDLEMUG_IS_DONE,
	SADDLEMUG_IS_REQUEST,  /* `id` is an open request; its answer comes with this step or a later one */
	SADDLEMUG_IS_ANSWERED, /* a request of no bytes, with its `status`, and its number in `id`; it has no other answer */
	SADDLEMUG_IS_REFUSED,  /* `status` says why */
	SADDLEMUG_IS_IGNORED   /* there is nothing to act on, to hand back or to mark */
};

struct saddlemug_reply {
	uint32_t kind;
	uint32_t status;
	struct saddlemug_id id;
};

/* Carries one event out. `bytes` are those of a write, and are not read for others. Labels of the step before that were not
 * taken are let go.
 *
 * A read takes memory for its bytes, and a write for a copy of them, also where it is then refused: for those of 65,536 sectors
 * at most. One of more is made as one of a single byte: it is refused as it would be, by the first that fits of INVALID_HANDLE,
 * DELETE_PENDING and INVALID_PARAMETER, and its label says 1 for its length. No other event takes memory that depends on it.
 *
 * 0 where the event was carried out: `reply` has the reply. INVALID_PARAMETER where there is no such kind,
 * INSUFFICIENT_RESOURCES where memory for the bytes was refused; then nothing has happened, and `reply` is as it was. */
uint32_t saddlemug_stack_step(struct saddlemug_stack *stack, const struct saddlemug_event *event, const uint8_t *bytes, size_t length,
	struct saddlemug_reply *reply);

enum saddlemug_label_kind {
	SADDLEMUG_CALLED,    /* call `number`, of the request that follows; with the bytes of a write that was taken in */
	SADDLEMUG_STARTED,   /* a piece went to the adapter on `tag`; with its command block, of ten or sixteen bytes */
	SADDLEMUG_ACTED,     /* a piece was carried out; with the bytes that it read or wrote */
	SADDLEMUG_FAULTED,   /* a piece will never be carried out */
	SADDLEMUG_RETURNED,  /* a piece came back, of this `class` */
	SADDLEMUG_ANSWERED,  /* request `number` ended: `status`, `information`; with the bytes of a read that succeeded */
	SADDLEMUG_CANCELLED_REQUEST, /* the cancel flag of request `number` was set */
	SADDLEMUG_PAUSED,
	SADDLEMUG_RESUMED,
	SADDLEMUG_REMOVING,
	SADDLEMUG_SURPRISED,
	SADDLEMUG_REMOVED    /* the removal has ended: nothing is open */
};

/* How a command failed. */
struct saddlemug_completion {
	uint8_t srb_status;  /* WDK: SRB_STATUS. 0x84 for an error with sense data; its low six bits are neither success (1) nor busy (5) */
	uint8_t scsi_status; /* SAM: STATUS. 2, CHECK CONDITION, where there are sense data */
	bool has_sense;
	uint8_t key;         /* SPC: the sense key, the additional sense code and its qualifier */
	uint8_t asc;
	uint8_t ascq;
};

/* What a step did. What the kind doesn't name is 0. */
struct saddlemug_label {
	uint32_t kind;
	uint32_t status;
	uint64_t number;
	uint64_t information; /* bytes that the request moved */
	uint64_t piece_low;   /* a piece's number has 128 bits */
	uint64_t piece_high;
	uint32_t tag;
	uint32_t class_;      /* 0 good: carried out; 1 busy: not carried out; 2 bad: failed */
	uint32_t request;     /* of a call: 0 read, 1 write, 2 flush */
	uint32_t partition;   /* of a call, counted from 1; 0 where its handle isn't open */
	uint64_t offset;      /* of a call, in bytes */
	uint64_t length;      /* of a call, in bytes */
	uint32_t through;     /* of a call: 1 for a write-through */
	struct saddlemug_completion completion; /* of a piece that came back bad */
	uint64_t bytes;       /* how many bytes come with it, also where the buffer is shorter */
};

/* Takes the earliest label of the last step that was not taken yet. Its bytes go into the buffer, as many as `length` says at
 * most. False where there is none: then label and buffer are as they were. */
bool saddlemug_stack_take_label(struct saddlemug_stack *stack, struct saddlemug_label *label, uint8_t *buffer, size_t length);

struct saddlemug_answer {
	uint64_t number;
	uint64_t information; /* bytes that the request moved */
	uint32_t status;
	uint64_t bytes;       /* as of a label: those of a read that succeeded */
};

/* Tells the waiting answer of the lowest number, which goes on waiting: how many bytes it has says how much room the next call
 * wants. False where there is none: then the answer is as it was. */
bool saddlemug_stack_first_answer(struct saddlemug_stack *stack, struct saddlemug_answer *answer);

/* Takes the waiting answer of the lowest number, in the same way as a label. Answers wait from step to step. */
bool saddlemug_stack_take_answer(struct saddlemug_stack *stack, struct saddlemug_answer *answer, uint8_t *buffer, size_t length);

/* Takes the waiting answer of the request of this number, in the same way. False where it has none that waits: it is open, or
 * its answer was taken, or came with its call. A step's label SADDLEMUG_ANSWERED tells number, status and `bytes` of an answer that
 * waits from then on, with a buffer of no bytes too: so the answer can go straight to where its request wants it. */
bool saddlemug_stack_take_answer_of(struct saddlemug_stack *stack, uint64_t number, struct saddlemug_answer *answer, uint8_t *buffer,
	size_t length);

/* Ends the stack, and its disk in memory with all bytes. The room is empty then. With an empty room, or none, it does nothing. */
void saddlemug_stack_close_full(struct saddlemug_stack *stack);

static inline void
saddlemug_stack_close(struct saddlemug_stack *stack)
{
	if (stack != NULL && stack->at != NULL)
		saddlemug_stack_close_full(stack);
}

/* STACKS OVER STORAGE OF ONE'S OWN: the sectors stand where the program keeps them, and the library has none of them but a
 * copy of the first. For each command at the adapter the program asks what it is (`saddlemug_stack_armed`), moves the bytes
 * by itself, and tells what became of it (`saddlemug_stack_book`). The command then acts (SADDLEMUG_ACT), which does just
 * that, and is handed back (SADDLEMUG_FINISH). A command that acts with nothing booked fails with HARDWARE ERROR.
 *
 * The bytes of a command may be moved in any order, and on any threads of the program's own, also while the library is called on
 * that stack: for other commands, and for all else. A command's place stays where it is, with its bytes, until that command was
 * booked, another command on its tag was told, or the stack is closed; no other call touches it. So a thread that moves the bytes
 * has to have ended before one of these three. The calls themselves are made as all others: one at a time on a room.
 *
 * The last two answer INVALID_HANDLE where the room is empty.
 *
 * LOSS OF POWER. Where the program's storage keeps the promises below, docs/DEFINITIONS.md ("Loss of power") says what a loss leaves:
 * a write that was answered SUCCESS stays until its sectors are written again, if it was write-through, or if a flush that was
 * called behind its answer was answered SUCCESS, and no flush or write-through failed between. Nothing in the library checks them.
 * A sync is what brings to the medium all that was written before it began; a command has started once its label SADDLEMUG_STARTED
 * came, and is told by its SADDLEMUG_ACT.
 *
 * - Each sector is whole: it has what it had, or all that one write has for it. A write that fails, or is out when the process ends,
 *   may have written any of its sectors.
 * - Of two commands that share a sector, one of them a write, the second is moved once the first was told.
 * - A flush is booked as done where a sync that began behind its start succeeded; a write-through where its bytes were moved, and then
 *   such a sync succeeded. So a flush makes certain what had acted when it started, and perhaps no more.
 * - Where a sync fails, what it was to bring may be gone, at once or later, and later syncs don't bring it. A system may say so once,
 *   to one caller (Linux: once for each open file). That failure concerns each piece that it may have lost. So each flush and
 *   write-through that started before the failure was told, and whose own sync ended behind it, is booked as failed (HARDWARE ERROR),
 *   whatever that sync said; a plain write whose bytes were moved before the failed sync ended, and that is not told yet, is moved once
 *   more; and a read is told behind the failure.
 * - Until a sync said that it failed, a read brings what was written last. At an end of the process alone, all that was moved stays. */

struct saddlemug_disk {
	uint64_t sectors;       /* of the disk, 1 to 2^40 */
	uint32_t max_transfer;  /* sectors of the longest command, 1 to 65,536 */
	uint32_t depth;         /* tags, 1 to 32: the commands that can be out at once */
	uint32_t window;        /* requests at work at once, 1 to 64 */
	uint32_t open_requests; /* requests open at once, 1 to 64 */
};

/* Opens a stack over a disk of the program's into an empty room. `first` is sector 0 of that disk, with its partition table
 * (an MBR); its `length` is that of a sector, 512 or 4096. Neither is kept. Nothing of the disk is read or written, now or
 * later: whether it has these sectors is the program's to know. The caller ends the stack by `saddlemug_stack_close`.
 *
 * INVALID_PARAMETER where a number is out of its range, sector 0 has no partition table of such a disk, or the room isn't
 * empty; INSUFFICIENT_RESOURCES. The room is then as it was. */
uint32_t saddlemug_over_open(struct saddlemug_stack *room, const struct saddlemug_disk *disk, const uint8_t *first, size_t length);

static inline uint32_t
saddlemug_stack_open_over(struct saddlemug_stack *room, const struct saddlemug_disk *disk, const uint8_t *first, size_t length)
{
	if (room == NULL || room->at != NULL || disk == NULL || first == NULL)
		return SADDLEMUG_INVALID_PARAMETER;
	return saddlemug_over_open(room, disk, first, length);
}

enum saddlemug_asked_kind {
	SADDLEMUG_ASKS_TO_READ,
	SADDLEMUG_ASKS_TO_WRITE,
	SADDLEMUG_ASKS_TO_FLUSH,
	SADDLEMUG_ASKS_OTHERWISE /* no command that a stack sends once it was opened */
};

/* What a command block asks for. */
struct saddlemug_asked {
	uint32_t kind;
	uint32_t through; /* 1 where it goes past volatile caches (SBC: FUA) */
	uint64_t first;   /* its first sector, of the disk and not of a partition */
	uint64_t count;   /* how many sectors; of a flush 0 is all from the first on */
};

/* A command at the adapter that could act. */
struct saddlemug_armed {
	uint64_t piece_low; /* its number has 128 bits; no number is given twice */
	uint64_t piece_high;
	struct saddlemug_asked asked;
	uint8_t *bytes;     /* where its bytes stand: those that a write sends, or the room for those that a read brings */
	uint64_t length;    /* how many; 0 of a flush, whose `bytes` are not to be followed */
	uint32_t block_length;
	uint8_t block[16];  /* its command block, of ten or sixteen bytes, and zeros */
};

/* Tells the command on `tag`, counted from 0, that could act.
 *
 * The bytes stand in memory of the library. The program reads those of a write there, and writes those of a read there, until
 * they are booked; told again before that, the command has the same bytes at the same place. They are the library's again
 * once the command was booked, its tag has another command that was told, as it may have after a reset, or the stack is closed.
 * No call but these changes or moves them.
 *
 * NOT_FOUND where no command on the tag could act; INSUFFICIENT_RESOURCES where memory for the bytes was refused;
 * INVALID_DEVICE_REQUEST on a stack of `saddlemug_stack_open`. `armed` is then as it was, and nothing has changed. */
uint32_t saddlemug_over_armed(struct saddlemug_stack *stack, uint8_t tag, struct saddlemug_armed *armed);

static inline uint32_t
saddlemug_stack_armed(struct saddlemug_stack *stack, uint8_t tag, struct saddlemug_armed *armed)
{
	if (stack == NULL || armed == NULL)
		return SADDLEMUG_INVALID_PARAMETER;
	return stack->at == NULL ? SADDLEMUG_INVALID_HANDLE : saddlemug_over_armed(stack, tag, armed);
}

/* What became of a command. A bool is 0 or 1 in each case. */
struct saddlemug_booking {
	uint64_t piece_low; /* as it was told */
	uint64_t piece_high;
	uint64_t length;    /* how many bytes were moved, all of them; not read of a failure */
	uint8_t tag;
	bool failed;
	struct saddlemug_completion completion; /* of a failure; not read otherwise */
};

/* Books what became of a command that was told: its bytes were moved, those of a read stand in its place; or it failed. Its
 * next act is just that. It takes no memory. Where the tag's command never acts, as after a reset, nothing comes of it.
 *
 * NOT_FOUND where the command on the tag is another or could not act, or was not told since it was last booked, so that a
 * command is booked once each time that it is told; INVALID_PARAMETER where `length` is not that of the command, the bytes
 * of a write are no more those that it sends, or the completion is good or busy; INVALID_DEVICE_REQUEST on a stack of
 * `saddlemug_stack_open`. Nothing has changed then. */
uint32_t saddlemug_over_book(struct saddlemug_stack *stack, const struct saddlemug_booking *booking);

static inline uint32_t
saddlemug_stack_book(struct saddlemug_stack *stack, const struct saddlemug_booking *booking)
{
	if (stack == NULL || booking == NULL)
		return SADDLEMUG_INVALID_PARAMETER;
	return stack->at == NULL ? SADDLEMUG_INVALID_HANDLE : saddlemug_over_book(stack, booking);
}

/* JUDGES, for test benches: the labels of a run are judged as they come, be they of this stack or of another that says what it
 * did in the same terms. A judge follows the machine of docs/DEFINITIONS.md over the settings' disk, which holds zeros. */

/* The line of a label, as docs/TRACES.md has it, with a line feed and without a zero at its end: as much of it as `room` says goes
 * into the buffer. `length` bytes come with the label; its own `bytes`, and what its kind doesn't name, are not read. Answers how
 * long the line is: 0 where there is no such label (no such kind, status or class, a partition above 256, a tag above 255, a
 * command block above 16 bytes), or memory was refused. */
uint64_t saddlemug_label_words(const struct saddlemug_label *label, const uint8_t *bytes, size_t length, uint8_t *buffer, size_t room);

/* The same with a zero in place of the line feed, cut to `room` bytes, of which there is one at least. Answers how long the whole
 * line is without it; 0 also where a pointer is null. */
static inline uint64_t
saddlemug_label_line(const struct saddlemug_label *label, const uint8_t *bytes, size_t length, char *buffer, size_t room)
{
	static const uint8_t none = 0;
	uint64_t count;
	if (buffer == NULL || room == 0)
		return 0;
	buffer[0] = 0;
	if (label == NULL || (bytes == NULL && length != 0))
		return 0;
	count = saddlemug_label_words(label, bytes == NULL ? &none : bytes, length, (uint8_t *) buffer, room);
	if (count == 0)
		return 0;
	buffer[count <= room ? count - 1 : room - 1] = 0;
	return count - 1;
}

/* Room for a judge, as for a volume: between `saddlemug_judge_open` and `saddlemug_judge_close`. */
struct saddlemug_judge {
	void *at;
};

/* Opens a judge of the stack of these settings, before its first label. The statuses are those of `saddlemug_stack_open`, but
 * no rule is refused. */
uint32_t saddlemug_judge_open_into(struct saddlemug_judge *room, const uint8_t *settings, size_t length);

static inline uint32_t
saddlemug_judge_open(struct saddlemug_judge *room, const uint8_t *settings, size_t length)
{
	if (room == NULL || room->at != NULL || settings == NULL)
		return SADDLEMUG_INVALID_PARAMETER;
	return saddlemug_judge_open_into(room, settings, length);
}

/* Why a judge doesn't take what it is told. The numbers stay; a rule has one from 101 on, with hundreds by what it is asked of: 1 the
 * answer that a refused call is owed, 2 a call, 3 a start, 4 an act, 5 a return, 6 an answer, 7 a cancel, 8 a removal. */
enum saddlemug_refusal {
	SADDLEMUG_TAKEN,
	SADDLEMUG_NO_LINE,      /* the text is no line of a trace */
	SADDLEMUG_NO_PARTITION, /* a call in a partition that the settings don't have */
	SADDLEMUG_NO_MEMORY,    /* there is no verdict, now or later */
	SADDLEMUG_TOO_MANY,     /* nor here: more than 1,024 requests might have made the starts; a line can name the request of each */
	SADDLEMUG_NO_LABEL,     /* as of `saddlemug_label_words` */
	SADDLEMUG_FIRST_RULE = 101
};

/* Tells the judge a label, with `length` bytes, all that come with it. 0 where it is taken: what was taken and this is a run then.
 * Else the number of why it isn't, as above; with a rule no run goes on by this label. Where there still is a verdict the judge is
 * as it was, and goes on. */
uint32_t saddlemug_judge_take(struct saddlemug_judge *judge, const struct saddlemug_label *label, const uint8_t *bytes, size_t length);

/* The same of a line, `length` bytes without a line feed. One that is empty, or begins with #, is taken and tells nothing. */
uint32_t saddlemug_judge_take_line(struct saddlemug_judge *judge, const uint8_t *line, size_t length);

/* The sentence that says why what was told last wasn't taken, in the words of `stackjudge`, without a zero at the end: as much of it
 * as `room` says goes into the buffer. Answers how long it is: 0 where it was taken. */
uint64_t saddlemug_judge_words(struct saddlemug_judge *judge, uint8_t *buffer, size_t room);

/* The same with a zero at the end, cut to `room` bytes, of which there is one at least. True where something wasn't taken; also
 * where a pointer is null, or the room of the judge is empty. */
static inline bool
saddlemug_judge_why(struct saddlemug_judge *judge, char *buffer, size_t room)
{
	uint64_t count;
	if (buffer == NULL || room == 0)
		return true;
	buffer[0] = 0;
	if (judge == NULL || judge->at == NULL)
		return true;
	count = saddlemug_judge_words(judge, (uint8_t *) buffer, room - 1);
	buffer[count < room ? count : room - 1] = 0;
	return count != 0;
}

/* Does what was taken, which is to be all of a step, leave nothing undone: no answer that is owed, no piece that a stack would have
 * sent? */
bool saddlemug_judge_settled(struct saddlemug_judge *judge);

/* Ends the judge. The room is empty then. With an empty room, or none, it does nothing. */
void saddlemug_judge_close_full(struct saddlemug_judge *judge);

static inline void
saddlemug_judge_close(struct saddlemug_judge *judge)
{
	if (judge != NULL && judge->at != NULL)
		saddlemug_judge_close_full(judge);
}

#ifdef __cplusplus
}
#endif

#endif
