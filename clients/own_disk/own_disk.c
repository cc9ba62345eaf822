/* A file is opened: its locks, its size, its partition table, and the stack over it. */
#define _GNU_SOURCE
#define _FILE_OFFSET_BITS 64
#include <errno.h>
#include <fcntl.h>
#include <string.h>
#include <sys/file.h>
#include <unistd.h>

#include "own_disk.h"
#include "target.h"

/* The tools of qemu tell each other what they do with an image by shared locks on single bytes: from byte 100 on
 * what one does, from byte 200 on what it suffers of nobody else. */
#define DOES 100
#define SUFFERS_NOT 200
enum { TO_READ = 0, TO_WRITE = 1, TO_RESIZE = 3 };

static uint64_t
get_32(const uint8_t *at)
{
	return at[0] | (uint64_t) at[1] << 8 | (uint64_t) at[2] << 16 | (uint64_t) at[3] << 24;
}

static void
put_32(uint8_t *at, uint64_t number)
{
	for (int i = 0; i < 4; i++)
		at[i] = number >> (8 * i);
}

/* An MBR with one partition, of all sectors behind the first. */
static void
make_table(uint8_t *sector, uint64_t count)
{
	sector[446 + 4] = 0x83;
	put_32(sector + 446 + 8, 1);
	put_32(sector + 446 + 12, count);
	sector[510] = 0x55;
	sector[511] = 0xAA;
}

/* The entry of a partition, counted from 0 in the used entries of a table. NULL: there is none. */
static const uint8_t *
entry_of(const uint8_t *table, int partition)
{
	for (const uint8_t *entry = table + 446; entry < table + 510; entry += 16)
		if (entry[4] != 0 && partition-- == 0)
			return entry;
	return NULL;
}

/* Locks a byte for as long as the file is open. False where somebody keeps that off. */
static bool
mark(int file, off_t byte)
{
	struct flock lock = {.l_type = F_RDLCK, .l_whence = SEEK_SET, .l_start = byte, .l_len = 1};
	return fcntl(file, F_OFD_SETLK, &lock) == 0 || (errno != EAGAIN && errno != EACCES);
}

/* Has somebody else locked a byte? */
static bool
is_marked(int file, off_t byte)
{
	struct flock lock = {.l_type = F_WRLCK, .l_whence = SEEK_SET, .l_start = byte, .l_len = 1};
	return fcntl(file, F_OFD_GETLK, &lock) == 0 && lock.l_type != F_UNLCK;
}

/* Tells qemu's tools what is done here, and looks at what they do. Where the system has no such locks nobody is kept
 * off. */
static bool
lock_bytes(const struct own_disk *disk)
{
	int file = disk->file;
	if (!mark(file, DOES + TO_READ) || !mark(file, SUFFERS_NOT + TO_WRITE) || !mark(file, SUFFERS_NOT + TO_RESIZE))
		return false;
	if (!disk->read_only && !mark(file, DOES + TO_WRITE))
		return false;
	if (is_marked(file, DOES + TO_WRITE) || is_marked(file, DOES + TO_RESIZE) || is_marked(file, SUFFERS_NOT + TO_READ))
		return false;
	return disk->read_only || !is_marked(file, SUFFERS_NOT + TO_WRITE);
}

/* Opens the file, to be read alone where it can't be written, and locks it. */
static const char *
open_file(struct own_disk *disk, const char *path)
{
	disk->file = open(path, O_RDWR | O_CLOEXEC);
	if (disk->file < 0 && (errno == EACCES || errno == EPERM || errno == EROFS)) {
		disk->file = open(path, O_RDONLY | O_CLOEXEC);
		disk->read_only = true;
	}
	if (disk->file < 0)
		return strerror(errno);
	if (flock(disk->file, LOCK_EX | LOCK_NB) != 0)
		return errno == EWOULDBLOCK ? "it is in use" : strerror(errno);
	return lock_bytes(disk) ? NULL : "it is in use";
}

static bool
read_sector(int file, uint8_t *at, size_t length)
{
	size_t has = 0;
	while (has < length) {
		ssize_t count = pread(file, at + has, length - has, has);
		if (count < 0 && errno == EINTR)
			continue;
		if (count <= 0)
			return false;
		has += count;
	}
	return true;
}

static const char *
find_partition(struct own_disk *disk, int partition, const uint8_t *first)
{
	const uint8_t *entry = entry_of(first, partition);
	if (entry != NULL) {
		disk->start = (uint64_t) get_32(entry + 8) * disk->sector_size;
		disk->size = (uint64_t) get_32(entry + 12) * disk->sector_size;
	}
	return disk->size != 0 ? NULL
		: "it has no such partition: they are counted from 0, and unused entries of the table left out";
}

/* Sector 0 of the disk, and how many sectors it has. A block device tells its size by its end. */
static const char *
look_at(struct own_disk *disk, int partition, uint8_t *first, uint64_t *sectors)
{
	off_t end = lseek(disk->file, 0, SEEK_END);
	if (end < 0)
		return strerror(errno);
	*sectors = (uint64_t) end / disk->sector_size;
	if (*sectors == 0 || end % disk->sector_size != 0)
		return "its size is no number of sectors";
	if (partition < 0) {
		if (*sectors > UINT32_MAX)
			return "it has more sectors than a partition";
		disk->size = end;
		disk->before = disk->sector_size;
		make_table(first, (*sectors)++);
		return NULL;
	}
	if (!read_sector(disk->file, first, disk->sector_size))
		return "its first sector can't be read";
	return find_partition(disk, partition, first);
}

/* Opens the stack, and a handle on the partition. */
static const char *
open_stack(struct own_disk *disk, const struct own_disk_options *options, const uint8_t *first, uint64_t sectors)
{
	struct saddlemug_disk sizes = {.sectors = sectors, .max_transfer = options->transfer, .depth = options->depth,
		.window = OWN_DISK_REQUESTS, .open_requests = OWN_DISK_REQUESTS};
	struct saddlemug_event event = {.kind = SADDLEMUG_OPEN, .partition = options->partition < 0 ? 0 : options->partition};
	struct saddlemug_reply reply;
	uint8_t none = 0;

	if (saddlemug_stack_open_over(&disk->stack, &sizes, first, disk->sector_size) != SADDLEMUG_SUCCESS)
		return "there is no such disk: its sizes or its partition table are wrong";
	if (saddlemug_stack_step(&disk->stack, &event, &none, 0, &reply) != SADDLEMUG_SUCCESS
		|| reply.kind != SADDLEMUG_IS_HANDLE)
		return "its partition can't be opened";
	disk->handle = reply.id;
	return NULL;
}

const char *
own_disk_open(struct own_disk *disk, const char *path, const struct own_disk_options *options)
{
	uint8_t first[4096] = {0};
	uint64_t sectors = 0;
	const char *why;

	*disk = (struct own_disk){.file = -1, .sector_size = options->sector_size, .depth = options->depth,
		.lock = PTHREAD_ADAPTIVE_MUTEX_INITIALIZER_NP, .room = PTHREAD_COND_INITIALIZER, .telling = PTHREAD_COND_INITIALIZER,
		.syncs = {.lock = PTHREAD_MUTEX_INITIALIZER, .ended = PTHREAD_COND_INITIALIZER}};
	if (disk->sector_size != 512 && disk->sector_size != 4096)
		return "a sector has 512 or 4096 bytes";
	if (disk->depth == 0 || disk->depth > OWN_DISK_TAGS)
		return "there are 1 to 32 tags";
	if (strncmp(path, "iscsi://", 8) == 0) {
		why = target_open(disk, path, &sectors, first);
		if (why == NULL)
			why = find_partition(disk, options->partition < 0 ? 0 : options->partition, first);
	} else {
		why = open_file(disk, path);
		if (why == NULL)
			why = look_at(disk, options->partition, first, &sectors);
	}
	if (why == NULL && options->trace != NULL)
		why = own_disk_trace_open(&disk->trace, options->trace);
	if (why == NULL)
		why = open_stack(disk, options, first, sectors);
	if (why != NULL)
		own_disk_close(disk);
	return why;
}

void
own_disk_close(struct own_disk *disk)
{
	if (disk->stack.at != NULL)
		saddlemug_stack_close(&disk->stack);
	disk->stack.at = NULL;
	if (disk->target != NULL)
		target_close(disk->target);
	disk->target = NULL;
	own_disk_trace_close(&disk->trace);
	if (disk->file >= 0)
		close(disk->file);
	disk->file = -1;
}
