/* The bytes of one command, between its place and the file. */
#define _GNU_SOURCE
#define _FILE_OFFSET_BITS 64
#include <errno.h>
#include <string.h>
#include <unistd.h>

#include "own_disk.h"

/* Bytes of a block of a file. A hole is made of whole ones. */
#define BLOCK 4096

/* Fails with sense data. SPC: 3 MEDIUM ERROR, 4 HARDWARE ERROR, 5 ILLEGAL REQUEST, 7 DATA PROTECT. */
static void
fail(struct own_disk_move *move, uint8_t key, uint8_t asc, uint8_t ascq)
{
	move->booking.failed = true;
	move->booking.completion = (struct saddlemug_completion){
		.srb_status = 0x84, .scsi_status = 2, .has_sense = true, .key = key, .asc = asc, .ascq = ascq};
}

/* All bytes, also where a call reads fewer. The file's end is an error: the disk has sectors there. */
static bool
read_all(int file, uint8_t *at, uint64_t length, uint64_t offset)
{
	while (length > 0) {
		ssize_t count = pread(file, at, length, offset);
		if (count < 0 && errno == EINTR)
			continue;
		if (count <= 0)
			return false;
		at += count;
		offset += count;
		length -= count;
	}
	return true;
}

/* All bytes. 0, or the number of the error. */
static int
write_all(int file, const uint8_t *at, uint64_t length, uint64_t offset)
{
	while (length > 0) {
		ssize_t count = pwrite(file, at, length, offset);
		if (count < 0 && errno == EINTR)
			continue;
		if (count <= 0)
			return count < 0 ? errno : EIO;
		at += count;
		offset += count;
		length -= count;
	}
	return 0;
}

static bool
is_zero(const uint8_t *at, uint64_t length)
{
	return at[0] == 0 && memcmp(at, at + 1, length - 1) == 0;
}

/* How many of the bytes that begin here, of a file at this offset, are in blocks of zeros, if the first is, or else
 * in others. */
static uint64_t
run_of(const uint8_t *at, uint64_t length, uint64_t offset, bool *zeros)
{
	uint64_t count = 0;
	while (count < length) {
		uint64_t block = BLOCK - (offset + count) % BLOCK;
		if (block > length - count)
			block = length - count;
		bool is = is_zero(at + count, block);
		if (count > 0 && is != *zeros)
			break;
		*zeros = is;
		count += block;
	}
	return count;
}

/* How many of so many bytes are in a hole of the file, from the first on. A system may tell a hole where it is just
 * writing bytes out (seen of ext4, once in an hour of writes and syncs): so they have to be read as zeros too. */
static uint64_t
hole_of(int file, uint64_t length, uint64_t offset)
{
	uint8_t bytes[BLOCK];
	off_t data = lseek(file, offset, SEEK_DATA);
	if (data < 0 && errno == ENXIO)
		data = lseek(file, 0, SEEK_END);
	if (data < 0 || (uint64_t) data <= offset)
		return 0;
	if ((uint64_t) data - offset < length)
		length = (uint64_t) data - offset;
	for (uint64_t at = 0; at < length; at += BLOCK) {
		uint64_t count = length - at < BLOCK ? length - at : BLOCK;
		if (!read_all(file, bytes, count, offset + at) || !is_zero(bytes, count))
			return at;
	}
	return length;
}

uint64_t
own_disk_extent(const struct own_disk *disk, uint64_t offset, uint64_t length, bool *is_hole)
{
	*is_hole = false;
	if (disk->target != NULL)
		return length;
	offset += disk->start;
	uint64_t hole = hole_of(disk->file, length, offset);
	if (hole > 0) {
		*is_hole = true;
		return hole;
	}
	off_t end = lseek(disk->file, offset, SEEK_HOLE);
	return end > (off_t) offset && (uint64_t) end - offset < length ? end - offset : length;
}

/* All bytes, but for zeros where the file has a hole. 0, or the number of the error. */
static int
write_sparse(int file, const uint8_t *at, uint64_t length, uint64_t offset)
{
	while (length > 0) {
		bool zeros = false;
		uint64_t count = run_of(at, length, offset, &zeros);
		uint64_t hole = zeros ? hole_of(file, count, offset) : 0;
		int error = hole > 0 ? 0 : write_all(file, at, count, offset);
		if (error != 0)
			return error;
		if (hole > 0)
			count = hole;
		at += count;
		offset += count;
		length -= count;
	}
	return 0;
}

uint64_t
own_disk_failed(struct own_disk *disk)
{
	pthread_mutex_lock(&disk->syncs.lock);
	uint64_t failed = disk->syncs.failed;
	pthread_mutex_unlock(&disk->syncs.lock);
	return failed;
}

/* Syncs the file: by a sync that begins behind this call, one for all who wait. The system tells an error once, to
 * whoever syncs: so each sync that failed is also this command's own, unless it was told before the command went out. */
static bool
sync_file(struct own_disk *disk, struct own_disk_move *move)
{
	struct own_disk_syncs *syncs = &disk->syncs;
	pthread_mutex_lock(&syncs->lock);
	uint64_t needed = syncs->started + 1;
	while (syncs->finished < needed) {
		if (syncs->started > syncs->finished) {
			pthread_cond_wait(&syncs->ended, &syncs->lock);
			continue;
		}
		syncs->started++;
		pthread_mutex_unlock(&syncs->lock);
		bool failed = fdatasync(disk->file) != 0;
		pthread_mutex_lock(&syncs->lock);
		syncs->finished = syncs->started;
		if (failed)
			syncs->failed = syncs->finished;
		pthread_cond_broadcast(&syncs->ended);
	}
	move->failed_by = syncs->failed > move->failure ? syncs->failed : 0;
	pthread_mutex_unlock(&syncs->lock);
	return move->failed_by == 0;
}

static void
write_bytes(struct own_disk *disk, struct own_disk_move *move, uint64_t offset)
{
	if (disk->read_only) {
		fail(move, 7, 0x27, 0); /* WRITE PROTECTED */
		return;
	}
	move->began = own_disk_failed(disk);
	int error = write_sparse(disk->file, move->armed.bytes, move->armed.length, offset);
	if (error == ENOSPC || error == EDQUOT)
		fail(move, 7, 0x27, 7); /* SPACE ALLOCATION FAILED WRITE PROTECT */
	else if (error != 0)
		fail(move, 3, 0x0C, 0); /* WRITE ERROR */
	else if (move->armed.asked.through && !sync_file(disk, move))
		fail(move, 4, 0, 0);
}

void
own_disk_move_bytes(struct own_disk *disk, struct own_disk_move *move)
{
	const struct saddlemug_asked *asked = &move->armed.asked;
	uint64_t offset = asked->first * disk->sector_size - disk->before;

	switch (asked->kind) {
	case SADDLEMUG_ASKS_TO_READ:
		if (!read_all(disk->file, move->armed.bytes, move->armed.length, offset))
			fail(move, 3, 0x11, 0); /* UNRECOVERED READ ERROR */
		break;
	case SADDLEMUG_ASKS_TO_WRITE:
		write_bytes(disk, move, offset);
		break;
	case SADDLEMUG_ASKS_TO_FLUSH:
		if (!sync_file(disk, move))
			fail(move, 4, 0, 0);
		break;
	default:
		fail(move, 5, 0x20, 0); /* INVALID COMMAND OPERATION CODE */
	}
}
