/* An nbdkit plugin over the static library: nbdkit ./saddlemug.so size=256M [sector=512] [transfer=128], or nbdkit
 * ./saddlemug.so settings=FILE [partition=0], for a disk in memory; or nbdkit ./saddlemug.so file=IMAGE
 * [partition=0] [sector=512] [transfer=2048], for a raw image file or a block device. Or nbdkit ./saddlemug.so
 * iscsi=URL [partition=0] [transfer=2048], for a target. Partitions count from 0. Over a file or a target requests run
 * side by side, and trace=FILE has the labels of the stack. */
#include <errno.h>
#include <inttypes.h>
#include <malloc.h>
#include <stdio.h>
#include <stdlib.h>
#include <string.h>

#define NBDKIT_API_VERSION 2
#include <nbdkit-plugin.h>

#include "descriptors.h"
#include "own_disk.h"

/* Over a file; a volume in memory is used by one thread at a time. */
#define THREAD_MODEL NBDKIT_THREAD_MODEL_PARALLEL

/* Sectors of the longest request that the library takes. */
#define LONGEST 65536

/* What was given; 0 or NULL: nothing. */
static int64_t size;
static uint32_t sector, transfer;
static char *settings_file, *image_file, *trace_file;
static uint8_t partition;
static bool has_partition, is_target;

/* The one or the other. */
static struct saddlemug volume;
static struct own_disk image = {.file = -1};

static struct saddlemug_sizes sizes;
static bool read_only;

/* A request takes memory for copies of its bytes, and gives it back: keep that memory in the process, for all
 * threads. */
static void
load(void)
{
	if (!take_descriptors())
		exit(EXIT_FAILURE);
	mallopt(M_MMAP_THRESHOLD, 1 << 30);
	mallopt(M_TRIM_THRESHOLD, 1 << 30);
	mallopt(M_TOP_PAD, 64 << 20);
	mallopt(M_ARENA_MAX, 1);
}

static int
is_given(const char *key, uint64_t number)
{
	if (number != 0)
		return 0;
	nbdkit_error("%s=0 is no %s", key, key);
	return -1;
}

static int
is_sector(uint32_t bytes)
{
	if (bytes == 512 || bytes == 4096)
		return 0;
	nbdkit_error("sector=%" PRIu32 ", and it is 512 or 4096", bytes);
	return -1;
}

static int
is_transfer(uint32_t sectors)
{
	if (sectors >= 1 && sectors <= 65536)
		return 0;
	nbdkit_error("transfer=%" PRIu32 ", and it is 1 to 65536", sectors);
	return -1;
}

static int
config(const char *key, const char *value)
{
	if (strcmp(key, "size") == 0) {
		size = nbdkit_parse_size(value);
		return size < 0 ? -1 : is_given(key, size);
	}
	if (strcmp(key, "sector") == 0)
		return nbdkit_parse_uint32_t(key, value, &sector) != 0 ? -1 : is_sector(sector);
	if (strcmp(key, "transfer") == 0)
		return nbdkit_parse_uint32_t(key, value, &transfer) != 0 ? -1 : is_transfer(transfer);
	if (strcmp(key, "settings") == 0) {
		free(settings_file);
		settings_file = nbdkit_realpath(value);
		return settings_file == NULL ? -1 : 0;
	}
	if (strcmp(key, "file") == 0) {
		free(image_file);
		image_file = nbdkit_realpath(value);
		return image_file == NULL ? -1 : 0;
	}
	if (strcmp(key, "iscsi") == 0) {
		free(image_file);
		image_file = strdup(value);
		is_target = true;
		return image_file == NULL ? -1 : 0;
	}
	if (strcmp(key, "trace") == 0) {
		free(trace_file);
		trace_file = nbdkit_absolute_path(value);
		return trace_file == NULL ? -1 : 0;
	}
	if (strcmp(key, "partition") == 0) {
		has_partition = true;
		return nbdkit_parse_uint8_t(key, value, &partition);
	}
	nbdkit_error("unknown parameter '%s'", key);
	return -1;
}

/* A file brings its size, settings bring all sizes, and a disk of a size is one partition. */
static int
config_complete(void)
{
	const char *beside = NULL;
	if (image_file != NULL)
		beside = settings_file != NULL ? "settings" : size != 0 ? "size" : is_target && sector != 0 ? "sector" : NULL;
	else if (settings_file != NULL)
		beside = size != 0 ? "size" : sector != 0 ? "sector" : transfer != 0 ? "transfer" : NULL;
	if (beside != NULL) {
		nbdkit_error("%s is not for a disk with %s", beside, is_target ? "iscsi" : image_file != NULL ? "file" : "settings");
		return -1;
	}
	if (has_partition && image_file == NULL && settings_file == NULL) {
		nbdkit_error("partition is for a disk with file or settings");
		return -1;
	}
	if (trace_file != NULL && image_file == NULL) {
		nbdkit_error("trace is for a disk with file or iscsi");
		return -1;
	}
	if (sector == 0)
		sector = 512;
	return 0;
}

static void
dump_plugin(void)
{
#ifdef WITH_ISCSI
	puts("iscsi=yes");
#else
	puts("iscsi=no");
#endif
}

static int
thread_model(void)
{
	return image_file != NULL ? NBDKIT_THREAD_MODEL_PARALLEL : NBDKIT_THREAD_MODEL_SERIALIZE_ALL_REQUESTS;
}

/* Is the volume write protected? Its first sector is written as it is. */
static bool
is_protected(void)
{
	uint8_t bytes[4096];
	uint32_t status = saddlemug_read(&volume, 0, bytes, sizes.sector_size);
	return status == SADDLEMUG_SUCCESS
		&& saddlemug_write(&volume, 0, bytes, sizes.sector_size, false) == SADDLEMUG_MEDIA_WRITE_PROTECTED;
}

static int
open_with(const char *text, size_t length)
{
	uint32_t status = saddlemug_open(&volume, (const uint8_t *) text, length, partition);
	if (status != SADDLEMUG_SUCCESS) {
		char name[SADDLEMUG_NAME_ROOM], why[64];
		bool faulty = saddlemug_settings_fault((const uint8_t *) text, length, why, sizeof why);
		const char *otherwise = status == SADDLEMUG_INVALID_PARAMETER ? "no such partition; partitions count from 0" : "no disk";
		nbdkit_error("saddlemug_open: %s: %s", saddlemug_status_name(status, name), faulty ? why : otherwise);
		return -1;
	}
	sizes = saddlemug_sizes(&volume);
	read_only = settings_file != NULL && is_protected();
	return 0;
}

static int
open_with_file(void)
{
	static char text[1 << 20];
	FILE *file = fopen(settings_file, "rb");
	if (file == NULL) {
		nbdkit_error("%s: %m", settings_file);
		return -1;
	}
	size_t length = fread(text, 1, sizeof text, file);
	int failed = ferror(file) || !feof(file);
	fclose(file);
	if (failed) {
		nbdkit_error("%s can't be read, or is above a megabyte", settings_file);
		return -1;
	}
	return open_with(text, length);
}

/* A file without a partition is one as a whole. */
static int
open_image(void)
{
	struct own_disk_options options = {.sector_size = sector, .transfer = transfer != 0 ? transfer : 2048,
		.depth = OWN_DISK_TAGS, .partition = has_partition ? partition : -1, .trace = trace_file};
	const char *why = own_disk_open(&image, image_file, &options);
	if (why != NULL) {
		nbdkit_error("%s: %s", image_file, why);
		return -1;
	}
	sizes = (struct saddlemug_sizes){.sector_size = image.sector_size, .sectors = image.size / image.sector_size};
	read_only = image.read_only;
	return 0;
}

/* The disk is one sector longer: its first sector has the partition table. */
static int
get_ready(void)
{
	char text[256];

	if (image_file != NULL)
		return open_image();
	if (settings_file != NULL)
		return open_with_file();
	if (transfer == 0)
		transfer = 128;
	if (size == 0)
		size = 64 << 20;
	if (size % sector != 0 || size / sector > UINT32_MAX) {
		nbdkit_error("size %" PRIi64 " is no number of sectors that a partition has", size);
		return -1;
	}
	int length = snprintf(text, sizeof text,
		"sector_size = %" PRIu32 "\nsectors = %" PRIi64 "\nmax_transfer = %" PRIu32 "\ndepth = 1\nwindow = 1\n"
		"[[partition]]\nfirst = 1\ncount = %" PRIi64 "\n",
		sector, size / sector + 1, transfer, size / sector);
	return open_with(text, length);
}

static void
unload(void)
{
	if (volume.at != NULL)
		saddlemug_close(&volume);
	own_disk_close(&image);
	free(settings_file);
	free(image_file);
	free(trace_file);
}

static void *
open_(int readonly)
{
	(void) readonly;
	return NBDKIT_HANDLE_NOT_NEEDED;
}

static int64_t
get_size(void *handle)
{
	(void) handle;
	return sizes.sectors * sizes.sector_size;
}

static int
block_size(void *handle, uint32_t *minimum, uint32_t *preferred, uint32_t *maximum)
{
	(void) handle;
	*minimum = sizes.sector_size;
	*preferred = 4096;
	*maximum = LONGEST * sizes.sector_size;
	return 0;
}

static int
can_write(void *handle)
{
	(void) handle;
	return !read_only;
}

/* Each connection goes to the one disk, so that a flush is of all that was answered on any. */
static int
can_multi_conn(void *handle)
{
	(void) handle;
	return 1;
}

/* Holes are what the file system tells of, or what was never written to the disk in memory. */
static int
can_extents(void *handle)
{
	(void) handle;
	return !is_target;
}

static int
can_fua(void *handle)
{
	(void) handle;
	return NBDKIT_FUA_NATIVE;
}

static int
answered(const char *call, uint32_t status)
{
	if (status == SADDLEMUG_SUCCESS)
		return 0;
	char name[SADDLEMUG_NAME_ROOM];
	nbdkit_error("%s: %s", call, saddlemug_status_name(status, name));
	switch (status) {
	case SADDLEMUG_INVALID_PARAMETER:
		errno = EINVAL;
		break;
	case SADDLEMUG_INSUFFICIENT_RESOURCES:
		errno = ENOMEM;
		break;
	case SADDLEMUG_MEDIA_WRITE_PROTECTED:
		errno = image_file != NULL && own_disk_is_full(&image, status) ? ENOSPC : EROFS;
		break;
	default:
		errno = EIO;
	}
	return -1;
}

/* The bytes of the next call, of `count` that are left. */
static uint32_t
piece_of(uint32_t count)
{
	uint64_t longest = LONGEST * sizes.sector_size;
	return count < longest ? count : longest;
}

static int
pread_(void *handle, void *buffer, uint32_t count, uint64_t offset, uint32_t flags)
{
	(void) handle;
	(void) flags;
	for (uint8_t *at = buffer; count > 0;) {
		uint32_t piece = piece_of(count);
		uint32_t status = image_file != NULL ? own_disk_read(&image, offset, at, piece)
			: saddlemug_read(&volume, offset, at, piece);
		if (answered("read", status) != 0)
			return -1;
		at += piece;
		offset += piece;
		count -= piece;
	}
	return 0;
}

static int
pwrite_(void *handle, const void *buffer, uint32_t count, uint64_t offset, uint32_t flags)
{
	(void) handle;
	bool through = (flags & NBDKIT_FLAG_FUA) != 0;
	for (const uint8_t *at = buffer; count > 0;) {
		uint32_t piece = piece_of(count);
		uint32_t status = image_file != NULL ? own_disk_write(&image, offset, at, piece, through)
			: saddlemug_write(&volume, offset, at, piece, through);
		if (answered("write", status) != 0)
			return -1;
		at += piece;
		offset += piece;
		count -= piece;
	}
	return 0;
}

static int
flush_(void *handle, uint32_t flags)
{
	(void) handle;
	(void) flags;
	return answered("flush", image_file != NULL ? own_disk_flush(&image) : saddlemug_flush(&volume));
}

/* How many bytes from `offset` on are a hole, or none. */
static uint64_t
extent_of(uint64_t offset, uint64_t count, bool *is_hole)
{
	if (image_file != NULL)
		return own_disk_extent(&image, offset, count, is_hole);
	struct saddlemug_run run = saddlemug_run(&volume, offset, count);
	*is_hole = run.are_zeros;
	return run.count;
}

/* Of whole sectors, also where others are asked of. */
static int
extents_(void *handle, uint32_t count, uint64_t offset, uint32_t flags, struct nbdkit_extents *extents)
{
	(void) handle;
	uint64_t end = (offset + count + sizes.sector_size - 1) / sizes.sector_size * sizes.sector_size;
	for (offset -= offset % sizes.sector_size; offset < end;) {
		bool is_hole;
		uint64_t length = extent_of(offset, end - offset, &is_hole);
		if (nbdkit_add_extent(extents, offset, length, is_hole ? NBDKIT_EXTENT_HOLE | NBDKIT_EXTENT_ZERO : 0) != 0)
			return -1;
		if ((flags & NBDKIT_FLAG_REQ_ONE) != 0)
			return 0;
		offset += length;
	}
	return 0;
}

static struct nbdkit_plugin plugin = {
	.name = "saddlemug",
	.description = "a disk in memory, or a raw image file, behind a proved storage stack",
	.load = load,
	.config = config,
	.config_complete = config_complete,
	.config_help = "size=SIZE [sector=512|4096] [transfer=SECTORS], or settings=FILE [partition=NUMBER], or\n"
		"file=IMAGE [partition=NUMBER] [sector=512|4096] [transfer=SECTORS] [trace=FILE], or\n"
		"iscsi=URL [partition=NUMBER] [transfer=SECTORS] [trace=FILE]\n"
		"Partitions count from 0, unused entries of the table left out; a file with no partition named is one as a whole.",
	.dump_plugin = dump_plugin,
	.thread_model = thread_model,
	.magic_config_key = "size",
	.get_ready = get_ready,
	.unload = unload,
	.open = open_,
	.get_size = get_size,
	.can_write = can_write,
	.block_size = block_size,
	.can_multi_conn = can_multi_conn,
	.can_fua = can_fua,
	.pread = pread_,
	.pwrite = pwrite_,
	.flush = flush_,
	.can_extents = can_extents,
	.extents = extents_,
	.errno_is_preserved = 1,
};

NBDKIT_REGISTER_PLUGIN(plugin)
