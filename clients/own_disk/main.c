/* Serves a file through the proved stack: own_disk FILE read OFFSET LENGTH, or own_disk FILE write OFFSET, of
 * standard input. The file is one partition; of a target, iscsi://HOST[:PORT]/NAME/UNIT in place of FILE, it is the
 * first. Several requests are out at once, each in a thread of its own. */
#include <errno.h>
#include <stdio.h>
#include <stdlib.h>
#include <string.h>

#include "descriptors.h"
#include "own_disk.h"

/* The longest request, in bytes, and how many are out. */
#define LONGEST (1 << 20)
#define REQUESTS 8

struct request {
	struct own_disk *disk;
	bool writes;
	uint64_t offset;
	size_t length;
	uint32_t status;
	bool started;
	pthread_t thread;
	uint8_t bytes[LONGEST];
};

static struct request requests[REQUESTS];

static void *
carry(void *argument)
{
	struct request *it = argument;
	it->status = it->writes ? own_disk_write(it->disk, it->offset, it->bytes, it->length, false)
		: own_disk_read(it->disk, it->offset, it->bytes, it->length);
	return NULL;
}

static int
said(const struct own_disk *disk, const char *what, uint32_t status)
{
	const char *full = own_disk_is_full(disk, status) ? ": no space is left" : "";
	char name[SADDLEMUG_NAME_ROOM];
	fprintf(stderr, "own_disk: %s: %s%s\n", what, saddlemug_status_name(status, name), full);
	return 1;
}

/* Carries out the first of the requests, side by side. 0 where each succeeded. */
static int
carry_all(size_t count)
{
	for (size_t i = 0; i < count; i++) {
		struct request *it = &requests[i];
		it->started = pthread_create(&it->thread, NULL, carry, it) == 0;
		if (!it->started)
			carry(it);
	}
	int failed = 0;
	for (size_t i = 0; i < count; i++) {
		struct request *it = &requests[i];
		if (it->started)
			pthread_join(it->thread, NULL);
		if (it->status != SADDLEMUG_SUCCESS && !failed)
			failed = said(it->disk, it->writes ? "write" : "read", it->status);
	}
	return failed;
}

static int
read_out(struct own_disk *disk, uint64_t offset, uint64_t length)
{
	while (length > 0) {
		size_t count = 0;
		for (; count < REQUESTS && length > 0; count++) {
			struct request *it = &requests[count];
			it->disk = disk;
			it->offset = offset;
			it->length = length < LONGEST ? length : LONGEST;
			offset += it->length;
			length -= it->length;
		}
		if (carry_all(count) != 0)
			return 1;
		for (size_t i = 0; i < count; i++)
			if (fwrite(requests[i].bytes, 1, requests[i].length, stdout) != requests[i].length)
				return perror("own_disk: standard output"), 1;
	}
	return fflush(stdout) == 0 ? 0 : (perror("own_disk: standard output"), 1);
}

static int
write_in(struct own_disk *disk, uint64_t offset)
{
	size_t count = REQUESTS;
	while (count == REQUESTS) {
		for (count = 0; count < REQUESTS; count++) {
			struct request *it = &requests[count];
			it->disk = disk;
			it->writes = true;
			it->offset = offset;
			it->length = fread(it->bytes, 1, LONGEST, stdin);
			if (it->length == 0)
				break;
			offset += it->length;
		}
		if (carry_all(count) != 0)
			return 1;
	}
	if (ferror(stdin))
		return perror("own_disk: standard input"), 1;
	uint32_t status = own_disk_flush(disk);
	return status == SADDLEMUG_SUCCESS ? 0 : said(disk, "flush", status);
}

/* A number of bytes. */
static bool
is_number(const char *word, uint64_t *number)
{
	char *end;
	errno = 0;
	*number = strtoull(word, &end, 10);
	return *word >= '0' && *word <= '9' && *end == '\0' && errno == 0;
}

int
main(int argc, char **argv)
{
	uint64_t offset, length;
	static struct own_disk disk;
	struct own_disk_options options = {.sector_size = 512, .transfer = 128, .depth = 16, .partition = -1};
	bool reads = argc == 5 && strcmp(argv[2], "read") == 0 && is_number(argv[4], &length);
	bool writes = argc == 4 && strcmp(argv[2], "write") == 0;

	if (!take_descriptors())
		return 1;
	if (!(reads || writes) || !is_number(argv[3], &offset)) {
		fputs("usage: own_disk FILE read OFFSET LENGTH | own_disk FILE write OFFSET\n", stderr);
		return 2;
	}
	const char *why = own_disk_open(&disk, argv[1], &options);
	if (why != NULL) {
		fprintf(stderr, "own_disk: %s: %s\n", argv[1], why);
		return 1;
	}
	int status = reads ? read_out(&disk, offset, length) : write_in(&disk, offset);
	own_disk_close(&disk);
	return status;
}
