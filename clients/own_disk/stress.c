/* Requests of several threads over one disk in a file of zeros, each read compared: stress FILE SECONDS. Each thread
 * has sectors of its own, whose bytes it knows, and all share some, in runs of 64 that one command reads or writes:
 * each run must be of one write as a whole. */
#include <stdio.h>
#include <stdlib.h>
#include <string.h>
#include <time.h>

#include "descriptors.h"
#include "own_disk.h"

#define THREADS 20
#define SECTOR 512
#define OWN 512  /* sectors of a thread */
#define MOST 160 /* of a request: more than a command has, so that some have two */
#define RUN 64   /* of shared ones */

static struct own_disk disk;
static time_t end;

struct worker {
	uint64_t first;         /* its first sector; the shared ones are those in front of all */
	uint64_t state;         /* of its random numbers */
	uint64_t stamp;
	uint64_t requests;
	bool failed;
	uint64_t written[OWN];  /* the stamp of each sector */
	uint64_t bytes[MOST * SECTOR / 8];
	pthread_t thread;
};

static uint64_t
below(struct worker *worker, uint64_t bound)
{
	worker->state = worker->state * UINT64_C(6364136223846793005) + UINT64_C(1442695040888963407);
	return (worker->state >> 33) % bound;
}

static void
wrong(struct worker *worker, const char *what, uint64_t sector)
{
	fprintf(stderr, "stress: %s, sector %llu\n", what, (unsigned long long) sector);
	worker->failed = true;
}

static void
failed(struct worker *worker, uint32_t status, uint64_t sector)
{
	char name[SADDLEMUG_NAME_ROOM];
	wrong(worker, saddlemug_status_name(status, name), sector);
}

/* Writes sectors full of a new stamp. */
static void
write_some(struct worker *worker, uint64_t sector, uint64_t count, bool own)
{
	uint64_t stamp = below(worker, 8) == 0 ? 0 : ++worker->stamp;
	for (size_t i = 0; i < count * SECTOR / 8; i++)
		worker->bytes[i] = stamp;
	for (uint64_t i = 0; own && i < count; i++)
		worker->written[sector + i - worker->first] = stamp;
	bool through = below(worker, 16) == 0;
	uint32_t status = own_disk_write(&disk, sector * SECTOR, (uint8_t *) worker->bytes, count * SECTOR, through);
	if (status != SADDLEMUG_SUCCESS)
		failed(worker, status, sector);
}

/* Each sector of its own has the stamp that was written; of shared ones all have the same. */
static void
read_some(struct worker *worker, uint64_t sector, uint64_t count, bool own)
{
	uint32_t status = own_disk_read(&disk, sector * SECTOR, (uint8_t *) worker->bytes, count * SECTOR);
	if (status != SADDLEMUG_SUCCESS)
		failed(worker, status, sector);
	for (uint64_t i = 0; i < count && !worker->failed; i++) {
		const uint64_t *words = worker->bytes + i * SECTOR / 8;
		uint64_t wanted = own ? worker->written[sector + i - worker->first] : worker->bytes[0];
		if (words[0] != wanted || memcmp(words, words + 1, SECTOR - 8) != 0)
			wrong(worker, own ? "another write" : "two writes", sector + i);
	}
}

static void *
work(void *argument)
{
	struct worker *worker = argument;
	while (time(NULL) < end && !worker->failed) {
		bool own = below(worker, 2) == 0;
		uint64_t count = own ? 1 + below(worker, MOST) : RUN;
		uint64_t sector = own ? worker->first + below(worker, OWN - count) : RUN * below(worker, OWN / RUN);
		worker->requests++;
		if (below(worker, 64) == 0 && own_disk_flush(&disk) != SADDLEMUG_SUCCESS)
			wrong(worker, "a flush failed", 0);
		else if (below(worker, 2) == 0)
			write_some(worker, sector, count, own);
		else
			read_some(worker, sector, count, own);
	}
	return NULL;
}

int
main(int argc, char **argv)
{
	static struct worker workers[THREADS];
	struct own_disk_options options = {.sector_size = SECTOR, .transfer = 128, .depth = 16, .partition = -1};
	if (argc != 3 || !take_descriptors())
		return 2;
	const char *why = own_disk_open(&disk, argv[1], &options);
	if (why != NULL || disk.size < (THREADS + 1) * OWN * SECTOR) {
		fprintf(stderr, "stress: %s: %s\n", argv[1], why != NULL ? why : "it is too short");
		return 2;
	}
	end = time(NULL) + atoi(argv[2]);
	for (size_t i = 0; i < THREADS; i++) {
		workers[i].first = (i + 1) * OWN;
		workers[i].state = i;
		workers[i].stamp = (uint64_t) (i + 1) << 32;
		if (pthread_create(&workers[i].thread, NULL, work, &workers[i]) != 0)
			return 2;
	}
	uint64_t requests = 0;
	bool failed = false;
	for (size_t i = 0; i < THREADS; i++) {
		pthread_join(workers[i].thread, NULL);
		requests += workers[i].requests;
		failed = failed || workers[i].failed;
	}
	own_disk_close(&disk);
	printf("%llu requests\n", (unsigned long long) requests);
	return failed;
}
