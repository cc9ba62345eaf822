/* An nbdkit plugin: a disk in memory that lies, to see that a judge of histories catches it.
 *
 *     nbdkit ./liar.so lie=NAME [one-in=COUNT] [size=SIZE]
 *
 * Once in so many requests (100) it does what the name says: drop (a write isn't written), tear (its first half is),
 * misdirect (it goes to the next 4,096 bytes), stale (a read gives what stood there before the last write), flip (it
 * gives a turned bit), early (a write is answered 2 ms before it is written), twice (it is written again 5 ms later),
 * late (it fails, and is written 3 ms later). `half` fails with its first half written, which is legal where that is
 * whole sectors, and `none` never lies. */
#include <errno.h>
#include <pthread.h>
#include <stdbool.h>
#include <stdint.h>
#include <stdlib.h>
#include <string.h>
#include <time.h>

#define NBDKIT_API_VERSION 2
#define THREAD_MODEL NBDKIT_THREAD_MODEL_PARALLEL
#include <nbdkit-plugin.h>

#define ELSEWHERE 4096

static const char *lie = "none";
static unsigned one_in = 100;
static int64_t size = 1 << 20;
static uint8_t *disk, *before;
static uint64_t state = 88172645463325252u;
static pthread_mutex_t lock = PTHREAD_MUTEX_INITIALIZER;

/* A write that is still to be done. */
struct late {
	uint64_t offset;
	uint32_t count;
	unsigned milliseconds;
	uint8_t bytes[];
};

static int
config_lie(const char *value)
{
	static const char *const names[] = {"none", "drop", "tear", "misdirect", "stale", "flip", "early", "twice", "late", "half"};
	for (size_t i = 0; i < sizeof names / sizeof *names; i++)
		if (strcmp(names[i], value) == 0) {
			lie = names[i];
			return 0;
		}
	nbdkit_error("lie=%s is none", value);
	return -1;
}

static int
config(const char *key, const char *value)
{
	if (strcmp(key, "lie") == 0)
		return config_lie(value);
	if (strcmp(key, "one-in") == 0)
		return nbdkit_parse_unsigned(key, value, &one_in);
	if (strcmp(key, "size") == 0)
		return (size = nbdkit_parse_size(value)) < 0 ? -1 : 0;
	nbdkit_error("%s is unknown", key);
	return -1;
}

static int
get_ready(void)
{
	disk = calloc(1, size);
	before = calloc(1, size);
	return disk == NULL || before == NULL || one_in == 0 ? -1 : 0;
}

/* Whether this is its lie, and now is the time (a generator of Marsaglia's). Under the lock. */
static bool
lies(const char *name)
{
	if (strcmp(lie, name) != 0)
		return false;
	state ^= state << 13;
	state ^= state >> 7;
	state ^= state << 17;
	return (state >> 11) % one_in == 0;
}

static void
put(const void *bytes, uint32_t count, uint64_t offset)
{
	memcpy(before + offset, disk + offset, count);
	memcpy(disk + offset, bytes, count);
}

static void *
write_later(void *argument)
{
	struct late *it = argument;
	nanosleep(&(struct timespec) { .tv_nsec = it->milliseconds * 1000000L }, NULL);
	pthread_mutex_lock(&lock);
	memcpy(disk + it->offset, it->bytes, it->count);
	pthread_mutex_unlock(&lock);
	free(it);
	return NULL;
}

static void
delay(const void *bytes, uint32_t count, uint64_t offset, unsigned milliseconds)
{
	pthread_t thread;
	struct late *it = malloc(sizeof *it + count);
	if (it == NULL)
		abort();
	*it = (struct late) { .offset = offset, .count = count, .milliseconds = milliseconds };
	memcpy(it->bytes, bytes, count);
	if (pthread_create(&thread, NULL, write_later, it) != 0)
		abort();
	pthread_detach(thread);
}

/* Writes, or lies. Returns whether it says that it has written. Under the lock. */
static bool
write_it(const void *bytes, uint32_t count, uint64_t offset)
{
	bool is_late = lies("late"), is_half = lies("half");
	if (lies("drop"))
		return true;
	if (lies("early") || is_late)
		delay(bytes, count, offset, is_late ? 3 : 2);
	else if (lies("tear") || is_half)
		put(bytes, count / 2, offset);
	else if (lies("misdirect") && offset + ELSEWHERE + count <= (uint64_t) size)
		put(bytes, count, offset + ELSEWHERE);
	else {
		put(bytes, count, offset);
		if (lies("twice"))
			delay(bytes, count, offset, 5);
	}
	return !is_late && !is_half;
}

static int
pwrite_(void *handle, const void *bytes, uint32_t count, uint64_t offset, uint32_t flags)
{
	(void) handle;
	(void) flags;
	pthread_mutex_lock(&lock);
	bool good = write_it(bytes, count, offset);
	pthread_mutex_unlock(&lock);
	if (!good)
		nbdkit_set_error(EIO);
	return good ? 0 : -1;
}

static int
pread_(void *handle, void *bytes, uint32_t count, uint64_t offset, uint32_t flags)
{
	(void) handle;
	(void) flags;
	pthread_mutex_lock(&lock);
	memcpy(bytes, (lies("stale") ? before : disk) + offset, count);
	if (lies("flip"))
		((uint8_t *) bytes)[count / 3] ^= 16;
	pthread_mutex_unlock(&lock);
	return 0;
}

static int
flush_(void *handle, uint32_t flags)
{
	(void) handle;
	(void) flags;
	return 0;
}

static void *
open_(int readonly)
{
	(void) readonly;
	return NBDKIT_HANDLE_NOT_NEEDED;
}

static int64_t
get_size(void *handle)
{
	(void) handle;
	return size;
}

static int
can_multi_conn(void *handle)
{
	(void) handle;
	return 1;
}

static struct nbdkit_plugin plugin = {
	.name = "liar",
	.longname = "a disk that lies",
	.config = config,
	.get_ready = get_ready,
	.open = open_,
	.get_size = get_size,
	.can_multi_conn = can_multi_conn,
	.pread = pread_,
	.pwrite = pwrite_,
	.flush = flush_,
};

NBDKIT_REGISTER_PLUGIN(plugin)
