/* losing.so: a volatile cache below a program, for tests of what stands after a loss of power.
 *
 * Preloaded, it keeps in memory what the program writes to one file by pwrite, sector by sector, and brings it to
 * the file by fdatasync or fsync; and at random times a random sector, as a cache does that is short of room. It
 * cuts writes short. So a SIGKILL at any moment leaves in each sector of the file what the last sync brought there,
 * or one of the values told since.
 *
 * LOSING_FILE: the end of the path of the file, which has 32 MiB at most. LOSING_SEED. LOSING_EARLY: of 1000 calls,
 * how many bring a sector early. LOSING_DELAY: microseconds that a call takes; LOSING_NOTHING=1: and that is all,
 * the file has what is written at once. LOSING_LINGER: microseconds at most that a sync takes before, and a write
 * behind, what it does. LOSING_LIE=1: a sync does nothing (a disk that lies). LOSING_FAIL=N: each Nth sync fails with
 * EIO. As Linux does, what was not synced counts as synced from then on: it is read until it is dropped from memory,
 * which is not before the next sync, and need not reach the file. */
#define _GNU_SOURCE
#include <dlfcn.h>
#include <errno.h>
#include <fcntl.h>
#include <pthread.h>
#include <stdarg.h>
#include <stdbool.h>
#include <stdlib.h>
#include <string.h>
#include <unistd.h>

#define SECTOR 512
#define SECTORS (1 << 16)
#define DESCRIPTORS 1024

/* A sector that is in memory: its bytes, whether the file lacks them, and its place in the list of those. */
static struct {
	unsigned char *bytes;
	bool dirty;
	unsigned place;
} sectors[SECTORS];
static unsigned held[SECTORS], count;

static pthread_mutex_t lock = PTHREAD_MUTEX_INITIALIZER;
static pthread_once_t once = PTHREAD_ONCE_INIT;
/* The newest descriptor of the file by its path, and whether others are of it too. */
static int file = -1;
static bool ours[DESCRIPTORS];
static unsigned long state = 88172645463325252ul, early = 300, delay, linger, failing, syncs;
static bool lies, loses_nothing, failed_last;

static ssize_t (*real_pread)(int, void *, size_t, off_t);
static ssize_t (*real_pwrite)(int, const void *, size_t, off_t);
static off_t (*real_lseek)(int, off_t, int);
static int (*real_fdatasync)(int);
static int (*real_open)(const char *, int, ...);
static int (*real_fcntl)(int, int, ...);
static int (*real_close)(int);

static unsigned long
setting(const char *name, unsigned long otherwise)
{
	const char *value = getenv(name);
	return value != NULL ? strtoul(value, NULL, 10) : otherwise;
}

static unsigned long
below(unsigned long bound)
{
	state ^= state << 13;
	state ^= state >> 7;
	state ^= state << 17;
	return state % bound;
}

static void
start(void)
{
	real_pread = dlsym(RTLD_NEXT, "pread");
	real_pwrite = dlsym(RTLD_NEXT, "pwrite");
	real_lseek = dlsym(RTLD_NEXT, "lseek");
	real_fdatasync = dlsym(RTLD_NEXT, "fdatasync");
	real_open = dlsym(RTLD_NEXT, "open");
	real_fcntl = dlsym(RTLD_NEXT, "fcntl");
	real_close = dlsym(RTLD_NEXT, "close");
	state += 2654435761ul * setting("LOSING_SEED", 0);
	early = setting("LOSING_EARLY", early);
	delay = setting("LOSING_DELAY", 0);
	linger = setting("LOSING_LINGER", 0);
	failing = setting("LOSING_FAIL", 0);
	lies = setting("LOSING_LIE", 0) != 0;
	loses_nothing = setting("LOSING_NOTHING", 0) != 0;
	for (int i = 0; i < 20; i++)
		below(2);
}

static void
bring(unsigned sector)
{
	if (sectors[sector].dirty)
		real_pwrite(file, sectors[sector].bytes, SECTOR, (off_t) sector * SECTOR);
	sectors[sector].dirty = false;
}

static void
drop(unsigned sector)
{
	unsigned last = held[--count];
	held[sectors[sector].place] = last;
	sectors[last].place = sectors[sector].place;
	free(sectors[sector].bytes);
	sectors[sector].bytes = NULL;
}

static void
keep(unsigned sector, const unsigned char *bytes)
{
	if (sectors[sector].bytes == NULL) {
		sectors[sector].bytes = malloc(SECTOR);
		sectors[sector].place = count;
		held[count++] = sector;
	}
	memcpy(sectors[sector].bytes, bytes, SECTOR);
	sectors[sector].dirty = true;
}

/* Brings random sectors early, or drops those that were brought. */
static void
age(void)
{
	while (count > 0 && below(1000) < early) {
		unsigned sector = held[below(count)];
		if (sectors[sector].dirty)
			bring(sector);
		else if (!failed_last)
			drop(sector);
	}
}

/* Without the lock. */
static void
wait_a_little(void)
{
	if (linger == 0)
		return;
	pthread_mutex_lock(&lock);
	unsigned long microseconds = below(linger);
	pthread_mutex_unlock(&lock);
	usleep(microseconds);
}

static bool
is_of_file(int descriptor)
{
	return descriptor >= 0 && descriptor < DESCRIPTORS && ours[descriptor];
}

static void
note(int descriptor, bool is)
{
	if (descriptor >= 0 && descriptor < DESCRIPTORS)
		ours[descriptor] = is;
}

/* Is this call of the file, and to be kept off it? */
static bool
is_ours(int descriptor)
{
	pthread_once(&once, start);
	if (!is_of_file(descriptor))
		return false;
	if (delay != 0)
		usleep(delay);
	return !loses_nothing;
}

int
open(const char *path, int flags, ...)
{
	va_list more;
	va_start(more, flags);
	int mode = (flags & O_CREAT) != 0 ? va_arg(more, int) : 0;
	va_end(more);
	pthread_once(&once, start);
	int opened = real_open(path, flags, mode);
	const char *end = getenv("LOSING_FILE");
	if (opened >= 0 && end != NULL && strlen(path) >= strlen(end) && strcmp(path + strlen(path) - strlen(end), end) == 0)
		note(file = opened, true);
	return opened;
}

/* A second descriptor of the file, as a thread has. */
int
fcntl(int descriptor, int command, ...)
{
	va_list more;
	va_start(more, command);
	void *argument = va_arg(more, void *);
	va_end(more);
	pthread_once(&once, start);
	int got = real_fcntl(descriptor, command, argument);
	if ((command == F_DUPFD || command == F_DUPFD_CLOEXEC) && is_of_file(descriptor))
		note(got, true);
	return got;
}

int
close(int descriptor)
{
	pthread_once(&once, start);
	note(descriptor, false);
	return real_close(descriptor);
}

ssize_t
pread(int descriptor, void *buffer, size_t length, off_t offset)
{
	if (!is_ours(descriptor))
		return real_pread(descriptor, buffer, length, offset);
	pthread_mutex_lock(&lock);
	age();
	ssize_t got = real_pread(descriptor, buffer, length, offset);
	for (ssize_t at = 0; at + SECTOR <= got; at += SECTOR)
		if (sectors[(offset + at) / SECTOR].bytes != NULL)
			memcpy((char *) buffer + at, sectors[(offset + at) / SECTOR].bytes, SECTOR);
	pthread_mutex_unlock(&lock);
	return got;
}

ssize_t
pwrite(int descriptor, const void *buffer, size_t length, off_t offset)
{
	if (!is_ours(descriptor))
		return real_pwrite(descriptor, buffer, length, offset);
	pthread_mutex_lock(&lock);
	if (length > SECTOR && below(4) == 0)
		length = SECTOR * (1 + below(length / SECTOR));
	for (size_t at = 0; at + SECTOR <= length; at += SECTOR) {
		keep((offset + at) / SECTOR, (const unsigned char *) buffer + at);
		age();
	}
	pthread_mutex_unlock(&lock);
	wait_a_little();
	return length;
}

/* What is in memory is data, and no hole. */
off_t
lseek(int descriptor, off_t offset, int whence)
{
	if (whence != SEEK_DATA || !is_ours(descriptor))
		return pthread_once(&once, start), real_lseek(descriptor, offset, whence);
	pthread_mutex_lock(&lock);
	off_t found = real_lseek(descriptor, offset, whence);
	int error = errno;
	for (unsigned i = 0; i < count; i++) {
		off_t at = (off_t) held[i] * SECTOR;
		if (at + SECTOR > offset && (found < 0 || at < found))
			found = at < offset ? offset : at;
	}
	pthread_mutex_unlock(&lock);
	errno = error;
	return found;
}

int
fdatasync(int descriptor)
{
	if (!is_ours(descriptor))
		return real_fdatasync(descriptor);
	if (lies)
		return 0;
	pthread_mutex_lock(&lock);
	failed_last = false;
	pthread_mutex_unlock(&lock);
	wait_a_little();
	pthread_mutex_lock(&lock);
	bool fails = failing != 0 && ++syncs % failing == 0;
	failed_last = fails;
	for (unsigned i = 0; i < count; i++) {
		if (!fails || below(2) == 0)
			bring(held[i]);
		sectors[held[i]].dirty = false;
	}
	pthread_mutex_unlock(&lock);
	errno = EIO;
	return fails ? -1 : 0;
}

int
fsync(int descriptor)
{
	return fdatasync(descriptor);
}

int open64(const char *path, int flags, ...) __attribute__((alias("open")));
int fcntl64(int descriptor, int command, ...) __attribute__((alias("fcntl")));
ssize_t pread64(int descriptor, void *buffer, size_t length, off_t offset) __attribute__((alias("pread")));
ssize_t pwrite64(int descriptor, const void *buffer, size_t length, off_t offset) __attribute__((alias("pwrite")));
off_t lseek64(int descriptor, off_t offset, int whence) __attribute__((alias("lseek")));
