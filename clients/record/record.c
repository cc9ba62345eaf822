/* An nbdkit filter that writes down what clients saw: each call and each answer, with their bytes.
 *
 *     nbdkit --filter=./record.so nbd socket=SERVER record=FILE [record-limit=BYTES] [record-behind=lost|ended]
 *
 * A call's line is written before the request goes to the server, an answer's before it goes to the client: so the
 * server did what it did between the two lines, and the client saw no less time between them. The lines are those of
 * docs/TRACES.md:
 *
 *     call R read|write OFF LEN [through] in 0 [BYTES]    call R flush in 0
 *     answer R STATUS INFO [BYTES]
 *
 * BYTES are runs, a5*512,00*2, or, where that is shorter, x and two hexadecimal digits a byte. A request to write zeros
 * is a write of them, and none to trim is offered, since what that leaves nobody can judge. A broken connection is no
 * answer, and a remark says so. A file that is there is gone on with, and its numbers too; with record-behind it is a
 * history over sessions: that line is written first, unless the file is new or empty, and numbers begin anew: `lost` where
 * the server lost its power, or what it had not on its medium, `ended` where its process ended. A request that can't be
 * written down is not made, or has no answer in the file and fails. Whole lines are written, as soon as they have more
 * than BYTES (262,144) together, and when a client leaves: with a limit of 0 the file has them all, also where this is
 * killed. */
#include <errno.h>
#include <fcntl.h>
#include <inttypes.h>
#include <pthread.h>
#include <stdarg.h>
#include <stdbool.h>
#include <stdio.h>
#include <stdlib.h>
#include <string.h>
#include <sys/stat.h>
#include <unistd.h>

#define NBDKIT_API_VERSION 2
#include <nbdkit-filter.h>

/* What a line has beside its bytes, and a run at most, with the comma before it. */
#define HEAD 128
#define RUN 32

static char *path;
/* The line that says how the session before ended, if that is told. */
static const char *behind;
static int file = -1;
static uint32_t limit = 1 << 18;
static pthread_mutex_t lock = PTHREAD_MUTEX_INITIALIZER;

/* Under the lock: the next number, and the lines that are not written yet. */
static uint64_t next_number = 1;
static char *lines;
static size_t length, room;

static int
config(nbdkit_next_config *next, nbdkit_backend *backend, const char *key, const char *value)
{
	if (strcmp(key, "record-limit") == 0)
		return nbdkit_parse_uint32_t(key, value, &limit);
	if (strcmp(key, "record-behind") == 0) {
		behind = strcmp(value, "lost") == 0 ? "lost\n" : strcmp(value, "ended") == 0 ? "ended\n" : NULL;
		if (behind != NULL)
			return 0;
		nbdkit_error("record-behind is lost or ended");
		return -1;
	}
	if (strcmp(key, "record") != 0)
		return next(backend, key, value);
	free(path);
	path = nbdkit_absolute_path(value);
	return path == NULL ? -1 : 0;
}

static int
config_complete(nbdkit_next_config_complete *next, nbdkit_backend *backend)
{
	if (path != NULL)
		return next(backend);
	nbdkit_error("record=FILE is missing");
	return -1;
}

/* Goes on behind the numbers of a file that is there. */
static void
take_numbers(void)
{
	char *line = NULL;
	size_t line_room = 0;
	uint64_t number;
	FILE *old = fopen(path, "r");
	while (old != NULL && getline(&line, &line_room, old) > 0)
		if (sscanf(line, "call %" SCNu64, &number) == 1 && number >= next_number)
			next_number = number + 1;
	free(line);
	if (old != NULL)
		fclose(old);
}

/* Begins a session behind what a file has. */
static bool
turn(void)
{
	struct stat now;
	if (fstat(file, &now) != 0)
		return false;
	return now.st_size == 0 || write(file, behind, strlen(behind)) == (ssize_t) strlen(behind);
}

static int
get_ready(int model)
{
	(void) model;
	if (behind == NULL)
		take_numbers();
	file = open(path, O_WRONLY | O_APPEND | O_CREAT | O_CLOEXEC, 0666);
	if (file >= 0 && (behind == NULL || turn()))
		return 0;
	nbdkit_error("%s: %m", path);
	return -1;
}

/* Writes the lines that wait. */
static bool
write_lines(void)
{
	size_t done = 0;
	while (done < length) {
		ssize_t count = write(file, lines + done, length - done);
		if (count < 0 && errno == EINTR)
			continue;
		if (count <= 0) {
			nbdkit_error("%s: %m", path);
			memmove(lines, lines + done, length -= done);
			return false;
		}
		done += count;
	}
	length = 0;
	return true;
}

static bool
make_room(size_t wanted)
{
	if (room - length >= wanted)
		return true;
	char *larger = realloc(lines, length + wanted);
	if (larger == NULL)
		return false;
	lines = larger;
	room = length + wanted;
	return true;
}

static size_t
run_of(const uint8_t *bytes, size_t count)
{
	size_t run = 1;
	while (run < count && bytes[run] == bytes[0])
		run++;
	return run;
}

static void
add_decimal(size_t number)
{
	if (number > 9)
		add_decimal(number / 10);
	lines[length++] = '0' + number % 10;
}

static void
add_byte(uint8_t byte)
{
	lines[length++] = "0123456789abcdef"[byte >> 4];
	lines[length++] = "0123456789abcdef"[byte & 15];
}

/* The runs of bytes, as long as they take no more room than digits do. */
static bool
add_runs(const uint8_t *bytes, size_t count)
{
	size_t most = length + 1 + 2 * count;
	for (size_t at = 0, run; at < count; at += run) {
		run = run_of(bytes + at, count - at);
		if (at > 0)
			lines[length++] = ',';
		add_byte(bytes[at]);
		lines[length++] = '*';
		add_decimal(run);
		if (length > most)
			return false;
	}
	return true;
}

/* The bytes of a line, behind a space. There is room. */
static void
add_bytes(const uint8_t *bytes, size_t count)
{
	lines[length++] = ' ';
	size_t begin = length;
	if (add_runs(bytes, count))
		return;
	length = begin;
	lines[length++] = 'x';
	for (size_t at = 0; at < count; at++)
		add_byte(bytes[at]);
}

/* Notes a line. There are bytes where `count` isn't 0. */
static bool
note(const uint8_t *bytes, size_t count, const char *format, ...)
{
	va_list arguments;
	if (!make_room(HEAD + RUN + 2 * count))
		return false;
	va_start(arguments, format);
	length += vsnprintf(lines + length, HEAD, format, arguments);
	va_end(arguments);
	if (count > 0)
		add_bytes(bytes, count);
	lines[length++] = '\n';
	return length <= limit || write_lines();
}

/* Notes a call, and gives its number; 0 where it can't be noted, and so is not to be made. */
static uint64_t
called(const char *kind, uint32_t count, uint64_t offset, uint32_t flags, const void *bytes, size_t has)
{
	const char *through = (flags & NBDKIT_FLAG_FUA) != 0 ? "through " : "";
	pthread_mutex_lock(&lock);
	uint64_t number = next_number++;
	bool noted = strcmp(kind, "flush") == 0 ? note(NULL, 0, "call %" PRIu64 " flush in 0", number)
		: note(bytes, has, "call %" PRIu64 " %s %" PRIu64 " %" PRIu32 " %sin 0", number, kind, offset, count, through);
	pthread_mutex_unlock(&lock);
	return noted ? number : 0;
}

static const char *
status_of(int error)
{
	switch (error) {
	case EPERM:
	case EROFS:
	case ENOSPC:
		return "MEDIA_WRITE_PROTECTED";
	case EINVAL:
	case EOPNOTSUPP:
		return "INVALID_DEVICE_REQUEST";
	default:
		return "IO_DEVICE_ERROR";
	}
}

static bool
is_broken(int error)
{
	return error == ESHUTDOWN || error == ENOTCONN || error == ECONNRESET || error == EPIPE || error == ETIMEDOUT;
}

/* Notes an answer. The result is that of the request. */
static int
answered(uint64_t number, int result, int *error, uint32_t count, const void *bytes, size_t has)
{
	bool noted;
	pthread_mutex_lock(&lock);
	if (result == 0)
		noted = note(bytes, has, "answer %" PRIu64 " SUCCESS %" PRIu32, number, count);
	else if (is_broken(*error))
		noted = note(NULL, 0, "# request %" PRIu64 " has no answer: the connection broke", number);
	else
		noted = note(NULL, 0, "answer %" PRIu64 " %s 0", number, status_of(*error));
	pthread_mutex_unlock(&lock);
	if (noted)
		return result;
	*error = EIO;
	return -1;
}

static int
not_made(int *error)
{
	*error = EIO;
	return -1;
}

static int
pread_(nbdkit_next *next, void *handle, void *buffer, uint32_t count, uint64_t offset, uint32_t flags, int *error)
{
	(void) handle;
	uint64_t number = called("read", count, offset, 0, NULL, 0);
	if (number == 0)
		return not_made(error);
	int result = next->pread(next, buffer, count, offset, flags, error);
	return answered(number, result, error, count, buffer, count);
}

static int
pwrite_(nbdkit_next *next, void *handle, const void *buffer, uint32_t count, uint64_t offset, uint32_t flags,
	int *error)
{
	(void) handle;
	uint64_t number = called("write", count, offset, flags, buffer, count);
	if (number == 0)
		return not_made(error);
	int result = next->pwrite(next, buffer, count, offset, flags, error);
	return answered(number, result, error, count, NULL, 0);
}

static int
zero(nbdkit_next *next, void *handle, uint32_t count, uint64_t offset, uint32_t flags, int *error)
{
	(void) handle;
	const char *through = (flags & NBDKIT_FLAG_FUA) != 0 ? "through " : "";
	pthread_mutex_lock(&lock);
	uint64_t number = next_number++;
	bool noted = note(NULL, 0, "call %" PRIu64 " write %" PRIu64 " %" PRIu32 " %sin 0 00*%" PRIu32, number, offset,
		count, through, count);
	pthread_mutex_unlock(&lock);
	if (!noted)
		return not_made(error);
	int result = next->zero(next, count, offset, flags, error);
	return answered(number, result, error, count, NULL, 0);
}

static int
flush_(nbdkit_next *next, void *handle, uint32_t flags, int *error)
{
	(void) handle;
	uint64_t number = called("flush", 0, 0, 0, NULL, 0);
	if (number == 0)
		return not_made(error);
	int result = next->flush(next, flags, error);
	return answered(number, result, error, 0, NULL, 0);
}

/* Where holes are is no matter of calls and answers, and what a trim leaves is not known. */
static int
not_offered(nbdkit_next *next, void *handle)
{
	(void) next;
	(void) handle;
	return 0;
}

/* A client has left: its lines are written. */
static int
finalize(nbdkit_next *next, void *handle)
{
	(void) next;
	(void) handle;
	pthread_mutex_lock(&lock);
	bool good = write_lines();
	pthread_mutex_unlock(&lock);
	return good ? 0 : -1;
}

static void
unload(void)
{
	if (file >= 0 && write_lines())
		close(file);
	free(lines);
	free(path);
}

static struct nbdkit_filter filter = {
	.name = "record",
	.longname = "what clients saw, as calls and answers",
	.config = config,
	.config_complete = config_complete,
	.config_help = "record=FILE [record-limit=BYTES]: where calls and answers go, and how many bytes of them wait",
	.get_ready = get_ready,
	.unload = unload,
	.finalize = finalize,
	.can_extents = not_offered,
	.can_trim = not_offered,
	.pread = pread_,
	.pwrite = pwrite_,
	.zero = zero,
	.flush = flush_,
};

NBDKIT_REGISTER_FILTER(filter)
