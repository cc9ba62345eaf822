/* Sixteen commands out at once over storage that takes 5 ms for each: what an emulator or a service does that has a
 * device of its own. There is one lock, around every call of the library. A thread for each tag waits until a
 * command went out on it, moves its bytes with the lock let go, since their place stays where it is until they are
 * booked, and hands it back. */
#include <pthread.h>
#include <stdio.h>
#include <string.h>
#include <time.h>

#include "saddlemug.h"

#define TAGS 16
#define OPEN 32        /* requests that have no answer yet */
#define REQUESTS 6000
#define SECTOR 512
#define LENGTH 4096    /* of a request */
#define SLOTS 4096     /* places of that length */
#define SECTORS (1 + SLOTS * LENGTH / SECTOR)

static uint8_t storage[SECTORS][SECTOR];
static struct saddlemug_stack stack;
static struct saddlemug_id handle;
static pthread_mutex_t lock = PTHREAD_MUTEX_INITIALIZER;
static pthread_cond_t answered = PTHREAD_COND_INITIALIZER;
static bool over;
static unsigned done, wrong;

/* Who serves a tag. */
static struct server {
	uint8_t tag;
	bool is_out;
	pthread_cond_t went_out;
	pthread_t thread;
} servers[TAGS];

/* What is asked, by the request's number; and of each place whether a request is open, and the byte that it is full
 * of. */
static struct {
	bool reads;
	unsigned slot;
} asked[REQUESTS + 1];
static bool busy[SLOTS];
static uint8_t holds[SLOTS];

/* One event, and what it did. */
static struct saddlemug_reply
step(struct saddlemug_event event, const uint8_t *bytes, size_t length)
{
	struct saddlemug_reply reply = {.kind = SADDLEMUG_IS_REFUSED};
	struct saddlemug_label label;
	uint8_t none = 0;
	saddlemug_stack_step(&stack, &event, bytes, length, &reply);
	while (saddlemug_stack_take_label(&stack, &label, &none, 0)) {
		if (label.kind != SADDLEMUG_STARTED)
			continue;
		servers[label.tag].is_out = true;
		pthread_cond_signal(&servers[label.tag].went_out);
	}
	return reply;
}

static void
take_answers(void)
{
	static uint8_t bytes[LENGTH];
	struct saddlemug_answer answer;
	while (saddlemug_stack_take_answer(&stack, &answer, bytes, sizeof bytes)) {
		unsigned slot = asked[answer.number].slot;
		bool is_right = !asked[answer.number].reads
			|| (bytes[0] == holds[slot] && memcmp(bytes, bytes + 1, sizeof bytes - 1) == 0);
		wrong += answer.status != SADDLEMUG_SUCCESS || !is_right;
		busy[slot] = false;
		done++;
		pthread_cond_signal(&answered);
	}
}

/* The device: 5 ms, and the bytes of whole sectors. */
static void
move(const struct saddlemug_armed *armed)
{
	nanosleep(&(struct timespec){.tv_nsec = 5000000}, NULL);
	if (armed->asked.kind == SADDLEMUG_ASKS_TO_READ)
		memcpy(armed->bytes, storage[armed->asked.first], armed->length);
	else if (armed->asked.kind == SADDLEMUG_ASKS_TO_WRITE)
		memcpy(storage[armed->asked.first], armed->bytes, armed->length);
}

static void *
serve(void *argument)
{
	struct server *server = argument;
	uint8_t tag = server->tag, none = 0;
	struct saddlemug_armed armed;
	pthread_mutex_lock(&lock);
	while (!over) {
		if (!server->is_out) {
			pthread_cond_wait(&server->went_out, &lock);
			continue;
		}
		server->is_out = false;
		if (saddlemug_stack_armed(&stack, tag, &armed) == SADDLEMUG_SUCCESS) {
			struct saddlemug_booking booking = {.piece_low = armed.piece_low, .piece_high = armed.piece_high,
				.length = armed.length, .tag = tag};
			pthread_mutex_unlock(&lock);
			move(&armed);
			pthread_mutex_lock(&lock);
			saddlemug_stack_book(&stack, &booking);
		}
		step((struct saddlemug_event){.kind = SADDLEMUG_ACT, .tag = tag}, &none, 0);
		step((struct saddlemug_event){.kind = SADDLEMUG_FINISH, .tag = tag}, &none, 0);
		take_answers();
	}
	pthread_mutex_unlock(&lock);
	return NULL;
}

/* Calls the next request, of a place that has none. */
static void
call(unsigned number)
{
	static uint8_t bytes[LENGTH];
	static unsigned slot;
	do
		slot = (slot + 1597) % SLOTS;
	while (busy[slot]);
	bool reads = number % 3 != 0;
	asked[number].reads = reads;
	asked[number].slot = slot;
	busy[slot] = true;
	if (!reads)
		memset(bytes, holds[slot] = number, sizeof bytes);
	struct saddlemug_event event = {.kind = reads ? SADDLEMUG_READ : SADDLEMUG_WRITE, .handle = handle,
		.offset = (uint64_t) slot * LENGTH, .length = LENGTH};
	struct saddlemug_reply reply = step(event, bytes, reads ? 0 : LENGTH);
	wrong += reply.kind != SADDLEMUG_IS_REQUEST || reply.id.number != number;
}

/* Sector 0, with one partition of all that is behind it. */
static bool
open_stack(void)
{
	static uint8_t *entry = storage[0] + 446;
	struct saddlemug_disk disk = {.sectors = SECTORS, .max_transfer = 128, .depth = TAGS, .window = OPEN,
		.open_requests = OPEN};
	entry[4] = 0x83;
	entry[8] = 1;
	for (int i = 0; i < 4; i++)
		entry[12 + i] = (SECTORS - 1) >> (8 * i);
	storage[0][510] = 0x55;
	storage[0][511] = 0xAA;
	if (saddlemug_stack_open_over(&stack, &disk, storage[0], SECTOR) != SADDLEMUG_SUCCESS)
		return false;
	struct saddlemug_reply reply = step((struct saddlemug_event){.kind = SADDLEMUG_OPEN}, storage[0], 0);
	handle = reply.id;
	return reply.kind == SADDLEMUG_IS_HANDLE;
}

static double
seconds(void)
{
	struct timespec now;
	clock_gettime(CLOCK_MONOTONIC, &now);
	return now.tv_sec + 1e-9 * now.tv_nsec;
}

int
main(void)
{
	if (!open_stack())
		return 1;
	for (unsigned tag = 0; tag < TAGS; tag++) {
		servers[tag].tag = tag;
		pthread_cond_init(&servers[tag].went_out, NULL);
		if (pthread_create(&servers[tag].thread, NULL, serve, &servers[tag]) != 0)
			return 1;
	}
	double began = seconds();
	pthread_mutex_lock(&lock);
	for (unsigned number = 1; number <= REQUESTS && wrong == 0; number++) {
		while (number - done > OPEN)
			pthread_cond_wait(&answered, &lock);
		call(number);
	}
	while (wrong == 0 && done < REQUESTS)
		pthread_cond_wait(&answered, &lock);
	over = true;
	for (unsigned tag = 0; tag < TAGS; tag++)
		pthread_cond_signal(&servers[tag].went_out);
	pthread_mutex_unlock(&lock);
	double took = seconds() - began;
	for (unsigned tag = 0; tag < TAGS; tag++)
		pthread_join(servers[tag].thread, NULL);
	saddlemug_stack_close(&stack);
	printf("%u requests, %u wrong, %.0f a second\n", done, wrong, done / took);
	return wrong != 0;
}
