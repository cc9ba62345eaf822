/* Requests of several threads. One lock is around the library; the bytes of the commands that are out are moved
 * outside of it. */
#include <pthread.h>
#include <semaphore.h>
#include <time.h>

#include "own_disk.h"
#include "target.h"

/* Microseconds of a quick move, and how many in a row say that the file is quick. */
#define QUICK 100
#define QUICK_ONES 64

/* A request from its call to its answer, in its thread. */
struct own_disk_request {
	uint64_t number;
	uint8_t *buffer;      /* for the bytes of a read */
	size_t room;
	uint32_t status;
	bool ended;           /* its answer waits in the stack */
	bool answered;
	bool idle;            /* its thread sleeps, and may be woken to move bytes */
	sem_t wake;
	struct own_disk_request *next;
};

/* A command went out on a tag. */
static void
make_ready(struct own_disk *disk, uint8_t tag)
{
	struct own_disk_move *move = &disk->moves[tag];
	*move = (struct own_disk_move){.state = OWN_DISK_READY, .failure = disk->told};
	move->told = saddlemug_stack_armed(&disk->stack, tag, &move->armed) == SADDLEMUG_SUCCESS;
	move->booking = (struct saddlemug_booking){.piece_low = move->armed.piece_low, .piece_high = move->armed.piece_high,
		.length = move->armed.length, .tag = tag};
}

/* Answers go straight into the buffers of who waits for them: the stack gives the earliest first, as the list has
 * them. */
static void
hand_out(struct own_disk *disk)
{
	struct saddlemug_answer answer;
	for (struct own_disk_request **at = &disk->open; *at != NULL;) {
		struct own_disk_request *request = *at;
		if (!request->ended) {
			at = &request->next;
			continue;
		}
		saddlemug_stack_take_answer(&disk->stack, &answer, request->buffer, request->room);
		request->status = answer.status;
		request->answered = true;
		*at = request->next;
		disk->count--;
		pthread_cond_signal(&disk->room);
		if (disk->target == NULL) {
			sem_post(&request->wake);
			continue;
		}
		request->next = disk->answered;
		disk->answered = request;
	}
}

/* Lets go of the lock, and then wakes the threads whose requests a target has answered: they don't want it any more. */
static void
let_go(struct own_disk *disk)
{
	struct own_disk_request *next, *first = disk->answered;
	disk->answered = NULL;
	pthread_mutex_unlock(&disk->lock);
	for (struct own_disk_request *it = first; it != NULL; it = next) {
		next = it->next;
		sem_post(&it->wake);
	}
}

/* Takes a label, with its bytes where they are traced. */
static bool
take_label(struct own_disk *disk, struct saddlemug_label *label)
{
	uint8_t none = 0;
	if (disk->trace.file == NULL)
		return saddlemug_stack_take_label(&disk->stack, label, &none, 0);
	bool takes = saddlemug_stack_take_label(&disk->stack, label, disk->trace.bytes, disk->trace.room);
	if (takes)
		own_disk_trace_note(&disk->trace, label);
	return takes;
}

/* What the last step did: commands that went out, and requests that ended. It stands in the trace before any byte is
 * moved, and before a client hears of it. */
static void
take_labels(struct own_disk *disk)
{
	struct saddlemug_label label;
	while (take_label(disk, &label)) {
		if (label.kind == SADDLEMUG_STARTED)
			make_ready(disk, label.tag);
		if (label.kind != SADDLEMUG_ANSWERED)
			continue;
		for (struct own_disk_request *it = disk->open; it != NULL; it = it->next)
			it->ended = it->ended || it->number == label.number;
	}
	own_disk_trace_flush(&disk->trace);
	hand_out(disk);
}

/* Do they share a sector that one of them writes? */
static bool
meet(const struct saddlemug_asked *one, const struct saddlemug_asked *other)
{
	if (one->kind == SADDLEMUG_ASKS_TO_FLUSH || other->kind == SADDLEMUG_ASKS_TO_FLUSH)
		return false;
	if (one->kind == SADDLEMUG_ASKS_TO_READ && other->kind == SADDLEMUG_ASKS_TO_READ)
		return false;
	return one->first < other->first + other->count && other->first < one->first + one->count;
}

static bool
is_apart(const struct own_disk *disk, const struct own_disk_move *move)
{
	for (uint32_t tag = 0; tag < disk->depth; tag++)
		if (disk->moves[tag].state == OWN_DISK_MOVING && meet(&disk->moves[tag].armed.asked, &move->armed.asked))
			return false;
	return true;
}

/* A command whose bytes can be moved now, or NULL. */
static struct own_disk_move *
movable(struct own_disk *disk)
{
	for (uint32_t tag = 0; tag < disk->depth; tag++)
		if (disk->moves[tag].state == OWN_DISK_READY && is_apart(disk, &disk->moves[tag]))
			return &disk->moves[tag];
	return NULL;
}

/* Wakes one thread that sleeps, if there is something to move. It wakes the next. */
static void
wake_one(struct own_disk *disk)
{
	if (movable(disk) == NULL)
		return;
	for (struct own_disk_request *it = disk->open; it != NULL; it = it->next) {
		if (!it->idle)
			continue;
		it->idle = false;
		sem_post(&it->wake);
		return;
	}
}

static void
step(struct own_disk *disk, uint32_t kind, uint8_t tag)
{
	struct saddlemug_event event = {.kind = kind, .tag = tag};
	struct saddlemug_reply reply;
	uint8_t none = 0;
	saddlemug_stack_step(&disk->stack, &event, &none, 0, &reply);
	take_labels(disk);
}

static uint64_t
microseconds(void)
{
	struct timespec now;
	clock_gettime(CLOCK_MONOTONIC, &now);
	return (uint64_t) now.tv_sec * 1000000 + now.tv_nsec / 1000;
}

/* Moves a command's bytes outside of the lock; but where the last ones took no longer than waking a thread does,
 * under it. */
static void
move_bytes(struct own_disk *disk, struct own_disk_move *move)
{
	const struct saddlemug_asked *asked = &move->armed.asked;
	bool may_wait = asked->kind == SADDLEMUG_ASKS_TO_FLUSH || asked->through;
	bool under = disk->quick >= QUICK_ONES && !may_wait;
	if (!under) {
		wake_one(disk);
		pthread_mutex_unlock(&disk->lock);
	}
	uint64_t began = microseconds();
	own_disk_move_bytes(disk, move);
	bool quick = microseconds() - began <= QUICK;
	if (!under)
		pthread_mutex_lock(&disk->lock);
	disk->quick = quick ? disk->quick + 1 : 0;
}

/* Hands a command back. One that can't be booked fails when it acts. */
static void
hand_back(struct own_disk *disk, struct own_disk_move *move)
{
	uint8_t tag = move - disk->moves;
	if (move->failed_by > disk->told) {
		disk->told = move->failed_by;
		pthread_cond_broadcast(&disk->telling);
	}
	if (move->told)
		saddlemug_stack_book(&disk->stack, &move->booking);
	move->state = OWN_DISK_NONE;
	step(disk, SADDLEMUG_ACT, tag);
	step(disk, SADDLEMUG_FINISH, tag);
}

/* May a failed sync have lost what was written meanwhile, and was told already? Then what is written counts as synced
 * by the next one. */
static bool
was_lost(const struct own_disk *disk, const struct own_disk_move *move)
{
	const struct saddlemug_asked *asked = &move->armed.asked;
	return asked->kind == SADDLEMUG_ASKS_TO_WRITE && !asked->through && !move->booking.failed
		&& disk->told > move->began;
}

/* Moves a command's bytes, and hands it back. A read may have seen what a failed sync lost, which is told first. */
static void
serve(struct own_disk *disk, struct own_disk_move *move)
{
	move->state = OWN_DISK_MOVING;
	if (move->told) {
		do {
			move_bytes(disk, move);
		} while (was_lost(disk, move));
	}
	while (move->armed.asked.kind == SADDLEMUG_ASKS_TO_READ && own_disk_failed(disk) > disk->told)
		pthread_cond_wait(&disk->telling, &disk->lock);
	hand_back(disk, move);
}

/* Gives the target all commands that may go. */
static void
queue_all(struct own_disk *disk)
{
	struct own_disk_move *move;
	while ((move = movable(disk)) != NULL) {
		move->state = OWN_DISK_MOVING;
		if (move->told)
			target_queue(disk->target, move);
		else
			hand_back(disk, move);
	}
}

void
own_disk_ended(struct own_disk *disk, struct own_disk_move *moves)
{
	struct own_disk_move *next;
	pthread_mutex_lock(&disk->lock);
	for (struct own_disk_move *move = moves; move != NULL; move = next) {
		next = move->next;
		hand_back(disk, move);
	}
	queue_all(disk);
	let_go(disk);
}

static void
sleep_on(sem_t *wake)
{
	while (sem_wait(wake) != 0)
		continue;
}

/* Waits until the target has answered this request. Lets go of the lock. */
static void
await_target(struct own_disk *disk, struct own_disk_request *mine)
{
	queue_all(disk);
	let_go(disk);
	target_send(disk->target);
	sleep_on(&mine->wake);
}

/* Serves what is out, whoever asked for it, until this request has its answer. Lets go of the lock. */
static void
await(struct own_disk *disk, struct own_disk_request *mine)
{
	while (!mine->answered) {
		struct own_disk_move *move = movable(disk);
		if (move != NULL) {
			serve(disk, move);
			continue;
		}
		mine->idle = true;
		pthread_mutex_unlock(&disk->lock);
		sleep_on(&mine->wake);
		pthread_mutex_lock(&disk->lock);
		mine->idle = false;
	}
	wake_one(disk);
	pthread_mutex_unlock(&disk->lock);
}

/* Calls a request, and puts it behind the others. False where it has its answer already, or is refused. */
static bool
call(struct own_disk *disk, const struct saddlemug_event *event, const uint8_t *bytes, size_t length,
	struct own_disk_request *mine)
{
	struct saddlemug_reply reply;
	if (disk->trace.file != NULL && !own_disk_trace_reserve(&disk->trace, length + mine->room)) {
		mine->status = SADDLEMUG_INSUFFICIENT_RESOURCES;
		return false;
	}
	mine->status = saddlemug_stack_step(&disk->stack, event, bytes, length, &reply);
	if (mine->status != SADDLEMUG_SUCCESS)
		return false;
	if (reply.kind != SADDLEMUG_IS_REQUEST) {
		mine->status = reply.status;
		return false;
	}
	struct own_disk_request **at = &disk->open;
	while (*at != NULL)
		at = &(*at)->next;
	*at = mine;
	mine->number = reply.id.number;
	disk->count++;
	take_labels(disk);
	return true;
}

/* A request from its call to its answer, whose bytes go into the buffer. */
static uint32_t
carry(struct own_disk *disk, const struct saddlemug_event *event, const uint8_t *bytes, size_t length,
	uint8_t *buffer, size_t room)
{
	struct own_disk_request mine = {.buffer = buffer, .room = room};
	sem_init(&mine.wake, 0, 0);
	pthread_mutex_lock(&disk->lock);
	while (disk->count == OWN_DISK_REQUESTS)
		pthread_cond_wait(&disk->room, &disk->lock);
	if (!call(disk, event, bytes, length, &mine)) {
		pthread_cond_signal(&disk->room);
		let_go(disk);
	} else if (disk->target != NULL) {
		await_target(disk, &mine);
	} else {
		await(disk, &mine);
	}
	sem_destroy(&mine.wake);
	return mine.status;
}

uint32_t
own_disk_read(struct own_disk *disk, uint64_t offset, uint8_t *buffer, size_t length)
{
	struct saddlemug_event event = {.kind = SADDLEMUG_READ, .handle = disk->handle, .offset = offset, .length = length};
	return carry(disk, &event, buffer, 0, buffer, length);
}

uint32_t
own_disk_write(struct own_disk *disk, uint64_t offset, const uint8_t *bytes, size_t length, bool through)
{
	struct saddlemug_event event = {.kind = SADDLEMUG_WRITE, .handle = disk->handle, .offset = offset, .through = through};
	uint8_t none = 0;
	return carry(disk, &event, bytes, length, &none, 0);
}

uint32_t
own_disk_flush(struct own_disk *disk)
{
	struct saddlemug_event event = {.kind = SADDLEMUG_FLUSH, .handle = disk->handle};
	uint8_t none = 0;
	return carry(disk, &event, &none, 0, &none, 0);
}
