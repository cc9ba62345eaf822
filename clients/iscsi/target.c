/* Commands are sent by whichever thread queues them, and one thread waits for what comes back, and hands it to the
 * disk. A connection that breaks fails what is out: nothing is sent a second time. The next command connects anew. */
#include <poll.h>
#include <stdlib.h>
#include <string.h>
#include <sys/eventfd.h>
#include <unistd.h>

#include <iscsi/iscsi.h>
#include <iscsi/scsi-lowlevel.h>

#include "target.h"

#define NAME "iqn.2026-11.example.saddlemug:client"

/* Seconds until a command that has no answer fails. */
#define PATIENCE 30

/* How often a unit attention is asked away. */
#define ATTENTIONS 8

/* The command on a tag. */
struct job {
	struct scsi_task *task;
	struct target *target;
	struct own_disk_move *move;
	int status;
	struct job *next;
};

struct target {
	char *url;
	int unit;
	int bell;                    /* wakes the thread */
	struct own_disk *disk;
	struct job jobs[OWN_DISK_TAGS];

	pthread_mutex_t lock;        /* of the connection, and of `ended`; taken before the next one */
	struct iscsi_context *iscsi; /* NULL: not connected */
	bool broken;
	struct job *ended;           /* commands that have their answers */

	pthread_mutex_t queue;       /* of what follows */
	struct job *waiting, **last;
	bool started, over;
	pthread_t thread;
};

static void
disconnect(struct target *target)
{
	struct iscsi_context *iscsi = target->iscsi;
	target->iscsi = NULL;
	if (iscsi != NULL)
		iscsi_destroy_context(iscsi);
}

/* Asks until the unit has nothing to tell. */
static bool
is_ready(struct target *target)
{
	for (int i = 0; i < ATTENTIONS; i++) {
		struct scsi_task *task = iscsi_testunitready_sync(target->iscsi, target->unit);
		int status = task != NULL ? task->status : SCSI_STATUS_ERROR;
		if (task != NULL)
			scsi_free_scsi_task(task);
		if (status != SCSI_STATUS_CHECK_CONDITION)
			return status == SCSI_STATUS_GOOD;
	}
	return false;
}

static bool
connect_to(struct target *target)
{
	target->iscsi = iscsi_create_context(NAME);
	if (target->iscsi == NULL)
		return false;
	iscsi_set_noautoreconnect(target->iscsi, 1);
	iscsi_set_timeout(target->iscsi, PATIENCE);
	iscsi_set_session_type(target->iscsi, ISCSI_SESSION_NORMAL);
	iscsi_set_header_digest(target->iscsi, ISCSI_HEADER_DIGEST_NONE_CRC32C);
	struct iscsi_url *url = iscsi_parse_full_url(target->iscsi, target->url);
	bool good = url != NULL && iscsi_set_targetname(target->iscsi, url->target) == 0
		&& iscsi_full_connect_sync(target->iscsi, url->portal, url->lun) == 0;
	if (url != NULL) {
		target->unit = url->lun;
		iscsi_destroy_url(url);
	}
	if (!good || !is_ready(target))
		disconnect(target);
	target->broken = false;
	return target->iscsi != NULL;
}

static void
end(struct job *job, int status)
{
	job->status = status;
	job->next = job->target->ended;
	job->target->ended = job;
}

/* libiscsi calls this once for each command: with a status of SCSI's, or one of its own where the connection broke. */
static void
on_end(struct iscsi_context *iscsi, int status, void *task, void *argument)
{
	struct job *job = argument;
	(void) iscsi;
	(void) task;
	if (status >= SCSI_STATUS_CANCELLED)
		job->target->broken = true;
	end(job, status);
}

/* The thread looks at once a second by itself. */
static void
wake(struct target *target)
{
	uint64_t one = 1;
	if (write(target->bell, &one, sizeof one) < 0)
		return;
}

static bool
has_waiting(struct target *target)
{
	pthread_mutex_lock(&target->queue);
	bool has = target->waiting != NULL;
	pthread_mutex_unlock(&target->queue);
	return has;
}

static bool
is_over(struct target *target)
{
	pthread_mutex_lock(&target->queue);
	bool over = target->over;
	pthread_mutex_unlock(&target->queue);
	return over;
}

static struct job *
take_waiting(struct target *target)
{
	pthread_mutex_lock(&target->queue);
	struct job *first = target->waiting;
	target->waiting = NULL;
	target->last = &target->waiting;
	pthread_mutex_unlock(&target->queue);
	return first;
}

/* Sends what waits, over a connection. */
static void
send_waiting(struct target *target)
{
	struct job *next;
	for (struct job *job = take_waiting(target); job != NULL; job = next) {
		next = job->next;
		if (target->iscsi == NULL || job->task == NULL
			|| iscsi_scsi_command_async(target->iscsi, target->unit, job->task, on_end, NULL, job) != 0)
			end(job, SCSI_STATUS_ERROR);
	}
	if (target->iscsi != NULL && (iscsi_which_events(target->iscsi) & POLLOUT) != 0 && iscsi_service(target->iscsi, POLLOUT) != 0)
		target->broken = true;
}

/* Is there something that only the thread does? */
static bool
needs_thread(const struct target *target)
{
	return target->iscsi == NULL || target->broken || target->ended != NULL
		|| (iscsi_which_events(target->iscsi) & POLLOUT) != 0;
}


/* What came back, as it is booked. WDK: SRB_STATUS_ERROR, with SRB_STATUS_AUTOSENSE_VALID where there is sense; and
 * SRB_STATUS_BUS_RESET where nothing came. */
static void
note(struct own_disk_move *move, int status, const struct scsi_task *task)
{
	struct saddlemug_completion *completion = &move->booking.completion;
	move->booking.failed = true;
	if (status == SCSI_STATUS_GOOD && task->residual_status == SCSI_RESIDUAL_NO_RESIDUAL)
		move->booking.failed = false;
	else if (status == SCSI_STATUS_GOOD)
		*completion = (struct saddlemug_completion){.srb_status = 0x84, .scsi_status = 2, .has_sense = true, .key = 4};
	else if (status == SCSI_STATUS_CHECK_CONDITION)
		*completion = (struct saddlemug_completion){.srb_status = 0x84, .scsi_status = 2, .has_sense = true,
			.key = task->sense.key, .asc = task->sense.ascq >> 8, .ascq = task->sense.ascq & 255};
	else if (status < SCSI_STATUS_REDIRECT)
		*completion = (struct saddlemug_completion){.srb_status = 0x04, .scsi_status = status};
	else
		*completion = (struct saddlemug_completion){.srb_status = 0x0E};
}

/* The moves of the commands that ended, which libiscsi has let go of. */
static struct own_disk_move *
take_ended(struct target *target)
{
	struct own_disk_move *moves = NULL;
	struct job *next;
	for (struct job *job = target->ended; job != NULL; job = next) {
		next = job->next;
		note(job->move, job->status, job->task);
		if (job->task != NULL)
			scsi_free_scsi_task(job->task);
		job->move->next = moves;
		moves = job->move;
	}
	target->ended = NULL;
	return moves;
}

/* Does what the socket is ready for, connects where commands wait, and tells what to wait for. */
static struct own_disk_move *
serve_once(struct target *target, struct pollfd *socket)
{
	pthread_mutex_lock(&target->lock);
	if (target->iscsi != NULL && iscsi_service(target->iscsi, socket->revents) != 0)
		target->broken = true;
	if (target->iscsi == NULL && has_waiting(target))
		connect_to(target);
	send_waiting(target);
	if (target->broken)
		disconnect(target);
	*socket = (struct pollfd){.fd = -1};
	if (target->iscsi != NULL)
		*socket = (struct pollfd){.fd = iscsi_get_fd(target->iscsi), .events = iscsi_which_events(target->iscsi)};
	struct own_disk_move *ended = take_ended(target);
	pthread_mutex_unlock(&target->lock);
	return ended;
}

static void *
serve(void *argument)
{
	struct target *target = argument;
	struct pollfd polled[2] = {{.fd = target->bell, .events = POLLIN}, {.fd = -1}};
	uint64_t count;
	while (!is_over(target)) {
		struct own_disk_move *ended = serve_once(target, &polled[1]);
		if (ended != NULL)
			own_disk_ended(target->disk, ended);
		if (has_waiting(target))
			continue;
		poll(polled, 2, 1000);
		if ((polled[0].revents & POLLIN) != 0 && read(target->bell, &count, sizeof count) < 0)
			break;
	}
	return NULL;
}

static struct scsi_task *
task_of(const struct saddlemug_armed *armed)
{
	bool reads = armed->asked.kind == SADDLEMUG_ASKS_TO_READ, writes = armed->asked.kind == SADDLEMUG_ASKS_TO_WRITE;
	struct scsi_task *task = scsi_create_task(armed->block_length, (unsigned char *) armed->block,
		reads ? SCSI_XFER_READ : writes ? SCSI_XFER_WRITE : SCSI_XFER_NONE, armed->length);
	if (task != NULL && reads)
		scsi_task_add_data_in_buffer(task, armed->length, armed->bytes);
	if (task != NULL && writes)
		scsi_task_add_data_out_buffer(task, armed->length, armed->bytes);
	return task;
}

void
target_queue(struct target *target, struct own_disk_move *move)
{
	struct job *job = &target->jobs[move->booking.tag];
	*job = (struct job){.target = target, .move = move, .task = task_of(&move->armed)};
	pthread_mutex_lock(&target->queue);
	*target->last = job;
	target->last = &job->next;
	pthread_mutex_unlock(&target->queue);
}

/* The first command starts the thread: a server may fork before it. */
static bool
has_started(struct target *target)
{
	pthread_mutex_lock(&target->queue);
	if (!target->started)
		target->started = pthread_create(&target->thread, NULL, serve, target) == 0;
	bool started = target->started;
	pthread_mutex_unlock(&target->queue);
	return started;
}

/* Fails what waits. */
static void
fail_waiting(struct target *target)
{
	struct job *next;
	pthread_mutex_lock(&target->lock);
	for (struct job *job = take_waiting(target); job != NULL; job = next) {
		next = job->next;
		end(job, SCSI_STATUS_ERROR);
	}
	struct own_disk_move *ended = take_ended(target);
	pthread_mutex_unlock(&target->lock);
	own_disk_ended(target->disk, ended);
}

void
target_send(struct target *target)
{
	while (!has_started(target) && has_waiting(target))
		fail_waiting(target);
	/* Who holds the lock looks at the queue once more when it has let go of it. */
	bool connected = true;
	while (connected && has_waiting(target) && pthread_mutex_trylock(&target->lock) == 0) {
		connected = target->iscsi != NULL;
		if (connected)
			send_waiting(target);
		if (needs_thread(target))
			wake(target);
		pthread_mutex_unlock(&target->lock);
	}
}

/* The sizes, and sector 0. */
static const char *
look_at(struct target *target, uint64_t *sectors, uint32_t *sector_size, uint8_t *first)
{
	struct scsi_task *task = iscsi_readcapacity16_sync(target->iscsi, target->unit);
	bool good = task != NULL && task->status == SCSI_STATUS_GOOD;
	struct scsi_readcapacity16 *told = good ? scsi_datain_unmarshall(task) : NULL;
	good = told != NULL;
	if (good) {
		*sectors = told->returned_lba + 1;
		*sector_size = told->block_length;
	}
	if (task != NULL)
		scsi_free_scsi_task(task);
	if (!good)
		return "it tells no capacity";
	if (*sector_size != 512 && *sector_size != 4096)
		return "a sector has 512 or 4096 bytes";
	task = iscsi_read10_sync(target->iscsi, target->unit, 0, *sector_size, *sector_size, 0, 0, 0, 0, 0);
	good = task != NULL && task->status == SCSI_STATUS_GOOD && task->datain.size == (int) *sector_size;
	if (good)
		memcpy(first, task->datain.data, *sector_size);
	if (task != NULL)
		scsi_free_scsi_task(task);
	return good ? NULL : "its first sector can't be read";
}

const char *
target_open(struct own_disk *disk, const char *url, uint64_t *sectors, uint8_t *first)
{
	struct target *target = calloc(1, sizeof *target);
	const char *why = "there is no memory";
	if (target == NULL)
		return why;
	target->disk = disk;
	pthread_mutex_init(&target->lock, NULL);
	pthread_mutex_init(&target->queue, NULL);
	target->last = &target->waiting;
	target->bell = eventfd(0, EFD_CLOEXEC);
	target->url = strdup(url);
	if (target->url != NULL && target->bell >= 0)
		why = connect_to(target) ? look_at(target, sectors, &disk->sector_size, first) : "no target answers there";
	if (why == NULL)
		disk->target = target;
	else
		target_close(target);
	return why;
}

void
target_close(struct target *target)
{
	pthread_mutex_lock(&target->queue);
	target->over = true;
	pthread_mutex_unlock(&target->queue);
	wake(target);
	if (target->started)
		pthread_join(target->thread, NULL);
	disconnect(target);
	close(target->bell);
	free(target->url);
	free(target);
}
