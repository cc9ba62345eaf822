/* An iSCSI target below the stack: the command blocks that the stack made go out as they are, and what comes back is
 * booked as it is. */
#ifndef TARGET_H
#define TARGET_H

#include "own_disk.h"

struct target;

#ifdef WITH_ISCSI

/* Logs in at iscsi://HOST[:PORT]/NAME/UNIT, asks unit attentions away, and tells the disk its target and the bytes of a
 * sector; besides how many sectors there are, and the first of them, of which there are 4096 bytes at most. NULL, or why
 * not. */
const char *target_open(struct own_disk *disk, const char *url, uint64_t *sectors, uint8_t *first);

/* Puts a command that was told out behind those that wait to be sent, which takes no time. */
void target_queue(struct target *target, struct own_disk_move *move);

/* Sends what waits. `own_disk_ended` tells what became of it, in a thread of the target's. Any thread may call it, also
 * while others do, but not with the disk's lock. */
void target_send(struct target *target);

void target_close(struct target *target);

#else

static inline const char *
target_open(struct own_disk *disk, const char *url, uint64_t *sectors, uint8_t *first)
{
	(void) disk, (void) url, (void) sectors, (void) first;
	return "this was built without libiscsi";
}

static inline void
target_queue(struct target *target, struct own_disk_move *move)
{
	(void) target, (void) move;
}

static inline void
target_send(struct target *target)
{
	(void) target;
}

static inline void
target_close(struct target *target)
{
	(void) target;
}

#endif

#endif
