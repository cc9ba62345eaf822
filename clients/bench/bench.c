/* A test bench over the static library: it places cancels, a reset and a removal between the steps of an adapter, and tells
 * wrong things of commands that it moves by itself. */
#include <inttypes.h>
#include <stdio.h>
#include <string.h>

#include "saddlemug.h"

static const char settings[] =
	"sector_size = 512\nsectors = 4096\nmax_transfer = 2\ndepth = 2\nwindow = 2\n[[partition]]\nfirst = 2048\ncount = 1024\n";

static struct saddlemug_stack stack;
static struct saddlemug_reply reply;
static uint8_t bytes[4096], got[4096];
static int failed;

static void
expect(const char *what, uint64_t is, uint64_t wanted)
{
	if (is == wanted)
		return;
	fprintf(stderr, "%s is %" PRIX64 ", and not %" PRIX64 "\n", what, is, wanted);
	failed = 1;
}

/* A step, of whose reply the kind is known. */
static void
step(const char *what, struct saddlemug_event event, size_t length, uint32_t kind)
{
	expect(what, saddlemug_stack_step(&stack, &event, bytes, length, &reply), SADDLEMUG_SUCCESS);
	expect(what, reply.kind, kind);
}

/* The answer of a request, which is not the lowest that waits. */
static void
answered_apart(const char *what, uint64_t number, uint32_t status, uint64_t count)
{
	struct saddlemug_answer answer = {0};
	expect(what, saddlemug_stack_take_answer_of(&stack, number + 100, &answer, got, sizeof got), false);
	expect(what, answer.number, 0);
	expect(what, saddlemug_stack_take_answer_of(&stack, number, &answer, got, sizeof got), true);
	expect(what, answer.number, number);
	expect(what, answer.status, status);
	expect(what, answer.information, count);
	expect(what, saddlemug_stack_take_answer_of(&stack, number, &answer, got, sizeof got), false);
}

/* The next answer is that of a request. */
static void
answered(const char *what, uint64_t number, uint32_t status, uint64_t count)
{
	struct saddlemug_answer answer = {0};
	expect(what, saddlemug_stack_take_answer(&stack, &answer, got, sizeof got), true);
	expect(what, answer.number, number);
	expect(what, answer.status, status);
	expect(what, answer.information, count);
}

/* Over storage of the program's own: two sectors, of which the second is the partition. */
static uint8_t sectors[2][512];

static void
misuse(const struct saddlemug_armed *armed, struct saddlemug_booking booking)
{
	struct saddlemug_armed other;
	expect("no stack", saddlemug_stack_book(NULL, &booking), SADDLEMUG_INVALID_PARAMETER);
	expect("no booking", saddlemug_stack_book(&stack, NULL), SADDLEMUG_INVALID_PARAMETER);
	expect("nothing to tell it in", saddlemug_stack_armed(&stack, 0, NULL), SADDLEMUG_INVALID_PARAMETER);
	expect("a tag without a command", saddlemug_stack_armed(&stack, 1, &other), SADDLEMUG_NOT_FOUND);
	expect("a tag that the adapter lacks", saddlemug_stack_armed(&stack, 255, &other), SADDLEMUG_NOT_FOUND);
	booking.length = 511;
	expect("another length", saddlemug_stack_book(&stack, &booking), SADDLEMUG_INVALID_PARAMETER);
	booking.length = 512;
	booking.tag = 255;
	expect("another tag", saddlemug_stack_book(&stack, &booking), SADDLEMUG_NOT_FOUND);
	booking.tag = 0;
	booking.piece_high++;
	expect("another command", saddlemug_stack_book(&stack, &booking), SADDLEMUG_NOT_FOUND);
	booking.piece_high--;
	booking.failed = true;
	booking.completion.srb_status = 1;
	expect("a failure that is none", saddlemug_stack_book(&stack, &booking), SADDLEMUG_INVALID_PARAMETER);
	booking.failed = false;
	armed->bytes[0] ^= 1;
	expect("changed bytes", saddlemug_stack_book(&stack, &booking), SADDLEMUG_INVALID_PARAMETER);
	armed->bytes[0] ^= 1;
}

/* The command that is out is moved and booked. */
static void
serve(uint32_t kind, bool misused)
{
	struct saddlemug_armed armed;
	expect("armed", saddlemug_stack_armed(&stack, 0, &armed), SADDLEMUG_SUCCESS);
	expect("its kind", armed.asked.kind, kind);
	expect("its sector", armed.asked.first, 1);
	expect("its length", armed.length, 512);
	struct saddlemug_booking booking = {.piece_low = armed.piece_low, .piece_high = armed.piece_high, .length = armed.length};
	if (misused)
		misuse(&armed, booking);
	if (kind == SADDLEMUG_ASKS_TO_READ)
		memcpy(armed.bytes, sectors[armed.asked.first], 512);
	else
		memcpy(sectors[armed.asked.first], armed.bytes, 512);
	expect("booked", saddlemug_stack_book(&stack, &booking), SADDLEMUG_SUCCESS);
	expect("booked twice", saddlemug_stack_book(&stack, &booking), SADDLEMUG_NOT_FOUND);
	step("act", (struct saddlemug_event){.kind = SADDLEMUG_ACT}, 0, SADDLEMUG_IS_DONE);
	expect("booked late", saddlemug_stack_book(&stack, &booking), SADDLEMUG_NOT_FOUND);
	step("finish", (struct saddlemug_event){.kind = SADDLEMUG_FINISH}, 0, SADDLEMUG_IS_DONE);
}

static void
over(void)
{
	struct saddlemug_disk disk = {.sectors = 2, .max_transfer = 8, .depth = 2, .window = 2, .open_requests = 2};
	struct saddlemug_armed armed;
	sectors[0][450] = 0x83;
	sectors[0][454] = sectors[0][458] = 1;
	expect("no table", saddlemug_stack_open_over(&stack, &disk, sectors[0], 512), SADDLEMUG_INVALID_PARAMETER);
	sectors[0][510] = 0x55;
	sectors[0][511] = 0xAA;
	expect("no disk", saddlemug_stack_open_over(&stack, NULL, sectors[0], 512), SADDLEMUG_INVALID_PARAMETER);
	expect("an empty room", saddlemug_stack_armed(&stack, 0, &armed), SADDLEMUG_INVALID_HANDLE);
	expect("open", saddlemug_stack_open_over(&stack, &disk, sectors[0], 512), SADDLEMUG_SUCCESS);
	if (failed)
		return;
	expect("a room that is full", saddlemug_stack_open_over(&stack, &disk, sectors[0], 512), SADDLEMUG_INVALID_PARAMETER);
	step("open", (struct saddlemug_event){.kind = SADDLEMUG_OPEN}, 0, SADDLEMUG_IS_HANDLE);
	struct saddlemug_id handle = reply.id;
	memset(bytes, 0x5A, 512);
	step("write", (struct saddlemug_event){.kind = SADDLEMUG_WRITE, .handle = handle}, 512, SADDLEMUG_IS_REQUEST);
	serve(SADDLEMUG_ASKS_TO_WRITE, true);
	answered("write", 1, SADDLEMUG_SUCCESS, 512);
	expect("what was written", memcmp(sectors[1], bytes, 512), 0);
	sectors[1][7] = 7;
	step("read", (struct saddlemug_event){.kind = SADDLEMUG_READ, .handle = handle, .length = 512}, 0, SADDLEMUG_IS_REQUEST);
	serve(SADDLEMUG_ASKS_TO_READ, false);
	answered("read", 2, SADDLEMUG_SUCCESS, 512);
	expect("what was read", memcmp(got, sectors[1], 512), 0);
	saddlemug_stack_close(&stack);
}

/* The version, the names of statuses, and what is wrong with settings. */
static void
words(void)
{
	char room[SADDLEMUG_NAME_ROOM], why[64];
	const uint8_t *text = (const uint8_t *) settings;
	expect("the version", saddlemug_version(), SADDLEMUG_VERSION);
	expect("a name", strcmp(saddlemug_status_name(SADDLEMUG_SUCCESS, room), "STATUS_SUCCESS"), 0);
	expect("the longest name", strcmp(saddlemug_status_name(UINT32_C(0xC0000016), room), "STATUS_MORE_PROCESSING_REQUIRED"), 0);
	expect("no name", strcmp(saddlemug_status_name(1, room), "a status without a name"), 0);
	expect("no fault", saddlemug_settings_fault(text, strlen(settings), why, sizeof why), false);
	expect("no words", why[0], 0);
	expect("a fault", saddlemug_settings_fault(text, 18, why, sizeof why), true);
	expect("its words", strcmp(why, "config: missing key"), 0);
	expect("a fault in little room", saddlemug_settings_fault(text, 18, why, 7), true);
	expect("its words", strcmp(why, "config"), 0);
	expect("no settings", saddlemug_settings_fault(NULL, 0, why, sizeof why), true);
}

/* A write to a protected disk comes back bad: DATA PROTECT, WRITE PROTECTED. */
static void
failed_write(void)
{
	struct saddlemug_label label = {0};
	step("open", (struct saddlemug_event){.kind = SADDLEMUG_OPEN}, 0, SADDLEMUG_IS_HANDLE);
	step("write", (struct saddlemug_event){.kind = SADDLEMUG_WRITE, .handle = reply.id}, 512, SADDLEMUG_IS_REQUEST);
	step("act", (struct saddlemug_event){.kind = SADDLEMUG_ACT}, 0, SADDLEMUG_IS_DONE);
	step("finish", (struct saddlemug_event){.kind = SADDLEMUG_FINISH}, 0, SADDLEMUG_IS_DONE);
	expect("a return", saddlemug_stack_take_label(&stack, &label, got, 0), true);
	expect("a return", label.kind, SADDLEMUG_RETURNED);
	expect("how", label.class_, 2);
	expect("CHECK CONDITION", label.completion.scsi_status, 2);
	expect("with sense", label.completion.has_sense, true);
	expect("DATA PROTECT", label.completion.key, 7);
	expect("WRITE PROTECTED", label.completion.asc, 0x27);
	answered("write", 1, SADDLEMUG_MEDIA_WRITE_PROTECTED, 0);
}

/* A disk by numbers: the second of its two partitions, with a bad sector. */
static void
numbers(void)
{
	struct saddlemug volume = {0};
	struct saddlemug_memory disk = {.sectors = 64, .sector_size = 512, .max_transfer = 8, .depth = 2, .window = 2, .open_requests = 2,
		.partition_count = 2, .partitions = {{1, 8, 0x83}, {16, 4, 7}}};
	uint64_t bad = 17;
	expect("no disk", saddlemug_open_memory(&volume, NULL, NULL, 0, 0), SADDLEMUG_INVALID_PARAMETER);
	expect("no bad sectors", saddlemug_open_memory(&volume, &disk, NULL, 1, 0), SADDLEMUG_INVALID_PARAMETER);
	expect("no third partition", saddlemug_open_memory(&volume, &disk, NULL, 0, 2), SADDLEMUG_INVALID_PARAMETER);
	expect("the second", saddlemug_open_memory(&volume, &disk, &bad, 1, 1), SADDLEMUG_SUCCESS);
	expect("its sectors", saddlemug_sizes(&volume).sectors, 4);
	memset(bytes, 0x3C, 512);
	expect("a write", saddlemug_write(&volume, 1024, bytes, 512, false), SADDLEMUG_SUCCESS);
	expect("a read", saddlemug_read(&volume, 1024, got, 512), SADDLEMUG_SUCCESS);
	expect("what was read", memcmp(got, bytes, 512), 0);
	expect("a bad sector", saddlemug_read(&volume, 512, got, 512), SADDLEMUG_DEVICE_DATA_ERROR);
	saddlemug_close(&volume);
	disk.write_protected = true;
	expect("protected", saddlemug_open_memory(&volume, &disk, NULL, 0, 0), SADDLEMUG_SUCCESS);
	expect("a write there", saddlemug_write(&volume, 0, bytes, 512, false), SADDLEMUG_MEDIA_WRITE_PROTECTED);
	saddlemug_close(&volume);
	disk.partitions[1].first = 8;
	expect("an overlap", saddlemug_stack_open_memory(&stack, &disk, NULL, 0), SADDLEMUG_INVALID_PARAMETER);
	disk.partition_count = 1;
	expect("a stack", saddlemug_stack_open_memory(&stack, &disk, NULL, 0), SADDLEMUG_SUCCESS);
	expect("its room", saddlemug_stack_open_memory(&stack, &disk, NULL, 0), SADDLEMUG_INVALID_PARAMETER);
	failed_write();
	saddlemug_stack_close(&stack);
}

/* What the calls that open and close find by themselves. */
static void
rooms(void)
{
	const uint8_t *text = (const uint8_t *) settings;
	struct saddlemug volume = {0};
	expect("no room", saddlemug_open(NULL, text, strlen(settings), 0), SADDLEMUG_INVALID_PARAMETER);
	expect("no settings", saddlemug_open(&volume, NULL, 0, 0), SADDLEMUG_INVALID_PARAMETER);
	saddlemug_close(&volume);
	expect("a volume", saddlemug_open(&volume, text, strlen(settings), 0), SADDLEMUG_SUCCESS);
	expect("a volume's room that is full", saddlemug_open(&volume, text, strlen(settings), 0), SADDLEMUG_INVALID_PARAMETER);
	saddlemug_close(&volume);
	saddlemug_close(&volume);
	saddlemug_stack_close(&stack);
	expect("a stack's room that is full", saddlemug_stack_open(&stack, text, strlen(settings)), SADDLEMUG_SUCCESS);
	expect("a stack's room that is full", saddlemug_stack_open(&stack, text, strlen(settings)), SADDLEMUG_INVALID_PARAMETER);
	struct saddlemug_event read = {.kind = SADDLEMUG_READ, .length = UINT64_C(1) << 40};
	expect("a terabyte", saddlemug_stack_step(&stack, &read, bytes, 0, &reply), SADDLEMUG_SUCCESS);
	expect("a terabyte", reply.status, SADDLEMUG_INVALID_HANDLE);
	saddlemug_stack_close(&stack);
	saddlemug_stack_close(NULL);
}

int
main(void)
{
	struct saddlemug_label label;
	struct saddlemug_answer none;

	expect("open", saddlemug_stack_open(&stack, (const uint8_t *) settings, strlen(settings)), SADDLEMUG_SUCCESS);
	if (failed)
		return 1;
	step("open", (struct saddlemug_event){.kind = SADDLEMUG_OPEN}, 0, SADDLEMUG_IS_HANDLE);
	struct saddlemug_id handle = reply.id;

	/* Two sectors are written and read back, with the labels of the write. */
	memset(bytes, 0xA5, sizeof bytes);
	struct saddlemug_event write = {.kind = SADDLEMUG_WRITE, .handle = handle, .offset = 512};
	step("write", write, 1024, SADDLEMUG_IS_REQUEST);
	expect("label", saddlemug_stack_take_label(&stack, &label, got, sizeof got), true);
	expect("label", label.kind, SADDLEMUG_CALLED);
	expect("its length", label.length, 1024);
	expect("label", saddlemug_stack_take_label(&stack, &label, got, sizeof got), true);
	expect("label", label.kind, SADDLEMUG_STARTED);
	expect("WRITE(10)", got[0], 0x2A);
	expect("its sector", got[5] | got[4] << 8, 2049);
	expect("no label", saddlemug_stack_take_label(&stack, &label, got, sizeof got), false);
	step("finish", (struct saddlemug_event){.kind = SADDLEMUG_FINISH, .tag = 1}, 0, SADDLEMUG_IS_IGNORED);
	step("act", (struct saddlemug_event){.kind = SADDLEMUG_ACT}, 0, SADDLEMUG_IS_DONE);
	step("finish", (struct saddlemug_event){.kind = SADDLEMUG_FINISH}, 0, SADDLEMUG_IS_DONE);
	answered("write", 1, SADDLEMUG_SUCCESS, 1024);
	struct saddlemug_event read = {.kind = SADDLEMUG_READ, .handle = handle, .offset = 512, .length = 1024};
	step("read", read, 0, SADDLEMUG_IS_REQUEST);
	step("act", (struct saddlemug_event){.kind = SADDLEMUG_ACT}, 0, SADDLEMUG_IS_DONE);
	step("finish", (struct saddlemug_event){.kind = SADDLEMUG_FINISH}, 0, SADDLEMUG_IS_DONE);
	answered_apart("read", 2, SADDLEMUG_SUCCESS, 1024);
	expect("what was read", memcmp(got, bytes, 1024), 0);

	/* A read of four pieces, cancelled after the first two went out: the rest is not sent. */
	read.length = 4096;
	step("read", read, 0, SADDLEMUG_IS_REQUEST);
	step("cancel", (struct saddlemug_event){.kind = SADDLEMUG_CANCEL_IO_EX, .handle = handle, .request = reply.id, .one = true}, 0,
		SADDLEMUG_IS_DONE);
	for (uint8_t tag = 0; tag < 2; tag++)
		step("finish", (struct saddlemug_event){.kind = SADDLEMUG_FINISH, .tag = tag}, 0, SADDLEMUG_IS_DONE);
	answered("cancelled read", 3, SADDLEMUG_CANCELLED, 0);

	/* A reset before the piece acted. */
	read.length = 512;
	step("read", read, 0, SADDLEMUG_IS_REQUEST);
	step("reset", (struct saddlemug_event){.kind = SADDLEMUG_RESET}, 0, SADDLEMUG_IS_DONE);
	step("finish", (struct saddlemug_event){.kind = SADDLEMUG_FINISH}, 0, SADDLEMUG_IS_DONE);
	answered("reset read", 4, SADDLEMUG_IO_DEVICE_ERROR, 0);

	/* The disk is pulled out while a write is at the adapter; later calls are refused. */
	step("write", write, 512, SADDLEMUG_IS_REQUEST);
	step("surprise", (struct saddlemug_event){.kind = SADDLEMUG_SURPRISE_REMOVE}, 0, SADDLEMUG_IS_DONE);
	step("late write", write, 512, SADDLEMUG_IS_REFUSED);
	expect("late write", reply.status, SADDLEMUG_DELETE_PENDING);
	step("finish", (struct saddlemug_event){.kind = SADDLEMUG_FINISH}, 0, SADDLEMUG_IS_DONE);
	uint32_t last = SADDLEMUG_CALLED;
	while (saddlemug_stack_take_label(&stack, &label, got, sizeof got))
		last = label.kind;
	expect("the last label", last, SADDLEMUG_REMOVED);
	expect("an answer", saddlemug_stack_take_answer(&stack, &none, got, sizeof got), true);
	expect("its number", none.number, 5);
	expect("no more", saddlemug_stack_take_answer(&stack, &none, got, sizeof got), false);

	struct saddlemug_event unknown = {.kind = SADDLEMUG_RESET + 1};
	expect("no event", saddlemug_stack_step(&stack, &unknown, bytes, 0, &reply), SADDLEMUG_INVALID_PARAMETER);
	struct saddlemug_armed armed;
	expect("a disk in memory", saddlemug_stack_armed(&stack, 0, &armed), SADDLEMUG_INVALID_DEVICE_REQUEST);
	saddlemug_stack_close(&stack);
	over();
	rooms();
	words();
	numbers();
	if (!failed && puts("the bench found what it expected") >= 0 && fflush(stdout) != 0) {
		perror("bench: standard output");
		return 1;
	}
	return failed;
}
