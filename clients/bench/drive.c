/* A driver bench whose runs are judged as they go: random calls, cancels, resets and removals over a stack. It prints the trace,
 * which `drive settings > CONFIG; drive EVENTS SEED | stackjudge check --settled CONFIG -` judges again. With a request's NUMBER
 * the judge is told another count in its answer, and has to refuse it. */
#include <inttypes.h>
#include <stdio.h>
#include <stdlib.h>

#include "descriptors.h"
#include "saddlemug.h"

static const char settings[] =
	"sector_size = 512\nsectors = 4096\nmax_transfer = 4\ndepth = 4\nwindow = 8\n[[partition]]\nfirst = 64\ncount = 1024\n";

#define SECTOR 512
#define SECTORS 1024
#define LONGEST 16
#define TAGS 4

static struct saddlemug_stack stack;
static struct saddlemug_judge judge;
static struct saddlemug_id handle;
static uint8_t bytes[LONGEST * SECTOR], told[LONGEST * SECTOR];
static uint64_t calls;
static uint64_t wrong;  /* the request whose answer is told wrongly, or 0 */
static uint64_t flush;  /* the one that is open, or 0: of two the judge could not tell whose a block is */

/* What the numbers of a label say of requests. */
static void
note(const struct saddlemug_label *label)
{
	if (label->kind == SADDLEMUG_CALLED)
		calls = label->number;
	if (label->kind == SADDLEMUG_CALLED && label->request == 2)
		flush = label->number;
	if (label->kind == SADDLEMUG_ANSWERED && label->number == flush)
		flush = 0;
}

/* The trace has the answers: they leave the stack. */
static void
take_answers(void)
{
	struct saddlemug_answer answer;
	while (saddlemug_stack_take_answer(&stack, &answer, told, sizeof told))
		continue;
}

static void
refuse(const char *line)
{
	char why[256];
	saddlemug_judge_why(&judge, why, sizeof why);
	fprintf(stderr, "drive: %s: %s\n", line, why);
	exit(EXIT_FAILURE);
}

/* Prints a label, and has it judged. */
static void
tell(struct saddlemug_label label)
{
	static char line[8 * sizeof told];
	if (label.kind == SADDLEMUG_ANSWERED && label.number == wrong)
		label.information++;
	if (saddlemug_label_line(&label, told, label.bytes, line, sizeof line) == 0)
		exit(EXIT_FAILURE);
	puts(line);
	if (saddlemug_judge_take(&judge, &label, told, label.bytes) != SADDLEMUG_TAKEN)
		refuse(line);
}

/* Carries an event out, and has what it did judged. */
static struct saddlemug_reply
carry(struct saddlemug_event event, size_t length)
{
	struct saddlemug_reply reply;
	struct saddlemug_label label;
	if (saddlemug_stack_step(&stack, &event, bytes, length, &reply) != SADDLEMUG_SUCCESS)
		exit(EXIT_FAILURE);
	while (saddlemug_stack_take_label(&stack, &label, told, sizeof told)) {
		tell(label);
		note(&label);
	}
	if (!saddlemug_judge_settled(&judge))
		refuse("something is left undone");
	take_answers();
	return reply;
}

static void
call(void)
{
	struct saddlemug_event event = {.kind = SADDLEMUG_READ + (uint32_t) rand() % 3, .handle = handle, .through = rand() % 4 == 0};
	uint64_t first = rand() % SECTORS, count = 1 + rand() % LONGEST;
	if (event.kind == SADDLEMUG_FLUSH && flush != 0)
		event.kind = SADDLEMUG_READ;
	event.offset = first * SECTOR;
	event.length = count * SECTOR;
	for (size_t at = 0; at < count; at++)
		memset(bytes + at * SECTOR, rand(), SECTOR);
	carry(event, event.kind == SADDLEMUG_WRITE ? event.length : 0);
}

/* Mostly of the adapter. */
static void
go_on(void)
{
	uint8_t tag = rand() % TAGS;
	int what = rand() % 200;
	if (what < 60)
		call();
	else if (what < 120)
		carry((struct saddlemug_event){.kind = SADDLEMUG_ACT, .tag = tag}, 0);
	else if (what < 190)
		carry((struct saddlemug_event){.kind = SADDLEMUG_FINISH, .tag = tag}, 0);
	else if (what < 196 && calls > 0)
		carry((struct saddlemug_event){.kind = SADDLEMUG_MARK, .request = {.number = 1 + rand() % calls}}, 0);
	else if (what < 199)
		carry((struct saddlemug_event){.kind = rand() % 2 ? SADDLEMUG_QUERY_REMOVE : SADDLEMUG_CANCEL_REMOVE}, 0);
	else
		carry((struct saddlemug_event){.kind = SADDLEMUG_RESET}, 0);
}

static void
end(void)
{
	carry((struct saddlemug_event){.kind = SADDLEMUG_SURPRISE_REMOVE}, 0);
	for (uint8_t tag = 0; tag < TAGS; tag++)
		carry((struct saddlemug_event){.kind = SADDLEMUG_FINISH, .tag = tag}, 0);
	saddlemug_stack_close(&stack);
	saddlemug_judge_close(&judge);
}

int
main(int argc, char **argv)
{
	if (!take_descriptors())
		return EXIT_FAILURE;
	if (argc == 2 && strcmp(argv[1], "settings") == 0)
		return fputs(settings, stdout) < 0 || fflush(stdout) != 0;
	if (argc != 3 && argc != 4) {
		fputs("usage: drive settings | drive EVENTS SEED [NUMBER]\n", stderr);
		return 2;
	}
	if (saddlemug_stack_open(&stack, (const uint8_t *) settings, sizeof settings - 1) != SADDLEMUG_SUCCESS
		|| saddlemug_judge_open(&judge, (const uint8_t *) settings, sizeof settings - 1) != SADDLEMUG_SUCCESS)
		return EXIT_FAILURE;
	srand(atoi(argv[2]));
	wrong = argc == 4 ? strtoull(argv[3], NULL, 10) : 0;
	handle = carry((struct saddlemug_event){.kind = SADDLEMUG_OPEN}, 0).id;
	for (int count = atoi(argv[1]); count > 0; count--)
		go_on();
	end();
	return fflush(stdout) != 0;
}
