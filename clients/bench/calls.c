/* Each call of the library on small cases, with what it has to answer: `make` builds it; `clients/check` and `stackrun test`
 * run it. Its status is 0 where all was so. */
#include <stdio.h>
#include <string.h>

#include "saddlemug.h"

/* A partition of the sectors 1 to 8, of which the last is bad, in transfers of two. */
#define SIZES "sector_size = 512\nsectors = 9\nmax_transfer = 2\ndepth = 1\nwindow = 1\n"
static const char SETTINGS[] = SIZES "bad_sectors = [8]\n[[partition]]\nfirst = 1\ncount = 8\n";

static const struct saddlemug_memory MEMORY = {.sectors = 9, .sector_size = 512, .max_transfer = 2, .depth = 1, .window = 1,
	.open_requests = 64, .partition_count = 1, .partitions = {{1, 8, 7}, {1, 8, 7}, {1, 8, 7}, {1, 8, 7}}};

static const struct saddlemug_disk DISK = {.sectors = 9, .max_transfer = 2, .depth = 2, .window = 2, .open_requests = 4};

static int wrong;

#define IS(what) is(what, #what, __LINE__)

static void
is(bool so, const char *what, int line)
{
	if (!so)
		fprintf(stderr, "calls: line %d: not so: %s\n", line, what);
	wrong += !so;
}

static const uint8_t *
text(const char *it)
{
	return (const uint8_t *) it;
}

static bool
is_all(const uint8_t *bytes, size_t length, uint8_t byte)
{
	for (size_t i = 0; i < length; i++)
		if (bytes[i] != byte)
			return false;
	return true;
}

static void
fill(uint8_t *bytes, size_t length, uint8_t byte)
{
	memset(bytes, byte, length);
}

static void
writes_and_reads(void)
{
	struct saddlemug volume = {0};
	uint8_t buffer[2048] = {0}, bytes[1024];
	fill(bytes, sizeof bytes, 0xA5);
	IS(saddlemug_open(&volume, text(SETTINGS), strlen(SETTINGS), 0) == SADDLEMUG_SUCCESS);
	struct saddlemug_sizes sizes = saddlemug_sizes(&volume);
	IS(sizes.sector_size == 512 && sizes.sectors == 8);
	IS(saddlemug_write(&volume, 512, bytes, 1024, true) == SADDLEMUG_SUCCESS);
	IS(saddlemug_flush(&volume) == SADDLEMUG_SUCCESS);
	IS(saddlemug_read(&volume, 0, buffer, 2048) == SADDLEMUG_SUCCESS);
	IS(is_all(buffer, 512, 0) && is_all(buffer + 512, 1024, 0xA5) && is_all(buffer + 1536, 512, 0));
	/* Past the end, and no whole sectors. */
	IS(saddlemug_write(&volume, 3584, bytes, 1024, false) == SADDLEMUG_INVALID_PARAMETER);
	IS(saddlemug_read(&volume, 100, buffer, 2048) == SADDLEMUG_INVALID_PARAMETER);
	/* A bad sector: the buffer stays as it was. */
	IS(saddlemug_read(&volume, 2048, buffer, 2048) == SADDLEMUG_DEVICE_DATA_ERROR);
	IS(is_all(buffer + 512, 1024, 0xA5));
	saddlemug_close(&volume);
}

/* Of four parts of 32 KiB the third is written. */
static void
tells_what_was_never_written(void)
{
	static const struct {
		uint64_t offset, count, run;
		bool are_zeros;
	} rows[] = {{0, 131072, 65536, true}, {65536, 65536, 32768, false}, {66048, 1024, 1024, false}, {98304, 32768, 32768, true}, {512, 512, 512, true},
		{0, 0, 0, false}, {100, 512, 0, false}, {0, 100, 0, false}, {0, 131584, 0, false}, {131072, 512, 0, false}, {0, UINT64_MAX - 511, 0, false}};
	struct saddlemug_memory disk = MEMORY;
	struct saddlemug volume = {0};
	struct saddlemug_run run;
	uint8_t bytes[512];
	disk.sectors = 257;
	disk.partitions[0].count = 256;
	fill(bytes, sizeof bytes, 0xA5);
	IS(saddlemug_open_memory(&volume, &disk, NULL, 0, 0) == SADDLEMUG_SUCCESS);
	run = saddlemug_run(&volume, 0, 131072);
	IS(run.count == 131072 && run.are_zeros);
	IS(saddlemug_write(&volume, 65536 + 512, bytes, 512, false) == SADDLEMUG_SUCCESS);
	for (size_t i = 0; i < sizeof rows / sizeof *rows; i++) {
		run = saddlemug_run(&volume, rows[i].offset, rows[i].count);
		IS(run.count == rows[i].run && run.are_zeros == rows[i].are_zeros);
	}
	saddlemug_close(&volume);
}

/* A read that is longer, shorter or refused leaves nothing in the next one. */
static void
reads_of_all_lengths(void)
{
	static const size_t lengths[] = {512, 2048, 0, 1024, 512, 3584};
	struct saddlemug volume = {0};
	uint8_t buffer[4096], bytes[512];
	fill(bytes, sizeof bytes, 0xA5);
	IS(saddlemug_open(&volume, text(SETTINGS), strlen(SETTINGS), 0) == SADDLEMUG_SUCCESS);
	IS(saddlemug_write(&volume, 0, bytes, 512, false) == SADDLEMUG_SUCCESS);
	for (size_t i = 0; i < sizeof lengths / sizeof *lengths; i++) {
		fill(buffer, sizeof buffer, 0x5A);
		IS(saddlemug_read(&volume, 0, buffer, 4096) == SADDLEMUG_DEVICE_DATA_ERROR && is_all(buffer, 4096, 0x5A));
		IS(saddlemug_read(&volume, 0, buffer, lengths[i]) == SADDLEMUG_SUCCESS);
		IS(is_all(buffer, lengths[i] < 512 ? lengths[i] : 512, 0xA5));
		IS(lengths[i] <= 512 || is_all(buffer + 512, lengths[i] - 512, 0));
		IS(is_all(buffer + lengths[i], sizeof buffer - lengths[i], 0x5A));
	}
	saddlemug_close(&volume);
}

static void
refuses_what_it_cannot_open(void)
{
	static const struct {
		const char *settings;
		uint8_t partition;
	} rows[] = {{"\xFF", 0}, {"sectors = 9", 0}, {"[", 0}, {SETTINGS, 1}};
	for (size_t i = 0; i < sizeof rows / sizeof *rows; i++) {
		struct saddlemug volume = {0};
		IS(saddlemug_open(&volume, text(rows[i].settings), strlen(rows[i].settings), rows[i].partition) == SADDLEMUG_INVALID_PARAMETER);
		IS(volume.at == NULL);
	}
}

static struct saddlemug_event
event(uint32_t kind, struct saddlemug_id handle)
{
	return (struct saddlemug_event){.kind = kind, .handle = handle, .offset = 1024, .length = 512};
}

/* A step that is carried out, and its reply. */
static struct saddlemug_reply
step(struct saddlemug_stack *stack, uint32_t kind, struct saddlemug_id handle, const uint8_t *bytes, size_t length)
{
	struct saddlemug_event it = event(kind, handle);
	struct saddlemug_reply reply = {.kind = 99};
	IS(saddlemug_stack_step(stack, &it, bytes, length, &reply) == SADDLEMUG_SUCCESS);
	return reply;
}

static const struct saddlemug_id NOBODY;

static void
steps_a_stack(void)
{
	struct saddlemug_stack stack = {0};
	struct saddlemug_label call = {0}, start = {0};
	struct saddlemug_answer first = {0}, answer = {0};
	uint8_t bytes[512], sent[512];
	fill(sent, sizeof sent, 0xA5);
	IS(saddlemug_stack_open(&stack, text(SETTINGS), strlen(SETTINGS)) == SADDLEMUG_SUCCESS);
	struct saddlemug_reply handle = step(&stack, SADDLEMUG_OPEN, NOBODY, sent, 0);
	IS(handle.kind == SADDLEMUG_IS_HANDLE && handle.id.number == 1);
	struct saddlemug_reply request = step(&stack, SADDLEMUG_WRITE, handle.id, sent, 512);
	IS(request.kind == SADDLEMUG_IS_REQUEST && request.id.number == 1);
	IS(saddlemug_stack_take_label(&stack, &call, bytes, 512) && call.kind == SADDLEMUG_CALLED && call.number == 1 && call.request == 1);
	IS(call.partition == 1 && call.offset == 1024 && call.length == 512);
	/* WRITE(10), of ten bytes. */
	IS(saddlemug_stack_take_label(&stack, &start, bytes, 512) && start.kind == SADDLEMUG_STARTED && start.bytes == 10 && bytes[0] == 0x2A);
	step(&stack, SADDLEMUG_ACT, NOBODY, sent, 0);
	step(&stack, SADDLEMUG_FINISH, NOBODY, sent, 0);
	IS(saddlemug_stack_first_answer(&stack, &first) && first.number == 1 && first.information == 512 && first.bytes == 0);
	IS(!saddlemug_stack_take_answer_of(&stack, 2, &answer, bytes, 512));
	IS(saddlemug_stack_take_answer_of(&stack, 1, &answer, bytes, 512));
	IS(answer.number == 1 && answer.status == SADDLEMUG_SUCCESS && answer.information == 512);
	IS(!saddlemug_stack_take_answer(&stack, &answer, bytes, 512));
	struct saddlemug_event unknown = event(14, NOBODY);
	struct saddlemug_reply reply;
	IS(saddlemug_stack_step(&stack, &unknown, sent, 0, &reply) == SADDLEMUG_INVALID_PARAMETER);
	saddlemug_stack_close(&stack);
}

static void
tells_names(void)
{
	static const struct {
		uint32_t status;
		const char *name;
	} rows[] = {{0, "SUCCESS"}, {0xC000000D, "INVALID_PARAMETER"}, {0xC0000225, "NOT_FOUND"}, {1, ""}};
	for (size_t i = 0; i < sizeof rows / sizeof *rows; i++) {
		uint8_t buffer[24];
		size_t length = strlen(rows[i].name);
		IS(saddlemug_status_word(rows[i].status, buffer, 24) == length && memcmp(buffer, rows[i].name, length) == 0);
	}
	uint8_t cut[4];
	IS(saddlemug_status_word(0, cut, 4) == 7 && memcmp(cut, "SUCC", 4) == 0);
	IS(saddlemug_version() == SADDLEMUG_VERSION);
}

static void
tells_what_is_wrong_with_settings(void)
{
	static const struct {
		const char *settings, *words;
	} rows[] = {{"[", "config: not TOML"}, {"sectors = 9", "config: missing key"},
		{SIZES "[[partition]]\nfirst = 1\ncount = 9\n", "mbr: past end"}, {SETTINGS, ""}};
	for (size_t i = 0; i < sizeof rows / sizeof *rows; i++) {
		uint8_t buffer[32];
		size_t length = strlen(rows[i].words);
		IS(saddlemug_settings_words(text(rows[i].settings), strlen(rows[i].settings), buffer, 32) == length);
		IS(memcmp(buffer, rows[i].words, length) == 0);
	}
}

static void
opens_a_disk_by_numbers(void)
{
	static const uint64_t bad = 8;
	struct saddlemug volume = {0};
	uint8_t buffer[1024] = {0}, bytes[1024];
	fill(bytes, sizeof bytes, 0xA5);
	IS(saddlemug_open_memory(&volume, &MEMORY, &bad, 1, 0) == SADDLEMUG_SUCCESS);
	struct saddlemug_sizes sizes = saddlemug_sizes(&volume);
	IS(sizes.sector_size == 512 && sizes.sectors == 8);
	IS(saddlemug_write(&volume, 512, bytes, 1024, false) == SADDLEMUG_SUCCESS);
	IS(saddlemug_read(&volume, 512, buffer, 1024) == SADDLEMUG_SUCCESS && is_all(buffer, 1024, 0xA5));
	IS(saddlemug_write(&volume, 3584, bytes, 512, false) == SADDLEMUG_DEVICE_DATA_ERROR);
	saddlemug_close(&volume);
}

/* What is answered where a disk is told so. */
static uint32_t
opened(struct saddlemug_memory disk, uint64_t bad, size_t count)
{
	struct saddlemug_stack stack = {0};
	uint32_t status = saddlemug_stack_open_memory(&stack, &disk, &bad, count);
	saddlemug_stack_close(&stack);
	return status;
}

static void
refuses_numbers_out_of_range(void)
{
	struct saddlemug_memory odd = MEMORY, five = MEMORY, overlapping = MEMORY;
	odd.sector_size = 513;
	five.partition_count = 5;
	overlapping.partition_count = 2;
	IS(opened(MEMORY, 8, 1) == SADDLEMUG_SUCCESS);
	IS(opened(MEMORY, 9, 1) == SADDLEMUG_INVALID_PARAMETER);
	IS(opened(odd, 0, 0) == SADDLEMUG_INVALID_PARAMETER);
	IS(opened(five, 0, 0) == SADDLEMUG_INVALID_PARAMETER);
	IS(opened(overlapping, 0, 0) == SADDLEMUG_INVALID_PARAMETER);
}

/* One partition of the sectors 1 to 8. */
static void
make_table(uint8_t sector[512])
{
	memset(sector, 0, 512);
	sector[450] = 0x83;
	sector[454] = 1;
	sector[458] = 8;
	sector[510] = 0x55;
	sector[511] = 0xAA;
}

/* A new stack over the disk, on which a request of this kind was made, of the third sector of the partition. */
static void
request(struct saddlemug_stack *stack, uint32_t kind)
{
	uint8_t first[512], bytes[512];
	make_table(first);
	fill(bytes, sizeof bytes, 0xA5);
	IS(saddlemug_stack_open_over(stack, &DISK, first, 512) == SADDLEMUG_SUCCESS);
	struct saddlemug_reply handle = step(stack, SADDLEMUG_OPEN, NOBODY, bytes, 0);
	step(stack, kind, handle.id, bytes, 512);
}

/* All bytes of a piece on tag 0 were moved. */
static struct saddlemug_booking
moved(const struct saddlemug_armed *armed)
{
	return (struct saddlemug_booking){.piece_low = armed->piece_low, .piece_high = armed->piece_high, .length = armed->length,
		.completion = {.srb_status = 1}};
}

/* Has the piece on tag 0 act and come back, and tells the answer. */
static struct saddlemug_answer
answered(struct saddlemug_stack *stack)
{
	struct saddlemug_answer answer = {0};
	uint8_t none = 0;
	step(stack, SADDLEMUG_ACT, NOBODY, &none, 0);
	step(stack, SADDLEMUG_FINISH, NOBODY, &none, 0);
	saddlemug_stack_take_answer(stack, &answer, &none, 0);
	return answer;
}

static void
books_what_was_moved(void)
{
	struct saddlemug_stack stack = {0};
	struct saddlemug_armed piece = {0}, again = {0};
	request(&stack, SADDLEMUG_WRITE);
	IS(saddlemug_stack_armed(&stack, 0, &piece) == SADDLEMUG_SUCCESS && saddlemug_stack_armed(&stack, 0, &again) == SADDLEMUG_SUCCESS);
	/* WRITE(10), of ten bytes, of sector 3 of the disk. */
	IS(piece.block[0] == 0x2A && piece.block_length == 10);
	IS(piece.asked.kind == SADDLEMUG_ASKS_TO_WRITE && piece.asked.through == 0);
	IS(piece.asked.first == 3 && piece.asked.count == 1 && piece.length == 512 && is_all(piece.bytes, 512, 0xA5));
	IS(again.piece_low == piece.piece_low && again.bytes == piece.bytes);
	struct saddlemug_booking booking = moved(&piece);
	IS(saddlemug_stack_book(&stack, &booking) == SADDLEMUG_SUCCESS);
	IS(saddlemug_stack_book(&stack, &booking) == SADDLEMUG_NOT_FOUND);
	struct saddlemug_answer answer = answered(&stack);
	IS(answer.status == SADDLEMUG_SUCCESS && answer.information == 512);
	IS(saddlemug_stack_book(&stack, &booking) == SADDLEMUG_NOT_FOUND);
	saddlemug_stack_close(&stack);
}

static void
refuses_what_is_not_of_the_piece(void)
{
	struct saddlemug_stack stack = {0};
	struct saddlemug_armed piece = {0}, none = {0};
	request(&stack, SADDLEMUG_WRITE);
	IS(saddlemug_stack_armed(&stack, 0, &piece) == SADDLEMUG_SUCCESS);
	struct saddlemug_booking cut = moved(&piece), other_tag = cut, other_piece = cut, no_failure = cut;
	cut.length = 511;
	other_tag.tag = 1;
	other_piece.piece_high = 1;
	no_failure.failed = true;
	IS(saddlemug_stack_book(&stack, &cut) == SADDLEMUG_INVALID_PARAMETER);
	IS(saddlemug_stack_book(&stack, &no_failure) == SADDLEMUG_INVALID_PARAMETER);
	IS(saddlemug_stack_book(&stack, &other_tag) == SADDLEMUG_NOT_FOUND);
	IS(saddlemug_stack_book(&stack, &other_piece) == SADDLEMUG_NOT_FOUND);
	IS(saddlemug_stack_armed(&stack, 1, &none) == SADDLEMUG_NOT_FOUND);
	saddlemug_stack_close(&stack);
}

/* The status of a read whose piece failed with this sense key, or 0: of which nothing was booked. */
static uint32_t
read_failed(uint8_t key, uint8_t asc)
{
	struct saddlemug_stack stack = {0};
	struct saddlemug_armed piece = {0};
	request(&stack, SADDLEMUG_READ);
	IS(saddlemug_stack_armed(&stack, 0, &piece) == SADDLEMUG_SUCCESS);
	struct saddlemug_booking booking = moved(&piece);
	booking.failed = true;
	booking.completion = (struct saddlemug_completion){.srb_status = 0x84, .scsi_status = 2, .has_sense = true, .key = key, .asc = asc};
	IS(key == 0 || saddlemug_stack_book(&stack, &booking) == SADDLEMUG_SUCCESS);
	struct saddlemug_answer answer = answered(&stack);
	saddlemug_stack_close(&stack);
	return answer.status;
}

/* MEDIUM ERROR, HARDWARE ERROR, and what was not booked, which is a HARDWARE ERROR. */
static void
tells_failures(void)
{
	IS(read_failed(3, 0x11) == SADDLEMUG_DEVICE_DATA_ERROR);
	IS(read_failed(4, 0) == SADDLEMUG_IO_DEVICE_ERROR);
	IS(read_failed(0, 0) == SADDLEMUG_IO_DEVICE_ERROR);
}

static uint32_t
opened_over(struct saddlemug_disk disk, const uint8_t *first, size_t length)
{
	struct saddlemug_stack stack = {0};
	uint32_t status = saddlemug_stack_open_over(&stack, &disk, first, length);
	saddlemug_stack_close(&stack);
	return status;
}

static void
refuses_what_is_no_disk(void)
{
	struct saddlemug_disk none = DISK, deep = DISK, empty = DISK;
	uint8_t first[512], zeros[512] = {0};
	make_table(first);
	none.sectors = 0;
	deep.depth = 33;
	empty.window = 0;
	IS(opened_over(DISK, first, 512) == SADDLEMUG_SUCCESS);
	IS(opened_over(DISK, zeros, 512) == SADDLEMUG_INVALID_PARAMETER);
	IS(opened_over(DISK, zeros, 511) == SADDLEMUG_INVALID_PARAMETER);
	IS(opened_over(none, first, 512) == SADDLEMUG_INVALID_PARAMETER);
	IS(opened_over(deep, first, 512) == SADDLEMUG_INVALID_PARAMETER);
	IS(opened_over(empty, first, 512) == SADDLEMUG_INVALID_PARAMETER);
}

static void
a_disk_in_memory_moves_by_itself(void)
{
	struct saddlemug_stack stack = {0};
	struct saddlemug_armed none = {0};
	struct saddlemug_booking booking = {0};
	IS(saddlemug_stack_open(&stack, text(SETTINGS), strlen(SETTINGS)) == SADDLEMUG_SUCCESS);
	IS(saddlemug_stack_armed(&stack, 0, &none) == SADDLEMUG_INVALID_DEVICE_REQUEST);
	IS(saddlemug_stack_book(&stack, &booking) == SADDLEMUG_INVALID_DEVICE_REQUEST);
	saddlemug_stack_close(&stack);
}

/* The call of a write of a sector. */
static const struct saddlemug_label CALL = {.number = 1, .request = 1, .partition = 1, .offset = 512, .length = 512, .through = 1};

static void
tells_lines(void)
{
	static const struct saddlemug_label unknown = {.kind = 12}, answer = {.kind = SADDLEMUG_ANSWERED, .number = 1, .status = SADDLEMUG_DEVICE_DATA_ERROR};
	static const char call[] = "call 1 write 512 512 through in 0 a5*512";
	uint8_t bytes[512];
	char line[64];
	fill(bytes, sizeof bytes, 0xA5);
	IS(saddlemug_label_line(&CALL, bytes, 512, line, 64) == strlen(call) && strcmp(line, call) == 0);
	IS(saddlemug_label_line(&CALL, bytes, 512, line, 5) == strlen(call) && strcmp(line, "call") == 0);
	IS(saddlemug_label_line(&unknown, NULL, 0, line, 64) == 0);
	IS(saddlemug_label_line(&answer, NULL, 0, line, 64) == 28 && strcmp(line, "answer 1 DEVICE_DATA_ERROR 0") == 0);
}

/* Has the judge take a line, and compares the sentence. */
static uint32_t
takes(struct saddlemug_judge *judge, const char *line, const char *words)
{
	char why[64];
	uint32_t number = saddlemug_judge_take_line(judge, text(line), strlen(line));
	IS(saddlemug_judge_why(judge, why, sizeof why) == (words[0] != 0) && strcmp(why, words) == 0);
	return number;
}

static void
judges_as_it_goes(void)
{
	struct saddlemug_judge judge = {0};
	uint8_t bytes[512];
	fill(bytes, sizeof bytes, 0xA5);
	IS(saddlemug_judge_open(&judge, text("["), 1) == SADDLEMUG_INVALID_PARAMETER && judge.at == NULL);
	IS(saddlemug_judge_open(&judge, text(SETTINGS), strlen(SETTINGS)) == SADDLEMUG_SUCCESS);
	IS(takes(&judge, "", "") == SADDLEMUG_TAKEN && saddlemug_judge_settled(&judge));
	IS(saddlemug_judge_take(&judge, &CALL, bytes, 512) == SADDLEMUG_TAKEN && !saddlemug_judge_settled(&judge));
	IS(takes(&judge, "act 1 a5*512", "piece 1 is not at the adapter") == 401);
	IS(takes(&judge, "start 1 tag 0 2a080000000200000100", "") == SADDLEMUG_TAKEN && saddlemug_judge_settled(&judge));
	IS(takes(&judge, "actt", "bad word in column 1") == SADDLEMUG_NO_LINE);
	saddlemug_judge_close(&judge);
}

/* Null pointers, and rooms that aren't empty, or are. */
static void
looks_at_its_pointers(void)
{
	struct saddlemug volume = {0};
	struct saddlemug_stack stack = {0};
	struct saddlemug_judge judge = {0};
	struct saddlemug_armed armed;
	struct saddlemug_booking booking = {0};
	char why[4];
	IS(saddlemug_open(NULL, text(SETTINGS), strlen(SETTINGS), 0) == SADDLEMUG_INVALID_PARAMETER);
	IS(saddlemug_open(&volume, NULL, 0, 0) == SADDLEMUG_INVALID_PARAMETER);
	IS(saddlemug_stack_open(&stack, NULL, 0) == SADDLEMUG_INVALID_PARAMETER);
	IS(saddlemug_judge_open(&judge, NULL, 0) == SADDLEMUG_INVALID_PARAMETER);
	IS(saddlemug_stack_open_over(&stack, NULL, text(SETTINGS), 512) == SADDLEMUG_INVALID_PARAMETER);
	IS(saddlemug_stack_armed(&stack, 0, &armed) == SADDLEMUG_INVALID_HANDLE);
	IS(saddlemug_stack_book(&stack, &booking) == SADDLEMUG_INVALID_HANDLE);
	IS(saddlemug_stack_armed(NULL, 0, &armed) == SADDLEMUG_INVALID_PARAMETER);
	IS(saddlemug_settings_fault(text("["), 1, why, sizeof why) && strcmp(why, "con") == 0);
	IS(saddlemug_open(&volume, text(SETTINGS), strlen(SETTINGS), 0) == SADDLEMUG_SUCCESS);
	void *at = volume.at;
	IS(saddlemug_open(&volume, text(SETTINGS), strlen(SETTINGS), 0) == SADDLEMUG_INVALID_PARAMETER && volume.at == at);
	saddlemug_close(&volume);
	saddlemug_close(&volume);
	saddlemug_close(NULL);
}

#define CASE(name) {#name, name}

static const struct {
	const char *name;
	void (*run)(void);
} CASES[] = {
	CASE(writes_and_reads),
	CASE(tells_what_was_never_written),
	CASE(reads_of_all_lengths),
	CASE(refuses_what_it_cannot_open),
	CASE(steps_a_stack),
	CASE(tells_names),
	CASE(tells_what_is_wrong_with_settings),
	CASE(opens_a_disk_by_numbers),
	CASE(refuses_numbers_out_of_range),
	CASE(books_what_was_moved),
	CASE(refuses_what_is_not_of_the_piece),
	CASE(tells_failures),
	CASE(refuses_what_is_no_disk),
	CASE(a_disk_in_memory_moves_by_itself),
	CASE(tells_lines),
	CASE(judges_as_it_goes),
	CASE(looks_at_its_pointers),
};

int
main(void)
{
	int all = 0;
	for (size_t i = 0; i < sizeof CASES / sizeof *CASES; i++) {
		wrong = 0;
		CASES[i].run();
		printf("test calls::%s ... %s\n", CASES[i].name, wrong == 0 ? "ok" : "FAILED");
		all += wrong;
	}
	return all != 0;
}
