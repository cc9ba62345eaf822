/* The labels of a stack as the lines of a trace, which stackjudge judges. */
#include <errno.h>
#include <stdlib.h>
#include <string.h>

#include "own_disk.h"

/* The characters of a byte at most: two digits, a star, a count and a comma. */
#define OF_A_BYTE 5

/* Those of a line without its bytes. */
#define OF_A_LINE 256

const char *
own_disk_trace_open(struct own_disk_trace *trace, const char *path)
{
	trace->file = fopen(path, "we");
	if (trace->file == NULL)
		return strerror(errno);
	return own_disk_trace_reserve(trace, 1) ? NULL : "there is no memory";
}

bool
own_disk_trace_reserve(struct own_disk_trace *trace, size_t length)
{
	if (length <= trace->room)
		return true;
	uint8_t *bytes = realloc(trace->bytes, length);
	if (bytes != NULL)
		trace->bytes = bytes;
	char *line = realloc(trace->line, OF_A_BYTE * length + OF_A_LINE);
	if (line != NULL)
		trace->line = line;
	if (bytes == NULL || line == NULL)
		return false;
	trace->room = length;
	return true;
}

void
own_disk_trace_note(struct own_disk_trace *trace, const struct saddlemug_label *label)
{
	size_t room = OF_A_BYTE * trace->room + OF_A_LINE;
	uint64_t length = label->bytes <= trace->room ? saddlemug_label_line(label, trace->bytes, label->bytes, trace->line, room) : 0;
	if (length == 0 || length >= room)
		fputs("no label: there was no memory\n", trace->file);
	else
		fprintf(trace->file, "%s\n", trace->line);
}

void
own_disk_trace_flush(struct own_disk_trace *trace)
{
	if (trace->file != NULL && fflush(trace->file) != 0)
		perror("own_disk: trace");
}

void
own_disk_trace_close(struct own_disk_trace *trace)
{
	if (trace->file != NULL)
		fclose(trace->file);
	free(trace->bytes);
	free(trace->line);
	*trace = (struct own_disk_trace){.file = NULL};
}
