/* Writes a sector of a new disk, reads it back and prints it: the least that a C program does with the library.
 *
 *     cc hello.c $(pkg-config --cflags --libs saddlemug) -o hello
 */
#include <inttypes.h>
#include <stdio.h>
#include <string.h>

#include <saddlemug.h>

static const char settings[] =
	"sector_size = 512\nsectors = 4096\nmax_transfer = 128\ndepth = 4\nwindow = 4\n[[partition]]\nfirst = 2048\ncount = 1024\n";

static int
failed(const char *call, uint32_t status)
{
	fprintf(stderr, "hello: %s: status %08" PRIX32 "\n", call, status);
	return 1;
}

int
main(void)
{
	struct saddlemug disk = {0};
	uint8_t sector[512] = "hello, disk";
	uint32_t status = saddlemug_open(&disk, (const uint8_t *) settings, strlen(settings), 0);
	if (status != SADDLEMUG_SUCCESS)
		return failed("open", status);
	status = saddlemug_write(&disk, 512, sector, sizeof sector, true);
	if (status != SADDLEMUG_SUCCESS)
		return saddlemug_close(&disk), failed("write", status);
	memset(sector, 0, sizeof sector);
	status = saddlemug_read(&disk, 512, sector, sizeof sector);
	struct saddlemug_sizes sizes = saddlemug_sizes(&disk);
	saddlemug_close(&disk);
	if (status != SADDLEMUG_SUCCESS)
		return failed("read", status);
	printf("sector 1 of %" PRIu64 ": %s\n", sizes.sectors, (const char *) sector);
	if (fflush(stdout) == 0)
		return 0;
	perror("hello: standard output");
	return 1;
}
