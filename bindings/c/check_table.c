/* check_table ZEROPAGE [CMDLINE]: says whether a machine boots with the E820 table of a zero page and a command line, as far as memory goes:
 * its map and its crash area, or what is wrong. Ends with 0, with the status of bootmem.h, or with 1 where a file can't be read.
 *
 *	cc check_table.c $(pkg-config --cflags --libs bootmem) -o check_table */
#include <bootmem.h>
#include <inttypes.h>
#include <stdio.h>
#include <stdlib.h>

/* The most runs that the kernel's map has (E820_MAX_ENTRIES). */
#define MOST 3200

static uint8_t page[4097];
static struct bootmem_map_run runs[MOST];

/* Prints the line of a failure. */
static void tell(const struct bootmem_bytes *words, const struct bootmem_file *files)
{
	static uint8_t line[4096], none[1];
	struct bootmem_text out = {none, 0, 0}, err = {line, sizeof line, 0};

	bootmem_run(words, 3, files, 2, &out, &err);
	if (err.needed <= err.room)
		fwrite(line, 1, err.needed, stderr);
}

/* Why there is no crash area. */
static const char *why_none(uint32_t state)
{
	switch (state) {
	case BOOTMEM_CRASH_NO_AREA:
		return "no free range fits it";
	case BOOTMEM_CRASH_IN_USE:
		return "its range is in use";
	case BOOTMEM_CRASH_LOW_FAILED:
		return "no free range below 4 GiB fits its low part";
	default:
		return "none is requested";
	}
}

int main(int argc, char **argv)
{
	const struct bootmem_bytes words[] = {bootmem_word("--cmdline"), bootmem_word("cmdline"), bootmem_word("zeropage")};
	const char *line = argc > 2 ? argv[2] : "";
	struct bootmem_map_runs map = {runs, MOST, 0};
	struct bootmem_crash_area crash;
	FILE *file = argc > 1 ? fopen(argv[1], "rb") : NULL;
	size_t length;
	int status;

	if (!file) {
		fprintf(stderr, "usage: check_table ZEROPAGE [CMDLINE]\n");
		return 1;
	}
	length = fread(page, 1, sizeof page, file);
	fclose(file);
	const struct bootmem_file files[] = {
		{bootmem_word("zeropage"), {page, length}},
		{bootmem_word("cmdline"), bootmem_word(line)},
	};

	status = bootmem_map(words, 3, files, 2, &map);
	if (status == BOOTMEM_OK)
		status = bootmem_crash(words, 3, files, 2, &crash);
	if (status != BOOTMEM_OK) {
		tell(words, files);
		return status;
	}
	for (size_t i = 0; i < map.count; i++)
		printf("%" PRIu64 " bytes of type %" PRIu32 " at 0x%" PRIx64 "\n", runs[i].size, runs[i].type, runs[i].base);
	if (crash.state == BOOTMEM_CRASH_RESERVED)
		printf("crash area of %" PRIu64 " bytes at 0x%" PRIx64 "\n", crash.size, crash.base);
	else
		printf("no crash area: %s\n", why_none(crash.state));
	return 0;
}
