/* out_of_memory: makes each allocation of some calls of bootmem_run_as fail, one after the other, by each profile, and compares status and line. A
 * call that runs out of memory ends with 7 and the line of out of memory, also if only its line needed the memory; each other one ends as the call
 * that has enough. Linked with -Wl,--wrap=malloc -Wl,--wrap=realloc. Prints how many calls ran out of memory; ends with 0, or with 1 at the first
 * difference. */
#include <bootmem.h>
#include <stdio.h>
#include <stdlib.h>
#include <string.h>

static const char *const names[] = {[BOOTMEM_OWN] = "bootmem", [BOOTMEM_LINUX_6_1] = "bootmem61"};
static uint32_t profile;
static unsigned long calls, failing; /* counted from 1; 0: none fails */

void *__real_malloc(size_t size);
void *__real_realloc(void *old, size_t size);

void *__wrap_malloc(size_t size)
{
	return ++calls == failing ? NULL : __real_malloc(size);
}

void *__wrap_realloc(void *old, size_t size)
{
	return ++calls == failing ? NULL : __real_realloc(old, size);
}

static uint8_t page[BOOTMEM_ZERO_PAGE_SIZE], output[1 << 16], line[1 << 10];

/* Runs the program with two words; returns the status. `line` gets the line, with a byte 0 at its end. */
static int status_of(const char *first, const char *last)
{
	const struct bootmem_bytes words[] = {bootmem_word("--report"), bootmem_word(first), bootmem_word(last)};
	const struct bootmem_file files[] = {{bootmem_word("page"), {page, sizeof page}}, {bootmem_word("short"), {page, 7}}};
	struct bootmem_text out = {output, sizeof output, 7}, err = {line, sizeof line - 1, 7};
	int status;

	calls = 0;
	status = bootmem_run_as(profile, words, 3, files, 2, &out, &err);
	line[err.needed] = 0;
	return status && out.needed ? 1 : status;
}

/* Makes the line of the profile's program that has this text; without a text there is none. */
static void put_line(char *to, const char *text)
{
	*to = 0;
	if (*text)
		sprintf(to, "%s: %s\n", names[profile], text);
}

/* Makes each allocation of a call fail; returns how many of these calls ran out of memory, or 0 if one ended otherwise. */
static unsigned long ran_out(const char *first, const char *last, int status, const char *text)
{
	unsigned long found = 0, all;
	char expected[64], memory[64];

	put_line(expected, text);
	put_line(memory, "out of memory");
	failing = 0;
	if (status_of(first, last) != status || strcmp((char *)line, expected))
		return 0;
	all = calls;
	for (failing = 1; failing <= all; failing++) {
		int got = status_of(first, last);

		if (got == BOOTMEM_MEMORY && !strcmp((char *)line, memory))
			found++;
		else if (got != status || strcmp((char *)line, expected))
			return 0;
	}
	return found;
}

int main(void)
{
	static const struct bootmem_entry entries[] = {{0, 0x9fc00, BOOTMEM_E820_RAM}, {0x100000, 0x3ff00000, BOOTMEM_E820_RAM}};

	bootmem_zero_page(page, entries, 2);
	for (profile = BOOTMEM_OWN; profile <= BOOTMEM_LINUX_6_1; profile++) {
		unsigned long found[4];

		found[0] = ran_out("map", "page", BOOTMEM_OK, "");
		found[1] = ran_out("none", "page", BOOTMEM_USAGE, "usage");
		found[2] = ran_out("map", "other", BOOTMEM_UNREAD, "cannot read other");
		found[3] = ran_out("map", "short", BOOTMEM_FAULTY, "zeropage: wrong length");
		printf("%s: %lu, %lu, %lu and %lu calls ran out of memory\n", names[profile], found[0], found[1], found[2], found[3]);
		if (!found[0] || !found[1] || !found[2] || !found[3])
			return 1;
	}
	/* a number without a profile needs no memory */
	failing = 1;
	return status_of("map", "page") != BOOTMEM_USAGE || *line || calls;
}
