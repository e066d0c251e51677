/* bootmem.h: the boot-time memory set-up of x86-64 Linux 6.1, proved, as a library.
 *
 * The library is the program bootmem (bootmem.1, bootmem.5) as calls over bytes in memory. It opens no file, prints nothing and starts no
 * process. bootmem_run returns the program's reports as text. bootmem_map, bootmem_crash, bootmem_memory, bootmem_nodes, bootmem_zones and
 * bootmem_blocks return what the boot made as values. Their contracts are in run.rt and boot_values.rt of crates/bootmem_c/src.
 *
 * Profiles. Each of these calls makes the boot of bootmem. A call whose name ends in _as takes the number of a profile first: BOOTMEM_OWN, with
 * which it is the call without _as, or BOOTMEM_LINUX_6_1, the boot of the program bootmem61 (bootmem61.1), with the rules of Linux 6.1 and early
 * claims. There is no bootmem_map_as, because the map depends on neither the profile nor the early claims.
 *
 * Units. Addresses, sizes and lengths are in bytes. A frame has 4096 bytes. Numbers have the byte order of the machine.
 *
 * Ownership. What a pointer points to belongs to the caller before, during and after a call. The library keeps no pointer after a call. It
 * allocates memory by malloc and realloc, and has freed all of it when it returns.
 *
 * What a caller must ensure. `at` points to `len` bytes, or to `room` bytes or values that may be written. An array has as many elements as
 * its length argument says. No pointer is NULL, even if the length is 0. A buffer that the call writes overlaps no other argument. During the
 * call no other thread writes to any argument, or reads a buffer that the call writes. malloc, realloc and free belong to one allocator, with
 * the alignment that C requires. No call is made from a signal handler, or in the child after a fork of a process with threads.
 *
 * Threads. The library has no state, so any number of threads may call it at the same time.
 *
 * Example: does this E820 table boot, and where does the crash area go?
 *
 *	static const char *const text[] = {"--cmdline", "cmdline", "zp.bin"};
 *	struct bootmem_bytes words[3];
 *	for (int i = 0; i < 3; i++)
 *		words[i] = bootmem_word(text[i]);
 *	struct bootmem_file files[] = {
 *		{bootmem_word("zp.bin"), {zero_page, 4096}},
 *		{bootmem_word("cmdline"), bootmem_word("crashkernel=256M")},
 *	};
 *	struct bootmem_crash_area area;
 *	int status = bootmem_crash(words, 3, files, 2, &area);
 */
#ifndef BOOTMEM_H
#define BOOTMEM_H

#include <stddef.h>
#include <stdint.h>

#ifdef __cplusplus
extern "C" {
#endif

/* What a call returns: the exit statuses of bootmem. 4 (the output failed) is never returned. */
#define BOOTMEM_OK 0      /* the reports, or the values, are in `out` */
#define BOOTMEM_USAGE 2   /* the words aren't those of bootmem.1, or one isn't UTF-8; or there is no such profile */
#define BOOTMEM_UNREAD 3  /* a file that the words name isn't among `files` */
#define BOOTMEM_FAULTY 5  /* a file is malformed or too long */
#define BOOTMEM_STOPPED 6 /* the boot stops */
#define BOOTMEM_MEMORY 7  /* malloc or realloc returned no memory */

/* The profiles of a boot. Any other number is answered by BOOTMEM_USAGE, and no text or value is written. */
#define BOOTMEM_OWN 0       /* that of bootmem */
#define BOOTMEM_LINUX_6_1 1 /* that of bootmem61: the rules of Linux 6.1, and early claims (--claims) */

/* Bytes that the caller passes, such as a word of the command line. They need no byte 0 at the end. */
struct bootmem_bytes {
	const uint8_t *at;
	size_t len;
};

/* A file that the caller passes: its name, as words of the command line cite it, and the bytes that it contains. If two files have the same
 * name, the first is used. */
struct bootmem_file {
	struct bootmem_bytes name;
	struct bootmem_bytes bytes;
};

/* A buffer of `room` bytes at `at` for a text. The call sets `needed` to the length of the text in bytes. If `needed` is at most `room`, the buffer
 * begins with the text, without a byte 0 at its end, and the bytes after the text are unchanged. Otherwise the whole buffer is unchanged; repeat
 * the call with a buffer of `needed` bytes. */
struct bootmem_text {
	uint8_t *at;
	size_t room;
	size_t needed;
};

/* A run of the memory map: its first address, its size in bytes, and its type (`enum e820_type`: 1 is usable memory). */
struct bootmem_map_run {
	uint64_t base;
	uint64_t size;
	uint32_t type;
};

/* A buffer for `room` runs of the map at `at`. The call sets `count` to the number of all runs, and writes the first of them to the buffer, as many
 * as fit. The rest of the buffer is unchanged. If `count` is more than `room`, repeat the call with room for `count` runs. */
struct bootmem_map_runs {
	struct bootmem_map_run *at;
	size_t room;
	size_t count;
};

/* Why there is or isn't a crash area. */
#define BOOTMEM_CRASH_NOT_REQUESTED 0 /* the command line requests no crash area */
#define BOOTMEM_CRASH_RESERVED 1      /* the area is reserved */
#define BOOTMEM_CRASH_NO_AREA 2       /* no free range fits it (the kernel logs "No suitable area found") */
#define BOOTMEM_CRASH_IN_USE 3        /* the requested range isn't free, or its base isn't a multiple of 1 MiB */
#define BOOTMEM_CRASH_LOW_FAILED 4    /* no free range below 4 GiB fits its low part */

/* The crash area (`base`, `size`), and its low part, a second area below 4 GiB (`low_base`, `low_size`). Sizes are in bytes. Base and size are both 0
 * if there is no such area. `state` is one of BOOTMEM_CRASH_. */
struct bootmem_crash_area {
	uint64_t base;
	uint64_t size;
	uint64_t low_base;
	uint64_t low_size;
	uint32_t state;
};

/* A record of memblock's memory table (`struct memblock_region`): the first address, the size in bytes, and the node. */
struct bootmem_memory_range {
	uint64_t base;
	uint64_t size;
	uint32_t flags; /* 2 for mirrored memory (MEMBLOCK_MIRROR), else 0 */
	uint32_t node;
};

/* A buffer for records of memory, used as the one for runs of the map. */
struct bootmem_memory_ranges {
	struct bootmem_memory_range *at;
	size_t room;
	size_t count;
};

/* A node that has memory, and its proximity domain. */
struct bootmem_memory_node {
	uint32_t node;
	uint32_t domain;     /* 0 if the SRAT isn't used */
	uint32_t has_domain; /* 1 if the SRAT is used, else 0 */
};

/* A buffer for nodes, used as the one for runs of the map. */
struct bootmem_memory_nodes {
	struct bootmem_memory_node *at;
	size_t room;
	size_t count;
};

/* Zones (`enum zone_type`): DMA below 16 MiB, DMA32 from 16 MiB to below 4 GiB, Normal from 4 GiB on. */
#define BOOTMEM_ZONE_DMA 0
#define BOOTMEM_ZONE_DMA32 1
#define BOOTMEM_ZONE_NORMAL 2

/* A free block: 2^order frames, of which `first` is the number of the first. The block's first address is 4096 * first. */
struct bootmem_free_block {
	uint64_t first;
	uint32_t order; /* 0 to 10 */
	uint32_t node;
	uint32_t zone;
};

/* A buffer for free blocks, used as the one for runs of the map. */
struct bootmem_free_blocks {
	struct bootmem_free_block *at;
	size_t room;
	size_t count;
};

/* The frames that a node spans in a zone: `start` is the number of the first frame, `end` one more than that of the last, and `present` the
 * number of frames from `start` to below `end` that are memory of this node. */
struct bootmem_zone_span {
	uint64_t start;
	uint64_t end;
	uint64_t present;
	uint32_t node;
	uint32_t zone; /* one of BOOTMEM_ZONE_ */
};

/* A buffer for zones, used as the one for runs of the map. */
struct bootmem_zone_spans {
	struct bootmem_zone_span *at;
	size_t room;
	size_t count;
};

/* Runs bootmem. `words` are the words of its command line after the program's name. Returns the exit status, which words and files determine,
 * or BOOTMEM_MEMORY.
 *
 * BOOTMEM_OK: `out` has the reports that the words ask for, and docs/HEADLINE.md holds for the boot; `err` is empty.
 * Any other status: `out` is empty, and `err` has the whole line that the program prints on standard error, with its line feed. If a word
 * isn't UTF-8, the program prints no line, so `err` is empty. BOOTMEM_MEMORY is also returned if memory ran out only for the error line. With
 * BOOTMEM_MEMORY `err` has the line that says so, which needs no memory.
 *
 * The status doesn't say whether a text fitted into its buffer, so compare `needed` with `room` too. */
uint8_t bootmem_run(const struct bootmem_bytes *words, size_t words_len, const struct bootmem_file *files, size_t files_len,
	struct bootmem_text *out, struct bootmem_text *err);

/* What the boot made, as values. Words, files and the returned status are those of bootmem_run. The reports that `--report` names don't matter,
 * but an unknown name is BOOTMEM_USAGE. These calls give no error line; bootmem_run does.
 *
 * BOOTMEM_OK: `out` has the values of the boot, which words and files determine, and docs/HEADLINE.md holds for it. Any other status: `count` is
 * 0, and every number of the crash area is 0.
 *
 * bootmem_map: the runs of the map that the kernel works with, ascending.
 * bootmem_crash: the crash area, or why there is none.
 * bootmem_memory: the records of memory, ascending.
 * bootmem_nodes: the nodes that have memory, ascending.
 * bootmem_zones: the zones that have memory, by node and then by zone.
 * bootmem_blocks: the free blocks at the handover, ascending. */
uint8_t bootmem_map(const struct bootmem_bytes *words, size_t words_len, const struct bootmem_file *files, size_t files_len,
	struct bootmem_map_runs *out);
uint8_t bootmem_crash(const struct bootmem_bytes *words, size_t words_len, const struct bootmem_file *files, size_t files_len,
	struct bootmem_crash_area *out);
uint8_t bootmem_memory(const struct bootmem_bytes *words, size_t words_len, const struct bootmem_file *files, size_t files_len,
	struct bootmem_memory_ranges *out);
uint8_t bootmem_nodes(const struct bootmem_bytes *words, size_t words_len, const struct bootmem_file *files, size_t files_len,
	struct bootmem_memory_nodes *out);
uint8_t bootmem_zones(const struct bootmem_bytes *words, size_t words_len, const struct bootmem_file *files, size_t files_len,
	struct bootmem_zone_spans *out);
uint8_t bootmem_blocks(const struct bootmem_bytes *words, size_t words_len, const struct bootmem_file *files, size_t files_len,
	struct bootmem_free_blocks *out);

/* The same calls by a profile: BOOTMEM_OWN or BOOTMEM_LINUX_6_1. The words are those of the profile's program, so with BOOTMEM_LINUX_6_1 those of
 * bootmem61.1. All else is as without _as, and with BOOTMEM_OWN the answer is the same. With any other number the status is BOOTMEM_USAGE: both
 * texts are empty, `count` is 0, and of the crash area each number is.
 *
 * The map is that of bootmem_map, with the words without --claims. Its status is that of the boot of bootmem. */
uint8_t bootmem_run_as(uint32_t profile, const struct bootmem_bytes *words, size_t words_len, const struct bootmem_file *files, size_t files_len,
	struct bootmem_text *out, struct bootmem_text *err);
uint8_t bootmem_crash_as(uint32_t profile, const struct bootmem_bytes *words, size_t words_len, const struct bootmem_file *files, size_t files_len,
	struct bootmem_crash_area *out);
uint8_t bootmem_memory_as(uint32_t profile, const struct bootmem_bytes *words, size_t words_len, const struct bootmem_file *files, size_t files_len,
	struct bootmem_memory_ranges *out);
uint8_t bootmem_nodes_as(uint32_t profile, const struct bootmem_bytes *words, size_t words_len, const struct bootmem_file *files, size_t files_len,
	struct bootmem_memory_nodes *out);
uint8_t bootmem_zones_as(uint32_t profile, const struct bootmem_bytes *words, size_t words_len, const struct bootmem_file *files, size_t files_len,
	struct bootmem_zone_spans *out);
uint8_t bootmem_blocks_as(uint32_t profile, const struct bootmem_bytes *words, size_t words_len, const struct bootmem_file *files, size_t files_len,
	struct bootmem_free_blocks *out);

/* The version of the library: major * 1000000 + minor * 1000 + patch. */
uint32_t bootmem_version(void);

/* The bytes of a C string, without the byte 0 at its end. */
static inline struct bootmem_bytes bootmem_word(const char *text)
{
	struct bootmem_bytes word = {(const uint8_t *)text, 0};

	while (text[word.len])
		word.len++;
	return word;
}

/* Two types of entries (`enum e820_type`). */
#define BOOTMEM_E820_RAM 1
#define BOOTMEM_E820_RESERVED 2

/* An entry of the firmware's map (struct boot_e820_entry): base and size in bytes, and the type. */
struct bootmem_entry {
	uint64_t base;
	uint64_t size;
	uint32_t type;
};

#define BOOTMEM_ZERO_PAGE_SIZE 4096
#define BOOTMEM_ZERO_PAGE_ENTRIES 128 /* E820_MAX_ENTRIES_ZEROPAGE */

/* Writes `number` bytes of a value, the lowest first. */
static inline void bootmem_put(uint8_t *at, uint64_t value, size_t number)
{
	for (size_t i = 0; i < number; i++)
		at[i] = (uint8_t)(value >> 8 * i);
}

/* Makes a zero page (struct boot_params) that has these entries and nothing else. Returns 0. If there are more than 128 entries it writes
 * nothing and returns -1: the further ones belong into an extension (--e820ext, docs/FORMATS.md). */
static inline int bootmem_zero_page(uint8_t page[BOOTMEM_ZERO_PAGE_SIZE], const struct bootmem_entry *entries, size_t count)
{
	if (count > BOOTMEM_ZERO_PAGE_ENTRIES)
		return -1;
	for (size_t i = 0; i < BOOTMEM_ZERO_PAGE_SIZE; i++)
		page[i] = 0;
	page[0x1e8] = (uint8_t)count;
	for (size_t i = 0; i < count; i++) {
		bootmem_put(page + 0x2d0 + 20 * i, entries[i].base, 8);
		bootmem_put(page + 0x2d8 + 20 * i, entries[i].size, 8);
		bootmem_put(page + 0x2e0 + 20 * i, entries[i].type, 4);
	}
	return 0;
}

#ifdef __cplusplus
}
#endif

#endif
