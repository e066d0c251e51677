/* by_library [--as PROFILE] [--values NAME] WORD..: the program bootmem over the library: each word that names a file is read and lent under its
 * name, the reports go to standard output, the line to standard error, and the status is the call's. With --as the calls are those whose names end
 * in _as, with this number of a profile. Room is given in two calls: none, and as much as
 * was needed. With --values the report NAME (map, crash, memory, nodes, zones, blocks) is printed of the values that the library hands over, and
 * no line; a call with half of the room gives the first half. The form is that of the program's reports, with two exceptions. A zone's line lacks
 * the free frames. A node's line is 'node N domain D', or 'node N' if the node has no domain. */
#include <bootmem.h>
#include <inttypes.h>
#include <stdio.h>
#include <stdlib.h>
#include <string.h>

#define MOST 32
#define UNTOUCHED 0xa5

static struct bootmem_bytes words[MOST];
static struct bootmem_file files[MOST];
static size_t words_len, files_len;
static int is_by_number; /* --as */
static uint32_t profile;

/* The call of this name with the words and files, or the one by a profile. */
#define BY_PROFILE(call, values) \
	static int call##_lent(struct values *out) \
	{ \
		return is_by_number ? call##_as(profile, words, words_len, files, files_len, out) : call(words, words_len, files, files_len, out); \
	}

BY_PROFILE(bootmem_crash, bootmem_crash_area)
BY_PROFILE(bootmem_memory, bootmem_memory_ranges)
BY_PROFILE(bootmem_nodes, bootmem_memory_nodes)
BY_PROFILE(bootmem_zones, bootmem_zone_spans)
BY_PROFILE(bootmem_blocks, bootmem_free_blocks)

static int bootmem_map_lent(struct bootmem_map_runs *out)
{
	return bootmem_map(words, words_len, files, files_len, out);
}

static int bootmem_run_lent(struct bootmem_text *out, struct bootmem_text *err)
{
	return is_by_number ? bootmem_run_as(profile, words, words_len, files, files_len, out, err)
			    : bootmem_run(words, words_len, files, files_len, out, err);
}

/* The bytes of a file, or none where it can't be read. */
static struct bootmem_bytes read_file(const char *name)
{
	struct bootmem_bytes held = {NULL, 0};
	FILE *file = fopen(name, "rb");
	uint8_t *at = file ? malloc(1 << 20) : NULL;

	if (at) {
		held.at = at;
		held.len = fread(at, 1, 1 << 20, file);
	}
	if (file)
		fclose(file);
	return held;
}

static void lend(char **text, int count)
{
	for (int i = 0; i < count; i++) {
		struct bootmem_bytes held = read_file(text[i]);

		words[words_len++] = bootmem_word(text[i]);
		if (held.at) {
			files[files_len].name = bootmem_word(text[i]);
			files[files_len++].bytes = held;
		}
	}
}

static int put_reports(void)
{
	static uint8_t none[1];
	struct bootmem_text out = {none, 0, 0}, err = {none, 0, 0};
	int first, status;

	first = bootmem_run_lent(&out, &err);
	out = (struct bootmem_text){calloc(1, out.needed + 1), out.needed, 0};
	err = (struct bootmem_text){calloc(1, err.needed + 1), err.needed, 0};
	if (!out.at || !err.at)
		return BOOTMEM_MEMORY;
	status = bootmem_run_lent(&out, &err);
	if (status != first || out.needed != out.room || err.needed != err.room)
		return 1;
	fwrite(out.at, 1, out.needed, stdout);
	fwrite(err.at, 1, err.needed, stderr);
	return status;
}

/* Whether the bytes from `at` on, up to `end`, are as they were. */
static int is_untouched(const void *at, const void *end)
{
	for (const uint8_t *byte = at; byte < (const uint8_t *)end; byte++)
		if (*byte != UNTOUCHED)
			return 0;
	return 1;
}

static void put_range(uint64_t base, uint64_t size)
{
	printf("0x%016" PRIx64 "..0x%016" PRIx64, base, base + size - 1);
}

static void put_run(const struct bootmem_map_run *run)
{
	static const char *const names[] = {[1] = "usable", "reserved", "ACPI data", "ACPI NVS", "unusable", [7] = "persistent", [12] = "persistent legacy"};
	const char *name = run->type < sizeof names / sizeof *names ? names[run->type] : NULL;

	if (run->type == 128)
		name = "usable kernel";
	if (run->type == 0xefffffff)
		name = "soft reserved";
	put_range(run->base, run->size);
	printf(" %" PRIu32 " %s\n", run->type, name ? name : "other");
}

static void put_memory_range(const struct bootmem_memory_range *range)
{
	static unsigned index;

	printf("%4u: ", index++);
	put_range(range->base, range->size);
	puts("");
}

static void put_node(const struct bootmem_memory_node *node)
{
	printf("node %" PRIu32, node->node);
	if (node->has_domain)
		printf(" domain %" PRIu32, node->domain);
	puts("");
}

static const char *const zones[] = {[BOOTMEM_ZONE_DMA] = "DMA", [BOOTMEM_ZONE_DMA32] = "DMA32", [BOOTMEM_ZONE_NORMAL] = "Normal"};

static void put_zone(const struct bootmem_zone_span *span)
{
	printf("Node %" PRIu32 ", zone %s start %" PRIu64 " end %" PRIu64 " present %" PRIu64 "\n", span->node, zones[span->zone], span->start,
		span->end, span->present);
}

static void put_block(const struct bootmem_free_block *block)
{
	printf("node %" PRIu32 " zone %s order %" PRIu32 " 0x%016" PRIx64 "\n", block->node, zones[block->zone], block->order, 4096 * block->first);
}

/* defines a function that prints the values of a call, which it asks for without room, with half of what is needed, and with all of it */
#define PUT_VALUES(name, call, value, values, put) \
	static int name(void) \
	{ \
		struct value none[1]; \
		struct values out = {none, 0, 7}; \
		int first = call##_lent(&out), status; \
		size_t count = out.count, half = count / 2; \
		struct value *part = malloc((count + 1) * sizeof *part), *all = malloc((count + 1) * sizeof *all); \
\
		if (!part || !all) \
			return BOOTMEM_MEMORY; \
		memset(part, UNTOUCHED, (count + 1) * sizeof *part); \
		out = (struct values){part, half, 7}; \
		if (call##_lent(&out) != first || out.count != count || !is_untouched(part + half, part + count + 1)) \
			return 1; \
		out = (struct values){all, count, 7}; \
		status = call##_lent(&out); \
		if (status != first || out.count != count) \
			return 1; \
		for (size_t i = 0; i < count; i++) \
			put(i < half ? part + i : all + i); \
		return status; \
	}

PUT_VALUES(put_map, bootmem_map, bootmem_map_run, bootmem_map_runs, put_run)
PUT_VALUES(put_memory, bootmem_memory, bootmem_memory_range, bootmem_memory_ranges, put_memory_range)
PUT_VALUES(put_nodes, bootmem_nodes, bootmem_memory_node, bootmem_memory_nodes, put_node)
PUT_VALUES(put_zones, bootmem_zones, bootmem_zone_span, bootmem_zone_spans, put_zone)
PUT_VALUES(put_blocks, bootmem_blocks, bootmem_free_block, bootmem_free_blocks, put_block)

static int put_crash(void)
{
	static const char *const reasons[] = {[BOOTMEM_CRASH_NOT_REQUESTED] = "none", [BOOTMEM_CRASH_NO_AREA] = "no area",
		[BOOTMEM_CRASH_IN_USE] = "in use", [BOOTMEM_CRASH_LOW_FAILED] = "low failed"};
	struct bootmem_crash_area area = {7, 7, 7, 7, 7};
	int status = bootmem_crash_lent(&area);

	if (status && (area.base || area.size || area.low_base || area.low_size || area.state))
		return 1;
	if (!status && !area.size != (area.state != BOOTMEM_CRASH_RESERVED))
		return 1;
	if (!status && !area.size)
		printf("crash %s\n", reasons[area.state]);
	if (area.size) {
		fputs("crash at ", stdout);
		put_range(area.base, area.size);
		puts("");
	}
	if (area.low_size) {
		fputs("crash low ", stdout);
		put_range(area.low_base, area.low_size);
		puts("");
	}
	return status;
}

static const struct {
	const char *name;
	int (*put)(void);
} reports[] = {{"map", put_map}, {"crash", put_crash}, {"memory", put_memory}, {"nodes", put_nodes}, {"zones", put_zones}, {"blocks", put_blocks}};

int main(int argc, char **argv)
{
	const char *report = NULL;

	argc--;
	argv++;
	if (argc > 1 && !strcmp(*argv, "--as")) {
		is_by_number = 1;
		profile = (uint32_t)strtoul(argv[1], NULL, 10);
		argc -= 2;
		argv += 2;
	}
	if (argc > 1 && !strcmp(*argv, "--values")) {
		report = argv[1];
		argc -= 2;
		argv += 2;
	}
	if (argc > MOST)
		return 1;
	lend(argv, argc);
	if (!report)
		return put_reports();
	for (size_t i = 0; i < sizeof reports / sizeof *reports; i++)
		if (!strcmp(report, reports[i].name))
			return reports[i].put();
	return 1;
}
