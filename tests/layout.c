/* layout [COUNT]: the layout of each struct of bootmem.h, which is part of the library's binary interface. The compiler refuses the file if a size
 * or an offset is another; bindings/rust/src/ffi.rs has the same numbers. The program makes a zero page of COUNT entries. It ends with 0, with 2 if
 * they are too many, or with 1 if the page isn't as docs/FORMATS.md says. */
#include <bootmem.h>
#include <stdlib.h>

#define SIZE(type, size) _Static_assert(sizeof(struct type) == (size), "size of " #type)
#define AT(type, field, offset) _Static_assert(offsetof(struct type, field) == (offset), "offset of " #type "." #field)
/* a buffer: where it lies, how many values it has room for, and how many there are */
#define BUFFER(type, last) \
	SIZE(type, 24); \
	AT(type, at, 0); \
	AT(type, room, 8); \
	AT(type, last, 16)

SIZE(bootmem_bytes, 16);
AT(bootmem_bytes, at, 0);
AT(bootmem_bytes, len, 8);

SIZE(bootmem_file, 32);
AT(bootmem_file, name, 0);
AT(bootmem_file, bytes, 16);

BUFFER(bootmem_text, needed);

SIZE(bootmem_map_run, 24);
AT(bootmem_map_run, base, 0);
AT(bootmem_map_run, size, 8);
AT(bootmem_map_run, type, 16);
BUFFER(bootmem_map_runs, count);

SIZE(bootmem_crash_area, 40);
AT(bootmem_crash_area, base, 0);
AT(bootmem_crash_area, size, 8);
AT(bootmem_crash_area, low_base, 16);
AT(bootmem_crash_area, low_size, 24);
AT(bootmem_crash_area, state, 32);

SIZE(bootmem_memory_range, 24);
AT(bootmem_memory_range, base, 0);
AT(bootmem_memory_range, size, 8);
AT(bootmem_memory_range, flags, 16);
AT(bootmem_memory_range, node, 20);
BUFFER(bootmem_memory_ranges, count);

SIZE(bootmem_memory_node, 12);
AT(bootmem_memory_node, node, 0);
AT(bootmem_memory_node, domain, 4);
AT(bootmem_memory_node, has_domain, 8);
BUFFER(bootmem_memory_nodes, count);

SIZE(bootmem_zone_span, 32);
AT(bootmem_zone_span, start, 0);
AT(bootmem_zone_span, end, 8);
AT(bootmem_zone_span, present, 16);
AT(bootmem_zone_span, node, 24);
AT(bootmem_zone_span, zone, 28);
BUFFER(bootmem_zone_spans, count);

SIZE(bootmem_free_block, 24);
AT(bootmem_free_block, first, 0);
AT(bootmem_free_block, order, 8);
AT(bootmem_free_block, node, 12);
AT(bootmem_free_block, zone, 16);
BUFFER(bootmem_free_blocks, count);

/* the profiles' numbers, and the types of the calls that take one */
_Static_assert(BOOTMEM_OWN == 0 && BOOTMEM_LINUX_6_1 == 1, "the profiles");
#define LENT const struct bootmem_bytes *, size_t, const struct bootmem_file *, size_t
#define IS(call, ...) _Static_assert(_Generic(&call, uint8_t (*)(uint32_t, LENT, __VA_ARGS__): 1, default: 0), "type of " #call)

IS(bootmem_run_as, struct bootmem_text *, struct bootmem_text *);
IS(bootmem_crash_as, struct bootmem_crash_area *);
IS(bootmem_memory_as, struct bootmem_memory_ranges *);
IS(bootmem_nodes_as, struct bootmem_memory_nodes *);
IS(bootmem_zones_as, struct bootmem_zone_spans *);
IS(bootmem_blocks_as, struct bootmem_free_blocks *);

int main(int argc, char **argv)
{
	static struct bootmem_entry entries[BOOTMEM_ZERO_PAGE_ENTRIES + 1];
	static uint8_t page[BOOTMEM_ZERO_PAGE_SIZE];
	size_t count = argc > 1 ? strtoul(argv[1], NULL, 10) : 0;

	for (size_t i = 0; i <= BOOTMEM_ZERO_PAGE_ENTRIES; i++)
		entries[i] = (struct bootmem_entry){i << 32, 0x1122334455667788, BOOTMEM_E820_RAM};
	page[7] = 7;
	if (bootmem_zero_page(page, entries, count))
		return page[7] == 7 && !page[0x1e8] ? 2 : 1;
	if (page[7] || page[0x1e8] != count)
		return 1;
	for (size_t i = 0; i < count; i++) {
		const uint8_t *at = page + 0x2d0 + 20 * i;

		if (at[0] || at[4] != i || at[8] != 0x88 || at[15] != 0x11 || at[16] != 1 || at[17] || at[19])
			return 1;
	}
	return 0;
}
