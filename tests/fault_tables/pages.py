"""Faults of the page script. The program reports the lowest faulty line; a line's form is checked before its numbers."""

INPUT = "pages"
OPTION = "--pages"

BAD_FORMS = [
    "page 1 0 0 DMA", "Pages 1 0 0 DMA", "x", "0", "give", "give 1 2", "pages", "pages 1", "pages 1 0", "pages 1 0 0", "pages 1 0 0 0",
    "pages 1 0 0 dma", "pages 1 0 0 DMA16", "pages 1 0 0 DMA DMA", "pages 1 0 0 Movable", "near", "near 1", "near 1 0", "near 1 0 0 0",
    "near 1 0 0 DMA", "sections", "free 1", "give\x0b1",
]
BAD_NUMBERS = [
    "give x", "give -1", "give 4294967296", "give 4G", "give 08", "pages x 0 0 DMA", "pages 4294967296 0 0 DMA", "pages 1 11 0 DMA",
    "pages 1 x 0 DMA", "pages 1 1K 0 DMA32", "pages 1 0 1024 Normal", "pages 1 0 1K Normal", "pages 1 0 x Normal", "near x 0 0",
    "near 4294967296 0 0", "near 1 11 0", "near 1 x 0", "near 1 0 1024", "near 1 0 x", "near 1 0 DMA",
]
LONGEST = b"#" * 1048576

REFUSED = [
    ("the shortest file that is too long", LONGEST + b"#", "too long"),
    ("a file too long, with a malformed line", b"x\n" + LONGEST, "too long"),
    *[(f"malformed: {line}", line.encode("latin-1"), "line 1: form") for line in BAD_FORMS],
    *[(f"a wrong number: {line}", line.encode("latin-1"), "line 1: number") for line in BAD_NUMBERS],
    ("a malformed line with wrong numbers", b"pages x 11 1024 dma", "line 1: form"),
    ("a wrong number before a malformed line", b"# page\n\ngive x\ngive\n", "line 3: number"),
    ("a malformed line before a wrong number", b"give\ngive x\n", "line 1: form"),
]

ACCEPTED = [
    ("an empty file", b"", "pages", ""),
    ("the longest file", LONGEST, "pages", ""),
    ("the greatest numbers", b"pages 4294967295 10 1023 Normal\nnear 0xffffffff 10 1023\ngive 4294967295", "pages",
     "1: no block\n2: at 0x0000000003000000\n3: done\n"),
    ("blanks, empty lines and comments", b" \tgive\t1 \r\n#give\n # give x\n\ngive 2", "pages", "1: unknown\n5: unknown\n"),
]
