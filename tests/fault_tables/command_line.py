"""Faults of the command line, in the order in which the program checks for them: too long, line too long, open quote; then, word by word,
a fault of the word itself (the lowest faulty word is reported) or user map."""

from support import encoded, rows_of

INPUT = "cmdline"
OPTION = "--cmdline"

BAD_MEM = [
    "mem", "mem=", "mem=0", "mem=0x0", "mem=00", "mem=K", "mem=x", "mem=-1", "mem=08", "mem=0xg", "mem=1MM", "mem=1M@2M", "mem=1M,2M",
    "mem=16E", "mem=0x10000000000000000", "mem=18446744073709551616", "mem=02000000000000000000000", "mem=16384P",
    "mem=nopentium,1M", "mem=NOPENTIUM", "mem= 64M", 'mem=6"4M"', '"mem=0"', 'mem="0"', "mem=64M\xa0",
]
BAD_MEMMAP = [
    # an empty piece, or a piece that isn't a size
    "memmap", "memmap=", "memmap=,1M", "memmap=1M,", "memmap=1M,,2M", "memmap=x", "memmap=@1M", "memmap=K@1M", "memmap=16E", "memmap=16E@0",
    "memmap=1MM", "memmap=08@0", "memmap=1M&2M", "memmap=exactmapx", "memmap=exactmap=", "memmap=Exactmap",
    # no address after the sign, or text after the address
    "memmap=1M@", "memmap=1M#", "memmap=1M$", "memmap=1M!", "memmap=1M%", "memmap=1M@x", "memmap=1M@16E", "memmap=1M@2M@3M",
    "memmap=1M@2Mx", "memmap=1M#2M-1", "memmap=1M$2M+1", "memmap=1M!2M!",
    # ranges that end past the last address
    "memmap=0xffffffffffffffff@1", "memmap=1@0xffffffffffffffff", "memmap=0xfff#0xfffffffffffff001", "memmap=8E$8E", "memmap=8E!8E",
    "memmap=8E%8E", "memmap=8E%8E-1+2",
    # malformed or contradictory types
    "memmap=1M%0-", "memmap=1M%0+", "memmap=1M%0-x", "memmap=1M%0+x", "memmap=1M%0-1+", "memmap=1M%0+1-2", "memmap=1M%0-1-2",
    "memmap=1M%0+1+2", "memmap=1M%0-1+2+3", "memmap=1M%0-1K", "memmap=1M%0+1K", "memmap=1M%0-4294967296", "memmap=1M%0+4294967296",
    "memmap=1M%0-0x100000001+1", "memmap=1M%0-1+1", "memmap=1M%0-0x1+01", "memmap=0%0-2+2", "memmap=1M%0,-1",
]
BAD_CRASH = [
    "crashkernel", "crashkernel=", "crashkernel=x", "crashkernel=16E", "crashkernel=64MM", "crashkernel=64M@", "crashkernel=64M@x",
    "crashkernel=64M@16E", "crashkernel=64M@1M@1M", "crashkernel=64M@1Mx", "crashkernel=64M,", "crashkernel=64M,hi", "crashkernel=64M,HIGH",
    "crashkernel=64M,high,low", "crashkernel=64M,high@1M", "crashkernel=64M@1M,high", "crashkernel=64M,lows",
    "crashkernel=1M-2M", "crashkernel=1M-2M:", "crashkernel=1M-2M:x", "crashkernel=1M:8M", "crashkernel=-2M:8M", "crashkernel=1M--2M:8M",
    "crashkernel=2M-2M:8M", "crashkernel=2M-1M:8M", "crashkernel=0-0:8M", "crashkernel=0-16E:8M", "crashkernel=16E-:8M",
    "crashkernel=1M-2M:8M,", "crashkernel=1M-2M:8M,16M", "crashkernel=1M-2M:8M,high", "crashkernel=1M-2M:8M,4M-3M:8M",
    "crashkernel=1M-2M:8M@", "crashkernel=1M-2M:8M@x", "crashkernel=1M-2M:8M@1M,2M-:8M", "crashkernel=1M-:8M;",
]
BAD_NUMA = ["numa", "numa=", "numa=on", "numa=OFF", "numa=off,", "numa=offx", "numa=fake=4", "numa= off"]

USER_MAP = [
    ("exactmap without ranges after it", "memmap=exactmap", 1),
    ("exactmap and only one range after it", "memmap=exactmap memmap=640K@0", 1),
    ("ranges added before exactmap don't count", "memmap=640K@0 memmap=127M@1M,exactmap", 2),
    ("the last of two exactmaps counts", "memmap=exactmap,640K@0,127M@1M memmap=exactmap,640K@0", 2),
    ("two exactmaps in one word", "memmap=exactmap,640K@0,exactmap,127M@1M", 1),
    ("a size alone adds nothing", "memmap=exactmap,127M@1M,128M", 1),
    ("a removal adds nothing", "memmap=exactmap,127M@1M,1M%0,1M%0-2", 1),
    ("a change of type adds nothing", "memmap=exactmap,127M@1M,1M%0-1+2", 1),
    ("type 0 isn't added", "memmap=exactmap,127M@1M,1M%0+0", 1),
    ("ranges added after -- don't count", "memmap=exactmap,127M@1M -- memmap=640K@0", 1),
    ("ranges added after a zero byte don't count", "memmap=exactmap,127M@1M\0 memmap=640K@0", 1),
    ("mem= adds nothing", "memmap=exactmap,127M@1M mem=1G", 1),
]

# Name, a line with two faults, and the fault that the program reports.
TWO = rows_of(r"""
a wrong word before an open quotation | mem=0 " | open quote
a wrong word inside an open quotation | "mem=0 | open quote
a user map before an open quotation | memmap=exactmap " | open quote
an open quotation after -- | -- " | open quote
mem before memmap | mem=0 memmap= | word 1: mem
memmap before mem | memmap= mem=0 | word 1: memmap
memmap before crashkernel | memmap= crashkernel= | word 1: memmap
crashkernel before memmap | crashkernel= memmap= | word 1: crashkernel
crashkernel before numa | crashkernel= numa= | word 1: crashkernel
numa before crashkernel | numa= crashkernel= | word 1: numa
numa before mem | numa= mem=0 | word 1: numa
two faults of one option | quiet mem=0 mem= | word 2: mem
a user map before mem | memmap=exactmap mem=0 | word 2: mem
a user map before memmap | memmap=exactmap memmap= | word 2: memmap
a user map before a wrong piece of its own word | memmap=exactmap,x | word 1: memmap
a user map before crashkernel | memmap=exactmap crashkernel= | word 2: crashkernel
a user map before numa | memmap=exactmap numa=on | word 2: numa
numa before a user map | numa=on memmap=exactmap | word 1: numa
""") + [
    ("a file too long, and so is its line", "a" * 4097, "too long"),
    ("a file too long, with an open quotation", '"'.ljust(4097, "\0"), "too long"),
    ("a file too long, with a wrong word", "mem=0".ljust(4097, "\0"), "too long"),
    ("a file too long, with a user map", "memmap=exactmap".ljust(4097, "\0"), "too long"),
    ("a line too long with an open quotation", '"'.ljust(2048), "line too long"),
    ("a line too long with a wrong word", "mem=0".ljust(2048), "line too long"),
    ("a line too long with a user map", "memmap=exactmap".ljust(2048), "line too long"),
]

COUNTED = rows_of(r"""
each character that separates words | a b\tc\nd\x0be\x0cf\rg mem=0 | word 8: mem
several separators in a row and at the start |  \t mem=64M \n\n mem=0 | word 2: mem
a quotation is one word | "a b" c="d e" mem=0 | word 3: mem
similar words that aren't options | memory=0 mem64M=0 memmaps= MEM=0 =mem mem=0 | word 6: mem
a name in quotation marks | quiet "numa=on" | word 2: numa
one quotation mark | " | open quote
three quotation marks | a="b" c=" | open quote
a quotation cut by a zero byte | "a\x00" | open quote
""") + [
    ("the shortest line that is too long", "a" * 2048, "line too long"),
    ("the shortest line that is too long, and a newline", "a" * 2048 + "\n", "line too long"),
    ("a line of 2,047 bytes and two newlines", "a" * 2047 + "\n\n", "line too long"),
    ("a newline after the zero byte", "a" * 2048 + "\0\n", "line too long"),
    ("the shortest file that is too long", "quiet".ljust(4097, "\0"), "too long"),
]


def alone(lines, fault):
    return [(line, line, f"word 1: {fault}") for line in lines]


REFUSED = encoded(
    alone(BAD_MEM, "mem") + alone(BAD_MEMMAP, "memmap") + alone(BAD_CRASH, "crashkernel") + alone(BAD_NUMA, "numa")
    + [(name, line, f"word {word}: user map") for name, line, word in USER_MAP] + TWO + COUNTED)

LIMIT = "remove 1 0x0000000004000000..0xfffffffffffffffe\n"

# Name, line, and the report `options` for that line.
SAID = [
    ("an empty file", "", ""),
    ("the longest line", "mem=64M".ljust(2047), LIMIT),
    ("the longest line and a newline", "mem=64M".ljust(2047) + "\n", LIMIT),
    ("the longest line, the last byte of which is a newline", "mem=64M".ljust(2046) + "\n\n", LIMIT),
    ("the longest file", "mem=64M\0".ljust(4096, "\xff"), LIMIT),
    ("text after a zero byte is ignored", 'mem=64M\0 mem=0 "', LIMIT),
    ("words after -- are ignored", "mem=64M -- mem=0 memmap= crashkernel numa=on", LIMIT),
    ("a value in quotation marks", 'mem="64M"', LIMIT),
    ("a word in quotation marks", '"mem=64M"', LIMIT),
    ("an option's name in quotation marks", '"mem"=0', ""),
    ("bytes that don't separate words", "a\xa0mem=0 b\x1cmem=0 c\x85mem=0", ""),
    ("mem=nopentium", "mem=nopentium", ""),
    ("the greatest size, which removes nothing", "mem=0xffffffffffffffff", ""),
    ("the greatest size but one", "mem=18446744073709551614", "remove 1 0xfffffffffffffffe..0xfffffffffffffffe\n"),
    ("the greatest number of E", "mem=15E", "remove 1 0xf000000000000000..0xfffffffffffffffe\n"),
    ("the greatest number of P", "mem=16383p", "remove 1 0xfffc000000000000..0xfffffffffffffffe\n"),
    ("E as a hexadecimal digit, not a suffix", "memmap=1$0x1E", "add 2 0x000000000000001e..0x000000000000001e\n"),
    ("exactmap and two ranges", "memmap=exactmap memmap=640K@0 memmap=127M@1M",
     "clear\nadd 1 0x0000000000000000..0x000000000009ffff\nadd 1 0x0000000000100000..0x0000000007ffffff\n"),
    ("an empty range counts as added", "memmap=exactmap,127M@1M,0@0", "clear\nadd 1 0x0000000000100000..0x0000000007ffffff\n"),
    ("any type counts as added", "memmap=exactmap,127M@1M,1M%4G+7",
     "clear\nadd 1 0x0000000000100000..0x0000000007ffffff\nadd 7 0x0000000100000000..0x00000001000fffff\n"),
    ("each of the signs @ # $ !, and none", "memmap=1M@4G,1M#5G,1M$6G,1M!7G,8G",
     "add 1 0x0000000100000000..0x00000001000fffff\nadd 3 0x0000000140000000..0x00000001400fffff\n"
     "add 2 0x0000000180000000..0x00000001800fffff\nadd 12 0x00000001c0000000..0x00000001c00fffff\n"
     "remove 1 0x0000000200000000..0xfffffffffffffffe\n"),
    ("a range that ends at the last possible address", "memmap=0xfff$0xfffffffffffff000", "add 2 0xfffffffffffff000..0xfffffffffffffffe\n"),
    ("an empty range at the last address", "memmap=0$0xffffffffffffffff", ""),
    ("the greatest size without an address", "memmap=0xffffffffffffffff", ""),
    ("each form of memmap=SIZE%BASE", "memmap=1M%4G,1M%4G-1,1M%4G+7,1M%4G-1+2",
     "remove-all 0x0000000100000000..0x00000001000fffff\nremove 1 0x0000000100000000..0x00000001000fffff\n"
     "add 7 0x0000000100000000..0x00000001000fffff\nchange 1 2 0x0000000100000000..0x00000001000fffff\n"),
    ("type 0 is as good as no type", "memmap=1M%4G-0+0,1M%4G-1+0,1M%4G-0+7",
     "remove-all 0x0000000100000000..0x00000001000fffff\nremove 1 0x0000000100000000..0x00000001000fffff\n"
     "add 7 0x0000000100000000..0x00000001000fffff\n"),
    ("the greatest types", "memmap=1M%4G-4294967295+4294967294",
     "change 4294967295 4294967294 0x0000000100000000..0x00000001000fffff\n"),
    ("a range of one byte", "crashkernel=0-1:8M",
     "crash range 0x0000000000000000 0x0000000000000001 0x0000000000800000 base 0x0000000000000000\n"),
    ("several ranges with a base", "crashkernel=0-1M:8M,0x100000-:16M@32M",
     "crash range 0x0000000000000000 0x0000000000100000 0x0000000000800000 base 0x0000000002000000\n"
     "crash range 0x0000000000100000 - 0x0000000001000000 base 0x0000000002000000\n"),
    ("the last word of each form counts", "crashkernel=1M,low crashkernel=1M crashkernel=8M crashkernel=2M,low crashkernel=4M,high",
     "crash range 0x0000000000000000 - 0x0000000000800000 base 0x0000000000000000\n"
     "crash high 0x0000000000400000\ncrash low 0x0000000000200000\n"),
    ("the greatest sizes", "crashkernel=0xffffffffffffffff@0xffffffffffffffff",
     "crash range 0x0000000000000000 - 0xffffffffffffffff base 0xffffffffffffffff\n"),
    ("numa=off twice", 'numa=off "numa=off"', "numa off\n"),
]

ACCEPTED = [(name, line, "options", text) for name, line, text in encoded(SAID)]
