"""Translates command lines: from how Linux 6.1 reads them to lines that bootmem reads the same way.

The kernel splits words as `next_arg` does, but looks for `crashkernel=` in the raw line
(`get_last_crashkernel`). Of a malformed value it uses the part that it understands, warns about
the rest and goes on; bootmem refuses such a line. `read_line` returns a line that means to bootmem
what the given one means to the kernel, and lists the changes. Texts are bytes as Latin-1.
Nothing here is proved.
"""

from __future__ import annotations

import functools
import os
import re
import tempfile
from typing import Callable, Iterable, Iterator, NamedTuple, Optional, Sequence

from bootmem_tools import ranges, reports, runner, tool

LONGEST = 2047  # bytes of a line (COMMAND_LINE_SIZE without its end)
ROUND = 128 << 20  # total memory is rounded up to this (parse_crashkernel_mem)
FILE = tool.Kind("command line", 1 << 20, is_text=False)
TOP = ranges.TOP
LOW_LEAST = 256 << 20  # the size of the low part without a form `S,low` (reserve_crashkernel_low)
KEY = "crashkernel="
BY_RANGES = -1  # the size of the plain form if the program picks it from ranges
NAMES = ("mem", "memmap", "crashkernel", "numa")
EFI = "add_efi_memmap"  # with any value, and without one (setup_add_efi_memmap)

# Words that bootmem ignores though the kernel acts on them before the free lists, and their effects.
PASSED = {
    "movable_node": "the kernel searches from below for a while (memblock_set_bottom_up)",
    "kernelcore": "memory goes to zone Movable, and mirrored memory is taken first",
    "movablecore": "memory goes to zone Movable",
    "cma": "an area is claimed before the crash area (dma_contiguous_reserve)",
    "hugetlb_cma": "areas are claimed before the crash area (hugetlb_cma_reserve)",
    "log_buf_len": "a longer log buffer is claimed before the crash area (setup_log_buf)",
    "efi_fake_mem": "EFI's memory becomes soft reserved (efi_fake_memmap_early)",
    "memtest": "bad memory is claimed before the crash area (early_memtest)",
}


class Word(NamedTuple):
    """A word of the line: where it begins, its text, its name, and its value or None (next_arg)."""

    start: int
    text: str
    name: str
    value: str | None


class Crash(NamedTuple):
    """The crash area that a line asks for: size and base of the plain form, or else the size of the
    form high; and the size of the low part."""

    size: int
    base: int
    high: int
    low: int


class Reading(NamedTuple):
    """A line that bootmem reads as the kernel reads the given one, with notes on what was changed
    and on what bootmem ignores."""

    line: str
    changes: list[str]
    notes: list[str]


class Total(NamedTuple):
    """Total memory in bytes, as the kernel and as bootmem count it."""

    kernel: int
    bootmem: int


# Returns the total memory of the machine.
Totals = Callable[[], Total]
# The place in the raw line of each form's value; and, by such a place, why the kernel ignores it.
Places = dict[str, int]
Faults = dict[int, str]
# A range of the plain form: its start, its end or None, and the size.
Sized = tuple[int, Optional[int], int]


class Malformed(Exception):
    """Why the kernel ignores a value, in the words of its warning if it has one."""


def memparse(text: str, place: int) -> tuple[int, int]:
    """Returns the number at a place as the kernel's `memparse` reads it, and the place after it. The
    number may have one suffix, and wraps at 2^64."""
    number, behind = number_at(text, place)
    suffix = text[behind:behind + 1].upper()
    if suffix and suffix in "KMGTPE":
        return (number << 10 * ("KMGTPE".index(suffix) + 1)) & TOP, behind + 1
    return number, behind


def number_at(text: str, place: int) -> tuple[int, int]:
    """Returns the number at a place without a suffix, and the place after its last digit
    (simple_strtoull with base 0)."""
    for form, base in ((r"0[xX]([0-9a-fA-F]+)", 16), (r"(0[0-7]*)", 8), (r"([0-9]+)", 10)):
        match = re.compile(form).match(text, place)
        if match:
            return int(match.group(1), base) & TOP, match.end()
    return 0, place


def size_said(text: str, first: int, behind: int) -> str:
    """Returns a size that bootmem reads as the kernel does: the text itself, or its value if the
    text has no digit or exceeds 2^64 - 1."""
    token = text[first:behind]
    value = memparse(text, first)[0]
    return token if plain_size(token) == value else size_text(value)


def plain_size(token: str) -> int | None:
    """Returns the value of a text that is one size for bootmem, or None."""
    if not re.fullmatch(r"(0[xX][0-9a-fA-F]+|0[0-7]*|[1-9][0-9]*)[kKmMgGtTpPeE]?", token):
        return None
    digits = token.rstrip("kKmMgGtTpP") if token[:2] in ("0x", "0X") else token.rstrip("kKmMgGtTpPeE")
    number = int(digits, 16 if digits[:2] in ("0x", "0X") else 8 if digits[0] == "0" else 10)
    number <<= 10 * ("KMGTPE".index(token[len(digits)].upper()) + 1) if len(token) > len(digits) else 0
    return number if number <= TOP else None


def size_text(value: int) -> str:
    """Returns a size with the greatest suffix that leaves no fraction; without one in
    hexadecimal, unless it is small."""
    for power, suffix in ((4, "T"), (3, "G"), (2, "M"), (1, "K")):
        if value and value % (1 << 10 * power) == 0:
            return f"{value >> 10 * power}{suffix}"
    return str(value) if value < 4096 else f"{value:#x}"


def mem_said(value: str | None) -> str:
    """Returns a value of `mem=` that bootmem reads as the kernel reads this one (parse_memopt)."""
    if value is None:
        raise Malformed("it has no value")
    if value == "nopentium":
        return value
    size, behind = memparse(value, 0)
    if size == 0:
        raise Malformed("no size above 0")
    return size_said(value, 0, behind)


def memmap_said(value: str | None) -> str:
    """Returns a value of `memmap=` that bootmem reads as the kernel reads this one, which may be a
    list of map options (parse_memmap_opt)."""
    said = []
    for part in (value or "").split(","):
        try:
            said.append(map_option_said(part))
        except Malformed:
            continue
    if not said:
        raise Malformed("no map option")
    return ",".join(said)


def map_option_said(part: str) -> str:
    """Returns one map option that bootmem reads as the kernel reads this one (parse_memmap_one)."""
    if part.startswith("exactmap"):
        return "exactmap"
    size, behind = memparse(part, 0)
    if behind == 0:
        raise Malformed("no size")
    said, mark = size_said(part, 0, behind), part[behind:behind + 1]
    if not mark or mark not in "@#$!%":
        return said
    start, end = memparse(part, behind + 1)
    place = size_said(part, behind + 1, end)
    types, adds = types_said(part[end:]) if mark == "%" else ("", True)
    if size + start > TOP:
        if adds:
            raise tool.Trouble(f"memmap={part}: it adds memory beyond 2^64 - 1, and the kernel's map never settles", 2)
        said = size_text(TOP - start)
    return f"{said}{mark}{place}{types}"


def types_said(text: str) -> tuple[str, bool]:
    """Returns the types of `S%A-f+t`, which are cut to 32 bits, and whether it adds memory."""
    said, place, types = "", 0, {"-": 0, "+": 0}
    for mark in "-+":
        if text[place:place + 1] == mark:
            number, behind = number_at(text, place + 1)
            types[mark] = number % (1 << 32)
            token = text[place + 1:behind]
            said += f"{mark}{token if plain_size(token) == types[mark] else types[mark]}"
            place = behind
    if place != len(text):
        raise Malformed("bytes behind it")
    if types["-"] and types["-"] == types["+"]:
        raise tool.Trouble(f"memmap= with {text}: the kernel stops with a BUG (e820__range_update)", 2)
    return said, types["+"] != 0 and types["-"] == 0


def numa_said(value: str | None) -> str:
    """Returns a value of `numa=` that bootmem reads as the kernel reads this one (numa_setup).
    Without an SRAT all memory is node 0, as with `off`."""
    if value is None:
        raise Malformed("it has no value")
    if value.startswith(("off", "noacpi")):
        return "off"
    if value.startswith("fake="):
        raise Malformed("the kernel makes nodes of its own (numa_emu_cmdline), which bootmem doesn't")
    raise Malformed("it moves no memory" if value.startswith("nohmat") else "the kernel passes it over")


SAID = {"mem": mem_said, "memmap": memmap_said, "numa": numa_said}


def raw_line(data: bytes) -> str:
    """Returns the line of a file as the kernel gets it: the bytes before the first zero byte, without
    one newline at the end. A line that is too long isn't cut."""
    line = data.split(b"\0", 1)[0]
    return (line[:-1] if line.endswith(b"\n") else line).decode("latin-1")


def settled_line(line: str, changes: list[str]) -> str:
    """Returns the line without what splits words only in the kernel: an open quotation mark is
    closed, and bytes 0xA0 become blanks."""
    letters: list[str] = []
    quoted = False
    for letter in line:
        quoted ^= letter == '"'
        letters.append(" " if letter == "\xa0" and not quoted else letter)
    if "".join(letters) != line:
        changes.append("byte 0xA0: a separator in the kernel: a blank in its stead")
    if quoted:
        changes.append("quotation mark: it isn't closed: closed at the line's end")
        letters.append('"')
    return "".join(letters)


def words_of(line: str) -> tuple[list[Word], int]:
    """Returns the words of a line up to `--`, as `next_arg` splits it, and where `--` or else
    the line's end is."""
    found: list[Word] = []
    for match in re.finditer(r'(?:[^ \t\n\v\f\r"]|"[^"]*")+', line):
        text = match.group()
        name, value = kernel_word(text)
        if name == "--" and value is None:
            return found, match.start()
        found.append(Word(match.start(), text, name, value))
    return found, len(line)


def kernel_word(text: str) -> tuple[str, str | None]:
    """Returns name and value of a word as the kernel reads it, which removes only one closing
    quotation mark from a word and its value together (next_arg)."""
    quoted = text.startswith('"')
    text = text[1:] if quoted else text
    place = text.find("=", 1)
    if place < 0:
        return text.removesuffix('"') if quoted else text, None
    name, value = text[:place], text[place + 1:]
    if value.startswith('"'):
        return name, value[1:].removesuffix('"')
    return name, value.removesuffix('"') if quoted else value


def program_word(text: str) -> tuple[str, str | None]:
    """Returns name and value of a word as bootmem reads it, which removes quotation marks once from
    the word and once more from its value."""
    name, equals, value = unquoted(text).partition("=")
    return name, unquoted(value) if equals else None


def unquoted(text: str) -> str:
    """Returns the text without a quotation mark at its beginning, and then without one at its end."""
    return text[1:].removesuffix('"') if text.startswith('"') else text


def options_said(words: Sequence[Word], changes: list[str]) -> list[str]:
    """Returns the text for each word except `crashkernel=`, as bootmem should get it; it is empty if
    the word is left out."""
    texts = []
    for number, word in enumerate(words, 1):
        name, value = program_word(word.text)
        said, reason = None, "the kernel reads another name"
        if word.name.replace("-", "_") == EFI:  # the kernel takes both signs for one (parameq)
            texts.append(word.text if name == EFI else EFI)
            if name != EFI:
                changes.append(f"word {number}: {word.text}: read as {EFI}")
            continue
        if word.name in SAID:
            try:
                said = SAID[word.name](word.value)
            except Malformed as why:
                reason = str(why)
        if not {word.name, name} & {*SAID, EFI} or said is not None and (word.name, said) == (name, value):
            texts.append(word.text)
            continue
        texts.append("" if said is None else f"{word.name}={said}")
        changes.append(f"word {number}: {word.text}: " + (f"left out: {reason}" if said is None else f"read as {texts[-1]}"))
    return texts


def last_crash(raw: str, suffix: str) -> tuple[int, int] | None:
    """Returns where the value of the last `crashkernel=` of a form begins in the raw line and
    where its word ends, or None (get_last_crashkernel)."""
    found = None
    for match in re.finditer(KEY, raw):
        end = raw.find(" ", match.start())
        end = len(raw) if end < 0 else end
        text = raw[:end]
        if text.endswith(suffix) if suffix else not text.endswith((",high", ",low")):
            found = match.end(), end
    return found


def suffixed(raw: str, place: int, suffix: str) -> int:
    """Returns the size of a form high or low (parse_crashkernel_suffix)."""
    size, behind = memparse(raw, place)
    if behind == place:
        raise Malformed("memory value expected")
    after = raw[behind + len(suffix):behind + len(suffix) + 1]
    if not raw.startswith(suffix, behind) or after not in (" ", ""):
        raise Malformed(f"unrecognized char: {raw[behind:behind + 1]}")
    return size


def simple(raw: str, place: int) -> tuple[int, int]:
    """Returns size and base of the plain form without ranges (parse_crashkernel_simple)."""
    size, behind = memparse(raw, place)
    if behind == place:
        raise Malformed("memory value expected")
    if raw[behind:behind + 1] == "@":
        return size, memparse(raw, behind + 1)[0]
    if raw[behind:behind + 1] not in (" ", ""):
        raise Malformed(f"unrecognized char: {raw[behind]}")
    return size, 0


def size_at(raw: str, place: int) -> tuple[int, int]:
    """Returns the size at a place and the place after it. Raises Malformed if there is none."""
    value, behind = memparse(raw, place)
    if behind == place:
        raise Malformed("Memory value expected")
    return value, behind


def mark_at(raw: str, place: int, mark: str) -> int:
    """Returns the place after the mark at a place. Raises Malformed if it isn't there."""
    if raw[place:place + 1] != mark:
        raise Malformed(f"'{mark}' expected")
    return place + 1


def ranged(raw: str, place: int, total: int) -> tuple[int, int]:
    """Returns size and base of the plain form with ranges, for this number of bytes in total, which
    is already rounded up (parse_crashkernel_mem)."""
    while True:
        start, place = size_at(raw, place)
        place, end = mark_at(raw, place, "-"), TOP
        if raw[place:place + 1] != ":":
            end, place = size_at(raw, place)
            if end <= start:
                raise Malformed("end <= start")
        size, place = size_at(raw, mark_at(raw, place, ":"))
        if size >= total:
            raise Malformed("invalid size")
        if start <= total < end:
            break
        if raw[place:place + 1] != ",":
            return 0, 0
        place += 1
    base = re.compile(r"[^ @]*@").match(raw, place)
    return size, size_at(raw, base.end())[0] if size and base else 0


def round_up(total: int) -> int:
    """Returns total memory as the kernel compares it with ranges, rounded up to 128 MiB."""
    return -(-total // ROUND) * ROUND


def kernel_crash(raw: str, words: Sequence[Word], total: Totals,
                 kept: str = "") -> tuple[Crash, Places, Faults]:
    """Returns the crash area that the raw line asks for (parse_crashkernel, reserve_crashkernel); the
    place of each form's value in the raw line; and, by such a place, why the kernel ignores that
    value, if it does. `kept` are ranges that the program picks from as the kernel does."""
    plain = 0, 0
    said: dict[str, int] = {}
    places: Places = {}
    faults: Faults = {}
    for form, suffix in (("plain", ""), ("high", ",high"), ("low", ",low")):
        found = last_crash(raw, suffix)
        if found is None:
            continue
        place, end = found
        places[form] = place
        try:
            if suffix:
                said[form] = suffixed(raw, place, suffix)
            elif kept:
                plain = BY_RANGES, 0
            elif ":" in raw[place:end]:
                plain = ranged(raw, place, round_up(total().kernel))
            else:
                plain = simple(raw, place)
        except Malformed as why:
            faults[place] = f"the kernel warns: {why}"
    return asked(*plain, said.get("high", 0), said.get("low"), low_default(words)), places, faults


def is_taken_from(data: bytes, first: int, total: Callable[[str], Total]) -> bool:
    """Returns whether the kernel takes the crash area, at least in part, from the line's text from
    this byte on."""
    raw = raw_line(data)[:LONGEST]
    words, _ = words_of(raw)
    others = " ".join(one.text for one in words if program_word(one.text)[0] != "crashkernel")
    crash, places, faults = kernel_crash(raw, words, lambda: total(others))
    asks = {"plain": crash.size, "high": crash.high, "low": crash.size or crash.high}
    return any(
        place >= first and place not in faults and asks[form] for form, place in places.items()
    )


def asks_for_area(text: str) -> bool:
    """Returns whether words ask for a crash area. A name that is nearly crashkernel counts, too; a
    size of 0 doesn't."""
    for word in words_of(text)[0]:
        value = program_word(word.text)[1] or ""
        is_zero = value[:1].isdigit() and ":" not in value and memparse(value, 0)[0] == 0
        if near(word.name) == "crashkernel" and not is_zero:
            return True
    return False


def asked(size: int, base: int, high: int, low: int | None, default: int) -> Crash:
    """Returns the crash area that these sizes ask for. The form high counts only if the plain form
    has no size or may have none, and the low part only if one of these two has a size."""
    if size == BY_RANGES:
        base = 0
    elif size:
        high = 0
    elif high:
        base = 0
    else:
        return Crash(0, 0, 0, 0)
    return Crash(size, base, high, default if low is None else low)


def low_default(words: Iterable[Word]) -> int:
    """Returns the size of the low part without a form `S,low`: 256 MiB, or what `swiotlb=` asks
    for and 8 MiB (reserve_crashkernel_low)."""
    slabs = 0
    for word in words:
        if word.name == "swiotlb" and word.value and word.value[0].isdigit():
            slabs = -(-number_at(word.value, 0)[0] // 128) * 128
    return max(LOW_LEAST, slabs * 2048 + (8 << 20)) if slabs else LOW_LEAST


SIZE = r"(?:0[xX][0-9a-fA-F]+|[0-9]+)[kKmMgGtTpPeE]?"


def program_plain(value: str) -> tuple[list[Sized], int] | None:
    """Returns ranges (start, end or None, size) and base of the plain form for bootmem, or None
    if it refuses it."""
    body, _, base = value.partition("@")
    parts = body.split(",")
    found: list[Sized] = []
    for part in parts:
        match = re.fullmatch(rf"(?:({SIZE})-({SIZE})?:)?({SIZE})", part)
        if match is None or len(parts) > 1 and not match.group(1):
            return None
        start, end, size = (None if text is None else plain_size(text) for text in match.groups())
        if size is None or (start is None) != (match.group(1) is None) or (end is None) != (match.group(2) is None):
            return None
        if start is not None and end is not None and end <= start:
            return None
        found.append((start or 0, end, size))
    place = plain_size(base) if "@" in value else 0
    return None if place is None else (found, place)


def kept_ranges(raw: str, words: Iterable[Word]) -> str:
    """Returns the last plain form of the raw line if it has ranges of total memory and bootmem61
    takes the same form from the words; else an empty text. bootmem61 reads `0-:S` as S alone,
    without comparing it to the total, so that form doesn't count."""
    place, end = last_crash(raw, "") or (0, 0)
    text, own = raw[place:end], ""
    parsed = program_plain(text) if ":" in text else None
    if parsed is None or parsed[0][0][:2] == (0, None):
        return ""
    for word in words:
        name, value = program_word(word.text)
        if name == "crashkernel" and not (value or "").endswith((",high", ",low")):
            own = (value or "") if word.start <= place < word.start + len(word.text) else ""
    return text if own == text else ""


def program_crash(words: Iterable[Word], total: Totals, kept: str = "") -> Crash | None:
    """Returns the crash area that the words ask bootmem for, or None if it refuses one of them.
    `kept` are ranges from which the program picks as the kernel does."""
    found: list[Sized] = []
    base = 0
    said: dict[str, int] = {}
    for word in words:
        name, value = program_word(word.text)
        if name != "crashkernel":
            continue
        match = re.fullmatch(rf"({SIZE}),(high|low)", value or "")
        size = plain_size(match.group(1)) if match else None
        plain = None if match else program_plain(value or "")
        if match and size is not None:
            said[match.group(2)] = size
        elif plain is not None:
            found, base = plain
        else:
            return None
    if kept:
        return asked(BY_RANGES, 0, said.get("high", 0), said.get("low"), LOW_LEAST)
    have = total().bootmem if any(one[:2] != (0, None) for one in found) else 0
    size = next((size for start, end, size in found if start <= have and (end is None or have < end)), 0)
    return asked(size, base if size else 0, said.get("high", 0), said.get("low"), LOW_LEAST)


def crash_words(crash: Crash, kept: str) -> dict[str, str]:
    """Returns the words that ask bootmem for this area, by their form. `kept` are ranges that
    stay."""
    found = {}
    if kept:
        found["plain"] = f"{KEY}{kept}"
    elif crash.size:
        found["plain"] = f"crashkernel={size_text(crash.size)}" + (f"@{size_text(crash.base)}" if crash.base else "")
    if crash.high:
        found["high"] = f"crashkernel={size_text(crash.high)},high"
    if found and crash.low != LOW_LEAST:
        found["low"] = f"crashkernel={size_text(crash.low)},low"
    return found


def crash_said(raw: str, words: Sequence[Word], texts: list[str], total: Totals, changes: list[str],
               by_ranges: bool = False) -> list[str]:
    """Returns the texts of the words, in which `crashkernel=` asks bootmem for what the kernel reads,
    and the words to add after them. `by_ranges` means that the program picks from ranges as the
    kernel does."""
    kept = kept_ranges(raw, words) if by_ranges else ""
    wanted, places, faults = kernel_crash(raw, words, total, kept)
    if program_crash(words, total, kept) == wanted:
        return []
    found = crash_words(wanted, kept)
    for index, word in enumerate(words):
        if program_word(word.text)[0] != "crashkernel":
            continue
        forms = [form for form, place in places.items() if word.start <= place < word.start + len(word.text)]
        form = next((form for form in forms if form in found), None)
        if form:
            texts[index] = found.pop(form)
            if texts[index] != word.text:
                changes.append(f"word {index + 1}: {word.text}: read as {texts[index]}{why_size(word.text, total)}")
        else:
            texts[index] = ""
            changes.append(f"word {index + 1}: {word.text}: left out: {why_unused(forms, places, faults)}")
    for form, text in found.items():
        where = "the low part that swiotlb= asks for"
        if form in places:
            where = f"the kernel finds it in the raw line, from byte {places[form] - len(KEY) + 1} on"
        changes.append(f"{text}: put in: {where}{why_size(raw[places[form]:].split(' ')[0], total) if form in places else ''}")
    return list(found.values())


def why_size(text: str, total: Totals) -> str:
    """Returns why a form with ranges has another size in the kernel; empty for other forms."""
    if ":" not in text:
        return ""
    have = total().kernel
    return f", since total memory, {have} bytes, counts as {size_text(round_up(have))} (parse_crashkernel_mem)"


def why_unused(forms: Iterable[str], places: Places, faults: Faults) -> str:
    """Returns why the kernel takes no size from a word."""
    for form in forms:
        return faults.get(places[form], "it asks for nothing there")
    return "the kernel takes a later one, or none"


def words_noted(words: Iterable[Word]) -> Iterator[str]:
    """Yields notes on words that bootmem ignores though the kernel acts on them, on words that need
    a file, and on names that are nearly one of bootmem's."""
    for number, word in enumerate(words, 1):
        name = word.name.replace("-", "_")
        if name in PASSED:
            yield f"word {number}: {word.text}: passed over: {PASSED[name]}"
        elif name == EFI:
            yield f"word {number}: {word.text}: EFI's descriptors are added to the map (do_add_efi_memmap): by bootmem those of --efi alone"
        elif name == "acpi" and word.value == "off":
            yield f"word {number}: {word.text}: passed over: the kernel reads no SRAT; give none"
        elif word.name not in NAMES and near(name):
            yield f"word {number}: {word.text}: passed over, by the kernel too: is {near(name)}= meant?"


def near(name: str) -> str | None:
    """Returns the name of an option of bootmem that differs from this one only by case, by `_` in
    place of `-`, or by one or two letters; else None."""
    plain = name.lower().replace("_", "").replace("-", "")
    for own, most in (("crashkernel", 2), ("memmap", 1), ("numa", 1), ("mem", 0)):
        if distance(plain, own) <= most:
            return own
    return None


def distance(one: str, two: str) -> int:
    """Returns how many letters must be added, removed, replaced or swapped with the next one to turn
    one text into the other."""
    before: list[int] = []
    row = list(range(len(two) + 1))
    for i, letter in enumerate(one, 1):
        older, before, row = before, row, [i]
        for j, other in enumerate(two, 1):
            row.append(min(before[j] + 1, row[j - 1] + 1, before[j - 1] + (letter != other)))
            if i > 1 and j > 1 and letter == two[j - 2] and one[i - 2] == other:
                row[j] = min(row[j], older[j - 2] + 1)
    return row[-1]


def read_line(data: bytes, total: Callable[[str], Total] | None = None,
              by_ranges: bool = False) -> Reading:
    """Returns a line that bootmem reads as the kernel reads the file's bytes. `total` returns the
    total memory for a line without `crashkernel=`; it is called only if a size depends on it.
    `by_ranges` means that the program is bootmem61, which picks from ranges as the kernel does, so
    that well-formed ranges stay."""
    changes: list[str] = []
    raw = raw_line(data)
    if len(raw) > LONGEST:
        changes.append(f"byte {LONGEST + 1} and all after it: cut off, as the kernel does")
        raw = raw[:LONGEST]
    line = settled_line(raw, changes)
    words, end = words_of(line)
    texts = options_said(words, changes)
    others = " ".join(text for word, text in zip(words, texts) if text and program_word(word.text)[0] != "crashkernel")
    more = crash_said(raw, words, texts, functools.lru_cache(None)(lambda: total_for(total, others)), changes, by_ranges)
    if changes:
        line = " ".join([text for text in texts + more if text] + ([line[end:]] if line[end:] else []))
    return Reading(line, [shown(said) for said in changes], [shown(said) for said in words_noted(words)])


def shown(text: str) -> str:
    """Returns a text of the line for a terminal: as UTF-8, without codes that move the cursor."""
    decoded = text.encode("latin-1").decode("utf-8", "replace")
    return "".join(letter if letter.isprintable() else f"\\x{ord(letter):02x}" for letter in decoded)


def total_for(total: Callable[[str], Total] | None, line: str) -> Total:
    """Returns total memory for a line.

    # Errors
    A Trouble if it isn't known.
    """
    if total is None:
        raise tool.Trouble("crashkernel= has ranges, so its size depends on how much memory there is: "
                              "name the zero page, or --total", 2)
    return total(line)


def total_by(program: str | None, words: Sequence[str], folder: str | None = None) -> Callable[[str], Total]:
    """Returns a function that returns total memory for a line, by the map of the named program, or
    else of the one that is found. The kernel counts the bytes of frames that are only partly memory
    if they are next to a whole frame (memblock_trim_memory)."""
    def total(line: str) -> Total:
        """Returns total memory for this line."""
        with tempfile.TemporaryDirectory() as work:
            path = os.path.join(work, "line")
            write_line(path, line)
            texts = runner.run_program(runner.find_program(program), ["map"], ["--cmdline", path, *words], folder)
        counted, whole = 0, 0
        for first, last in reports.memory_of(texts):
            frames = (last + 1) // ranges.FRAME - -(-first // ranges.FRAME)
            if frames > 0:
                counted, whole = counted + last + 1 - first, whole + frames * ranges.FRAME
        return Total(counted, whole)
    return total


def read_file(path: str) -> bytes:
    """Returns the bytes of a command line's file, or of standard input if the path is `-`.

    # Errors
    A Trouble if there are more bytes than any boot loader passes on.
    """
    return tool.read_bytes(path, FILE)


def write_line(path: str, line: str) -> None:
    """Writes the bytes of a line unchanged, with a newline."""
    with open(path, "wb") as file:
        file.write(line.encode("latin-1") + b"\n")
