"""The program reads and checks each input before it reads the next one, in this order: zero page, extension, command line, SRAT, script,
page script, SLIT, EFI memory map."""
from support import MACHINE, extension, srat, zero_page

from . import efi, slit

PAGE = zero_page(MACHINE)
GOOD = {"zp": PAGE, "ext": extension([]), "cmd": b"", "srat": srat(), "script": b"", "pages": b"", "slit": slit.ONE, "efi": efi.efi()}
BAD = {"zp": PAGE[:4095], "ext": b"", "cmd": b"mem=0", "srat": b"", "script": b"free", "pages": b"give", "slit": b"", "efi": b""}
LINES = {
    "zp": "bootmem: zeropage: wrong length",
    "ext": "bootmem: e820ext: header",
    "cmd": "bootmem: cmdline: word 1: mem",
    "srat": "bootmem: srat: short",
    "script": "bootmem: script: line 1: form",
    "pages": "bootmem: pages: line 1: form",
    "slit": "bootmem: slit: short",
    "efi": "bootmem: efi: header",
}
# The words name the files in another order than the program reads them.
WORDS = ["--efi", "efi", "--slit", "slit", "--pages", "pages", "--script", "script", "--srat", "srat", "--cmdline", "cmd", "--e820ext", "ext", "zp"]
ORDER = list(LINES)


def cases():
    """Three cases for each input: it and all later ones are wrong; it is missing and all later ones are wrong; it is wrong and all later
    ones are missing."""
    for place, name in enumerate(ORDER):
        before = {each: GOOD[each] for each in ORDER[:place]}
        behind = {each: BAD[each] for each in ORDER[place + 1:]}
        yield f"wrong from {name} on", WORDS, {**before, name: BAD[name], **behind}, 5, LINES[name]
        yield f"no {name}, and later inputs are wrong", WORDS, {**before, **behind}, 3, f"bootmem: cannot read {name}"
        yield f"a wrong {name}, and no later inputs", WORDS, {**before, name: BAD[name]}, 5, LINES[name]


CASES = list(cases())
