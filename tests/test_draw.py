"""bootmem-draw: tables for a terminal, and pictures."""

import os
import unittest
import xml.dom.minidom

from support import TOP, Case, example, text_of, tool, words_of
from bootmem_tools import columns

FIRST = """  address  map
      0x0  gap 1 MiB
 0x100000  usable 126.9 MiB
0x7fe0000  reserved 128 KiB
0x8000000
"""

OVER = """== zones
Node 0, zone DMA start 1 end 4096 present 3998 free 3840
Node 0, zone DMA32 start 4096 end 786432 present 20 free 10
Node 1, zone DMA32 start 262144 end 524288 present 20 free 10
== blocks
node 0 zone DMA order 0 0x0000000000001000
node 0 zone DMA order 0 0x0000000000002000
node 0 zone DMA order 1 0x0000000000004000
"""

OVER_TABLE = """   address  zones                                     free blocks
    0x1000  node 0 DMA 16.0 MiB                       2 x order 0 8 KiB
    0x3000  |
    0x4000  |                                         1 x order 1 8 KiB
    0x6000  |
 0x1000000  node 0 DMA32 3.0 GiB
0x40000000  |                     node 1 DMA32 1 GiB
0x80000000  |
0xc0000000
"""


def rows_of(picture):
    """The rows of a picture: x, y, width, height and texts of each."""
    found = []
    for group in xml.dom.minidom.parseString(picture).getElementsByTagName("g"):
        box = group.getElementsByTagName("rect")[0]
        texts = [text.firstChild.data for text in group.getElementsByTagName("text")]
        found.append(tuple(float(box.getAttribute(name)) for name in ("x", "y", "width", "height")) + (texts,))
    return found


class Draw(Case):
    """Pictures of reports."""

    def test_draw(self):
        """Tables for a terminal, and pictures. In a picture each row has room for its text, and no row covers another."""
        self.check("draw --text", tool("bootmem-draw", "--text", example("first", "map.txt")), (0, FIRST, ""))
        self.check("draw --text, overlapping zones", tool("bootmem-draw", "--text", given=OVER), (0, OVER_TABLE, ""))
        for name in ("q35-20g-numa4", "srat-hull3", "zp-random2"):
            texts = {}
            for width in (None, 30, 80, 400):
                variables = {"COLUMNS": "" if width is None else str(width)}
                status, texts[width], err = tool("bootmem-draw", "--text", "--title", "a machine " * 9, "--", *words_of(name), folder=example(name),
                                                 variables=variables)
                wide = [line for line in texts[width].splitlines() if len(line) > (width or 80)]
                self.check(f"draw --text {name}: {width} columns", (status, err, wide), (0, "", []))
            self.check(f"draw --text {name}: tables", (texts[400].count("address"), texts[80].count("address") > 1), (1, True))
            self.check(f"draw --text {name}: 80 columns unless the width is known", texts[None], texts[80])
            self.has(f"draw --text {name}: the map of a section", texts[400], "page structures ")
        for name in ("q35-8g-numa2", "ovmf-4g-numa2", "srat-hull3"):
            status, picture, err = tool("bootmem-draw", "--title", "<&>", "--", *words_of(name), folder=example(name))
            self.check(f"draw {name}", (status, err), (0, ""))
            rows = rows_of(picture)
            lines = text_of(example(name, "map.txt")).splitlines()
            self.check(f"draw {name}: entries", [row[4][0] for row in rows if row[0] == rows[0][0] and row[4][0] != "gap"],
                       [line.split(" ", 2)[2] for line in lines])
            for x, y, width, height, texts in rows:
                self.check(f"draw {name}: room for {texts}", height >= 16 and width >= 6 * len("".join(texts[:2])), True)
                over = [one for one in rows if one[:2] != (x, y) and one[0] < x + width and x < one[0] + one[2]
                        and one[1] < y + height and y < one[1] + one[3]]
                self.check(f"draw {name}: over {texts}", over, [])
        title = "examples/q35-8g-numa2: 8 GiB in two nodes, crashkernel=256M"
        picture = tool("bootmem-draw", "--title", title, "--", *words_of("q35-8g-numa2"), folder=example("q35-8g-numa2"))[1]
        self.check("docs/q35-8g-numa2.svg is the picture", picture == text_of(os.path.join(TOP, "docs", "q35-8g-numa2.svg")), True)
        self.check("draw, no report", tool("bootmem-draw", given="hello\n")[:2], (1, ""))
        self.check("draw, nothing drawn", tool("bootmem-draw", given="== tables\n")[:2], (1, ""))
        self.check("draw, a folder", tool("bootmem-draw", "--output", "/", given=OVER)[:2], (1, ""))

    def test_part(self):
        """A part of memory: rows that its borders cut show their whole size, and nothing outside is drawn."""
        self.check("draw --from --to", tool("bootmem-draw", "--text", "--from", "3M", "--to", "0x7ff0000", example("first", "map.txt")),
                   (0, "  address  map\n 0x300000  usable 126.9 MiB\n0x7fe0000  reserved 128 KiB\n0x7ff0000\n", ""))
        self.check("draw --from alone", tool("bootmem-draw", "--text", "--from", "0x7fe0000", example("first", "map.txt"))[1],
                   "  address  map\n0x7fe0000  reserved 128 KiB\n0x8000000\n")
        self.check("draw, nothing there", tool("bootmem-draw", "--from", "1T", example("first", "map.txt")),
                   (1, "", "bootmem-draw: nothing lies from 0x10000000000 up to 0x10000000000000000\n"))
        for words in (["--from", "x"], ["--to", "0"], ["--from", "2M", "--to", "2M"], ["--from", "1M", "--html", "page"]):
            self.check(f"draw {words}", tool("bootmem-draw", *words, example("first", "map.txt"))[:2], (2, ""))

    def test_many(self):
        """A picture of very many runs has fewer than 4,000 pixels, and its rows cover all runs. A tall row repeats its name."""
        runs = 2500
        lines = [f"{4096 * number:#018x}..{4096 * number + 4095:#018x} {1 + number % 2} {('usable', 'reserved')[number % 2]}\n"
                 for number in range(runs)]
        nodes = f"numa used\n{''.join(f'domain {node} node {node}' + chr(10) for node in range(28))}uncovered 0\n"
        nodes += "".join(f"node {node} {node << 18:#018x}..{((node + 1) << 18) - 1:#018x}\n" for node in range(28))
        status, picture, err = tool("bootmem-draw", "--title", "many", given=f"== map\n{''.join(lines)}== nodes\n{nodes}")
        self.check("draw, many runs", (status, err), (0, ""))
        self.check("draw, many runs: its height", int(xml.dom.minidom.parseString(picture).documentElement.getAttribute("height")) < 4000, True)
        rows = rows_of(picture)
        drawn = [row[4][0] for row in rows if row[0] == rows[0][0]]
        self.check("draw, many runs: none is lost", sum(int(name.split()[0]) if name[0].isdigit() else 1 for name in drawn), runs)
        for x, y, width, height, texts in rows:
            self.check(f"draw, many runs: room for {texts}", height >= 16 and width >= 6 * len("".join(texts[:2])), True)
        colours = {columns.node_colour(node) for node in range(28)}
        self.check("draw: 28 nodes in 28 colours", len(colours), 28)
        self.check("draw: dark text on them", [one for one in colours if sum(bytes.fromhex(one[1:])) < 300], [])
        zones = "== zones\nNode 0, zone DMA32 start 0 end 1048576 present 9 free 9\n== nodes\nnuma absent\nuncovered 0\n"
        zones += "".join(f"node 0 {2 * number << 20:#018x}..{(2 * number + 1 << 20) - 1:#018x}\n" for number in range(60))
        tall = [row for row in rows_of(tool("bootmem-draw", given=zones)[1]) if "DMA32" in row[4][0]]
        self.check("draw, a tall row", [len(row[4]) > 2 and set(row[4][::2]) == {"node 0 DMA32"} for row in tall], [True])


if __name__ == "__main__":
    unittest.main()
