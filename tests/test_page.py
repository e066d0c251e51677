"""bootmem-draw --html: the page's rows against the reports, what is refused, and the page in a
headless browser, if there is one."""

import json
import os
import re
import time
import unittest

from browser import Browser, browser_path
from support import RAM, RESERVED, Case, bytes_of, example, machine_files, program, text_of, tool, words_of, write

MACHINES = ("q35-8g-numa2", "ovmf-4g-numa2", "srat-hull3")
DRAWN = "map,owners,nodes,zones,blocks"
MOST_BYTES, MOST_SECONDS = 2_000_000, 1.0
# 16 TiB with 1,598 reserved frames, which make 3,199 runs
GREAT = [(0, 0x9F000, RAM), (0x100000, 0xFFFFFF00000, RAM)] + [((place << 33) + 0x1235000, 0x1000, RESERVED) for place in range(1, 1599)]


def data_of(page):
    """The data of a page: its rows, kinds and changes."""
    return json.loads(re.search(r'<script type="application/json" id="data">(.*?)</script>', page, re.DOTALL).group(1))


def pieces_of(held, report):
    """The ranges of a report's column, each with its label and number. Ranges that the page joins are
    separate again."""
    kinds, found = held["kinds"], []
    for column in held["columns"]:
        for lane in column["lanes"] if column["report"] == report else []:
            after = 0
            for row in lane.split(","):
                gap, size, kind, *numbers = (int(word, 16) for word in row.split())
                first, after = after + gap, after + gap + size
                piece = int(kinds[kind][3], 16) or size
                for place in range(first, after, piece):
                    number = [numbers[0] + (numbers[1] - 1) * ((place - first) // piece)] if numbers else []
                    found.append((place, place + piece - 1, " ".join([kinds[kind][0], *map(str, number)])))
    return sorted(found)


class Page(Case):
    """The page as a file."""

    def page_of(self, name, *words):
        """The text of the page of a machine's run."""
        path = self.path(f"{name}.html")
        status, out, err = tool("bootmem-draw", "--html", path, *words, "--", *words_of(name), folder=example(name))
        self.check(f"page {name}", (status, out, err), (0, "", ""))
        return text_of(path)

    def test_rows(self):
        """Every line of a machine's reports is on its page, with its exact range. The page loads
        nothing from elsewhere."""
        for name in MACHINES:
            held = data_of(self.page_of(name, "--title", "</script><b>&"))
            self.check(f"page {name}: title", held["title"], "</script><b>&")
            lines = program(example(name), "--report", "owners,blocks,map", *words_of(name)).splitlines()
            owners = re.findall(r"^ *\d+: 0x(\w+)\.\.0x(\w+) (.*)", "\n".join(lines), re.MULTILINE)
            self.check(f"page {name}: owners", pieces_of(held, "owners"),
                       [(int(first, 16), int(last, 16), re.sub(r"^map (?=\d)", "page structures of section ", owner))
                        for first, last, owner in owners])
            blocks = re.findall(r"^node \d+ zone \w+ order (\d+) 0x(\w+)", "\n".join(lines), re.MULTILINE)
            self.check(f"page {name}: blocks", pieces_of(held, "blocks"),
                       sorted((int(place, 16), int(place, 16) + (4096 << int(order)) - 1, f"order {order}") for order, place in blocks))
            runs = re.findall(r"^0x(\w+)\.\.0x(\w+) \d+ (.*)", "\n".join(lines), re.MULTILINE)
            self.check(f"page {name}: map", pieces_of(held, "map"), [(int(first, 16), int(last, 16), kind) for first, last, kind in runs])
            page = text_of(self.path(f"{name}.html"))
            self.check(f"page {name}: no network", re.findall(r"https?:|src=|@import|url\(", page), [])

    def test_changes(self):
        """Two boots: two files with reports, or a file and a run. The changes are those that
        bootmem-diff prints."""
        old, new = example("q35-8g-numa2", "map.txt"), example("q35-4g-mem2g", "map.txt")
        self.check("page of two texts", tool("bootmem-draw", "--html", self.path("two"), old, new), (0, "", ""))
        held = data_of(text_of(self.path("two")))
        self.check("page of two texts: changes", (held["boots"], held["changes"]),
                   ([old, new], {"map": [["100000000", "27fffffff", "usable", "none"]]}))
        folder = example("q35-8g-numa2")
        write(self.path("plain"), program(folder, "--report", DRAWN, "--kernel", "16M,52M", "zp.bin"))
        status, out, err = tool("bootmem-draw", "--html", self.path("run"), self.path("plain"), "--", *words_of("q35-8g-numa2"), folder=folder)
        self.check("page of a text and a run", (status, out, err), (0, "", ""))
        changed = data_of(text_of(self.path("run")))["changes"]["owners"]
        words = " ".join(words_of("q35-8g-numa2"))
        diff = tool("bootmem-diff", "--report", "owners", "--a", "--kernel 16M,52M zp.bin", "--b", words, folder=folder)[1]
        self.check("page of a text and a run: changes", [f"0x{int(first, 16):016x}-0x{int(last, 16):016x} {was} -> {now}" for first, last, was, now
                                                         in changed], diff.splitlines())

    def test_refused(self):
        """Words that exclude each other, and files that can't be read or written."""
        for words in (["--text", "--html", "x", "map.txt"], ["--output", "x", "--html", "x", "map.txt"], ["map.txt", "map.txt"],
                      ["--html", "x", "map.txt", "map.txt", "map.txt"], ["--html", "x", "map.txt", "map.txt", "--", "zp.bin"],
                      ["--html", "x", "-", "-"]):
            self.check(f"draw {words}", tool("bootmem-draw", *words, folder=example("first"))[:2], (2, ""))
        for words in (["--html", "none/x", "map.txt"], ["--html", self.path("x"), "cmdline"], ["--html", self.path("x"), "map.txt", "nothing"]):
            self.check(f"draw {words}", tool("bootmem-draw", *words, folder=example("first"))[:2], (1, ""))
        self.check("nothing is written", os.listdir(self.work), [])


@unittest.skipUnless(browser_path(), "there is no Chromium: the page isn't tried in a browser")
class InBrowser(Case):
    """The page in a browser. Pictures go to the folder that BOOTMEM_PICTURES names, if it is
    set."""

    def shot(self, browser, name):
        """Takes a picture of the page, and checks that it has more than one colour."""
        folder = os.environ.get("BOOTMEM_PICTURES") or self.work
        path = os.path.join(folder, f"{name}.png")
        browser.screenshot(path)
        self.check(f"{name}: a picture of some bytes", len(bytes_of(path)) > 10000, True)

    def here(self, browser):
        """The text that the page shows for the address below the mouse."""
        return browser.value("document.getElementById('here').innerText")

    def point(self, browser, address, left=400):
        """Moves the mouse to an address."""
        top = browser.value("document.getElementById('main').getBoundingClientRect().top")
        browser.mouse("mouseMoved", left, top + browser.value(f"yOf({address})"))

    def test_machines(self):
        """Three machines: a picture, a zoom by words, wheel and drag, a search, and what the
        mouse points at; nothing on the console."""
        with Browser() as browser:
            for name in MACHINES:
                path = self.path(f"{name}.html")
                tool("bootmem-draw", "--html", path, "--title", name, "--", *words_of(name), folder=example(name))
                browser.open(path)
                self.check(f"{name}: title", browser.value("document.title"), name)
                self.shot(browser, name)
                owners = program(example(name), "--report", "owners", *words_of(name)).splitlines()
                for line in (owners[1], owners[-1]):
                    first, last, owner = re.match(r" *\d+: (0x\w+)\.\.(0x\w+) (.*)", line).groups()
                    shown = re.sub(r"^map (?=\d)", "page structures of section ", owner)
                    browser.value(f"document.getElementById('from').value = '{first}', document.getElementById('to').value = '{last}'")
                    browser.value("document.querySelector('#range button').click()")
                    self.check(f"{name}: zoom to {owner}", browser.value("[view.low, view.high]"), [int(first, 16), int(last, 16) + 1])
                    self.point(browser, (int(first, 16) + int(last, 16)) // 2)
                    self.has(f"{name}: the mouse on {owner}", self.here(browser), f"{shown}\n{first}-{last}")
                    browser.value(f"document.getElementById('address').value = '{first}'")
                    browser.value("document.querySelector('#search button').click()")
                    self.has(f"{name}: search {first}", self.here(browser), f"{shown}\n{first}-{last}")
                self.shot(browser, f"{name}-zoom")
                browser.value("document.getElementById('whole').click()")
                self.point(browser, int(owners[1].split()[1][:18], 16))
                wide = browser.value("view.high - view.low")
                browser.mouse("mouseWheel", 400, 400, deltaX=0, deltaY=-100)
                self.check(f"{name}: the wheel zooms", browser.value("view.high - view.low") < wide, True)
                browser.value("document.getElementById('whole').click()")
                browser.mouse("mousePressed", 400, 300, button="left", clickCount=1)
                browser.mouse("mouseMoved", 400, 400, button="left")
                browser.mouse("mouseReleased", 400, 400, button="left", clickCount=1)
                self.check(f"{name}: a drag zooms", browser.value("view.high - view.low") < wide, True)
                browser.value("document.getElementById('back').click(), document.getElementById('linear').click()")
                self.check(f"{name}: back to the whole", browser.value("view.high - view.low"), wide)
                browser.value("search('nonsense')")
                self.has(f"{name}: no address", browser.value("document.getElementById('trouble').innerText"), "nonsense: no address")
                self.check(f"{name}: nothing on the console", browser.said, [])

    def test_two_boots(self):
        """Two boots: the list of what changed, and a click on a change."""
        folder = example("q35-8g-numa2")
        write(self.path("before"), program(folder, "--report", DRAWN, "--kernel", "16M,52M", "zp.bin"))
        tool("bootmem-draw", "--html", self.path("two.html"), self.path("before"), "--", *words_of("q35-8g-numa2"), folder=folder)
        with Browser() as browser:
            browser.open(self.path("two.html"))
            changes = browser.value("[...document.querySelectorAll('#changes button')].map(one => one.innerText)")
            self.check("the crash area is among the changes", "owners: none \u2192 crash\n0x000000006f000000-0x000000007effffff" in changes, True)
            number = changes.index("owners: none \u2192 crash\n0x000000006f000000-0x000000007effffff")
            browser.value(f"document.querySelectorAll('#changes button')[{number}].click()")
            self.has("a click shows it", self.here(browser), "crash\n0x000000006f000000-0x000000007effffff")
            self.has("a name for each boot", browser.value("document.getElementById('changes').innerText"), "B: bootmem --cmdline cmdline")
            self.shot(browser, "two-boots")
            browser.value("document.getElementById('whole').click()")
            self.shot(browser, "two-boots-whole")
            self.check("two boots: nothing on the console", browser.said, [])

    def test_great(self):
        """16 TiB in 3,199 runs: the page is small, and loads quickly."""
        words, files = machine_files(GREAT)
        for name, held in files.items():
            write(self.path(name), held)
        self.check("the machine's runs", program(self.work, "--report", "summary", *words, "zp").splitlines()[0], "runs 3199")
        status, _, err = tool("bootmem-draw", "--html", "great.html", "--", "--kernel", "16M,32M", *words, "zp", folder=self.work)
        self.check("the great machine's page", (status, err), (0, ""))
        self.check("its bytes", len(bytes_of(self.path("great.html"))) < MOST_BYTES, True)
        with Browser() as browser:
            # the shortest time of three, because other processes delay it, too
            least = MOST_SECONDS
            for _ in range(3):
                begun = time.monotonic()
                browser.open(self.path("great.html"))
                browser.value("new Promise(done => requestAnimationFrame(() => done(1)))")
                least = min(least, time.monotonic() - begun)
            self.check(f"it is painted within a second: {least:.2f}", least < MOST_SECONDS, True)
            self.shot(browser, "great")
            browser.value("search('0x20001235000')")
            self.has("the great machine: a reserved frame", self.here(browser), "reserved\n0x0000020001235000-0x0000020001235fff")
            browser.value("zoomTo('0x20001000000', '0x20002000000')")
            self.shot(browser, "great-zoom")
            self.check("the great machine: nothing on the console", browser.said, [])


if __name__ == "__main__":
    unittest.main()
