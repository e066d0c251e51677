"""The page script, which runs after the handover: blocks that are split and merged again, requests until nothing is left, gives in another
order, the borders of zones and nodes, and requests near a node.

The name of a comparison says what it shows. Once everything has been given back, the report `pagesinfo` equals `buddyinfo`.
"""
import random
import unittest
from fault_tables.slit import slit
from support import MACHINE, RAM, Case, memory_of, run_over, srat, zero_page

ZONES = ("DMA", "DMA32", "Normal")
FOUR_GIB = 1 << 32
TWO_NODES = [(0x0, 0x9FC00, RAM), (0x100000, 0x7F00000, RAM), (FOUR_GIB, 0x4000000, RAM)]
DOMAINS = srat(memory_of(0, 0, 0x6000000), memory_of(1, 0x6000000, 0x2000000), memory_of(1, FOUR_GIB, 0x4000000))


def reports_of(entries, lines, extra=()):
    """The reports buddyinfo, pages and pagesinfo, each as a list of lines."""
    files = {"zp": zero_page(entries), "pages": "\n".join(lines).encode()}
    words = ["--report", "buddyinfo,pages,pagesinfo", "--pages", "pages"]
    for option, held in extra:
        files[option[2:]] = held
        words += [option, option[2:]]
    status, out, _ = run_over(files, [*words, "zp"])
    if status != 0:
        return None
    parts = out.split("== ")[1:]
    return [part.split("\n")[1:-1] for part in parts]


def outcomes(answers):
    return [line.split(": ", 1)[1] for line in answers]


class Pages(Case):
    """The page script."""

    def test_taken_and_given(self):
        """After requests of random orders until none succeeds, and gives in another order, all blocks are merged again."""
        random.seed(6)
        for order in (0, 3, 9, 10):
            asked = [f"pages {number} {order} 0 {zone}" for number, zone in enumerate(ZONES * (3 if order > 8 else 40))]
            gives = [f"give {number}" for number in range(len(asked))]
            random.shuffle(gives)
            before, answers, after = reports_of(MACHINE, asked + gives)
            self.check(f"order {order}: given back in another order", after, before)
            served = [line for line in outcomes(answers)[:len(asked)] if line.startswith("at ")]
            self.check(f"order {order}: no two requests get one block", len(set(served)), len(served))
        asked = [f"pages {number} {random.randrange(11)} 0 {random.choice(ZONES[:2])}" for number in range(2000)]
        gives = [f"give {number}" for number in random.sample(range(2000), 2000)]
        before, answers, after = reports_of(MACHINE, asked + gives)
        self.check("requests of every order until nothing is left", "no block" in outcomes(answers), True)
        self.check("after all gives the free blocks are as before", after, before)

    def test_split_and_joined(self):
        """A frame that is taken from a block of order 10 leaves one block of each lower order. Once it is given back, they merge again."""
        lines = ["pages 1 0 0 DMA32"]
        plain, _, _ = reports_of([(0x1000000, 0x4000000, RAM)] + [(0, 0x1000, RAM)], [])
        counts = [int(number) for number in plain[-1].split()[4:]]
        before, answers, after = reports_of([(0x1000000, 0x4000000, RAM)] + [(0, 0x1000, RAM)], lines)
        split = [int(number) for number in after[-1].split()[4:]]
        low = next(order for order, count in enumerate(counts) if count)
        wanted = [count + (1 if order < low else 0) - (1 if order == low else 0) for order, count in enumerate(counts)]
        self.check("a frame is split off the smallest block", split, wanted)
        before, answers, after = reports_of([(0x1000000, 0x4000000, RAM)] + [(0, 0x1000, RAM)], lines + ["give 1"])
        self.check("and merged again", after, before)

    def test_borders(self):
        """A request for a zone of a node takes only blocks of that zone. Blocks that are given back don't merge across its border."""
        extra = (("--srat", DOMAINS),)
        before, answers, after = reports_of(TWO_NODES, ["pages 1 10 1 DMA", "pages 2 10 1 DMA32", "pages 3 10 1 Normal", "pages 4 0 2 DMA32",
                                                              "give 3", "give 2", "give 1"], extra)
        got = outcomes(answers)
        self.check("a zone that the node lacks, and a node that doesn't exist", (got[0], got[3]), ("no block", "no block"))
        self.check("blocks of the node's own zones", (0x6000000 <= int(got[1][3:], 16) < 0x8000000, int(got[2][3:], 16) >= FOUR_GIB), (True, True))
        self.check("given back on both sides of a border", after, before)
        self.check("gives of blocks, and of an ID that holds nothing", got[4:], ["done", "done", "unknown"])

    def test_near_a_node(self):
        """A line `near` takes blocks from the node's own zones, Normal first, and from another node once these have none."""
        extra = (("--srat", DOMAINS), ("--slit", slit(2, [10, 20, 20, 10])))
        lines = ["near 1 10 1"] + [f"near {number} 10 1" for number in range(2, 60)] + ["near 1 0 1"]
        _, answers, _ = reports_of(TWO_NODES, lines, extra)
        got = outcomes(answers)
        places = [int(line[3:], 16) for line in got if line.startswith("at ")]
        normal = [place for place in places if place >= FOUR_GIB]
        self.check("Normal goes first, ascending", places[:len(normal)], sorted(normal))
        own = [place for place in places[len(normal):] if place >= 0x6000000]
        self.check("then the node's own lower zone", places[len(normal):len(normal) + len(own)], sorted(own))
        self.check("then the other node's", all(place < 0x6000000 for place in places[len(normal) + len(own):]), True)
        self.check("and then none has a block", got[-2], "no block")
        self.check("a held ID is taken", got[-1], "taken")


if __name__ == "__main__":
    unittest.main()
