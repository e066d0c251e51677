"""The library, called from Python: the calls that a VMM needs, and each status. Skipped if there is no libbootmem.so."""

import os
import subprocess
import sys
import threading
import unittest

import support
from bootmem_tools import library
from bootmem_tools.inputs import RAM, RESERVED, slit, srat, zero_page
from fault_tables.slit import REFUSED

PAGE = zero_page([(0, 0x9FC00, RAM), (0x100000, 0x3FF00000, RAM)])
NO_RAM = zero_page([(0, 4096, RESERVED), (0x100000, 4096, RESERVED)])
MAP = b"0x0000000000001000..0x000000000009fbff 1 usable\n0x0000000000100000..0x000000003fffffff 1 usable\n"


def example(name, file):
    """The bytes of a file of a machine."""
    return support.bytes_of(support.example(name, file))


@unittest.skipUnless(support.use_library(), "there is no libbootmem.so ('make lib')")
class Calls(unittest.TestCase):
    """Calls with words and files."""

    def test_a_map(self):
        out = library.run(["--report", "map", "zp.bin"], {"zp.bin": PAGE})
        self.assertEqual([line for line in out.splitlines() if b"usable" in line], MAP.splitlines())

    def test_values(self):
        runs = library.map_runs(["zp.bin"], {"zp.bin": PAGE})
        self.assertEqual(
            [run for run in runs if run.type == RAM],
            [(0x1000, 0x9EC00, RAM), (0x100000, 0x3FF00000, RAM)],
        )
        files = {"zp.bin": PAGE, "line": b"crashkernel=64M"}
        self.assertEqual(library.crash_area(["zp.bin"], files), (0, 0, 0, 0, library.NOT_REQUESTED))
        self.assertEqual(library.crash_area(["--cmdline", "line", "zp.bin"], files).size, 64 << 20)
        for block in library.free_blocks(["zp.bin"], {"zp.bin": PAGE}):
            base, size = 4096 * block.first, 4096 << block.order
            self.assertTrue(any(run.base <= base and base + size <= run.base + run.size for run in runs if run.type == RAM))
            self.assertEqual(block.zone == library.DMA, base < 16 << 20)

    def test_why_there_is_no_crash_area(self):
        kernel = ["--kernel", "0x1000000,0x3400000"]
        for line, state in [
            (b"quiet", library.NOT_REQUESTED),
            (b"crashkernel=64M", library.CRASH_RESERVED),
            (b"crashkernel=2G", library.NO_AREA),
            (b"crashkernel=64M@16M", library.IN_USE),
        ]:
            with self.subTest(line=line):
                area = library.crash_area([*kernel, "--cmdline", "line", "zp.bin"], {"zp.bin": PAGE, "line": line})
                self.assertEqual((area.state, area.size > 0), (state, state == library.CRASH_RESERVED))

    def test_memory_nodes_and_zones(self):
        files = {"zp.bin": PAGE, "srat": srat([(0, 512 << 20, 7), (512 << 20, 512 << 20, 9)], [7, 9])}
        words = ["--srat", "srat", "zp.bin"]
        self.assertEqual(library.nodes(words, files), [(0, 7), (1, 9)])
        self.assertEqual(library.nodes(["zp.bin"], files), [(0, None)])
        memory = library.memory_ranges(words, files)
        self.assertEqual([one.node for one in memory], [0, 0, 1])
        spans = library.zone_spans(words, files)
        self.assertEqual([(one.node, one.zone) for one in spans], [(0, library.DMA), (0, library.DMA32), (1, library.DMA32)])
        for node in 0, 1:
            held = sum(one.size // 4096 for one in memory if one.node == node)
            self.assertEqual(sum(one.present for one in spans if one.node == node), held)

    def test_values_with_little_room(self):
        page = example("q35-1g", "zp.bin")
        for values in library.map_runs, library.memory_ranges, library.nodes, library.zone_spans, library.free_blocks:
            with self.subTest(values=values):
                self.assertEqual(values(["zp.bin"], {"zp.bin": page}, room=0), values(["zp.bin"], {"zp.bin": page}))

    def test_values_of_a_refusal(self):
        for values in (library.map_runs, library.crash_area, library.memory_ranges, library.nodes, library.zone_spans,
                       library.free_blocks):
            with self.subTest(values=values), self.assertRaises(library.Refused) as refused:
                values(["zp.bin"], {"zp.bin": NO_RAM})
            self.assertEqual((refused.exception.reason, str(refused.exception)), ("stopped", "bootmem: stopped: no usable frame"))

    def test_a_real_machine(self):
        page = example("first", "zp.bin")
        self.assertEqual(library.run(["--report", "map", "zp.bin"], {"zp.bin": page}), example("first", "map.txt"))

    def test_more_room_is_asked_for(self):
        page = example("q35-1g", "zp.bin")
        words = ["--report", "blocks", "--kernel", "0x1000000,0x3400000", "zp.bin"]
        status, out, err = library.call(words, {"zp.bin": page}, room=10)
        self.assertEqual((status, err), (0, b""))
        self.assertEqual(out, library.run(words, {"zp.bin": page}))

    def test_each_status(self):
        for status, line, words, files in [
            (2, "bootmem: usage", ["--nothing"], {}),
            (2, "", [b"\xff"], {}),
            (3, "bootmem: cannot read zp.bin", ["zp.bin"], {"zp": PAGE}),
            (5, "bootmem: zeropage: wrong length", ["zp.bin"], {"zp.bin": PAGE[1:]}),
            (5, "bootmem: zeropage: too few entries", ["zp.bin"], {"zp.bin": zero_page([(0, 1 << 30, RAM)])}),
            (6, "bootmem: stopped: no usable frame", ["zp.bin"], {"zp.bin": NO_RAM}),
        ]:
            with self.subTest(words=words), self.assertRaises(library.Refused) as refused:
                library.run(words, files)
            self.assertEqual((refused.exception.status, str(refused.exception)), (status, line))

    def test_a_profile(self):
        """The profile of Linux 6.1 gives the boot of bootmem61: its rules, early claims and lines. The
        other profile is the default. Any other number is a usage error."""
        words, files = ["--cmdline", "line", "zp.bin"], {"zp.bin": PAGE, "line": b"crashkernel=1G-:64M", "claims": b"reserve 1 0x20000000 0x1000\n"}
        linux = library.LINUX_6_1
        self.assertEqual(library.crash_area(words, files).state, library.NOT_REQUESTED)
        self.assertEqual(library.crash_area(words, files, profile=library.OWN), library.crash_area(words, files))
        self.assertEqual(library.crash_area(words, files, profile=linux).size, 64 << 20)
        claimed = ["--claims", "claims", *words]
        self.assertEqual(library.run(["--report", "claims", *claimed], files, profile=linux), b"1: done\n")
        whole, fewer = ({frame for block in library.free_blocks(one, files, profile=linux) for frame in range(block.first, block.first + (1 << block.order))}
                        for one in (words, claimed))
        self.assertEqual((whole - fewer, fewer - whole), ({0x20000}, set()))
        for values in library.memory_ranges, library.nodes:
            self.assertEqual(values(claimed, files, profile=linux), values(words, files))
        self.assertEqual(sum(one.present for one in library.zone_spans(claimed, files, profile=linux)),
                         sum(one.present for one in library.zone_spans(words, files)))
        for profile, line in (library.OWN, b"bootmem: usage\n"), (linux, b"bootmem61: usage\n"), (2, b""):
            self.assertEqual(library.call(["--none"], files, profile=profile), (2, b"", line))
        for values in library.crash_area, library.memory_ranges, library.nodes, library.zone_spans, library.free_blocks:
            with self.subTest(values=values), self.assertRaises(library.Refused) as refused:
                values(words, files, profile=2)
            self.assertEqual((refused.exception.reason, str(refused.exception)), ("usage", ""))

    def test_a_slit(self):
        """The library answers a SLIT with the program's own text: without an SRAT, with one, with a
        wrong length, and with each other fault."""
        domains = srat([(0, 512 << 20, 0), (512 << 20, 512 << 20, 1)], [0, 1])
        whole = slit([[10, 20], [20, 10]])
        answers = [("no SRAT", whole, None, "slit no srat"), ("an SRAT", whole, domains,
                                                              "slit used"),
                   ("a domain less", slit([[10]]), domains, "slit used"), ("a bad cell",
                                                                           slit([[10, 20], [20, 11]]), domains, "slit not valid 1 1"),
                   ("a bad cell, no SRAT", slit([[11]]), None, "slit no srat")]
        faults = [("a byte less", whole[:-1], "length"), ("a byte more", whole + b"\0", "length"),
                  ("43 bytes", whole[:43], "short"),
                  ("a row that lacks a cell", slit([[10, 20], [20]]), "localities"), *REFUSED]
        for name, table, domains_beside, line in answers + [(name, table, beside, fault) for name,
                                                            table, fault in faults
                                                            for beside in (None, domains)]:
            words, files = ["--report", "zonelists", "--slit", "slit",
                            "zp.bin"], {"zp.bin": PAGE, "slit": table}
            if domains_beside:
                words, files = ["--srat", "srat", *words], {**files, "srat": domains_beside}
            with self.subTest(name=name, srat=domains_beside is not None):
                status, out, err = library.call(words, files)
                if line.startswith("slit "):
                    self.assertEqual((status, out.decode().splitlines()[:1], err),
                                     (0, [line], b""))
                else:
                    self.assertEqual((status, out, err.decode()), (5, b"",
                                                                   f"bootmem: slit: {line}\n"))
                    with self.assertRaises(library.Refused) as refused:
                        library.nodes(words[:-5] + words[-3:], files)
                    self.assertEqual((refused.exception.reason, str(refused.exception)),
                                     ("faulty", f"bootmem: slit: {line}"))
                if os.access(support.PROGRAM, os.X_OK):
                    self.assertEqual((status, out.decode(), err.decode()),
                                     support.run_over(files, words))

    def test_the_first_of_a_name_counts(self):
        # a dict can't hold two files of one name, but one name can be bytes and the other one text
        files = {"zp.bin": PAGE, b"zp.bin": b""}
        self.assertTrue(library.run(["--report", "map", "zp.bin"], files))

    def test_threads(self):
        answers = []
        threads = [
            threading.Thread(target=lambda: answers.append(library.run(["--report", "summary", "zp.bin"], {"zp.bin": PAGE})))
            for _ in range(8)
        ]
        for thread in threads:
            thread.start()
        for thread in threads:
            thread.join()
        self.assertEqual((len(answers), len(set(answers))), (8, 1))

    def test_the_version(self):
        self.assertEqual(library.version(), (0, 1, 0))


class Missing(unittest.TestCase):
    """The error of a call if there is no library."""

    def test_what_to_do(self):
        code = "from bootmem_tools import library; library.version()"
        variables = {**os.environ, "BOOTMEM_LIB": "/nowhere/libbootmem.so", "PYTHONPATH": os.path.join(support.TOP, "tools")}
        done = subprocess.run([sys.executable, "-c", code], env=variables, capture_output=True, text=True, check=False)
        self.assertEqual(done.returncode, 1)
        for what in "/nowhere/libbootmem.so", "BOOTMEM_LIB", "bootmem-dev", "bootmem-json":
            self.assertIn(what, done.stderr)


if __name__ == "__main__":
    unittest.main()
