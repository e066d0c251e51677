"""Every fault of every input. If an input has two faults, the program reports the one that docs/FORMATS.md lists first. Next to the smallest
input that is refused for its size or place, there is the greatest one that is accepted.

The cases are in fault_tables/, one file per input; the name of a case says what it shows. For a refused input the status is 5, standard output is
empty, and standard error has one line.
"""

import unittest

from fault_tables import command_line, efi, extension, inputs_in_order, pages, script, slit, srat, zero_page
from support import MACHINE, Case, run_over, zero_page as page_of

TABLES = (zero_page, extension, command_line, srat, script, pages, slit, efi)


def words_and_files(table, held, entries=MACHINE):
    """The words and the files of a run over these bytes as the table's input, with the other files that the table needs. A zero page
    of these entries is added unless the input is the zero page."""
    if table.OPTION is None:
        return ["zp"], {"zp": held}
    beside = getattr(table, "BESIDE", {})
    return [*sum(([option, option[2:]] for option in beside), []), table.OPTION, "file", "zp"], {
        "file": held, "zp": page_of(entries), **{option[2:]: bytes_beside for option, bytes_beside in beside.items()}}


class Faults(Case):
    """Faults of inputs."""

    def test_refused(self):
        """Each fault is reported; of two faults, the first one."""
        for table in TABLES:
            for name, held, fault in table.REFUSED:
                words, files = words_and_files(table, held)
                wanted = (5, "", f"bootmem: {table.INPUT}: {fault}\n")
                self.check(f"{table.INPUT}: {name}", run_over(files, ["--report", "map", *words]), wanted)

    def test_accepted(self):
        """The report equals the text; for `journal` the text is only its first lines. A case may have map entries of its own."""
        for table in TABLES:
            for name, held, report, text, *entries in table.ACCEPTED:
                words, files = words_and_files(table, held, *entries)
                status, out, line = run_over(files, ["--report", report, *words])
                if report == "journal":
                    out = out[:len(text)]
                self.check(f"{table.INPUT}: {name}", (status, out, line), (0, text, ""))

    def test_in_order(self):
        """If several inputs are faulty, the fault of the first one is reported."""
        for name, words, files, status, line in inputs_in_order.CASES:
            self.check(name, run_over(files, ["--report", "map", *words]), (status, "", line + "\n"))


if __name__ == "__main__":
    unittest.main()
