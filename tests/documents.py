"""Shared by the tests that compare documents with sources: reads files of the repository, and reports differences."""
import os

TOP = os.path.dirname(os.path.dirname(os.path.abspath(__file__)))


def read(name):
    """The text of a file; the path begins at the top of the repository."""
    with open(os.path.join(TOP, name), encoding="utf-8") as file:
        return file.read()


def end(counted, wrong):
    """Prints the differences and a last line that begins with what was counted. Returns the status."""
    for line in wrong:
        print(line)
    print(f"{counted}, {len(wrong)} differences")
    return 1 if wrong else 0
