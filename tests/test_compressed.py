"""Logs compressed by gzip, bzip2, xz or zstd. Each tool that takes a log reads them like the log
itself, or says what to do if it can't."""

import bz2
import glob
import gzip
import lzma
import os
import shutil
import subprocess
import unittest
from unittest import mock

from support import Case, bytes_of, example, tool, write
from bootmem_tools import compressed
from bootmem_tools.tool import LOG, Trouble, read_bytes

MACHINE = "ovmf-8g-crashranges"
PACKERS = {"gzip": gzip.compress, "bzip2": bz2.compress, "xz": lzma.compress}
# The words of each tool over the inputs of MACHINE. LOG stands for the log.
BOOT = ["--cmdline", "cmdline", "--efi", "efi.bin", "--kernel", "0x1600000,0x3400000", "zp.bin"]
READERS = {
    "zp-from-log": ["--output", "OUT", "LOG"],
    "claims-from-log": ["--replay", "OUT", "LOG"],
    "bootmem-diff": ["map.txt", "LOG"],
    "bootmem-linux": ["--explain", "--report", "crash", "--log", "LOG", *BOOT],
    "bootmem-crash": ["--log", "LOG", "--size", "1G", *BOOT],
    "bootmem-live": ["--log", "LOG", "HOST"],
    "bootmem-json": ["--as-linux", "--report", "crash", "--", "--log", "LOG", *BOOT],
}


class Compressed(Case):
    """Compressed logs."""

    def run_over(self, name, log):
        """Runs a tool over this log. Returns the result and the files that it wrote."""
        out = self.path("out")
        words = [{"LOG": log, "OUT": out, "HOST": self.path("host")}.get(word,
                                                                         word) for word
                 in READERS[name]]
        status, said, err = tool(name, *words, folder=example(MACHINE))
        written = {path: bytes_of(path) for path in [out,
                                                     *glob.glob(os.path.join(out,
                                                                             "*"))]
                   if os.path.isfile(path)}
        for path in written:
            os.remove(path)
        return status, said, err, written

    def test_readers(self):
        """Each tool that takes a log, over the log as compressed by each program."""
        log = bytes_of(example(MACHINE, "log"))
        write(self.path("plain"), log)
        shutil.copytree(example(MACHINE), self.path("host"))
        write(self.path("host", "iomem"), "00001000-0009ffff : System RAM\n")
        for name in READERS:
            wanted = self.run_over(name, self.path("plain"))
            self.check(f"{name}: it reads the log", wanted[0] in (0,
                                                                  1) and (wanted[1] != "" or name
                                                                          in ("zp-from-log",
                                                                              "bootmem-diff")),
                       True)
            for packer, pack in PACKERS.items():
                write(self.path(packer), pack(log))
                self.check(f"{name}, {packer}", self.run_over(name, self.path(packer)), wanted)

    def test_input(self):
        """Standard input, and a file of several compressed parts, as logrotate makes one."""
        log = bytes_of(example(MACHINE, "log"))
        wanted = self.run_over("zp-from-log", example(MACHINE, "log"))[3][self.path("out")]
        for packer, pack in PACKERS.items():
            half = len(log) // 2
            packed = pack(log[:half]) + pack(log[half:])
            status, _, _ = tool("zp-from-log", "--output", "zp", given=packed, folder=self.work)
            self.check(f"{packer} from standard input", (status, bytes_of(self.path("zp"))),
                       (0, wanted))

    def test_sosreport(self):
        """A log among the files of a sosreport."""
        os.makedirs(self.path("sos", "var", "log"))
        write(self.path("sos", "var", "log", "dmesg"),
              gzip.compress(bytes_of(example(MACHINE, "log"))))
        wanted = self.run_over("zp-from-log", example(MACHINE, "log"))[3][self.path("out")]
        status, _, _ = tool("zp-from-log", "--output", "zp", "sos", folder=self.work)
        self.check("a sosreport", (status, bytes_of(self.path("zp"))), (0, wanted))

    def test_broken(self):
        """A file that was cut off or changed, and one whose contents are too long or no text."""
        log = bytes_of(example(MACHINE, "log"))
        for packer, pack in PACKERS.items():
            packed = pack(log)
            middle = len(packed) // 2
            for what, data, why in (
                ("cut", packed[:middle], "not whole"),
                ("changed", packed[:middle] + bytes(40) + packed[middle + 40:], "not whole"),
                ("no text", pack(bytes(100)), "it has a zero byte"),
            ):
                write(self.path("log"), data)
                status, out, err = tool("zp-from-log", "--output", "zp", "log", folder=self.work)
                self.check(f"{packer}, {what}: {err}", (status, out, err.count("\n"), why in err,
                                                        os.path.exists(self.path("zp"))),
                           (1, "", 1, True, False))
        write(self.path("log"), gzip.compress(b"x" * (LOG.limit + 1)))
        self.has("too long", tool("zp-from-log", "--output", "zp", "log", folder=self.work)[2],
                 f"longer than {LOG.limit} bytes")

    def test_zstd(self):
        """zstd: with a Python module for it the log is read; without one the error names a program
        that unpacks it."""
        write(self.path("a log"), compressed.ZSTD + bytes(20))
        with mock.patch.object(compressed, "zstd_opener",
                               lambda: None), self.assertRaises(Trouble) as raised:
            read_bytes(self.path("a log"), LOG)
        self.has("zstd: the error", str(raised.exception),
                 "it is compressed by zstd, which this Python has no module for: unpack it by zstd -d")
        self.check("zstd: the next command", raised.exception.next_command,
                   f"zstd -d '{self.path('a log')}'")
        if compressed.zstd_opener() is None:
            status, out, err = tool("zp-from-log", "--output", "zp", "a log", folder=self.work)
            self.check("zstd: a run", (status, out, err.splitlines()[1:]), (1, "",
                                                                            ["next: zstd -d 'a log'"]))
        elif shutil.which("zstd"):
            log = bytes_of(example(MACHINE, "log"))
            packed = subprocess.run(["zstd", "-c"], input=log, stdout=subprocess.PIPE,
                                    check=True).stdout
            write(self.path("a log"), packed)
            self.check("zstd: read", read_bytes(self.path("a log"), LOG), log)

    def test_others(self):
        """Only logs are unpacked: a compressed zero page is refused."""
        write(self.path("zp.gz"), gzip.compress(bytes_of(example(MACHINE, "zp.bin"))))
        self.check("a zero page", tool("bootmem-crash", "--size", "1M", "zp.gz",
                                       folder=self.work)[:2], (2, ""))


if __name__ == "__main__":
    unittest.main()
