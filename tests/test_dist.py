"""The archive of `make dist` and the packages of `make deb`, which are for machines without the
toolchain. Both are made from a copy of the sources without crates."""

import glob
import hashlib
import os
import re
import shutil
import sys
import tarfile
import tempfile
import unittest

from support import PROGRAM, TOP, Case, bytes_of, last_line, ran, text_of, write

OTHERS = [os.path.join(TOP, name) for name in ("bootmem61", "bootaudit")]
FIRST_MAP = os.path.join(TOP, "examples/first/map.txt")
SOURCES = ["Makefile", "README.md", "CHANGELOG.md", "CONTRIBUTING.md", "bootmem.1", "bootmem61.1",
           "bootaudit.1", "bootmem.5", "crates.txt", ".gitignore", "docs", "examples", "tools", "include",
           "bindings"]
BUILT = {"bootmem": "commit 1111111111aa; kit first-kit",
         "bootmem61": "commit 4444444444dd; kit d", "bootaudit": "commit 2222222222bb; kit b",
         "libbootmem": "commit 3333333333cc; kit c"}
VERSION = re.findall(r"^VERSION := (.*)$", text_of(os.path.join(TOP, "Makefile")), re.MULTILINE)[0]
SECONDS = 1767323045  # the time of the only commit
COMMIT = ["git", "-c", "user.name=T", "-c", "user.email=t@example.org", "commit", "-q", "-m", "All"]
COMMANDS = re.findall(r'^([\w-]+) = "bootmem_tools',
                      text_of(os.path.join(TOP, "tools/pyproject.toml")), re.MULTILINE)
# the message of each refusal, and how the tree is changed before it
REFUSALS = [
    ("no program", lambda tree: os.remove(f"{tree}/bootaudit"), "there is no ./bootaudit to pack"),
    ("newer sources", lambda tree: set_age(tree, "crates.txt", -60),
     "some sources are newer than ./bootmem"),
    ("no commit and kit", lambda tree: os.remove(f"{tree}/bootmem.built"),
     "no ./bootmem.built names its commit and kit"),
    ("commit and kit of an older program", lambda tree: set_age(tree, "bootaudit.built", 60),
     "no ./bootaudit.built names its commit and kit"),
]


def set_age(tree, name, seconds):
    """Sets the time of a file of the tree to these seconds before that of ./bootmem."""
    time = os.stat(os.path.join(tree, "bootmem")).st_mtime - seconds
    os.utime(os.path.join(tree, name), (time, time))


def make_tree(tree):
    """Makes a repository of the sources without crates, with the built programs, and with the
    library if there is one."""
    os.makedirs(os.path.join(tree, "crates"))
    skipped = shutil.ignore_patterns("target", "__pycache__")
    for name in SOURCES:
        path = os.path.join(TOP, name)
        if os.path.isdir(path):
            shutil.copytree(path, os.path.join(tree, name), ignore=skipped)
        else:
            shutil.copy(path, tree)
    for command in (["git", "init", "-q"], ["git", "add", "."], COMMIT):
        ran(command, folder=tree, variables={"GIT_COMMITTER_DATE": f"{SECONDS} +0000"})
    shutil.copy(PROGRAM, os.path.join(tree, "bootmem"))
    for path in OTHERS:
        shutil.copy(path, tree)
    for path in glob.glob(os.path.join(TOP, "libbootmem.[as]*")):
        shutil.copy(path, tree, follow_symlinks=False)
    for name, text in BUILT.items():
        write(os.path.join(tree, f"{name}.built"), text + "\n")


def make(tree, *words, mask=0o022):
    """Runs make in the tree, without a toolchain. Returns status, standard output and standard error."""
    old = os.umask(mask)
    try:
        status, out, err = ran(["make", "--no-print-directory", *words, "RT=none"], folder=tree,
                               variables={"MAKEFLAGS": "", "MAKELEVEL": ""})
    finally:
        os.umask(old)
    return status, out.decode(), err.decode()


def built_lines(library):
    """The lines of BUILD."""
    names = [name for name in BUILT if library or name != "libbootmem"]
    return [f"bootmem {VERSION}", *(f"{name}: {BUILT[name]}" for name in names)]


@unittest.skipUnless(all(map(os.path.exists, OTHERS)), "there is no ./bootmem61 or no ./bootaudit ('make')")
@unittest.skipUnless(shutil.which("git") and shutil.which("make"), "there is no git or no make")
class Packed(Case):
    """The archive and the packages."""

    @classmethod
    def setUpClass(cls):
        folder = tempfile.TemporaryDirectory()
        cls.addClassCleanup(folder.cleanup)
        cls.tree = os.path.join(folder.name, "tree")
        make_tree(cls.tree)
        cls.library = os.path.exists(os.path.join(cls.tree, "libbootmem.a"))
        cls.made = make(cls.tree, "dist")
        cls.archive = os.path.join(cls.tree, last_line(cls.made[1]))
        cls.top = os.path.basename(cls.archive)[:-len(".tar.gz")]

    def unpacked(self):
        """The folder of the archive, unpacked in the test's folder."""
        with tarfile.open(self.archive) as archive:
            archive.extractall(self.work)
        return self.path(self.top)

    def files(self, top):
        """The paths of the files in a folder, relative to it. Links are left out."""
        found = [os.path.join(folder, name) for folder, _, names in os.walk(top) for name in names]
        return sorted(os.path.relpath(path, top) for path in found if not os.path.islink(path))

    def runs(self, prefix, name, *words, path="/usr/bin:/bin"):
        """Runs an installed command in the test's folder with only PATH set. Returns what it prints and
        its status."""
        command = ["env", "-i", f"PATH={prefix}/bin:{path}", f"{prefix}/bin/{name}", *words]
        status, out, err = ran(command, folder=self.work)
        return status, (out + err).decode()

    def test_names(self):
        """The archive has everything that can be installed, in one folder and sorted. All files have
        the same owner and the same time."""
        commit = ran(["git", "rev-parse", "--short=12", "HEAD"], folder=self.tree)[1].decode()
        self.check("its name", self.top,
                   f"bootmem-{VERSION}-{commit.strip()}-{os.uname().machine}")
        self.check("make dist", self.made[0], 0)
        self.check("what it says of the library", "so the archive has no library" in self.made[2],
                   not self.library)
        with tarfile.open(self.archive) as archive:
            members = archive.getmembers()
        names = [member.name for member in members]
        self.check("one folder", {name.split("/")[0] for name in names}, {self.top})
        self.check("owners and times", {(one.uid, one.gid, one.mtime) for one in members},
                   {(0, 0, SECONDS)})
        self.check("sorted", names, sorted(names, key=lambda name: name.split("/")))
        wanted = ["install.sh", "README", "BUILD", "SHA256SUMS", "share/man/man5/bootmem.5"]
        for command in ["bootmem", "bootmem61", "bootaudit", "bootmem-collect", *COMMANDS]:
            wanted += [f"bin/{command}", f"share/man/man1/{command}.1",
                       f"share/bash-completion/completions/{command}"]
        wanted += [f"libexec/bootmem/{name}" for name in ("bootmem", "bootmem61", "bootaudit")]
        for folder, pattern in (("share/bootmem", "examples/*.bin"), ("share/doc", "docs/*.md")):
            kept = ran(["git", "ls-files", pattern], folder=self.tree)[1].decode().split()
            wanted += [f"{folder}/{re.sub('^docs', 'bootmem', name)}" for name in kept]
        if self.library:
            wanted += ["lib/libbootmem.a", "lib/libbootmem.so", "include/bootmem.h",
                       "lib/pkgconfig/bootmem.pc", "share/bootmem/bindings/rust/src/lib.rs"]
        lacking = [name for name in wanted if f"{self.top}/{name}" not in names]
        self.check("what it lacks", lacking, [])

    def test_checksums(self):
        """SHA256SUMS has the checksum of each file, and a changed file isn't installed."""
        top = self.unpacked()
        lines = [line.split("  ") for line in text_of(os.path.join(top, "SHA256SUMS")).splitlines()]
        sums = {name: digest for digest, name in lines}
        files = [name for name in self.files(top) if name != "SHA256SUMS"]
        self.check("its names", [name for _, name in lines], files)
        for name in files:
            digest = hashlib.sha256(bytes_of(os.path.join(top, name))).hexdigest()
            self.check(f"the checksum of {name}", sums.get(name), digest)
        with open(os.path.join(top, "bin/bootmem-json"), "a", encoding="utf-8") as file:
            file.write("#\n")
        status, out, err = ran([f"{top}/install.sh", self.path("there")])
        self.check("a changed file", (status, out), (1, b""))
        self.has("its name", err.decode(), "bin/bootmem-json: FAILED")
        self.check("nothing is installed", os.path.exists(self.path("there")), False)

    def test_installed(self):
        """The installed copy runs without the repository, without the archive and without PYTHONPATH."""
        top, prefix = self.unpacked(), self.path("a place & more")
        self.check("as it is unpacked", self.runs(top, "bootmem", "--version")[0], 0)
        for _ in range(2):
            status, out, err = ran([f"{top}/install.sh", prefix], folder="/")
            self.check("install.sh", (status, err), (0, b""))
            self.has("what it says", out.decode(), f"{prefix}/bin/bootmem")
        shutil.move(top, self.path("away"))
        for word in (self.tree, TOP, "@PREFIX@"):
            status, out, _ = ran(["grep", "-rlF", "--", word, prefix])
            self.check(f"files that name {word}", out, b"")
        page = f"{prefix}/share/bootmem/examples/first/zp.bin"
        for report in ("map", "owners", "blocks"):
            status, text = self.runs(prefix, "bootmem", "--report", report, page)
            write(self.path(report), text)
            self.check(f"bootmem --report {report}", status, 0)
        self.check("the map", text_of(self.path("map")), text_of(FIRST_MAP))
        self.check("bootaudit", self.runs(prefix, "bootaudit", "map", "owners", "blocks"),
                   (0, "sound\n"))
        self.check("bootmem61", self.runs(prefix, "bootmem61", "--report", "map", page), (0, text_of(FIRST_MAP)))
        os.symlink(f"{prefix}/bin/bootmem", self.path("link"))
        self.check("by a link", ran([self.path("link"), "--report", "map", page])[:2],
                   (0, bytes_of(self.path("map"))))
        self.installed_tools(prefix, page)
        ran([self.path("away", "install.sh"), "--uninstall", prefix])
        left = [name for _, _, names in os.walk(prefix) for name in names]
        self.check("what --uninstall leaves", left, [])

    def installed_tools(self, prefix, page):
        """The tools of an installed copy run, and so do the programs without Python."""
        path = f"{os.path.dirname(sys.executable)}:/usr/bin:/bin"
        for command in COMMANDS:
            self.check(f"{command} --help", self.runs(prefix, command, "--help", path=path)[0], 0)
        words = ["1M", "--", "--kernel", "16M,52M", page]
        status, text = self.runs(prefix, "bootmem-where", *words, path=path)
        self.check("bootmem-where", (status, text.splitlines()[1:2]),
                   (0, ["map      usable 0x0000000000100000-0x0000000007fdffff"]))
        self.has("a refusal", self.runs(prefix, "bootmem", "--report", "maps", page, path=path)[1],
                 "did you mean map?")
        os.mkdir(self.path("bare"))
        self.check("without Python", self.runs(prefix, "bootmem", path=self.path("bare")),
                   (2, "bootmem: usage\nbootmem: 'bootmem --help' lists the words\n"))

    def test_version(self):
        """--version and BUILD name the commit and the kit."""
        top = self.unpacked()
        for name in ("bootmem", "bootmem61", "bootaudit"):
            self.check(f"{name} --version", self.runs(top, name, "--version"),
                       (0, f"{name} {VERSION} ({BUILT[name]})\n"))
        lines = text_of(os.path.join(top, "BUILD")).splitlines()
        first = f"archive: commit {self.top.split('-')[2]}"
        self.check("BUILD", lines, [first, *built_lines(self.library)])
        installed = text_of(os.path.join(top, "share/doc/bootmem/BUILD"))
        self.check("the installed BUILD", installed.splitlines(), built_lines(self.library))

    def test_same_bytes(self):
        """The archive doesn't depend on times and umask. A changed file gives it another name."""
        first, tree = bytes_of(self.archive), self.path("tree")
        shutil.copytree(self.tree, tree, symlinks=True)
        for path in glob.glob(f"{tree}/tools/*") + glob.glob(f"{tree}/examples/first/*"):
            set_age(tree, path, 1000)
        status, out, err = make(tree, "dist", mask=0o077)
        self.check("make dist", (status, err), (0, self.made[2]))
        self.check("the archive", bytes_of(os.path.join(tree, last_line(out))) == first, True)
        write(f"{tree}/docs/NEW.md", "new\n")
        out = make(tree, "dist", "PROGRAMS=bootmem")[1]
        self.has("a changed file", out, f"{'-'.join(self.top.split('-')[:3])}-changed-")
        with tarfile.open(os.path.join(tree, last_line(out))) as archive:
            names = [name.partition("/")[2] for name in archive.getnames()]
        self.check("one program", [name in names for name in ("bin/bootmem", "bin/bootmem61", "bin/bootaudit")],
                   [True, False, False])

    def test_refused(self):
        """If a program is missing, or older than the sources, nothing is made."""
        for what, change, message in REFUSALS:
            tree = self.path(what)
            shutil.copytree(self.tree, tree, symlinks=True)
            os.remove(os.path.join(tree, os.path.basename(self.archive)))
            change(tree)
            for target in ("dist", "deb"):
                status, out, err = make(tree, target)
                self.check(f"{target}: {what}", (status != 0, out), (True, ""))
                self.has(f"{target}: {what}: the message", err, message)
            made = glob.glob(f"{tree}/*.gz") + glob.glob(f"{tree}/*.deb")
            self.check(f"{what}: what is made", made, [])

    @unittest.skipUnless(shutil.which("dpkg-deb"), "there is no dpkg-deb")
    def test_deb(self):
        """The package has the same commands, and names the commit and the kit."""
        tree, root = self.path("tree"), self.path("root")
        shutil.copytree(self.tree, tree, symlinks=True)
        status, out, err = make(tree, "deb")
        names = (["bootmem-dev"] if self.library else []) + ["bootmem"]
        self.check("make deb", (status, [name.split("_")[0] for name in out.split()]), (0, names))
        self.check("what it says of the library", "so no package bootmem-dev is made" in err,
                   not self.library)
        package = os.path.join(tree, last_line(out))
        ran(["dpkg-deb", "-x", package, root])
        for name in ("bootmem", "bootmem61", "bootaudit"):
            self.check(f"{name} --version", self.runs(f"{root}/usr", name, "--version"),
                       (0, f"{name} {VERSION} ({BUILT[name]})\n"))
        self.check("BUILD", text_of(f"{root}/usr/share/doc/bootmem/BUILD").splitlines(),
                   built_lines(self.library))
        self.has("its description", ran(["dpkg-deb", "-f", package, "Description"])[1].decode(),
                 f"bootmem was built from {BUILT['bootmem']}.")
        status, text = self.runs(f"{root}/usr", "bootmem", "--report", "map",
                                 f"{root}/usr/share/bootmem/examples/first/zp.bin")
        self.check("the map", (status, text), (0, text_of(FIRST_MAP)))


if __name__ == "__main__":
    unittest.main()
