"""The crates of the program and of the C library: what each stands on, what it was proved from, and what the two were built from."""
import hashlib
import os
import re
import shutil
import tempfile

PROGRAM, LIBRARY = "citrus_cli", "citrus_c"
PARTS = ("src", "specs", "proofs")


def text_of(path):
    try:
        with open(path, encoding="utf-8", errors="replace") as file:
            return file.read()
    except OSError:
        return ""


def sum_of(path):
    try:
        with open(path, "rb") as file:
            return hashlib.sha256(file.read()).hexdigest()
    except OSError:
        return "none"


def replace_text(path, text):
    with open(f"{path}.new", "w", encoding="utf-8") as file:
        file.write(text)
    os.replace(f"{path}.new", path)


def link_or_copy(one, other):
    """Gives a file of a library a second name. Whoever makes such a file anew removes it first."""
    try:
        os.link(one, other)
    except OSError:
        shutil.copyfile(one, other)


class Toolchain:
    def __init__(self, rt):
        self.rt = os.path.realpath(rt)
        self.folder = os.path.dirname(os.path.dirname(self.rt))
        self.rattle = f"{self.folder}/bin/rattle"
        self.identity = self.told()

    def told(self):
        """What is another where another toolchain stands here: its names, and the size and time of what proves, compiles and links."""
        found = [self.folder, text_of(f"{self.folder}/KIT-ID"), text_of(f"{self.folder}/WHAT")]
        for name in ("bin/rattle", "bin/rattle-link", "toolchain/bin/clang", "logic_built", "rlibs"):
            try:
                of = os.stat(f"{self.folder}/{name}")
                found.append((name, of.st_size, of.st_mtime_ns))
            except OSError:
                found.append((name, None))
        return found


class Crate:
    def __init__(self, name, folder, used, libraries):
        self.name, self.folder = name, folder
        # The repository's crates that it names, and the toolchain's.
        self.used, self.libraries = used, libraries
        self.is_program, self.is_archive = name == PROGRAM, name == LIBRARY
        self.kept = f"{folder}/out/rlib/statements"
        self.record, self.log = f"{self.kept}/proved", f"{self.kept}/log"
        # Of the program an object file, of the C library an archive, and else the library's statements.
        self.made = f"{self.kept}/{name}.{'o' if self.is_program else 'a' if self.is_archive else 'rlib'}"
        # What people run or link, where it is one of these two.
        self.result = f"{folder}/out/{f'lib{name}.a' if self.is_archive else name}"
        self.seconds = self.megabytes = self.behind = 0

    def has_result(self):
        return self.is_program or self.is_archive

    def below(self):
        """The crates below it, each after those that it uses."""
        found = {}
        for crate in self.used:
            found.update(dict.fromkeys([*crate.below(), crate]))
        return list(found)

    def files(self):
        """Its files and folders that a proof reads, in an order that is always the same."""
        found = []
        for part in PARTS:
            for folder, folders, names in os.walk(f"{self.folder}/{part}"):
                folders.sort()
                found += [folder, *(f"{folder}/{name}" for name in sorted(names))]
        return found

    def touched(self):
        """What is another once one of these was changed, also where it was changed back."""
        found = []
        for path in self.files():
            of = os.lstat(path)
            found.append((path, of.st_ino, of.st_size, of.st_mtime_ns, of.st_ctime_ns))
        return found

    def is_untouched_since(self, began):
        return all(it[-1] <= began for it in self.touched())

    def own_sum(self, toolchain):
        """A sum of its files, of its line in crates.txt and of the toolchain."""
        told = (self.name, [it.name for it in self.used], self.libraries, toolchain.identity)
        found = hashlib.sha256(repr(told).encode())
        for path in self.files():
            if not os.path.isdir(path):
                found.update(f"{os.path.relpath(path, self.folder)} {sum_of(path)}\n".encode())
        return found.hexdigest()

    def key(self, toolchain):
        """A sum of all that its proof reads: its own, and the libraries below as they were made, whose format has their files' sums."""
        found = hashlib.sha256(self.own_sum(toolchain).encode())
        for crate in self.below():
            found.update(f"{crate.name} {crate.made_sum()}\n".encode())
        return found.hexdigest()

    def made_sum(self):
        return sum_of(self.result if self.has_result() else f"{self.made}/format")

    def is_proved(self, key):
        return text_of(self.record).split()[:2] == [key, self.made_sum()]

    def keep(self, key, seconds=0.0, megabytes=0.0):
        replace_text(self.record, f"{key} {self.made_sum()} {seconds:.0f} {megabytes:.0f}\n")

    def forget(self):
        for path in (self.record, self.log, self.made):
            if os.path.isdir(path):
                shutil.rmtree(path)
            elif os.path.lexists(path):
                os.remove(path)

    def adopt(self, began, toolchain):
        """Takes the statements that the gate has left since then where rt keeps libraries, if it has: none of its own beside them, which has a
        stamp, and no file that is older."""
        left = f"{self.folder}/out/rlib/{self.name}.rlib"
        times = [os.lstat(f"{folder}/{name}").st_ctime_ns for folder, _, names in os.walk(left) for name in names]
        if self.has_result() or not times or min(times) < began or os.path.exists(f"{self.folder}/out/rlib/stamp"):
            return
        self.forget()
        shutil.copytree(left, self.made, copy_function=link_or_copy)
        self.keep(self.key(toolchain))

    def words(self, toolchain, jobs):
        """The words with which rattle proves and builds it. They are the gate's, but for the search for contracts that no call can meet, which
        changes no verdict."""
        kit = toolchain.folder
        words = [toolchain.rattle, "build", "--crate-name", self.name, "src/main.rt" if self.is_program else "src/lib.rt"]
        for name in ("std", *self.libraries):
            words += ["--extern", f"{name}={kit}/rlibs/{name}.rlib"]
        words += ["-L", f"dependency={kit}/rlibs"]
        for crate in self.used:
            words += ["--extern", f"{crate.name}={crate.made}"]
        for crate in self.below():
            words += ["-L", f"dependency={crate.kept}"]
        words += ["--antt-project", f"{kit}/rattle/logic/antt-project.json", "--logic-built", f"{kit}/logic_built"]
        words += ["--links", f"{self.name}=", "--jobs", str(jobs)]
        words += ["--crate-type", "staticlib"] if self.is_archive else []
        words += ["--toolchain", f"{kit}/toolchain", "--backend", "llvm"] if self.has_result() else ["--statements"]
        return [*words, "-o", self.made]

    def link_words(self, toolchain):
        kit = toolchain.folder
        words = [f"{kit}/bin/rattle-link", "--target", "x86_64-unknown-linux-gnu", "--toolchain", f"{kit}/toolchain"]
        return [*words, "-o", f"{self.made}.linked", self.made, f"{kit}/c/libos_c.a", f"{kit}/c/liblibc_c.a"]


def crates_of(top, last=PROGRAM):
    """This crate and those below it by crates.txt, each after those that it uses; none where crates.txt doesn't have it."""
    uses = {}
    for line in text_of(f"{top}/crates.txt").splitlines():
        head, _, words = line.partition("#")[0].partition(":")
        if head.strip():
            uses[head.split()[0]] = words.split()
    found = {}

    def add(name):
        if name not in found:
            used = [add(it) for it in uses[name] if it in uses]
            found[name] = Crate(name, f"{top}/crates/{name}", used, [it for it in uses[name] if it not in uses])
        return found[name]

    if last in uses:
        add(last)
    return list(found.values())


def weigh(crates, table):
    """Gives each crate its measured seconds and megabytes, and how many seconds the longest chain from its beginning to the last one takes."""
    measured = {}
    for line in text_of(table).splitlines():
        words = line.partition("#")[0].split()
        if words:
            measured[words[0]] = int(words[1]), int(words[2])
    some = [measured[it.name] for it in crates if it.name in measured] or [(60, 1000)]
    # One that was never measured counts as most do.
    middle = tuple(sorted(it[at] for it in some)[len(some) // 2] for at in (0, 1))
    for crate in crates:
        crate.seconds, crate.megabytes = measured.get(crate.name, middle)
        crate.behind = 0
    for crate in reversed(crates):
        crate.behind += crate.seconds
        for it in crate.used:
            it.behind = max(it.behind, crate.behind)


class BuiltFrom:
    """The record of what the program, or the C library, was built from. It is as old as the beginning of that build, so what changed since is
    newer; beside that it has the sums of the sources and of what was built, by which that is known again where the sources are as they were."""

    def __init__(self, crates, toolchain):
        self.crates, self.toolchain, self.last = crates, toolchain, crates[-1]
        self.path = f"{os.path.dirname(self.last.result)}/built_from"
        # A file's time comes of another clock than the processor's.
        with tempfile.TemporaryFile() as file:
            self.began = os.fstat(file.fileno()).st_mtime_ns
        self.touched = [it.touched() for it in crates]
        self.sum = self.sum_now()

    def sum_now(self):
        found = hashlib.sha256(repr(self.toolchain.identity).encode())
        for crate in self.crates:
            found.update(crate.own_sum(self.toolchain).encode())
        return found.hexdigest()

    def is_untouched(self):
        return self.touched == [it.touched() for it in self.crates]

    def holds(self):
        """Whether what was built stands, and was built from just these sources."""
        lines = text_of(self.path).splitlines()
        return len(lines) == 5 and lines[3] == self.sum and lines[4] == self.last.made_sum()

    def write(self, began=None):
        """Says that this is what a proved build made of the sources as they stood when this record was begun."""
        parts = [f"{it.name}/{part}" for it in self.crates for part in PARTS if os.path.isdir(f"{it.folder}/{part}")]
        names = " ".join(it.name for it in self.crates)
        os.makedirs(os.path.dirname(self.path), exist_ok=True)
        lines = [self.toolchain.rt, names, " ".join(parts), self.sum, self.last.made_sum()]
        replace_text(self.path, "".join(f"{it}\n" for it in lines))
        os.utime(self.path, ns=(began or self.began, began or self.began))


def number_in(path, pattern):
    found = re.search(pattern, text_of(path), re.M)
    return int(found[1]) if found else None
