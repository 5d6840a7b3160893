#!/usr/bin/env python3
"""Runs the program of this repository with the words given, once it is built as its sources stand.

Each crate is proved by the toolchain's prover as soon as those below it are, from nothing, and leaves its statements, over
which the crates above are proved. Standard error tells each crate that begins and ends, and the time so far. A crate that
is proved stays so until a source of it, or of one below, says something else; so an interrupted build goes on with the
crates that it had not ended.

Where the program can't be built it isn't run, and the status is 127 if there is no `rt`, 126 if a folder can't be written,
and 125 if a crate isn't proved."""
import contextlib
import fcntl
import hashlib
import os
import pathlib
import re
import shutil
import signal
import subprocess
import sys
import tempfile
import time

ROOT = pathlib.Path(__file__).resolve().parent.parent
PROGRAM = "rtsearch"
PARTS = ("src", "specs", "proofs")
MOST_JOBS = 4  # of one crate: more was never measured
TARGET = "x86_64-unknown-linux-gnu"
# how the C library keeps the program's memory, as the launcher has it: one arena for all threads, since two took half as much again
# where searches are large; huge pages, with which a large search takes up to a quarter less time; and more than usual kept of what is
# freed, but for tables of two megabytes, which are the system's own
TUNABLES = {"hugetlb": 1, "mmap_threshold": 1 << 21, "trim_threshold": 1 << 27}
MEMORY = {"MALLOC_ARENA_MAX": "1", "GLIBC_TUNABLES": ":".join(f"glibc.malloc.{name}={value}" for name, value in TUNABLES.items())}


class Stopped(Exception):
    """Why there is no program, and the status that says so."""

    def __init__(self, status, why):
        super().__init__(why)
        self.status = status


class Crate:
    """A crate of crates.txt, what it stands on, and what it leaves once it is proved."""

    def __init__(self, name, named):
        self.name, self.named = name, named
        self.folder = ROOT / "crates" / name
        self.proved = self.folder / "out" / "proved"
        self.stamp = self.proved / "stamp"
        self.left = self.folder / "out" / name if name == PROGRAM else self.proved / f"{name}.rlib"
        self.below = []  # each after those that it stands on
        self.weight = 0  # the lines of its sources, and of the longest chain of crates above it

    def files(self):
        """Its sources."""
        return sorted(it for part in PARTS for it in (self.folder / part).rglob("*") if it.is_file())

    def sum(self, toolchain):
        """A sum of all that it is proved from: the toolchain, its sources, and those of the crates below."""
        found = hashlib.sha256(toolchain.encode())
        for crate in [*self.below, self]:
            found.update(repr((crate.name, crate.named)).encode())
            for it in crate.files():
                found.update(repr((str(it.relative_to(crate.folder)), it.read_bytes())).encode())
        return found.hexdigest()

    def mark(self, sources):
        """What its stamp says where what it left is of these sources; of the program also which file it is."""
        built = hashlib.sha256(self.left.read_bytes()).hexdigest() if self.left.is_file() else ""
        return f"{sources} {built}\n"

    def is_proved(self, toolchain):
        """Whether what it left is there, and of its sources as they stand."""
        return self.left.exists() and self.stamp.is_file() and self.stamp.read_text() == self.mark(self.sum(toolchain))


def read_crates():
    """The program and the crates below it, each after those that it stands on."""
    rows = (line.partition("#")[0].partition(":") for line in (ROOT / "crates.txt").read_text().splitlines())
    crates = {head.split()[0]: Crate(head.split()[0], named.split()) for head, colon, named in rows if colon}
    ordered = []

    def visit(crate):
        for it in (crates[name] for name in crate.named if name in crates):
            visit(it)
            crate.below += [each for each in [*it.below, it] if each not in crate.below]
        if crate not in ordered:
            ordered.append(crate)

    visit(crates[PROGRAM])
    for crate in reversed(ordered):
        crate.weight += sum(it.read_bytes().count(b"\n") for it in crate.files())
        for it in crate.below:
            it.weight = max(it.weight, crate.weight)
    return ordered


class Toolchain:
    """The prover, the libraries and the compiler that `rt` stands for."""

    def __init__(self):
        if not shutil.which("rt"):
            raise Stopped(127, "the program has to be built first, and the toolchain's command rt is not on the path")
        self.kit = pathlib.Path(self.said_by("doc")).parent
        self.version = self.said_by("version")
        if not (self.kit / "bin" / "rattle").exists():
            raise Stopped(127, f"the toolchain's command rt tells of no prover: there is no {self.kit}/bin/rattle")

    @staticmethod
    def said_by(word):
        return subprocess.run(["rt", word], check=True, stdin=subprocess.DEVNULL, stdout=subprocess.PIPE, text=True).stdout.strip()

    def prover(self, verb, crate):
        """The prover's command for a crate over what those below it left."""
        own = {it.name: it for it in crate.below}
        words = [f"{self.kit}/bin/rattle", verb, "--crate-name", crate.name]
        words += ["src/main.rt" if crate.name == PROGRAM else "src/lib.rt", "-L", f"dependency={self.kit}/rlibs"]
        for name in ["std", *crate.named]:
            words += ["--extern", f"{name}={own[name].left if name in own else f'{self.kit}/rlibs/{name}.rlib'}"]
        for it in crate.below:
            words += ["-L", f"dependency={it.left.parent}"]
        words += ["--antt-project", f"{self.kit}/rattle/logic/antt-project.json", "--logic-built", f"{self.kit}/logic_built"]
        return [*words, "--links", f"{crate.name}="]

    def build(self, crate, jobs):
        """The command that proves a crate, and then writes its statements, or the program's code."""
        words = [*self.prover("build", crate), "--jobs", str(jobs)]
        if crate.name == PROGRAM:
            return [*words, "--toolchain", f"{self.kit}/toolchain", "--backend", "llvm", "-o", f"{crate.proved}/{crate.name}.o"]
        return [*words, "--statements", "-o", str(crate.left)]

    def link(self, crate):
        """The command that links the program's code with the C library."""
        words = [f"{self.kit}/bin/rattle-link", "--target", TARGET, "--toolchain", f"{self.kit}/toolchain"]
        words += ["-o", str(crate.left), f"{crate.proved}/{crate.name}.o"]
        return [*words, f"{self.kit}/c/libos_c.a", f"{self.kit}/c/liblibc_c.a"]


class Provers:
    """A process group that is killed when this process ends, however it ends."""

    def __init__(self):
        how = {"stdin": subprocess.PIPE, "stdout": subprocess.DEVNULL, "stderr": subprocess.DEVNULL}
        self.guard = subprocess.Popen(["sh", "-c", "read _; kill -9 0"], preexec_fn=os.setpgrp, **how)

    def start(self, command, folder, log):
        how = {"cwd": folder, "stdin": subprocess.DEVNULL, "stdout": log, "stderr": subprocess.STDOUT}
        return subprocess.Popen(command, preexec_fn=lambda: os.setpgid(0, self.guard.pid), **how)

    def end(self):
        self.guard.stdin.close()
        self.guard.wait()


class Run:
    """A crate that is being proved: of which sources, with how many jobs, and what the prover says."""

    def __init__(self, crate, jobs, toolchain, provers):
        self.crate, self.jobs, self.sources = crate, jobs, crate.sum(toolchain.version)
        self.log = tempfile.TemporaryFile("w+", errors="replace")
        self.process = provers.start(toolchain.build(crate, jobs), crate.folder, self.log)


class Build:
    """The crates that wait, run and are proved."""

    def __init__(self, crates, toolchain):
        self.crates, self.toolchain, self.provers = crates, toolchain, Provers()
        self.began, self.memory = time.monotonic(), free_memory()
        self.runs, self.waiting = [], []
        for it in crates:
            if any(below in self.waiting for below in it.below) or not it.is_proved(toolchain.version):
                self.waiting.append(it)

    def all(self):
        """Proves all that has to be."""
        for it in self.waiting:
            make_room(it)
            it.stamp.unlink()
        if self.waiting:
            count = f"{len(self.waiting)} of {len(self.crates)} crates"
            tell(f"proving {count} before the program can run: all of them take some 11 minutes on four idle cores")
        while self.waiting or self.runs:
            self.begin_what_fits()
            self.end(self.next_that_ends())
        self.provers.end()

    def begin_what_fits(self):
        """Begins the crates that wait for nothing more: the one with the longest chain above it with as many jobs as there are
        processors, the others, which have time, with what those that run leave, or one."""
        running = [it.crate for it in self.runs]
        blocked = {*self.waiting, *running}
        ready = sorted((it for it in self.waiting if not blocked & {*it.below}), key=lambda it: -it.weight)
        for it in ready:
            is_first = all(it.weight > other.weight for other in running)
            left = processors() - sum(each.jobs for each in self.runs)
            jobs = processors() if is_first else max(1, left)
            while jobs > 1 and memory_of(it, jobs) > self.free():
                jobs -= 1
            if running and memory_of(it, jobs) > self.free():
                break
            self.begin(it, jobs)
            running.append(it)

    def free(self):
        return self.memory - sum(memory_of(it.crate, it.jobs) for it in self.runs)

    def begin(self, crate, jobs):
        self.say(f"{crate.name} begins, with {jobs} job{'s' * (jobs > 1)}")
        self.waiting.remove(crate)
        self.runs.append(Run(crate, jobs, self.toolchain, self.provers))

    def next_that_ends(self):
        while True:
            for it in self.runs:
                if it.process.poll() is not None:
                    return it
            time.sleep(0.05)

    def end(self, run):
        """Keeps what a proved crate leaves."""
        self.runs.remove(run)
        crate, status = run.crate, run.process.returncode
        if status == 0 and crate.name == PROGRAM:
            status = self.provers.start(self.toolchain.link(crate), crate.folder, run.log).wait()
        if status != 0:
            run.log.seek(0)
            print(run.log.read(), end="", file=sys.stderr)
            raise Stopped(125, f"{crate.name} is not proved")
        # (where a source changed meanwhile nobody knows which text was proved, so the next build proves it again)
        if run.sources == crate.sum(self.toolchain.version):
            crate.stamp.write_text(crate.mark(run.sources))
        self.say(f"{crate.name} is proved")

    def say(self, text):
        so_far = int(time.monotonic() - self.began)
        tell(f"{so_far // 60}:{so_far % 60:02} {text}")


def tell(text):
    print(f"{PROGRAM}: {text}", file=sys.stderr, flush=True)


def processors():
    return min(len(os.sched_getaffinity(0)), MOST_JOBS)


def free_memory():
    """The memory in MB that may be used, under the limit of the control group too, with a reserve."""
    found = [int(re.search(r"MemAvailable:\s+(\d+)", pathlib.Path("/proc/meminfo").read_text())[1]) // 1024]
    group = pathlib.Path("/sys/fs/cgroup")
    try:
        found.append((int((group / "memory.max").read_text()) - int((group / "memory.current").read_text())) >> 20)
    except (OSError, ValueError):
        pass
    return min(found) * 85 // 100


def memory_of(crate, jobs):
    """The most that so many jobs take, in MB."""
    # what a prover takes, what each crate below adds, and each further job; planned against 85 of 100 of what is free
    return 1000 + 180 * len(crate.below) + 700 * (jobs - 1)


def make_room(crate):
    """Makes the folder for what a proved crate leaves."""
    try:
        crate.proved.mkdir(parents=True, exist_ok=True)
        crate.stamp.touch()
    except OSError:
        raise Stopped(126, f"what is proved is kept in {crate.proved}, which can't be written") from None


@contextlib.contextmanager
def alone(program):
    """Holds what keeps other builds out."""
    make_room(program)
    with open(program.proved / "lock", "w", encoding="utf-8") as lock:
        try:
            fcntl.flock(lock, fcntl.LOCK_EX | fcntl.LOCK_NB)
        except BlockingIOError:
            tell("waiting for another build of this program")
            fcntl.flock(lock, fcntl.LOCK_EX)
        yield


def build():
    """Builds the program where it has to be, and returns where it is."""
    toolchain, crates = Toolchain(), read_crates()
    program = crates[-1]
    with alone(program):
        began = time.time()
        Build(crates, toolchain).all()
        # a source that changed meanwhile is newer
        os.utime(program.left, (began, began))
    return program.left


def main():
    signal.signal(signal.SIGTERM, lambda *_: sys.exit(143))
    signal.signal(signal.SIGHUP, lambda *_: sys.exit(129))
    program = build()
    for name, value in MEMORY.items():
        os.environ.setdefault(name, value)
    os.execv(program, [str(program), *sys.argv[1:]])


if __name__ == "__main__":
    try:
        main()
    except KeyboardInterrupt:
        sys.exit(130)
    except Stopped as why:
        tell(why)
        sys.exit(why.status)
