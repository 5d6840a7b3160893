#!/usr/bin/env python3
"""Where the time of a crate's proof goes: proves it from nothing by one process, and prints the processor seconds of the whole, how
the seconds are shared out to what the prover makes of each function, and the dearest functions.

  bench/proofs.py NAME [--only FUNCTION].. [--most N]

Seconds by function are the wall's, by when the prover kept each module, so nothing else should be at work. The kilobytes are of the
function's transition system, on which most of its time depends: they are the same at each run, and so compare two forms of a
function whatever else is at work. The crates below are built first, where they aren't."""
import argparse
import collections
import pathlib
import re
import resource
import subprocess
import sys
import tempfile

ROOT = pathlib.Path(__file__).resolve().parent.parent
sys.dont_write_bytecode = True
sys.path.insert(0, str(ROOT / "launch"))
from build import Build, Toolchain, alone, read_crates

# what the prover makes of a function; a longer name comes before one that it ends with
PARTS = ("Lts.View", "Lts.Given", "Lts", "Tie", "Goals", "Answers", "Proof", "Statement", "Named", "Reads", "Code.Mir", "Code", "Kinds", "Given", "Layout", "Met")


def kept(folder):
    """The modules that were kept, in their order: the seconds that each took, its bytes, and its name."""
    files = sorted((it.stat().st_mtime, it.stat().st_size, it.name) for it in folder.rglob("*.oantt"))
    before = files[0][0] if files else 0
    for at, size, name in files:
        yield at - before, size, re.sub(r"(\.decls)?\.oantt$", "", name)
        before = at


def shared_out(modules, crate):
    """The seconds by function and by part, and the bytes of each function's transition system."""
    functions, parts, sizes = collections.Counter(), collections.Counter(), collections.Counter()
    for seconds, size, name in modules:
        name = re.sub(rf"^Rattle-{crate}-(proofs\.)?", "", name)
        part = next((it for it in PARTS if name.endswith("." + it)), "")
        function = name[: -len(part) - 1] if part else name
        functions[function] += seconds
        parts[part or "lemmas and definitions"] += seconds
        sizes[function] += size if part == "Lts" else 0
    return functions, parts, sizes


def main():
    parser = argparse.ArgumentParser(description=__doc__, formatter_class=argparse.RawDescriptionHelpFormatter)
    parser.add_argument("name")
    parser.add_argument("--only", action="append", default=[], metavar="FUNCTION")
    parser.add_argument("--most", type=int, default=30, metavar="N")
    given = parser.parse_args()
    toolchain, crates = Toolchain(), read_crates()
    crate = next(it for it in crates if it.name == given.name)
    with alone(crates[-1]):
        Build(crate.below, toolchain).all()
    with tempfile.TemporaryDirectory() as folder:
        words = [*toolchain.prover("check", crate), "--incremental", folder, "--jobs", "1"]
        words += [word for it in given.only for word in ("--only", it)]
        before = resource.getrusage(resource.RUSAGE_CHILDREN)
        how = {"stdin": subprocess.DEVNULL, "stdout": subprocess.PIPE, "stderr": subprocess.STDOUT, "text": True, "errors": "replace"}
        said = subprocess.run(words, cwd=crate.folder, **how)
        after = resource.getrusage(resource.RUSAGE_CHILDREN)
        functions, parts, sizes = shared_out(kept(pathlib.Path(folder)), crate.name)
    taken = after.ru_utime + after.ru_stime - before.ru_utime - before.ru_stime
    print(said.stdout.splitlines()[-1] if said.stdout else "nothing was said")
    print(f"{taken:.1f} processor seconds; {sum(sizes.values()) // 1024} kB of transition systems")
    print(", ".join(f"{part} {seconds:.1f}" for part, seconds in parts.most_common()))
    for function, seconds in functions.most_common(given.most):
        print(f"{seconds:7.2f} s {sizes[function] // 1024:6} kB  {function}")
    return said.returncode


if __name__ == "__main__":
    sys.exit(main())
