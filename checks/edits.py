#!/usr/bin/env python3
"""Tries the wrong bodies of crates/NAME/must-fail/: the prover has to refuse each of them.

  checks/edits.py [--over FOLDER] [NAME..]    those of these crates, or of all

A function is proved by its own contract and by those of what it calls, so whether a wrong body is refused doesn't depend on
what stands in other bodies. So the edits of a crate are applied to one copy of it, all that turn different functions at once, and
the bodies of all other functions are taken out of that copy, with a hole for the proof of each (checks/functions.py): one process
proves what was turned, and next to nothing else. Each function that was turned has to be refused by a goal of its own: that
something which it calls isn't proved is no refusal, nor is a name that a proof lacks. Where an answer or a lemma of anything else
is refused, nothing counts, since a body that is gone could be the reason. What isn't refused so is tried once more, in a round
that hasn't begun or in one with others of its kind, and then alone. What changes a line outside functions, as of a definition, is tried
alone at once, in a copy with all bodies, and may be refused by any goal, since lemmas speak of definitions. A crate's first
round keeps what it proves, and each later one begins with that. Half of the processors are left to `rt ci` while it goes on, and
each round takes one, since a second makes a third more work of it; then one of several edits takes more, where no other waits. An
edit that turns no function's body, but a definition or a type, has a line `# at FUNCTION`, and has to be refused there. One for
which the prover looks for minutes has a line `# long`, and is tried alone, beside its crate's first round. The other `#` line is
for docs/EDITS.md (checks/index.py). `rt ci` and `rt must-fail NAME` try each edit in a process of its own, which loads the crates
below each time, and over the crate as it stands.

The crates below are taken from FOLDER/crates/NAME/out/rlib, as `rt ci` leaves them while it goes on there and writes what it says
to FOLDER/said, which ends with a line `ended`; a crate's edits begin once those below it are proved. Without the option these are
built here first. One line for each edit; the last line is `N passed, M failed`."""
import argparse
import concurrent.futures
import dataclasses
import difflib
import itertools
import os
import pathlib
import re
import shutil
import subprocess
import sys
import tempfile
import time

ROOT = pathlib.Path(__file__).resolve().parent.parent
sys.dont_write_bytecode = True
sys.path.insert(0, str(ROOT / "launch"))
from build import PARTS, Build, Stopped, Toolchain, alone, free_memory, memory_of, read_crates
from functions import function_at, take_out_bodies

PROVED = re.compile(r"rt: (\w+) (?:proved$|is kept:)")  # kept: the same files were proved over the same libraries before
MISSING_NAME = re.compile(r"has no field|is not in scope|has no `|was not admitted")


@dataclasses.dataclass(frozen=True)
class Hunk:
    """Lines of a file, and what an edit puts in their place."""

    path: str
    begin: int
    end: int
    lines: tuple

    def meets(self, other):
        return self.path == other.path and self.begin <= other.end and other.begin <= self.end


@dataclasses.dataclass
class Edit:
    """A wrong body: what it replaces, the functions at one of which it has to be refused, and whether it changes a line outside
    functions, as of a definition."""

    name: str
    hunks: list
    functions: set
    is_outside: bool = False
    is_long: bool = False
    tries: int = 0  # beside others, by which it wasn't refused

    @property
    def is_alone(self):
        return self.is_outside or self.is_long

    def fits_beside(self, other):
        """Whether each of the two would be refused as it is alone, as far as can be told without a try."""
        may_share = not any(it.is_alone or it.tries > 1 for it in (self, other))
        return may_share and not self.functions & other.functions and not any(mine.meets(its) for mine in self.hunks for its in other.hunks)


class BadEdit(Exception):
    """Why an edit can't be tried."""


def changed(before, after):
    """The runs of lines in which two texts differ."""
    runs = difflib.SequenceMatcher(None, before, after, autojunk=False).get_opcodes()
    return [(begin, end, tuple(after[first:last])) for kind, begin, end, first, last in runs if kind != "equal"]


def read_edit(folder, file):
    """Reads an edit of the crate in that folder: lines `file:`, and pairs of `old:` and `new:`, each applied to what those
    before it made."""
    path, old, texts, places, is_long = "", None, {}, set(), False
    for line in file.read_text().split("\n"):
        word, _, rest = line.partition(" ")
        if word == "file:":
            path = rest.strip()
        elif line.startswith("# at "):
            places.add(line[len("# at ") :].strip())
        elif line == "# long":
            is_long = True
        elif word == "old:":
            old = rest
        elif word == "new:":
            text = texts.get(path) or (folder / path).read_text()
            if not old or text.count(old) != 1:
                raise BadEdit(f"an `old:` text is in {path} {text.count(old or ' ')} times, and not once")
            texts[path], old = text.replace(old, rest), None
    hunks, functions = [], set()
    for path, text in texts.items():
        before = (folder / path).read_text().split("\n")
        for begin, end, lines in changed(before, text.split("\n")):
            hunks.append(Hunk(path, begin, end, lines))
            functions.add(function_at(path, before, begin))
    if not hunks:
        raise BadEdit("it changes nothing")
    if not places and functions == {None}:
        raise BadEdit("it turns no function's body, so it needs a line `# at FUNCTION`")
    return Edit(file.stem, hunks, places or functions - {None}, bool(places) or None in functions, is_long)


def rounds_of(edits):
    """Shares out a crate's edits, so that those of one round can be tried at once; the longest round comes first."""
    rounds = []
    for edit in edits:
        fitting = next((it for it in rounds if all(edit.fits_beside(other) for other in it)), None)
        if fitting:
            fitting.append(edit)
        else:
            rounds.append([edit])
    return sorted(rounds, key=len, reverse=True)


def copy_with(edits, crate, room):
    """Copies the crate's sources to the room, with these edits applied. Where these turn bodies alone, those of other functions are
    taken out."""
    for part in PARTS:
        if (crate.folder / part).is_dir():
            shutil.copytree(crate.folder / part, room / part)
    hunks = sorted((it for edit in edits for it in edit.hunks), key=lambda it: it.begin, reverse=True)
    for path in {it.path for it in hunks}:
        lines = (room / path).read_text().split("\n")
        for it in hunks:
            if it.path == path:
                lines[it.begin : it.end] = it.lines
        (room / path).write_text("\n".join(lines))
    if not any(it.is_outside for it in edits):
        take_out_bodies(room, crate.name, {name for edit in edits for name in edit.functions})


def try_at_once(crate, edits, toolchain, kept, jobs):
    """Tries edits of a crate in one copy of it, over what that folder keeps, and returns for each whether it is refused, and a text."""
    functions = sorted(it for edit in edits for it in edit.functions)
    words = [*toolchain.prover("check", crate), "--incremental", str(kept), "--jobs", str(jobs), "--allow-holes"]
    words += [word for it in functions for word in ("--only", it)]
    with tempfile.TemporaryDirectory(prefix="edits-") as room:
        copy_with(edits, crate, pathlib.Path(room))
        how = {"cwd": room, "stdin": subprocess.DEVNULL, "stdout": subprocess.PIPE, "stderr": subprocess.STDOUT, "errors": "replace"}
        said = subprocess.run(words, **how).stdout.splitlines()
    if not said or not said[-1].startswith("only="):
        why = next((it for it in said if "error" in it), said[-1] if said else "nothing was said")
        return [(False, f"BAD EDIT: the prover doesn't come to its end: {why[:300]}") for _ in edits]
    elsewhere = refused_elsewhere(crate, edits, said)
    if elsewhere:
        return [(False, f"NOT REFUSED: something else is, that no edit turns: {elsewhere[0][:300]}") for _ in edits]
    return [judge(crate, edit, said) for edit in edits]


def verdicts_of(crate, function, said):
    """What the prover said of a function and of the closures in it: for each its path, and the verdict."""
    *owners, name = function.split("::")
    is_method = owners and owners[-1][0].isupper()
    modules, owner = (r"(?:\w+::)*", owners[-1] + "::") if is_method else ("".join(f"{it}::" for it in owners), "")
    line = re.compile(rf"fn {crate.name}::({modules}(?:fn::)?{owner}{name}(?:::\S+)?): (.*)")
    return [found.groups() for found in map(line.match, said) if found]


def folder_of(edit, path):
    """Where the goals stand by which an edit is refused at a function: anywhere, where it changes a definition, since the lemmas that
    speak of that refuse it."""
    return "./proofs/" if edit.is_outside else f"./proofs/{path.replace('::', '/')}/"


def refused_elsewhere(crate, edits, said):
    """What the prover, which said this, refuses in proof files of functions that none of these edits turns, and in lemmas."""
    turned = [(edit, path) for edit in edits for function in edit.functions for path, _ in verdicts_of(crate, function, said)]
    folders = tuple(folder_of(edit, path) for edit, path in turned)
    return [it for it in said if it.startswith("./proofs/") and ": error" in it and not it.startswith(folders)]


def judge(crate, edit, said):
    """Whether the prover, which said this, refused the edit, and a text."""
    others = []
    for function in sorted(edit.functions):
        for path, verdict in verdicts_of(crate, function, said) or [(function, "nothing was said of it")]:
            folder = folder_of(edit, path)
            goals = [it[len(folder) :][:160] for it in said if it.startswith(folder) and ": error" in it]
            goals += re.findall(r"`search` did not prove [^;]*", verdict)
            goals += ["no proof of a goal"] if verdict.startswith("not proved") and "it calls" not in verdict and not goals else []
            if goals and not all(map(MISSING_NAME.search, goals)):
                return True, f"refused at {path}: {goals[0]}"
            others.append(": ".join([f"{path} is {verdict}", *goals[:1]]))
    return False, "NOT REFUSED: " + "; ".join(others)


def link_or_copy(one, other):
    """Links a module that was proved, since a prover replaces its file and never writes into it; copies what else it keeps."""
    if one.endswith(".oantt"):
        os.link(one, other)
    else:
        shutil.copy2(one, other)


@dataclasses.dataclass
class Round:
    """Edits of a crate that are tried at once, and what is kept: by its first round, after which it begins, or by itself."""

    crate: object
    edits: list
    kept: pathlib.Path
    first: "Round | None" = None
    has_ended: bool = False

    def may_begin(self, proved):
        """Whether it can be tried where these crates are proved."""
        return (self.first is None or self.first.has_ended) and {it.name for it in self.crate.below} <= proved

    def rank(self):
        """Before which others it begins: long ones first, then those that others wait for."""
        return not self.edits[0].is_long, self.first is not None

    def jobs_among(self, ready, free):
        """With how many jobs it begins, where so many rounds are ready, and so many lanes are free: one edit takes one."""
        return 1 if len(self.edits) == 1 else max(free // ready, 1)

    def tell(self, toolchain, jobs):
        """Tries the round. Returns for each edit whether it is refused, and a text; and those that are to be tried once more."""
        told = list(zip(self.edits, self.tried(toolchain, jobs)))
        again = [edit for edit, (is_refused, _) in told if not is_refused and len(self.edits) > 1]
        return [self.named(edit, *verdict) for edit, verdict in told if edit not in again], again

    def share_out(self, again, waiting):
        """Has these edits of the round tried once more: each in a round that waits and in which it fits, or in a new one."""
        for edit in again:
            edit.tries += 1
            later = (it for it in waiting if it.crate is self.crate and it.first is not None)
            fitting = next((it for it in later if all(edit.fits_beside(other) for other in it.edits)), None)
            if fitting:
                fitting.edits.append(edit)
            else:
                waiting.append(Round(self.crate, [edit], self.kept, self.first or self))

    def tried(self, toolchain, jobs):
        """What comes of its edits: the first round keeps what it proves, and a later one begins with a copy, so that this stays."""
        if self.first is None:
            return try_at_once(self.crate, self.edits, toolchain, self.kept, jobs)
        with tempfile.TemporaryDirectory(prefix="kept-") as room:
            kept = shutil.copytree(self.kept, pathlib.Path(room, "kept"), copy_function=link_or_copy)
            return try_at_once(self.crate, self.edits, toolchain, kept, jobs)

    def untried(self):
        return [self.named(edit, False, "not tried: a crate below isn't proved") for edit in self.edits]

    def named(self, edit, is_refused, text):
        return is_refused, f"{self.crate.name}/{edit.name}: {text}"


def proved_so_far(crates, said):
    """The crates that are proved by what `rt ci`, which goes on beside this, has said so far, and whether it has ended: all, and
    yes, where there is no such file."""
    if said is None:
        return {it.name for it in crates}, True
    lines = said.read_text(errors="replace").splitlines()
    return {found[1] for found in map(PROVED.match, lines) if found}, lines[-1:] == ["ended"]


def try_all(rounds, toolchain, lanes, look):
    """Tries each round as soon as it may begin, in order of rank, and of these the lowest crate's first; yields what comes of each
    edit. `look` tells which crates are proved, and whether no more will be: before that half of the lanes are left free."""
    waiting, running = list(rounds), {}
    with concurrent.futures.ThreadPoolExecutor(lanes) as pool:
        while waiting or running:
            proved, has_ended = look()
            ready = sorted((it for it in waiting if it.may_begin(proved)), key=Round.rank)
            for at, it in enumerate(ready):
                free = (lanes if has_ended else max(1, lanes // 2)) - sum(jobs for _, jobs in running.values())
                if free < 1:
                    break
                waiting.remove(it)
                jobs = it.jobs_among(len(ready) - at, free) if has_ended else 1
                running[pool.submit(it.tell, toolchain, jobs)] = it, jobs
            for it in [it for it in waiting if has_ended and not {below.name for below in it.crate.below} <= proved]:
                waiting.remove(it)
                yield from it.untried()
            time.sleep(0.5)
            for one in [it for it in running if it.done()]:
                tried, _ = running.pop(one)
                tried.has_ended = True
                ended, again = one.result()
                tried.share_out(again, waiting)
                if all(it.kept != tried.kept for it in [*waiting, *(other for other, _ in running.values())]):
                    pool.submit(shutil.rmtree, tried.kept)
                yield from ended


def edits_of(crate):
    """The crate's edits, and a verdict and a text for each file that is none."""
    edits, bad = [], []
    for file in sorted((crate.folder / "must-fail").glob("*")):
        try:
            if file.suffix != ".edit":
                raise BadEdit("its name doesn't end in .edit")
            edits.append(read_edit(crate.folder, file))
        except (BadEdit, OSError) as why:
            bad.append((False, f"{crate.name}/{file.stem}: BAD EDIT: {why}"))
    return edits, bad


def main():
    parser = argparse.ArgumentParser(description=__doc__, formatter_class=argparse.RawDescriptionHelpFormatter)
    parser.add_argument("--over", type=pathlib.Path, metavar="FOLDER")
    parser.add_argument("crates", nargs="*", metavar="NAME")
    given = parser.parse_args()
    toolchain, crates = Toolchain(), read_crates()
    wanted = [it for it in crates if it.name in given.crates or not given.crates]
    if given.over is None:
        with alone(crates[-1]):
            Build([it for it in crates if any(it in each.below for each in wanted)], toolchain).all()
    else:
        for it in crates:
            it.left = given.over.resolve() / "crates" / it.name / "out" / "rlib" / f"{it.name}.rlib"
    lanes = max(1, min(len(os.sched_getaffinity(0)), free_memory() // memory_of(crates[-1], 1)))
    passed = failed = 0
    with tempfile.TemporaryDirectory(prefix="kept-") as room:
        rounds, told = [], []
        for crate in wanted:
            edits, bad = edits_of(crate)
            told += bad
            first = None
            for it in rounds_of(edits):
                begins_anew = first is None or it[0].is_long
                kept = pathlib.Path(tempfile.mkdtemp(dir=room)) if begins_anew else first.kept
                rounds.append(Round(crate, it, kept, None if begins_anew else first))
                first = first or rounds[-1]
        said = given.over / "said" if given.over else None
        for is_refused, text in itertools.chain(told, try_all(rounds, toolchain, lanes, lambda: proved_so_far(crates, said))):
            print(f"edits: {text}", flush=True)
            passed, failed = passed + is_refused, failed + (not is_refused)
    print(f"{passed} passed, {failed} failed")
    return 1 if failed else 0


if __name__ == "__main__":
    try:
        sys.exit(main())
    except Stopped as why:
        print(f"edits: {why}")
        print("0 passed, 1 failed")
        sys.exit(1)
