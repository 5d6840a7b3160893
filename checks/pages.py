#!/usr/bin/env python3
"""Holds the pages against the repository and the built program.

  checks/pages.py          all pages: README.md, CONTRIBUTING.md, CHANGELOG.md and docs/*.md
  checks/pages.py PAGE..   these pages alone

- Links: each link within the repository leads to a file that is there, and to a heading of it.
- Paths: each path in backticks that begins with a folder of the repository is there.
- Contracts: each `crate::function` is a function of that crate, and the clauses named behind it are clauses of it.
- Files: a block ```text FILE is that file.
- Commands: of a block ```console each line `$ COMMAND` prints what stands below it. A service goes on until the page's next
  one, and port 7412 is replaced by one that is free.
- Sessions: of a block ```session, at the service before it, each line `> LINE` is answered by what stands below it.
- Scripts: a block ```script and the table of lines and replies after it, or a block ```replies, are what the program prints.
- Pictures: docs/pictures/NAME.svg is what checks/draw_proof makes of examples/NAME.script; peers.svg is of docs/FIGURES.md,
  crates.svg of crates.txt and docs/ARCHITECTURE.md, and search.svg of bench/trace/clinic.trace.
- Sizes: each page of MOST_BYTES has at most so many. On these no sentence has more than 40 words, a name or a command in
  backticks being one, and no paragraph or bullet more than 700 characters; tables, blocks and headings aside.
- Figures: each script of bench/ that docs/FIGURES.md names is there, and each section with a table names what prints it: a script
  of bench/ or checks/, or ./check.

A block with no such word isn't run. The last line is `N passed, M failed`; each fault is told before it."""
import itertools
import os
import pathlib
import re
import socket
import subprocess
import sys

ROOT = pathlib.Path(__file__).resolve().parent.parent
PROGRAM = os.environ.get("RTSEARCH", str(ROOT / "rtsearch"))
FOLDERS = ("crates/", "docs/", "examples/", "cases/", "checks/", "bench/", "launch/")
DRAWINGS = {
    "crates": "checks/draw_crates",
    "peers": "bench/peers/draw.py < docs/FIGURES.md",
    "search": "bench/trace/draw.py < bench/trace/clinic.trace",
}
MOST_BYTES = {
    "README.md": 6144,
    "CONTRIBUTING.md": 9216,
    "CHANGELOG.md": 3072,
    "docs/ARCHITECTURE.md": 11264,
    "docs/DECISIONS.md": 15360,
    "docs/FIGURES.md": 10240,
    "docs/PROVED.md": 14336,
    "docs/TESTING.md": 10240,
}
MOST_WORDS, MOST_CHARACTERS = 40, 700
PATIENCE = 30  # seconds
NC = 'nc() { exec 3<>"/dev/tcp/$1/$2"; cat >&3; cat <&3; }; '  # in place of the program of that name


class Page:
    """A page: its text, its blocks in order, and its headings."""

    def __init__(self, path):
        self.path, self.name = path, str(path.relative_to(ROOT))
        self.text = path.read_text()
        self.plain = re.sub(r"^```.*?^```$", "", self.text, flags=re.S | re.M)
        self.blocks = [(word.split(), body.splitlines(), at) for word, body, at in self.read_blocks()]
        headings = re.findall(r"^#+ (.*)$", self.plain, flags=re.M)
        self.anchors = {re.sub(r"[^\w\- ]", "", heading.lower()).replace(" ", "-") for heading in headings}

    def read_blocks(self):
        for found in re.finditer(r"^```([^\n]*)\n(.*?)^```$", self.text, flags=re.S | re.M):
            yield found.group(1), found.group(2), found.end()


def links_of(page):
    for target in re.findall(r"\]\(([^)\s]+)\)", page.plain):
        if not re.match(r"[a-z]+:", target):
            yield f"link {target}", lambda target=target: is_link(page, target)


def is_link(page, target):
    file, _, anchor = target.partition("#")
    path = (page.path.parent / file).resolve() if file else page.path
    if not path.exists():
        return "nothing is there"
    if anchor and anchor not in Page(path).anchors:
        return "no such heading"
    return None


def paths_of(page):
    for path in sorted(set(re.findall(r"`([a-z_]+/[\w./-]*)`", page.plain))):
        if path.startswith(FOLDERS) and "NAME" not in path:
            yield f"path {path}", lambda path=path: None if (ROOT / path).exists() else "nothing is there"


def contracts_of(page):
    """Each run of functions, with the clauses in brackets behind it, which each of them has to have."""
    function = r"`[a-z]\w*(?:::\w+)+`"
    for run, clauses in re.findall(rf"((?:{function}(?:, )?)+)(?: \(([^)|]*`[^)|]*)\))?", page.plain):
        for path in re.findall(r"`([^`]+)`", run):
            if (ROOT / "crates" / path.split("::")[0]).is_dir():
                wanted = [clause for clause in re.findall(r"`([a-z]\w*)`", clauses)]
                yield f"contract {path} {' '.join(wanted)}".strip(), lambda path=path, wanted=wanted: is_contract(path, wanted)


def is_contract(path, wanted):
    crate, *middle, name = path.split("::")
    owner = next((word for word in middle if word[0].isupper()), None)
    fault = "no such function"
    for file in (ROOT / "crates" / crate / "src").rglob("*.rt"):
        source = file.read_text()
        if "tests" in str(file) or owner and not re.search(rf"^impl\b.*\b{owner}\b", source, flags=re.M):
            continue
        for found in re.findall(rf"\bfn {name}\b.*?(?=^ *\{{\}}?$|\bfn \w|\Z)", source, flags=re.S | re.M):
            missing = set(wanted) - set(re.findall(r"ensures\*? (\w+) \{", found))
            if not missing:
                return None
            fault = f"has no clause {', '.join(sorted(missing))}"
    return fault


class Service:
    """The service of a page that is under way, and the port that stands for 7412."""

    def __init__(self):
        self.process, self.port, self.wanted = None, None, None

    def begin(self, command, wanted):
        self.port, self.wanted = free_port(), wanted
        self.process = subprocess.Popen(
            ["bash", "-c", self.localized(command)], cwd=ROOT, stdin=subprocess.DEVNULL, stdout=subprocess.PIPE, text=True
        )
        first = self.process.stdout.readline()
        return compare(wanted[:1], [first.rstrip("\n").replace(str(self.port), "7412")])

    def localized(self, text):
        text = text.replace("./rtsearch", PROGRAM)
        return text if self.port is None else text.replace("7412", str(self.port))

    def end(self):
        """What the service printed after its first line, and whether it ended where it was to end."""
        if self.process is None:
            return None
        process, self.process = self.process, None
        if len(self.wanted) < 2:
            process.kill()
            process.wait()
            return None
        try:
            rest, _ = process.communicate(timeout=PATIENCE)
        except subprocess.TimeoutExpired:
            process.kill()
            return "the service didn't end"
        return compare(self.wanted[1:], rest.splitlines())


def free_port():
    with socket.socket() as one:
        one.bind(("127.0.0.1", 0))
        return one.getsockname()[1]


def compare(wanted, came):
    for line, other in itertools.zip_longest(wanted, came, fillvalue="(nothing)"):
        if line != other:
            return f"prints {other!r} in place of {line!r}"
    return None


def parts_of(lines, mark):
    """The lines that begin with the mark, each with those below it."""
    parts = []
    for line in lines:
        if line.startswith(mark):
            parts.append((line[len(mark) :], []))
        elif parts:
            parts[-1][1].append(line)
    return parts


def runs_of(page):
    service, script = Service(), None
    for words, lines, at in page.blocks:
        kind = words[0] if words else ""
        if kind == "text" and len(words) > 1:
            yield f"file {words[1]}", lambda lines=lines, file=ROOT / words[1]: compare(file.read_text().splitlines(), lines)
        elif kind == "console":
            for command, wanted in parts_of(lines, "$ "):
                if "rtsearch serve" in command:
                    yield "the service before", service.end
                    yield f"command {command}", lambda c=command, w=wanted: service.begin(c, w)
                else:
                    yield f"command {command}", lambda c=command, w=wanted: compare(w, run(service.localized(c)))
        elif kind == "session":
            yield "session", lambda lines=lines: talk(service.port, parts_of(lines, "> "))
        elif kind == "script":
            script = lines
            rows = table_after(page.text[at:])
            if rows:
                yield "script and table", lambda s=lines, r=rows: is_answered(s + [x for x, _ in r], [y for _, ys in r for y in ys])
        elif kind == "replies":
            yield "script and replies", lambda s=script, w=lines: is_answered(s, w)
    yield "the last service", service.end


def run(command):
    ran = subprocess.run(
        ["bash", "-c", NC + command], cwd=ROOT, stdin=subprocess.DEVNULL, stdout=subprocess.PIPE, text=True, timeout=PATIENCE
    )
    return ran.stdout.splitlines()


def talk(port, parts):
    if port is None:
        return "there is no service"
    with socket.create_connection(("127.0.0.1", port), timeout=PATIENCE) as peer:
        lines = peer.makefile("r")
        for line, wanted in parts:
            peer.sendall(line.encode() + b"\n")
            fault = compare(wanted, [lines.readline().rstrip("\n") for _ in wanted])
            if fault:
                return f"{line}: {fault}"
    return None


def pictures_of(page):
    for name in re.findall(r"\(pictures/(\w+)\.svg\)", page.plain):
        yield f"picture {name}", lambda name=name: is_drawn(name)


def is_drawn(name):
    came = run(DRAWINGS.get(name, f"{PROGRAM} script < examples/{name}.script | checks/draw_proof"))
    return compare((ROOT / f"docs/pictures/{name}.svg").read_text().splitlines(), came)


def table_after(text):
    """The lines and replies of the table of `Line` and `Reply` that comes next, if it does."""
    found = re.match(r"\s*\| Line \| Reply \|[^\n]*\n\|[^\n]*\n((?:\|[^\n]*\n)+)", text)
    if not found:
        return None
    cells = [row.split("|")[1:3] for row in found.group(1).splitlines()]
    return [(re.search(r"`([^`]+)`", line).group(1), re.findall(r"`([^`]+)`", reply)) for line, reply in cells]


def is_answered(script, wanted):
    ran = subprocess.run([PROGRAM, "script"], input="\n".join(script) + "\n", stdout=subprocess.PIPE, text=True, timeout=PATIENCE)
    return compare(wanted, ran.stdout.splitlines())


def shape_of(page):
    """The page's size, and that of its sentences and paragraphs."""
    if page.name in MOST_BYTES:
        size, most = page.path.stat().st_size, MOST_BYTES[page.name]
        yield "size", lambda: None if size <= most else f"{size:,} bytes, and not {most:,} at most"
        for at, paragraph in enumerate(paragraphs_of(page), 1):
            yield f"paragraph {at}", lambda paragraph=paragraph: is_short(paragraph)


def paragraphs_of(page):
    """The paragraphs and bullets of a page, each in one line as it is read: a link by its text, code by one word."""
    rows = re.sub(r"<!--.*?-->|(?<=\n\n)(?:    [^\n]*\n)+", "", page.plain, flags=re.S)
    rows = re.sub(r"^(?:#|\||!\[).*$", "", rows, flags=re.M)
    rows = re.sub(r"^ *(?:[-*]|\d+\.) ", "\n", rows, flags=re.M)
    for paragraph in re.split(r"\n\s*\n", rows):
        text = " ".join(re.sub(r"!?\[([^\]]*)\]\([^)]*\)", r"\1", paragraph).split())
        if text:
            yield text


def is_short(paragraph):
    if len(paragraph) > MOST_CHARACTERS:
        return f"{len(paragraph)} characters, from {paragraph[:60]!r} on"
    for sentence in re.split(r"(?<=[.!?])\)?\** +", re.sub(r"`[^`]+`", "code", paragraph)):
        if len(words := re.findall(r"\S*\w\S*", sentence)) > MOST_WORDS:
            return f"a sentence of {len(words)} words, from {sentence[:60]!r} on"
    return None


def figures_of(page):
    """Each script of bench/ that the page of figures names, in a block too, and each of its sections that has a table."""
    if page.name == "docs/FIGURES.md":
        for path in sorted(set(re.findall(r"\bbench/[\w./-]*\w", page.text))):
            yield f"script {path}", lambda path=path: None if (ROOT / path).exists() else "nothing is there"
        for section in re.split(r"^## ", page.text, flags=re.M)[1:]:
            if re.search(r"^\|", section, flags=re.M):
                names_one = re.search(r"\b(?:bench|checks)/\w|\./check\b", section)
                yield f"section {section.splitlines()[0]}", lambda names_one=names_one: None if names_one else "no script prints its table"


def checks_of(page, has_program):
    yield from links_of(page)
    yield from paths_of(page)
    yield from contracts_of(page)
    yield from shape_of(page)
    yield from figures_of(page)
    if has_program:
        yield from runs_of(page)
        yield from pictures_of(page)


def is_built():
    """Whether the program is there; builds it where it isn't built as its sources stand."""
    try:
        return subprocess.run([PROGRAM, "--version"], stdin=subprocess.DEVNULL, stdout=subprocess.DEVNULL).returncode == 2
    except OSError:
        return False


def main():
    names = sys.argv[1:] or ["README.md", "CONTRIBUTING.md", "CHANGELOG.md", *sorted(str(p) for p in (ROOT / "docs").glob("*.md"))]
    has_program = is_built()
    passed, failed = 0, int(not has_program)
    if not has_program:
        print("the program can't be built: nothing was run")
    for name in names:
        page = Page((ROOT / name).resolve())
        for what, check in checks_of(page, has_program):
            try:
                fault = check()
            except (OSError, subprocess.TimeoutExpired) as error:
                fault = str(error)
            if fault:
                print(f"{page.name}: {what}: {fault}")
                failed += 1
            else:
                passed += 1
    print(f"{passed} passed, {failed} failed")
    return failed > 0


if __name__ == "__main__":
    sys.exit(main())
