#!/usr/bin/env python3
"""The statements of a script and of a session, definition after definition, as docs/STATEMENT.md has them.

  checks/statement.py --write        writes the page docs/STATEMENT.md anew
  checks/statement.py --check        whether the page is what would be written; the last line is `N passed, M failed`
  checks/statement.py --count        how many definitions, lines and files there are, by crate

It begins at what the contract of `run_script` cites, and goes on to each definition of specs/ that one before it names. Then comes
what that of `answer_session` cites beyond these. What stands above the mark on the page is written by hand and stays."""
import dataclasses
import itertools
import pathlib
import re
import sys

ROOT = pathlib.Path(__file__).resolve().parent.parent
PAGE = ROOT / "docs" / "STATEMENT.md"
MARK = "<!-- What follows is made by checks/statement.py. -->\n"
SCRIPT = ("service/specs/Written.antt", "ScriptWrote")
SESSION = ("service/specs/Session.antt", "SessionWrote")
OF_SCRIPT, OF_SESSION = "A script", "A session, beyond that"
WORD = re.compile(r"[A-Za-z_][\w'-]*(?:\.[A-Za-z_][\w'-]*)*")
BEGINNING = re.compile(r"(?:unfoldable )?(?:abbrev )?(?:pub )?(record|data)? ?([^\s:({]+)")
ENGINE = ("scholten_core", "cred_graph", "monitors", "snapshots")


@dataclasses.dataclass
class Definition:
    """A definition of specs/: its name, the comment above it, and its text, in which a sum's cases have comments of their own."""

    file: "File"
    name: str
    comment: str
    text: str

    def code(self):
        """The rows of its text that are no comments."""
        return [row for row in self.text.splitlines() if not is_comment(row)]

    def parts(self):
        """The names that stand for it: its own, and those of a sum's cases."""
        cases = re.findall(r"^  (\w+) :", self.text, flags=re.M) if self.text.startswith("pub data") else []
        return [self.name, *cases]


class File:
    """A file of specs/: what it takes from others, and its definitions in order."""

    def __init__(self, path):
        self.path = path
        self.place = str(path.relative_to(ROOT / "crates"))
        self.crate = self.place.partition("/")[0]
        lines = [line for line in path.read_text().splitlines() if not re.match(r"(module _|mutual)", line)]
        self.taken, self.folders, self.definitions = {}, {}, []
        self.heading = lines[0].removeprefix("-- ") if lines and lines[0].startswith("-- ") else ""
        self.read_uses(lines)
        self.read_definitions(lines)
        self.by_name = {part: d for d in self.definitions for part in d.parts()}

    def read_uses(self, lines):
        for line in lines:
            if found := re.match(r"(?:unfoldable )?(?:pub )?use Rattle\.(\S+)\.\{(.*)\}", line):
                for item in found[2].split(","):
                    name, _, other = item.strip().partition(" as ")
                    self.taken[other or name] = (file_of(found[1]), name)
            elif found := re.match(r"(?:pub )?use Rattle\.(\S+) as (\S+)", line):
                self.folders[found[2]] = file_of(found[1])

    def read_definitions(self, lines):
        for paragraph in re.split(r"\n\s*\n", "\n".join(lines)):
            above = list(itertools.takewhile(is_comment, paragraph.splitlines()))
            comment = [row.strip().removeprefix("--").strip() for row in above]
            body = paragraph.splitlines()[len(above) :]
            if not body or re.match(r"(unfoldable )?(pub )?(use|mod) ", body[0]):
                continue
            if self.definitions and body[0].startswith(" ") and not self.is_indented(body[0]):
                self.definitions[-1].text += "\n\n" + "\n".join(body)
                continue
            indent = len(body[0]) - len(body[0].lstrip())
            body = [row[indent:] for row in body]
            name = BEGINNING.match(body[0])[2]
            self.definitions.append(Definition(self, name, " ".join(comment), "\n".join(body)))

    @staticmethod
    def is_indented(row):
        """Whether the row begins a definition within a module that has parameters."""
        return bool(re.match(r"  (unfoldable |abbrev |pub )", row))


def is_comment(row):
    return row.lstrip().startswith("--")


def file_of(module):
    return module.replace(".", "/") + ".antt"


def read_all():
    files = sorted((ROOT / "crates").glob("*/specs/**/*.antt"))
    return {file.place: file for file in map(File, files)}


def look_up(files, file, word):
    """The definition that a word of a file stands for, through the files that pass it on."""
    head, _, rest = word.partition(".")
    if file.by_name.get(head):
        return file.by_name[head]
    place, name = file.taken.get(head, (None, None))
    if place is None and head in file.folders and rest:
        place, name = file.folders[head], rest.partition(".")[0]
    target = files.get(place)
    return look_up(files, target, name) if target and target is not file else None


def unfold(files, root, known=()):
    """Each definition that the root names, and those name, in the order in which a reader meets them, but for those that are known."""
    place, name = root
    met, waiting = {id(one): one for one in known}, [files[place].by_name[name]]
    while waiting:
        definition = waiting.pop()
        if id(definition) in met:
            continue
        met[id(definition)] = definition
        words = dict.fromkeys(WORD.findall("\n".join(definition.code())))
        named = (look_up(files, definition.file, word) for word in words)
        waiting.extend(reversed([other for other in named if other]))
    return list(met.values())[len(known) :]


def by_file(definitions):
    """The definitions by file: the crates from the top, each file where it is first met, and each in its file's order."""
    order = [line.partition(":")[0].split()[0] for line in (ROOT / "crates.txt").read_text().splitlines() if ":" in line]
    groups = {}
    for definition in definitions:
        groups.setdefault(definition.file.place, (definition.file, set()))[1].add(id(definition))
    found = sorted(groups.values(), key=lambda group: -order.index(group[0].crate))
    return [(file, [d for d in file.definitions if id(d) in names]) for file, names in found]


def page(parts):
    out = [PAGE.read_text().partition(MARK)[0] + MARK.rstrip()]
    for title, groups in parts.items():
        out.append(f"## {title}")
        out.extend(blocks(groups))
    return "\n\n".join(out) + "\n"


def blocks(groups):
    """The texts of these definitions, with a heading for each crate and each file."""
    crate = None
    for file, definitions in groups:
        if file.crate != crate:
            crate = file.crate
            yield f"### `{crate}`"
        yield f"#### {pathlib.Path(file.place).stem}\n\n{file.heading}\n\n[crates/{file.place}](../crates/{file.place})"
        for definition in definitions:
            says = f"{sentence(definition.comment)}\n\n" if definition.comment else ""
            yield f"{says}```antt\n{definition.text}\n```"


def sentence(comment):
    text = comment[0].upper() + comment[1:]
    return text if text.endswith(".") else text + "."


def count(title, groups):
    rows = {}
    for file, definitions in groups:
        row = rows.setdefault(file.crate, [0, 0, 0])
        row[0] += len(definitions)
        row[1] += sum(len(d.code()) for d in definitions)
        row[2] += 1
    for crate, row in [*rows.items(), (title, [sum(column) for column in zip(*rows.values())])]:
        print(f"{crate}: {row[0]} definitions, {row[1]} lines, {row[2]} files")


def check(parts):
    groups = [group for part in parts.values() for group in part]
    faults = [f"{file.place}: a part of how a search works" for file, _ in parts[OF_SCRIPT] if file.crate in ENGINE]
    faults += [f"{file.place}: nothing above it says what it is for" for file, _ in groups if not file.heading]
    faults += [f"{file.place}: {d.name} has no comment" for file, definitions in groups for d in definitions if not d.comment]
    if PAGE.read_text() != page(parts):
        faults.append("docs/STATEMENT.md isn't what `checks/statement.py --write` writes")
    for fault in faults:
        print(fault)
    print("0 passed, 1 failed" if faults else "1 passed, 0 failed")
    return not faults


def main(arguments):
    files = read_all()
    script = unfold(files, SCRIPT)
    parts = {OF_SCRIPT: by_file(script), OF_SESSION: by_file(unfold(files, SESSION, script))}
    if arguments == ["--count"]:
        for title, groups in parts.items():
            count(title, groups)
    elif arguments == ["--write"]:
        PAGE.write_text(page(parts))
    elif arguments == ["--check"]:
        return check(parts)
    else:
        sys.exit(__doc__)
    return True


if __name__ == "__main__":
    sys.exit(0 if main(sys.argv[1:]) else 1)
