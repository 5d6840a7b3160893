#!/usr/bin/env python3
"""The two indexes that are made of the sources: of public functions with their clauses, and of the edits that must fail.

  checks/index.py --write        writes docs/CONTRACTS.md and docs/EDITS.md anew
  checks/index.py --check        whether each is what would be written; the last line is `N passed, M failed`

A public function is one that src/lib.rt passes on, a method of a type that it passes on, or, where such a type has a trait by
hand, a function of that which ensures something; of a program it is one that its `main` is made of. What it is stands in the
first sentence above it. An edit says its wrong body in its one `#` line, as `# FUNCTION: WHAT IS WRONG`; a line `# at FUNCTION`
says where it has to be refused, and else the function whose lines it turns is named."""
import pathlib
import re
import sys

ROOT = pathlib.Path(__file__).resolve().parent.parent
sys.dont_write_bytecode = True
sys.path.insert(0, str(ROOT / "checks"))
import edits

CONTRACTS, EDITS = ROOT / "docs" / "CONTRACTS.md", ROOT / "docs" / "EDITS.md"
MARK = "<!-- What follows is made by checks/index.py. -->\n"
FUNCTION = re.compile(r"( *)(pub )?(?:const )?fn (\w+)")
IMPL = re.compile(r"impl(?:<.*?>)? (?:([\w:]+)(?:<(.*)>)? for )?&?(?:'\w+ )?(?:\w+::)*(\w+)")
TRAIT = re.compile(r"pub trait (\w+)")


class BadSource(Exception):
    """Why no row can be made."""


def passed_on(folder):
    """The names that the crate's root file passes on, and the modules that it opens; or, of a program, None."""
    root = folder / "src" / "lib.rt"
    if not root.exists():
        return None, set()
    text = root.read_text()
    names = set()
    for module, many, one in re.findall(r"^pub use (\w+)(?:::\w+)*::(?:\{([^}]*)\}|(\w+));", text, flags=re.M):
        if any((folder / "src" / place).exists() for place in (f"{module}.rt", module)):
            names |= {name.strip() for name in (many or one).split(",") if name.strip()}
    return names, set(re.findall(r"^pub mod (\w+);", text, flags=re.M))


def sources_of(folder):
    """The crate's files in order, without its tests."""
    files = sorted((folder / "src").rglob("*.rt"))
    return [file for file in files if not any("tests" in part for part in file.relative_to(folder).with_suffix("").parts)]


def head_of(lines, at):
    """The lines from a function's name to where its body begins, or to its `;`."""
    for end in range(at, len(lines)):
        if re.match(r"\s*\{\s*$|\s*\{ *\}$", lines[end]) or re.search(r"(?<!\}) \{$|;$", lines[end]):
            return lines[at : end + 1]
    return lines[at:]


def comment_above(lines, at):
    """The first sentence of the comment above a line, attributes aside."""
    rows = []
    for line in reversed(lines[:at]):
        text = line.strip()
        if text.startswith("///"):
            rows.insert(0, text.removeprefix("///").strip())
        elif not text.startswith(("#[", "ghost ")):
            break
    return re.split(r"(?<=\.) ", " ".join(rows))[0]


def functions_of(file):
    """Of each function of a file: its type, its trait, whether it is `pub`, its name, its clauses and what it is."""
    lines = file.read_text().splitlines()
    owner, trait = None, None
    for at, line in enumerate(lines):
        if line == "}":
            owner, trait = None, None
        elif found := IMPL.match(line):
            owner, trait = found[3], found[1] and found[1].rpartition("::")[2] + (f"<{found[2]}>" if found[2] else "")
        elif found := TRAIT.match(line):
            owner, trait = found[1], found[1]
        elif (found := FUNCTION.match(line)) and len(found[1]) == (4 if owner else 0):
            clauses = re.findall(r"^ *ensures\*? ?(\w*) ?\{", "\n".join(head_of(lines, at)), flags=re.M)
            yield owner, trait, bool(found[2]), found[3], clauses, comment_above(lines, at)


def contracts_of(folder):
    """A row for each public function of the crate."""
    names, modules = passed_on(folder)
    for file in sources_of(folder):
        for owner, trait, is_pub, name, clauses, what in functions_of(file):
            if trait and trait != owner:
                is_public, shown = (names is None or owner in names) and clauses, f"<{owner} as {trait}>::{name}"
            elif owner:
                is_public, shown = (names is None or owner in names) and (is_pub or trait), f"{owner}::{name}"
            else:
                module = file.stem if file.stem in modules else ""
                is_public, shown = is_pub and (names is None or name in names or module), f"{module}::{name}".lstrip(":")
            if is_public:
                yield f"`{shown}`", ", ".join(f"`{it}`" if it else "unnamed" for it in clauses) or "nothing", what


def edits_of(crate):
    """A row for each edit of the crate: the function, the wrong body, the function that is turned where it is another, the name."""
    for file in sorted((crate.folder / "must-fail").glob("*.edit")):
        said = [line.removeprefix("# ") for line in file.read_text().split("\n") if re.match(r"# (?!at |long$)", line)]
        if len(said) != 1 or ": " not in said[0]:
            raise BadSource(f"{crate.name}/{file.name}: has {len(said)} lines `# FUNCTION: WHAT IS WRONG`, and not one")
        function, _, what = said[0].partition(": ")
        turned = sorted(edits.read_edit(crate.folder, file).functions)
        yield function, what, ", ".join(f"`{it}`" for it in turned if not is_named(it, function)), f"`{file.stem}`"


def is_named(turned, function):
    """Whether the function that is turned is the one whose meaning is, which is named without the modules that it stands in."""
    return f"`{turned}`" in function or f"::{turned}`".endswith(f"::{function[1:]}")


def table(heads, rows):
    lines = [f"| {' | '.join(heads)} |", f"|{' --- |' * len(heads)}"]
    return "\n".join(lines + [f"| {' | '.join(cell.replace('|', chr(92) + '|') for cell in row)} |" for row in rows])


def page(path, heads, rows_by_crate):
    parts = [path.read_text().partition(MARK)[0] + MARK.rstrip()]
    parts += [f"## `{crate}`\n\n{table(heads, rows)}" for crate, rows in rows_by_crate if rows]
    return "\n\n".join(parts) + "\n"


def pages():
    crates = edits.read_crates()
    contracts = [(it.name, list(contracts_of(it.folder))) for it in crates]
    wrong = [(it.name, list(edits_of(it))) for it in crates]
    return {
        CONTRACTS: page(CONTRACTS, ["Function", "Ensures", "Is"], contracts),
        EDITS: page(EDITS, ["Function", "The wrong body", "Turned in", "Edit"], wrong),
    }


def main(arguments):
    if arguments not in (["--write"], ["--check"]):
        sys.exit(__doc__)
    try:
        made = pages()
    except (BadSource, edits.BadEdit) as why:
        print(why)
        print("0 passed, 1 failed")
        return False
    if arguments == ["--write"]:
        for path, text in made.items():
            path.write_text(text)
        return True
    stale = [path for path, text in made.items() if path.read_text() != text]
    for path in stale:
        print(f"{path.relative_to(ROOT)} isn't what `checks/index.py --write` writes")
    print(f"{len(made) - len(stale)} passed, {len(stale)} failed")
    return not stale


if __name__ == "__main__":
    sys.exit(0 if main(sys.argv[1:]) else 1)
