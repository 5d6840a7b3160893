"""The functions of a crate's files: which one a line stands in, and how bodies are taken out of them."""
import pathlib
import re
import shutil

from sources import code_files

FUNCTION = re.compile(r"(\s*)(?:pub(?:\([^)]*\))? )?(?P<constant>const )?fn (?P<name>\w+)")
IMPL = re.compile(r"impl(?:<.*?>)? (?:(?:\w+::)*(?P<trait>\w+)(?:<(?P<of>\w+)>|<.*>)? for (?P<ref>&)?)?(?:\w+::)*(?P<type>\w+)")
ITEM = re.compile(r"(pub(\([^)]*\))? )?(static|const|struct|enum|trait|mod|use) |\}")
TYPE = re.compile(r"(?:pub(?:\([^)]*\))? )?(?:struct|enum) (\w+)")


def module_of(path):
    """The names that lead to the module of a file, by its path within the crate."""
    return [it for it in pathlib.PurePath(path).with_suffix("").parts[1:] if it not in ("lib", "main", "mod")]


def function_at(path, lines, at):
    """The function that has this line, or None: by its module, or, since the prover names a method by its type's module, by its
    type, which an impl's trait follows, and then what that is of."""
    for above in range(at, -1, -1):
        found = FUNCTION.match(lines[above])
        if found and found[1]:
            impl = next(it for it in map(IMPL.match, reversed(lines[:above])) if it)
            return f"{'Ref' if impl['ref'] else ''}{impl['type']}{impl['trait'] or ''}{impl['of'] or ''}::{found['name']}"
        if found:
            return "::".join([*module_of(path), found["name"]])
        if above < at and ITEM.match(lines[above]):
            return None
    return None


def braces_of(lines, at):
    """The lines with the braces of the function that begins at this line; None where nothing stands between them, or all in one line."""
    indent = FUNCTION.match(lines[at])[1]
    ends_of_head = (lines[at], indent + ")", indent + ">")
    for begin in range(at, len(lines)):
        if lines[begin] == indent + "{}" or (begin == at and lines[at].endswith("}")):
            return None
        if lines[begin] == indent + "{" or (lines[begin].endswith(" {") and lines[begin].startswith(ends_of_head)):
            return begin, lines.index(indent + "}", begin)


def calls(lines, name):
    """Whether these lines call a function of this name, or a method of their own `self`."""
    call = re.compile(rf"(?:(?<![\w.:])|\b(?:self\.|Self::)){name}\(")
    return any(map(call.search, lines))


def bodies_in(lines):
    """The bodies of functions that can be taken out of a file's lines, the last one first: for each the lines of its head and of its
    braces, the type whose method it is, or None, and its name. Left are those of traits, whose laws speak of their methods, of
    constant functions and `main`, which more than their callers read, and of functions that call themselves, whose proof is
    another's too."""
    bodies, block = [], ""
    for at, line in enumerate(lines):
        if line[:1].strip():
            block = line
        found, impl = FUNCTION.match(line), IMPL.match(block)
        if not found or found["constant"] or found["name"] == "main":
            continue
        is_method = found[1] != ""
        braces = braces_of(lines, at) if not is_method or (impl and not impl["trait"]) else None
        if braces and not calls(lines[braces[0] + 1 : braces[1]], found["name"]):
            bodies.append((at, *braces, impl["type"] if is_method else None, found["name"]))
    return bodies[::-1]


def take_out_bodies(folder, crate, kept):
    """Takes the bodies out of all functions of the crate in this folder but those kept, and leaves a hole for the proof of each. So
    the prover makes next to nothing of them, and who calls them is proved by their contracts as before."""
    files = {it: it.read_text().split("\n") for it in code_files(folder)}
    paths = {it: it.relative_to(folder) for it in files}
    homes = {}
    for file, lines in files.items():
        for found in filter(None, map(TYPE.match, lines)):
            homes.setdefault(found[1], []).append(module_of(paths[file]))
    for file, lines in files.items():
        for head, begin, end, owner, name in bodies_in(lines):
            home = homes.get(owner, []) if owner else [module_of(paths[file])]
            if function_at(paths[file], lines, head) not in kept and len(home) == 1:
                lines[begin + 1 : end] = ["unreachable!()"]
                leave_a_hole(folder / "proofs", crate, [*home[0], *([owner] if owner else []), name])
        file.write_text("\n".join(lines))


def leave_a_hole(proofs, crate, path):
    """Puts a hole in the place of what is written of a function's proof, and of its closures'."""
    own = proofs.joinpath(*path)
    for it in (own, own.parent / "fn" / own.name):
        shutil.rmtree(it, ignore_errors=True)
    own.mkdir(parents=True)
    statement = f"use Rattle.{crate}.proofs.{'.'.join(path)}.Statement.{{statement}}"
    (own / "Proof.antt").write_text(f"{statement}\n\npub {own.name}_spec : {{M : Type 1}} → statement M\n{own.name}_spec = ?\n")
