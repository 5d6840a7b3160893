"""Asks the program and the other tools the same, compares their answers, and prints what they take.

  compare.py PROGRAM FOLDER [RUNS [FAMILY..]]"""
import os
import pathlib
import re
import statistics
import subprocess
import sys
import time

from families import FAMILIES

HERE = pathlib.Path(__file__).resolve().parent
SIZES = [int(size) for size in os.environ.get("SIZES", "10000 50000").split()]
MOST = "100000 1000 64 1000000 1000000000 4294967296"
PATIENCE = 60  # seconds


def text_of(owner, body):
    kind, *rest = body
    if kind == "m":
        return " & ".join(text_of(owner, part) for part in rest)
    return ".".join([owner, *rest] if kind == "l" else rest)


def script_of(rows, questions, asker):
    """The script of the program: each owner is a tenant that lets the asker read its vault."""
    owners = list(dict.fromkeys(row[0] for row in rows))
    yield from (f"tenant {owner} word {MOST}" for owner in owners)
    yield "begin"
    yield from (f"{owner}: put {owner}.{role} <- {text_of(owner, body)}" for owner, role, body in rows)
    yield from (f"{owner}: grant {asker}" for owner in owners if owner != asker)
    for number, (owner, role) in enumerate(questions, 1):
        yield f"{asker}: who {owner}.{role}"
        yield f"{asker}: wait {number}"
        yield f"{asker}: end {number}"


def facts_of(rows, questions):
    """The credentials and questions as facts, by kind: what the other tools read."""
    for number, (owner, role, (kind, *rest)) in enumerate(rows):
        if kind != "m":
            yield {"e": "member", "r": "includes", "l": "linked"}[kind], (owner, role, *rest)
            continue
        yield "meet", (owner, role, number, len(rest))
        for place, (form, *names) in enumerate(rest):
            names = [owner, *names] if form == "l" else names
            yield {"e": "part_entity", "r": "part_role", "l": "part_linked"}[form], (number, place, *names)
    for number, (owner, role) in enumerate(questions):
        yield "question", (number, owner, role)


def write_facts(path, facts, mark):
    """Facts in the form that both logic programs take, with this mark round each name."""
    with open(path, "w") as out:
        for name, values in sorted(facts):
            out.write(f"{name}({','.join(str(value) if isinstance(value, int) else mark + value + mark for value in values)}).\n")


def answers_of_program(output):
    return [line.split()[2:] for line in output.splitlines() if ": members" in line]


def answers_by_number(output, count):
    """The members of each question, from lines of its number and a name."""
    answers = [[] for _ in range(count)]
    for line in output.splitlines():
        number, _, name = line.partition(" ")
        if name:
            answers[int(number)].append(name)
    return [sorted(answer) for answer in answers]


def answers_of_clingo(output, count):
    pairs = re.findall(r'answer\(([0-9]+),"([^"]*)"\)', output)
    return answers_by_number("\n".join(map(" ".join, pairs)), count)


def take(command, source):
    """What the command prints, its seconds and megabytes; None where it took too long."""
    begun = time.perf_counter()
    try:
        with open(source) as given:
            ran = subprocess.run(["time", "-f", "%M", *map(str, command)], stdin=given, capture_output=True, text=True, timeout=PATIENCE)
    except subprocess.TimeoutExpired:
        return None
    return ran.stdout, time.perf_counter() - begun, int(ran.stderr.splitlines()[-1]) / 1024


def tools_of(program, folder, count):
    """Of each tool its command, what it reads, its command where it is asked nothing, and how its answers are read."""
    paths = {kind: (folder / f"whole.{kind}", folder / f"load.{kind}") for kind in ("script", "pl", "lp")}

    def by_number(output):
        return answers_by_number(output, count)

    def over(words, kind):
        return [[*words, path] for path in paths[kind]]

    clingo, facts = ["clingo", "-V1"], paths["lp"]
    return {
        "rtsearch": ([[program, "script"]] * 2, paths["script"], answers_of_program),
        "native": (over([folder / "native"], "lp"), None, by_number),
        "SWI-Prolog": (over(["swipl", "-q", "-g", "answer", "-t", "halt", HERE / "roles.pl", "--"], "pl"), None, by_number),
        "SQLite": (over(["python3", HERE / "rounds.py"], "lp"), None, by_number),
        "clingo": ([[*clingo, HERE / "roles.lp", facts[0]], [*clingo, facts[1]]], None, lambda output: answers_of_clingo(output, count)),
        "PyPy": (over(["pypy3", HERE / "roles.py"], "lp"), None, by_number),
    }


def write_inputs(folder, rows, questions):
    """What each tool reads, with the questions and without."""
    for name, asked in (("whole", questions), ("load", [])):
        (folder / f"{name}.script").write_text("\n".join(script_of(rows, asked, questions[0][0])) + "\n")
        facts = list(facts_of(rows, asked))
        write_facts(folder / f"{name}.pl", facts, "'")
        write_facts(folder / f"{name}.lp", facts, '"')


def compare(program, folder, runs, family, size):
    rows, questions = family(size)
    write_inputs(folder, rows, questions)
    count = len(questions)
    wanted, cells = None, []
    for commands, sources, read in tools_of(program, folder, count).values():
        sources = sources or ["/dev/null"] * 2
        taken = [[take(*one) for one in zip(commands, sources)] for _ in range(runs)]
        if any(None in one for one in taken):
            cells.append(f"over {PATIENCE}")
            continue
        answers = read(taken[0][0][0])
        wanted = answers if wanted is None else wanted
        if answers != wanted or len(answers) != count:
            cells.append("other answers")
            continue
        whole = statistics.median(one[0][1] for one in taken)
        alone = max(0, whole - statistics.median(one[1][1] for one in taken))
        cells.append(f"{1000 * whole:.0f}, {1000 * alone:.0f} ({statistics.median(one[0][2] for one in taken):.0f})")
    print(f"| {family.__name__} | {len(rows)} | {sum(map(len, wanted))} | {' | '.join(cells)} |", flush=True)


def main():
    program, folder = sys.argv[1], pathlib.Path(sys.argv[2])
    runs = int(sys.argv[3]) if len(sys.argv) > 3 else 3
    chosen = [family for family in FAMILIES if len(sys.argv) < 5 or family.__name__ in sys.argv[4:]]
    heads = ["Milliseconds, of questions (megabytes)", "credentials", "members", *tools_of(program, folder, 0)]
    print(f"| {' | '.join(heads)} |\n|{' --- |' * len(heads)}")
    for family in chosen:
        for size in SIZES:
            compare(program, folder, runs, family, size)


main()
