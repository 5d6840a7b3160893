#!/usr/bin/env python3
"""Puts the tables that bench/all.sh prints into docs/FIGURES.md, each in the place of the one of its section that stands there.

  bench/all.sh NAME.. | bench/write_page.py"""
import pathlib
import re
import sys

PAGE = pathlib.Path(__file__).resolve().parent.parent / "docs/FIGURES.md"
TABLE = re.compile(r"^(?:\|.*\n)+", flags=re.M)


def write_section(section, tables):
    """The section with these tables in place of its own, and what it has no table for at its end."""
    parts, olds = TABLE.split(section), TABLE.findall(section)
    if len(olds) > len(tables):
        raise SystemExit(f"{section.splitlines()[0]}: there are {len(olds)} tables, and {len(tables)} came")
    written = "".join(part + table for part, table in zip(parts, tables)) + parts[-1] if olds else section
    return written + "".join(f"{table}\n" for table in tables[len(olds) :])


def main():
    page = PAGE.read_text()
    for name, printed in re.findall(r"^## (\w+)\n(.*?)(?=^## |\Z)", sys.stdin.read(), flags=re.S | re.M):
        sections = re.split(r"^(?=## )", page, flags=re.M)
        at = next(at for at, section in enumerate(sections) if f"`bench/all.sh {name}`" in section)
        sections[at] = write_section(sections[at], TABLE.findall(printed))
        page = "".join(sections)
    PAGE.write_text(page)


main()
