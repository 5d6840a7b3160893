"""RT0's four rules as queries of SQLite, in rounds until nothing is new. In a round each rule joins what the round before
has found, so that no pair is looked at twice: `CROSS JOIN` begins with what is new.

  rounds.py FACTS          prints each question's number with each member; without questions it loads the facts alone"""
import re
import sqlite3
import sys

TABLES = {
    "member": "owner, role, who", "includes": "owner, role, other, theirs", "linked": "owner, role, base, last",
    "meet": "owner, role, number, parts", "part_entity": "number, place, who", "part_role": "number, place, other, theirs",
    "part_linked": "number, place, owner, base, last", "question": "number, owner, role",
}  # fmt: skip
INDEXES = ["includes(other, theirs)", "linked(owner, base)", "linked(last)", "part_role(other, theirs)", "part_linked(owner, base)", "part_linked(last)", "meet(number)"]
FROM_NEW = [
    "SELECT i.owner, i.role, n.who FROM fresh n CROSS JOIN includes i ON i.other = n.owner AND i.theirs = n.role",
    "SELECT l.owner, l.role, d.who FROM fresh n CROSS JOIN linked l ON l.owner = n.owner AND l.base = n.role JOIN found d ON d.owner = n.who AND d.role = l.last",
    "SELECT l.owner, l.role, n.who FROM fresh n CROSS JOIN linked l ON l.last = n.role JOIN found b ON b.owner = l.owner AND b.role = l.base AND b.who = n.owner",
    "SELECT m.owner, m.role, p.who FROM freshpart n CROSS JOIN meet m ON m.number = n.number JOIN foundpart p ON p.number = n.number AND p.who = n.who GROUP BY m.owner, m.role, m.number, p.who HAVING count(DISTINCT p.place) = m.parts",
]
PARTS_FROM_NEW = [
    "SELECT p.number, p.place, n.who FROM fresh n CROSS JOIN part_role p ON p.other = n.owner AND p.theirs = n.role",
    "SELECT p.number, p.place, d.who FROM fresh n CROSS JOIN part_linked p ON p.owner = n.owner AND p.base = n.role JOIN found d ON d.owner = n.who AND d.role = p.last",
    "SELECT p.number, p.place, n.who FROM fresh n CROSS JOIN part_linked p ON p.last = n.role JOIN found b ON b.owner = p.owner AND b.role = p.base AND b.who = n.owner",
]


def load(base, path):
    rows = {name: [] for name in TABLES}
    for line in open(path):
        name, _, rest = line.partition("(")
        rows[name].append([word.strip('"') if word[0] == '"' else int(word) for word in re.findall(r'"[^"]*"|[0-9]+', rest)])
    for name, columns in TABLES.items():
        base.execute(f"CREATE TABLE {name} ({columns})")
        marks = ", ".join("?" * len(columns.split(",")))
        base.executemany(f"INSERT INTO {name} VALUES ({marks})", rows[name])
    for place, index in enumerate(INDEXES):
        base.execute(f"CREATE INDEX i{place} ON {index}")


def insert_new(base, table, columns, queries):
    """Puts what the queries give into the table, and what of it is new into the fresh one."""
    base.execute(f"DELETE FROM wanted{table}")
    for query in queries:
        base.execute(f"INSERT OR IGNORE INTO wanted{table} {query}")
    base.execute(f"DELETE FROM fresh{table}")
    same = " AND ".join(f"f.{column} = w.{column}" for column in columns.split(", "))
    base.execute(f"INSERT INTO fresh{table} SELECT {columns} FROM wanted{table} w WHERE NOT EXISTS (SELECT 1 FROM found{table} f WHERE {same})")
    base.execute(f"INSERT INTO found{table} SELECT {columns} FROM fresh{table}")
    return base.execute(f"SELECT count(*) FROM fresh{table}").fetchone()[0]


def main():
    base = sqlite3.connect(":memory:", isolation_level=None)
    base.execute("BEGIN")
    load(base, sys.argv[1])
    if not base.execute("SELECT count(*) FROM question").fetchone()[0]:
        return
    for table, columns in (("", "owner, role, who"), ("part", "number, place, who")):
        for kind in ("found", "fresh", "wanted"):
            base.execute(f"CREATE TABLE {kind}{table} ({columns}, PRIMARY KEY ({columns})) WITHOUT ROWID")
    base.execute("CREATE INDEX byparts ON foundpart(number, who)")
    base.execute("INSERT OR IGNORE INTO found SELECT * FROM member")
    base.execute("INSERT INTO fresh SELECT * FROM found")
    base.execute("INSERT OR IGNORE INTO foundpart SELECT * FROM part_entity")
    facts = True
    while facts:
        insert_new(base, "part", "number, place, who", PARTS_FROM_NEW)
        facts = insert_new(base, "", "owner, role, who", FROM_NEW)
    for number, who in base.execute("SELECT DISTINCT q.number, f.who FROM question q JOIN found f ON f.owner = q.owner AND f.role = q.role"):
        print(number, who)


main()
