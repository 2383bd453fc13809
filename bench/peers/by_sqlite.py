"""One table by SQLite in memory: `group by`, and a join with the perturbation table.

    by_sqlite.py FOLDER THRESHOLD OUT

Prints the seconds of loading, of the table from the persons, and of the table from counts that are kept.
"""
import csv
import sqlite3
import sys
import time

from queries import COUNTS, FILES, KEPT_TABLE, TABLE


def load(folder):
    database = sqlite3.connect(":memory:")
    for name, columns in FILES.items():
        database.execute(f"create table {name} ({', '.join(map(' '.join, columns))})")
        with open(f"{folder}/{name}.csv", encoding="ascii", newline="") as file:
            rows = csv.reader(file)
            next(rows)
            marks = ", ".join("?" * len(columns))
            database.executemany(f"insert into {name} values ({marks})", rows)
    database.execute("create index pairs on ptable (pcv, ckey)")
    return database


def text_of(database, query, threshold):
    lines = (f"{area},{sex},{shown}\n" for area, sex, shown in database.execute(query, [threshold]))
    return "AREA,SEX,count\n" + "".join(lines)


def main(folder, threshold, out):
    began = time.perf_counter()
    database = load(folder)
    loaded = time.perf_counter()
    text = text_of(database, TABLE.format(threshold="?"), int(threshold))
    cold = time.perf_counter()
    database.execute(f"create table counts as {COUNTS}")
    made = time.perf_counter()
    again = text_of(database, KEPT_TABLE.format(threshold="?"), int(threshold))
    kept = time.perf_counter()
    if again != text:
        sys.exit("another table")
    with open(out, "w", encoding="ascii") as file:
        file.write(text)
    print(loaded - began, cold - loaded, kept - made)


if __name__ == "__main__":
    main(*sys.argv[1:])
