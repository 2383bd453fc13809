#!/usr/bin/env python3
"""Measures the same load, cold table and kept table beside pandas, R's data.table, SQLite and PostgreSQL.

    peers.py PROGRAM [PERSONS]

A million persons where none are named, AREA by SEX with totals, perturbed by the same table. What each
peer does is a file of `peers/`. 'Cold' is a table from the persons, 'kept' one from counts and key sums
that are kept. Each peer's table is compared with ours, cell by cell; what a peer lacks on this machine is
said, and the others go on. With Debian: apt-get install postgresql sqlite3 r-cran-data.table python3-pandas
"""
import os
import shutil
import statistics
import subprocess
import sys
import tempfile
import typing

# So that nothing is written beside the files of the bench.
sys.dont_write_bytecode = True
from bench import ASCENDING, HERE, LARGE, THRESHOLD, machine, make_input, seconds_of, words_of
from result_file import rows_written

QUERY = "table AREA by SEX with totals"
RUNS, COLD, KEPT = 3, 400, 10_000
PYTHON = "/usr/bin/python3"


class Peer(typing.NamedTuple):
    """Its name, the words that run it, and those that say whether it is there."""

    name: str
    words: list
    is_there: list


PEERS = [
    Peer("pandas", [PYTHON, "by_pandas.py"], [PYTHON, "-c", "import pandas"]),
    Peer("data.table", ["Rscript", "by_data_table.R"], ["Rscript", "-e", "library(data.table)"]),
    Peer("SQLite", [PYTHON, "by_sqlite.py"], [PYTHON, "-c", "import sqlite3"]),
    Peer(
        "PostgreSQL",
        [PYTHON, "by_postgresql.py"],
        [PYTHON, "-c", "import glob, sys; sys.exit(not glob.glob('/usr/lib/postgresql/*/bin/initdb'))"],
    ),
]


def is_there(peer):
    if shutil.which(peer.words[0]) is None:
        return False
    return subprocess.run(peer.is_there, capture_output=True).returncode == 0


def seconds_by(peer, folder):
    """The seconds of its loading, cold table and kept table."""
    words = [peer.words[0], "-B"] if peer.words[0] == PYTHON else peer.words[:1]
    words += [f"{HERE}/peers/{peer.words[1]}", folder, str(THRESHOLD), f"{folder}/{peer.name}.out"]
    told = subprocess.run(words, check=True, stdout=subprocess.PIPE, text=True).stdout
    return [float(word) for word in told.split()]


def script(folder, name, lines):
    with open(f"{folder}/{name}.txt", "w", encoding="ascii") as out:
        out.writelines(lines)
    return f"{folder}/{name}.txt"


def ours(program, folder):
    """The same of this program: what many tables take beyond one."""
    one = script(folder, "one", [f"a {QUERY}\n"])
    cold = script(folder, "cold", ["custodian clear\n", f"a {QUERY}\n"] * COLD)
    kept = script(folder, "kept", [f"a {QUERY}\n"] * KEPT)
    loading, many, again = (
        seconds_of(words_of(program, folder, path), f"{path}.out") for path in (one, cold, kept)
    )
    return [loading, (many - loading) / (COLD - 1), (again - loading) / (KEPT - 1)]


def table_of(path):
    """A reply's lines between its release and its dot."""
    with open(path, encoding="ascii") as file:
        return file.read().splitlines()[1:-1]


def compare(peer, folder):
    with open(f"{folder}/{peer.name}.out", encoding="ascii") as file:
        theirs = file.read().splitlines()
    own = table_of(f"{folder}/one.txt.out")
    for place, (mine, other) in enumerate(zip(own, theirs)):
        if mine != other:
            sys.exit(f"bench: {peer.name}: line {place + 1}: `{other}`, and ours `{mine}`")
    if len(own) != len(theirs):
        sys.exit(f"bench: {peer.name}: {len(theirs)} lines, and ours {len(own)}")


def print_rows(seen):
    print("| | Loading, s | Cold table, ms | Kept table, ms |")
    print("|---|---|---|---|")
    for name, runs in seen.items():
        loading, cold, kept = (statistics.median(each) for each in zip(*runs))
        print(f"| {name} | {loading:.2f} | {cold * 1e3:.2f} | {kept * 1e3:.3f} |")


def main(program, persons=LARGE):
    there = [peer for peer in PEERS if is_there(peer)]
    for peer in PEERS:
        if peer not in there:
            print(f"bench: no {peer.name} on this machine", file=sys.stderr)
    seen = {"this program": []} | {peer.name: [] for peer in there}
    with tempfile.TemporaryDirectory(prefix="tablebuilder-bench-") as folder:
        # (a server of another user reads the files, too)
        os.chmod(folder, 0o755)
        make_input(folder, int(persons), ASCENDING)
        for _ in range(RUNS):
            seen["this program"].append(ours(os.path.abspath(program), folder))
            for peer in there:
                seen[peer.name].append(seconds_by(peer, folder))
                compare(peer, folder)
    print(f"{machine()}; {int(persons):,} persons, `{QUERY}`; every cell equal\n")
    print_rows(seen)


if __name__ == "__main__":
    with rows_written("peers"):
        main(*sys.argv[1:])
