#!/usr/bin/env python3
"""Measures what a table of an earlier release takes, from the kept cube of the current one.

    past.py PROGRAM FOLDER

PROGRAM is the built program; generated files are written below FOLDER. Chains of batches are kept
in journals, which are played before the first line. A script asks for the current table once, which
makes the cube, and then for one table again and again: many times and few, in turn, and what a
further one takes is the difference. Nothing here fails because of a time: a target that is missed is
printed.
"""
import os
import statistics
import sys
import tempfile
import typing

import bench
import keep
from result_file import rows_written

QUERY = f"table {bench.MARGINS[0]}"
# How many edits a script has at most, so that it isn't too long, and how often the runs are made.
MOST_EDITS, TURNS = 400_000, 5


class Chain(typing.NamedTuple):
    """So many batches, each of so many amends."""

    batches: int
    edits: int


SHORT, WIDE, LONG = Chain(1, 100), Chain(100, 10_000), Chain(10_000, 1)


class Asked(typing.NamedTuple):
    """A line over a chain, and how often it is asked, few times and many."""

    chain: Chain
    line: str
    few: int
    many: int


TABLE = Asked(SHORT, QUERY, 1, 40_000)
CURRENT = Asked(SHORT, f"at 1 {QUERY}", 1, 40_000)
BEHIND = Asked(SHORT, f"at 0 {QUERY}", 1, 4_000)
FAR_BEHIND = Asked(WIDE, f"at 0 {QUERY}", 1, 40)
LONG_CHAIN = Asked(LONG, f"at 10000 {QUERY}", 1, 4_000)
ALL = (TABLE, CURRENT, BEHIND, FAR_BEHIND, LONG_CHAIN)


def make_journal(program, folder, chain):
    """A journal of a chain, by as many runs as its edits need."""
    journal, script = f"{folder}/{chain.batches}.journal", f"{folder}/batches.txt"
    batch = bench.Batch(chain.edits, False)
    at_once = max(1, MOST_EDITS // chain.edits)
    for first in range(0, chain.batches, at_once):
        with open(script, "w", encoding="ascii") as out:
            for number in range(first, min(first + at_once, chain.batches)):
                out.writelines(bench.lines_before(batch, number))
        bench.seconds_of(keep.keep_words(program, folder, journal, script), f"{folder}/made.out")
    return journal


def words_over(program, folder, journals, asked, count):
    """A run that asks so many times."""
    script = f"{folder}/asks-{ALL.index(asked)}-{count}.txt"
    with open(script, "w", encoding="ascii") as out:
        out.write(f"a {QUERY}\n")
        out.writelines([f"a {asked.line}\n"] * count)
    return keep.keep_words(program, folder, journals[asked.chain], script)


def measured(program, folder):
    """What a further line of each kind takes, in seconds, turn by turn."""
    journals = {chain: make_journal(program, folder, chain) for chain in (SHORT, WIDE, LONG)}
    took = {asked: [] for asked in ALL}
    words = {
        (asked, count): words_over(program, folder, journals, asked, count)
        for asked in ALL
        for count in (asked.few, asked.many)
    }
    for _ in range(TURNS):
        for asked, turns in took.items():
            less, more = (
                bench.seconds_of(words[asked, count], f"{folder}/asks.out")
                for count in (asked.few, asked.many)
            )
            if last_release(f"{folder}/asks.out") != release_of(asked):
                sys.exit("bench: a table is of another release than was asked for")
            turns.append((more - less) / (asked.many - asked.few))
    return took


def release_of(asked):
    words = asked.line.split()
    return int(words[1]) if words[0] == "at" else asked.chain.batches


def last_release(path):
    """The release of the last table that a run printed."""
    with open(path, "rb") as file:
        return int(file.read().rsplit(b"release ", 1)[1].split()[0])


def rows(took):
    each = {asked: statistics.median(turns) for asked, turns in took.items()}
    beside = statistics.median(
        a / (1.5 * b + 10e-6) for a, b in zip(took[CURRENT], took[TABLE])
    )
    micro = [f"{each[asked] * 1e6:.1f}" for asked in (CURRENT, TABLE)]
    what = f"`at N` of the current release, {micro[0]} µs, beside a kept table, {micro[1]} µs"
    yield (f"{what}: of 1.5 times that and 10 µs", beside, 1)
    behind, current = each[BEHIND], each[CURRENT]
    yield ("a batch of 100 edits behind: ms more than at the current release", (behind - current) * 1e3, 0.3)
    yield ("100 batches of 10,000 edits behind: ms", each[FAR_BEHIND] * 1e3, 60)
    more = (each[LONG_CHAIN] - current) * 1e3
    yield ("a chain of 10,000 batches: ms more than one of a single batch", more, 0.4)


def main(program, folder):
    program, folder = os.path.abspath(program), os.path.abspath(folder)
    with tempfile.TemporaryDirectory(prefix="tablebuilder-past-", dir=folder) as room:
        bench.make_input(room, bench.LARGE, bench.ASCENDING)
        print(f"{bench.machine()}; {bench.LARGE:,} persons, {bench.MARGINS[0]}\n")
        bench.print_rows(rows(measured(program, room)))


if __name__ == "__main__":
    with rows_written("past"):
        main(*sys.argv[1:])
