#!/usr/bin/env python3
"""Measures what a leader's messages take beside the same batches of a script, and prints the
ratios.

    follow.py PROGRAM FOLDER

PROGRAM is the built program; generated files are written below FOLDER. Scripts are run with many
messages and with few, in turn, and what a further one takes is the difference. Both commands must
print the same last table. Nothing here fails because of a time: a target that is missed is printed.
"""
import os
import statistics
import sys
import tempfile

import bench
from result_file import rows_written

# How many messages of one amend come in order, beside as many batches of a script; and how many
# come so that all wait for the first, which comes last, in how many rounds.
IN_ORDER, WAITING, ROUNDS = 8_000, 64, 125
TURNS = 7
# What a message may take beside a `publish`, and one that waited beside one in order.
MOST_MESSAGE, MOST_WAITED = 1.2, 1.1
TABLE = "a table SEX\n"


def message(number):
    """A message of one amend, as the leader's lines."""
    change = bench.edit(bench.ONE_CHANGE, number - 1)
    return [f"leader begin {number}\n", f"leader {change}\n", "leader end\n"]


def batch(number):
    """The same batch, as the custodian's lines."""
    return list(bench.lines_before(bench.ONE_CHANGE, number - 1))


def in_order(count):
    return range(1, count + 1)


def first_comes_last(count):
    """So many numbers in rounds, in each of which the first comes last."""
    for start in range(1, count + 1, WAITING):
        yield from range(start + 1, start + WAITING)
        yield start


def write_script(path, lines_of, numbers):
    with open(path, "w", encoding="ascii") as out:
        for number in numbers:
            out.writelines(lines_of(number))
        out.write(TABLE)


def last_table(path):
    """The last table that a run printed, with its release."""
    with open(path, "rb") as file:
        return file.read().rsplit(b"release ", 1)[1]


def further(program, folder, ways, few, many):
    """What each message or batch after the first few takes by each of some ways, turn by turn."""
    words, took = {}, {name: [] for name in ways}
    for name, (command, lines_of, order) in ways.items():
        for count in (few, many):
            script = f"{folder}/{name}-{count}.txt"
            write_script(script, lines_of, order(count))
            words[name, count] = bench.words_of(program, folder, script, command)
    for _ in range(TURNS):
        for name, turns in took.items():
            less, more = (bench.seconds_of(words[name, n], f"{folder}/{name}.out") for n in (few, many))
            turns.append((more - less) / (many - few))
        tables = {last_table(f"{folder}/{name}.out") for name in took}
        if len(tables) != 1:
            sys.exit("bench: the last tables differ")
    return took


def ratios(program, folder):
    ways = {
        "messages": ("follow", message, in_order),
        "batches": ("script", batch, in_order),
    }
    took = further(program, folder, ways, 1, IN_ORDER)
    yield row("a message of one amend, in order, beside a `publish` by `script`", took, MOST_MESSAGE)
    ways = {
        "waited": ("follow", message, first_comes_last),
        "in_order": ("follow", message, in_order),
    }
    took = further(program, folder, ways, WAITING, ROUNDS * WAITING)
    yield row(f"{WAITING} messages of which the first comes last, beside as many in order", took, MOST_WAITED)


def row(what, took, most):
    """A row of the first of two ways beside the second."""
    ours, other = took.values()
    times = " beside ".join(f"{statistics.median(turns) * 1e3:.3f}" for turns in (ours, other))
    return (f"{what}, {times} ms each", bench.median_ratio(ours, other), most)


def main(program, folder):
    program, folder = os.path.abspath(program), os.path.abspath(folder)
    with tempfile.TemporaryDirectory(prefix="tablebuilder-follow-", dir=folder) as room:
        bench.make_input(room, bench.LARGE, bench.ASCENDING)
        print(f"{bench.machine()}; {bench.LARGE:,} persons\n")
        bench.print_rows(ratios(program, room))


if __name__ == "__main__":
    with rows_written("follow"):
        main(*sys.argv[1:])
