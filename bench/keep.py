#!/usr/bin/env python3
"""Measures what a script with a journal takes beside the same script without one, and prints the
ratios.

    keep.py PROGRAM SYNCS FOLDER

PROGRAM is the built program. SYNCS is `bench/syncs.c`, built: it stands before the system's `fsync`
and tells how often a run called it, and how long that took. FOLDER is on the disk that is measured.
Scripts and journals are run with many batches and with one, in turn, and what a further batch takes
is the difference. Both must print the same, and a journal must lead to its script's release. Nothing
here fails because of a time: a target that is missed is printed.
"""
import filecmp
import os
import statistics
import struct
import subprocess
import sys
import tempfile
import time
import typing

import bench
from result_file import rows_written

# How many batches of one amend a script publishes, and how many of 100 a journal has that is played.
PUBLISHED, PLAYED = 500, 1_000
PUBLISHING_TURNS, PLAYING_TURNS = 7, 5
# What a publication may take beside its syncs, in publications by `script`, and how many syncs.
MOST_PUBLICATIONS, MOST_SYNCS = 2.2, 2
STATS = "custodian stats\n"
# Two numbers, as the library tells them.
TOLD = struct.Struct("=QQ")


class Cost(typing.NamedTuple):
    """What a run took: seconds in all, how many syncs, and the seconds of these."""

    seconds: float
    syncs: float
    syncing: float

    def further(self, one, count):
        """What each batch after the first took, of so many, beside a run of one."""
        return Cost(*((a - b) / (count - 1) for a, b in zip(self, one)))


def write_script(path, batch, count):
    """So many batches, and a line that tells the release."""
    with open(path, "w", encoding="ascii") as out:
        for number in range(count):
            out.writelines(bench.lines_before(batch, number))
        out.write(STATS)


def keep_words(program, folder, journal, script):
    return [program, "keep", *bench.input_words(folder), journal, script]


def remove(path):
    if os.path.exists(path):
        os.remove(path)


def cost_of(words, library, folder, output):
    """Runs once, with the output into a file, and answers what that took."""
    path = f"{folder}/told"
    with open(path, "wb") as out:
        out.write(bytes(TOLD.size))
    environment = {**os.environ, "LD_PRELOAD": library, "SYNCS": path}
    with open(output, "wb") as out:
        before = time.perf_counter()
        subprocess.run(words, stdout=out, env=environment, check=True)
        seconds = time.perf_counter() - before
    with open(path, "rb") as told:
        syncs, nanoseconds = TOLD.unpack(told.read())
    return Cost(seconds, syncs, nanoseconds / 1e9)


def published(program, library, folder):
    """What each publication of one amend after the first takes by `keep`, and by `script`, turn by
    turn."""
    journal = f"{folder}/journal"
    scripts = {count: f"{folder}/publications-{count}.txt" for count in (1, PUBLISHED)}
    for count, script in scripts.items():
        write_script(script, bench.ONE_CHANGE, count)
    kept, scripted = [], []
    for _ in range(PUBLISHING_TURNS):
        costs = {}
        for count, script in scripts.items():
            words = {
                "keep": keep_words(program, folder, journal, script),
                "script": bench.words_of(program, folder, script),
            }
            for command, each in words.items():
                remove(journal)
                output = f"{folder}/{command}.out"
                costs[command, count] = cost_of(each, library, folder, output)
        if not filecmp.cmp(f"{folder}/keep.out", f"{folder}/script.out", shallow=False):
            sys.exit("bench: a script with a journal prints otherwise")
        for command, turns in (("keep", kept), ("script", scripted)):
            turns.append(costs[command, PUBLISHED].further(costs[command, 1], PUBLISHED))
    return kept, scripted


def publications(program, library, folder):
    """What a publication of one amend takes, and its syncs, beside one by `script`."""
    kept, scripted = published(program, library, folder)
    if not all(it.syncs > 0 for it in kept):
        sys.exit("bench: no sync of the program was seen")
    yield ("a `publish` of one amend by `keep`: syncs", median(kept, lambda it: it.syncs), MOST_SYNCS)
    what = f"one sync on {file_system_of(folder)}, ms"
    yield (what, median(kept, lambda it: it.syncing / it.syncs) * 1e3, None)
    yield ("the `publish` in all, ms", median(kept, lambda it: it.seconds) * 1e3, None)
    beside = [it.seconds - it.syncing for it in kept]
    plain = [it.seconds for it in scripted]
    times = " beside ".join(f"{statistics.median(it) * 1e3:.3f}" for it in (beside, plain))
    what = f"the same without its syncs beside a `publish` by `script`, {times} ms"
    yield (what, bench.median_ratio(beside, plain), MOST_PUBLICATIONS)


def median(turns, of):
    return statistics.median(of(turn) for turn in turns)


def make_journals(program, folder):
    """The runs that play a journal of one batch and of many, and those of a script of the same; all
    end by a line that tells the release."""
    words = {}
    look = f"{folder}/look.txt"
    write_script(look, bench.HUNDRED, 0)
    for count in (1, PLAYED):
        script, journal = f"{folder}/batches-{count}.txt", f"{folder}/journal-{count}"
        write_script(script, bench.HUNDRED, count)
        bench.seconds_of(keep_words(program, folder, journal, script), f"{folder}/made.out")
        words["keep", count] = keep_words(program, folder, journal, look)
        words["script", count] = bench.words_of(program, folder, script)
    return words


def last_line(path):
    with open(path, "rb") as file:
        return file.read().splitlines()[-1]


def playing(program, folder):
    """What playing a batch of 100 edits takes beside the same batch of a script, and what is held."""
    words = make_journals(program, folder)
    further = {"keep": [], "script": []}
    for _ in range(PLAYING_TURNS):
        seconds = {}
        for (command, count), each in words.items():
            seconds[command, count] = bench.seconds_of(each, f"{folder}/{command}.out")
        if last_line(f"{folder}/keep.out") != last_line(f"{folder}/script.out"):
            sys.exit("bench: a journal leads to another release than its script")
        for command, turns in further.items():
            more = seconds[command, PLAYED] - seconds[command, 1]
            turns.append(more / (PLAYED - 1))
    times = " beside ".join(f"{statistics.median(it) * 1e3:.3f}" for it in further.values())
    what = f"{PLAYED:,} batches of 100 edits, played from a journal beside those of a script"
    yield (f"{what}, {times} ms each", bench.median_ratio(further["keep"], further["script"]), 1.3)
    for command, name in (("keep", "playing them"), ("script", "the script of them")):
        few, many = (bench.peak_of(words[command, count]) for count in (1, PLAYED))
        yield (f"{name}: MiB held above one batch", (many - few) / bench.MIB, None)


def file_system_of(folder):
    told = subprocess.run(["stat", "-f", "-c", "%T", folder], capture_output=True, check=False)
    return told.stdout.decode().strip() or "a disk"


def main(program, library, folder):
    program, library, folder = map(os.path.abspath, (program, library, folder))
    with tempfile.TemporaryDirectory(prefix="tablebuilder-keep-", dir=folder) as room:
        bench.make_input(room, bench.SMALL, bench.ASCENDING)
        print(f"{bench.machine()}; {bench.SMALL:,} persons\n")
        bench.print_rows([*publications(program, library, room), *playing(program, room)])


if __name__ == "__main__":
    with rows_written("keep"):
        main(*sys.argv[1:])
