#!/usr/bin/env python3
"""Measures what pvalues and thresholds that are set by publication cost, and prints the ratios.

    rules.py PROGRAM COPY

PROGRAM is the built program. COPY is `bench/copy.rs`, built: it prints how many nanoseconds std
takes to copy a map of as many pairs. Each row compares two scripts over the same input that are run
in turn: at a release where a pvalue is set at every row and cell key, and at one where none is. Of
both each is run with many lines and with one, and what a further one takes is the difference.
Nothing here fails because of a time: a target that is missed is printed.
"""
import statistics
import subprocess
import sys
import tempfile

import bench
from result_file import rows_written

ROWS, KEYS, MOST_EDITS = 750, 256, 10_000
PAIRS = ROWS * KEYS
PLACES = 200
TURNS = 11
AMEND, THRESHOLD, TABLE = "amend", "threshold", "table"
COUNTS = {AMEND: 1_000, THRESHOLD: 100, TABLE: 20_000}


def pvalue_lines():
    """A pvalue for each row and cell key, in batches."""
    for place in range(PAIRS):
        row, key = place // KEYS + 1, place % KEYS
        yield f"custodian pvalue {row} {key} {max((7 * row + key) % 5 - 2, -row)}\n"
        if (place + 1) % MOST_EDITS == 0 or place + 1 == PAIRS:
            yield "custodian publish\n"


def lines_of(kind, number):
    if kind == TABLE:
        return "a table AREA by SEX\n"
    of_rules = f"threshold {bench.THRESHOLD + number % 2}"
    edit = of_rules if kind == THRESHOLD else bench.edit(bench.ONE_CHANGE, number)
    return f"custodian {edit}\ncustodian publish\n"


def words_of(program, folder, kind, is_set, count):
    script = f"{folder}/{kind}-{is_set}-{count}.txt"
    with open(script, "w", encoding="ascii") as out:
        # A batch before all, so that the first draft's key book is no part of what is compared.
        out.write("custodian amend 1 TENURE=1\ncustodian publish\n")
        out.writelines(pvalue_lines() if is_set else ())
        out.writelines(lines_of(kind, number) for number in range(count))
    return bench.words_of(program, folder, script)


def further(program, folder, kind):
    """What a further one takes without set pvalues and with them, run by run, in seconds."""
    count = COUNTS[kind]
    cases = [(is_set, n) for is_set in (False, True) for n in (1, count)]
    words = {case: words_of(program, folder, kind, *case) for case in cases}
    seconds = {False: [], True: []}
    for _ in range(TURNS):
        once = {key: bench.seconds_of(each, f"{folder}/rules.out") for key, each in words.items()}
        for is_set, all_runs in seconds.items():
            all_runs.append((once[is_set, count] - once[is_set, 1]) / (count - 1))
    return seconds[False], seconds[True]


def rows(program, copy, folder):
    amend, amend_set = further(program, folder, AMEND)
    threshold, threshold_set = further(program, folder, THRESHOLD)
    table, table_set = further(program, folder, TABLE)
    copied = float(subprocess.run([copy, str(PAIRS)], capture_output=True, check=True).stdout)
    times = f"{micro(amend_set)} beside {micro(amend)} microseconds"
    what = f"a batch of one amend with {PAIRS:,} set pvalues beside none, {times}"
    yield (what, bench.median_ratio(amend_set, amend), 1)
    times = f"{micro(threshold)} beside {micro(amend)} microseconds"
    what = f"a batch of one threshold beside one of an amend, {times}"
    yield (what, bench.median_ratio(threshold, amend), 1)
    times = f"{micro(threshold_set)} beside {copied / 1e3:.1f} microseconds"
    what = f"the same with {PAIRS:,} set pvalues beside std's copy of them, {times}"
    yield (what, statistics.median(threshold_set) / copied * 1e9, None)
    more = [(b - a) / PLACES * 1e6 for a, b in zip(table, table_set)]
    what = f"a place of a kept AREA by SEX, microseconds more with {PAIRS:,} set pvalues"
    yield (what, statistics.median(more), 0.15)
    words = [words_of(program, folder, TABLE, is_set, 1) for is_set in (False, True)]
    none, all_set = map(bench.peak_of, words)
    yield ("bytes held for a set pvalue", (all_set - none) / PAIRS, None)


def micro(seconds):
    return f"{statistics.median(seconds) * 1e6:.1f}"


def main(program, copy):
    with tempfile.TemporaryDirectory(prefix="tablebuilder-rules-") as folder:
        bench.make_input(folder, bench.SMALL, bench.ASCENDING)
        print(f"{bench.machine()}\n")
        bench.print_rows(list(rows(program, copy, folder)))


if __name__ == "__main__":
    with rows_written("rules"):
        main(*sys.argv[1:])
