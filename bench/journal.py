#!/usr/bin/env python3
"""Measures how long it takes to read a journal back, and prints the row.

    journal.py TESTS

TESTS is the built test program of `tb_journal_tests`. One of its tests puts 10,000 batches of one
edit into a journal on a disk in memory; another does the same, then opens a copy of that file and
reads them back. They are run in turn, and the reading takes what the second takes more, by
processor time, since both are one thread that waits for nothing. Nothing here fails because of a
time: a target that is missed is printed.
"""
import os
import statistics
import subprocess
import sys

import bench
from result_file import rows_written

PUTS, READ_BACK = "batches::ten_thousand_puts", "batches::ten_thousand_batches"
TURNS = 51


def seconds_of(words):
    """Runs once and answers the processor's seconds."""
    with subprocess.Popen(words, stdout=subprocess.DEVNULL) as process:
        _, status, used = os.wait4(process.pid, 0)
        process.returncode = os.waitstatus_to_exitcode(status)
    if process.returncode != 0:
        raise subprocess.CalledProcessError(process.returncode, words)
    return used.ru_utime + used.ru_stime


def main(tests):
    turns = [[seconds_of([tests, name]) * 1e3 for name in (PUTS, READ_BACK)] for _ in range(TURNS)]
    puts, both = map(statistics.median, zip(*turns))
    more = [of_both - of_puts for of_puts, of_both in turns]
    what = "10,000 batches of one edit, read back from a disk in memory"
    times = f"{both:.1f} less {puts:.1f}; {min(more):.1f} to {max(more):.1f} by turn"
    print(f"{bench.machine()}\n")
    bench.print_rows([(f"{what}, ms ({times})", statistics.median(more), 50)])


if __name__ == "__main__":
    with rows_written("journal"):
        main(*sys.argv[1:])
