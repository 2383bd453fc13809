#!/usr/bin/env python3
"""Kills the program at random moments of a script whose publications it keeps in a journal, starts
it again with the rest of them, and compares what it acknowledged with what the journal has.

    crash.py PROGRAM [COUNT [SEED]]

Each of COUNT publications (1,000 where it isn't given) holds edits of its own over examples/small,
so each batch tells which it is. Runs are killed (SIGKILL) a random time after their start, or when
a random number of lines was printed before that, at once or some milliseconds later; the next run
has those publications that the journal lacks. After each kill `clients/journal.py` must read in the
journal the batches that it had at the run's start, those of the `published` lines that were printed
whole, in order, and at most one more, the next; and each line that was printed must be the one that
is due. A reply that waits in a buffer when the program is killed counts as not given. At the end
all batches must be there, and a run that asks for a table must print it at their release.

What was written survives a kill, also where no sync followed: this shows the order of writes and
replies, and nothing of a machine that stops. It ends within two minutes, and with status 1 where
anything was otherwise.
"""
import contextlib
import itertools
import os
import random
import subprocess
import sys
import tempfile
import threading
import time
import typing

sys.dont_write_bytecode = True
HERE = os.path.dirname(os.path.abspath(__file__))
sys.path.insert(0, f"{HERE}/../clients")
import journal
from journal import Add, Amend, Drop, Pvalue, Threshold

SMALL = f"{HERE}/../examples/small"
FILES = [f"{SMALL}/{name}.csv" for name in ("classes", "recodes", "ptable", "people")]
# The new persons' first number; how many persons the largest batches add, and how often they come.
FIRST, MANY, EACH = 1_000, 100, 100
# How long a whole test may take, and when the last run, which isn't killed, begins at the latest.
MOST_SECONDS, LAST_BEGINS, MOST_KILLS = 110, 80, 400
# A run is killed after a time that is drawn, from so many seconds to as many times that; or when it
# has printed as many lines as are drawn, from 1 to so many, or at most so many seconds later. Small
# numbers come as often as large ones: it is their power that is drawn.
SOON, TIMES, MOST_LINES, LATER = 0.001, 1_000, 300, 0.006


class Wrong(Exception):
    """What was otherwise than it must be."""


def batch(number):
    """The edits of a batch, from 0: they can be made after those before, and no batch is twice."""
    person = FIRST + MANY * number
    count = MANY if number % EACH == EACH // 2 else 1
    edits = [Add(person + i, (number + i) % 256, (i % 2, number % 3, i % 2)) for i in range(count)]
    if number % 3 == 1:
        edits.append(Amend(101, ((1, number % 2), (0, number // 2 % 2))))
    if number % 5 == 2:
        edits.append(Pvalue(1 + number % 750, number % 256, number % 7 - 1))
    if number % 7 == 3:
        edits.append(Threshold(number % 4))
    if number % 11 == 10:
        edits.append(Drop(person - MANY))
    return edits


class Ended(typing.NamedTuple):
    """How a run ended: its status, and the lines that it printed whole."""

    status: int
    lines: list


def whole_lines(process, most=sys.maxsize):
    """The next lines that a run prints whole, as many, or fewer if it prints no more."""
    lines = []
    while len(lines) < most:
        line = process.stdout.readline().decode("ascii", "replace")
        if not line.endswith("\n"):
            break
        lines.append(line[:-1])
    return lines


class Test:
    def __init__(self, program, count, seed, folder):
        self.program, self.count, self.random = program, count, random.Random(seed)
        self.began = time.monotonic()
        self.journal, self.script = f"{folder}/journal", f"{folder}/script"
        self.asked = [batch(number) for number in range(count)]
        classes = journal.read_classes(FILES[0])
        # (the first line of each is a comment)
        self.lines = [journal.lines(n, edits, classes)[1:] for n, edits in enumerate(self.asked, 1)]
        self.kept = self.kills = self.doubtful = 0

    def seconds(self, until=MOST_SECONDS):
        """How many seconds are left of so many."""
        return until - (time.monotonic() - self.began)

    def start(self, lines):
        with open(self.script, "w", encoding="ascii") as out:
            out.writelines(f"{line}\n" for line in lines)
        words = [self.program, "keep", *FILES, "0", self.journal, self.script]
        return subprocess.Popen(words, stdout=subprocess.PIPE, stderr=subprocess.PIPE)

    def start_rest(self):
        rest = itertools.chain.from_iterable(self.lines[self.kept :])
        return self.start(f"custodian {line}" for line in rest)

    def wanted(self):
        """The lines that a run over the rest must print."""
        for number in range(self.kept, self.count):
            yield from (f"held {n + 1}" for n in range(len(self.asked[number])))
            yield f"published {number + 1}"

    def acknowledged(self, lines):
        """How many batches a run's lines acknowledge, if they are those that are due."""
        wanted = self.wanted()
        for place, line in enumerate(lines, 1):
            due = next(wanted, "nothing more")
            if line != due:
                raise Wrong(f"line {place} of a run from release {self.kept} on is "
                            f"`{line}`, and `{due}` is due")
        return sum(line.startswith("published ") for line in lines)

    def look(self, acknowledged):
        """Reads the journal, which had `kept` batches before those that were acknowledged since."""
        least, found = self.kept + acknowledged, []
        try:
            for edits in journal.batches(self.journal):
                found.append(edits)
        except FileNotFoundError:
            pass
        except journal.Error as fault:
            raise Wrong(f"after kill {self.kills}: {fault}") from fault
        if len(found) < least:
            raise Wrong(f"after kill {self.kills} the journal has {len(found)} batches, and "
                        f"{least} were acknowledged")
        if len(found) > least + 1:
            raise Wrong(f"after kill {self.kills} the journal has {len(found)} batches, and "
                        f"{least} were acknowledged: only one can have been in the making")
        for number, edits in enumerate(found):
            if number >= self.count or edits != self.asked[number]:
                raise Wrong(f"after kill {self.kills} batch {number + 1} isn't the one asked for")
        self.doubtful += len(found) - least
        self.kept = len(found)

    def kill_one(self):
        """A run over the rest that is killed, unless it ends before."""
        seconds = SOON * TIMES ** self.random.random()
        with self.start_rest() as process, self.killed_after(seconds, process):
            lines = whole_lines(process, round(MOST_LINES ** self.random.random()))
            # (at once: a reply that comes too early is then without its batch)
            time.sleep(self.random.choice((0, self.random.uniform(0, LATER))))
            process.kill()
            lines += whole_lines(process)
            told = process.stderr.read()
        self.kills += process.returncode == -9
        if process.returncode not in (-9, 0):
            raise Wrong(f"a run ended with status {process.returncode}: {lines[-1:]} {told!r}")
        self.look(self.acknowledged(lines))

    def finish(self):
        """A run over the rest, and one that asks for a table, to their ends."""
        with self.start_rest() as process:
            ended = self.ended(process)
        self.look(self.acknowledged(ended.lines))
        if ended.status != 0 or self.kept != self.count:
            raise Wrong(f"the last run ended with status {ended.status}, at batch {self.kept}")
        with self.start(["a table SEX"]) as process:
            ended = self.ended(process)
        if ended.status != 0 or ended.lines[:2] != [f"release {self.count}", "SEX,count"]:
            raise Wrong(f"the table at the end: status {ended.status}, {ended.lines}")
        if self.kills == 0:
            raise Wrong("no run was killed: more publications may be needed")

    def ended(self, process):
        with self.killed_after(MOST_SECONDS, process):
            lines = whole_lines(process)
            process.wait()
        if self.seconds() <= 0:
            raise Wrong(f"the last run had not ended after {MOST_SECONDS} seconds")
        return Ended(process.returncode, lines)

    @contextlib.contextmanager
    def killed_after(self, seconds, process):
        """Kills a run that goes on after so many seconds, or when the whole time is over."""
        timer = threading.Timer(max(min(seconds, self.seconds()), 0), process.kill)
        timer.start()
        try:
            yield
        finally:
            timer.cancel()

    def run(self):
        while self.kept < self.count and self.kills < MOST_KILLS and self.seconds(LAST_BEGINS) > 0:
            self.kill_one()
        self.finish()


def main(program, count="1000", seed=None):
    seed = seed or str(random.randrange(1 << 32))
    with tempfile.TemporaryDirectory() as folder:
        test = Test(os.path.abspath(program), int(count), seed, folder)
        try:
            test.run()
        except Wrong as fault:
            print(f"{fault} (seed {seed})")
            return 1
        finally:
            print(f"{test.kept} of {test.count} publications, {test.kills} kills, after "
                  f"{test.doubtful} of which a batch was there that wasn't acknowledged")
    return 0


if __name__ == "__main__":
    sys.exit(main(*sys.argv[1:]))
