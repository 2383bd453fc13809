#!/usr/bin/env python3
"""Measures the program beside the plain one and prints tables of medians, spreads and ratios.

    bench.py PROGRAM BASELINE [EARLIER]

Both run over the same generated input, in turn, and their outputs must be equal byte by byte. Where
the program counts by threads it also runs on one processor alone, and the plain one also with
threads of its own; with EARLIER, an earlier program runs on one processor beside this one. A ratio
is the median of the ratios of runs that followed each other, so that what slows the machine for a
while slows both sides of it. What a further table takes is what a script of many tables takes
beyond a script of one. A table is cold where the custodian clears what is kept before it; else the
program may find its cube, and the plain one its array, at hand. Lanes in threads are measured where
the program has them, beside the same lines in a script. Nothing here fails because of a time: a
target that is missed is printed.
"""
import filecmp
import itertools
import math
import os
import platform
import shutil
import statistics
import subprocess
import sys
import tempfile
import time
import typing

from result_file import rows_written

HERE = os.path.dirname(os.path.abspath(__file__))
START = 1
THRESHOLD = 10
NONE, SMALL, LARGE = 0, 20_000, 1_000_000
ONE_DIMENSION = ("AREA", "AGE", "SEX", "TENURE")
TWO_DIMENSIONS = ("AREA by SEX", "AGE by TENURE", "AREA by AGE")
MARGINS = ("AREA by SEX with totals",)
FILTERED = ("AGE by TENURE where SEX in (1)",)
LARGEST = ("AREA by AGE",)
RECODED = ("AGE10 by TENURE with totals with labels",)
REFUSED = ("NOSUCH",)
# A table of few places from the cube of all four variables.
OF_FOUR = ("AREA by SEX where AGE in (20) and TENURE in (1)",)
# A table for each set of the variables.
NAMES = ("AREA", "AGE", "SEX", "TENURE")
SETS = [names for n in range(1, 5) for names in itertools.combinations(NAMES, n)]


def query_over(names):
    codes = {"AREA": "a0", "AGE": "0"}
    filters = " and ".join(f"{name} in ({codes.get(name, '1')})" for name in names[1:])
    return names[0] + (f" where {filters}" if filters else "")


ALL_SETS = tuple(query_over(names) for names in SETS)
# Ten tables over some of the four variables, and one over three.
TEN_SUBSETS = ALL_SETS[:10]
OF_THREE = "AREA by AGE by SEX"


class Batch(typing.NamedTuple):
    """Before each table, if there is one, a batch of so many edits."""

    edits: int
    mixed: bool


# Persons are amended, dropped and added in turn; or they are amended alone.
MIXED_ONE, MIXED_MANY = Batch(1, True), Batch(10_000, True)
ONE_CHANGE, HUNDRED, MANY_CHANGES = Batch(1, False), Batch(100, False), Batch(10_000, False)
# How many batches a script has whose tables come from a cube that is behind.
BATCHES = 40
COLD, KEPT = "cold", "kept"
ASCENDING, SHUFFLED = "ascending", "shuffled"
# Persons, the queries in turn, what comes before each, and how many there are: one, and for a
# further one many.
ONE = 1
PAIRS = [
    (SMALL, ONE_DIMENSION, COLD, 1_000),
    (LARGE, ONE_DIMENSION, COLD, 1_000),
    (LARGE, TWO_DIMENSIONS, COLD, 400),
    # Where threads count, a table takes so little beside what loading differs by that many are run.
    (LARGE, MARGINS, COLD, 1_000),
    (LARGE, FILTERED, COLD, 100),
    (LARGE, LARGEST, COLD, 1_000),
    (LARGE, RECODED, COLD, 100),
    (LARGE, MARGINS, KEPT, 10_000),
    (LARGE, LARGEST, KEPT, 10_000),
    (LARGE, OF_FOUR, KEPT, 10_000),
    (LARGE, ALL_SETS, KEPT, len(ALL_SETS)),
    (LARGE, (), MIXED_ONE, 11),
    (LARGE, (), MIXED_MANY, 11),
    *((SMALL, OF_FOUR, batch, BATCHES) for batch in (ONE_CHANGE, HUNDRED, MANY_CHANGES)),
    (NONE, ("AGE",), KEPT, 20_000),
    (NONE, LARGEST, KEPT, 400),
    (NONE, REFUSED, KEPT, 400_000),
]


class Publishing(typing.NamedTuple):
    """Batches of amends that are published one after another, with no table between them: how many
    amends each has and whose, how many batches there are, and the most that each may take, in
    thousandths of what the plain program takes for one."""

    whose: str
    person: typing.Callable[[int], int]
    amends: int
    batches: int
    most: float


# When a release was one list, a batch of one edit took 0.34 of the plain program's time and one of
# 10,000 took 0.36; with pages a batch is to take a hundredth of the first, and of the second 0.3
# where the persons follow each other and 1.2 where they are scattered over all pages.
FOLLOWING, SCATTERED = "persons that follow each other", "persons scattered over all pages"
PUBLISHINGS = [
    Publishing(FOLLOWING, lambda place: place + 1, 1, 1_000, 10 * 0.34),
    Publishing(SCATTERED, lambda place: place * 7_919 % LARGE + 1, 1, 1_000, 10 * 0.34),
    Publishing(FOLLOWING, lambda place: place + 1, 10_000, 11, 300 * 0.36),
    Publishing(SCATTERED, lambda place: place * 7_919 % LARGE + 1, 10_000, 11, 1_200 * 0.36),
]
# How many batches the plain program publishes, and the most MiB that many batches may hold above
# one.
PLAIN_BATCHES, MOST_HELD = 5, 4
# How often each case is run, and the one that shows how long loading takes.
RUNS, LOADING_RUNS, LONG_RUNS = 5, 15, 3
# How often a script of batches with tables and the same without them are run in turn, and the
# variables of five categories, each of which makes another cube of as many cells.
TURNS = 31
FIVES = ("TENURE", "SECOND", "THIRD", "FOURTH")
ALL_FIVES = (*FIVES, "FIFTH", "SIXTH", "SEVENTH")
# Sets of ten variables whose cubes have more than four cells a person, as many as are kept.
SPARSE = [
    *(("AREA", "AGE", *two) for two in itertools.combinations(ALL_FIVES, 2)),
    *(("AREA", "AGE", "SEX", *two) for two in itertools.combinations(ALL_FIVES, 2)),
    *(("AGE", "SEX", *four) for four in itertools.combinations(ALL_FIVES, 4)),
][:64]
CATEGORIES = {"AREA": 100, "AGE": 101, "SEX": 2} | {name: 5 for name in ALL_FIVES}
# How often what comes from a wider cube is asked in a script, and such scripts are run in turn.
ROUNDS, WIDER_TURNS = 50, 11
PROGRAM, PLAIN = "program", "baseline"
# The program, and an earlier one, on one processor; and the plain one with threads.
ALONE, EARLIER, THREADS = "program-alone", "earlier-alone", "baseline-threads"
# The queries whose cold tables are counted by threads, with the most that they may take of one
# processor's time, and the most that one processor may take beside the earlier program.
BY_THREADS = {MARGINS: 0.5, LARGEST: 0.6}
BESIDE_EARLIER = 1.03
FEWEST_PROCESSORS = 4
# The most that a script of one table may take of the plain program's time, so mostly the loading of
# a million persons: on at least so many processors, on one, and of persons in another order; and the
# most MiB that it may hold.
LOADING, LOADING_ALONE, LOADING_SHUFFLED, LOADED = 0.25, 0.43, 0.45, 60
# Lanes, the tables of each, and the most of a script's time that they may take.
LANES, TABLES_A_LANE, LANES_BESIDE_SCRIPT = 4, 10_000, 0.45
MIB = 1024 * 1024
# The status of arguments that are none of the program's.
USAGE = 2


def processors():
    return os.cpu_count() or 1


class Case:
    """An input and a script of so many tables or batches: what each program took over it, run by
    run, and held at its peak."""

    def __init__(self, persons, order, queries, before, count):
        self.persons, self.order, self.queries = persons, order, queries
        self.before, self.count = before, count
        # The plain program refuses no query.
        self.whos = [PROGRAM] if queries == REFUSED else [PROGRAM, PLAIN]
        if persons == LARGE and before == COLD and queries in BY_THREADS:
            self.whos += [ALONE, EARLIER, THREADS]
        is_loading = count == ONE and persons == LARGE and queries == ONE_DIMENSION
        if is_loading:
            self.whos.append(ALONE)
        is_long = queries == LARGEST and before == KEPT and persons == LARGE and count > ONE
        self.runs = LOADING_RUNS if is_loading else LONG_RUNS if is_long else RUNS
        self.seconds = {who: [] for who in self.whos}
        self.peak = {who: 0 for who in self.whos}

    def median(self, who):
        return statistics.median(self.seconds[who])

    def ratio(self, ours=PROGRAM, other=PLAIN):
        return median_ratio(self.seconds[ours], self.seconds[other])

    def name(self):
        groups = {ONE_DIMENSION: "one dimension", TWO_DIMENSIONS: "two dimensions"}
        groups |= {ALL_SETS: "each set of variables"}
        query = groups.get(self.queries, "".join(self.queries[:1]))
        if isinstance(self.before, Batch):
            kind = "edit" if self.before.mixed else "amend"
            plural = "s" * (self.before.edits > 1)
            batch = f"a batch of {self.before.edits:,} {kind}{plural}"
            return f"{batch}, then {query}" if query else batch
        return f"{query}, {self.before}"


def median_ratio(ours, plain):
    return statistics.median(a / b for a, b in zip(ours, plain))


def make_input(folder, persons, order):
    words = [folder, str(START), str(persons)] + ["shuffled"] * (order == SHUFFLED)
    subprocess.run([sys.executable, f"{HERE}/generate.py", *words], check=True)


def edit(batch, place):
    if not batch.mixed:
        return f"amend {place % SMALL + 1} TENURE={place % 5 + 1}"
    kinds = [
        f"amend {place + 1} TENURE=1",
        f"drop {place + 1}",
        f"add {2 * LARGE + place} 7 AREA=a0 AGE=0 SEX=1 TENURE=1",
    ]
    return kinds[place % len(kinds)]


def lines_before(before, number):
    if isinstance(before, Batch):
        for place in range(number * before.edits, (number + 1) * before.edits):
            yield f"custodian {edit(before, place)}\n"
        yield "custodian publish\n"
    elif before == COLD:
        yield "custodian clear\n"


def script_lines(case):
    for number in range(case.count):
        yield from lines_before(case.before, number)
        if case.queries:
            yield f"a table {case.queries[number % len(case.queries)]}\n"


def make_script(path, case):
    with open(path, "w", encoding="ascii") as out:
        out.writelines(script_lines(case))


def input_words(folder):
    """The files and the threshold, as a command takes them."""
    files = [f"{folder}/{name}.csv" for name in ("classes", "recodes", "ptable", "people")]
    return [*files, str(THRESHOLD)]


def words_of(program, folder, script, command="script"):
    return [program, command, *input_words(folder), script]


def words_by(programs, who, folder, script):
    """How a program runs over a script, as one of those that are compared."""
    if who == THREADS:
        return words_of(programs[PLAIN], folder, script, "threads")
    if who in (ALONE, EARLIER):
        program = programs[PROGRAM if who == ALONE else EARLIER]
        return ["taskset", "-c", "0", *words_of(program, folder, script)]
    return words_of(programs[who], folder, script)


def seconds_of(words, path):
    """Runs once, with the output into a file, and answers the seconds that passed."""
    with open(path, "wb") as out:
        before = time.perf_counter()
        subprocess.run(words, stdout=out, check=True)
        return time.perf_counter() - before


def peak_so_far(pid):
    """The most bytes that a process has held; 0 where the system tells none any more."""
    with open(f"/proc/{pid}/status", encoding="ascii") as status:
        told = [line.split()[1] for line in status if line.startswith("VmHWM")]
    return max((int(kib) * 1024 for kib in told), default=0)


def peak_of(words):
    """Runs once more and answers the most bytes that the process held, as the system last told."""
    peak = 0
    with subprocess.Popen(words, stdout=subprocess.DEVNULL) as child:
        while child.poll() is None:
            peak = max(peak, peak_so_far(child.pid))
    return peak


def measure(case, programs, folder):
    script = f"{folder}/script.txt"
    make_script(script, case)
    case.whos = [who for who in case.whos if who != EARLIER or EARLIER in programs]
    words = {who: words_by(programs, who, folder, script) for who in case.whos}
    for _ in range(case.runs):
        for who in case.whos:
            case.seconds[who].append(seconds_of(words[who], f"{folder}/{who}.out"))
        outputs = [f"{folder}/{who}.out" for who in case.whos]
        if not all(filecmp.cmp(outputs[0], path, shallow=False) for path in outputs):
            sys.exit(f"bench: the outputs over {folder} differ")
    for who in case.whos:
        case.peak[who] = peak_of(words[who])


def write_batches(path, publishing, batches):
    """A script of so many batches."""
    with open(path, "w", encoding="ascii") as out:
        for number in range(batches):
            for place in range(number * publishing.amends, (number + 1) * publishing.amends):
                out.write(f"custodian amend {publishing.person(place)} TENURE={place % 5 + 1}\n")
            out.write("custodian publish\n")


def publications(programs, folder):
    """What each publication after the first takes beside the plain program, and what many hold above
    one."""
    for publishing in PUBLISHINGS:
        words, further, peak = {}, {}, {}
        counts = {PROGRAM: publishing.batches, PLAIN: min(publishing.batches, PLAIN_BATCHES)}
        for who, many in counts.items():
            for count in (ONE, many):
                script = f"{folder}/batches-{who}-{count}.txt"
                write_batches(script, publishing, count)
                words[who, count] = words_of(programs[who], folder, script)
        for who, many in counts.items():
            runs = {ONE: [], many: []}
            for _ in range(RUNS):
                for count, seconds in runs.items():
                    seconds.append(seconds_of(words[who, count], f"{folder}/batches.out"))
            further[who] = [(m - o) / (many - ONE) for o, m in zip(runs[ONE], runs[many])]
            peak[who] = {count: peak_of(words[who, count]) for count in runs}
        times = [f"{statistics.median(further[who]) * 1e3:.3f} ms" for who in (PROGRAM, PLAIN)]
        amends = f"{publishing.amends:,} amend{'s' * (publishing.amends > 1)}"
        what = f"a batch of {amends}, {publishing.whose}, {' beside '.join(times)}, in thousandths"
        yield (what, 1e3 * median_ratio(further[PROGRAM], further[PLAIN]), publishing.most)
        held = (peak[PROGRAM][publishing.batches] - peak[PROGRAM][ONE]) / MIB
        few = publishing.amends == ONE and publishing.whose == FOLLOWING
        what = f"{publishing.batches:,} such batches, MiB above one"
        yield (what, held, MOST_HELD if few else None)


def widen(folder, into):
    """Copies an input, with further variables of five categories at the end of each record."""
    os.mkdir(into)
    for name in ("recodes", "ptable"):
        shutil.copy(f"{folder}/{name}.csv", into)
    with open(f"{folder}/classes.csv", encoding="ascii") as old, open(f"{into}/classes.csv", "w", encoding="ascii") as new:
        new.writelines(old)
        new.writelines(f"{name},{code},{code}\n" for name in ALL_FIVES[1:] for code in range(1, 6))
    with open(f"{folder}/people.csv", encoding="ascii") as old, open(f"{into}/people.csv", "w", encoding="ascii") as new:
        new.write(",".join([next(old).rstrip("\n"), *ALL_FIVES[1:]]) + "\n")
        for place, line in enumerate(old):
            codes = [str(place // 5**power % 5 + 1) for power in range(len(ALL_FIVES) - 1)]
            new.write(",".join([line.rstrip("\n"), *codes]) + "\n")


def seconds_behind(batch, program, folder):
    """What each table from a cube that is behind by a batch takes, in seconds: the median of the
    differences of runs in turn, with tables and without, since batches take far more time than what
    they differ by. After each batch a table is asked from each of some cubes of as many cells."""
    tables = [OF_FOUR[0].replace("TENURE", name) for name in FIVES]
    runs = []
    for queries in ((), tables):
        script = f"{folder}/script-{len(queries)}.txt"
        with open(script, "w", encoding="ascii") as out:
            for number in range(BATCHES):
                out.writelines(lines_before(batch, number))
                out.writelines(f"a table {query}\n" for query in queries)
        runs.append(words_of(program, folder, script))
    differences = []
    for _ in range(TURNS):
        without, with_tables = (seconds_of(words, f"{folder}/turn.out") for words in runs)
        differences.append((with_tables - without) / (BATCHES * len(tables)))
    return statistics.median(differences)


def table_lines(queries):
    return [f"a table {query}\n" for query in queries]


def seconds_each(program, folder, before, lines):
    """What some lines take in a round, run by run: each round has other lines before them, and the
    same rounds without them are run in turn."""
    words = []
    for name, asked in (("without", before), ("with", before + lines)):
        script = f"{folder}/rounds-{name}.txt"
        with open(script, "w", encoding="ascii") as out:
            out.writelines(asked * ROUNDS)
        words.append(words_of(program, folder, script))
    differences = []
    for _ in range(WIDER_TURNS):
        without, with_lines = (seconds_of(each, f"{folder}/rounds.out") for each in words)
        differences.append((with_lines - without) / ROUNDS)
    return statistics.median(differences)


def wider(program, folder):
    """What tables take whose cubes come from a kept one of more variables, beside cold ones."""
    clear = ["custodian clear\n"]
    of_three, of_four = clear + table_lines([OF_THREE]), clear + table_lines(OF_FOUR)
    sex, margins = table_lines(["SEX"]), table_lines(["AREA by SEX"])
    ten = table_lines(TEN_SUBSETS)
    first = seconds_each(program, folder, of_three, sex)
    cold = seconds_each(program, folder, [], clear + sex)
    what = f"`table SEX` after {OF_THREE}, {first * 1e3:.3f} ms, beside a cold one, {cold * 1e3:.3f} ms"
    yield (what, first / cold, 0.05)
    subsets = seconds_each(program, folder, of_four, ten)
    each_cold = [line for table in ten for line in (*clear, table)]
    ten_cold = seconds_each(program, folder, [], each_cold)
    times = f"{subsets * 1e3:.3f} ms beside {ten_cold * 1e3:.3f} ms"
    yield (f"ten tables over subsets of a kept cube of four variables, beside cold ones, {times}", subsets / ten_cold, 0.1)
    narrowed = seconds_each(program, folder, of_four, margins)
    kept_again = seconds_each(program, folder, of_four + margins, margins)
    yield ("a cube of 101,000 cells narrowed to 200, ms", (narrowed - kept_again) * 1e3, 0.3)


def sparse(program, folder):
    """What cubes of which most cells are empty hold, beside 8 bytes for each of their cells."""
    peaks = []
    for count in (ONE, len(SPARSE)):
        script = f"{folder}/sparse-{count}.txt"
        with open(script, "w", encoding="ascii") as out:
            out.writelines(table_lines(query_over(names) for names in SPARSE[:count]))
        peaks.append(peak_of(words_of(program, folder, script)))
    dense = 8 * sum(math.prod(CATEGORIES[name] for name in names) for names in SPARSE[ONE:])
    what = f"{len(SPARSE)} sparse cubes at {SMALL:,} persons, what they hold above one beside {dense / MIB:.0f} MiB of cells"
    yield (what, (peaks[1] - peaks[0]) / dense, 0.35)


def summary_of(path):
    """The line of `gen` for replies with this text."""
    with open(path, "rb") as file:
        text = file.read()
    lines, total = text.count(b"\n"), sum(text) % 2**32
    return f"gen {LARGE} {START} lines {lines} bytes {len(text)} sum {total}\n"


def generated(program, folder):
    """What `gen` takes beside `script` over the same files, in runs that follow each other; its line
    must have the numbers of what `script` prints."""
    script, gen = f"{folder}/script.out", f"{folder}/gen.out"
    words = {
        gen: [program, "gen", str(LARGE), str(START)],
        script: words_of(program, folder, f"{folder}/script.txt"),
    }
    seconds = {path: [] for path in words}
    for _ in range(RUNS):
        for path in words:
            seconds[path].append(seconds_of(words[path], path))
    with open(gen, encoding="ascii") as file:
        if file.read() != summary_of(script):
            sys.exit("bench: the line of `gen` isn't that of the replies")
    times = " beside ".join(f"{statistics.median(seconds[path]) * 1e3:.0f} ms" for path in words)
    what = f"`gen {LARGE} {START}` beside `script` over the same files, {times}"
    yield (what, median_ratio(seconds[gen], seconds[script]), 1.25)
    yield ("its peak memory, MiB", peak_of(words[gen]) / MIB, None)
    yield ("that of `script`, MiB", peak_of(words[script]) / MIB, None)


def prefixed(lane, line):
    return f"{lane} {line}\n"


def measure_lanes(program, folder):
    """What many tables in some lanes take beside the same lines of a script, each without what one
    table takes, run by run; none where the program has no lanes."""
    query = f"table {MARGINS[0]}"
    names = [f"lane{number}" for number in range(LANES)]
    lines = [prefixed(name, query) for name in names for _ in range(TABLES_A_LANE)]
    words = {}
    for command, count in itertools.product(("script", "lanes"), (ONE, len(lines))):
        path = f"{folder}/lanes-{count}.txt"
        with open(path, "w", encoding="ascii") as out:
            out.writelines(lines[:count])
        words[command, count] = words_of(program, folder, path, command)
    path = f"{folder}/lanes.out"
    with open(path, "wb") as out:
        told = subprocess.run(words["lanes", ONE], stdout=out, check=False)
    if told.returncode == USAGE:
        return []
    table = reply_of(words["script", ONE], path)
    whole = b"phase 1\n" + b"".join(
        b"lane %s\n" % name.encode() + table * TABLES_A_LANE for name in names
    )
    ratios = []
    for _ in range(RUNS):
        took = {}
        for command in ("script", "lanes"):
            one, many = (seconds_of(words[command, n], path) for n in (ONE, len(lines)))
            took[command] = many - one
        with open(path, "rb") as out:
            if out.read() != whole:
                sys.exit("bench: lanes print other tables than a script")
        ratios.append(took["lanes"] / took["script"])
    return ratios


def reply_of(words, path):
    """What a run prints."""
    seconds_of(words, path)
    with open(path, "rb") as out:
        return out.read()


def spread(seconds):
    return f"{statistics.median(seconds) * 1e3:.0f} ({min(seconds) * 1e3:.0f} to {max(seconds) * 1e3:.0f})"


def print_runs(cases):
    print("| Persons | Order | Queries | How many | Runs | Program, ms | Plain, ms | Ratio | Program, MiB | Plain, MiB |")
    print("|---|---|---|---|---|---|---|---|---|---|")
    for case in cases:
        both = PLAIN in case.whos
        plain = spread(case.seconds[PLAIN]) if both else ""
        ratio = f"{case.ratio():.2f}" if both else ""
        held = f"{case.peak[PLAIN] / MIB:.0f}" if both else ""
        ours = f"{spread(case.seconds[PROGRAM])} | {plain} | {ratio} | {case.peak[PROGRAM] / MIB:.0f}"
        print(f"| {case.persons:,} | {case.order} | {case.name()} | {case.count:,} | {case.runs} | {ours} | {held} |")


class Further:
    """What each table or batch after the first took, in seconds, run by run."""

    def __init__(self, one, many):
        self.of = many
        self.each = {
            who: [(t - one.median(who)) / (many.count - ONE) for t in many.seconds[who]]
            for who in many.whos
        }

    def median(self, who):
        return statistics.median(self.each[who])

    def ratio(self, ours=PROGRAM, other=PLAIN):
        return median_ratio(self.each[ours], self.each[other])

    def row(self, most):
        times = [f"{self.median(who) * 1e3:.3f} ms" for who in (PROGRAM, PLAIN)]
        what = f"{self.of.persons:,} persons, each further one: {self.of.name()}"
        return (f"{what}, {' beside '.join(times)}", self.ratio(), most)


def print_rows(rows):
    print("| What | Reached | At most | |")
    print("|---|---|---|---|")
    for what, reached, most in rows:
        holds = "" if most is None else "holds" if reached <= most else "missed"
        print(f"| {what} | {reached:.2f} | {most or 'no target'} | {holds} |")


def targets(first, further, shuffled):
    """Each target with what was reached; `first` and `further` find a case of one table or batch,
    and what each after it took, by persons, queries and what comes before them."""
    one = first[LARGE, ONE_DIMENSION, COLD]
    cold = [case for (persons, _, before), case in first.items() if (persons, before) == (LARGE, COLD)]
    peak = max(case.peak[PROGRAM] for case in cold) / MIB
    batches = [further[LARGE, (), batch] for batch in (MIXED_ONE, MIXED_MANY)]
    revised = max(batch.of.peak[PROGRAM] for batch in batches) / MIB
    growth = one.median(PROGRAM) / first[SMALL, ONE_DIMENSION, COLD].median(PROGRAM)
    is_enough = processors() >= FEWEST_PROCESSORS
    beside = f"time beside the plain program, on {processors()} processors"
    yield (f"{LARGE:,} persons, one table: {beside}", one.ratio(), LOADING if is_enough else None)
    yield ("the same on one processor", one.ratio(ALONE), LOADING_ALONE)
    yield further[LARGE, ONE_DIMENSION, COLD].row(0.7)
    yield further[SMALL, ONE_DIMENSION, COLD].row(None)
    yield further[LARGE, TWO_DIMENSIONS, COLD].row(0.9)
    yield further[LARGE, MARGINS, COLD].row(0.35)
    yield further[LARGE, RECODED, COLD].row(0.35)
    yield further[LARGE, FILTERED, COLD].row(0.55)
    yield further[LARGE, LARGEST, COLD].row(0.55)
    yield further[LARGE, MARGINS, KEPT].row(0.46)
    yield further[LARGE, LARGEST, KEPT].row(0.8)
    for batch in batches:
        yield batch.row(1.0)
    yield ("peak memory of the process, MiB", peak, LOADED)
    yield ("the same with batches, MiB", revised, 120)
    yield (f"time at {LARGE:,} beside {SMALL:,} persons", growth, 55)
    most = LOADING_SHUFFLED if is_enough else None
    yield (f"persons in another order: {beside}", shuffled.ratio(), most)
    yield ("persons in another order: peak memory, MiB", shuffled.peak[PROGRAM] / MIB, None)


def kept(further, behind):
    """What tables from cubes that are at hand take, those from a cube that is behind by batches, and
    what the cubes take."""
    margins, of_four = further[LARGE, MARGINS, KEPT], further[LARGE, OF_FOUR, KEPT]
    yield ("tables a second of AREA by SEX with totals", 1 / margins.median(PROGRAM), None)
    yield ("a table with filters, from the cube of four variables, ms", of_four.median(PROGRAM) * 1e3, 0.3)
    for batch, seconds in behind.items():
        yield (f"the same, where the cube is {batch.edits:,} changes behind, ms", seconds * 1e3, None)
    advance = behind[MANY_CHANGES] - behind[ONE_CHANGE]
    yield ("to advance the cube by 10,000 changes, ms", advance * 1e3, 0.5)
    sets = further[LARGE, ALL_SETS, KEPT].of.peak[PROGRAM]
    loaded = further[LARGE, MARGINS, KEPT].of.peak[PROGRAM]
    yield ("the cubes of all 15 sets of variables, MiB above one cube of 200 cells", (sets - loaded) / MIB, 4)


def threads(further, lanes):
    """What threads gain: cold tables beside those of one processor, of the plain program with
    threads and of an earlier program, and lanes beside a script. The targets are for four
    processors; on fewer there is none."""
    is_enough = processors() >= FEWEST_PROCESSORS
    on = f"on {processors()} processors"
    for queries, most in BY_THREADS.items():
        cold = further[LARGE, queries, COLD]
        name = f"{queries[0]}, cold, {on}"
        yield (f"{name}: beside one processor", cold.ratio(PROGRAM, ALONE), most if is_enough else None)
        yield (f"{name}: beside the plain program with threads", cold.ratio(PROGRAM, THREADS), None)
        if EARLIER in cold.each:
            what = f"{queries[0]}, cold, on one processor: beside the earlier program"
            yield (what, cold.ratio(ALONE, EARLIER), BESIDE_EARLIER)
    if lanes:
        what = f"{LANES} lanes of {TABLES_A_LANE:,} kept tables each, {on}: beside a script"
        most = LANES_BESIDE_SCRIPT if is_enough else None
        yield (what, statistics.median(lanes), most)


def texts(further):
    """What a line of text takes where there are no records, so all but the loop over them."""
    small, large = further[NONE, ("AGE",), KEPT], further[NONE, LARGEST, KEPT]
    by_small = small.median(PROGRAM) / 102 * 1e9
    by_large = large.median(PROGRAM) / 10_101 * 1e9
    yield ("a line of a table of one dimension, 101 places, ns", by_small, None)
    yield ("a line of a table of two dimensions, 10,100 places, ns", by_large, None)
    yield ("a refused line, microseconds", further[NONE, REFUSED, KEPT].median(PROGRAM) * 1e6, 5)


def machine():
    with open("/proc/cpuinfo", encoding="utf-8") as info:
        names = [line.split(":")[1].strip() for line in info if line.startswith("model name")]
    name = names[0] if names else platform.machine()
    return f"{time.strftime('%Y-%m-%d')}, {os.cpu_count()} cores, {name}"


def main(program, baseline, earlier=None):
    programs = {PROGRAM: os.path.abspath(program), PLAIN: os.path.abspath(baseline)}
    if earlier is not None:
        programs[EARLIER] = os.path.abspath(earlier)
    first, further = {}, {}
    shuffled = Case(LARGE, SHUFFLED, ONE_DIMENSION, COLD, ONE)
    cases = [shuffled]
    for persons, queries, before, count in PAIRS:
        one, many = (Case(persons, ASCENDING, queries, before, n) for n in (ONE, count))
        first[persons, queries, before] = one
        cases += [one, many]
    with tempfile.TemporaryDirectory(prefix="tablebuilder-bench-") as top:
        for case in cases:
            folder = f"{top}/{case.persons}-{case.order}"
            if not os.path.isdir(folder):
                os.mkdir(folder)
                make_input(folder, case.persons, case.order)
            measure(case, programs, folder)
        lanes = measure_lanes(programs[PROGRAM], f"{top}/{LARGE}-{ASCENDING}")
        published = list(publications(programs, f"{top}/{LARGE}-{ASCENDING}"))
        from_wider = list(wider(programs[PROGRAM], f"{top}/{LARGE}-{ASCENDING}"))
        widen(f"{top}/{SMALL}-{ASCENDING}", f"{top}/wide")
        behind = {
            batch: seconds_behind(batch, programs[PROGRAM], f"{top}/wide")
            for batch in (ONE_CHANGE, HUNDRED, MANY_CHANGES)
        }
        of_sparse = list(sparse(programs[PROGRAM], f"{top}/wide"))
        os.mkdir(f"{top}/generated")
        make_input(f"{top}/generated", LARGE, ASCENDING)
        by_gen = list(generated(programs[PROGRAM], f"{top}/generated"))
    for one, many in zip(cases[1::2], cases[2::2]):
        further[one.persons, one.queries, one.before] = Further(one, many)
    print(f"{machine()}; median (least to most); outputs equal byte by byte\n")
    print_runs(cases)
    print()
    print_rows(targets(first, further, shuffled))
    print()
    print_rows(kept(further, behind))
    print()
    print_rows(published)
    print()
    print_rows([*from_wider, *of_sparse])
    print()
    print_rows(threads(further, lanes))
    print()
    print_rows(texts(further))
    print()
    print_rows(by_gen)


if __name__ == "__main__":
    with rows_written("bench"):
        main(*sys.argv[1:])
