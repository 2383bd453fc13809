#!/usr/bin/env python3
"""Measures what tables of dwellings take beside tables of persons, and what dwellings and links take
beside the microdata.

    units.py PROGRAM FOLDER

PROGRAM is the built program; generated files are written below FOLDER. Persons who follow each other
live together, two or three in a dwelling, and the links come in the order of the microdata or in
another. Both sides of a ratio run in turn, on one processor. What a further table takes is what a
script of many takes beyond a script of one; a table of persons is cold, since the custodian clears
what is kept before it. What is read takes what a run without lines takes beyond one without those
files. The table of dwellings is compared with a plain count by a model that shares nothing with the
program. Nothing here fails because of a time: a target that is missed is printed.
"""
import os
import random
import statistics
import subprocess
import sys
import tempfile
import typing

import bench
import generate
import summary
from result_file import rows_written

PERSONS, DWELLINGS = bench.LARGE, 400_000
FEW = 1
COLD_TABLES, HOMES_TABLES = 400, 40
TABLE_TURNS, READING_TURNS = 7, 15
# The most that a table may take, in cold tables of persons, and reading in what the microdata takes.
MOST_IN_ORDER, MOST_SHUFFLED, MOST_READING = 9, 20, 1.7
# The most bytes that are held for a link, and for a dwelling.
MOST_BYTES = 40
HOMES_QUERY = f"dwellings {bench.MARGINS[0]}"
IN_ORDER, SHUFFLED, NO_LINKS = "in the order of the microdata", "in another order", "none"
NO_LINES = "# no lines\n"
# Freed blocks go back to the system at once, so what it tells is what is held.
NOTHING_SPARE = {"MALLOC_MMAP_THRESHOLD_": "65536", "MALLOC_TRIM_THRESHOLD_": "65536"}


class Places(typing.NamedTuple):
    """Where the files of an input are."""

    people: str
    nobody: str
    dwellings: str
    links: dict


def home_of(person):
    return (person - 1) * DWELLINGS // PERSONS + 1


def dwelling_keys():
    """The keys of the dwellings, which are numbered from 1."""
    draw = generate.draws((bench.START + 3) % 2**32)
    return {dwelling: next(draw) % generate.KEYS for dwelling in range(1, DWELLINGS + 1)}


def write_file(path, header, lines):
    with open(path, "w", encoding="ascii") as out:
        out.write(header)
        out.writelines(lines)
    return path


def make_files(room):
    """The generated input, one without persons, and the files of dwellings and links."""
    folders = [f"{room}/people", f"{room}/nobody"]
    for folder, persons in zip(folders, (PERSONS, bench.NONE)):
        os.mkdir(folder)
        bench.make_input(folder, persons, bench.ASCENDING)
    keys = (f"{dwelling},{key}\n" for dwelling, key in dwelling_keys().items())
    links = [f"{person},{home_of(person)}\n" for person in range(1, PERSONS + 1)]
    shuffled = list(links)
    random.Random(bench.START).shuffle(shuffled)
    orders = {IN_ORDER: links, SHUFFLED: shuffled, NO_LINKS: []}
    return Places(
        *folders,
        write_file(f"{room}/dwellings.csv", "dwelling,dwelling_key\n", keys),
        {
            order: write_file(f"{room}/links-{number}.csv", "person,dwelling\n", lines)
            for number, (order, lines) in enumerate(orders.items())
        },
    )


def make_script(room, name, line, count):
    return write_file(f"{room}/{name}-{count}.txt", "", [line] * count)


def alone(words):
    return ["taskset", "-c", "0", *words]


def script_words(program, folder, script):
    return alone(bench.words_of(program, folder, script))


def units_words(program, places, order, script):
    files = [*bench.input_words(places.people), places.dwellings, places.links[order]]
    return alone([program, "units", *files, script])


def plain_table():
    """The table of dwellings, from the sets of the dwellings of each place's persons."""
    homes, keys, ptable = {}, dwelling_keys(), summary.read_ptable(bench.START)
    for person, one in summary.read_people(bench.START, PERSONS).items():
        for area in (one["AREA"], summary.TOTAL):
            for sex in (one["SEX"], summary.TOTAL):
                homes.setdefault((area, sex), set()).add(home_of(person))
    yield "release 0\nAREA,SEX,count\n"
    for area in [*generate.AREAS, summary.TOTAL]:
        for sex in [*generate.SEXES, summary.TOTAL]:
            own = homes.get((area, sex), ())
            key_sum = sum(keys[home] for home in own)
            yield f"{area},{sex},{summary.shown(len(own), key_sum, ptable)}\n"
    yield ".\n"


def check_table(program, places, room):
    """Ends the run where a table of dwellings isn't the plain one."""
    want = "".join(plain_table()).encode("ascii")
    script = make_script(room, "homes", f"a {HOMES_QUERY}\n", FEW)
    for order in (IN_ORDER, SHUFFLED):
        if bench.reply_of(units_words(program, places, order, script), f"{room}/homes.out") != want:
            sys.exit(f"bench: the table of dwellings, links {order}, isn't the plain one")


def in_turn(words, room, turns):
    """What each of some runs took, turn by turn, in seconds."""
    took = {name: [] for name in words}
    for _ in range(turns):
        for name, seconds in took.items():
            seconds.append(bench.seconds_of(words[name], f"{room}/turn.out"))
    return took


def further(took, name, many):
    """What each table after the first took, turn by turn, of so many."""
    pairs = zip(took[name, FEW], took[name, many])
    return [(more - few) / (many - FEW) for few, more in pairs]


def tables(program, places, room):
    """What a table of dwellings takes beside a cold one of persons."""
    cold = f"custodian clear\na table {bench.MARGINS[0]}\n"
    words = {
        ("cold", count): script_words(program, places.people, make_script(room, "cold", cold, count))
        for count in (FEW, COLD_TABLES)
    }
    for order in (IN_ORDER, SHUFFLED):
        for count in (FEW, HOMES_TABLES):
            script = make_script(room, "homes", f"a {HOMES_QUERY}\n", count)
            words[order, count] = units_words(program, places, order, script)
    took = in_turn(words, room, TABLE_TURNS)
    persons = further(took, "cold", COLD_TABLES)
    for order, most in ((IN_ORDER, MOST_IN_ORDER), (SHUFFLED, MOST_SHUFFLED)):
        homes = further(took, order, HOMES_TABLES)
        what = f"`{HOMES_QUERY}`, links {order}, beside a cold table of persons"
        yield row(what, homes, persons, most)


def reading(program, places, room):
    """What both files take beside the microdata."""
    script = make_script(room, "no-lines", NO_LINES, 1)
    words = {
        "people": script_words(program, places.people, script),
        "nobody": script_words(program, places.nobody, script),
        IN_ORDER: units_words(program, places, IN_ORDER, script),
        SHUFFLED: units_words(program, places, SHUFFLED, script),
    }
    took = in_turn(words, room, READING_TURNS)
    people = less(took["people"], took["nobody"])
    for order, most in ((IN_ORDER, MOST_READING), (SHUFFLED, None)):
        both = less(took[order], took["people"])
        yield row(f"reading dwellings and links, {order}, beside the microdata", both, people, most)


def less(ours, other):
    return [a - b for a, b in zip(ours, other)]


def row(what, ours, other, most):
    times = " beside ".join(f"{statistics.median(it) * 1e3:.2f}" for it in (ours, other))
    return (f"{what}, {times} ms", bench.median_ratio(ours, other), most)


def held_by(words):
    """The bytes that a process holds once it has written the first byte of its reply."""
    environment = {**os.environ, **NOTHING_SPARE}
    with subprocess.Popen(words, stdout=subprocess.PIPE, env=environment) as child:
        child.stdout.read(1)
        with open(f"/proc/{child.pid}/status", encoding="ascii") as status:
            told = [line.split()[1] for line in status if line.startswith("VmRSS")]
        child.kill()
    return int(told[0]) * 1024


def memory(program, places, room):
    """What is held for a dwelling and for a link once a first table of persons was answered, whose
    reply is longer than what the pipe takes: so the process is there still."""
    script = make_script(room, "held", f"a table {bench.LARGEST[0]}\n", FEW)
    none = held_by(script_words(program, places.people, script))
    homes = held_by(units_words(program, places, NO_LINKS, script))
    yield ("bytes held for a dwelling", (homes - none) / DWELLINGS, MOST_BYTES)
    for order in (IN_ORDER, SHUFFLED):
        both = held_by(units_words(program, places, order, script))
        yield (f"bytes held for a link, {order}", (both - homes) / PERSONS, MOST_BYTES)


def main(program, folder):
    program, folder = os.path.abspath(program), os.path.abspath(folder)
    with tempfile.TemporaryDirectory(prefix="tablebuilder-units-", dir=folder) as room:
        places = make_files(room)
        check_table(program, places, room)
        print(f"{bench.machine()}; {PERSONS:,} persons in {DWELLINGS:,} dwellings, one processor\n")
        steps = (tables, reading, memory)
        bench.print_rows([it for step in steps for it in step(program, places, room)])


if __name__ == "__main__":
    with rows_written("units"):
        main(*sys.argv[1:])
