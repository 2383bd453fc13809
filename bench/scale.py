#!/usr/bin/env python3
"""Measures censuses of many millions of persons beside one of a million, and prints tables.

    scale.py PROGRAM CENSUS FOLDER [MILLIONS ..]

CENSUS is `bench/census.rs`, built; FOLDER gets one file of persons after another. MILLIONS are 10 where none
are named. For each census are measured

- its loading, as a script of one table takes it, in turn with that of a million;
- by `serve`, in one session, many lines at once: a cold AREA by SEX with totals, a kept one, and a
  publication of one amend after a first one;
- the most that the process holds once it listens, and once something was published;
- the same memory of a census of 40 variables.

Each reply is compared, byte by byte, with what `script` prints. Nothing here fails because of a time:
a target that is missed is printed.
"""
import os
import shutil
import socket
import statistics
import subprocess
import sys
import tempfile
import time
import typing

# So that nothing is written beside the files of the bench.
sys.dont_write_bytecode = True
import generate
from bench import START, input_words, machine, median_ratio, peak_so_far, seconds_of, words_of
from result_file import rows_written
from serve import PATIENCE, QUERY, Server, Tools, at_least, at_most, killed_at_last, print_targets
from serve import serve_words, write_script

MILLION = 1_000_000
# How often a census is loaded in turn with one of a million, and lines are sent at once.
RUNS = 3
# How many tables and publications are sent at once.
COLD, KEPT, AMENDS = 40, 4_000, 200
# The variables of the wide census beside the four, how many categories each has, and its persons.
MORE, CATEGORIES, WIDE = 36, 10, 2
# Bytes of a person in each file, and at most in memory, loaded and published; and what 30 million may
# take, in GiB.
A_LINE, A_WIDE_LINE = 24, 96
NARROW_BYTES, WIDE_BYTES = (26, 38), (65, 77)
THIRTY, THIRTY_GIB = 30, (0.75, 1.1)
GIB = 1024**3


class Seen(typing.NamedTuple):
    """Seconds, run by run, of one loading, cold table, kept table and publication, and the most bytes held
    once all is loaded and once something was published."""

    loading: list
    cold: list
    kept: list
    publication: list
    loaded: int
    published: int


def write_files(census, folder, millions, more):
    """The files of a census over so many further variables, whose limit is stated where it must be."""
    os.makedirs(folder)
    with open(f"{folder}/classes.csv", "w", encoding="ascii") as out:
        header, *lines = generate.class_lines()
        out.write(header)
        if millions > 1:
            out.write(f"*,persons,{millions * MILLION}\n")
        out.writelines(lines)
        for variable in range(1, more + 1):
            out.writelines(f"V{variable},{code},{code}\n" for code in range(CATEGORIES))
    generate.write(f"{folder}/recodes.csv", generate.recode_lines())
    generate.write(f"{folder}/ptable.csv", generate.ptable_lines(START))
    with open(f"{folder}/people.csv", "wb") as out:
        words = [census, str(millions * MILLION), str(START), str(more)]
        subprocess.run(words, stdout=out, check=True)


def send_and_read(session, lines, wanted):
    """Sends these lines at once, and returns the seconds until the wanted bytes came."""
    began = time.perf_counter()
    session.sendall(lines)
    for piece in wanted:
        at = 0
        while at < len(piece):
            got = session.recv(len(piece) - at)
            if not got or piece[at : at + len(got)] != got:
                sys.exit("bench: another reply than that of `script`")
            at += len(got)
    return time.perf_counter() - began


def publications(first, count):
    """The lines of so many publications of one amend each, and the replies to them."""
    numbers = range(first, first + count)
    lines = "".join(f"amend {number * 7_919 + 1} SEX={number % 2 + 1}\npublish\n" for number in numbers)
    return lines.encode(), [b"held 1\npublished %d\n" % (number + 1) for number in numbers]


def ask(server, reply):
    """What a session sees: cold and kept tables, then publications; and what the process holds."""
    cold, kept, publication = [], [], []
    loaded = peak_so_far(server.process.pid)
    with socket.create_connection(("127.0.0.1", server.first), PATIENCE) as session:
        session.setsockopt(socket.IPPROTO_TCP, socket.TCP_NODELAY, 1)
        for _ in range(RUNS):
            lines = f"clear\n{QUERY}\n" * COLD
            seconds = send_and_read(session, lines.encode(), [b"cleared\n" + reply] * COLD)
            cold.append(seconds / COLD)
            seconds = send_and_read(session, f"{QUERY}\n".encode() * KEPT, [reply] * KEPT)
            kept.append(seconds / KEPT)
        send_and_read(session, *publications(0, 1))
        published = peak_so_far(server.process.pid)
        for run in range(RUNS):
            seconds = send_and_read(session, *publications(1 + run * AMENDS, AMENDS))
            publication.append(seconds / AMENDS)
    return Seen([], cold, kept, publication, loaded, published)


def look_at(tools, folder):
    """A census, over a server of its own."""
    script = f"{folder}/script.txt"
    write_script(script, QUERY, 1)
    seconds_of(words_of(tools.program, folder, script), f"{folder}/reply")
    with open(f"{folder}/reply", "rb") as file:
        reply = file.read()
    server = Server(serve_words(tools, folder), folder, 1, 1)
    with killed_at_last(server):
        return ask(server, reply)


def load_in_turn(tools, folders, seen):
    """Adds the seconds of each loading."""
    for _ in range(RUNS):
        for millions, folder in folders.items():
            words = words_of(tools.program, folder, f"{folder}/script.txt")
            seen[millions].loading.append(seconds_of(words, f"{folder}/again"))


def measure(tools, census, room, sizes):
    folders = {millions: f"{room}/{millions}" for millions in (1, *sizes)}
    seen = {}
    for millions, folder in folders.items():
        write_files(census, folder, millions, 0)
        seen[millions] = look_at(tools, folder)
    load_in_turn(tools, folders, seen)
    for folder in folders.values():
        shutil.rmtree(folder)
    write_files(census, f"{room}/wide", WIDE, MORE)
    return seen, look_at(tools, f"{room}/wide")


def per_person(seen, millions):
    return [held / (millions * MILLION) for held in (seen.loaded, seen.published)]


def print_rows(seen, wide):
    print("| Census | Loading, s | Cold, ms | Kept, microseconds | Publication, ms | Loaded, bytes a person | Published |")
    print("|---|---|---|---|---|---|---|")
    for millions, each in seen.items():
        times = [
            f"{statistics.median(each.loading):.2f}",
            f"{statistics.median(each.cold) * 1e3:.2f}",
            f"{statistics.median(each.kept) * 1e6:.1f}",
            f"{statistics.median(each.publication) * 1e3:.3f}",
        ]
        held = [f"{bytes_held:.1f}" for bytes_held in per_person(each, millions)]
        print(f"| {millions} million, 4 variables | {' | '.join(times + held)} |")
    held = [f"{bytes_held:.1f}" for bytes_held in per_person(wide, WIDE)]
    print(f"| {WIDE} million, {4 + MORE} variables | | | | | {' | '.join(held)} |")


def targets(seen, wide):
    one = seen[1]
    for millions, each in seen.items():
        if millions == 1:
            continue
        beside = f"{millions} million beside one:"
        most = 1.2 * millions
        yield at_most(f"{beside} loading", median_ratio(each.loading, one.loading), most)
        yield at_most(f"{beside} a cold table", median_ratio(each.cold, one.cold), most)
        yield at_most(f"{beside} a kept table", median_ratio(each.kept, one.kept), 1.2)
        yield at_most(f"{beside} a publication", median_ratio(each.publication, one.publication), 3)
        for when, held, most in zip(("loaded", "published"), per_person(each, millions), NARROW_BYTES):
            yield at_most(f"{millions} million, {when}: bytes a person", held, most)
        if millions == THIRTY:
            for when, held, most in zip(("loaded", "published"), (each.loaded, each.published), THIRTY_GIB):
                yield at_most(f"{millions} million, {when}: GiB", held / GIB, most)
    for when, held, most in zip(("loaded", "published"), per_person(wide, WIDE), WIDE_BYTES):
        yield at_most(f"{4 + MORE} variables, {when}: bytes a person", held, most)


def main(program, census, disk, *millions):
    sizes = [int(word) for word in millions] or [10]
    most = max(sizes)
    room = (sum(sizes) + 1) * A_LINE + WIDE * A_WIDE_LINE
    print(
        f"bench: needs {room / 1e3:.1f} GB of {disk}, {most * 0.05 + 0.5:.1f} GB of memory, and some "
        f"{sum(sizes) * 4 // 60 + 1} minutes",
        file=sys.stderr,
    )
    with tempfile.TemporaryDirectory(dir=disk) as folder:
        tools = Tools(os.path.abspath(program), "", "", "", folder)
        told = measure(tools, os.path.abspath(census), folder, sizes)
    print(f"{machine()}; `{QUERY}`\n")
    print_rows(*told)
    print()
    print_targets(targets(*told))


if __name__ == "__main__":
    with rows_written("scale"):
        main(*sys.argv[1:])
