#!/usr/bin/env python3
"""Measures a door with many sessions and prints tables of medians, spreads and ratios.

    door.py PROGRAM CLIENT FOLDER [PERSONS]

`host` has 1,000 workers at one door, and its journal is in FOLDER. Sessions ask for one table, whose
cube is kept. Measured are

- ten sessions that ask, a line at a time, beside 990 that have asked once and then say nothing, and
  beside none: the replies a second;
- a publication of one amend beside 1,000 sessions that say nothing, and beside none;
- 300 sessions that each ask for five tables, with two seconds between them: the longest wait;
- what the process holds before a session, and with 1,000;
- the most that a process of its own holds where 1,000 sessions ask at once for one table of 101,000
  places, whose cube isn't kept, beside one where 16 do.

Runs follow each other in turn, and a ratio is the median of the ratios of such runs. The client
compares every reply of the ten byte by byte, and the others are compared here, byte by byte too. Nothing here fails
because of a time: a target that is missed is printed.
"""
import asyncio
import contextlib
import os
import resource
import selectors
import socket
import statistics
import sys
import tempfile
import time
import typing

# So that nothing is written beside the files of the bench.
sys.dont_write_bytecode = True
from bench import ASCENDING, machine, make_input, median_ratio, seconds_of, words_of
from result_file import rows_written
from serve import PATIENCE, QUERY, Asking, Server, Tools, amend, at_least, at_most, host_words
from serve import killed_at_last, print_targets, rate, write_script

WORKERS, ASKING, THINKING = 1_000, 10, 300
# How often all is run in turn, for how long ten sessions ask, how many publications are timed.
RUNS, SECONDS, PUBLICATIONS, NO_LIMIT = 5, 1, 100, 990_000
TABLES, THOUGHT = 5, 2
PERSONS = 20_000
# A table of many places, and how many ask for it; what each place takes of a session that waits for its
# turn to write, and what a session takes, in bytes.
LARGE_QUERY, FEW = "table AREA by AGE by SEX by TENURE", 16
A_REPLY, A_SESSION = 850_000, 50 * 1024
CHUNK = 1 << 18


def held(pid, name="VmRSS"):
    """The bytes that a process holds now, or, by `VmHWM`, held at most."""
    with open(f"/proc/{pid}/status", encoding="ascii") as status:
        told = [line.split()[1] for line in status if line.startswith(name)]
    return int(told[0]) * 1024


@contextlib.contextmanager
def silent(server, count, reply):
    """So many sessions that have asked once, and then say nothing."""
    with contextlib.ExitStack() as stack:
        sessions = []
        for _ in range(count):
            address = ("127.0.0.1", server.first + 1)
            sessions.append(stack.enter_context(socket.create_connection(address, PATIENCE)))
            sessions[-1].sendall(f"{QUERY}\n".encode())
        for session in sessions:
            if session.recv(len(reply), socket.MSG_WAITALL) != reply:
                sys.exit("bench: another reply than that of `script`")
        server.had[1] += count
        yield


def ask_at_once(port, count, query, reply):
    """So many sessions, all open, of which each then asks for one table and reads it whole."""
    with contextlib.ExitStack() as stack, selectors.DefaultSelector() as ready:
        sessions = [
            stack.enter_context(socket.create_connection(("127.0.0.1", port), PATIENCE))
            for _ in range(count)
        ]
        read = dict.fromkeys(sessions, 0)
        for session in sessions:
            session.sendall(f"{query}\n".encode())
            ready.register(session, selectors.EVENT_READ)
        while ready.get_map():
            for key, _ in ready.select(PATIENCE) or sys.exit("bench: no reply"):
                piece, at = key.fileobj.recv(CHUNK), read[key.fileobj]
                read[key.fileobj] += len(piece)
                if not piece or reply[at : at + len(piece)] != piece:
                    sys.exit("bench: another reply than that of `script`")
                if read[key.fileobj] == len(reply):
                    ready.unregister(key.fileobj)


def most_held(tools, folder, count, reply):
    """What a server holds at most, and the seconds until so many have a table whose cube isn't kept."""
    server = Server(host_words(tools, folder), folder, WORKERS, NO_LIMIT)
    with killed_at_last(server):
        began = time.perf_counter()
        ask_at_once(server.first + 1, count, LARGE_QUERY, reply)
        return held(server.process.pid, "VmHWM"), time.perf_counter() - began


def publish(server, persons, first):
    """The seconds of a publication of one amend."""
    server.had[0] += 1
    with socket.create_connection(("127.0.0.1", server.first), PATIENCE) as custodian:
        custodian.setsockopt(socket.IPPROTO_TCP, socket.TCP_NODELAY, 1)
        replies, began = custodian.makefile("rb"), time.perf_counter()
        for number in range(first, first + PUBLICATIONS):
            custodian.sendall(f"{amend(number, persons)}publish\n".encode())
            if [replies.readline(), replies.readline()] != [b"held 1\n", b"published %d\n" % (number + 1)]:
                sys.exit(f"bench: publication {number + 1}")
        return (time.perf_counter() - began) / PUBLICATIONS


async def think(port, place):
    """An analyst's longest wait, who begins at some moment."""
    longest = 0
    await asyncio.sleep(THOUGHT * place / THINKING)
    reader, writer = await asyncio.open_connection("127.0.0.1", port)
    for _ in range(TABLES):
        began = time.perf_counter()
        writer.write(f"{QUERY}\n".encode())
        await reader.readuntil(b"\n.\n")
        longest = max(longest, time.perf_counter() - began)
        await asyncio.sleep(THOUGHT)
    writer.close()
    return longest


async def think_all(port):
    return await asyncio.gather(*(think(port, place) for place in range(THINKING)))


class Told(typing.NamedTuple):
    """Replies of ten beside 990 and alone, publications beside 1,000 and alone, waits, what the process
    holds before a session and with 1,000, and the most it holds and the seconds by how many ask."""

    beside: list
    alone: list
    busy: list
    quiet: list
    waits: list
    before: int
    full: int
    cold: dict


def measure(tools, folder, persons):
    beside, alone, busy, quiet, waits = [], [], [], [], []
    reply = reply_to(tools, folder, QUERY)
    asking = Asking(ASKING, 1, NO_LIMIT, SECONDS, QUERY, f"{folder}/reply")
    server = Server(host_words(tools, folder), folder, WORKERS, NO_LIMIT)
    with killed_at_last(server):
        before = held(server.process.pid)
        for _ in range(RUNS):
            alone.append(rate(tools, server, asking))
            with silent(server, WORKERS - ASKING, reply):
                beside.append(rate(tools, server, asking))
        with silent(server, WORKERS, reply):
            full = held(server.process.pid)
        for _ in range(RUNS):
            waits.append(max(asyncio.run(think_all(server.first + 1))) * 1e3)
        for run in range(RUNS):
            quiet.append(publish(server, persons, 2 * run * PUBLICATIONS))
            # (their tables are of later releases than the reply)
            with contextlib.ExitStack() as stack:
                for _ in range(WORKERS):
                    address = ("127.0.0.1", server.first + 1)
                    stack.enter_context(socket.create_connection(address, PATIENCE))
                busy.append(publish(server, persons, (2 * run + 1) * PUBLICATIONS))
    large = reply_to(tools, folder, LARGE_QUERY)
    cold = {count: most_held(tools, folder, count, large) for count in (FEW, WORKERS)}
    return Told(beside, alone, busy, quiet, waits, before, full, cold)


def print_figures(told):
    print("| What | Runs | Median (least to most) |")
    print("|---|---|---|")
    rows = [
        (f"{ASKING} sessions that ask, replies a second", told.alone),
        (f"the same beside {WORKERS - ASKING} that say nothing", told.beside),
        ("a publication of one amend, microseconds", [each * 1e6 for each in told.quiet]),
        (f"the same beside {WORKERS:,} that say nothing", [each * 1e6 for each in told.busy]),
        (f"{THINKING} sessions with {THOUGHT} s of thought: the longest wait, ms", told.waits),
        ("held before a session, KiB", [told.before / 1024]),
        (f"held with {WORKERS:,}, KiB", [told.full / 1024]),
    ]
    for count, (most, seconds) in told.cold.items():
        what = f"{count:,} that ask for `{LARGE_QUERY}`, cold"
        rows += [(f"{what}: held at most, MiB", [most / 1024 / 1024]), (f"{what}: ms", [seconds * 1e3])]
    for what, figures in rows:
        spread = f"{statistics.median(figures):,.0f} ({min(figures):,.0f} to {max(figures):,.0f})"
        print(f"| {what} | {len(figures)} | {spread} |")


def targets(told):
    what = f"{ASKING} sessions beside {WORKERS - ASKING} that say nothing: rate beside that alone"
    yield at_least(what, median_ratio(told.beside, told.alone), 0.9)
    what = f"a publication beside {WORKERS:,} that say nothing: time beside that alone"
    yield at_most(what, median_ratio(told.busy, told.quiet), 1.1)
    yield at_most("the longest wait of an analyst who thinks, ms", statistics.median(told.waits), 50)
    yield at_most("a session that waits, KiB", (told.full - told.before) / WORKERS / 1024, 50)
    yield at_most(f"the process with {WORKERS:,}, MiB", told.full / 1024 / 1024, 100)
    (few, _), (many, _) = told.cold[FEW], told.cold[WORKERS]
    allowed = few + WORKERS * (A_REPLY + A_SESSION)
    yield at_most(f"{WORKERS:,} cold tables at once: memory beside what is allowed", many / allowed, 1)


def reply_to(tools, folder, query):
    """What `script` prints for this query, which is also left in a file."""
    script = f"{folder}/script.txt"
    write_script(script, query, 1)
    seconds_of(words_of(tools.program, folder, script), f"{folder}/reply")
    with open(f"{folder}/reply", "rb") as file:
        return file.read()


def main(program, client, disk, persons=PERSONS):
    persons = int(persons)
    _, hard = resource.getrlimit(resource.RLIMIT_NOFILE)
    resource.setrlimit(resource.RLIMIT_NOFILE, (hard, hard))
    with tempfile.TemporaryDirectory(dir=disk) as room, tempfile.TemporaryDirectory() as folder:
        tools = Tools(*map(os.path.abspath, (program, client)), "", "", room)
        make_input(folder, persons, ASCENDING)
        told = measure(tools, folder, persons)
    print(f"{machine()}; {persons:,} persons, `{QUERY}`, its cube kept\n")
    print_figures(told)
    print()
    print_targets(targets(told))


if __name__ == "__main__":
    with rows_written("door"):
        main(*sys.argv[1:])
