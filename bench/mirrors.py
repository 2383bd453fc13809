#!/usr/bin/env python3
"""Measures two mirrors beside one, and how far a mirror is behind its host.

    mirrors.py PROGRAM CLIENT FOLDER [PERSONS]

Each mirror has one worker and a processor of its own (`taskset`), and so has each client; a client
asks for one table, whose cube is kept, a line at a time, and compares every reply with what
`script` prints. The replies of two mirrors that are asked at the same time are counted beside those
of one, turn by turn. This needs four processors, of which nothing else takes a part.

Then a custodian publishes one amend after another at a `host`, whose batches come by the relay and
a `redis-server` to one of the mirrors. What is timed is from the reply `published N` to the first
table of release N that an analyst of the mirror gets who asks again and again.

`python3-redis`, `redis-server` and `taskset` must be there; the journal and the log are in FOLDER.
Nothing here fails because of a time: a target that is missed is printed.
"""
import concurrent.futures
import contextlib
import os
import shutil
import socket
import statistics
import subprocess
import sys
import tempfile
import time
import typing

# So that nothing is written beside the files of the bench.
sys.dont_write_bytecode = True
from bench import ASCENDING, LARGE, input_words, machine, make_input, median_ratio
from bench import seconds_of, words_of
from keep import file_system_of
from result_file import rows_written
from serve import PATIENCE, QUERY, Server, amend, at_least, at_most, free_ports, killed_at_last
from serve import print_targets, write_script

sys.path.insert(0, os.path.join(os.path.dirname(os.path.abspath(__file__)), "..", "docs"))
from crash_mirrors import PATH, RELAY, python_with_redis

RUNS, SECONDS, NO_LIMIT = 7, 2, 990_000
# How many publications are timed after the first ones, and the pause between two.
PUBLICATIONS, FIRST_ONES, PAUSE_SECONDS = 300, 20, 0.02
LEAST_RATIO, MOST_MEDIAN, MOST = 1.8, 20, 200
MIRRORS = 2


class Tools(typing.NamedTuple):
    """The programs, and the folder of what is written to a disk."""

    program: str
    client: str
    room: str


def on_processor(number, words):
    return ["taskset", "-c", str(number), *words]


def start_mirror(tools, folder, processor):
    """A mirror with one worker, on a processor of its own."""
    room = tempfile.mkdtemp(dir=tools.room)
    words = on_processor(processor, [tools.program, "mirror", *input_words(folder), "-", "-"])
    return Server(words, room, 1, NO_LIMIT)


def rate_of(tools, server, processor, reply):
    """How many replies a second a client gets of a mirror's worker, by a processor of its own."""
    asked = ["ask", server.first, "door:1", 1, NO_LIMIT, SECONDS, reply, QUERY]
    words = on_processor(processor, [tools.client, *map(str, asked)])
    done = subprocess.run(words, stdout=subprocess.PIPE, timeout=PATIENCE, check=True)
    told = done.stdout.split()
    numbers = {name: float(number) for name, number in zip(told[::2], told[1::2])}
    return numbers[b"replies"] / numbers[b"seconds"]


def measure_rates(tools, mirrors, reply):
    """Replies a second of one mirror, and of two at the same time, run by run."""
    one, two = [], []
    with concurrent.futures.ThreadPoolExecutor(MIRRORS) as pool:
        for _ in range(RUNS):
            one.append(rate_of(tools, mirrors[0], MIRRORS, reply))
            asked = [
                pool.submit(rate_of, tools, mirror, MIRRORS + place, reply)
                for place, mirror in enumerate(mirrors)
            ]
            two.append(sum(rate.result() for rate in asked))
    return one, two


class Line:
    """A session, a line at a time."""

    def __init__(self, port):
        self.socket = socket.create_connection(("127.0.0.1", port), PATIENCE)
        self.socket.setsockopt(socket.IPPROTO_TCP, socket.TCP_NODELAY, 1)
        self.replies = self.socket.makefile("rb")

    def __enter__(self):
        return self

    def __exit__(self, *_):
        self.replies.close()
        self.socket.close()

    def publish(self, lines):
        """Publishes an edit, and returns the number of its release."""
        self.socket.sendall(lines.encode())
        held, told = self.replies.readline(), self.replies.readline().split()
        if held != b"held 1\n" or told[:1] != [b"published"]:
            sys.exit(f"bench: a publication: {held!r} {told!r}")
        return int(told[1])

    def release(self):
        """The release of the table that is printed now."""
        self.socket.sendall(f"{QUERY}\n".encode())
        release = int(self.replies.readline().split()[1])
        while self.replies.readline() != b".\n":
            pass
        return release


@contextlib.contextmanager
def started(words):
    with tempfile.TemporaryFile() as told:
        process = subprocess.Popen(
            list(map(str, words)), stdin=subprocess.DEVNULL, stdout=told, stderr=told
        )
        try:
            yield process
            if process.poll() is not None:
                told.seek(0)
                sys.exit(f"bench: {words} ended: {told.read()!r}")
        finally:
            process.kill()
            process.wait()


def relayed(tools, folder, host, mirror, journal, stack):
    """Starts Redis, and the relay from a host to a mirror."""
    python, port = python_with_redis(), free_ports(1)
    words = [shutil.which("redis-server", path=PATH), "--port", port, "--bind", "127.0.0.1"]
    words += ["--dir", tools.room, "--appendonly", "yes", "--save", ""]
    stack.enter_context(started(words))
    more = ["--redis", f"redis://127.0.0.1:{port}/0", "--stream", "tables"]
    files = input_words(folder)
    words = [python, "-B", RELAY, "feed", journal, f"127.0.0.1:{host.first + 1}", *files, *more]
    stack.enter_context(started(words))
    words = [python, "-B", RELAY, "apply", f"127.0.0.1:{mirror.first}", *files, *more]
    stack.enter_context(started(words))


def measure_behind(tools, folder, mirror, persons):
    """The milliseconds from `published N` to the first table of release N at the mirror."""
    journal, behind = f"{tools.room}/journal", []
    host = Server([tools.program, "host", *input_words(folder), "-", "-", journal], tools.room, 1, NO_LIMIT)
    with killed_at_last(host), contextlib.ExitStack() as stack:
        relayed(tools, folder, host, mirror, journal, stack)
        custodian = stack.enter_context(Line(host.first))
        analyst = stack.enter_context(Line(mirror.first + 1))
        for number in range(FIRST_ONES + PUBLICATIONS):
            release = custodian.publish(f"{amend(number, persons)}publish\n")
            before = end = time.perf_counter()
            while analyst.release() < release:
                end = time.perf_counter()
                if end - before > PATIENCE:
                    sys.exit(f"bench: release {release} doesn't come")
            behind.append((time.perf_counter() - before) * 1e3)
            time.sleep(PAUSE_SECONDS)
    return behind[FIRST_ONES:]


def print_figures(one, two, behind, disk):
    print("| What | Runs | Median (least to most) |")
    print("|---|---|---|")
    for what, told, form in [
        ("one mirror, replies a second", one, ",.0f"),
        (f"{MIRRORS} mirrors at the same time, replies a second", two, ",.0f"),
        (f"from `published N` on {file_system_of(disk)} to N at a mirror, ms", behind, ".1f"),
    ]:
        spread = f"{statistics.median(told):{form}} ({min(told):{form}} to {max(told):{form}})"
        print(f"| {what} | {len(told)} | {spread} |")


def targets(one, two, behind):
    beside = median_ratio(two, one)
    yield at_least(f"{MIRRORS} mirrors: rate beside that of one", beside, LEAST_RATIO)
    what = "one amend, from `published N` to N at a mirror, milliseconds"
    yield at_most(f"{what}, median", statistics.median(behind), MOST_MEDIAN)
    yield at_most(f"{what}, most", max(behind), MOST)


def main(program, client, disk, persons=LARGE):
    persons = int(persons)
    processors = len(os.sched_getaffinity(0))
    if processors < 2 * MIRRORS:
        sys.exit(f"bench: this needs {2 * MIRRORS} processors, and there are {processors}")
    with contextlib.ExitStack() as stack:
        room, folder = (
            stack.enter_context(tempfile.TemporaryDirectory(prefix="tablebuilder-mirrors-", dir=it))
            for it in (disk, None)
        )
        tools = Tools(*map(os.path.abspath, (program, client, room)))
        make_input(folder, persons, ASCENDING)
        script, reply = f"{folder}/script.txt", f"{folder}/reply"
        write_script(script, QUERY, 1)
        seconds_of(words_of(tools.program, folder, script), reply)
        mirrors = []
        for processor in range(MIRRORS):
            mirror = start_mirror(tools, folder, processor)
            mirrors.append(stack.enter_context(killed_at_last(mirror)))
        one, two = measure_rates(tools, mirrors, reply)
        behind = measure_behind(tools, folder, mirrors[0], persons)
        print(f"{machine()}; replies equal byte by byte, no release of a session fell")
        print(f"{persons:,} persons, `{QUERY}`, its cube kept\n")
        print_figures(one, two, behind, disk)
    print()
    print_targets(targets(one, two, behind))


if __name__ == "__main__":
    with rows_written("mirrors"):
        main(*sys.argv[1:])
