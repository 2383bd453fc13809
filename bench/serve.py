#!/usr/bin/env python3
"""Measures sessions of the program's `host` and prints tables of medians, spreads and ratios.

    serve.py PROGRAM CLIENT PREPARED SYNCS FOLDER [PERSONS]

The client asks for one table, whose cube is kept, over connections to 127.0.0.1: a line at a time,
where it reads the whole reply before it writes the next line, or 100 lines at once. SYNCS is
`bench/syncs.c`, built, and FOLDER is on the disk that has the journals. Measured are

- one connection, a line at a time, beside a server of std's threads that sends prepared bytes;
- the same, and 100 lines at once, beside `serve`, which keeps no journal;
- one connection, 100 lines at once, and refused lines so, beside what a line of `script` takes,
  which is what a script of many lines takes beyond one of a single line (that of refused lines runs
  over no persons, since loading many differs from run to run by more than the lines take);
- four connections at once beside one;
- 16 connections while the custodian publishes batches, beside 16 without publications;
- a publication of one amend by a client, until its reply is there, beside one by `serve` and the
  syncs of the disk that two of them take;
- what a session takes of memory, over `examples/small`, where loading takes less than sessions do:
  the peak of a process with 16 sessions less that of one with one session.

Runs follow each other in turn, and a ratio is the median of the ratios of such runs. The client
compares every reply, byte by byte, with what `script` prints over the same input, where amends and
publications make another table of each release; it checks that no table is older than one that its
session had seen, and that the custodian's publications count up by one. A server must end by itself
with its report once each port had its sessions. Nothing here fails because of a time: a target that
is missed is printed.
"""
import contextlib
import fcntl
import functools
import os
import socket
import statistics
import subprocess
import sys
import tempfile
import time
import typing

# So that nothing is written beside the files of the bench.
sys.dont_write_bytecode = True
from bench import ASCENDING, HERE, LARGE, NONE
from bench import input_words, machine, make_input, median_ratio, peak_so_far, seconds_of, words_of
from keep import TOLD, file_system_of
from result_file import rows_written

QUERY, REFUSED = "table AREA by SEX with totals", "table NOSUCH"
# Lines that are written at once; how many of them a session asks for, and how many a script has.
AT_ONCE = 100
LINES, REFUSED_LINES, REFUSED_IN_SCRIPT = 50_000, 10_000, 400_000
BATCHES, EDITS = 100, 100
FOUR, WORKERS = 4, 16
# How often all is run in turn, and for how long a line at a time is asked.
RUNS, PUBLISH_RUNS, MEMORY_RUNS = 7, 3, 7
# How many publications of one amend a session has in a run that is timed, after a first one, and how
# many syncs each may take.
ONE_BY_ONE, ONE_RUNS, MOST_SYNCS = 200, 7, 2
SECONDS, MANY_SECONDS = 1, 3
NO_LIMIT = 990_000
# The sessions at one port in a run: one connection, one of four, tables and refused lines at once; of
# `serve` one connection, and tables at once.
SESSIONS_A_RUN, SERVED_A_RUN = 4, 2
# Runs at the same time take blocks of so many ports each, whose files stay locked while they last.
FIRST_PORT, LAST_PORT, BLOCK = 20_000, 32_000, 500
LOCKS = []
# A session asks for so many seconds at most, and what doesn't end within PATIENCE is killed.
MOST_SECONDS, PATIENCE = 60, 120
SMALL_INPUT = f"{HERE}/../examples/small"


class Tools(typing.NamedTuple):
    """The programs, the library that stands before the syncs, and the folder of the journals."""

    program: str
    client: str
    prepared: str
    syncs: str
    room: str


def are_free(ports):
    try:
        with contextlib.ExitStack() as sockets:
            for port in ports:
                sockets.enter_context(socket.socket()).bind(("127.0.0.1", port))
        return True
    except OSError:
        return False


@functools.cache
def own_block():
    """The first port of a block that no other run has: a lock on a file, which ends with the run,
    says whose it is."""
    for first in range(FIRST_PORT, LAST_PORT, BLOCK):
        path = f"{tempfile.gettempdir()}/tablebuilder-ports-{first}"
        try:
            lock = open(path, "w", encoding="ascii")
            fcntl.flock(lock, fcntl.LOCK_EX | fcntl.LOCK_NB)
        except OSError:
            continue
        LOCKS.append(lock)
        return first
    sys.exit("bench: other runs have all ports")


def free_ports(count):
    """The first of so many free ports in a row, of this run's own."""
    block = own_block()
    for first in range(block, block + BLOCK - count + 1):
        if are_free(range(first, first + count)):
            return first
    sys.exit(f"bench: no {count} ports in a row are free from {block} on")


class Server:
    """A process that serves so many sessions at its first port, the custodian's, and by each worker:
    at a port of its own, or, of `host` and `mirror`, at one door."""

    def __init__(self, words, folder, workers, sessions, environment=None, limit=None):
        self.has_door = "host" in words or "mirror" in words
        count = 2 if self.has_door else workers + 1
        self.first, self.workers, self.sessions = free_ports(count), workers, sessions
        self.ports = range(self.first, self.first + count)
        # How many sessions each port serves, and has had.
        self.due = [sessions, sessions * workers] if self.has_door else [sessions] * count
        self.had = [0] * count
        name = f"{os.path.basename(words[0])}-{self.first}"
        self.out, self.err = f"{folder}/{name}.served", f"{folder}/{name}.told"
        words = [*words, *map(str, (self.first, workers, sessions))]
        with open(self.out, "wb") as out, open(self.err, "wb") as err:
            self.process = subprocess.Popen(
                words,
                stdin=subprocess.DEVNULL,
                stdout=out,
                stderr=err,
                env=environment,
                preexec_fn=limit,
            )

    def told(self):
        with open(self.err, encoding="utf-8", errors="replace") as err:
            return err.read().splitlines()

    def wait_for_ports(self):
        lines = {f"listening on 127.0.0.1:{port}" for port in self.ports}
        end = time.monotonic() + PATIENCE
        while not lines <= set(self.told()):
            if self.process.poll() is not None or time.monotonic() > end:
                sys.exit(f"bench: {self.process.args} doesn't listen: {self.told()}")
            time.sleep(0.01)

    def visit(self, port):
        """A session without a line."""
        with socket.create_connection(("127.0.0.1", port), PATIENCE) as connection:
            connection.shutdown(socket.SHUT_WR)
            if connection.recv(1):
                sys.exit("bench: a session without a line had a reply")

    def end(self, report):
        """Gives each port the sessions that it hasn't had, so that the process ends by itself."""
        for port, had, due in zip(self.ports, self.had, self.due):
            for _ in range(had, due):
                self.visit(port)
        try:
            status = self.process.wait(PATIENCE)
        except subprocess.TimeoutExpired:
            sys.exit(f"bench: {self.process.args} doesn't end")
        with open(self.out, "rb") as out:
            if status != 0 or out.read() != report.encode():
                sys.exit(f"bench: {self.process.args} ended with {status} or a wrong report")

    def report(self, release):
        names = [f"port {port}" for port in self.ports]
        if not self.has_door:
            names = [f"worker {i}" for i in range(self.workers + 1)]
        lines = [f"{name} sessions {due}\n" for name, due in zip(names, self.due)]
        return "".join(lines) + f"release {release}\n"

    def connections(self, count):
        """So many sessions of analysts, as the client that asks is told of them."""
        if self.has_door:
            self.had[1] += count
            return f"door:{count}"
        for i in range(1, count + 1):
            self.had[i] += 1
        return count


@contextlib.contextmanager
def killed_at_last(server):
    try:
        server.wait_for_ports()
        yield server
    finally:
        server.process.kill()
        server.process.wait()


def serve_words(tools, folder):
    return [tools.program, "serve", *input_words(folder)]


def host_words(tools, folder):
    """The words of a server with a new journal."""
    journal = tempfile.mkdtemp(prefix="journal-", dir=tools.room)
    return [tools.program, "host", *input_words(folder), "-", "-", f"{journal}/journal"]


def numbers_of(tools, words):
    """What the client tells, by name."""
    words = [tools.client, *map(str, words)]
    try:
        told = subprocess.run(words, stdout=subprocess.PIPE, timeout=PATIENCE, check=True).stdout
    except (subprocess.CalledProcessError, subprocess.TimeoutExpired) as fault:
        sys.exit(f"bench: {fault}")
    words = told.split()
    return {name.decode(): float(number) for name, number in zip(words[::2], words[1::2])}


class Asking(typing.NamedTuple):
    """How the client asks, for what, and the file of the replies that it must get."""

    connections: int
    at_once: int
    lines: int
    seconds: float
    query: str
    replies: str


def rate(tools, server, asking):
    """How many replies came in a second."""
    connections = server.connections(asking.connections)
    how = (connections, asking.at_once, asking.lines, asking.seconds)
    told = numbers_of(tools, ["ask", server.first, *how, asking.replies, asking.query])
    return told["replies"] / told["seconds"]


def write_script(path, query, count):
    with open(path, "w", encoding="ascii") as out:
        out.writelines(f"a {query}\n" for _ in range(count))


def is_repeated(path, text, count):
    with open(path, "rb") as out:
        return all(out.read(len(text)) == text for _ in range(count)) and not out.read(1)


class Script:
    """A script of one line and one of many, the same each, and the reply to it in a file."""

    def __init__(self, tools, folder, query, count):
        self.count, self.query = count, query
        self.top = f"{folder}/{query.replace(' ', '-')}"
        self.words = {}
        for lines in (1, count):
            write_script(f"{self.top}-{lines}.txt", query, lines)
            self.words[lines] = words_of(tools.program, folder, f"{self.top}-{lines}.txt")
        self.reply = f"{self.top}.reply"
        seconds_of(self.words[1], self.reply)
        with open(self.reply, "rb") as reply:
            self.text = reply.read()
        self.one, self.many = [], []

    def run(self):
        self.one.append(seconds_of(self.words[1], f"{self.top}.out"))
        self.many.append(seconds_of(self.words[self.count], f"{self.top}.out"))
        if not is_repeated(f"{self.top}.out", self.text, self.count):
            sys.exit("bench: a line of a script has another reply than the line before it")

    def rates(self):
        """Lines a second, run by run."""
        one = statistics.median(self.one)
        return [(self.count - 1) / (seconds - one) for seconds in self.many]


class Rates(typing.NamedTuple):
    """Replies a second, run by run."""

    one: list
    prepared: list
    served: list
    four: list
    at_once: list
    served_at_once: list
    script: list
    refused: list
    refused_script: list


def measure_lines(tools, folder, empty):
    """Sessions of one process, with the server of prepared bytes and scripts in turn."""
    tables = Script(tools, folder, QUERY, LINES)
    refusals = Script(tools, empty, REFUSED, REFUSED_IN_SCRIPT)
    one = Asking(1, 1, NO_LIMIT, SECONDS, QUERY, tables.reply)
    at_once = Asking(1, AT_ONCE, LINES, MOST_SECONDS, QUERY, tables.reply)
    refused = Asking(1, AT_ONCE, REFUSED_LINES, MOST_SECONDS, REFUSED, refusals.reply)
    rates = Rates(*([] for _ in Rates._fields))
    with contextlib.ExitStack() as servers:

        def started(words, workers, sessions):
            server = Server(words, folder, workers, sessions)
            return servers.enter_context(killed_at_last(server))

        hosted = started(host_words(tools, folder), FOUR, SESSIONS_A_RUN * RUNS)
        served = started(serve_words(tools, folder), 1, SERVED_A_RUN * RUNS)
        prepared = started([tools.prepared, tables.reply], 1, RUNS)
        for _ in range(RUNS):
            rates.prepared.append(rate(tools, prepared, one))
            rates.one.append(rate(tools, hosted, one))
            rates.served.append(rate(tools, served, one))
            rates.four.append(rate(tools, hosted, one._replace(connections=FOUR)))
            rates.served_at_once.append(rate(tools, served, at_once))
            rates.at_once.append(rate(tools, hosted, at_once))
            tables.run()
            rates.refused.append(rate(tools, hosted, refused))
            refusals.run()
        prepared.end("")
        for server in (hosted, served):
            server.end(server.report(0))
    rates.script.extend(tables.rates())
    rates.refused_script.extend(refusals.rates())
    return len(tables.text), rates


def amend(place, persons):
    return f"amend {place % persons + 1} AREA=a{place % 100} SEX={place % 2 + 1}\n"


class Publications:
    """The custodian's lines, their replies and the table of each release, each in a file."""

    def __init__(self, tools, folder, persons):
        self.edits, self.answers = f"{folder}/edits.txt", f"{folder}/answers.txt"
        self.tables = f"{folder}/tables.txt"
        script, out = f"{folder}/publish.txt", f"{folder}/publish.out"
        lines = []
        for batch in range(BATCHES):
            places = range(batch * EDITS, (batch + 1) * EDITS)
            lines += [*(amend(place, persons) for place in places), "publish\n"]
        with open(self.edits, "w", encoding="ascii") as edits:
            edits.writelines(lines)
        with open(script, "w", encoding="ascii") as text:
            text.write(f"a {QUERY}\n")
            for line in lines:
                text.write(f"custodian {line}" + f"a {QUERY}\n" * (line == "publish\n"))
        seconds_of(words_of(tools.program, folder, script), out)
        self.split(out)

    def split(self, out):
        with contextlib.ExitStack() as files:
            tables, answers = (
                files.enter_context(open(path, "wb")) for path in (self.tables, self.answers)
            )
            is_table = False
            for line in files.enter_context(open(out, "rb")):
                is_table = is_table or line.startswith(b"release ")
                (tables if is_table else answers).write(line)
                is_table = is_table and line != b".\n"


class Published(typing.NamedTuple):
    """Replies a second without publications and with them, publications a second, and the fewest
    releases that a session saw, run by run."""

    without: list
    beside: list
    published: list
    releases: list


def measure_publications(tools, folder, persons):
    what = Publications(tools, folder, persons)
    figures = Published([], [], [], [])
    asking = Asking(WORKERS, 1, NO_LIMIT, MANY_SECONDS, QUERY, what.tables)
    for _ in range(PUBLISH_RUNS):
        server = Server(host_words(tools, folder), folder, WORKERS, 2)
        with killed_at_last(server):
            figures.without.append(rate(tools, server, asking))
            server.had[0] += 1
            words = ["publish", server.first, server.connections(WORKERS), MOST_SECONDS, what.tables, QUERY]
            told = numbers_of(tools, [*words, what.edits, what.answers])
            figures.beside.append(told["replies"] / told["seconds"])
            figures.published.append(told["published"] / told["seconds"])
            figures.releases.append(told["releases"])
            server.end(server.report(BATCHES))
    return figures


class OneByOne(typing.NamedTuple):
    """The seconds of a publication by `host` and by `serve`, its syncs by `host`, and the seconds of
    one, run by run."""

    hosted: list
    served: list
    syncs: list
    sync: list


@contextlib.contextmanager
def custodian(server, persons):
    """A session of the custodian's: what publishes one amend as the batch of a number, from 0."""
    server.had[0] += 1
    with socket.create_connection(("127.0.0.1", server.first), PATIENCE) as connection:
        connection.setsockopt(socket.IPPROTO_TCP, socket.TCP_NODELAY, 1)
        replies = connection.makefile("rb")

        def publish(number):
            connection.sendall(f"{amend(number, persons)}publish\n".encode())
            told = [replies.readline(), replies.readline()]
            if told != [b"held 1\n", b"published %d\n" % (number + 1)]:
                sys.exit(f"bench: publication {number + 1}: {told}")

        yield publish


def syncs_so_far(path):
    """How many syncs there were, and the seconds of all."""
    with open(path, "rb") as told:
        count, nanoseconds = TOLD.unpack(told.read())
    return count, nanoseconds / 1e9


def publish_one_by_one(server, persons, first, told):
    """The seconds of a publication of a session after its first, how many syncs it had, and the
    seconds of one."""
    with custodian(server, persons) as publish:
        publish(first)
        before, syncs = time.perf_counter(), syncs_so_far(told)
        for number in range(first + 1, first + 1 + ONE_BY_ONE):
            publish(number)
        seconds = time.perf_counter() - before
    count, syncing = (after - before for before, after in zip(syncs, syncs_so_far(told)))
    return seconds / ONE_BY_ONE, count / ONE_BY_ONE, syncing / count if count else 0


def measure_one_by_one(tools, folder, persons):
    """Publications of one amend by `host` and by `serve` in turn, a session each."""
    told, figures = f"{tools.room}/told", OneByOne([], [], [], [])
    with open(told, "wb") as out:
        out.write(bytes(TOLD.size))
    environment = {**os.environ, "LD_PRELOAD": tools.syncs, "SYNCS": told}
    hosted = Server(host_words(tools, folder), folder, 1, ONE_RUNS, environment)
    with killed_at_last(hosted):
        served = Server(serve_words(tools, folder), folder, 1, ONE_RUNS)
        with killed_at_last(served):
            for first in range(0, ONE_RUNS * (ONE_BY_ONE + 1), ONE_BY_ONE + 1):
                figures.served.append(publish_one_by_one(served, persons, first, told)[0])
                seconds, syncs, sync = publish_one_by_one(hosted, persons, first, told)
                figures.hosted.append(seconds)
                figures.syncs.append(syncs)
                figures.sync.append(sync)
            for server in (hosted, served):
                server.end(server.report(ONE_RUNS * (ONE_BY_ONE + 1)))
    if not all(figures.syncs):
        sys.exit("bench: no sync of the program was seen")
    return figures


def peak_with(tools, folder, workers, reply):
    """The peak of a process each of whose workers has a session, all at once, in bytes."""
    server = Server(host_words(tools, SMALL_INPUT), folder, workers, 1)
    with killed_at_last(server):
        rate(tools, server, Asking(workers, 1, NO_LIMIT, SECONDS / 2, QUERY, reply))
        peak = peak_so_far(server.process.pid)
        server.end(server.report(0))
    return peak


def measure_memory(tools, folder):
    """What a session takes, in KiB, run by run."""
    script, reply = f"{folder}/small.txt", f"{folder}/small.reply"
    write_script(script, QUERY, 1)
    seconds_of(words_of(tools.program, SMALL_INPUT, script), reply)
    peaks = [
        [peak_with(tools, folder, workers, reply) for workers in (WORKERS, 1)]
        for _ in range(MEMORY_RUNS)
    ]
    return [(many - one) / (WORKERS - 1) / 1024 for many, one in peaks]


class Row(typing.NamedTuple):
    what: str
    reached: float
    target: str
    holds: bool


def at_least(what, reached, least):
    return Row(what, reached, f"at least {least}", reached >= least)


def at_most(what, reached, most):
    return Row(what, reached, f"at most {most}", reached <= most)


def beside_syncs(ones):
    """A publication by `host` beside one by `serve` and two syncs, run by run."""
    for hosted, served, sync in zip(ones.hosted, ones.served, ones.sync):
        yield hosted / (served + MOST_SYNCS * sync)


def targets(rates, figures, ones, memory):
    alone = median_ratio(rates.one, rates.prepared)
    served = median_ratio(rates.one, rates.served)
    served_at_once = median_ratio(rates.at_once, rates.served_at_once)
    at_once = median_ratio(rates.at_once, rates.script)
    four = median_ratio(rates.four, rates.one)
    beyond = [
        (1 / ours - 1 / script) * 1e6 for ours, script in zip(rates.refused, rates.refused_script)
    ]
    beside = median_ratio(figures.beside, figures.without)
    yield at_least("a line at a time: rate beside that of prepared bytes", alone, 0.55)
    yield at_least(f"{AT_ONCE} lines at once: rate beside that of `script`", at_once, 0.65)
    # (a query is answered by the same calls, so these are 1 but for the noise)
    yield at_least("a line at a time: rate beside that of `serve`", served, 0.95)
    yield at_least(f"{AT_ONCE} lines at once: rate beside that of `serve`", served_at_once, 0.95)
    on = f"on {os.cpu_count()} processors"
    yield at_least(f"{FOUR} connections: rate beside that of one, {on}", four, 2.0)
    what = "a refused line, microseconds above one of `script`"
    yield at_most(what, statistics.median(beyond), 2)
    what = f"{WORKERS} connections beside publications: rate beside that without them"
    yield at_least(what, beside, 0.5)
    what = "a publication of one amend: time beside two syncs and that by `serve`"
    yield at_most(what, statistics.median(beside_syncs(ones)), 1.1)
    yield at_most("syncs of such a publication", statistics.median(ones.syncs), MOST_SYNCS)
    what = "memory of a session over `examples/small`, KiB"
    yield at_most(what, statistics.median(memory), 96)


def microseconds(seconds):
    return [each * 1e6 for each in seconds]


def print_figures(disk, rates, figures, ones, memory):
    batches = f"{BATCHES} batches of {EDITS} amends"
    print("| What | Runs | Median (least to most) |")
    print("|---|---|---|")
    for what, told in [
        ("one connection, a line at a time, replies a second", rates.one),
        ("the same from the server of prepared bytes", rates.prepared),
        ("the same by `serve`", rates.served),
        (f"{FOUR} connections, a line at a time, replies a second", rates.four),
        (f"one connection, {AT_ONCE} lines at once, replies a second", rates.at_once),
        ("the same by `serve`", rates.served_at_once),
        ("`script`, tables a second", rates.script),
        (f"one connection, {AT_ONCE} refused lines at once, replies a second", rates.refused),
        ("`script`, refused lines a second", rates.refused_script),
        (f"{WORKERS} connections, a line at a time, replies a second", figures.without),
        (f"the same beside {batches}", figures.beside),
        ("publications a second meanwhile", figures.published),
        ("fewest different releases that a session saw after its first", figures.releases),
        ("a publication of one amend, microseconds", microseconds(ones.hosted)),
        ("the same by `serve`", microseconds(ones.served)),
        (f"one sync on {file_system_of(disk)}, microseconds", microseconds(ones.sync)),
        ("memory of a session, KiB", memory),
    ]:
        spread = f"{statistics.median(told):,.0f} ({min(told):,.0f} to {max(told):,.0f})"
        print(f"| {what} | {len(told)} | {spread} |")


def print_targets(rows):
    print("| What | Reached | Target | |")
    print("|---|---|---|---|")
    for row in rows:
        holds = "holds" if row.holds else "missed"
        print(f"| {row.what} | {row.reached:.2f} | {row.target} | {holds} |")


def main(program, client, prepared, syncs, disk, persons=LARGE):
    persons = int(persons)
    with contextlib.ExitStack() as folders:

        def folder_in(place):
            made = tempfile.TemporaryDirectory(prefix="tablebuilder-serve-", dir=place)
            return folders.enter_context(made)

        room, top = folder_in(disk), folder_in(None)
        tools = Tools(*map(os.path.abspath, (program, client, prepared, syncs, room)))
        folder, empty = f"{top}/persons", f"{top}/none"
        for path, count in ((folder, persons), (empty, NONE)):
            os.mkdir(path)
            make_input(path, count, ASCENDING)
        length, rates = measure_lines(tools, folder, empty)
        figures = measure_publications(tools, folder, persons)
        ones = measure_one_by_one(tools, folder, persons)
        memory = measure_memory(tools, folder)
    print(f"{machine()}; replies equal byte by byte, no release of a session fell")
    print(f"{persons:,} persons, `{QUERY}`, its cube kept: {length:,} bytes a reply\n")
    print_figures(disk, rates, figures, ones, memory)
    print()
    print_targets(targets(rates, figures, ones, memory))


if __name__ == "__main__":
    with rows_written("serve"):
        main(*sys.argv[1:])
