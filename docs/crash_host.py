#!/usr/bin/env python3
"""Kills a server that keeps a journal at random moments, while 16 clients of its door ask for tables
and one publishes, starts it again, and compares what they were told with what the journal has.

    crash_host.py PROGRAM [KILLS [SEED]]

The server is `host` over examples/small. Its batches are those of `crash.py`: each tells which it
is. It is killed (SIGKILL) a random time after its start, or once a random number of batches was
published, at once or some milliseconds later, KILLS times (50 where it isn't given), and started
again at the same ports. Only what came whole counts as a reply. After each kill
`clients/journal.py` must read in the journal the batches that it had at the start, those that were
published since, in order, and at most one more, the next. No table may be of a later release than
that to which these lead, or of an earlier one than the server began with, and in each session the
releases never fall. At the end a server that isn't killed must be at the journal's release and end
with its report, and each table that any client got must be, byte by byte, the one that `script`
prints over the lines of the journal's batches.

What was written survives a kill, also where no sync followed: this shows the order of writes and
replies, and nothing of a machine that stops. It ends within three minutes, and with status 1 where
anything was otherwise.
"""
import itertools
import os
import random
import socket
import subprocess
import sys
import tempfile
import threading
import time

sys.dont_write_bytecode = True
HERE = os.path.dirname(os.path.abspath(__file__))
sys.path.insert(0, f"{HERE}/../bench")
from crash import FILES, Wrong, batch, journal
from serve import free_ports

WORKERS, NO_LIMIT = 16, "1000000"
QUERIES = (
    "table SEX",
    "table AREA by SEX with totals",
    "table AGE by AREA",
    "table AREA by AGE by SEX",
)
# One line in so many asks for an earlier release, and a session has so many lines at most.
PAST, MOST_LINES = 5, 300
# How many batches a run publishes at most, so that there are never as many as a chain may have.
MOST_PUBLISHED = 150
# A run is killed after a time that is drawn, from so many seconds to as many times that; or when it
# has published as many batches as are drawn, or at most so many seconds later. Small numbers come as
# often as large ones: it is their power that is drawn. No run lasts longer than so many seconds.
SOON, TIMES, LATER, LONGEST = 0.01, 150, 0.006, 2
# How long the whole test may take, when the last server begins at the latest, and how long a reply.
MOST_SECONDS, LAST_BEGINS, PATIENCE = 175, 140, 30


class Ended(Exception):
    """The server has gone, or ended a session."""


class Session:
    """A session at a port of a server, which may not listen yet, if it isn't over."""

    def __init__(self, is_over, port):
        while True:
            try:
                self.socket = socket.create_connection(("127.0.0.1", port), PATIENCE)
                break
            except OSError as fault:
                if is_over():
                    raise Ended(str(fault)) from fault
                time.sleep(0.002)
        self.socket.setsockopt(socket.IPPROTO_TCP, socket.TCP_NODELAY, 1)
        self.file = self.socket.makefile("rb")

    def __enter__(self):
        return self

    def __exit__(self, *_):
        self.file.close()
        self.socket.close()

    def write(self, *lines):
        try:
            self.socket.sendall("".join(f"{line}\n" for line in lines).encode())
        except OSError as fault:
            raise Ended(str(fault)) from fault

    def line(self):
        """The next line that comes whole, with its end."""
        try:
            line = self.file.readline()
        except OSError as fault:
            raise Ended(str(fault)) from fault
        if not line.endswith(b"\n"):
            raise Ended(f"a session ended after {line!r}")
        return line

    def ask(self, line):
        """The whole reply to a line."""
        self.write(line)
        reply = [self.line()]
        while reply[0].startswith(b"release ") and reply[-1] != b".\n":
            reply.append(self.line())
        return b"".join(reply)


def release_of(reply):
    """The number of a table's release."""
    word, _, number = reply.partition(b"\n")[0].partition(b" ")
    if word != b"release":
        raise Wrong(f"a table is due, and the reply is {reply!r}")
    return int(number)


def write_script(path, batches, tables):
    """The lines of batches, and after each the queries that had a table at that release."""
    asked, classes = [], journal.read_classes(FILES[0])
    with open(path, "w", encoding="ascii") as out:
        for release, edits in enumerate([[], *batches]):
            if release > 0:
                lines = journal.lines(release, edits, classes)[1:]
                out.writelines(f"custodian {line}\n" for line in lines)
            here = [query for query in QUERIES if (query, release) in tables]
            out.writelines(f"a {query}\n" for query in here)
            asked += [(query, release) for query in here]
    return asked


def compare(tables, batches, words, folder, seconds):
    """Compares each table that a client got, by its query and release, with that of a script of the
    batches, which the words begin."""
    script = f"{folder}/script.txt"
    asked = write_script(script, batches, tables)
    done = subprocess.run([*words, script], stdout=subprocess.PIPE, timeout=seconds, check=True)
    places, table, got = iter(asked), [], 0
    for line in done.stdout.splitlines(keepends=True):
        if not table and not line.startswith(b"release "):
            continue
        table.append(line)
        if line == b".\n":
            query, release = next(places)
            if b"".join(table) != tables[query, release]:
                raise Wrong(f"`{query}` at release {release}: a client got "
                            f"{tables[query, release]!r}, and `script` prints {b''.join(table)!r}")
            table, got = [], got + 1
    if got != len(asked) or len(asked) != len(tables):
        raise Wrong(f"`script` prints {got} tables of {len(tables)}")


class Run:
    """A run of the server, which begins with so many batches in its journal."""

    def __init__(self, test):
        self.test, self.kept, self.published = test, test.kept, 0
        self.tables, self.replies, self.faults = {}, 0, []
        self.is_killed, self.lock = False, threading.Lock()
        self.has_news = threading.Condition(self.lock)
        self.told = open(f"{test.folder}/told", "w+b")
        words = [*test.words("host"), "-", "-", test.journal, str(test.port), str(WORKERS), NO_LIMIT]
        self.process = subprocess.Popen(
            words, stdin=subprocess.DEVNULL, stdout=subprocess.DEVNULL, stderr=self.told
        )

    def is_over(self):
        return self.is_killed or bool(self.faults) or self.process.poll() is not None

    def guarded(self, work, *words):
        """Does a client's work; that a session ends is right once the server is killed."""
        fault = None
        try:
            work(*words)
        except Ended:
            # (what ends it may be the kill, of which this thread doesn't know yet)
            if not self.is_killed:
                fault = Wrong("a session ended, and the server wasn't killed")
        except Exception as other:
            fault = other
        if fault is not None:
            with self.lock:
                self.faults.append(fault)
                self.has_news.notify_all()

    def publish(self):
        """The custodian's session."""
        with Session(self.is_over, self.test.port) as session:
            told = session.ask("stats")
            if not told.startswith(b"stats release %d looks " % self.kept):
                raise Wrong(f"the journal has {self.kept} batches, and the custodian got {told!r}")
            for number in range(self.kept, self.kept + MOST_PUBLISHED):
                session.write(*self.test.lines(number))
                held = range(1, len(batch(number)) + 1)
                for due in (*(b"held %d\n" % n for n in held), b"published %d\n" % (number + 1)):
                    line = session.line()
                    if line != due:
                        raise Wrong(f"the custodian got {line!r}, and {due!r} is due")
                with self.lock:
                    self.published += 1
                    self.has_news.notify_all()
            session.line()

    def ask(self, client, seed):
        """A client's sessions at the door, each of which may be by another worker."""
        draw, query = random.Random(seed), QUERIES[client % len(QUERIES)]
        while True:
            newest = self.kept
            with Session(self.is_over, self.test.port + 1) as session:
                for turn in range(draw.randint(1, MOST_LINES)):
                    at = draw.randint(0, newest) if turn % PAST == PAST - 1 else None
                    reply = session.ask(query if at is None else f"at {at} {query}")
                    release = release_of(reply)
                    if at is None and release < newest:
                        raise Wrong(f"client {client}: release {release} came after {newest}")
                    if at is not None and release != at:
                        raise Wrong(f"client {client}: release {release} came for {at}")
                    newest = max(newest, release)
                    self.take(query, release, reply)

    def take(self, query, release, reply):
        """Keeps a table, which must be equal to the one that another client got."""
        with self.lock:
            self.replies += 1
            if self.tables.setdefault((query, release), reply) != reply:
                raise Wrong(f"`{query}` has two tables at release {release}: {reply!r}")

    def wait(self, draw):
        """Waits until the moment that is drawn for the kill, or for a fault."""
        end = self.test.end(LONGEST)
        if draw.random() < 0.5:
            end = min(end, time.monotonic() + SOON * TIMES ** draw.random())
            most = MOST_PUBLISHED + 1
        else:
            most = round(MOST_PUBLISHED ** draw.random())
        with self.lock:
            while self.published < most and not self.faults and time.monotonic() < end:
                self.has_news.wait(max(end - time.monotonic(), 0))
            is_there = self.published >= most
        if is_there:
            # (at once: what comes too early is then without its batch)
            time.sleep(draw.choice((0, draw.uniform(0, LATER))))

    def kill_after(self, draw):
        """Lets clients ask and publish, and kills the server."""
        works = [(self.publish,)]
        works += [(self.ask, client, draw.random()) for client in range(1, WORKERS + 1)]
        threads = [threading.Thread(target=self.guarded, args=work) for work in works]
        for thread in threads:
            thread.start()
        try:
            self.wait(draw)
        finally:
            ended = self.process.poll()
            self.is_killed = True
            self.process.kill()
            self.process.wait()
            for thread in threads:
                thread.join()
            self.told.seek(0)
            told = self.told.read()
            self.told.close()
        if ended is not None:
            raise Wrong(f"the server ended by itself with status {ended}: {told!r}")
        for fault in self.faults:
            raise fault


class Test:
    def __init__(self, program, kills, seed, folder):
        self.program, self.kills, self.draw = program, kills, random.Random(seed)
        self.began, self.folder, self.journal = time.monotonic(), folder, f"{folder}/journal"
        self.port, self.classes = free_ports(2), journal.read_classes(FILES[0])
        self.kept = self.done = self.doubtful = self.replies = 0
        self.tables = {}

    def end(self, seconds):
        """The moment after so many seconds, or at the end of the whole time."""
        return min(time.monotonic() + seconds, self.began + MOST_SECONDS)

    def words(self, command):
        return [self.program, command, *FILES, "0"]

    def lines(self, number):
        """The custodian's lines of a batch, from 0 (the first line of all is a comment)."""
        return journal.lines(number + 1, batch(number), self.classes)[1:]

    def found(self):
        """The batches of the journal."""
        try:
            return list(journal.batches(self.journal))
        except FileNotFoundError:
            return []
        except journal.Error as fault:
            raise Wrong(str(fault)) from fault

    def look(self, run):
        """Compares the journal with what was told in a run."""
        found, least = self.found(), run.kept + run.published
        if not least <= len(found) <= least + 1:
            raise Wrong(f"the journal has {len(found)} batches: it had {run.kept}, and "
                        f"{run.published} were published since")
        for number, edits in enumerate(found):
            if edits != batch(number):
                raise Wrong(f"batch {number + 1} isn't the one that was asked for")
        for (query, release), reply in run.tables.items():
            if release > len(found):
                raise Wrong(f"a table is of release {release}, and the journal leads to "
                            f"{len(found)}")
            if self.tables.setdefault((query, release), reply) != reply:
                raise Wrong(f"`{query}` has another table at release {release} than before")
        self.doubtful += len(found) - least
        self.kept, self.replies = len(found), self.replies + run.replies

    def kill_one(self):
        run = Run(self)
        run.kill_after(self.draw)
        self.done += 1
        self.look(run)

    def compare(self):
        """Compares each table with that of a script of the journal's batches."""
        seconds = max(self.end(MOST_SECONDS) - time.monotonic(), 1)
        compare(self.tables, self.found(), self.words("script"), self.folder, seconds)

    def finish(self):
        """A server that isn't killed: each worker has one session, and then it ends."""
        words = [*self.words("host"), "-", "-", self.journal, str(self.port), str(WORKERS), "1"]
        process = subprocess.Popen(words, stdout=subprocess.PIPE, stderr=subprocess.PIPE)
        timer = threading.Timer(self.end(PATIENCE) - time.monotonic(), process.kill)
        timer.start()
        try:
            # (the analysts come first: then the custodian's session is the last)
            for worker in itertools.chain(range(1, WORKERS + 1), [0]):
                self.visit(process, worker)
            out, told = process.communicate()
        finally:
            timer.cancel()
            process.kill()
        report = f"port {self.port} sessions 1\nport {self.port + 1} sessions {WORKERS}\n"
        report += f"release {self.kept}\n"
        if (process.returncode, out.decode()) != (0, report):
            raise Wrong(f"the last server ended with status {process.returncode}: {out!r} {told!r}")

    def visit(self, process, worker):
        with Session(lambda: process.poll() is not None, self.port + min(worker, 1)) as session:
            if worker == 0:
                told, due = session.ask("stats"), b"stats release %d looks " % self.kept
            else:
                told, due = session.ask(QUERIES[0]), b"release %d\n" % self.kept
            if not told.startswith(due):
                raise Wrong(f"the last server, session {worker}: {told!r}")

    def run(self):
        while self.done < self.kills:
            if time.monotonic() > self.began + LAST_BEGINS:
                raise Wrong(f"there was time for {self.done} kills of {self.kills}")
            self.kill_one()
        if self.kept == 0 or not self.tables:
            raise Wrong("nothing was published, or no table came")
        self.finish()
        self.compare()


def main(program, kills="50", seed=None):
    seed = seed or str(random.randrange(1 << 32))
    with tempfile.TemporaryDirectory() as folder:
        test = Test(os.path.abspath(program), int(kills), seed, folder)
        try:
            test.run()
        except (Wrong, Ended, subprocess.SubprocessError) as fault:
            print(f"after kill {test.done}: {fault} (seed {seed})")
            return 1
        finally:
            print(f"{test.done} kills, {test.kept} publications, after {test.doubtful} kills one was "
                  f"there that wasn't acknowledged; {test.replies} replies, {len(test.tables)} "
                  f"different tables; {time.monotonic() - test.began:.0f} seconds")
    return 0


if __name__ == "__main__":
    sys.exit(main(*sys.argv[1:]))
