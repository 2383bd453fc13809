#!/usr/bin/env python3
"""Kills each process between a custodian and the analysts of two mirrors in turn, while the one
publishes and 16 clients ask, starts it again, and compares what came with the custodian's lines.

    crash_mirrors.py PROGRAM [SEED]

On this machine are `host` over examples/small, the relay's `feed`, a `redis-server`, two `mirror`s
with an `apply` each, and haproxy in front of the mirrors' doors, which asks the agents of each
`apply`. A custodian publishes 500 batches, those of `crash.py`, and 16 clients ask through haproxy.
Meanwhile each of these eight processes is killed (SIGKILL) and started again, three times, in an
order that is drawn. In a session no release is older than the one before it, and none is one that
the custodian can't have published. At the end the journal has the 500 batches, all ports of both
mirrors are at release 500, and each table that any client got is, byte by byte, the one that
`script` prints over the custodian's lines.

Then, each with its message and status 3, a relay must stop: `apply` of a mirror over another
perturbation table, and of one that begins after the stream was trimmed, which both stay at release
0; and `feed` after the journal was replaced by a backup, when it is shorter than the stream and
when it has gone on with other batches, which no mirror then has.

`redis-server`, haproxy and `python3-redis` are installed by apt-get where they aren't there, and
not started. All that this starts has ports and a folder of its own, and is killed at the end. It
ends within five minutes, and with status 1 where anything was otherwise.
"""
import contextlib
import os
import random
import re
import shutil
import signal
import subprocess
import sys
import tempfile
import threading
import time

sys.dont_write_bytecode = True
HERE = os.path.dirname(os.path.abspath(__file__))
sys.path.insert(0, f"{HERE}/../bench")
from crash import FILES, Wrong, batch, journal
from crash_host import PAST, QUERIES, Ended, Session, compare, release_of
from serve import free_ports

RELAY = f"{HERE}/../clients/relay/relay.py"
STREAM, NO_LIMIT, STOPPED = "tables", "1000000", 3
BATCHES, CLIENTS, MIRRORS, WORKERS = 500, 16, 2, 8
# How often each process is killed, how many seconds there are from one kill to the next, and for
# how long it is gone at most.
TURNS, EACH_SECONDS, MOST_GONE = 3, 4, 0.5
# How many lines a client's session has at most, and the pause between two: the machine is to have
# time for the relay too.
MOST_LINES, PAUSE_SECONDS = 100, 0.01
# The batch at which the backup is made.
BACKUP_AT = 200
# How long the whole test may take; what doesn't come within PATIENCE won't.
MOST_SECONDS, PATIENCE = 280, 60
PATH = os.environ.get("PATH", "") + ":/usr/sbin:/sbin"
POLICY = "/usr/sbin/policy-rc.d"
HAPROXY = """\
global
    maxconn 500
defaults
    mode tcp
    timeout connect 5s
    timeout queue 1m
    timeout client 1m
    timeout server 1m
frontend tables
    bind 127.0.0.1:{front}
    default_backend mirrors
backend mirrors
    balance leastconn
    option redispatch
    default-server check inter 500ms fall 1 rise 1 agent-check agent-inter 500ms
"""
SERVER = "    server m{port} 127.0.0.1:{port} maxconn {workers} port {agent} agent-port {agent}\n"


# ---- what has to be there


def python_with_redis():
    """A Python that has the module of Redis, if there is one."""
    for python in (sys.executable, "/usr/bin/python3"):
        words = [python, "-c", "import redis"]
        with contextlib.suppress(OSError):
            if subprocess.run(words, stderr=subprocess.DEVNULL, check=False).returncode == 0:
                return python
    return None


def install_missing():
    """Installs what isn't there, so that nothing of it is started."""
    packages = [it for it in ("redis-server", "haproxy") if shutil.which(it, path=PATH) is None]
    packages += ["python3-redis"] * (python_with_redis() is None)
    if not packages:
        return
    if shutil.which("apt-get") is None or os.geteuid() != 0:
        sys.exit(f"this needs {' '.join(packages)}, which only root can install, by apt-get")
    print(f"installing {' '.join(packages)}", flush=True)
    has_policy = os.path.exists(POLICY)
    if not has_policy:
        with open(POLICY, "w", encoding="ascii") as out:
            out.write("#!/bin/sh\nexit 101\n")
        os.chmod(POLICY, 0o755)
    try:
        more = {"env": {**os.environ, "DEBIAN_FRONTEND": "noninteractive"}, "check": True}
        more["stdout"] = subprocess.DEVNULL
        subprocess.run(["apt-get", "update"], **more)
        subprocess.run(["apt-get", "install", "-y", "--no-install-recommends", *packages], **more)
    finally:
        if not has_policy:
            os.remove(POLICY)


# ---- the processes


class Process:
    """A process that can be killed and started again; what it tells is in a file."""

    def __init__(self, name, words, folder):
        self.name, self.words, self.path = name, words, f"{folder}/{name}.told"
        self.process, self.kills = None, 0

    def __enter__(self):
        self.start()
        return self

    def __exit__(self, *_):
        self.kill()

    def start(self):
        with open(self.path, "ab") as told:
            words = {"stdin": subprocess.DEVNULL, "stdout": told, "stderr": told}
            self.process = subprocess.Popen(self.words, **words)

    def kill(self):
        self.process.kill()
        self.process.wait()

    def kill_in_turn(self):
        self.check()
        self.kill()
        self.kills += 1

    def check(self):
        """A process that isn't killed doesn't end."""
        if self.process.poll() is not None:
            raise Wrong(f"{self.name} ended by itself with status {self.process.returncode}:"
                        f" {self.told()}")

    def told(self):
        with open(self.path, encoding="utf-8", errors="replace") as file:
            return " | ".join(file.read().splitlines()[-3:])

    def must_stop(self, why):
        """A relay stops, and that is its last line."""
        try:
            status = self.process.wait(PATIENCE)
        except subprocess.TimeoutExpired:
            raise Wrong(f"{self.name} doesn't stop: {self.told()}") from None
        with open(self.path, encoding="utf-8") as file:
            last = file.read().splitlines()[-1]
        if status != STOPPED or why not in last:
            raise Wrong(f"{self.name} stopped with status {status}: {last}")
        print(f"{self.name} stopped: {last}", flush=True)


class Site:
    """The processes, and their ports."""

    def __init__(self, program, folder):
        self.program, self.folder, self.journal = program, folder, f"{folder}/journal"
        self.python = python_with_redis()
        # The custodian's and that of `feed`, each mirror's and two more mirrors', and the others.
        count = 2 + MIRRORS * 2 + 2 * 2 + MIRRORS + 2
        ports = iter(range(first := free_ports(count), first + count))
        self.host_port, self.feed_port = next(ports), next(ports)
        self.mirror_ports = [[next(ports), next(ports)] for _ in range(MIRRORS)]
        self.agents = [next(ports) for _ in range(MIRRORS)]
        self.more = [[next(ports), next(ports)] for _ in range(2)]
        self.redis_port, self.front = next(ports), next(ports)

    def tool(self, name):
        return shutil.which(name, path=PATH)

    def process(self, name, words):
        return Process(name, [str(word) for word in words], self.folder)

    def redis(self):
        os.makedirs(f"{self.folder}/redis")
        words = [self.tool("redis-server"), "--port", self.redis_port, "--bind", "127.0.0.1"]
        words += ["--dir", f"{self.folder}/redis", "--appendonly", "yes", "--save", ""]
        return self.process("redis", words)

    def redis_command(self, *words):
        words = ["redis-cli", "-p", str(self.redis_port), *map(str, words)]
        done = subprocess.run(words, stdout=subprocess.PIPE, timeout=PATIENCE, check=True)
        return done.stdout.decode().strip()

    def host(self):
        words = [self.program, "host", *FILES, "0", "-", "-", self.journal, self.host_port, 1, NO_LIMIT]
        return self.process("host", words)

    def mirror(self, name, ports, files=FILES):
        words = [self.program, "mirror", *files, "0", "-", "-", ports[0], WORKERS, NO_LIMIT]
        return self.process(name, words)

    def relay(self, name, *words):
        url = f"redis://127.0.0.1:{self.redis_port}/0"
        words = [self.python, "-B", RELAY, *words, "--redis", url, "--stream", STREAM]
        return self.process(name, words)

    def feed(self, name="feed"):
        return self.relay(name, "feed", self.journal, f"127.0.0.1:{self.feed_port}", *FILES, 0)

    def apply(self, name, ports, *more, files=FILES):
        words = ["apply", f"127.0.0.1:{ports[0]}", *files, 0, "--name", name, *more]
        return self.relay(f"apply-{name}", *words)

    def haproxy(self):
        path, text = f"{self.folder}/haproxy.cfg", HAPROXY.format(front=self.front)
        for ports, agent in zip(self.mirror_ports, self.agents):
            text += SERVER.format(port=ports[1], agent=agent, workers=WORKERS)
        with open(path, "w", encoding="ascii") as out:
            out.write(text)
        return self.process("haproxy", [self.tool("haproxy"), "-db", "-f", path])

    def all(self):
        """The processes between the custodian and the analysts."""
        processes = [self.redis(), self.host(), self.feed(), self.haproxy()]
        for place, (ports, agent) in enumerate(zip(self.mirror_ports, self.agents), 1):
            processes.append(self.mirror(f"mirror{place}", ports))
            processes.append(self.apply(f"mirror{place}", ports, "--agent", agent))
        return processes

    def status(self):
        """How far each mirror is, by `status`."""
        words = [str(word) for word in self.relay("status", "status").words]
        done = subprocess.run(words, stdout=subprocess.PIPE, timeout=PATIENCE, check=True)
        return re.findall(r"^mirror (\S+) at (\d+) behind (\d+) (\w+) ", done.stdout.decode(), re.M)


# ---- the custodian, the clients and the kills


class Test:
    def __init__(self, program, seed, folder):
        self.site, self.draw = Site(program, folder), random.Random(seed)
        self.classes = journal.read_classes(FILES[0])
        self.began, self.folder = time.monotonic(), folder
        self.published = self.doubtful = self.replies = self.sessions = 0
        self.tables, self.faults = {}, []
        self.is_done, self.lock = threading.Event(), threading.Lock()

    def seconds(self):
        return MOST_SECONDS - (time.monotonic() - self.began)

    def is_over(self):
        return self.is_done.is_set() or bool(self.faults) or self.seconds() < 0

    def guarded(self, work, *words):
        """Does the work of the custodian or a client, session after session, until it is done."""
        try:
            while not self.is_over() and not work(*words):
                pass
        except Exception as fault:
            self.faults.append(fault)

    def publish(self):
        """A session of the custodian's; True where all is published."""
        try:
            with Session(self.is_over, self.site.host_port) as session:
                self.publish_in(session)
        except Ended:
            time.sleep(0.05)
        return self.published == BATCHES

    def publish_in(self, session):
        told = session.ask("stats")
        release = int(told.split()[2])
        if not self.published <= release <= self.published + 1:
            raise Wrong(f"{self.published} batches were told as published, and then: {told!r}")
        self.doubtful += release - self.published
        self.published = release
        for number in range(release, BATCHES):
            # (so that the last comes when the kills are over)
            due = self.began + number * TURNS * EACH_SECONDS * self.count() / BATCHES
            time.sleep(max(due - time.monotonic(), 0))
            if self.is_over():
                return
            session.write(*journal.lines(number + 1, batch(number), self.classes)[1:])
            held = [b"held %d\n" % (place + 1) for place in range(len(batch(number)))]
            for wanted in (*held, b"published %d\n" % (number + 1)):
                line = session.line()
                if line != wanted:
                    raise Wrong(f"the custodian got {line!r}, and {wanted!r} is due")
            self.published = number + 1

    def count(self):
        return 4 + 2 * MIRRORS

    def ask(self, client, draw):
        """A client's session, through haproxy."""
        query = QUERIES[client % len(QUERIES)]
        try:
            with Session(self.is_over, self.site.front) as session:
                newest, self.sessions = 0, self.sessions + 1
                for turn in range(draw.randint(1, MOST_LINES)):
                    if self.is_over():
                        break
                    at = draw.randint(0, newest) if turn % PAST == PAST - 1 else None
                    reply = session.ask(query if at is None else f"at {at} {query}")
                    newest = self.take(query, at, newest, reply)
                    time.sleep(PAUSE_SECONDS)
        except Ended:
            time.sleep(0.02)

    def take(self, query, at, newest, reply):
        """Keeps a table, which must be equal to the one that another client got."""
        release = release_of(reply)
        if at is not None and release != at:
            raise Wrong(f"release {release} came for {at}")
        if at is None and release < newest:
            raise Wrong(f"release {release} came after {newest}")
        with self.lock:
            self.replies += 1
            if release > self.published + 1:
                raise Wrong(f"release {release} came, and {self.published} were published")
            if self.tables.setdefault((query, release), reply) != reply:
                raise Wrong(f"`{query}` has two tables at release {release}: {reply!r}")
        return max(newest, release)

    def kill_in_turn(self, processes):
        """Kills each process and starts it again, all of them before one comes again."""
        backup, next_kill = False, self.began
        for _ in range(TURNS):
            for process in self.draw.sample(processes, len(processes)):
                next_kill += EACH_SECONDS
                while time.monotonic() < next_kill:
                    self.watch(processes)
                process.kill_in_turn()
                time.sleep(self.draw.uniform(0, MOST_GONE))
                process.start()
                if not backup and self.published >= BACKUP_AT:
                    backup = bool(journal.copy(self.site.journal, f"{self.folder}/backup"))

    def watch(self, processes):
        """A moment in which nothing may end and nobody may have a fault."""
        time.sleep(0.1)
        for fault in self.faults:
            raise fault
        if self.seconds() < 0:
            told = "".join(f"\n{process.name}: {process.told()}" for process in processes)
            raise Wrong(f"after {MOST_SECONDS} seconds {self.published} batches are published, and"
                        f" the mirrors are at {self.site.status()}{told}\n")
        for process in processes:
            process.check()

    def run(self, stack):
        processes = [stack.enter_context(process) for process in self.site.all()]
        works = [(self.publish,)]
        draws = [random.Random(self.draw.random()) for _ in range(CLIENTS)]
        works += [(self.ask, client, draw) for client, draw in enumerate(draws)]
        threads = [threading.Thread(target=self.guarded, args=work) for work in works]
        for thread in threads:
            thread.start()
        try:
            self.kill_in_turn(processes)
            while self.published < BATCHES or not self.have_come():
                self.watch(processes)
        finally:
            self.is_done.set()
            for thread in threads:
                thread.join()
        for fault in self.faults:
            raise fault
        self.look()
        self.refuse(stack, *processes[1:3])

    def have_come(self):
        wanted = [(f"mirror{place + 1}", str(BATCHES), "0", "up") for place in range(MIRRORS)]
        time.sleep(1)
        return self.site.status() == wanted

    def look(self):
        """What is there at the end."""
        found = list(journal.batches(self.site.journal))
        if found != [batch(number) for number in range(BATCHES)]:
            raise Wrong(f"the journal has {len(found)} batches, or others than were asked for")
        if self.site.redis_command("XLEN", STREAM) != str(BATCHES):
            raise Wrong("the stream hasn't as many entries as there are batches")
        for ports in self.site.mirror_ports:
            for port in ports[1:]:
                self.must_be_at(port, BATCHES)
        words = [self.site.program, "script", *FILES, "0"]
        compare(self.tables, found, words, self.folder, max(self.seconds(), 1))

    def must_be_at(self, port, release):
        """An analysts' port prints a table of a release, the one that is kept of it."""
        for query in QUERIES:
            with Session(lambda: self.seconds() < 0, port) as session:
                reply = session.ask(query)
            kept = self.tables.setdefault((query, release), reply)
            if release_of(reply) != release or reply != kept:
                raise Wrong(f"port {port}: {reply!r} and not {kept!r}")

    # ---- what must stop

    def refuse(self, stack, host, feed):
        self.refuse_other_files(stack)
        self.refuse_trimmed(stack)
        self.refuse_backup(stack, host, feed)

    def refuse_other_files(self, stack):
        other = f"{self.folder}/ptable.csv"
        with open(FILES[2], encoding="ascii") as file:
            text = file.read()
        with open(other, "w", encoding="ascii") as out:
            out.write(re.sub(r"(?m)^(1,\d+),\d+$", r"\1,0", text, count=1))
        files = [*FILES[:2], other, FILES[3]]
        self.must_stay(stack, "other", self.site.more[0], files, "one of other files")

    def refuse_trimmed(self, stack):
        self.site.redis_command("XTRIM", STREAM, "MINID", f"{BATCHES // 2}-0")
        self.must_stay(stack, "late", self.site.more[1], FILES, f"the stream {STREAM} was trimmed")

    def must_stay(self, stack, name, ports, files, why):
        """A mirror whose relay stops stays at release 0."""
        stack.enter_context(self.site.mirror(name, ports, files))
        apply = stack.enter_context(self.site.apply(name, ports, files=files))
        apply.must_stop(why)
        with Session(lambda: self.seconds() < 0, ports[1]) as session:
            reply = session.ask(QUERIES[0])
        if release_of(reply) != 0:
            raise Wrong(f"{name} has a table of release {release_of(reply)}")

    def refuse_backup(self, stack, host, feed):
        last = self.site.redis_command("XREVRANGE", STREAM, "+", "-", "COUNT", "1")
        for process in (host, feed):
            process.kill()
        os.replace(f"{self.folder}/backup", self.site.journal)
        host.start()
        why = f"batches, and the stream {STREAM} has {BATCHES}: it is a journal from a backup"
        stack.enter_context(self.site.feed("feed-of-a-backup")).must_stop(why)
        self.go_on_otherwise()
        why = f"the first {BATCHES} batches of {self.site.journal} aren't those of the stream"
        stack.enter_context(self.site.feed("feed-of-another-chain")).must_stop(why)
        if self.site.redis_command("XREVRANGE", STREAM, "+", "-", "COUNT", "1") != last:
            raise Wrong("the stream has got another last entry")
        for ports in self.site.mirror_ports:
            self.must_be_at(ports[1], BATCHES)

    def go_on_otherwise(self):
        """The custodian publishes other batches than before, up to a later release."""
        with Session(lambda: self.seconds() < 0, self.site.host_port) as session:
            for number in range(int(session.ask("stats").split()[2]), BATCHES + 1):
                session.write(f"pvalue 1 {number % 256} 0", "publish")
                told = [session.line(), session.line()]
                if told[1] != b"published %d\n" % (number + 1):
                    raise Wrong(f"after the backup the custodian got {told}")


def main(program, seed=None):
    seed = seed or str(random.randrange(1 << 32))
    install_missing()
    signal.signal(signal.SIGTERM, lambda *_: sys.exit(1))
    with tempfile.TemporaryDirectory() as folder, contextlib.ExitStack() as stack:
        test = Test(os.path.abspath(program), seed, folder)
        try:
            test.run(stack)
        except (Wrong, Ended, subprocess.SubprocessError) as fault:
            print(f"{fault} (seed {seed})", flush=True)
            return 1
        finally:
            print(f"{test.published} publications, of which {test.doubtful} were in doubt;"
                  f" {test.replies} replies in {test.sessions} sessions, {len(test.tables)}"
                  f" different tables; {time.monotonic() - test.began:.0f} seconds", flush=True)
    return 0


if __name__ == "__main__":
    sys.exit(main(*sys.argv[1:]))
