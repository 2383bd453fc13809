#!/usr/bin/env python3
"""Runs the server where files are wanting, and with clients that don't stop, and compares what its
clients get, what it says on the standard error, and its status.

    pressure.py PROGRAM

The server is `serve` over examples/small, with a worker, and each of the others for how many
sessions its ports have; and `host` with a thousand workers for a thousand clients at its door, and
for a door without files. How many files it may have open is set while it runs (`prlimit`), so Linux
is needed. It ends within two minutes, and with status 1 where anything was otherwise.
"""

import contextlib
import errno
import os
import resource
import socket
import subprocess
import sys
import tempfile
import threading
import time

sys.dont_write_bytecode = True
HERE = os.path.dirname(os.path.abspath(__file__))
sys.path.insert(0, f"{HERE}/../bench")
from serve import free_ports

SMALL = os.path.join(HERE, "..", "examples", "small")
FILES = ["classes.csv", "recodes.csv", "ptable.csv", "people.csv", "0"]
# No dwellings and no links.
NONE = ["-", "-"]
QUERY, TABLE = b"table SEX\n", b"release 0\nSEX,count\n1,1\n2,2\n.\n"
TOO_LONG = b"refused 9 TooLong\n"
WANT = f"failed: {os.strerror(errno.EMFILE)} (os error {errno.EMFILE})"
# How often an accept is tried again, and how long it waits before each.
PAUSES, PAUSE = 60, 1
PATIENCE = 30


class Server:
    """A server at two ports, the custodian's and its workers', each with so many sessions."""

    def __init__(self, program, sessions, command=("serve", *FILES), workers=1):
        self.first = free_ports(2)
        self.port = self.first + 1
        # (the custodian's port may be late in its accept, and then wants a file too)
        self.want = f"accept on 127.0.0.1:{self.port} {WANT}"
        self.said = tempfile.TemporaryFile("w+")
        words = [program, *command, str(self.first), str(workers), str(sessions)]
        self.process = subprocess.Popen(words, cwd=SMALL, stdin=subprocess.DEVNULL, stdout=subprocess.PIPE,
                                        stderr=self.said, text=True)
        self.wait_for(f"listening on 127.0.0.1:{self.port}\n")

    def told(self):
        self.said.seek(0)
        return self.said.read()

    def wait_for(self, text, seconds=PATIENCE):
        """Whether this stands on the standard error within so many seconds."""
        end = time.monotonic() + seconds
        while text not in self.told() and time.monotonic() < end:
            time.sleep(0.05)
        return text in self.told()

    def limit(self, files):
        """Allows it no more files than these, or as many as it began with."""
        begun = resource.getrlimit(resource.RLIMIT_NOFILE)
        soft = begun[0] if files is None else files
        resource.prlimit(self.process.pid, resource.RLIMIT_NOFILE, (soft, begun[1]))

    def connect(self, port=None):
        return socket.create_connection(("127.0.0.1", port or self.port), PATIENCE)

    def is_open(self, port):
        try:
            self.connect(port).close()
            return True
        except ConnectionRefusedError:
            return False

    def asks(self, port=None, line=QUERY):
        """What a whole session is told."""
        with self.connect(port) as client:
            client.sendall(line)
            client.shutdown(socket.SHUT_WR)
            return all_of(client)

    def end(self):
        """What it printed, all that it said, and its status."""
        out, _ = self.process.communicate(timeout=PATIENCE)
        return out, self.told(), self.process.returncode

    def __enter__(self):
        return self

    def __exit__(self, *_):
        if self.process.poll() is None:
            self.process.kill()
        self.process.communicate()
        self.said.close()


def all_of(client):
    with client.makefile("rb") as replies:
        return replies.read()


class Checks:
    def __init__(self):
        self.right = self.wrong = 0

    def same(self, what, got, wanted):
        if got == wanted:
            self.right += 1
        else:
            self.wrong += 1
            print(f"{what}\n  got:    {got!r}\n  wanted: {wanted!r}")

    def true(self, what, fact):
        self.same(what, bool(fact), True)


def begin_wanting(server):
    """Leaves a server no file for the worker's next session; the custodian's has one already."""
    with server.connect() as client:
        client.sendall(QUERY)
        client.recv(len(TABLE), socket.MSG_WAITALL)
        server.limit(3)


def want_that_passes(program, checks):
    """An accept for which there is no file waits until there is one."""
    with Server(program, 2) as server:
        begin_wanting(server)
        checks.true("the want of files is told", server.wait_for(f"{server.want}\n"))
        threading.Timer(2.5, server.limit, (None,)).start()
        checks.same("a client that waited", server.asks(), TABLE)
        checks.same("the custodian", [server.asks(server.first) for _ in range(2)], [TABLE] * 2)
        out, said, status = server.end()
        checks.same("the report", out, "worker 0 sessions 2\nworker 1 sessions 2\nrelease 0\n")
        checks.same("the status", status, 0)
        checks.true("each try is told once", 2 <= said.count(server.want) <= 5)


def want_that_stays(program, checks):
    """After so many pauses the worker ends, and nobody is kept waiting at its port."""
    with Server(program, 2) as server:
        begin_wanting(server)
        gone = f"no longer listening on 127.0.0.1:{server.port}\n"
        checks.true("the port is closed", server.wait_for(gone, PAUSES * PAUSE + PATIENCE))
        checks.same("a client at the closed port", server.is_open(server.port), False)
        server.limit(None)
        checks.same("the custodian", [server.asks(server.first) for _ in range(2)], [TABLE] * 2)
        out, said, status = server.end()
        checks.same("the report", out, "worker 0 sessions 2\nworker 1 sessions 1\nrelease 0\nfault net\n")
        checks.same("the status", status, 10)
        checks.same("the tries", said.count(server.want), PAUSES + 1)
        last = (
            "each port must go on accepting clients until it has served its 2 sessions, and this machine have files"
            " and memory for them; one that could not was closed, so start anew\n"
        )
        checks.true(f"the last words of {said!r}", said.endswith(last))


def pour(client, seconds):
    """Sends without a line's end, until the server takes no more or so many seconds are over."""
    end, piece = time.monotonic() + seconds, b"x" * 65_536
    with contextlib.suppress(OSError):
        while time.monotonic() < end:
            client.sendall(piece)


def line_without_end(program, checks):
    """A client that sends a line without end is told so, and the next one is served."""
    with Server(program, 4) as server:
        with server.connect() as client:
            sender = threading.Thread(target=pour, args=(client, PATIENCE))
            sender.start()
            checks.same("one that goes on sending", client.recv(len(TOO_LONG), socket.MSG_WAITALL), TOO_LONG)
            sender.join()
        checks.same("the next one", server.asks(), TABLE)
        with server.connect() as client:
            client.sendall(b"x" * 10_000_000)
            checks.same("one that reads once all was sent", all_of(client), TOO_LONG)
        checks.same("the next one", server.asks(), TABLE)


def client_that_stays(program, checks):
    """After `quit` a client that doesn't close keeps its port no longer than a moment; and a port
    whose sessions were all had is closed."""
    with Server(program, 2) as server, server.connect() as client:
        client.sendall(b"quit\n")
        begun = time.monotonic()
        checks.same("the next one", server.asks(), TABLE)
        checks.true("within a second", time.monotonic() - begun < 1)
        checks.same("the one that stays", all_of(client), b"")
        checks.true("the end is told", server.wait_for(f"no longer listening on 127.0.0.1:{server.port}\n"))
        checks.same("a client after the last", server.is_open(server.port), False)
        checks.same("the custodian", [server.asks(server.first) for _ in range(2)], [TABLE] * 2)
        checks.same("the status", server.end()[2], 0)


def sessions_of_each(program, checks):
    """Each server's ports have so many sessions, and no more."""
    with tempfile.TemporaryDirectory() as folder:
        for command in (("serve", *FILES), ("host", *FILES, *NONE, f"{folder}/journal"), ("mirror", *FILES, *NONE)):
            name = command[0]
            with Server(program, 2, command) as server:
                checks.same(f"{name}'s worker", [server.asks() for _ in range(2)], [TABLE] * 2)
                checks.true("its end is told", server.wait_for(f"no longer listening on 127.0.0.1:{server.port}\n"))
                checks.same("a client after the last", server.is_open(server.port), False)
                firsts = [server.asks(server.first, b"# none\n") for _ in range(2)]
                checks.same(f"{name}'s first port", firsts, [b""] * 2)
                checks.same("the status", server.end()[2], 0)


def too_few_files(program, checks):
    """A door for whose workers there are no files isn't opened, which is told."""
    few = 50
    with tempfile.TemporaryDirectory() as folder:
        first = free_ports(2)
        words = [program, "host", *FILES, *NONE, f"{folder}/journal", str(first), "100", "1"]
        done = subprocess.run(words, cwd=SMALL, stdin=subprocess.DEVNULL, capture_output=True, text=True,
                              timeout=PATIENCE, check=False,
                              preexec_fn=lambda: resource.setrlimit(resource.RLIMIT_NOFILE, (few, few)))
        checks.same("without files", (done.returncode, done.stdout), (10, "fault net\n"))
        why = f"cannot listen on 127.0.0.1:{first + 1}: {os.strerror(errno.EMFILE)} (os error {errno.EMFILE})\n"
        checks.true(f"why: {done.stderr!r}", why in done.stderr)
        last = (
            f"ports {first} and {first + 1} must be free on this machine, this user must be allowed to open 101 files"
            " more (`ulimit -n`), and memory suffice for the buffers of 100 workers\n"
        )
        checks.true(f"the last words of {done.stderr!r}", done.stderr.endswith(last))


def thousand_clients(program, checks):
    """A thousand sessions at a door, at the same time: each is answered, and beside those that then say
    nothing the last one is."""
    count = 1_000
    _, hard = resource.getrlimit(resource.RLIMIT_NOFILE)
    most = hard if hard != resource.RLIM_INFINITY else 4 * count
    resource.setrlimit(resource.RLIMIT_NOFILE, (min(4 * count, most), hard))
    with tempfile.TemporaryDirectory() as folder, contextlib.ExitStack() as stack:
        command = ("host", *FILES, *NONE, f"{folder}/journal")
        server = stack.enter_context(Server(program, 1, command, count))
        clients = []
        for _ in range(count):
            clients.append(stack.enter_context(server.connect()))
            clients[-1].sendall(QUERY)
        told = {client.recv(len(TABLE), socket.MSG_WAITALL) for client in clients}
        checks.same("a thousand clients", told, {TABLE})
        begun = time.monotonic()
        for _ in range(10):
            clients[-1].sendall(QUERY)
            checks.same("the last one", clients[-1].recv(len(TABLE), socket.MSG_WAITALL), TABLE)
        checks.true("within a second", time.monotonic() - begun < 1)
        for client in clients:
            client.close()
        checks.same("the custodian", server.asks(server.first), TABLE)
        out, _, status = server.end()
        report = f"port {server.first} sessions 1\nport {server.port} sessions {count}\nrelease 0\n"
        checks.same("the report", (status, out), (0, report))


def main():
    (program,) = sys.argv[1:]
    checks = Checks()
    cases = (want_that_passes, want_that_stays, line_without_end, client_that_stays, sessions_of_each)
    for case in (*cases, too_few_files, thousand_clients):
        case(os.path.abspath(program), checks)
    print(f"{checks.right} facts as wanted, {checks.wrong} not")
    return 1 if checks.wrong else 0


if __name__ == "__main__":
    sys.exit(main())
