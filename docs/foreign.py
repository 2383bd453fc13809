#!/usr/bin/env python3
"""Sends requests of HTTP to each port of each server, as a web page can, and compares what comes back
with nothing: such a line ends its session unanswered, and no edit behind it is read.

    foreign.py PROGRAM

The servers are `serve`, `host` and `mirror` over examples/small. A page in a headless Chromium tries
too, where there is one (`chromium` on the path, or the program that CHROMIUM names). It ends within a
minute, and with status 1 where anything was otherwise.
"""

import contextlib
import http.server
import os
import shutil
import socket
import subprocess
import sys
import tempfile
import threading
import time

sys.dont_write_bytecode = True
HERE = os.path.dirname(os.path.abspath(__file__))
sys.path.insert(0, HERE)
from pressure import FILES, NONE, QUERY, TABLE, Checks, Server, all_of

METHODS = ("GET", "HEAD", "POST", "PUT", "DELETE", "CONNECT", "OPTIONS", "TRACE", "PATCH", "BREW")
EDITS = b"drop 104\npublish\n"
MESSAGE = b"begin 1\ndrop 104\nend\n"
# How many sessions each port has: more than a run here takes.
SESSIONS = 1_000
PATIENCE = 30

# What a page of another site can do without being allowed to read the reply. `tried` tells the page's
# own server that all of it was done.
PAGE = """<!doctype html><title>t</title><iframe name="sink"></iframe>
<form id="form" method="post" enctype="text/plain" target="sink" action="http://127.0.0.1:%(port)d/">
<textarea name="x">\n%(lines)s</textarea></form><script>
const at = "http://127.0.0.1:%(port)d/", body = %(body)s, none = () => {};
const tries = ["POST", "PUT", "DELETE"].map(method => fetch(at, {method, body, mode: "cors"}).catch(none));
tries.push(fetch(at, {method: "POST", body, mode: "no-cors"}).catch(none));
navigator.sendBeacon(at, body);
document.getElementById("form").submit();
for (const path of ["a", "drop%%20104%%0Apublish"]) { new Image().src = at + path; }
try { new WebSocket("ws://127.0.0.1:%(port)d/"); } catch (e) {}
const wait = new Promise(done => setTimeout(done, 2000));
Promise.all([wait, ...tries]).then(() => fetch("/tried", {method: "POST"}));
</script>"""


def heads(lines):
    """Requests by each method and version, with either end of a line, and lines behind them."""
    for method in METHODS:
        for version in ("HTTP/1.0", "HTTP/1.1"):
            for end in ("\r\n", "\n"):
                head = f"{method} / {version}{end}Host: 127.0.0.1{end}{end}"
                yield head.encode() + lines


def in_pieces(server, port, data):
    """What a session is told whose bytes come one at a time."""
    with server.connect(port) as client:
        # (a server that has gone, as it should, takes no more)
        with contextlib.suppress(OSError):
            for byte in data:
                client.sendall(bytes([byte]))
                time.sleep(0.001)
            client.shutdown(socket.SHUT_WR)
        return all_of(client)


def whole(server, port, data):
    """What a session is told, also where the server closed before all was taken."""
    try:
        return server.asks(port, data)
    except ConnectionResetError:
        return b""


def ports_are_deaf(checks, name, server, lines):
    """No port answers a request, and each goes on with its next session."""
    for what, port in ((f"{name}'s first port", server.first), (f"{name}'s worker", server.port)):
        told = {whole(server, port, data) for data in heads(lines)}
        checks.same(f"requests at {what}", told, {b""})
        checks.same(f"one byte at a time at {what}", in_pieces(server, port, next(heads(lines))), b"")
        checks.same(f"without a line feed at {what}", whole(server, port, b"GET / HTTP/1.1"), b"")
        long = b"GET /" + b"x" * 4082 + b" HTTP/1.1"
        checks.same(f"4,096 bytes at {what}", whole(server, port, long + b"\n" + lines), b"")
    checks.same(f"a query before one at {name}", server.asks(None, QUERY + b"GET / HTTP/1.1\n" + QUERY), TABLE)
    near = b"GET / HTTP/1.1x\nHTTP/1.1\n"
    checks.same(f"lines like others at {name}", server.asks(None, near), b"refused 2 Syntax 1\n" * 2)


def nothing_changed(checks, name, server):
    """The release is still the first, at both ports."""
    stats = server.asks(server.first, b"where\n" if name == "mirror" else b"stats\n")
    wanted = b"at 0\n" if name == "mirror" else b"stats release 0 "
    checks.true(f"{name}'s release: {stats!r}", stats.startswith(wanted))
    checks.same(f"{name}'s tables", server.asks(), TABLE)


class Pages(http.server.BaseHTTPRequestHandler):
    """A site of its own with one page, which is told when the page has tried."""

    page, tried = b"", threading.Event()

    def answer(self, body):
        self.send_response(200)
        self.send_header("content-type", "text/html")
        self.end_headers()
        self.wfile.write(body)

    def do_GET(self):
        self.answer(self.page)

    def do_POST(self):
        self.answer(b"")
        self.tried.set()

    def log_message(self, *_):
        pass


def page_tries(chromium, port, lines):
    """Whether a page of another site tried to send these lines to a port."""
    text = lines.decode()
    fields = {"port": port, "lines": text, "body": repr(text)}
    Pages.page, Pages.tried = (PAGE % fields).encode(), threading.Event()
    with http.server.ThreadingHTTPServer(("127.0.0.1", 0), Pages) as site, tempfile.TemporaryDirectory() as home:
        threading.Thread(target=site.serve_forever, daemon=True).start()
        words = [chromium, "--headless", "--no-sandbox", "--disable-gpu", f"--user-data-dir={home}"]
        words.append(f"http://localhost:{site.server_address[1]}/")
        browser = subprocess.Popen(words, stdin=subprocess.DEVNULL, stdout=subprocess.DEVNULL, stderr=subprocess.DEVNULL)
        tried = Pages.tried.wait(PATIENCE)
        browser.terminate()
        browser.wait(PATIENCE)
        site.shutdown()
    return tried


def browser():
    return os.environ.get("CHROMIUM") or shutil.which("chromium") or shutil.which("chromium-browser")


def main():
    (program,) = sys.argv[1:]
    checks, chromium = Checks(), browser()
    if not chromium:
        print("no chromium is here, so no page in a browser tries")
    with tempfile.TemporaryDirectory() as folder:
        for command in (("serve", *FILES), ("host", *FILES, *NONE, f"{folder}/journal"), ("mirror", *FILES, *NONE)):
            name = command[0]
            lines = MESSAGE if name == "mirror" else EDITS
            with Server(os.path.abspath(program), SESSIONS, command) as server:
                ports_are_deaf(checks, name, server, lines)
                nothing_changed(checks, name, server)
                if chromium:
                    for port in (server.first, server.port):
                        checks.true(f"a page tried at {name}", page_tries(chromium, port, lines))
                    nothing_changed(checks, name, server)
    print(f"{checks.right} facts as wanted, {checks.wrong} not")
    return 1 if checks.wrong else 0


if __name__ == "__main__":
    sys.exit(main())
