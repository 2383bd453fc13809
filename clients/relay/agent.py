"""Answers haproxy's agent-check."""

from __future__ import annotations

import socketserver
import threading
from typing import Callable

from faults import Stop

__all__ = ["Agent"]


class Agent:
    """Writes `up` or `down` to each connection at a port, as long as it is entered."""

    def __init__(self, address: tuple[str, int], is_up: Callable[[], bool]) -> None:
        class Answer(socketserver.StreamRequestHandler):
            def handle(self) -> None:
                self.wfile.write(b"up\n" if is_up() else b"down\n")

        class Server(socketserver.ThreadingTCPServer):
            allow_reuse_address = True
            daemon_threads = True

            def handle_error(self, *_: object) -> None:
                """Who asked has gone."""

        try:
            self._server = Server(address, Answer)
        except OSError as fault:
            raise Stop(f"--agent: {address[0]}:{address[1]}: {fault.strerror}") from fault

    def __enter__(self) -> Agent:
        threading.Thread(target=self._server.serve_forever, daemon=True).start()
        return self

    def __exit__(self, *_: object) -> None:
        self._server.shutdown()
        self._server.server_close()
