"""A server on loopback that answers as the tests say, and remembers what it was asked."""
from __future__ import annotations

import hashlib
import threading
from collections.abc import Iterator, Mapping
from contextlib import contextmanager
from dataclasses import dataclass, field
from http.server import BaseHTTPRequestHandler, ThreadingHTTPServer
from socketserver import TCPServer


@dataclass(frozen=True)
class Answer:
    """What a path is answered with. Of a body that is cut only so many bytes are sent, and then the
    connection is closed."""

    body: bytes = b""
    status: int = 200
    headers: Mapping[str, str] = field(default_factory=dict)
    cut: int | None = None
    # whether the length is announced, without which a cut can't be seen
    has_length: bool = True
    # whether the server knows conditional requests
    is_tagged: bool = True


@dataclass(frozen=True)
class Asked:
    """A request."""

    method: str
    path: str
    headers: Mapping[str, str]
    body: bytes
    status: int


def redirect(address: str, status: int = 302) -> Answer:
    return Answer(status=status, headers={"Location": address})


class LoopbackServer(ThreadingHTTPServer):
    """A server that doesn't look for its name, which may take a while."""

    daemon_threads = True

    def server_bind(self) -> None:
        TCPServer.server_bind(self)
        self.server_name, self.server_port = "localhost", self.server_address[1]


class Server:
    """Paths with their answers: of several the first one counts once, the last one for ever."""

    def __init__(self) -> None:
        self.answers: dict[str, list[Answer]] = {}
        self.asked: list[Asked] = []
        owner = self

        class Handler(BaseHTTPRequestHandler):
            """Answers a request."""

            protocol_version = "HTTP/1.1"
            # an answer is sent at once
            wbufsize = 1 << 20

            def answer(self) -> None:
                body = self.rfile.read(int(self.headers.get("Content-Length") or 0))
                owner.answer(self, body)

            do_GET = do_POST = answer

            def log_message(self, *_: object) -> None:  # pylint: disable=arguments-differ
                """Says nothing."""

        self.http = LoopbackServer(("127.0.0.1", 0), Handler)
        self.address = f"http://127.0.0.1:{self.http.server_port}"

    def put(self, path: str, *answers: Answer | bytes) -> None:
        self.answers[path] = [
            Answer(answer) if isinstance(answer, bytes) else answer for answer in answers
        ]

    def paths(self, status: int | None = None) -> list[str]:
        """What was asked for, or what of it was answered so."""
        return [asked.path for asked in self.asked if status in (None, asked.status)]

    def answer(self, handler: BaseHTTPRequestHandler, body: bytes) -> None:
        answers = self.answers.get(handler.path, [Answer(b"not there", 404)])
        found = answers.pop(0) if len(answers) > 1 else answers[0]
        tag = f'"{hashlib.sha256(found.body).hexdigest()[:16]}"'
        status = found.status
        if status == 200 and found.is_tagged and handler.headers.get("If-None-Match") == tag:
            status = 304
        self.asked.append(
            Asked(handler.command, handler.path, dict(handler.headers.items()), body, status)
        )
        handler.send_response(status)
        if found.is_tagged:
            handler.send_header("ETag", tag)
        for name, value in found.headers.items():
            handler.send_header(name, value)
        sent = b"" if status == 304 else found.body
        if found.has_length:
            handler.send_header("Content-Length", str(len(sent)))
        if found.cut is not None or not found.has_length:
            handler.send_header("Connection", "close")
            handler.close_connection = True
        handler.end_headers()
        handler.wfile.write(sent if found.cut is None else sent[: found.cut])


@contextmanager
def serving() -> Iterator[Server]:
    """A server that runs while the block does."""
    server = Server()
    thread = threading.Thread(target=server.http.serve_forever, args=(0.02,), daemon=True)
    thread.start()
    try:
        yield server
    finally:
        server.http.shutdown()
        server.http.server_close()
        thread.join()
