"""Serves pages to this machine alone, below a path that nobody can guess."""

import secrets
import sys
from http.server import BaseHTTPRequestHandler, ThreadingHTTPServer
from typing import NamedTuple
from urllib.parse import parse_qs, urlsplit

ADDRESS = "127.0.0.1"
BODY_LIMIT = 64 << 20


class Answer(NamedTuple):
    """What a request gets."""

    body: bytes = b""
    sort: str = "text/plain; charset=utf-8"
    status: int = 200
    headers: dict[str, str] = {}


HTML = "text/html; charset=utf-8"
NOT_THERE = Answer(b"There is nothing here.\n", status=404)


class Server(ThreadingHTTPServer):
    """Serves `site`, whose `get` and `post` take the rest of a path and what it asks, or what was sent."""

    daemon_threads = True

    def __init__(self, site, port: int = 0):
        super().__init__((ADDRESS, port), Handler)
        self.site = site
        self.token = secrets.token_urlsafe(24)
        self.hosts = [f"{ADDRESS}:{self.server_port}", f"localhost:{self.server_port}"]

    @property
    def url(self) -> str:
        return f"http://{self.hosts[0]}/{self.token}/"


class Handler(BaseHTTPRequestHandler):
    """Answers what names this server as its host and has the token, and nothing else."""

    protocol_version = "HTTP/1.1"
    server_version, sys_version = "railcitron", ""
    timeout = 60

    def do_GET(self) -> None:
        self.answer(lambda path, asked: self.server.site.get(path, asked))

    def do_POST(self) -> None:
        self.answer(lambda path, _: self.server.site.post(path, self.sent()))

    def answer(self, made) -> None:
        url = urlsplit(self.path)
        _, token, path = [*url.path.split("/", 2), "", ""][:3]
        if not self.is_allowed(token):
            self.close_connection = True
            self.write(Answer(b"This address is not for you.\n", status=403))
            return
        try:
            answer = made(path, {name: values[-1] for name, values in parse_qs(url.query).items()})
        except ValueError as fault:
            self.close_connection = True
            answer = Answer(f"{fault}\n".encode(), status=400)
        except OSError as fault:
            answer = Answer(f"{fault.strerror or fault}: {fault.filename}\n".encode(errors="replace"), status=409)
        self.write(answer)

    def is_allowed(self, token: str) -> bool:
        """A page of another origin has no token, and one that has turned a name to this address has another host."""
        hosts = self.headers.get_all("Host") or []
        origin = self.headers.get("Origin")
        is_own = origin is None or origin in [f"http://{it}" for it in self.server.hosts]
        is_host = len(hosts) == 1 and hosts[0] in self.server.hosts
        return is_host and is_own and secrets.compare_digest(token.encode(), self.server.token.encode())

    def sent(self) -> bytes:
        length = self.headers.get("Content-Length", "")
        if not (length.isascii() and length.isdigit()) or int(length) > BODY_LIMIT:
            raise ValueError("a body with a length is due")
        return self.rfile.read(int(length))

    def write(self, answer: Answer) -> None:
        self.send_response(answer.status)
        common = {
            "Content-Type": answer.sort,
            "Content-Length": str(len(answer.body)),
            "Cache-Control": "no-store",
            "X-Content-Type-Options": "nosniff",
            "X-Frame-Options": "SAMEORIGIN",
            "Referrer-Policy": "no-referrer",
            "Cross-Origin-Resource-Policy": "same-origin",
        }
        for name, value in {**common, **answer.headers}.items():
            self.send_header(name, value)
        self.end_headers()
        self.wfile.write(answer.body)

    def log_message(self, *_) -> None:
        """Nothing is logged."""


def served(server: Server, what: str) -> None:
    """Serves until it is stopped from the keyboard."""
    print(f"{what}: {server.url}\nCtrl-C ends it.", file=sys.stderr, flush=True)
    try:
        server.serve_forever()
    except KeyboardInterrupt:
        pass
    finally:
        server.server_close()


def news_of(followed, asked: dict[str, str]) -> Answer:
    """What is new of a run that is followed."""
    version, data = followed.news(asked.get("known", ""))
    headers = {"X-Version": version}
    return Answer(data, "application/octet-stream", 200 if data else 204, headers)


class Live:
    """The site of one run that is followed."""

    def __init__(self, page: str, followed):
        self.page, self.followed = page.encode(), followed

    def get(self, path: str, asked: dict[str, str]) -> Answer:
        if path == "":
            return Answer(self.page, HTML)
        return news_of(self.followed, asked) if path == "run" else NOT_THERE

    def post(self, path: str, sent: bytes) -> Answer:
        return NOT_THERE
