"""Tests of pages that follow a run, and of what serves them. `tools/test_see` runs them."""

import http.client
import json
import subprocess
import tempfile
import zlib
from contextlib import contextmanager
from pathlib import Path
from threading import Thread

import page
from following import Following, Grown
from reader import read
from serving import Live, Server
from trying import PLAIN, TOOLS, trace_of

EXAMPLES = TOOLS.parent / "examples"
FRONT = ["create 1 note", "trigger 1 hail unit 1 rating 100"]
CYCLE = ["cycle 1 act 1 hail unit 1 rating 100", 'say "caf\u00e9"', "end steps 3 found 0 budget 3"]
REST = ["quiescence", "finish quiescence"]


def told(data):
    """What a page is told of a run, and its lines."""
    front, _, text = zlib.decompress(data).decode().partition("\n")
    return json.loads(front), text.split("\n") if text else []


@contextmanager
def served(site):
    """A server of a site, and what asks it: for a path, a method, a body and headers, the status and the body."""
    server = Server(site)
    Thread(target=server.serve_forever, args=[0.01], daemon=True).start()

    def ask(path, method="GET", body=None, **headers):
        connection = http.client.HTTPConnection("127.0.0.1", server.server_port, timeout=60)
        connection.request(method, path, body, {name.replace("_", "-"): value for name, value in headers.items()})
        answer = connection.getresponse()
        found = answer.status, answer.read(), answer.headers
        connection.close()
        return found

    try:
        yield server, ask
    finally:
        server.shutdown()
        server.server_close()


class FollowTests:
    """Each method is a test, which fails by an `AssertionError`."""

    def a_run_that_is_followed_is_the_one_that_is_read(self):
        for trace in EXAMPLES.glob("*.trace"):
            raw = trace.read_bytes()
            whole, lines = told(page.packed(read(raw.splitlines(keepends=True))))
            following = Following()
            for at in range(0, len(raw), 7):
                following.feed(raw[at : at + 7])
                following.news("")
            following.end()
            front, its = told(following.news("")[1])
            assert its == lines and not front.pop("isOn") and not front.pop("fault")
            assert front == whole, trace

    def each_line_is_there_once_it_is_whole(self):
        following = Following()
        assert told(following.news("")[1])[1] == []
        raw = trace_of([*FRONT, *CYCLE])
        middle = raw.index("\u00e9".encode()) + 1
        following.feed(raw[:middle])
        front, lines = told(following.news("")[1])
        assert lines == [*FRONT, CYCLE[0]] and front["isOn"] and front["cut"] == ""
        assert (front["totals"]["cycles"], front["steps"]["kept"]) == (1, [2, 1])
        following.feed(raw[middle:])
        assert told(following.news("")[1])[1] == [*FRONT, *CYCLE]

    def what_is_known_already_is_not_sent_again(self):
        following = Following()
        following.feed(trace_of(FRONT))
        version, data = following.news("")
        assert data and following.news(version) == (version, b"")
        following.feed(b"cycle 1 act 1 ")
        assert following.news(version) == (version, b"")
        following.end()
        front = told(following.news(version)[1])[0]
        assert front["cut"] == "cycle 1 act 1 " and not front["isOn"]

    def what_is_no_trace_ends_it(self):
        following = Following()
        following.feed(trace_of([*FRONT, "set 2.score", *CYCLE]))
        front, lines = told(following.news("")[1])
        assert lines == FRONT and front["fault"] == "line 3: unit 2 is not there" and not front["isOn"]

    def a_finish_ends_it_but_more_lines_may_come(self):
        following = Following()
        following.feed(trace_of([*FRONT, *CYCLE, *REST]))
        version, data = following.news("")
        assert not told(data)[0]["isOn"]
        following.feed(trace_of(["closed eye 0"]))
        assert told(following.news(version)[1])[1][-1] == "closed eye 0"

    def a_file_that_grows_is_read_on(self):
        with tempfile.TemporaryDirectory() as folder:
            file = Path(folder, "a.trace")
            file.write_bytes(trace_of(FRONT))
            grown = Grown(file, Following)
            version, data = grown.news("")
            assert told(data)[1] == FRONT and grown.news(version)[1] == b""
            with file.open("ab") as more:
                more.write(trace_of(CYCLE))
            version, data = grown.news(version)
            assert told(data)[1] == [*FRONT, *CYCLE]
            # A run of its own, first in the same file and then in another one.
            file.write_bytes(trace_of(REST))
            version, data = grown.news(version)
            assert told(data)[1] == REST
            Path(folder, "b.trace").write_bytes(trace_of([*FRONT, *CYCLE]))
            Path(folder, "b.trace").replace(file)
            version, data = grown.news(version)
            assert told(data)[1] == [*FRONT, *CYCLE]
            # A longer one in the same file, which does not go on with those lines.
            file.write_bytes(trace_of(["create 1 notebook", *FRONT[1:], *CYCLE, *REST]))
            assert told(grown.news(version)[1])[1] == ["create 1 notebook", *FRONT[1:], *CYCLE, *REST]

    def only_who_has_the_token_and_the_host_is_answered(self):
        following = Following()
        following.feed(trace_of(FRONT))
        with served(Live("<p>", following)) as (server, ask):
            port, top = server.server_port, f"/{server.token}/"
            assert server.server_address[0] == "127.0.0.1" and len(server.token) >= 32
            assert ask(top)[:2] == (200, b"<p>")
            assert ask(top, Host=f"localhost:{port}")[0] == 200
            assert ask(top, Origin=f"http://127.0.0.1:{port}")[0] == 200
            assert ask(f"{top}run?known=")[0] == 200 and ask(f"{top}run?known=2-0-0")[0] == 204
            assert ask(f"{top}else")[0] == 404
            for path in ("/", "/run", "//", f"/{server.token[:-1]}/", f"/x{server.token}/run", "/../", "/%00/"):
                assert ask(path)[0] == 403, path
            for host in ("evil.example", f"evil.example:{port}", "127.0.0.1", f"127.0.0.1:{port + 1}", ""):
                assert ask(top, Host=host)[0] == 403, host
            for origin in ("http://evil.example", "null", f"https://127.0.0.1:{port}"):
                assert ask(top, Origin=origin)[0] == 403, origin
            headers = ask(top)[2]
            assert (headers["Cache-Control"], headers["X-Frame-Options"]) == ("no-store", "SAMEORIGIN")

    def the_page_that_follows_may_ask_its_server_alone(self):
        text = page.live_page()
        policy = text.split('Content-Security-Policy" content="')[1].split('"')[0]
        assert "default-src 'none'" in policy and "connect-src 'self'" in policy and "unsafe" not in policy

    def following_wants_a_trace_in_a_file(self):
        for words in (["--follow"], ["--follow", EXAMPLES / "desk.trace", "--beside", EXAMPLES / "desk.trace"]):
            answer = subprocess.run([TOOLS / "see", *words], capture_output=True, env=PLAIN)
            assert answer.returncode == 2 and b"--follow wants a file with a trace" in answer.stderr
        answer = subprocess.run([TOOLS / "see", "--follow", "gone"], capture_output=True, env=PLAIN)
        assert (answer.returncode, answer.stderr) == (2, b"see: 'gone' can't be read: No such file or directory\n")
