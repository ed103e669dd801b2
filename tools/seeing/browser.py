"""Drives Chromium by its driver, for the tools that try pages in a browser: what these need of it is in Debian.

    apt-get install chromium chromium-driver
"""

import base64
import json
import re
import shutil
import socket
import subprocess
import sys
import time
import urllib.error
import urllib.request
from pathlib import Path

ELEMENT = "element-6066-11e4-a52e-4f735466cecf"
RULES = Path(__file__).resolve().parent / "rules.js"
RIGHT, LEFT, ENTER, ESCAPE, END, HOME = "\ue014", "\ue012", "\ue007", "\ue00c", "\ue010", "\ue011"
TAB, DOWN, F8, CONTROL = "\ue004", "\ue015", "\ue038", "\ue009"


class Browser:
    """Chromium by way of its driver, which speaks JSON over HTTP (W3C WebDriver)."""

    def __init__(self):
        if not shutil.which("chromedriver"):
            sys.exit("chromedriver is missing: apt-get install chromium chromium-driver")
        with socket.socket() as free:
            free.bind(("127.0.0.1", 0))
            port = free.getsockname()[1]
        self.driver = subprocess.Popen(
            ["chromedriver", f"--port={port}"], stdout=subprocess.DEVNULL, stderr=subprocess.DEVNULL
        )
        self.url = f"http://127.0.0.1:{port}/session"
        self.wait_for_driver(f"http://127.0.0.1:{port}/status")
        options = {"args": ["--headless=new", "--no-sandbox", "--hide-scrollbars", "--disable-gpu"]}
        wanted = {"goog:chromeOptions": options, "goog:loggingPrefs": {"browser": "ALL"}}
        made = self.call("", {"capabilities": {"alwaysMatch": wanted}})
        self.url = f"{self.url}/{made['sessionId']}"

    def wait_for_driver(self, status: str) -> None:
        for _ in range(200):
            try:
                urllib.request.urlopen(status, timeout=5).close()
                return
            except urllib.error.URLError:
                time.sleep(0.1)
        sys.exit("chromedriver does not answer")

    def call(self, path: str, body: dict | None = None, method: str | None = None):
        data = None if body is None else json.dumps(body).encode()
        request = urllib.request.Request(self.url + path, data, {"Content-Type": "application/json"}, method=method)
        with urllib.request.urlopen(request, timeout=120) as answer:
            return json.load(answer)["value"]

    def close(self) -> None:
        self.call("", method="DELETE")
        self.driver.terminate()
        self.driver.wait()

    def tell(self, command: str, **params) -> None:
        """A command of the DevTools protocol."""
        self.call("/goog/cdp/execute", {"cmd": command, "params": params})

    def resize(self, size: tuple[int, int]) -> None:
        self.tell(
            "Emulation.setDeviceMetricsOverride", width=size[0], height=size[1], deviceScaleFactor=1, mobile=False
        )

    def prefer(self, scheme: str) -> None:
        self.tell("Emulation.setEmulatedMedia", features=[{"name": "prefers-color-scheme", "value": scheme}])

    def open(self, file: Path) -> float:
        """How many seconds it takes until the picture is drawn."""
        before = time.monotonic()
        self.visit(file.as_uri())
        self.wait("document.body.dataset.state === 'shown'")
        self.settle()
        return time.monotonic() - before

    def visit(self, url: str) -> None:
        self.call("/url", {"url": url})
        self.settle()

    def settle(self) -> None:
        """Waits until what is due has been drawn."""
        script = "const done = arguments[0]; requestAnimationFrame(() => requestAnimationFrame(done))"
        self.call("/execute/async", {"script": script, "args": []})

    def ask(self, expression: str):
        return self.call("/execute/sync", {"script": f"return {expression}", "args": []})

    def text(self, selector: str) -> str:
        return self.ask(f"document.querySelector({json.dumps(selector)})?.textContent ?? ''")

    def element(self, xpath: str) -> str:
        return self.call("/element", {"using": "xpath", "value": xpath})[ELEMENT]

    def click(self, xpath: str) -> None:
        self.call(f"/element/{self.element(xpath)}/click", {})
        self.settle()

    def type(self, xpath: str, text: str) -> None:
        self.call(f"/element/{self.element(xpath)}/value", {"text": text})
        self.settle()

    def press(self, key: str) -> None:
        actions = [{"type": "keyDown", "value": key}, {"type": "keyUp", "value": key}]
        self.call("/actions", {"actions": [{"type": "key", "id": "keys", "actions": actions}]})
        self.settle()

    def chord(self, held: str, key: str) -> None:
        """Presses a key while another one is held."""
        actions = [{"type": "keyDown", "value": it} for it in (held, key)]
        actions += [{"type": "keyUp", "value": it} for it in (key, held)]
        self.call("/actions", {"actions": [{"type": "key", "id": "keys", "actions": actions}]})
        self.settle()

    def complaints(self) -> list[str]:
        return [it["message"] for it in self.call("/se/log", {"type": "browser"})]

    def broken_rules(self) -> list[str]:
        """What readers of screens, or users of the keyboard alone, would miss (rules.js)."""
        return self.call("/execute/sync", {"script": RULES.read_text(), "args": []})

    def wait(self, expression: str, seconds: float = 20) -> bool:
        """Waits until something holds, and says whether it does."""
        until = time.monotonic() + seconds
        while not (holds := self.ask(expression)) and time.monotonic() < until:
            time.sleep(0.05)
        return bool(holds)

    def picture(self, file: Path) -> None:
        file.write_bytes(base64.b64decode(self.call("/screenshot")))


class Served:
    """A tool that serves a page until it is ended, and the page's address."""

    def __init__(self, browser: Browser, *words: str | Path):
        self.browser = browser
        self.process = subprocess.Popen(words, stderr=subprocess.PIPE, text=True)
        for line in self.process.stderr:
            if found := re.search(r"http://\S+", line):
                self.url = found[0]
                return
        sys.exit(f"{words[0]} serves nothing")

    def __enter__(self):
        return self.url

    def __exit__(self, *_):
        self.browser.visit("about:blank")
        self.process.terminate()
        self.process.wait()
