"""Firefox driven by Marionette, its own protocol, by Python's own library: messages of JSON over a socket on loopback,
each with its length before it."""
from __future__ import annotations

import base64
import json
import shutil
import socket
import subprocess
import tempfile
import time
from pathlib import Path
from typing import Any

PROGRAM = shutil.which("firefox-esr") or shutil.which("firefox")
ELEMENT = "element-6066-11e4-a52e-4f735466cecf"          # the key of an element, by the WebDriver standard


class Firefox:
    """One browser with one page."""

    def __init__(self) -> None:
        self.folder = tempfile.TemporaryDirectory(prefix="page")
        with socket.socket() as free:
            free.bind(("127.0.0.1", 0))
            port = free.getsockname()[1]
        (Path(self.folder.name) / "user.js").write_text(f'user_pref("marionette.port", {port});\n')
        self.process = subprocess.Popen(
            [str(PROGRAM), "--headless", "--marionette", "--no-remote", "--profile", self.folder.name],
            stdout=subprocess.DEVNULL, stderr=subprocess.DEVNULL)
        self.number, self.rest = 0, b""
        self.socket = self.connected(port)
        self.read()                                          # its greeting
        self("WebDriver:NewSession", capabilities={})

    def connected(self, port: int) -> socket.socket:
        """The connection, as soon as the browser listens."""
        end = time.monotonic() + 60
        while True:
            try:
                return socket.create_connection(("127.0.0.1", port), timeout=60)
            except OSError:
                if time.monotonic() > end or self.process.poll() is not None:
                    raise
                time.sleep(.1)

    def read(self) -> Any:
        """The next message."""
        while True:
            length, colon, after = self.rest.partition(b":")
            if colon and len(after) >= int(length):
                self.rest = after[int(length):]
                return json.loads(after[:int(length)])
            more = self.socket.recv(1 << 16)
            if not more:
                raise RuntimeError("the browser has ended")
            self.rest += more

    def __call__(self, command: str, **parameters: Any) -> Any:
        """Asks the browser, and waits for its answer."""
        self.number += 1
        message = json.dumps([0, self.number, command, parameters]).encode()
        self.socket.sendall(str(len(message)).encode() + b":" + message)
        while True:
            _, number, error, result = self.read()
            if number == self.number:
                if error:
                    raise RuntimeError(f"{command}: {error}")
                return result

    def open(self, page: Path) -> None:
        self("WebDriver:Navigate", url=page.as_uri())

    def text(self, selector: str) -> str:
        """The text of an element; it is empty where there is none."""
        script = "return document.querySelector(arguments[0])?.innerText ?? ''"
        return str(self("WebDriver:ExecuteScript", script=script, args=[selector])["value"])

    def until(self, selector: str, word: str) -> str:
        """Waits until an element has a word; its text."""
        end = time.monotonic() + 20
        while word not in self.text(selector):
            if time.monotonic() > end:
                raise RuntimeError(f"{selector} has no {word}: {self.text(selector)}")
            time.sleep(.02)
        return self.text(selector)

    def choose(self, selector: str, *files: Path) -> None:
        """Chooses files at an input."""
        found = self("WebDriver:FindElement", using="css selector", value=selector)["value"]
        self("WebDriver:ElementSendKeys", id=found[ELEMENT], text="\n".join(str(file) for file in files))

    def printed(self) -> bytes:
        """The page as PDF, on A4 with the sheet's margins."""
        margins = {"top": 1.1, "bottom": 1.1, "left": 1.2, "right": 1.2}
        found = self("WebDriver:Print", page={"width": 21.0, "height": 29.7}, margin=margins, shrinkToFit=False)
        return base64.b64decode(found["value"])

    def close(self) -> None:
        try:
            self("Marionette:Quit", flags=["eForceQuit"])
        except (RuntimeError, OSError, ValueError):
            pass
        try:
            self.process.wait(20)
        except subprocess.TimeoutExpired:
            self.process.kill()
            self.process.wait()
        self.socket.close()
        self.folder.cleanup()
