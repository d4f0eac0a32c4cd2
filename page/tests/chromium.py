"""Chromium driven over its debugging pipe, by Python's own library: messages of JSON, each ended by a zero byte."""
from __future__ import annotations

import base64
import fcntl
import json
import os
import select
import shutil
import subprocess
import tempfile
from pathlib import Path
from typing import Any, Optional

PROGRAM = shutil.which("chromium") or shutil.which("chromium-browser") or shutil.which("google-chrome")
FIRST = 100                      # file descriptors from here on are free for the two pipes
IN, OUT = 3, 4                   # where the browser looks for them
PATIENCE = 120                   # seconds


class Chromium:
    """One browser with one page. Every request that the page makes is kept in `requests`."""

    def __init__(self) -> None:
        self.folder = tempfile.TemporaryDirectory(prefix="page")
        theirs_in, ours_out = os.pipe()
        ours_in, theirs_out = os.pipe()
        reads, writes = (fcntl.fcntl(fd, fcntl.F_DUPFD, FIRST) for fd in (theirs_in, theirs_out))

        def place() -> None:
            os.dup2(reads, IN)
            os.dup2(writes, OUT)

        self.process = subprocess.Popen(
            [str(PROGRAM), "--headless", "--no-sandbox", "--disable-gpu", "--remote-debugging-pipe", "--no-first-run",
             "--force-device-scale-factor=1", "--hide-scrollbars", f"--user-data-dir={self.folder.name}/profile"],
            close_fds=False, preexec_fn=place,
            stdout=subprocess.DEVNULL, stderr=subprocess.DEVNULL)
        for fd in (theirs_in, theirs_out, reads, writes):
            os.close(fd)
        self.to, self.back = os.fdopen(ours_out, "wb", buffering=0), os.fdopen(ours_in, "rb", buffering=0)
        self.rest, self.number, self.requests, self.loaded = b"", 0, [], False
        self.session: Optional[str] = None
        target = self("Target.createTarget", url="about:blank")["targetId"]
        self.session = self("Target.attachToTarget", targetId=target, flatten=True)["sessionId"]
        for domain in ("Page", "Runtime", "Network", "DOM"):
            self(f"{domain}.enable")

    def __call__(self, method: str, **parameters: Any) -> Any:
        """Asks the browser, and waits for its answer."""
        self.number += 1
        message: dict[str, Any] = {"id": self.number, "method": method, "params": parameters}
        if self.session and not method.startswith(("Target.", "Browser.")):
            message["sessionId"] = self.session
        self.to.write(json.dumps(message).encode() + b"\0")
        while True:
            answer = self.read()
            if answer.get("id") == self.number:
                if "error" in answer:
                    raise RuntimeError(f"{method}: {answer['error']}")
                return answer["result"]

    def read(self) -> dict[str, Any]:
        """The next message."""
        while b"\0" not in self.rest:
            if not select.select([self.back], [], [], PATIENCE)[0]:
                raise RuntimeError(f"the browser has said nothing for {PATIENCE} seconds")
            more = self.back.read(1 << 16)
            if not more:
                raise RuntimeError("the browser has ended")
            self.rest += more
        text, self.rest = self.rest.split(b"\0", 1)
        message: dict[str, Any] = json.loads(text)
        if message.get("method") == "Network.requestWillBeSent":
            self.requests.append(message["params"]["request"]["url"])
        if message.get("method") == "Page.loadEventFired":
            self.loaded = True
        return message

    def open(self, page: Path) -> None:
        """Opens a file, and waits until it is loaded."""
        self.requests, self.loaded = [], False
        self("Page.navigate", url=page.as_uri())
        while not self.loaded:
            self.read()

    def run(self, script: str) -> Any:
        """What an expression is, or what its promise becomes."""
        found = self("Runtime.evaluate", expression=script, awaitPromise=True, returnByValue=True)
        if "exceptionDetails" in found:
            raise RuntimeError(f"{script}: {found['exceptionDetails']}")
        return found["result"].get("value")

    def until(self, script: str) -> Any:
        """Waits until an expression is true; what it is."""
        return self.run(f"new Promise((yes, no) => {{ let left = 2000; const look = () => {{ const x = ({script}); "
                        "if (x) yes(x); else if (left-- > 0) setTimeout(look, 5); else no(new Error('never')); }; "
                        "look(); })")

    def text(self, selector: str) -> str:
        """The text of an element."""
        return str(self.run(f"document.querySelector({json.dumps(selector)})?.innerText ?? ''"))

    def choose(self, selector: str, *files: Path) -> None:
        """Chooses files at an input."""
        root = self("DOM.getDocument")["root"]["nodeId"]
        node = self("DOM.querySelector", nodeId=root, selector=selector)["nodeId"]
        self("DOM.setFileInputFiles", nodeId=node, files=[str(file) for file in files])

    def width(self, width: int, height: int = 800) -> None:
        """The width of the window, as that of a phone where it is small."""
        self("Emulation.setDeviceMetricsOverride", width=width, height=height, deviceScaleFactor=1, mobile=width < 500)

    def picture(self, file: Path) -> None:
        """A screenshot of the whole page."""
        data = self("Page.captureScreenshot", captureBeyondViewport=True)["data"]
        file.write_bytes(base64.b64decode(data))

    def printed(self) -> bytes:
        """The page as PDF, on paper of the size that the page asks for."""
        return base64.b64decode(self("Page.printToPDF", preferCSSPageSize=True)["data"])

    def close(self) -> None:
        try:
            self.session = None
            self("Browser.close")
        except (RuntimeError, OSError):
            pass
        try:
            self.process.wait(20)
        except subprocess.TimeoutExpired:
            self.process.kill()
            self.process.wait()
        self.to.close()
        self.back.close()
        self.folder.cleanup()
