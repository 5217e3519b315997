"""A headless Chromium that opens a page, presses keys and reports what it shows, over the pipe of its DevTools protocol."""
import base64
import fcntl
import json
import os
import select
import shutil
import subprocess
import tempfile
import time
from typing import Any, Optional, Sequence

SECONDS = 180
KEYS = {"ArrowRight": 39, "ArrowLeft": 37, "Home": 36, "End": 35, "Tab": 9, "Enter": 13}
IN, OUT = 3, 4      # the descriptors from which the browser reads commands and to which it writes answers


class Failed(Exception):
    """The browser gave an error, or no answer."""


def find() -> Optional[str]:
    """The path of Chromium, if there is one."""
    return os.environ.get("CHROMIUM") or shutil.which("chromium")


def raised(fd: int) -> int:
    """The same end of a pipe under a number that is out of the way."""
    above = fcntl.fcntl(fd, fcntl.F_DUPFD, 20)
    os.close(fd)
    return above


class Chromium:
    """A browser with one page. Use it by `with`."""

    def __init__(self, program: str, more: Sequence[str] = ()):
        self.folder = tempfile.mkdtemp()
        reads, self.writer = map(raised, os.pipe())
        self.reader, writes = map(raised, os.pipe())
        words = ["--headless", "--no-sandbox", "--disable-gpu", "--hide-scrollbars", "--force-device-scale-factor=1",
                 "--remote-debugging-pipe", f"--user-data-dir={self.folder}", *more, "about:blank"]
        line = f'exec "$0" "$@" {IN}<&{reads} {OUT}>&{writes}'
        self.process = subprocess.Popen(["bash", "-c", line, program, *words], pass_fds=(reads, writes),
                                        stdout=subprocess.DEVNULL, stderr=subprocess.DEVNULL)
        os.close(reads)
        os.close(writes)
        self.count, self.rest, self.session = 0, b"", None
        try:
            self.attach()
        except BaseException:
            self.__exit__()
            raise

    def __enter__(self) -> "Chromium":
        return self

    def __exit__(self, *_: Any) -> None:
        os.close(self.writer)
        os.close(self.reader)
        self.process.terminate()
        self.process.wait()
        shutil.rmtree(self.folder, ignore_errors=True)

    def attach(self) -> None:
        """Makes the blank page the one that is spoken to."""
        targets = self.call("Target.getTargets")["targetInfos"]
        page = next(target["targetId"] for target in targets if target["type"] == "page")
        self.session = self.call("Target.attachToTarget", targetId=page, flatten=True)["sessionId"]

    def message(self) -> dict:
        """The next message of the browser."""
        while b"\0" not in self.rest:
            if not select.select([self.reader], [], [], SECONDS)[0]:
                raise Failed(f"the browser gave no answer for {SECONDS} seconds")
            piece = os.read(self.reader, 1 << 16)
            if not piece:
                raise Failed("the browser has ended")
            self.rest += piece
        first, _, self.rest = self.rest.partition(b"\0")
        return json.loads(first)

    def call(self, method: str, **given: Any) -> dict:
        """Calls a method of the protocol and waits for what it gives."""
        self.count += 1
        asked = {"id": self.count, "method": method, "params": given, **({"sessionId": self.session} if self.session else {})}
        os.write(self.writer, json.dumps(asked).encode() + b"\0")
        while True:
            told = self.message()
            if told.get("id") == self.count:
                break
        if "error" in told:
            raise Failed(f"{method}: {told['error']['message']}")
        return told["result"]

    def processor_time(self) -> float:
        """The processor time in seconds that the processes of the browser's pages have taken, with all their threads."""
        session, self.session = self.session, None
        try:
            told = self.call("SystemInfo.getProcessInfo")["processInfo"]
        finally:
            self.session = session
        return sum(one["cpuTime"] for one in told if one["type"] == "renderer")

    def open(self, path: str, width: int, height: int) -> None:
        """Opens a file at a size, and waits until it is loaded."""
        self.call("Emulation.setDeviceMetricsOverride", width=width, height=height, deviceScaleFactor=1, mobile=width < 600)
        self.call("Page.navigate", url="about:blank")
        self.call("Page.navigate", url="file://" + os.path.abspath(path))
        until = time.monotonic() + SECONDS
        while self.value("location.protocol + document.readyState") != "file:complete":
            if time.monotonic() > until:
                raise Failed(f"{path} isn't loaded after {SECONDS} seconds")
            time.sleep(0.05)

    def value(self, expression: str) -> Any:
        """What an expression of JavaScript is on the page."""
        told = self.call("Runtime.evaluate", expression=expression, returnByValue=True)
        if "exceptionDetails" in told:
            raise Failed(f"{expression}: {told['exceptionDetails']['exception'].get('description')}")
        return told["result"].get("value")

    def press(self, key: str) -> None:
        """Presses a key, as a keyboard does."""
        given = {"key": key, "code": key, "windowsVirtualKeyCode": KEYS[key]}
        self.call("Input.dispatchKeyEvent", type="rawKeyDown", **given)
        self.call("Input.dispatchKeyEvent", type="keyUp", **given)

    def screenshot(self) -> bytes:
        """What is seen, as a PNG."""
        return base64.b64decode(self.call("Page.captureScreenshot", format="png")["data"])
