"""A headless Firefox that opens a page, presses keys and reports what it shows, by its Marionette protocol."""
import base64
import json
import os
import shutil
import socket
import subprocess
import tempfile
import time
from typing import Any, Optional

SECONDS = 180
# Keys as WebDriver writes them.
KEYS = {"ArrowRight": "\ue014", "ArrowLeft": "\ue012", "Home": "\ue011", "End": "\ue010", "PageDown": "\ue00f", " ": " "}


class Failed(Exception):
    """The browser gave an error, or no answer."""


def find() -> Optional[str]:
    """The path of Firefox, if there is one."""
    return os.environ.get("FIREFOX") or shutil.which("firefox-esr") or shutil.which("firefox")


def free_port() -> int:
    """A port that nothing listens at."""
    with socket.socket() as one:
        one.bind(("127.0.0.1", 0))
        return one.getsockname()[1]


class Firefox:
    """A browser with one window. Use it by `with`."""

    def __init__(self, program: str, width: int = 1280, height: int = 800):
        self.folder, self.port = tempfile.mkdtemp(), free_port()
        with open(os.path.join(self.folder, "user.js"), "w") as file:
            file.write(f'user_pref("marionette.port", {self.port});\n')
        words = [program, "--headless", "--marionette", "--no-remote", "--profile", self.folder, f"--window-size={width},{height}", "about:blank"]
        self.process = subprocess.Popen(words, stdout=subprocess.DEVNULL, stderr=subprocess.DEVNULL, env={**os.environ, "HOME": self.folder})
        try:
            self.socket = self.connected()
            self.count, self.rest = 0, b""
            self.message()
            self.version = self.call("WebDriver:NewSession", capabilities={"alwaysMatch": {}})["capabilities"]["browserVersion"]
        except BaseException:
            self.end()
            raise

    def __enter__(self) -> "Firefox":
        return self

    def __exit__(self, *_: Any) -> None:
        self.socket.close()
        self.end()

    def end(self) -> None:
        self.process.terminate()
        self.process.wait()
        shutil.rmtree(self.folder, ignore_errors=True)

    def connected(self) -> socket.socket:
        until = time.monotonic() + SECONDS
        while time.monotonic() < until and self.process.poll() is None:
            try:
                return socket.create_connection(("127.0.0.1", self.port), SECONDS)
            except OSError:
                time.sleep(0.1)
        raise Failed("the browser doesn't listen")

    def message(self) -> Any:
        """The next message of the browser: its length, a colon, and JSON."""
        while b":" not in self.rest:
            self.take()
        size, _, self.rest = self.rest.partition(b":")
        while len(self.rest) < int(size):
            self.take()
        text, self.rest = self.rest[:int(size)], self.rest[int(size):]
        return json.loads(text)

    def take(self) -> None:
        piece = self.socket.recv(1 << 16)
        if not piece:
            raise Failed("the browser has ended")
        self.rest += piece

    def call(self, method: str, **given: Any) -> Any:
        """Calls a method of the protocol and waits for what it gives."""
        self.count += 1
        asked = json.dumps([0, self.count, method, given]).encode()
        self.socket.sendall(str(len(asked)).encode() + b":" + asked)
        _, number, error, told = self.message()
        if error or number != self.count:
            raise Failed(f"{method}: {error}")
        return told

    def open(self, address: str) -> None:
        """Opens an address, and waits until it is loaded."""
        self.call("WebDriver:Navigate", url="about:blank")
        self.call("WebDriver:Navigate", url=address)

    def value(self, expression: str) -> Any:
        """What an expression of JavaScript is on the page."""
        return self.call("WebDriver:ExecuteScript", script=f"return ({expression});", args=[], sandbox=None)["value"]

    def press(self, key: str) -> None:
        """Presses a key, as a keyboard does."""
        moves = [{"type": way, "value": KEYS[key]} for way in ("keyDown", "keyUp")]
        self.call("WebDriver:PerformActions", actions=[{"type": "key", "id": "keyboard", "actions": moves}])

    def screenshot(self) -> bytes:
        """What is seen, as a PNG."""
        return base64.b64decode(self.call("WebDriver:TakeScreenshot", full=False)["value"])
