"""Browsers that are driven without a library: Debian's chromium by chromedriver over HTTP, firefox-esr by its own socket."""
import json
import os
import re
import shutil
import socket
import subprocess
import tempfile
import time
import urllib.error
import urllib.request
from typing import Any, Dict, List, Optional

KEYS = {"ArrowRight": "\ue014", "ArrowLeft": "\ue012", "ArrowDown": "\ue015", "ArrowUp": "\ue013", "Home": "\ue011", "End": "\ue010",
        "Enter": "\ue007", "Tab": "\ue004", "Escape": "\ue00c"}
TIMEOUTS = {"script": 240_000, "pageLoad": 240_000}
ELEMENT = "element-6066-11e4-a52e-4f735466cecf"


def is_here() -> bool:
    """Whether chromium and its driver are on this machine."""
    return bool(shutil.which("chromium") and shutil.which("chromedriver"))


def has_firefox() -> bool:
    """Whether firefox-esr is on this machine."""
    return bool(shutil.which("firefox-esr"))


class Browser:
    """A headless chromium. A context manager: it ends with the block."""

    def __init__(self, width: int = 1280, height: int = 1000) -> None:
        self.room = tempfile.mkdtemp(prefix="pmem-browser-")
        with socket.socket() as free:
            free.bind(("127.0.0.1", 0))
            self.port = free.getsockname()[1]
        how: Dict[str, Any] = {"stdin": subprocess.DEVNULL, "stdout": subprocess.DEVNULL, "stderr": subprocess.DEVNULL}
        self.driver = subprocess.Popen(["chromedriver", f"--port={self.port}"], **how)
        self.session = ""
        try:
            self.wait_for_driver()
            arguments = ["--headless=new", "--no-sandbox", "--disable-gpu", "--disable-dev-shm-usage", f"--user-data-dir={self.room}",
                         f"--window-size={width},{height}"]
            wanted = {"browserName": "chrome", "goog:chromeOptions": {"args": arguments}, "goog:loggingPrefs": {"browser": "ALL"},
                      "timeouts": TIMEOUTS}
            self.session = self.call("/session", {"capabilities": {"alwaysMatch": wanted}})["sessionId"]
        except BaseException:
            self.close()
            raise

    def __enter__(self) -> "Browser":
        return self

    def __exit__(self, *_: object) -> None:
        self.close()

    def wait_for_driver(self) -> None:
        """Waits until the driver answers."""
        for _ in range(300):
            try:
                self.call("/status")
                return
            except OSError:
                time.sleep(0.1)
        raise OSError("chromedriver doesn't answer")

    def call(self, path: str, body: Optional[Dict[str, Any]] = None, method: Optional[str] = None) -> Any:
        """One request of the driver."""
        data = None if body is None else json.dumps(body).encode()
        request = urllib.request.Request(f"http://127.0.0.1:{self.port}{path}", data, {"Content-Type": "application/json"}, method=method)
        try:
            with urllib.request.urlopen(request, timeout=240) as answer:
                return json.load(answer)["value"]
        except urllib.error.HTTPError as error:
            raise OSError(error.read().decode("utf-8", "replace")[:500]) from error

    def of_session(self, path: str, body: Optional[Dict[str, Any]] = None, method: Optional[str] = None) -> Any:
        """A request about the session."""
        return self.call(f"/session/{self.session}{path}", body, method)

    def open(self, address: str) -> None:
        """Opens an address, and waits until the page is ready."""
        self.of_session("/url", {"url": "about:blank"})
        self.of_session("/url", {"url": address})
        self.wait("return document.body && document.body.dataset.ready")

    def run(self, script: str, *arguments: Any) -> Any:
        """What a script in the page returns."""
        return self.of_session("/execute/sync", {"script": script, "args": list(arguments)})

    def wait(self, script: str, seconds: float = 120) -> Any:
        """Waits until a script returns something true."""
        end = time.monotonic() + seconds
        while time.monotonic() < end:
            found = self.run(script)
            if found:
                return found
            time.sleep(0.05)
        raise AssertionError(f"this never came: {script}")

    def click(self, css: str) -> None:
        """Clicks on an element; found again if the page has replaced it meanwhile."""
        for tries in range(20):
            found = self.of_session("/element", {"using": "css selector", "value": css})
            try:
                self.of_session(f"/element/{found[ELEMENT]}/click", {})
                return
            except OSError as error:
                if tries == 19 or not re.search("stale element|intercepted|not clickable", str(error)):
                    raise
                time.sleep(0.2)

    def press(self, *keys: str) -> None:
        """Presses keys, each given by its name or as itself."""
        actions: List[Dict[str, str]] = []
        for key in keys:
            value = KEYS.get(key, key)
            actions += [{"type": "keyDown", "value": value}, {"type": "keyUp", "value": value}]
        self.of_session("/actions", {"actions": [{"type": "key", "id": "keys", "actions": actions}]})

    def text(self, css: str) -> str:
        """The text of an element."""
        return str(self.run("return document.querySelector(arguments[0]).innerText", css))

    def errors(self) -> List[str]:
        """What the console has of errors and warnings since the last call."""
        entries = self.of_session("/se/log", {"type": "browser"})
        return [entry["message"] for entry in entries if entry["level"] in ("SEVERE", "WARNING")]

    def size(self, width: int, height: int) -> None:
        """Gives the page a size, also one that is smaller than a window may be."""
        self.develop("Emulation.setDeviceMetricsOverride", width=width, height=height, deviceScaleFactor=1, mobile=width < 700)

    def develop(self, command: str, **values: Any) -> Any:
        """A command of the browser's tools for developers."""
        return self.of_session("/goog/cdp/execute", {"cmd": command, "params": values})

    def picture(self, file: str) -> None:
        """A picture of the window."""
        import base64
        with open(file, "wb") as made:
            made.write(base64.b64decode(self.of_session("/screenshot")))

    def close(self) -> None:
        """Ends the browser and its driver."""
        try:
            if self.session:
                self.of_session("", method="DELETE")
        except OSError:
            pass
        self.driver.terminate()
        self.driver.wait()
        shutil.rmtree(self.room, ignore_errors=True)


class Firefox:
    """A headless Firefox, by the socket that it opens with --marionette: only open, run and wait."""

    def __init__(self) -> None:
        self.room = tempfile.mkdtemp(prefix="pmem-firefox-")
        with socket.socket() as free:
            free.bind(("127.0.0.1", 0))
            self.port = free.getsockname()[1]
        with open(f"{self.room}/user.js", "w", encoding="utf-8") as file:
            file.write(f'user_pref("marionette.port", {self.port});\nuser_pref("browser.shell.checkDefaultBrowser", false);\n')
        how: Dict[str, Any] = {"stdin": subprocess.DEVNULL, "stdout": subprocess.DEVNULL, "stderr": subprocess.DEVNULL}
        words = ["firefox-esr", "--headless", "--marionette", "--no-remote", "--profile", self.room]
        self.process = subprocess.Popen(words, env={**os.environ, "HOME": self.room}, **how)
        self.number = 0
        self.socket: Optional[socket.socket] = None
        try:
            self.connect()
            self.call("WebDriver:NewSession", {"capabilities": {"alwaysMatch": {"timeouts": TIMEOUTS}}})
        except BaseException:
            self.close()
            raise

    def __enter__(self) -> "Firefox":
        return self

    def __exit__(self, *_: object) -> None:
        self.close()

    def connect(self) -> None:
        """Waits for the socket and its greeting."""
        for _ in range(600):
            try:
                self.socket = socket.create_connection(("127.0.0.1", self.port), timeout=240)
                self.receive()
                return
            except OSError:
                time.sleep(0.2)
        raise OSError("firefox doesn't answer")

    def receive(self) -> Any:
        """One message: its length, a colon, and JSON."""
        assert self.socket
        head = b""
        while not head.endswith(b":"):
            byte = self.socket.recv(1)
            if not byte:
                raise OSError("firefox has closed its socket")
            head += byte
        text = b""
        while len(text) < int(head[:-1]):
            text += self.socket.recv(int(head[:-1]) - len(text))
        return json.loads(text)

    def call(self, name: str, values: Dict[str, Any]) -> Any:
        """One command and its result."""
        assert self.socket
        self.number += 1
        text = json.dumps([0, self.number, name, values]).encode()
        self.socket.sendall(f"{len(text)}:".encode() + text)
        _, _, error, result = self.receive()
        if error:
            raise OSError(str(error)[:500])
        return result

    def open(self, address: str) -> None:
        """Opens an address, and waits until the page is ready."""
        self.call("WebDriver:Navigate", {"url": "about:blank"})
        self.call("WebDriver:Navigate", {"url": address})
        self.wait("return document.body && document.body.dataset.ready")

    def run(self, script: str, *arguments: Any) -> Any:
        """What a script in the page returns."""
        return self.call("WebDriver:ExecuteScript", {"script": script, "args": list(arguments)})["value"]

    def wait(self, script: str, seconds: float = 120) -> Any:
        """Waits until a script returns something true."""
        end = time.monotonic() + seconds
        while time.monotonic() < end:
            found = self.run(script)
            if found:
                return found
            time.sleep(0.1)
        raise AssertionError(f"this never came: {script}")

    def picture(self, file: str) -> None:
        """A picture of the window."""
        import base64
        with open(file, "wb") as made:
            made.write(base64.b64decode(self.call("WebDriver:TakeScreenshot", {"full": False})["value"]))

    def close(self) -> None:
        """Ends the browser."""
        if self.socket:
            self.socket.close()
        self.process.terminate()
        try:
            self.process.wait(20)
        except subprocess.TimeoutExpired:
            self.process.kill()
            self.process.wait()
        shutil.rmtree(self.room, ignore_errors=True)


def address_of(file: str) -> str:
    """A file's address."""
    return f"file://{os.path.abspath(file)}"
