"""A headless chromium, driven through a pipe without any other tool."""

from __future__ import annotations

import base64
import fcntl
import itertools
import json
import os
import shutil
import subprocess
import sys
import tempfile
import time
from typing import Any

CHROMIUM = next((path for path in map(shutil.which, ("chromium", "chromium-browser", "google-chrome")) if path), None)
MISSING = "no browser is installed here: apt-get install chromium"

# The browser expects its pipes as descriptors 3 and 4: moves them there and executes it.
LAUNCHER = "import os,sys; [os.dup2(int(sys.argv[at]), at + 2) for at in (1, 2)]; os.execv(sys.argv[3], sys.argv[3:])"

OPTIONS = ["--headless", "--no-sandbox", "--disable-gpu", "--disable-dev-shm-usage", "--no-first-run", "--hide-scrollbars",
           "--disable-background-networking", "--disable-component-update", "--disable-sync", "--remote-debugging-pipe"]

KEYS = {"ArrowLeft": 37, "ArrowUp": 38, "ArrowRight": 39, "ArrowDown": 40, "Home": 36, "End": 35, " ": 32, "Tab": 9, "Enter": 13,
        "Escape": 27}


def high(fd: int) -> int:
    """Moves a pipe to a descriptor of 20 or more, so that the launcher can overwrite 3 and 4."""
    made = fcntl.fcntl(fd, fcntl.F_DUPFD, 20)
    os.close(fd)
    return made


class Browser:
    """A tab of a browser. `asked` lists the addresses that it requested since it was last opened."""

    def __init__(self, width: int = 1280, height: int = 900) -> None:
        self.folder = tempfile.TemporaryDirectory(ignore_cleanup_errors=True)
        requests, self.write = map(high, os.pipe())
        self.read, answers = map(high, os.pipe())
        words = [str(CHROMIUM), *OPTIONS, f"--user-data-dir={self.folder.name}", f"--window-size={width},{height}", "about:blank"]
        self.process = subprocess.Popen([sys.executable, "-c", LAUNCHER, str(requests), str(answers), *words], pass_fds=(requests, answers),
                                        stdin=subprocess.DEVNULL, stdout=subprocess.DEVNULL, stderr=subprocess.DEVNULL)
        os.close(requests)
        os.close(answers)
        self.left = b""
        self.numbers = itertools.count(1)
        self.asked: list[str] = []
        self.errors: list[str] = []
        self.loaded = 0
        self.session = ""
        target = next(each for each in self.call("Target.getTargets")["targetInfos"] if each["type"] == "page")
        self.session = self.call("Target.attachToTarget", targetId=target["targetId"], flatten=True)["sessionId"]
        for domain in ("Page", "Network", "Runtime", "Log"):
            self.call(f"{domain}.enable")
        self.call("Performance.enable", timeDomain="threadTicks")
        self.call("Emulation.setDeviceMetricsOverride", width=width, height=height, deviceScaleFactor=1, mobile=False)

    def close(self) -> None:
        try:
            self.session = ""
            self.call("Browser.close")
        except (OSError, EOFError):
            pass
        try:
            self.process.wait(10)
        except subprocess.TimeoutExpired:
            self.process.kill()
            self.process.wait()
        os.close(self.read)
        os.close(self.write)
        self.folder.cleanup()

    def message(self) -> dict[str, Any]:
        """The next message of the browser."""
        while b"\0" not in self.left:
            more = os.read(self.read, 1 << 20)
            if not more:
                raise EOFError("the browser went away")
            self.left += more
        text, _, self.left = self.left.partition(b"\0")
        return json.loads(text)

    def note(self, message: dict[str, Any]) -> None:
        """Records an event that the browser sends unasked."""
        method, params = message.get("method", ""), message.get("params", {})
        if method == "Network.requestWillBeSent":
            self.asked.append(params["request"]["url"])
        elif method == "Page.loadEventFired":
            self.loaded += 1
        elif method == "Runtime.exceptionThrown":
            self.errors.append(params["exceptionDetails"].get("exception", {}).get("description", str(params)))
        elif method == "Log.entryAdded":
            self.errors.append(params["entry"]["text"])
        elif method == "Page.javascriptDialogOpening":
            self.send("Page.handleJavaScriptDialog", accept=True)

    def send(self, method: str, **given: Any) -> int:
        """Sends a request and returns its number, which the answer repeats."""
        number = next(self.numbers)
        message = {"id": number, "method": method, "params": given}
        if self.session:
            message["sessionId"] = self.session
        os.write(self.write, json.dumps(message).encode() + b"\0")
        return number

    def call(self, method: str, **given: Any) -> dict[str, Any]:
        number = self.send(method, **given)
        while True:
            answer = self.message()
            if answer.get("id") == number:
                if "error" in answer:
                    raise AssertionError(f"{method}: {answer['error']}")
                return answer["result"]
            self.note(answer)

    def open(self, path: str, fragment: str = "") -> None:
        """Opens a file and waits until it is loaded."""
        self.visit(f"file://{os.path.abspath(path)}{fragment}")

    def visit(self, address: str) -> None:
        """Opens an address and waits until it is loaded."""
        for each in ("about:blank", address):
            before = self.loaded
            self.asked = []
            self.call("Page.navigate", url=each)
            while self.loaded == before:
                self.note(self.message())

    def value(self, script: str) -> Any:
        """The value of an expression in the page."""
        answer = self.call("Runtime.evaluate", expression=script, returnByValue=True, awaitPromise=True)
        if "exceptionDetails" in answer:
            raise AssertionError(answer["exceptionDetails"].get("exception", {}).get("description", script))
        return answer["result"].get("value")

    def press(self, key: str, times: int = 1, shift: bool = False, ctrl: bool = False) -> None:
        code = KEYS.get(key, ord(key.upper()[0]))
        text = {"text": key} if len(key) == 1 else {"text": "\r"} if key == "Enter" else {}
        about = {"key": key, "windowsVirtualKeyCode": code, "modifiers": (8 if shift else 0) + (2 if ctrl else 0)}
        if ctrl:
            text = {}
        for _ in range(times):
            self.call("Input.dispatchKeyEvent", type="keyDown", **about, **text)
            self.call("Input.dispatchKeyEvent", type="keyUp", **about)

    def type(self, text: str) -> None:
        """Types a text into the focused element."""
        self.call("Input.insertText", text=text)

    def click(self, script: str) -> None:
        """Clicks with the pointer on the centre of an element."""
        box = self.value(f"(() => {{ const one = {script}; one.scrollIntoView({{ block: 'center' }}); "
                         "const box = one.getBoundingClientRect(); return [box.left + box.width / 2, box.top + box.height / 2]; })()")
        position = {"x": box[0], "y": box[1]}
        self.call("Input.dispatchMouseEvent", type="mouseMoved", **position)
        for kind in ("mousePressed", "mouseReleased"):
            self.call("Input.dispatchMouseEvent", type=kind, button="left", clickCount=1, **position)

    def until(self, script: str, seconds: float = 120) -> Any:
        """Waits until an expression is true and returns its value."""
        ends = time.monotonic() + seconds
        while not (found := self.value(script)):
            if time.monotonic() > ends:
                raise AssertionError(f"not so within {seconds} s: {script}")
            time.sleep(0.02)
        return found

    def busy(self) -> float:
        """The processor time of the page's thread in seconds, not the elapsed time."""
        return next(each["value"] for each in self.call("Performance.getMetrics")["metrics"] if each["name"] == "TaskDuration")

    def picture(self, path: str, whole: bool = False) -> None:
        made = self.call("Page.captureScreenshot", format="png", captureBeyondViewport=whole)
        with open(path, "wb") as file:
            file.write(base64.b64decode(made["data"]))

    def printed(self) -> bytes:
        """The page as a PDF."""
        return base64.b64decode(self.call("Page.printToPDF", printBackground=True, preferCSSPageSize=True)["data"])
