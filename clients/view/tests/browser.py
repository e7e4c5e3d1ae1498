"""A headless Chromium, driven by its debugging protocol over a pipe. Wants nothing but Python 3 and Debian's package chromium."""
import base64
import json
import os
import pathlib
import select
import shutil
import subprocess
import tempfile
import time
import types
from typing import Any

NAMES = ["chromium", "chromium-browser", "google-chrome"]
FLAGS = ["--headless=new", "--no-sandbox", "--disable-gpu", "--disable-dev-shm-usage", "--no-first-run", "--hide-scrollbars",
         "--disable-background-networking", "--disable-component-update", "--disable-sync", "--remote-debugging-pipe"]
PATIENCE = 120

# a message of the protocol, or a part of one
Message = dict[str, Any]


def program() -> str | None:
    """The path of a Chromium, or None."""
    return next((path for name in NAMES if (path := shutil.which(name))), None)


def described(details: Message) -> str:
    """What was thrown in the page."""
    return str(details.get("exception", {}).get("description", details["text"]))


class Failure(Exception):
    """What the browser or the page refused."""


class Browser:
    """One page in one browser, which may be started with further flags. Used by `with`, which ends the browser and takes its folder away."""

    def __init__(self, *flags: str) -> None:
        self.flags = flags
        self.folder = tempfile.mkdtemp()
        to_browser, self.write_end = os.pipe()
        self.read_end, from_browser = os.pipe()
        self.process = self.start(to_browser, from_browser)
        os.close(to_browser)
        os.close(from_browser)
        self.waiting = b""
        self.count = 0
        self.events: list[Message] = []
        self.session: str | None = None
        self.attach()

    def start(self, reads: int, writes: int) -> "subprocess.Popen[bytes]":
        """Starts the browser, which reads messages at descriptor 3 and writes them at 4."""
        command = f'exec 3<&{reads} 4>&{writes}; exec "$@"'
        words = ["bash", "-c", command, "browser", "nice", program() or NAMES[0], *FLAGS, *self.flags]
        words += [f"--user-data-dir={self.folder}", "about:blank"]
        return subprocess.Popen(words, pass_fds=(reads, writes), stdout=subprocess.DEVNULL, stderr=subprocess.DEVNULL)

    def attach(self) -> None:
        """Talks to the first page from now on."""
        target = next(it for it in self.call("Target.getTargets")["targetInfos"] if it["type"] == "page")
        self.session = self.call("Target.attachToTarget", targetId=target["targetId"], flatten=True)["sessionId"]
        for part in ("Page", "Runtime", "Network"):
            self.call(f"{part}.enable")

    def __enter__(self) -> "Browser":
        return self

    def __exit__(self, kind: type[BaseException] | None, fault: BaseException | None, at: types.TracebackType | None) -> None:
        try:
            self.session = None
            self.call("Browser.close")
        except (Failure, OSError):
            self.process.kill()
        self.process.wait()
        shutil.rmtree(self.folder, ignore_errors=True)

    def message(self, until: float) -> Message:
        """The next message of the browser."""
        while b"\0" not in self.waiting:
            ready, _, _ = select.select([self.read_end], [], [], max(0, until - time.monotonic()))
            got = os.read(self.read_end, 1 << 20) if ready else b""
            if not got:
                raise Failure("the browser doesn't answer")
            self.waiting += got
        text, self.waiting = self.waiting.split(b"\0", 1)
        message: Message = json.loads(text)
        return message

    def call(self, method: str, **params: Any) -> Message:
        """Calls a method of the protocol and waits for its answer; what else comes is kept."""
        self.count += 1
        request: Message = {"id": self.count, "method": method, "params": params}
        if self.session:
            request["sessionId"] = self.session
        view = memoryview(json.dumps(request).encode() + b"\0")
        while view:
            view = view[os.write(self.write_end, view):]
        until = time.monotonic() + PATIENCE
        while True:
            message = self.message(until)
            if message.get("id") == self.count:
                if "error" in message:
                    raise Failure(f"{method}: {message['error']['message']}")
                result: Message = message["result"]
                return result
            self.events.append(message)

    def size(self, width: int, height: int, dark: bool = False, ratio: int = 1, still: bool = False) -> None:
        """Makes the window so large, in light or dark colours; `still` asks for less motion."""
        self.call("Emulation.setDeviceMetricsOverride", width=width, height=height, deviceScaleFactor=ratio, mobile=False)
        features = {"prefers-color-scheme": "dark" if dark else "light", "prefers-reduced-motion": "reduce" if still else "no-preference"}
        self.call("Emulation.setEmulatedMedia", features=[{"name": name, "value": value} for name, value in features.items()])

    def open(self, path: pathlib.Path, fragment: str = "", query: str = "") -> None:
        """Opens a file and waits until it is loaded; another fragment of the same file is a new load too."""
        self.events.clear()
        self.call("Page.navigate", url="about:blank")
        self.call("Page.navigate", url=f"file://{path}{'?' + query if query else ''}{'#' + fragment if fragment else ''}")
        until = time.monotonic() + PATIENCE
        while self.run("document.readyState + location.protocol") != "completefile:":
            if time.monotonic() > until:
                raise Failure(f"{path} isn't loaded")
            time.sleep(0.02)

    def run(self, script: str) -> Any:
        """The value of an expression in the page."""
        answer = self.call("Runtime.evaluate", expression=script, returnByValue=True, awaitPromise=True)
        if "exceptionDetails" in answer:
            raise Failure(described(answer["exceptionDetails"]))
        return answer["result"].get("value")

    def until(self, script: str, seconds: float = 10) -> bool:
        """Waits until an expression in the page holds, and tells whether it did in time."""
        end = time.monotonic() + seconds
        while not (holds := bool(self.run(script))) and time.monotonic() < end:
            time.sleep(0.02)
        return holds

    def key(self, name: str, code: int = 0, text: str = "") -> None:
        """Presses a key; one that writes a character does so by its text, as Enter presses a button."""
        for kind in ("keyDown" if text else "rawKeyDown", "keyUp"):
            self.call("Input.dispatchKeyEvent", type=kind, key=name, code=name, windowsVirtualKeyCode=code, text=text if kind == "keyDown" else "")

    def faults(self) -> list[str]:
        """What the page has thrown since it was opened."""
        self.run("0")
        return [described(it["params"]["exceptionDetails"]) for it in self.events if it.get("method") == "Runtime.exceptionThrown"]

    def strangers(self) -> list[str]:
        """The addresses outside the file system that the page has asked for since it was opened."""
        self.run("0")
        asked = [it["params"]["request"]["url"] for it in self.events if it.get("method") == "Network.requestWillBeSent"]
        return [it for it in asked if not it.startswith(("file:", "about:", "data:"))]

    def picture(self, whole: bool = True) -> bytes:
        """A PNG of the whole page, or of what is in the window."""
        data = self.call("Page.captureScreenshot", format="png", captureBeyondViewport=whole)["data"]
        return base64.b64decode(data)

    def paper(self) -> bytes:
        """The page as PDF."""
        return base64.b64decode(self.call("Page.printToPDF", printBackground=True, preferCSSPageSize=True)["data"])
