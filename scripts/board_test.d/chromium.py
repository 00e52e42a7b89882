"""A headless Chromium, driven through its debugging pipe: JSON messages that end with NUL, on descriptors 3 and 4."""
from __future__ import annotations

import fcntl
import json
import os
import queue
import shutil
import signal
import tempfile
import threading
import time
from base64 import b64decode
from typing import Any, Dict, Iterator, List, Optional

SECONDS = 30.0
PACKAGE = "chromium"
# a name of another site that leads to this machine
REBOUND = "rebound.example"
OPTIONS = ["--headless=new", "--remote-debugging-pipe", "--no-sandbox", "--disable-gpu", "--disable-dev-shm-usage",
           "--no-first-run", "--no-default-browser-check", "--disable-background-networking", "--disable-sync",
           "--disable-component-update", "--disable-extensions", "--disable-default-apps", "--no-proxy-server",
           "--disable-features=Translate,OptimizationHints,MediaRouter,LocalNetworkAccessChecks",
           f"--host-resolver-rules=MAP {REBOUND} 127.0.0.1",
           "--force-color-profile=srgb", "--hide-scrollbars", "--js-flags=--expose-gc"]
# what a page reports of itself that isn't as it should be
COMPLAINTS = ("error", "warning", "assert")


class BrowserFault(Exception):
    """The browser doesn't answer, or answers with a fault."""


def found() -> Optional[str]:
    """The path of Chromium; None if it isn't there."""
    return shutil.which("chromium")


def high(descriptor: int) -> int:
    """The same descriptor under a number that is in nobody's way."""
    moved = fcntl.fcntl(descriptor, fcntl.F_DUPFD_CLOEXEC, 10)
    os.close(descriptor)
    return moved


class Browser:
    """A Chromium with a profile of its own, which ends with its `with` block."""

    def __init__(self, program: str) -> None:
        self._room = tempfile.mkdtemp(prefix="board-chromium-")
        theirs, ours = map(high, os.pipe())
        reads, writes = map(high, os.pipe())
        null = os.open(os.devnull, os.O_RDWR | os.O_CLOEXEC)
        actions = [(os.POSIX_SPAWN_DUP2, null, number) for number in range(3)]
        actions += [(os.POSIX_SPAWN_DUP2, theirs, 3), (os.POSIX_SPAWN_DUP2, writes, 4)]
        words = [program, *OPTIONS, f"--user-data-dir={self._room}", "about:blank"]
        self.process = os.posix_spawn(program, words, dict(os.environ), file_actions=actions, setpgroup=0)
        for descriptor in (theirs, writes, null):
            os.close(descriptor)
        self._to, self._from = os.fdopen(ours, "wb", buffering=0), os.fdopen(reads, "rb")
        self._last, self._lock = 0, threading.Lock()
        self._answers: Dict[int, queue.Queue[Any]] = {}
        self._pages: Dict[str, Page] = {}
        self._reader = threading.Thread(target=self._read, daemon=True)
        self._reader.start()

    def __enter__(self) -> Browser:
        return self

    def __exit__(self, *_: object) -> None:
        try:
            self.call("Browser.close")
        except (BrowserFault, OSError):
            pass
        self._wait()
        self._to.close()
        self._reader.join(SECONDS)
        self._from.close()
        # (what the browser's own processes still write may come in between)
        shutil.rmtree(self._room, ignore_errors=True)

    def _wait(self) -> None:
        """Waits for the end; after a while the browser and its own processes, which are one group, are killed."""
        end = time.monotonic() + 10
        while os.waitpid(self.process, os.WNOHANG)[0] == 0:
            if time.monotonic() > end:
                os.killpg(self.process, signal.SIGKILL)
            time.sleep(0.05)

    def _read(self) -> None:
        """Takes each message: an answer to its caller, an event to its page."""
        for message in self._messages():
            self._take(json.loads(message))
        while self._answers:
            self._answers.popitem()[1].put({"error": {"message": "the browser has ended"}})

    def _messages(self) -> Iterator[bytes]:
        rest = b""
        piece = os.read(self._from.fileno(), 1 << 16)
        while piece:
            *messages, rest = (rest + piece).split(b"\0")
            yield from messages
            piece = os.read(self._from.fileno(), 1 << 16)

    def _take(self, message: Dict[str, Any]) -> None:
        if "id" in message:
            waiting = self._answers.pop(message["id"], None)
            if waiting is not None:
                waiting.put(message)
            return
        page = self._pages.get(message.get("sessionId", ""))
        if page is not None:
            page.take(message["method"], message["params"])

    def send(self, method: str, params: Dict[str, Any], session: Optional[str]) -> queue.Queue[Any]:
        """Sends a message; returns the place of its answer."""
        with self._lock:
            self._last += 1
            waiting: queue.Queue[Any] = queue.Queue(1)
            self._answers[self._last] = waiting
            message = {"id": self._last, "method": method, "params": params}
            if session is not None:
                message["sessionId"] = session
            self._to.write(json.dumps(message).encode() + b"\0")
        return waiting

    def call(self, method: str, session: Optional[str] = None, **params: Any) -> Dict[str, Any]:
        """Asks the browser; returns its answer. Raises `BrowserFault`."""
        try:
            answer = self.send(method, params, session).get(timeout=SECONDS)
        except queue.Empty:
            raise BrowserFault(f"no answer to {method} in {SECONDS:.0f} seconds") from None
        if "error" in answer:
            raise BrowserFault(f"{method}: {answer['error'].get('message')}")
        return dict(answer["result"])

    def page(self, address: str, width: int = 1000, height: int = 900) -> Page:
        """Opens a page of this size in a tab of its own."""
        target = self.call("Target.createTarget", url="about:blank")["targetId"]
        session = self.call("Target.attachToTarget", targetId=target, flatten=True)["sessionId"]
        page = Page(self, session, target)
        self._pages[session] = page
        for domain in ("Page", "Runtime", "Log", "Network"):
            page.call(f"{domain}.enable")
        page.resize(width, height)
        page.go(address)
        return page


class Page:
    """A tab. It notes what the page complains of, and agrees to what a dialog asks."""

    def __init__(self, browser: Browser, session: str, target: str) -> None:
        self._browser, self._session, self._target = browser, session, target
        self.complaints: List[str] = []
        self.dialogs: List[str] = []

    def call(self, method: str, **params: Any) -> Dict[str, Any]:
        return self._browser.call(method, self._session, **params)

    def close(self) -> None:
        self._browser.call("Target.closeTarget", targetId=self._target)

    def take(self, method: str, params: Dict[str, Any]) -> None:
        """Takes an event."""
        if method == "Runtime.consoleAPICalled" and params["type"] in COMPLAINTS:
            self.complaints.append(str([value.get("value") for value in params["args"]]))
        elif method == "Runtime.exceptionThrown":
            details = params["exceptionDetails"]
            self.complaints.append(details.get("exception", {}).get("description", details["text"]))
        elif method == "Log.entryAdded" and params["entry"]["level"] in COMPLAINTS:
            self.complaints.append(f"{params['entry']['text']} {params['entry'].get('url', '')}")
        elif method == "Page.javascriptDialogOpening":
            self.dialogs.append(params["message"])
            # (an answer that isn't waited for, since this is the thread that reads them)
            self._browser.send("Page.handleJavaScriptDialog", {"accept": True}, self._session)

    def go(self, address: str) -> None:
        fault = self.call("Page.navigate", url=address).get("errorText")
        if fault:
            raise BrowserFault(f"{address}: {fault}")
        self.wait("document.readyState === 'complete'")

    def value(self, script: str) -> Any:
        """What a script of the page is, as JSON has it. A promise is waited for."""
        answer = self.call("Runtime.evaluate", expression=script, returnByValue=True, awaitPromise=True)
        if "exceptionDetails" in answer:
            details = answer["exceptionDetails"]
            raise BrowserFault(f"{script[:200]}: {details.get('exception', {}).get('description', details['text'])}")
        return answer["result"].get("value")

    def wait(self, script: str, seconds: float = SECONDS) -> Any:
        """Waits until a script is something; returns what it is."""
        end = time.monotonic() + seconds
        value = self._value_or_none(script)
        while not value:
            if time.monotonic() > end:
                raise BrowserFault(f"not so in {seconds:.0f} seconds: {script[:300]}")
            time.sleep(0.05)
            value = self._value_or_none(script)
        return value

    def _value_or_none(self, script: str) -> Any:
        """What a script is; None if it fails, as it may while the page loads again."""
        try:
            return self.value(script)
        except BrowserFault:
            return None

    def resize(self, width: int, height: int) -> None:
        self.call("Emulation.setDeviceMetricsOverride", width=width, height=height, deviceScaleFactor=1, mobile=False)

    def color(self, scheme: str) -> None:
        """Sets the scheme that the person prefers: light or dark."""
        self.call("Emulation.setEmulatedMedia", features=[{"name": "prefers-color-scheme", "value": scheme}])

    def picture(self) -> bytes:
        """A PNG of what is seen."""
        return b64decode(self.call("Page.captureScreenshot", format="png")["data"])

    def memory(self) -> int:
        """The bytes that the page's scripts hold: the least of three, each after what isn't used has been collected."""
        return min(self._memory() for _ in range(3))

    def _memory(self) -> int:
        self.call("HeapProfiler.collectGarbage")
        return int(self.call("Runtime.getHeapUsage")["usedSize"])
