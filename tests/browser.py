"""Drives a chromium without a window, by its debugging pipe, for the tests of pages."""
from __future__ import annotations

import json
import os
import select
import shutil
import signal
import subprocess
import time
from pathlib import Path
from types import TracebackType
from typing import Any, Dict, List, Optional, Type

PROGRAM = shutil.which("chromium") or shutil.which("chromium-browser")
WORDS = "--headless=new --no-sandbox --disable-gpu --no-first-run --remote-debugging-pipe"
# The browser takes messages from descriptor 3, and answers on 4.
AS_THREE_AND_FOUR = 'in=$1 out=$2; shift 2; exec "$@" 3<&"$in" 4>&"$out"'
PATIENCE = 600.0


class Browser:
    """A browser with one page, which is ended with its block.

    `console` has what the page has logged. All times are of the page's own thread, so that other
    load hardly changes them.
    """

    def __init__(self, folder: Path) -> None:
        """Start the browser, with its files in a folder."""
        self.said, self.waiting = b"", 0
        self.console: List[str] = []
        self.events: List[Dict[str, Any]] = []
        take, self.write = os.pipe()
        self.read, give = os.pipe()
        words = [PROGRAM or "", *WORDS.split(), f"--user-data-dir={folder}/profile"]
        self.process = subprocess.Popen(
            ["bash", "-c", AS_THREE_AND_FOUR, "bash", str(take), str(give), *words],
            stdin=subprocess.DEVNULL,
            stdout=subprocess.DEVNULL,
            stderr=subprocess.DEVNULL,
            pass_fds=(take, give),
            start_new_session=True,
        )
        os.close(take)
        os.close(give)
        self.session: Dict[str, str] = {}
        # The pages that are there at first may be parts of the browser itself.
        page = self.ask("Target.createTarget", url="about:blank")["targetId"]
        attached = self.ask("Target.attachToTarget", targetId=page, flatten=True)
        self.session = {"sessionId": attached["sessionId"]}
        for name in ("Page.enable", "Runtime.enable", "Log.enable"):
            self.ask(name)
        self.ask("Performance.enable", timeDomain="threadTicks")

    def __enter__(self) -> Browser:
        """Return the browser."""
        return self

    def __exit__(
        self,
        kind: Optional[Type[BaseException]],
        error: Optional[BaseException],
        trace: Optional[TracebackType],
    ) -> None:
        """End the browser with all its processes."""
        os.killpg(self.process.pid, signal.SIGKILL)
        self.process.wait()
        os.close(self.read)
        os.close(self.write)

    def ask(self, method: str, **parts: Any) -> Any:
        """Have the browser do something, and return its answer."""
        self.waiting += 1
        message = {"id": self.waiting, "method": method, "params": parts, **self.session}
        text = json.dumps(message).encode() + b"\0"
        while text:
            text = text[os.write(self.write, text) :]
        while True:
            told = self.heard()
            if told.get("id") == self.waiting:
                if "error" in told:
                    raise RuntimeError(f"{method}: {told['error']}")
                return told["result"]

    def heard(self) -> Dict[str, Any]:
        """Return the next message of the browser. Keep it if it is an event."""
        until = time.monotonic() + PATIENCE
        while b"\0" not in self.said:
            if not select.select([self.read], [], [], max(0.0, until - time.monotonic()))[0]:
                raise TimeoutError("the browser says nothing")
            piece = os.read(self.read, 1 << 20)
            if not piece:
                raise EOFError("the browser has ended")
            self.said += piece
        text, _, self.said = self.said.partition(b"\0")
        told: Dict[str, Any] = json.loads(text)
        if "method" in told:
            self.events.append(told)
            if told["method"] == "Log.entryAdded":
                self.console.append(told["params"]["entry"]["text"])
        return told

    def open(self, address: str) -> float:
        """Open a page, and return the seconds of its thread until it is loaded and drawn."""
        before = self.worked()
        self.load(address)
        drawn = "new Promise((done) => requestAnimationFrame(() => setTimeout(done)))"
        self.ask("Runtime.evaluate", expression=drawn, awaitPromise=True)
        return self.worked() - before

    def load(self, address: str) -> None:
        """Open a page, and return once it is loaded."""
        self.events.clear()
        self.ask("Page.navigate", url=address)
        while not any(it["method"] == "Page.loadEventFired" for it in self.events):
            self.heard()

    def wait_for(self, expression: str) -> None:
        """Wait until an expression in the page is true."""
        until = time.monotonic() + PATIENCE
        while not self.value(expression):
            if time.monotonic() > until:
                raise TimeoutError(expression)
            time.sleep(0.05)

    def count(self, selector: str) -> int:
        """Return how many elements a selector finds, also without scripts."""
        root = self.ask("DOM.getDocument")["root"]["nodeId"]
        return len(self.ask("DOM.querySelectorAll", nodeId=root, selector=selector)["nodeIds"])

    def worked(self) -> float:
        """Return the seconds that the page's thread has worked."""
        metrics = self.ask("Performance.getMetrics")["metrics"]
        return float(next(it["value"] for it in metrics if it["name"] == "TaskDuration"))

    def value(self, expression: str) -> Any:
        """Return the value of an expression in the page."""
        answer = self.ask("Runtime.evaluate", expression=expression, returnByValue=True)
        if "exceptionDetails" in answer:
            raise RuntimeError(str(answer["exceptionDetails"]))
        return answer["result"].get("value")
