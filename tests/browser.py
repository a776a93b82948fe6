"""A real browser for tests: headless Chromium, driven over a pair of pipes.

`Browser` starts it, opens a file and asks the page: what it loaded and complained of, what a
script says of it, how it looks as a picture, and how it prints.
"""

from __future__ import annotations

import base64
import json
import os
import shutil
import subprocess
import tempfile
import time
from pathlib import Path
from typing import Any

TIME_LIMIT = 60  # seconds for one answer
NAMES = ("chromium", "chromium-browser", "google-chrome")


def command() -> str | None:
    """The browser that there is."""
    return next((found for name in NAMES if (found := shutil.which(name))), None)


class Browser:
    """One page of a browser with a profile of its own."""

    def __init__(self) -> None:
        self.folder = tempfile.mkdtemp()
        to_read, self.to = os.pipe()
        self.answers, from_write = os.pipe()
        shell = f'exec 3<&{to_read} 4>&{from_write}; exec "$@"'
        options = (
            "--headless=new --no-sandbox --disable-gpu --disable-dev-shm-usage --no-first-run"
            " --disable-extensions --hide-scrollbars --force-color-profile=srgb"
            f" --remote-debugging-pipe --user-data-dir={self.folder}"
        )
        self.process = subprocess.Popen(
            ["bash", "-c", shell, "bash", command(), *options.split(), "about:blank"],
            pass_fds=(to_read, from_write), stdout=subprocess.DEVNULL, stderr=subprocess.DEVNULL,
        )
        os.close(to_read)
        os.close(from_write)
        self.number, self.rest, self.events = 0, b"", []
        self.session: str | None = None
        targets = self.ask("Target.getTargets")["targetInfos"]
        target = next(one["targetId"] for one in targets if one["type"] == "page")
        attached = self.ask("Target.attachToTarget", targetId=target, flatten=True)
        self.session = attached["sessionId"]
        for domain in ("Page", "Runtime", "Network", "Log"):
            self.ask(f"{domain}.enable")

    def __enter__(self) -> Browser:
        return self

    def __exit__(self, *_: object) -> None:
        self.process.kill()
        self.process.wait()
        os.close(self.to)
        os.close(self.answers)
        shutil.rmtree(self.folder, ignore_errors=True)

    def message(self) -> dict[str, Any]:
        """The next answer or event."""
        limit = time.monotonic() + TIME_LIMIT
        while b"\0" not in self.rest:
            assert time.monotonic() < limit, "the browser doesn't answer"
            part = os.read(self.answers, 1 << 20)
            assert part, "the browser has ended"
            self.rest += part
        told, _, self.rest = self.rest.partition(b"\0")
        return json.loads(told)

    def ask(self, method: str, **parameters: object) -> dict[str, Any]:
        """What the browser answers; events on the way are kept."""
        self.number += 1
        asked: dict[str, object] = {"id": self.number, "method": method, "params": parameters}
        if self.session is not None:
            asked["sessionId"] = self.session
        os.write(self.to, json.dumps(asked).encode() + b"\0")
        while (told := self.message()).get("id") != self.number:
            self.events.append(told)
        assert "error" not in told, (method, told)
        return told["result"]

    def open(self, path: Path, width: int = 1280, height: int = 900) -> None:
        """Show a file in a window of this size."""
        self.ask("Emulation.setDeviceMetricsOverride", width=width, height=height,
                 deviceScaleFactor=1, mobile=False)
        self.events.clear()
        self.ask("Page.navigate", url=path.resolve().as_uri())
        while not any(one.get("method") == "Page.loadEventFired" for one in self.events):
            self.events.append(self.message())

    def run(self, script: str) -> Any:
        """The value of an expression on the page."""
        told = self.ask("Runtime.evaluate", expression=script, returnByValue=True)
        assert "exceptionDetails" not in told, told
        return told["result"].get("value")

    def loaded(self) -> list[str]:
        """What the page asked for, itself first."""
        sent = (one["params"] for one in self.events
                if one.get("method") == "Network.requestWillBeSent")
        return [one["request"]["url"] for one in sent]

    def complaints(self) -> list[str]:
        """What the browser said of the page: errors of scripts, styles or loading."""
        kinds = ("Log.entryAdded", "Runtime.exceptionThrown", "Runtime.consoleAPICalled")
        return [json.dumps(one["params"]) for one in self.events if one.get("method") in kinds]

    def picture(self, whole: bool = True) -> bytes:
        """The page as a PNG, also what is below the window."""
        told = self.ask("Page.captureScreenshot", format="png", captureBeyondViewport=whole)
        return base64.b64decode(told["data"])

    def printed(self) -> bytes:
        """The page as a PDF, in the size that it asks for."""
        told = self.ask("Page.printToPDF", preferCSSPageSize=True, printBackground=True)
        return base64.b64decode(told["data"])
