"""Chromium, driven as by a user: pages are opened, keys pressed, the mouse moved, and pictures taken.

It speaks the DevTools protocol with a headless Chromium (Debian: chromium) over a pair of pipes. What the page writes to its
console, what it throws, and each request that it makes are kept.
"""
from __future__ import annotations

import base64
import json
import os
import select
import shutil
import subprocess
import tempfile
import time
from pathlib import Path
from typing import Any

# of a key: its code, its number in Windows, and the text that it types
KEYS = {
    "Enter": ("Enter", 13, "\r"),
    "Tab": ("Tab", 9, ""),
    "Escape": ("Escape", 27, ""),
    "Backspace": ("Backspace", 8, ""),
    "Delete": ("Delete", 46, ""),
    "Home": ("Home", 36, ""),
    "End": ("End", 35, ""),
    "ArrowLeft": ("ArrowLeft", 37, ""),
    "ArrowUp": ("ArrowUp", 38, ""),
    "ArrowRight": ("ArrowRight", 39, ""),
    "ArrowDown": ("ArrowDown", 40, ""),
    "F8": ("F8", 119, ""),
}
ALT, CONTROL, META, SHIFT = 1, 2, 4, 8


class Fault(Exception):
    """The page or the browser didn't do what it was told."""


def program() -> str | None:
    """The browser, where there is one."""
    return os.environ.get("CHROMIUM") or shutil.which("chromium") or shutil.which("chromium-browser")


class Browser:
    """A headless Chromium with one page, until `close`."""

    drops = True  # whether files can be dropped on the page

    def __init__(self, width: int = 1400, height: int = 1000, dark: bool = False, ratio: float = 1.0) -> None:
        found = program()
        if not found:
            raise Fault("no chromium is there (Debian: chromium)")
        self.room = tempfile.mkdtemp(prefix="emtp-browser-")
        to_child, self.to = os.pipe()
        self.back, from_child = os.pipe()

        def place() -> None:
            # the pipes have to be 3 and 4 in the child, whatever they are here
            first, second = os.dup(to_child), os.dup(from_child)
            os.dup2(first, 3)
            os.dup2(second, 4)

        self.child = subprocess.Popen(
            [
                found,
                "--headless",
                "--no-sandbox",
                "--disable-gpu",
                "--disable-dev-shm-usage",
                "--no-first-run",
                "--disable-background-networking",
                "--remote-debugging-pipe",
                f"--user-data-dir={self.room}",
                "about:blank",
            ],
            stdin=subprocess.DEVNULL,
            stdout=subprocess.DEVNULL,
            stderr=subprocess.DEVNULL,
            pass_fds=(3, 4),
            preexec_fn=place,
        )
        os.close(to_child)
        os.close(from_child)
        self.number, self.session = 0, None
        self.unread = b""
        self.faults: list[str] = []
        self.requests: list[str] = []
        self.downloads = Path(self.room) / "downloads"
        self.downloads.mkdir()
        target = self.call("Target.createTarget", url="about:blank")["targetId"]
        self.session = self.call("Target.attachToTarget", targetId=target, flatten=True)["sessionId"]
        for domain in ("Runtime", "Page", "Network", "Log", "DOM"):
            self.call(f"{domain}.enable")
        self.call("Browser.setDownloadBehavior", behavior="allow", downloadPath=str(self.downloads), eventsEnabled=True)
        self.size(width, height, dark, ratio)

    def size(self, width: int, height: int, dark: bool = False, ratio: float = 1.0) -> None:
        """The size of the window in points, and what its user prefers."""
        mobile = width < 600
        self.call(
            "Emulation.setDeviceMetricsOverride", width=width, height=height, deviceScaleFactor=ratio, mobile=mobile
        )
        feature = {"name": "prefers-color-scheme", "value": "dark" if dark else "light"}
        self.call("Emulation.setEmulatedMedia", features=[feature])

    def take(self, seconds: float) -> dict[str, Any] | None:
        """The next message, or none within so many seconds."""
        until = time.monotonic() + seconds
        while b"\0" not in self.unread:
            left = until - time.monotonic()
            if left <= 0 or not select.select([self.back], [], [], left)[0]:
                return None
            got = os.read(self.back, 1 << 20)
            if not got:
                raise Fault("the browser ended")
            self.unread += got
        one, self.unread = self.unread.split(b"\0", 1)
        message = json.loads(one)
        self.note(message)
        return message

    def note(self, message: dict[str, Any]) -> None:
        """Keeps faults and requests of the page."""
        method, what = message.get("method"), message.get("params", {})
        if method == "Runtime.exceptionThrown":
            details = what["exceptionDetails"]
            self.faults.append(details.get("exception", {}).get("description") or details.get("text", "an exception"))
        elif method == "Runtime.consoleAPICalled" and what["type"] in ("error", "warning", "assert"):
            self.faults.append(" ".join(str(it.get("value", it.get("description"))) for it in what["args"]))
        elif method == "Log.entryAdded" and what["entry"]["level"] in ("error", "warning"):
            self.faults.append(what["entry"]["text"])
        elif method == "Network.requestWillBeSent":
            self.requests.append(what["request"]["url"])

    def call(self, method: str, seconds: float = 120, **params: Any) -> dict[str, Any]:
        """A command of the protocol, and its answer."""
        self.number += 1
        message = {"id": self.number, "method": method, "params": params}
        if self.session:
            message["sessionId"] = self.session
        left = json.dumps(message).encode() + b"\0"
        while left:
            left = left[os.write(self.to, left[: 1 << 16]) :]
        until = time.monotonic() + seconds
        while True:
            answer = self.take(max(0.0, until - time.monotonic()))
            if answer is None:
                raise Fault(f"{method} took more than {seconds:g} s")
            if answer.get("id") == self.number:
                if "error" in answer:
                    raise Fault(f"{method}: {answer['error'].get('message')}")
                return answer["result"]

    def open(self, address: str) -> None:
        self.call("Page.navigate", url=address)

    def run(self, script: str, seconds: float = 120) -> Any:
        """The value of an expression in the page."""
        answer = self.call(
            "Runtime.evaluate",
            seconds,
            expression=script,
            awaitPromise=True,
            returnByValue=True,
            userGesture=True,
        )
        if "exceptionDetails" in answer:
            details = answer["exceptionDetails"]
            raise Fault(details.get("exception", {}).get("description") or details["text"])
        return answer["result"].get("value")

    def wait(self, script: str, seconds: float = 120) -> None:
        """Waits until an expression is true."""
        until = time.monotonic() + seconds
        while time.monotonic() < until:
            if self.run(f"Boolean({script})"):
                return
            self.take(0.05)
        raise Fault(f"not within {seconds:g} s: {script}")

    def key(self, name: str, modifiers: int = 0) -> None:
        """Presses a key: one of KEYS, or a letter."""
        code, number, text = KEYS.get(name) or ("", ord(name.upper()) if name.isalnum() else 0, name)
        what = {"key": name, "code": code, "windowsVirtualKeyCode": number, "modifiers": modifiers}
        typed = text if not modifiers & (CONTROL | ALT | META) else ""
        self.call("Input.dispatchKeyEvent", type="keyDown" if typed else "rawKeyDown", text=typed, **what)
        self.call("Input.dispatchKeyEvent", type="keyUp", **what)

    def type(self, text: str) -> None:
        for letter in text:
            self.key("Enter" if letter == "\n" else letter)

    def box(self, selector: str) -> tuple[float, float, float, float]:
        """Where an element stands: left, top, width, height. It is brought into the view."""
        found = self.run(
            f"(() => {{ const it = document.querySelector({json.dumps(selector)}); if (!it) return null;"
            " it.scrollIntoView({block: 'nearest'}); const box = it.getBoundingClientRect();"
            " return [box.left, box.top, box.width, box.height]; })()"
        )
        if not found or not found[2]:
            raise Fault(f"nothing is seen of {selector}")
        return tuple(found)

    def mouse(self, kind: str, x: float, y: float, **more: Any) -> None:
        self.call("Input.dispatchMouseEvent", type=kind, x=x, y=y, **more)

    def click(self, selector: str, across: float = 0.5, down: float = 0.5) -> None:
        """Clicks on an element, at this share of its width and height."""
        left, top, width, height = self.box(selector)
        x, y = left + across * width, top + down * height
        self.mouse("mouseMoved", x, y)
        self.mouse("mousePressed", x, y, button="left", clickCount=1)
        self.mouse("mouseReleased", x, y, button="left", clickCount=1)

    def drag(self, selector: str, start: float, end: float, down: float) -> None:
        """Draws over an element from one share of its width to another."""
        left, top, width, height = self.box(selector)
        y = top + down * height
        self.mouse("mouseMoved", left + start * width, y)
        self.mouse("mousePressed", left + start * width, y, button="left", clickCount=1)
        for step in range(1, 6):
            x = left + (start + (end - start) * step / 5) * width
            self.mouse("mouseMoved", x, y, button="left", buttons=1)
        self.mouse("mouseReleased", left + end * width, y, button="left", clickCount=1)

    def wheel(self, selector: str, across: float, down: float, by: float) -> None:
        left, top, width, height = self.box(selector)
        self.mouse("mouseWheel", left + across * width, top + down * height, deltaX=0, deltaY=by)

    def give(self, selector: str, files: list[Path]) -> None:
        """Gives files to an input."""
        root = self.call("DOM.getDocument")["root"]["nodeId"]
        node = self.call("DOM.querySelector", nodeId=root, selector=selector)["nodeId"]
        self.call("DOM.setFileInputFiles", nodeId=node, files=[str(it) for it in files])

    def drop(self, files: list[Path]) -> None:
        """Drops files on the middle of the window."""
        dropped = {"items": [], "files": [str(it) for it in files], "dragOperationsMask": 1}
        for kind in ("dragEnter", "dragOver", "drop"):
            self.call("Input.dispatchDragEvent", type=kind, x=300, y=300, data=dropped)

    def spent(self) -> dict[int, float]:
        """Of each process that has a page of this browser: the seconds of a processor that its first thread, which reads
        and draws, has taken."""
        below, todo = {}, [self.child.pid]
        for own in Path("/proc").glob("[0-9]*"):
            try:
                below.setdefault(int((own / "stat").read_text().rsplit(")", 1)[1].split()[1]), []).append(int(own.name))
            except OSError:  # it has ended
                continue
        found = {}
        while todo:
            own = todo.pop()
            todo += below.get(own, [])
            try:
                if b"--type=renderer" in Path(f"/proc/{own}/cmdline").read_bytes():
                    found[own] = int(Path(f"/proc/{own}/task/{own}/schedstat").read_text().split()[0]) / 1e9
            except OSError:
                continue
        return found

    def saved(self, name: str, seconds: float = 20) -> bytes:
        """The bytes of a file that the page saved."""
        until = time.monotonic() + seconds
        while time.monotonic() < until:
            file = self.downloads / name
            under_way = [it for it in self.downloads.iterdir() if it.suffix in (".crdownload", ".part")]
            if file.is_file() and file.stat().st_size and not under_way:
                got = file.read_bytes()
                file.unlink()
                return got
            self.take(0.1)
        raise Fault(
            f"{name} wasn't saved within {seconds:g} s; there are {[it.name for it in self.downloads.iterdir()]}"
        )

    def picture(self, path: Path, whole: bool = False) -> None:
        """A picture of what the window shows, or of the whole page."""
        shot = self.call("Page.captureScreenshot", format="png", captureBeyondViewport=whole)
        path.write_bytes(base64.b64decode(shot["data"]))

    def close(self) -> None:
        self.child.terminate()
        try:
            self.child.wait(10)
        except subprocess.TimeoutExpired:
            self.child.kill()
            self.child.wait()
        os.close(self.to)
        os.close(self.back)
        shutil.rmtree(self.room, ignore_errors=True)

    def __enter__(self) -> Browser:
        return self

    def __exit__(self, *_: object) -> None:
        self.close()
