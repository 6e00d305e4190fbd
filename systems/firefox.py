"""Firefox, driven as by a user: what browser.py does with Chromium, by WebDriver BiDi.

It speaks the protocol with a headless Firefox (Debian: firefox-esr) over a WebSocket of this machine. What BiDi has no command
for isn't done: files aren't dropped, and what the user prefers is set as the browser starts.
"""
from __future__ import annotations

import base64
import json
import os
import select
import shutil
import socket
import struct
import subprocess
import tempfile
import time
from pathlib import Path
from typing import Any

import browser
from browser import ALT, CONTROL, META, SHIFT, Fault

# WebDriver's letters of the keys
KEYS = {
    "Enter": "\ue007",
    "Tab": "\ue004",
    "Escape": "\ue00c",
    "Backspace": "\ue003",
    "Delete": "\ue017",
    "Home": "\ue011",
    "End": "\ue010",
    "ArrowLeft": "\ue012",
    "ArrowUp": "\ue013",
    "ArrowRight": "\ue014",
    "ArrowDown": "\ue015",
    "F8": "\ue038",
}
MODIFIERS = {SHIFT: "\ue008", CONTROL: "\ue009", ALT: "\ue00a", META: "\ue03d"}
START = 120  # seconds that it may take to begin


def program() -> str | None:
    """The browser, where there is one."""
    return os.environ.get("FIREFOX") or shutil.which("firefox-esr") or shutil.which("firefox")


def plain(value: dict[str, Any]) -> Any:
    """A value of the protocol as Python has it."""
    kind, what = value["type"], value.get("value")
    if kind == "array":
        return [plain(it) for it in what]
    if kind == "object":
        return {key: plain(it) for key, it in what}
    return what if kind in ("string", "number", "boolean") else None


class Socket:
    """The client's end of a WebSocket, as far as it is needed: whole texts."""

    def __init__(self, port: int, path: str) -> None:
        self.line = socket.create_connection(("127.0.0.1", port), 30)
        key = base64.b64encode(os.urandom(16)).decode()
        asked = f"GET {path} HTTP/1.1\r\nHost: 127.0.0.1:{port}\r\nUpgrade: websocket\r\nConnection: Upgrade\r\n"
        self.line.sendall(f"{asked}Sec-WebSocket-Key: {key}\r\nSec-WebSocket-Version: 13\r\n\r\n".encode())
        self.unread, self.parts = b"", b""
        while b"\r\n\r\n" not in self.unread:
            self.unread += self.got()
        head, self.unread = self.unread.split(b"\r\n\r\n", 1)
        if b" 101 " not in head.split(b"\r\n")[0]:
            raise Fault(f"the browser answered {head[:80]!r}")

    def got(self) -> bytes:
        some = self.line.recv(1 << 20)
        if not some:
            raise Fault("the browser ended")
        return some

    def send(self, text: str, kind: int = 1) -> None:
        """Sends a text; the bytes of a client are masked."""
        what, mask = text.encode(), os.urandom(4)
        count = len(what)
        size = struct.pack(">B", 128 | count) if count < 126 else struct.pack(">BH", 254, count)
        if count > 65535:
            size = struct.pack(">BQ", 255, count)
        whole = (mask * (count // 4 + 1))[:count]
        masked = (int.from_bytes(what, "big") ^ int.from_bytes(whole, "big")).to_bytes(count, "big")
        self.line.sendall(bytes([128 | kind]) + size + mask + masked)

    def frame(self) -> tuple[int, bool, bytes] | None:
        """The next frame of what is unread, where it is whole: its kind, whether it ends a message, its bytes."""
        if len(self.unread) < 2:
            return None
        count, at = self.unread[1] & 127, 2
        if count >= 126:
            at = 4 if count == 126 else 10
            if len(self.unread) < at:
                return None
            count = int.from_bytes(self.unread[2:at], "big")
        if len(self.unread) < at + count:
            return None
        first, what = self.unread[0], self.unread[at : at + count]
        self.unread = self.unread[at + count :]
        return first & 15, bool(first & 128), what

    def take(self, seconds: float) -> str | None:
        """The next text, or none within so many seconds."""
        until = time.monotonic() + seconds
        while True:
            frame = self.frame()
            if frame is None:
                left = until - time.monotonic()
                if left <= 0 or not select.select([self.line], [], [], left)[0]:
                    return None
                self.unread += self.got()
                continue
            kind, ends, what = frame
            if kind == 8:
                raise Fault("the browser ended")
            if kind == 9:
                self.send(what.decode("latin-1"), 10)
            if kind > 2:
                continue
            self.parts += what
            if ends:
                whole, self.parts = self.parts, b""
                return whole.decode()


class Firefox(browser.Browser):
    """A headless Firefox with one page, until `close`."""

    drops = False

    def __init__(self, width: int = 1400, height: int = 1000, dark: bool = False, ratio: float = 1.0) -> None:
        found = program()
        if not found:
            raise Fault("no firefox is there (Debian: firefox-esr)")
        self.room = tempfile.mkdtemp(prefix="emtp-browser-")
        self.downloads = Path(self.room) / "downloads"
        self.downloads.mkdir()
        prefers = {
            "browser.download.folderList": 2,
            "browser.download.dir": str(self.downloads),
            "browser.download.alwaysOpenPanel": False,
            "browser.shell.checkDefaultBrowser": False,
            "datareporting.policy.dataSubmissionEnabled": False,
            "layout.css.prefers-color-scheme.content-override": 0 if dark else 1,
            "toolkit.telemetry.enabled": False,
        }
        lines = [f"user_pref({json.dumps(name)}, {json.dumps(value)});\n" for name, value in prefers.items()]
        (Path(self.room) / "user.js").write_text("".join(lines), encoding="utf-8")
        self.child = subprocess.Popen(
            [found, "--headless", "--no-remote", "--profile", self.room, "--remote-debugging-port", "0", "about:blank"],
            stdin=subprocess.DEVNULL,
            stdout=subprocess.DEVNULL,
            stderr=subprocess.DEVNULL,
            env=os.environ | {"HOME": self.room},
        )
        self.number = 0
        self.faults: list[str] = []
        self.requests: list[str] = []
        told, until = Path(self.room) / "WebDriverBiDiServer.json", time.monotonic() + START
        while not told.is_file() or not told.read_text(encoding="utf-8").endswith("}"):
            if time.monotonic() > until or self.child.poll() is not None:
                raise Fault("firefox doesn't begin")
            time.sleep(0.1)
        self.line = Socket(json.loads(told.read_text(encoding="utf-8"))["ws_port"], "/session")
        self.call("session.new", capabilities={})
        self.call("session.subscribe", events=["log.entryAdded", "network.beforeRequestSent"])
        self.context = self.call("browsingContext.getTree")["contexts"][0]["context"]
        self.size(width, height, dark, ratio)

    def size(self, width: int, height: int, dark: bool = False, ratio: float = 1.0) -> None:
        """The size of the window in points; the user prefers what the browser started with."""
        viewport = {"width": width, "height": height}
        self.call("browsingContext.setViewport", context=self.context, viewport=viewport, devicePixelRatio=ratio)

    def take(self, seconds: float) -> dict[str, Any] | None:
        text = self.line.take(seconds)
        if text is None:
            return None
        message = json.loads(text)
        self.note(message)
        return message

    def note(self, message: dict[str, Any]) -> None:
        method, what = message.get("method"), message.get("params", {})
        if method == "log.entryAdded" and what["level"] in ("error", "warn"):
            self.faults.append(what["text"])
        elif method == "network.beforeRequestSent":
            self.requests.append(what["request"]["url"])

    def call(self, method: str, seconds: float = 120, **params: Any) -> dict[str, Any]:
        self.number += 1
        self.line.send(json.dumps({"id": self.number, "method": method, "params": params}))
        until = time.monotonic() + seconds
        while True:
            answer = self.take(max(0.0, until - time.monotonic()))
            if answer is None:
                raise Fault(f"{method} took more than {seconds:g} s")
            if answer.get("id") == self.number:
                if answer["type"] == "error":
                    raise Fault(f"{method}: {answer['message']}")
                return answer["result"]

    def open(self, address: str) -> None:
        self.call("browsingContext.navigate", context=self.context, url=address, wait="complete")

    def run(self, script: str, seconds: float = 120) -> Any:
        target = {"context": self.context}
        how = {"awaitPromise": True, "userActivation": True}
        answer = self.call("script.evaluate", seconds, expression=script, target=target, **how)
        if answer["type"] == "exception":
            raise Fault(answer["exceptionDetails"]["text"])
        return plain(answer["result"])

    def act(self, kind: str, actions: list[dict[str, Any]]) -> None:
        """Does what one device does."""
        self.call(
            "input.performActions", context=self.context, actions=[{"type": kind, "id": kind, "actions": actions}]
        )

    def key(self, name: str, modifiers: int = 0) -> None:
        held = [key for one, key in MODIFIERS.items() if modifiers & one]
        pressed = [*held, KEYS.get(name, name)]
        downs = [{"type": "keyDown", "value": it} for it in pressed]
        self.act("key", downs + [{"type": "keyUp", "value": it} for it in reversed(pressed)])

    def mouse(self, kind: str, x: float, y: float, **more: Any) -> None:
        place = {"x": round(x), "y": round(y)}
        if kind == "mouseWheel":
            self.act("wheel", [{"type": "scroll", "deltaX": more["deltaX"], "deltaY": more["deltaY"], **place}])
        elif kind == "mouseMoved":
            self.act("pointer", [{"type": "pointerMove", **place}])
        else:
            self.act("pointer", [{"type": "pointerDown" if kind == "mousePressed" else "pointerUp", "button": 0}])

    def give(self, selector: str, files: list[Path]) -> None:
        found = self.call(
            "browsingContext.locateNodes", context=self.context, locator={"type": "css", "value": selector}
        )
        element = {"sharedId": found["nodes"][0]["sharedId"]}
        self.call("input.setFiles", context=self.context, element=element, files=[str(it) for it in files])

    def drop(self, files: list[Path]) -> None:
        raise Fault("files aren't dropped by WebDriver BiDi")

    def picture(self, path: Path, whole: bool = False) -> None:
        origin = "document" if whole else "viewport"
        shot = self.call("browsingContext.captureScreenshot", context=self.context, origin=origin)
        path.write_bytes(base64.b64decode(shot["data"]))

    def close(self) -> None:
        self.line.line.close()
        self.child.terminate()
        try:
            self.child.wait(20)
        except subprocess.TimeoutExpired:
            self.child.kill()
            self.child.wait()
        shutil.rmtree(self.room, ignore_errors=True)
