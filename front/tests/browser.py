"""A browser without a window for tests of pages: Chromium over the WebDriver protocol, spoken by urllib."""
from __future__ import annotations

import base64
import json
import os
import re
import shutil
import subprocess
import tempfile
import time
import urllib.error
import urllib.request
from typing import Any, Callable, Sequence

WANTED = "chromium and chromedriver are not on the PATH; on Debian: apt-get install chromium chromium-driver"
PATIENCE = 240  # seconds
ELEMENT = "element-6066-11e4-a52e-4f735466cecf"
KEYS = {"Tab": "\ue004", "Enter": "\ue007", "Shift": "\ue008", "Control": "\ue009", "Escape": "\ue00c", "Delete": "\ue017", "Left": "\ue012",
        "Up": "\ue013", "Right": "\ue014", "Down": "\ue015", "Home": "\ue011", "End": "\ue010"}


def is_here() -> bool:
    return bool(shutil.which("chromium") and shutil.which("chromedriver"))


class Browser:
    """One window of 1,400 by 1,000 pixels. Its files are gone with it."""

    def __init__(self) -> None:
        self._folder = tempfile.TemporaryDirectory()
        self._log = tempfile.TemporaryFile()
        environment = {**os.environ, "HOME": self._folder.name, "XDG_CONFIG_HOME": self._folder.name, "XDG_CACHE_HOME": self._folder.name}
        self._process = subprocess.Popen(["chromedriver", "--port=0"], stdin=subprocess.DEVNULL, stdout=subprocess.PIPE, stderr=self._log,
                                         env=environment, text=True)
        self._session = ""
        assert self._process.stdout
        try:
            port = next(found[1] for line in self._process.stdout if (found := re.search(r"started successfully on port (\d+)", line)))
            self._address = f"http://127.0.0.1:{port}"
            self.downloads = f"{self._folder.name}/downloads"
            arguments = ["--headless=new", "--no-sandbox", "--disable-gpu", "--disable-dev-shm-usage", "--disable-extensions", "--no-first-run",
                         "--disable-background-networking", "--disable-component-update", "--window-size=1400,1000",
                         f"--user-data-dir={self._folder.name}/profile"]
            options = {"binary": shutil.which("chromium"), "args": arguments,
                       "prefs": {"download.default_directory": self.downloads, "download.prompt_for_download": False,
                                 "profile.default_content_setting_values.automatic_downloads": 1}}
            made = self._send("POST", "/session", {"capabilities": {"alwaysMatch": {
                "browserName": "chrome", "goog:chromeOptions": options, "unhandledPromptBehavior": "accept"}}})
            self._session = f"/session/{made['sessionId']}"
            self._send("POST", f"{self._session}/timeouts", {"script": 1000 * PATIENCE, "pageLoad": 1000 * PATIENCE})
        except BaseException:
            self.close()
            raise

    def close(self) -> None:
        try:
            if self._session:
                self._send("DELETE", self._session, None)
        finally:
            self._end()

    def _end(self) -> None:
        self._process.terminate()
        self._process.wait()
        assert self._process.stdout
        self._process.stdout.close()
        self._log.close()
        for _ in range(50):  # its last processes may still write there
            try:
                self._folder.cleanup()
                return
            except OSError:
                time.sleep(0.1)

    def _send(self, method: str, path: str, content: Any) -> Any:
        body = None if content is None else json.dumps(content).encode()
        request = urllib.request.Request(self._address + path, body, {"Content-Type": "application/json"}, method=method)
        try:
            with urllib.request.urlopen(request, timeout=PATIENCE) as reply:
                return json.load(reply)["value"]
        except urllib.error.HTTPError as error:
            with error:
                raise AssertionError(f"{path}: {json.load(error)['value']['message'].splitlines()[0]}") from None

    def go(self, address: str) -> None:
        self._send("POST", f"{self._session}/url", {"url": address})

    def run(self, script: str, *arguments: Any) -> Any:
        """What a script returns."""
        return self._send("POST", f"{self._session}/execute/sync", {"script": script, "args": arguments})

    def later(self, script: str, *arguments: Any) -> Any:
        """What a script hands to its last argument."""
        return self._send("POST", f"{self._session}/execute/async", {"script": script, "args": arguments})

    def waits(self, script: str, *arguments: Any) -> Any:
        """The value of an expression, as soon as it is there: the page looks for it."""
        look = f"const look = () => {{ const it = ({script}); it ? done(it) : setTimeout(look, 15); }}"
        return self.later(f"const done = arguments[arguments.length - 1]; {look}; look();", *arguments)

    def errors(self) -> list[str]:
        """What the browser has logged since it was asked last: scripts that fail, and what a policy refused."""
        return [it["message"] for it in self._send("POST", f"{self._session}/se/log", {"type": "browser"})
                if "beforeunload" not in it["message"]]

    def until(self, holds: Callable[[], Any]) -> None:
        """Waits until something holds."""
        end = time.monotonic() + PATIENCE
        while not holds():
            assert time.monotonic() < end, "it did not come"
            time.sleep(0.03)

    def acts(self, *sources: dict[str, Any]) -> None:
        self._send("POST", f"{self._session}/actions", {"actions": list(sources)})

    def pointer(self, *steps: dict[str, Any]) -> None:
        self.acts({"type": "pointer", "id": "mouse", "parameters": {"pointerType": "mouse"}, "actions": list(steps)})

    def click(self, x: float, y: float, times: int = 1) -> None:
        self.pointer(to(x, y), *[DOWN, UP] * times)

    def drag(self, x: float, y: float, places: Sequence[tuple[float, float]], wait: int = 16) -> None:
        """Presses, moves over places, so many milliseconds apart, and lets go."""
        self.pointer(to(x, y), DOWN, *(it for place in places for it in (to(*place), {"type": "pause", "duration": wait})), UP)

    def wheel(self, x: float, y: float, by: int) -> None:
        self.acts({"type": "wheel", "id": "wheel", "actions": [
            {"type": "scroll", "x": round(x), "y": round(y), "deltaX": 0, "deltaY": by, "duration": 0, "origin": "viewport"}]})

    def keys(self, *names: str, held: Sequence[str] = ()) -> None:
        """Presses keys one after another, with others held."""
        codes, down = [KEYS.get(it, it) for it in names], [KEYS[it] for it in held]
        self.acts({"type": "key", "id": "keys", "actions": [
            *({"type": "keyDown", "value": it} for it in down),
            *(it for code in codes for it in ({"type": "keyDown", "value": code}, {"type": "keyUp", "value": code})),
            *({"type": "keyUp", "value": it} for it in reversed(down))]})

    def command(self, name: str, **parameters: Any) -> Any:
        """A command of the DevTools protocol: input that WebDriver has no word for, such as a mouse outside of the window."""
        return self._send("POST", f"{self._session}/goog/cdp/execute", {"cmd": name, "params": parameters})

    def mouse(self, kind: str, x: float, y: float, buttons: int = 0, modifiers: int = 0) -> None:
        """An event of the mouse (`mousePressed`, `mouseMoved`, `mouseReleased`) anywhere, with the buttons that are down after it."""
        self.command("Input.dispatchMouseEvent", type=kind, x=x, y=y, buttons=buttons, modifiers=modifiers, clickCount=1,
                     button="none" if kind == "mouseMoved" and not buttons else "left")

    def picture(self) -> bytes:
        """The window as PNG."""
        return base64.b64decode(self._send("GET", f"{self._session}/screenshot", None))


DOWN, UP = {"type": "pointerDown", "button": 0}, {"type": "pointerUp", "button": 0}


def to(x: float, y: float) -> dict[str, Any]:
    return {"type": "pointerMove", "duration": 0, "x": round(x), "y": round(y)}
