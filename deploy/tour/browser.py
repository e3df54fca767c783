"""Drives Chromium through chromedriver (the WebDriver standard), with the standard library alone."""

import base64
import json
import os
import re
import subprocess
import urllib.error
import urllib.request
from pathlib import Path

ELEMENT = "element-6066-11e4-a52e-4f735466cecf"
DESKTOP = {"width": 1000, "height": 800, "deviceScaleFactor": 1, "mobile": False}
PHONE = {"width": 390, "height": 844, "deviceScaleFactor": 2, "mobile": True}
TIMEOUT = 120


class NotThere(Exception):
    """The page has no such element, or the window is between two pages."""


class Browser:
    """One window. It takes the certificate of the demonstration, which no authority signed."""

    def __init__(self, profile: Path):
        profile.mkdir()
        # Whatever Chromium writes beside its profile goes there too.
        places = {**os.environ, "HOME": str(profile), "TMPDIR": str(profile)}
        words = ["chromedriver", "--port=0"]
        self._driver = subprocess.Popen(words, stdout=subprocess.PIPE, stderr=subprocess.STDOUT, text=True, env=places)
        try:
            self._open(profile)
        except BaseException:
            self._stop_driver()
            raise

    def _open(self, profile: Path) -> None:
        self._base = f"http://127.0.0.1:{self._port()}"
        options = [f"--user-data-dir={profile}", "--headless=new", "--disable-dev-shm-usage", "--disable-gpu", "--no-first-run"]
        if os.geteuid() == 0:
            # Chromium's sandbox doesn't run as root.
            options.append("--no-sandbox")
        wanted = {"browserName": "chrome", "acceptInsecureCerts": True, "goog:chromeOptions": {"args": options}}
        self._session = self._ask("POST", "/session", {"capabilities": {"alwaysMatch": wanted}})["sessionId"]
        self._view(DESKTOP)

    def _stop_driver(self) -> None:
        self._driver.terminate()
        self._driver.wait()

    def _port(self) -> str:
        for line in self._driver.stdout:
            found = re.search(r"successfully on port (\d+)", line)
            if found:
                return found[1]
        raise RuntimeError("chromedriver doesn't start")

    def __enter__(self) -> "Browser":
        return self

    def __exit__(self, *_: object) -> None:
        try:
            self._do("DELETE", "")
        finally:
            self._stop_driver()

    def _ask(self, method: str, path: str, body: dict | None = None) -> object:
        data = None if body is None else json.dumps(body).encode()
        request = urllib.request.Request(self._base + path, data, {"Content-Type": "application/json"}, method=method)
        try:
            with urllib.request.urlopen(request, timeout=TIMEOUT) as reply:
                return json.load(reply)["value"]
        except urllib.error.HTTPError as error:
            said = json.load(error)["value"]
            # While a page gives way to the next one, Chromium at times tells of an element of the former one in words of its own.
            if said["error"] in ("no such element", "stale element reference") or "does not belong to the document" in said["message"]:
                raise NotThere(said["message"].splitlines()[0]) from None
            raise RuntimeError(f"{said['error']}: {said['message'].splitlines()[0]}") from None

    def _do(self, method: str, path: str, body: dict | None = None) -> object:
        return self._ask(method, f"/session/{self._session}{path}", body)

    def _tell_chromium(self, command: str, **params: object) -> dict:
        return self._do("POST", "/goog/cdp/execute", {"cmd": command, "params": params})

    def _view(self, view: dict) -> None:
        self._tell_chromium("Emulation.setDeviceMetricsOverride", **view)

    def _find(self, css: str) -> str:
        return f"/element/{self._do('POST', '/element', {'using': 'css selector', 'value': css})[ELEMENT]}"

    def count(self, css: str) -> int:
        """How many elements of the page are such."""
        return len(self._do("POST", "/elements", {"using": "css selector", "value": css}))

    def go(self, uri: str) -> None:
        """Opens a page."""
        self._do("POST", "/url", {"url": uri})

    def uri(self) -> str:
        """Where the window is."""
        return self._do("GET", "/url")

    def text(self) -> str:
        """What is read on the page; nothing between two pages."""
        try:
            return self._do("GET", f"{self._find('body')}/text")
        except NotThere:
            return ""

    def click(self, css: str) -> None:
        """Clicks there."""
        self._do("POST", f"{self._find(css)}/click", {})

    def tick(self, css: str, wanted: bool) -> None:
        """Clicks at a box where it isn't ticked as it should be."""
        if self._do("GET", f"{self._find(css)}/selected") != wanted:
            self.click(css)

    def type(self, css: str, text: str) -> None:
        """Types a text there, in the place of what stands there."""
        self._do("POST", f"{self._find(css)}/clear", {})
        self._do("POST", f"{self._find(css)}/value", {"text": text})

    def value(self, css: str) -> str:
        """What stands in this field."""
        return self._do("GET", f"{self._find(css)}/property/value")

    def title(self) -> str:
        """The title of the page."""
        return self._do("GET", "/title")

    def cookies(self) -> list[dict]:
        """The cookies of the page."""
        return self._do("GET", "/cookie")

    def _shot(self, path: Path) -> int:
        size = self._tell_chromium("Page.getLayoutMetrics")["cssContentSize"]
        clip = {"x": 0, "y": 0, "width": size["width"], "height": size["height"], "scale": 1}
        shot = self._tell_chromium("Page.captureScreenshot", format="png", captureBeyondViewport=True, clip=clip)
        path.write_bytes(base64.b64decode(shot["data"]))
        return size["width"]

    def picture(self, path: Path) -> bool:
        """Takes two pictures of the whole page, as it is on a desk and on a phone, and says whether it fits a phone's width."""
        self._shot(path.with_suffix(".png"))
        self._view(PHONE)
        width = self._shot(path.with_name(f"{path.stem}-phone.png"))
        self._view(DESKTOP)
        return width <= PHONE["width"]

    def dark_picture(self, path: Path) -> None:
        """Takes a picture of the page as it is for those who like it dark."""
        self._scheme("dark")
        self._shot(path.with_name(f"{path.stem}-dark.png"))
        self._scheme("light")

    def _scheme(self, name: str) -> None:
        self._tell_chromium("Emulation.setEmulatedMedia", features=[{"name": "prefers-color-scheme", "value": name}])
