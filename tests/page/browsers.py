"""The browsers that the page is tried in, behind the same few calls.

Chromium is driven by selenium. There is no driver for Firefox in Debian 12, so it is asked by its own protocol, Marionette: a
length, a colon and a list in JSON, over TCP.
"""

import base64
import json
import os
import shutil
import socket
import subprocess
import tempfile
import time
from pathlib import Path
from typing import Any, Dict, List, Tuple

SIZE = (1440, 900)
SCHEME = "layout.css.prefers-color-scheme.content-override"
KEYS = {"Enter": "\ue007", "Escape": "\ue00c", "Tab": "\ue004", "Home": "\ue011", "Down": "\ue015", "Up": "\ue013", "Control": "\ue009"}


class Browser:
    """What both have in common: actions as WebDriver has them."""

    name = ""

    def open(self, path: Path, place: str = "") -> None:
        # Two places of one page are no two pages.
        self.go("about:blank")
        self.go(path.as_uri() + place)

    def go(self, url: str) -> None:
        raise NotImplementedError

    def run(self, script: str, *words: Any) -> Any:
        raise NotImplementedError

    def act(self, actions: List[Dict[str, Any]]) -> None:
        raise NotImplementedError

    def picture(self) -> bytes:
        raise NotImplementedError

    def resize(self, size: Tuple[int, int]) -> None:
        raise NotImplementedError

    def prefer(self, is_dark: bool) -> None:
        raise NotImplementedError

    def move(self, x: float, y: float, is_click: bool = False) -> None:
        steps: List[Dict[str, Any]] = [{"type": "pointerMove", "duration": 0, "origin": "viewport", "x": round(x), "y": round(y)}]
        if is_click:
            steps += [{"type": "pointerDown", "button": 0}, {"type": "pointerUp", "button": 0}]
        self.act([{"type": "pointer", "id": "mouse", "parameters": {"pointerType": "mouse"}, "actions": steps}])
        self.settle()

    def click(self, x: float, y: float) -> None:
        self.move(x, y, True)

    def press(self, *keys: str) -> None:
        """Presses keys one after another: a word of KEYS, or each character of a text."""
        steps = []
        for key in keys:
            for character in [KEYS[key]] if key in KEYS else key:
                steps += [{"type": "keyDown", "value": character}, {"type": "keyUp", "value": character}]
        self.act([{"type": "key", "id": "keys", "actions": steps}])
        self.settle()

    def chord(self, first: str, second: str) -> None:
        """Presses a key while another one is held."""
        keys = [("keyDown", KEYS[first]), ("keyDown", second), ("keyUp", second), ("keyUp", KEYS[first])]
        self.act([{"type": "key", "id": "keys", "actions": [{"type": kind, "value": key} for kind, key in keys]}])
        self.settle()

    def settle(self) -> None:
        """Waits until what was asked for is drawn."""
        self.run("window.drawn = 0; requestAnimationFrame(() => requestAnimationFrame(() => { window.drawn = 1; }))")
        for _ in range(500):
            if self.run("return window.drawn"):
                return
            time.sleep(0.004)

    def middle(self, selector: str) -> Tuple[float, float]:
        x, y = self.run(
            "const box = document.querySelector(arguments[0]).getBoundingClientRect();"
            "return [box.x + box.width / 2, box.y + box.height / 2]",
            selector,
        )
        return x, y


class Chromium(Browser):
    name = "Chromium"

    def __init__(self, is_dark: bool = False, size: Tuple[int, int] = SIZE) -> None:
        from selenium import webdriver
        from selenium.webdriver.chrome.options import Options
        from selenium.webdriver.chrome.service import Service
        from selenium.webdriver.remote.command import Command

        options = Options()
        options.binary_location = str(shutil.which("chromium"))
        words = ["--headless=new", "--disable-gpu", "--disable-dev-shm-usage", "--force-color-profile=srgb"]
        for word in words + (["--no-sandbox"] if os.getuid() == 0 else []):
            options.add_argument(word)
        options.set_capability("goog:loggingPrefs", {"browser": "ALL"})
        self.driver = webdriver.Chrome(options=options, service=Service(str(shutil.which("chromedriver"))))
        self.actions = Command.W3C_ACTIONS
        self.prefer(is_dark)
        self.resize(size)

    def go(self, url: str) -> None:
        self.driver.get(url)

    def run(self, script: str, *words: Any) -> Any:
        return self.driver.execute_script(script, *words)

    def act(self, actions: List[Dict[str, Any]]) -> None:
        self.driver.execute(self.actions, {"actions": actions})

    def picture(self) -> bytes:
        return self.driver.get_screenshot_as_png()

    def resize(self, size: Tuple[int, int]) -> None:
        width, height = size
        sizes = {"width": width, "height": height, "deviceScaleFactor": 1, "mobile": False}
        self.driver.execute_cdp_cmd("Emulation.setDeviceMetricsOverride", sizes)

    def prefer(self, is_dark: bool) -> None:
        scheme = {"name": "prefers-color-scheme", "value": "dark" if is_dark else "light"}
        self.driver.execute_cdp_cmd("Emulation.setEmulatedMedia", {"features": [scheme]})

    def complaints(self) -> List[str]:
        """What the browser wrote into its console."""
        # That the test reads colours back is reported too.
        return [entry["message"] for entry in self.driver.get_log("browser") if "getImageData" not in entry["message"]]

    def close(self) -> None:
        self.driver.quit()


class Firefox(Browser):
    name = "Firefox"

    def __init__(self, is_dark: bool = False) -> None:
        with socket.socket() as free:
            free.bind(("127.0.0.1", 0))
            port = free.getsockname()[1]
        self.profile = tempfile.mkdtemp()
        preferences = {
            "marionette.port": port,
            SCHEME: 0 if is_dark else 1,
            "app.update.disabledForTesting": True,
            "browser.shell.checkDefaultBrowser": False,
            "browser.startup.homepage_override.mstone": "ignore",
            "browser.startup.page": 0,
            "datareporting.policy.dataSubmissionEnabled": False,
            "toolkit.telemetry.reportingpolicy.firstRun": False,
            "network.captive-portal-service.enabled": False,
            "network.connectivity-service.enabled": False,
        }
        lines = [f"user_pref({json.dumps(key)}, {json.dumps(value)});\n" for key, value in preferences.items()]
        Path(self.profile, "user.js").write_text("".join(lines))
        # `prefer` sets what no page may set.
        options = ["--headless", "--marionette", "--remote-allow-system-access", "--no-remote"]
        command = ["firefox-esr", *options, "--profile", self.profile]
        quiet = {"stdin": subprocess.DEVNULL, "stdout": subprocess.DEVNULL, "stderr": subprocess.DEVNULL}
        screen = {"MOZ_HEADLESS_WIDTH": "1600", "MOZ_HEADLESS_HEIGHT": "1200"}
        self.process = subprocess.Popen(command, env={**os.environ, **screen}, **quiet)
        self.count = 0
        self.socket = self.connect(port)
        self.file = self.socket.makefile("rb")
        self.read()
        self.ask("WebDriver:NewSession", {"capabilities": {"alwaysMatch": {}}})
        self.resize(SIZE)

    def connect(self, port: int) -> socket.socket:
        for _ in range(300):
            try:
                return socket.create_connection(("127.0.0.1", port), timeout=120)
            except OSError:
                time.sleep(0.1)
        raise RuntimeError("Firefox does not listen")

    def read(self) -> Any:
        length = b""
        while not length.endswith(b":"):
            byte = self.file.read(1)
            if not byte:
                raise RuntimeError("Firefox has ended")
            length += byte
        return json.loads(self.file.read(int(length[:-1])))

    def ask(self, command: str, words: Dict[str, Any]) -> Any:
        self.count += 1
        message = json.dumps([0, self.count, command, words]).encode()
        self.socket.sendall(b"%d:%s" % (len(message), message))
        _, _, error, result = self.read()
        if error:
            raise RuntimeError(f"{command}: {error['error']}: {error['message']}")
        return result

    def go(self, url: str) -> None:
        self.ask("WebDriver:Navigate", {"url": url})

    def run(self, script: str, *words: Any) -> Any:
        return self.ask("WebDriver:ExecuteScript", {"script": script, "args": list(words)}).get("value")

    def act(self, actions: List[Dict[str, Any]]) -> None:
        self.ask("WebDriver:PerformActions", {"actions": actions})

    def picture(self) -> bytes:
        return base64.b64decode(self.ask("WebDriver:TakeScreenshot", {"full": False, "hash": False})["value"])

    def resize(self, size: Tuple[int, int]) -> None:
        # The window has a size of its own around that of the page.
        for _ in range(2):
            outer = self.ask("WebDriver:GetWindowRect", {})
            inner = self.run("return [innerWidth, innerHeight]")
            sizes = {"width": outer["width"] + size[0] - inner[0], "height": outer["height"] + size[1] - inner[1]}
            self.ask("WebDriver:SetWindowRect", sizes)

    def prefer(self, is_dark: bool) -> None:
        self.ask("Marionette:SetContext", {"value": "chrome"})
        self.run("Services.prefs.setIntPref(arguments[0], arguments[1])", SCHEME, 0 if is_dark else 1)
        self.ask("Marionette:SetContext", {"value": "content"})

    def complaints(self) -> List[str]:
        return []

    def close(self) -> None:
        try:
            self.ask("Marionette:Quit", {"flags": ["eForceQuit"]})
        except (OSError, RuntimeError):
            self.process.terminate()
        try:
            self.process.wait(20)
        except subprocess.TimeoutExpired:
            self.process.kill()
        self.socket.close()
        shutil.rmtree(self.profile, ignore_errors=True)
