"""Browsers without a window, for the tests of the page: Chromium by selenium, and Firefox by its own protocol, since
Debian has no driver of selenium for it. tests/page imports this; it is not a command."""
import base64
import json
import os
import shutil
import socket
import subprocess
import tempfile
import time
from collections.abc import Iterator
from contextlib import contextmanager
from typing import Any

from rehearse_tools.console import library

# Seconds after which a browser that has not started, or not answered, is taken to hang; a busy machine may take long.
START_SECONDS, ANSWER_SECONDS = 600, 1800
# The key under which an element comes in an answer of a driver.
ELEMENT = "element-6066-11e4-a52e-4f735466cecf"
KEYS = {"Tab": "\ue004", "Enter": "\ue007", "Escape": "\ue00c", "ArrowRight": "\ue014", "ArrowDown": "\ue015",
        "End": "\ue010", "Home": "\ue011", "Control": "\ue009"}
# What Firefox does on its own at its start is left out, so that it asks for nothing of the network.
PREFERENCES = {"marionette.port": 0, "network.dns.disabled": True, "app.update.auto": False,
               "browser.shell.checkDefaultBrowser": False, "datareporting.policy.dataSubmissionEnabled": False,
               "toolkit.telemetry.server": "", "browser.startup.homepage_override.mstone": "ignore"}


class Firefox:
    """A Firefox that is spoken to through a socket: each message is its length, a colon, and a list as JSON."""

    name = "firefox-esr"

    def __init__(self, folder: str) -> None:
        preferences = (f'user_pref("{name}", {json.dumps(value)});\n' for name, value in PREFERENCES.items())
        with open(os.path.join(folder, "user.js"), "w", encoding="utf-8") as file:
            file.write("".join(preferences))
        self.number = 0
        words = [self.name, "--headless", "--marionette", "--remote-allow-system-access", "--no-remote", "--profile", folder]
        self.process = subprocess.Popen(words, stdin=subprocess.DEVNULL, stdout=subprocess.DEVNULL,
                                        stderr=subprocess.DEVNULL, env={**os.environ, "HOME": folder})
        self.socket = socket.create_connection(("127.0.0.1", self.port_in(folder)), ANSWER_SECONDS)
        self.file = self.socket.makefile("rb")
        self.read()
        self.ask("WebDriver:NewSession", {})
        self.ask("WebDriver:SetTimeouts", {name: ANSWER_SECONDS * 1000 for name in ("script", "pageLoad")})

    def port_in(self, folder: str) -> int:
        """The port that Firefox writes into its profile when it listens."""
        path, until = os.path.join(folder, "MarionetteActivePort"), time.monotonic() + START_SECONDS
        while time.monotonic() < until and self.process.poll() is None:
            if os.path.exists(path) and os.path.getsize(path):
                with open(path, encoding="utf-8") as file:
                    return int(file.read())
            time.sleep(0.05)
        raise RuntimeError("Firefox does not start")

    def read(self) -> Any:
        length = b""
        while not length.endswith(b":"):
            length += self.file.read(1)
        return json.loads(self.file.read(int(length[:-1])))

    def ask(self, command: str, values: dict[str, Any]) -> Any:
        self.number += 1
        text = json.dumps([0, self.number, command, values]).encode()
        self.socket.sendall(b"%d:%s" % (len(text), text))
        _, _, error, result = self.read()
        if error:
            raise RuntimeError(f"{error.get('error')}: {error.get('message')}")
        return result

    def open(self, address: str) -> None:
        self.ask("WebDriver:Navigate", {"url": "about:blank"})
        self.ask("WebDriver:Navigate", {"url": address})

    def run(self, script: str, *values: Any) -> Any:
        return self.ask("WebDriver:ExecuteScript", {"script": script, "args": values, "sandbox": None})["value"]

    def wait_for(self, script: str, *values: Any) -> Any:
        """Runs a script that calls its last argument when it is done."""
        return self.ask("WebDriver:ExecuteAsyncScript", {"script": script, "args": values, "sandbox": None})["value"]

    def press(self, *keys: str) -> None:
        element = self.ask("WebDriver:GetActiveElement", {})["value"][ELEMENT]
        text = "".join(KEYS.get(key, key) for key in keys)
        self.ask("WebDriver:ElementSendKeys", {"id": element, "text": text})

    def resize(self, width: int, height: int) -> None:
        self.ask("WebDriver:SetWindowRect", {"width": width, "height": height})

    def shot(self) -> bytes:
        """What is in view, as a PNG."""
        return base64.b64decode(self.ask("WebDriver:TakeScreenshot", {"full": False})["value"])

    def be_dark(self, is_dark: bool) -> None:
        """Prefers dark colours, or light ones."""
        script = "Services.prefs.setIntPref('layout.css.prefers-color-scheme.content-override', arguments[0])"
        self.ask("Marionette:SetContext", {"value": "chrome"})
        self.ask("WebDriver:ExecuteScript", {"script": script, "args": [0 if is_dark else 1]})
        self.ask("Marionette:SetContext", {"value": "content"})

    def be_still(self, is_still: bool) -> None:
        """Prefers less motion, or not."""
        script = "Services.prefs.setIntPref('ui.prefersReducedMotion', arguments[0])"
        self.ask("Marionette:SetContext", {"value": "chrome"})
        self.ask("WebDriver:ExecuteScript", {"script": script, "args": [int(is_still)]})
        self.ask("Marionette:SetContext", {"value": "content"})

    def asked_for(self) -> list[str]:
        """What the page asked for, as far as the page itself can tell."""
        return list(self.run("return performance.getEntriesByType('resource').map(it => it.name)"))

    def end(self) -> None:
        self.socket.close()
        self.process.terminate()
        self.process.wait()


class Chromium:
    """A Chromium that selenium drives."""

    name = "chromium"

    def __init__(self, folder: str) -> None:
        webdriver = library("selenium.webdriver", "python3-selenium")
        options = webdriver.ChromeOptions()
        for word in ("--headless=new", "--no-sandbox", "--disable-gpu", "--disable-dev-shm-usage",
                     f"--user-data-dir={folder}"):
            options.add_argument(word)
        options.set_capability("goog:loggingPrefs", {"performance": "ALL", "browser": "ALL"})
        service = library("selenium.webdriver.chrome.service", "python3-selenium").Service("/usr/bin/chromedriver")
        self.driver = webdriver.Chrome(options=options, service=service)
        self.preferences: dict[str, str] = {}
        self.driver.set_script_timeout(ANSWER_SECONDS)
        self.driver.set_page_load_timeout(ANSWER_SECONDS)

    def open(self, address: str) -> None:
        self.driver.get("about:blank")
        self.driver.get(address)

    def run(self, script: str, *values: Any) -> Any:
        return self.driver.execute_script(script, *values)

    def wait_for(self, script: str, *values: Any) -> Any:
        return self.driver.execute_async_script(script, *values)

    def press(self, *keys: str) -> None:
        self.driver.switch_to.active_element.send_keys("".join(KEYS.get(key, key) for key in keys))

    def resize(self, width: int, height: int) -> None:
        """Makes the page so wide; a window itself is not less than 500 pixels."""
        self.driver.execute_cdp_cmd("Emulation.setDeviceMetricsOverride", {
            "width": width, "height": height, "deviceScaleFactor": 1, "mobile": width < 500})

    def shot(self) -> bytes:
        """What is in view, as a PNG."""
        return bytes(self.driver.get_screenshot_as_png())

    def be_dark(self, is_dark: bool) -> None:
        """Prefers dark colours, or light ones."""
        self.prefer("prefers-color-scheme", "dark" if is_dark else "light")

    def be_still(self, is_still: bool) -> None:
        """Prefers less motion, or not."""
        self.prefer("prefers-reduced-motion", "reduce" if is_still else "no-preference")

    def prefer(self, name: str, value: str) -> None:
        self.preferences[name] = value
        features = [{"name": name, "value": value} for name, value in self.preferences.items()]
        self.driver.execute_cdp_cmd("Emulation.setEmulatedMedia", {"features": features})

    def asked_for(self) -> list[str]:
        """What was asked for since this was asked last, as the browser tells."""
        messages = (json.loads(entry["message"])["message"] for entry in self.driver.get_log("performance"))
        return [message["params"]["request"]["url"] for message in messages
                if message["method"] == "Network.requestWillBeSent"]

    def end(self) -> None:
        self.driver.quit()


KINDS = (Chromium, Firefox)


def missing() -> dict[str, str]:
    """By the name of each browser that cannot be used what it lacks."""
    lacks = {}
    for kind in KINDS:
        if shutil.which(kind.name) is None:
            lacks[kind.name] = f"{kind.name} is missing: Debian's package {kind.name} has it"
    if Chromium.name not in lacks:
        try:
            library("selenium.webdriver", "python3-selenium")
        except Exception as error:
            lacks[Chromium.name] = str(error)
        if not os.path.exists("/usr/bin/chromedriver"):
            lacks[Chromium.name] = "chromedriver is missing: Debian's package chromium-driver has it"
    return lacks


@contextmanager
def browser_of(kind: type[Chromium] | type[Firefox]) -> Iterator[Chromium | Firefox]:
    """A browser, which is ended afterwards."""
    with tempfile.TemporaryDirectory(ignore_cleanup_errors=True) as folder:
        browser = kind(folder)
        try:
            yield browser
        finally:
            browser.end()
