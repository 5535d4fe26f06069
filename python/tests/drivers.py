"""The drivers of selenium for Chromium and Firefox without a window. Chromium has a driver of its own. The one of
Firefox, geckodriver, is not packaged by Debian, and selenium can only fetch it from the network. So the commands of
selenium that the tests need are sent to Firefox in its own protocol, Marionette, as geckodriver would do."""
import contextlib
import json
import shutil
import socket
import subprocess
import tempfile
from collections.abc import Callable
from pathlib import Path
from typing import Any, Optional, Union

from selenium.common.exceptions import WebDriverException
from selenium.webdriver import Chrome, ChromeOptions, FirefoxOptions, Remote
from selenium.webdriver.chrome.service import Service
from selenium.webdriver.remote.command import Command

from tests.waiting import LIMIT, first_of

# The paths of the browsers and of a driver; empty if they are not installed.
CHROMIUM = shutil.which("chromium") or shutil.which("chromium-browser") or shutil.which("google-chrome") or ""
CHROMEDRIVER = shutil.which("chromedriver") or ""
FIREFOX = shutil.which("firefox-esr") or shutil.which("firefox") or ""
SETTINGS = {"marionette.port": 0}  # of Firefox, which chooses a port
# The names of the commands in Marionette.
COMMANDS = {
    Command.NEW_SESSION: "WebDriver:NewSession",
    Command.SET_TIMEOUTS: "WebDriver:SetTimeouts",
    Command.QUIT: "Marionette:Quit",
    Command.GET: "WebDriver:Navigate",
    Command.GET_CURRENT_URL: "WebDriver:GetCurrentURL",
    Command.REFRESH: "WebDriver:Refresh",
    Command.SCREENSHOT: "WebDriver:TakeScreenshot",
    Command.W3C_EXECUTE_SCRIPT: "WebDriver:ExecuteScript",
    Command.W3C_ACTIONS: "WebDriver:PerformActions",
    Command.FIND_ELEMENT: "WebDriver:FindElement",
    Command.GET_ELEMENT_ARIA_LABEL: "WebDriver:GetComputedLabel",
    Command.GET_ELEMENT_ARIA_ROLE: "WebDriver:GetComputedRole",
    Command.SEND_KEYS_TO_ELEMENT: "WebDriver:ElementSendKeys",
    Command.W3C_GET_CURRENT_WINDOW_HANDLE: "WebDriver:GetWindowHandle",
    Command.NEW_WINDOW: "WebDriver:NewWindow",
    Command.SWITCH_TO_WINDOW: "WebDriver:SwitchToWindow",
    Command.CLOSE: "WebDriver:CloseWindow",
    Command.SET_WINDOW_RECT: "WebDriver:SetWindowRect",
}
# A script of Firefox itself: the errors of pages in its console.
ERRORS = """
const isError = it => it instanceof Ci.nsIScriptError && !(it.flags & Ci.nsIScriptError.warningFlag);
return Services.console.getMessageArray()
    .filter(it => isError(it) && /^(http|file):/.test(it.sourceName))
    .map(it => `${it.errorMessage} ${it.sourceName}:${it.lineNumber}`)"""
STARTS = 3  # how often a browser is started, if it does not answer in time


Driver = Union["Chromium", "Firefox"]


def started(browser: str, calm: bool, dark: bool) -> Driver:
    """A driver whose browser has started. On a busy machine this may take longer than the minute that chromedriver
    waits."""
    kinds: dict[str, Callable[[bool, bool], Driver]] = {"chromium": Chromium, "firefox": Firefox}
    for _ in range(STARTS - 1):
        with contextlib.suppress(WebDriverException):
            return kinds[browser](calm, dark)
    return kinds[browser](calm, dark)


class Chromium(Chrome):
    """A driver for Chromium. With `calm` the user wants no motion, and with `dark` a dark page."""

    def __init__(self, calm: bool = False, dark: bool = False) -> None:
        options = ChromeOptions()
        options.binary_location = CHROMIUM
        for word in "--headless=new", "--no-sandbox", "--disable-gpu", "--hide-scrollbars":
            options.add_argument(word)
        if calm:
            options.add_argument("--force-prefers-reduced-motion")
        options.set_capability("goog:loggingPrefs", {"browser": "ALL"})
        super().__init__(options=options, service=Service(CHROMEDRIVER))
        scheme = {"name": "prefers-color-scheme", "value": "dark" if dark else "light"}
        self.execute_cdp_cmd("Emulation.setEmulatedMedia", {"features": [scheme]})

    def resize(self, width: int, height: int) -> None:
        """Give the page a size in pixels."""
        size = {"width": width, "height": height, "deviceScaleFactor": 1, "mobile": width < 500}
        self.execute_cdp_cmd("Emulation.setDeviceMetricsOverride", size)

    def errors(self) -> list[str]:
        """The errors in the console since the last call."""
        return [entry["message"] for entry in self.get_log("browser") if entry["level"] == "SEVERE"]


class Marionette:
    """A Firefox without a window, and the connection to it, over which selenium executes its commands."""

    def __init__(self, calm: bool, dark: bool) -> None:
        self.folder = tempfile.TemporaryDirectory()
        settings = {
            **SETTINGS,
            "ui.prefersReducedMotion": int(calm),
            "layout.css.prefers-color-scheme.content-override": int(not dark),
        }
        lines = [f"user_pref({json.dumps(name)}, {json.dumps(value)});\n" for name, value in settings.items()]
        (Path(self.folder.name) / "user.js").write_text("".join(lines))
        options = ["--headless", "--marionette", "--remote-allow-system-access", "--no-remote"]
        command = [FIREFOX, *options, "--profile", self.folder.name, "about:blank"]
        self.firefox = subprocess.Popen(command, stdout=subprocess.DEVNULL, stderr=subprocess.DEVNULL)
        self.socket = first_of(self.connected)
        self.stream = self.socket.makefile("rwb")
        self.number = 0
        self.read()

    def connected(self) -> Optional[socket.socket]:
        """A connection to Firefox; None as long as it does not listen yet."""
        try:
            port = int((Path(self.folder.name) / "MarionetteActivePort").read_text())
            return socket.create_connection(("127.0.0.1", port), timeout=LIMIT)
        except (OSError, ValueError):
            return None

    def read(self) -> Any:
        """The next message: JSON after its length in bytes and a colon."""
        size = b""
        while (digit := self.stream.read(1)) != b":":
            if not digit:
                raise WebDriverException("Firefox has ended")
            size += digit
        return json.loads(self.stream.read(int(size)))

    def execute(self, command: str, words: Optional[dict[str, Any]]) -> dict[str, Any]:
        """The result of a command of selenium, or of one of Marionette."""
        self.number += 1
        # Marionette has one session, which takes no arguments.
        words = {} if command == Command.NEW_SESSION else dict(words or {})
        words.pop("sessionId", None)
        if command == Command.W3C_EXECUTE_SCRIPT:
            words["sandbox"] = None  # so that a script sees the variables of the page
        message = json.dumps([0, self.number, COMMANDS.get(command, command), words]).encode()
        self.stream.write(b"%d:%b" % (len(message), message))
        self.stream.flush()
        _, _, error, result = self.read()
        if error:
            raise WebDriverException(error["message"])
        has_only_value = isinstance(result, dict) and set(result) == {"value"}
        return {"value": result["value"] if has_only_value else result}


class Firefox(Remote):
    """A driver for Firefox. With `calm` the user wants no motion, and with `dark` a dark page."""

    def __init__(self, calm: bool = False, dark: bool = False) -> None:
        self.marionette, self.seen = Marionette(calm, dark), 0
        super().__init__(self.marionette, options=FirefoxOptions())
        self._is_remote = False  # otherwise keys that are the name of a file would be sent as this file

    def resize(self, width: int, height: int) -> None:
        """Give the page a size in pixels. Firefox makes no window below 450 pixels."""
        for _ in range(2):
            bars = self.execute_script("return [outerWidth - innerWidth, outerHeight - innerHeight]")
            self.set_window_size(width + bars[0], height + bars[1])

    def errors(self) -> list[str]:
        """The errors in the console since the last call."""
        self.execute("Marionette:SetContext", {"value": "chrome"})
        messages = self.execute_script(ERRORS)
        self.execute("Marionette:SetContext", {"value": "content"})
        new, self.seen = messages[self.seen:], len(messages)
        return new

    def quit(self) -> None:
        """End Firefox, and wait until it has ended."""
        self.execute(Command.QUIT, {"flags": ["eForceQuit"]})
        self.marionette.stream.close()
        self.marionette.socket.close()
        self.marionette.firefox.wait(LIMIT)
        self.marionette.folder.cleanup()
