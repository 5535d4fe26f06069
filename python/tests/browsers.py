"""A page in a browser without a window, driven by selenium. In Debian the browsers and their drivers are the packages
python3-selenium, chromium-driver and firefox-esr."""
import importlib.util
from collections.abc import Callable
from typing import TYPE_CHECKING, Any

from tests.waiting import LIMIT, holds

IS_INSTALLED = importlib.util.find_spec("selenium") is not None
if TYPE_CHECKING or IS_INSTALLED:
    from selenium.webdriver import ActionChains, Keys as Keys
    from selenium.webdriver.common.actions.action_builder import ActionBuilder
    from selenium.webdriver.common.by import By

    from tests import drivers
else:
    Keys = None

# The end of a script that acts. A user sees what an action has changed before the next one: the page writes its job file
# again soon after a change, and draws once per frame. A page that is hidden draws nothing. If the page never stops
# writing, the script fails after the limit for a call that hangs.
DRAWN = """for (let k = 0; !document.hidden && (k < 2 || globalThis.lab?.isWriting); k++)
    await new Promise(requestAnimationFrame);"""


def missing(browser: str) -> str:
    """The reason why a browser cannot be driven here, or nothing."""
    if not IS_INSTALLED:
        return "selenium is not installed"
    if browser == "firefox":
        return "" if drivers.FIREFOX else "firefox is not installed (firefox-esr)"
    if not drivers.CHROMIUM:
        return "chromium is not installed"
    return "" if drivers.CHROMEDRIVER else "chromedriver is not installed (chromium-driver)"


class Window:
    """A page in a browser, whose size in pixels is given."""

    def __init__(
        self, browser: str, address: str, width: int = 1280, height: int = 900, calm: bool = False, dark: bool = False
    ) -> None:
        self.driver = drivers.started(browser, calm, dark)
        self.driver.set_script_timeout(LIMIT)
        self.size(width, height)
        self.get(address)

    def size(self, width: int, height: int) -> None:
        self.driver.resize(width, height)

    def get(self, address: str) -> None:
        self.driver.get(address)

    def url(self) -> str:
        return self.driver.current_url

    def refresh(self) -> None:
        self.driver.refresh()

    def close(self) -> None:
        self.driver.quit()

    def errors(self) -> list[str]:
        """The errors in the console of the browser since the last call."""
        return self.driver.errors()

    def js(self, source: str, *words: object) -> Any:
        """The result of a script, or of the promise that it returns."""
        return self.driver.execute_script(source, *words)

    def later(self, source: str, *words: object) -> Any:
        """The same for a script with `await`."""
        return self.js(f"return (async (...words) => {{ {source} }})(...arguments)", *words)

    def act(self, source: str, *words: object) -> Any:
        """The result of a script that changes the page, once the change is drawn."""
        return self.later(f"const acted = (() => {{ {source} }})(); {DRAWN} return acted", *words)

    def png(self) -> bytes:
        return self.driver.get_screenshot_as_png()

    def spoken(self, element: Any) -> tuple[str, str]:
        """The role and the name of an element for a screen reader; `element` is the result of a script."""
        return element.aria_role, element.accessible_name

    def type(self, selector: str, *keys: str) -> None:
        self.driver.find_element(By.CSS_SELECTOR, selector).send_keys(*keys)
        self.later(DRAWN)

    def select(self, selector: str) -> None:
        """Select the text of a control, so that typing replaces it."""
        self.js("const it = document.querySelector(arguments[0]); it.focus(); it.select()", selector)

    def keys(self, *keys: str) -> None:
        """Keys for the page itself, with no control in focus."""
        self.js("document.activeElement.blur()")
        self.press(*keys)

    def press(self, *keys: str) -> None:
        ActionChains(self.driver, duration=0).send_keys(*keys).perform()
        self.later(DRAWN)

    def corner(self, name: str) -> tuple[float, float]:
        """Scroll an element into view, and return its upper left corner."""
        left, top = self.js(
            "const it = document.getElementById(arguments[0]); it.scrollIntoView({block: 'center'});"
            "const box = it.getBoundingClientRect(); return [box.left, box.top]", name)
        return left, top

    def click_at(self, name: str, x: float, y: float) -> None:
        """Click at a place of an element, in pixels from its upper left corner."""
        left, top = self.corner(name)
        actions = ActionBuilder(self.driver, duration=0)
        actions.pointer_action.move_to_location(round(left + x), round(top + y)).click()
        actions.perform()
        self.later(DRAWN)

    def drag(self, name: str, x: float, to: float, y: float) -> None:
        """Drag inside an element, at height y, from one x to another."""
        left, top = self.corner(name)
        actions = ActionBuilder(self.driver, duration=50)
        pointer = actions.pointer_action.move_to_location(round(left + x), round(top + y)).pointer_down()
        pointer.move_to_location(round(left + to), round(top + y)).pointer_up()
        actions.perform()
        self.later(DRAWN)

    def open(self) -> tuple[str, str]:
        """Open a second window, and return the handles of both."""
        first = self.driver.current_window_handle
        self.driver.switch_to.new_window("window")
        return first, self.driver.current_window_handle

    def leave(self, first: str) -> None:
        """Close the second window."""
        self.driver.close()
        self.driver.switch_to.window(first)

    def text(self, name: str) -> str:
        return self.js("return document.getElementById(arguments[0]).textContent", name)

    def value(self, name: str) -> str:
        return self.js("return document.getElementById(arguments[0]).value", name)

    def click(self, name: str) -> None:
        """Click on a control, once it is enabled: until then a click does nothing."""
        script = "const it = document.getElementById(words[0]), isEnabled = !it.disabled; it.click(); return isEnabled"
        if not holds(lambda: self.act(script, name)):
            raise AssertionError(f"the control {name} stays disabled")

    def set(self, name: str, value: object, event: str = "change") -> None:
        """Give a control a value, as a user who types or chooses it."""
        self.act(
            "const it = document.getElementById(words[0]); it.value = words[1];"
            "it.dispatchEvent(new Event(words[2], {bubbles: true}))", name, str(value), event)

    def step(self) -> int:
        return self.js("return lab.player.step")

    def job(self) -> str:
        """The job file that the page shows."""
        return self.js("return document.querySelector('#text .code').innerText").rstrip("\n") + "\n"

    def holds(self, condition: Callable[[], object]) -> bool:
        """Whether a condition comes true."""
        return holds(condition)

    def wait_until(self, condition: Callable[[], object]) -> None:
        """Wait until a condition comes true. Raises `TimeoutError` at the limit for calls that hang."""
        if not self.holds(condition):
            raise TimeoutError("the page does not come to the awaited state")
