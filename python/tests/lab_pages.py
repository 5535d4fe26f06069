"""Shared by the tests of the page: a server, a browser with its page, and calls that wait for a condition."""
import threading
import unittest
from collections.abc import Callable, Collection
from typing import TYPE_CHECKING, Any, Optional, Protocol
from unittest import mock

import trlab
from tests.browsers import Keys, Window
from tests.waiting import LIMIT
from trlab import Snapshots
from trlab.lab import Lab, server
from trlab._results.written import snapshots_in
from trlab._runs.calls import ask
from trlab._runs.children import Child

# The snapshots that the page keeps: step, cells, flow, speed and share of stopped cars.
SHOTS = """const {film} = lab.player;
return film.snapshots.map(it => [it.step, String.fromCharCode(...it.cells), it.flow, it.speed, it.stopped])"""


# Whether the page shows the snapshots of its first job; and whether it shows the step at which it was paused.
HAS_BEGUN = "return window.lab !== undefined && lab.player.film !== null && lab.player.step >= 0"
IS_PAUSED = """const it = lab.player;
return it.scene?.step === it.step && it.phase === 1 && !it.moving && !it.stale"""


# The classes of tests are made of this class and of TestCase, whose calls it uses.
if TYPE_CHECKING:
    Base = unittest.TestCase
else:
    Base = object


def snapshots(text: str) -> Snapshots:
    """The snapshots of the run of a job file."""
    return Snapshots(snapshots_in(ask(["run"], text).splitlines(True)))


def job_of(**changes: Any) -> str:
    """The job file of the page's first job, with changes."""
    parameters: dict[str, Any] = {
        "limit": 5, "length": 1000, "cars": 150, "start": trlab.random_cells(1), "rule": trlab.Nasch(0.25), "steps": 5000,
        "key": 1,
    }
    return trlab.Job(**{**parameters, **changes}).text()


class Place(Protocol):
    """Where a page is: a server, or a file."""

    @property
    def address(self) -> str:
        """The address of the page."""

    @property
    def children(self) -> Collection[Child]:
        """The processes that run for the page."""


class OnPage(Base):
    """A page in one browser, which is loaded again for each test."""

    browser = ""
    lab: Place
    page: Window

    @classmethod
    def setUpClass(cls) -> None:
        # On a busy machine it takes long until runs that have been replaced have ended.
        patience = mock.patch.object(server, "SLOT_TIMEOUT", LIMIT)
        patience.start()
        cls.addClassCleanup(patience.stop)
        cls.lab = lab = Lab()
        cls.addClassCleanup(lab.close)
        thread = threading.Thread(target=lab.serve_forever, kwargs={"poll_interval": 0.05}, daemon=True)
        thread.start()
        cls.addClassCleanup(thread.join)
        cls.addClassCleanup(lab.shutdown)
        cls.page = Window(cls.browser, cls.lab.address)
        cls.addClassCleanup(cls.page.close)

    def setUp(self) -> None:
        self.page.get("about:blank")
        self.page.get(self.lab.address)
        self.wait_until(lambda: self.page.js(HAS_BEGUN))
        self.page.errors()

    def examples(self) -> dict[str, str]:
        """The examples that the page offers."""
        return server.examples()

    def tearDown(self) -> None:
        self.assertEqual(self.page.errors(), [])

    def wait_until(self, condition: Callable[[], object]) -> None:
        """Wait for a condition. The page reacts to a control only when the server has written the new job file."""
        if not self.page.holds(condition):
            self.fail(self.page.js("return document.getElementById('fault')?.textContent") or "it does not become true")

    def wait_for(self, expected: object, actual: Callable[[], object]) -> None:
        """Wait until a call gives this value."""
        if not self.page.holds(lambda: actual() == expected):
            self.assertEqual(actual(), expected)

    def wait_for_job(self, expected: str) -> None:
        """Wait until the page shows this job file."""
        self.wait_for(expected, self.page.job)

    def wait_for_line(self, line: str) -> None:
        """Wait until the job file of the page has this line, or these characters."""
        if not self.page.holds(lambda: line in self.page.job()):
            self.assertIn(line, self.page.job())

    def wait_for_marks(self, count: int) -> None:
        """Wait until the fundamental diagram has this number of points of one sweep; the run may have added its own."""
        self.wait_until(lambda: self.page.js("return lab.marks.some(it => it.points.length === arguments[0])", count))

    def wait_until_written(self) -> None:
        """Wait until the page has written the job file of its controls."""
        self.wait_until(lambda: not self.page.js("return window.lab.isWriting"))

    def is_visible(self, name: str) -> bool:
        """Whether the page shows an element."""
        visible: bool = self.page.js("return document.getElementById(arguments[0]).checkVisibility()", name)
        return visible

    def turn(self, words: str) -> None:
        """Click on the button that plays and pauses, if it has this text: in one script, because a run may end between
        two."""
        self.page.js("""const it = document.getElementById('play');
            if (it.textContent === arguments[0]) it.click()""", words)

    def runs(self) -> list[Child]:
        """The processes that run jobs for pages, without those that explain files."""
        return [child for child in list(self.lab.children) if isinstance(child.args, list) and child.args[1] == "run"]

    def only_run(self) -> Optional[Child]:
        """The process of the only run, or None."""
        runs = self.runs()
        return runs[0] if len(runs) == 1 else None

    def follows_none(self) -> None:
        """Press Escape, after which the view follows no car."""
        self.page.keys(Keys.ESCAPE)
        self.wait_until(lambda: self.page.js("return lab.player.car") is None)

    def pause(self) -> None:
        """Pause, and wait until the page shows the step at which it has paused."""
        self.wait_until_written()
        self.turn("Pause")
        self.wait_until(lambda: self.page.js(IS_PAUSED))

    def run_to(self, step: int) -> None:
        """Play fast to a step at least, and pause."""
        self.wait_until_written()
        # In one script, because the cars drive on between two scripts.
        self.page.later("""const it = lab.player, rate = document.getElementById('rate');
            rate.value = 100;
            rate.dispatchEvent(new Event('input', {bubbles: true}));
            if (!it.playing) document.getElementById('play').click();
            await new Promise(resolve => {
                const look = () => it.step >= words[0] ? resolve() : requestAnimationFrame(look);
                look();
            });
            if (it.playing) it.setPlaying(false)""", step)
        self.pause()

    def are_those_of_the_run(self) -> list[list[Any]]:
        """The kept snapshots, which are those of the job file. On a busy machine the first ones may be gone."""
        shots: list[list[Any]] = self.page.js(SHOTS)
        expected = snapshots(self.page.job())
        for step, cells, *_ in shots:
            self.assertEqual((step, cells), (expected[step].step, "".join(expected[step].lanes)))
        return shots

    def saved(self, *names: str) -> Any:
        """The text of the file that a click on these buttons saves."""
        self.page.js("""window.saved = null;
            window.URL.createObjectURL = blob => { window.saved = blob; return 'data:,'; };
            window.HTMLAnchorElement.prototype.click = function() { window.savedAs = this.download; }""")
        for name in names:
            self.page.click(name)
        self.wait_until(lambda: self.page.js("return window.saved !== null"))
        return self.page.later("return await saved.text()")

    def open(self, text: str, name: str = "a.job") -> None:
        """Open a file with this text, as if a user had chosen it."""
        self.page.js("lab.open(arguments[0], arguments[1])", name, text)
