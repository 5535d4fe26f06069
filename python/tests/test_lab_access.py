"""The page for everyone: names, roles, order of focus, contrast and colours, on light and dark pages, on a phone and without
motion."""
import contextlib
import itertools
import math
import re
import unittest
from collections.abc import Sequence
from typing import NamedTuple, Optional

from tests.browsers import Keys, Window, missing
from tests.lab_pages import OnPage
from trlab import Job, Rickert, SlowToStart
from trlab._inputs.rules import Rule
from trlab._results.tables import Window as Row, Table
from trlab._runs.calls import ask

# Controls that a keyboard reaches: those that are shown, enabled, and not in a closed part of the page.
CONTROLS = """const isEnabled = it => it.checkVisibility({visibilityProperty: true}) && !it.disabled;
const kinds = 'a[href], input, select, button, summary, [tabindex="0"], [contenteditable]';
const controls = [...document.querySelectorAll(kinds)].filter(isEnabled);"""
# The contrast of a text with its background (WCAG 2).
CONTRAST = """const linear = part => part <= 0.04045 ? part / 12.92 : ((part + 0.055) / 1.055) ** 2.4;
const luminance = ([r, g, b]) => 0.2126 * linear(r / 255) + 0.7152 * linear(g / 255) + 0.0722 * linear(b / 255);
const contrastOf = (one, other) => {
    const [low, high] = [luminance(one), luminance(other)].sort((a, b) => a - b);
    return (high + 0.05) / (low + 0.05);
};
// Red, green and blue of a colour in CSS, and its opacity if it has one.
const parts = colour => colour.match(/[\\d.]+/g).map(Number);
const over = ([r, g, b, opacity = 1], below) => [r, g, b].map((part, k) => part * opacity + below[k] * (1 - opacity));
const paper = it => {
    const own = parts(getComputedStyle(it).backgroundColor), isOpaque = own.length < 4;
    return isOpaque ? own : over(own, it.parentElement ? paper(it.parentElement) : [255, 255, 255]);
};
const contrast = it => {
    const behind = paper(it);
    return contrastOf(behind, over(parts(getComputedStyle(it).color), behind));
};"""

# The elements with words whose contrast is less than WCAG 2 demands: the contrast, a name and the first words of each.
LOW_CONTRAST = """const isShown = it => it.checkVisibility({visibilityProperty: true}) && !it.closest('svg, canvas');
const hasText = it => [...it.childNodes].some(node => node.nodeType === Node.TEXT_NODE && node.data.trim());
const isControl = it => it.matches('input:not([type=range]), select, button');
return [...document.querySelectorAll('body *')]
    .filter(it => isShown(it) && !it.disabled && (isControl(it) || hasText(it)))
    .map(it => [contrast(it), it.id || it.className || it.tagName, it.textContent.trim().slice(0, 30)])
    .filter(([found]) => !(found >= 4.5))"""

# Colours of drawings that need no contrast: paper, and decoration whose meaning is also drawn in another way.
DECORATION = """const decoration = ['#ffffff', '#e3e6ea', '#f1f3f5'];"""
# Records the colours with which the canvases are drawn, except those of speeds, which are the meaning of the drawings.
RECORD = """const prototype = CanvasRenderingContext2D.prototype, pen = document.createElement('canvas').getContext('2d');
// A colour as a canvas returns it.
const normalized = colour => {
    pen.fillStyle = colour;
    return pen.fillStyle;
};
const ofSpeeds = new Set();
for (let speed = 0; speed <= 35; speed++) {
    for (let limit = 1; limit <= 35; limit++) {
        ofSpeeds.add(normalized(`rgb(${lab.speedColour(speed / limit).join(', ')})`));
    }
}
window.drawnColours = new Set();
const styles = {stroke: 'strokeStyle', fill: 'fillStyle', fillRect: 'fillStyle', strokeRect: 'strokeStyle'};
for (const [name, kind] of Object.entries(styles)) {
    const draw = prototype[name];
    prototype[name] = function(...words) {
        if (!ofSpeeds.has(this[kind])) window.drawnColours.add(this[kind]);
        return draw.apply(this, words);
    };
}
lab.player.redraw();"""
# The contrast of a colour of a drawing with its paper, as the style sheet's filter shows both.
DRAWN_CONTRAST = """const filter = getComputedStyle(document.getElementById('diagram')).filter;
const filtered = filter === 'none' ? rgb => rgb : rgb => {
    const [, inverted] = filter.match(/^invert\\(([\\d.]+)\\) hue-rotate\\(180deg\\)$/).map(Number);
    const [r, g, b] = rgb.map(part => part / 255 * (1 - 2 * inverted) + inverted);
    const halfTurn = [[-0.574, 1.43, 0.144], [0.426, 0.43, 0.144], [0.426, 1.43, -0.856]];
    return halfTurn.map(([x, y, z]) => 255 * Math.min(1, Math.max(0, x * r + y * g + z * b)));
};
// The style sheet's paper is behind the drawings, which are clear.
const behind = parts(getComputedStyle(document.documentElement).backgroundColor).slice(0, 3);
const fromHexadecimal = colour => [1, 3, 5].map(k => parseInt(colour.slice(k, k + 2), 16));
const drawnContrast = colour => contrastOf(behind, filtered(fromHexadecimal(colour)));"""

# The colours that fill and outline the elements of the fundamental diagram, each with the kind of element.
DIAGRAM_COLOURS = """return [...document.querySelectorAll('#diagram *')]
    .flatMap(it => ['fill', 'stroke'].map(kind => [it.tagName, it.getAttribute(kind)]))
    .filter(([, colour]) => colour && colour !== 'none')"""
# Points of measured sweeps with initial states, and of runs, for two values of the maximum speed.
MARKS = """for (const limit of [5, 3]) {
    for (const start of ['moving', 'jam']) {
        const points = [{density: 0.2, flow: 0.3}, {density: 0.6, flow: 0.2}], road = {limit, length: 1000, lanes: 1};
        lab.marks.push({...road, points: points.slice(1)}, {...road, name: 'p', start, group: limit, points});
    }
}
lab.fundamental.selectPoint(lab.fundamental.points()[0]);
document.getElementById('follow').click();"""
# Those of the colours whose contrast is less than needed, as [colour, needed contrast, contrast].
LOW_DRAWN_CONTRAST = """return arguments[0].filter(([colour]) => !decoration.includes(colour))
    .map(([colour, needed]) => [colour, needed, drawnContrast(colour)])
    .filter(([, needed, found]) => !(found >= needed))"""
# The style of the outline around each drawing that has the focus, and its contrast.
OUTLINES = """const twoDigits = part => part.toString(16).padStart(2, '0');
return ['diagram', 'band'].map(id => {
    const it = document.getElementById(id);
    it.focus();
    const {outlineStyle, outlineColor} = getComputedStyle(it), colour = parts(outlineColor).slice(0, 3).map(twoDigits);
    return [outlineStyle, drawnContrast(`#${colour.join('')}`)];
})"""

Matrix = Sequence[Sequence[float]]

# How eyes without red, green or blue cones see linear red, green and blue (Machado, Oliveira and Fernandes 2009).
SIGHTS = {
    "all colours": ((1, 0, 0), (0, 1, 0), (0, 0, 1)),
    "no red": ((0.152286, 1.052583, -0.204868), (0.114503, 0.786281, 0.099216), (-0.003882, -0.048116, 1.051998)),
    "no green": ((0.367322, 0.860646, -0.227968), (0.280085, 0.672501, 0.047413), (-0.011820, 0.042940, 0.968881)),
    "no blue": ((1.255528, -0.076749, -0.178779), (-0.078411, 0.930809, 0.147602), (0.004733, 0.691367, 0.303900)),
}


class Slider(NamedTuple):
    """How a drawing that keys can move is described to a screen reader. `tab_index` is -1 if keys do not reach it, `words`
    explain `value`, and `maximum` is the largest value."""
    role: str
    tab_index: int
    value: int
    words: Optional[str]
    maximum: int


def lightness_and_hue(colour: Sequence[float], sight: Matrix) -> tuple[float, float, float]:
    """A colour as such eyes see it, in CIELAB, in which distances are differences that one sees."""
    times = lambda matrix, column: [sum(a * b for a, b in zip(row, column)) for row in matrix]
    linear = [part / 255 / 12.92 if part <= 10 else ((part / 255 + 0.055) / 1.055) ** 2.4 for part in colour]
    to_xyz = ((0.4339, 0.3762, 0.1899), (0.2126, 0.7152, 0.0722), (0.0178, 0.1096, 0.8730))  # white is 1, 1, 1
    x, y, z = (max(part, 0.0089) ** (1 / 3) for part in times(to_xyz, times(sight, linear)))
    return 116 * y - 16, 500 * (x - y), 200 * (y - z)


class ForEveryone(OnPage):
    """The tests, in one browser."""

    def window(self, width: int = 1280, height: int = 900, **preferences: bool) -> contextlib.closing[Window]:
        """The page in a window of its own, for `with`."""
        return contextlib.closing(Window(self.browser, self.lab.address, width, height, **preferences))

    def open_everything(self, page: Window) -> None:
        """Show all that the page can show at once: a followed car, a second model, programs, and a rejected number."""
        page.wait_until(lambda: page.js("return window.lab !== undefined && lab.player.step >= 0"))
        if page.text("play") == "Pause":
            page.click("play")
        page.set("model", "rickert")
        page.set("model", "own")
        page.set("against", "rickert")
        self.wait_until(lambda: page.js("return !lab.isWriting && lab.job.lanes === 2"))
        verdicts = "motionverdict", "changeverdict", "textverdict"
        self.wait_until(lambda: all("Accepted" in page.text(verdict) for verdict in verdicts))
        page.set("against", "vdr")
        page.set("againstp", "2")
        page.js("document.getElementById('numbers').open = true")
        # A new run follows no car, so that a car that was chosen too early has to be chosen again.
        follows = """const {car, scene} = lab.player;
            if (!car && scene) document.getElementById('follow').click();
            return lab.player.car !== null"""
        self.wait_until(lambda: page.js(follows) and "Its gap is" in page.text("car") and page.text("againstpwrong") != "")

    def test_roles_and_names(self) -> None:
        self.open_everything(self.page)
        controls = self.page.js(CONTROLS + """const drawings = document.querySelectorAll('canvas, #diagram');
            return [...controls, ...drawings].filter(it => it.checkVisibility())""")
        self.assertGreater(len(controls), 50)
        spoken = [self.page.spoken(control) for control in controls]
        for role, name in spoken:
            self.assertTrue(name.strip() and role not in ("none", "generic"), (role, name))
        # Browsers differ in the role of a list of choices.
        common = [(role.replace("listbox", "combobox"), name) for role, name in spoken]
        for button in "Make it brake", "Both branches", "Save a film":
            self.assertIn(("button", button), common)
        for choice in "Compare with", "Units":
            self.assertIn(("combobox", choice), common)

    def test_order_of_focus(self) -> None:
        self.open_everything(self.page)
        count = self.page.js(CONTROLS + """controls.forEach((it, k) => it.dataset.order = k);
            document.activeElement.blur(); scrollTo(0, 0); return controls.length""")
        seen, bare = [], []
        for _ in range(count + 10):
            self.page.press(Keys.TAB)
            order, outline = self.page.js("""const it = document.activeElement, framed = it.closest('.editor') ?? it;
                return [it.dataset.order ?? null, getComputedStyle(framed).outlineStyle]""")
            if order in seen or self.page.js("return document.activeElement === document.body"):
                break
            if order is not None:  # Firefox stops at boxes that scroll, too
                seen.append(order)
                bare += [order] if outline == "none" else []
        self.assertEqual(seen, [str(k) for k in range(count)])
        self.assertEqual(bare, [], "these have the focus and do not show it")

    def test_contrast(self) -> None:
        for dark in False, True:
            with self.subTest(dark=dark), self.window(dark=dark) as page:
                self.open_everything(page)
                paper = page.js("return getComputedStyle(document.documentElement).backgroundColor")
                self.assertEqual(paper, "rgb(20, 23, 27)" if dark else "rgb(255, 255, 255)")
                self.assertEqual(page.js(CONTRAST + LOW_CONTRAST), [])
                self.assertEqual(page.errors(), [])

    def test_contrast_of_drawings(self) -> None:
        """Words of drawings have a contrast of 4.5 with the paper, and lines and shapes that mean something have 3."""
        for dark in False, True:
            with self.subTest(dark=dark), self.window(dark=dark) as page:
                self.open_everything(page)
                page.set("length", "5000")  # so that a part of the road is enlarged
                self.wait_until(lambda: page.js("return !lab.isWriting && lab.player.film.length === 5000"))
                self.wait_until(lambda: page.step() >= 0)
                page.js(MARKS)
                page.js(RECORD)
                self.wait_until(lambda: page.js("return window.drawnColours.size > 4 && !lab.player.stale"))
                on_canvases, in_diagram = page.js("return [...window.drawnColours]"), page.js(DIAGRAM_COLOURS)
                self.assertTrue({"text", "path", "polyline", "circle"} <= {name for name, _ in in_diagram})
                needed = [[colour, 3] for colour in on_canvases]
                needed += [[colour, 4.5 if name == "text" else 3] for name, colour in in_diagram]
                self.assertEqual(page.js(CONTRAST + DECORATION + DRAWN_CONTRAST + LOW_DRAWN_CONTRAST, needed), [])
                page.press(Keys.TAB)  # so that the focus is shown as that of a keyboard
                for style, contrast in page.js(CONTRAST + DRAWN_CONTRAST + OUTLINES):
                    self.assertEqual(style, "solid")
                    self.assertGreaterEqual(contrast, 3, "the outline of the focus")
                self.assertEqual(page.errors(), [])

    # Drawings by keyboard

    def slider(self, name: str) -> Slider:
        """The description of a drawing for a screen reader: of `diagram`, or of `band`, the road."""
        return Slider(*self.page.js("""const it = document.getElementById(arguments[0]);
            const attribute = name => it.getAttribute(name);
            const value = Number(attribute('aria-valuenow')), maximum = Number(attribute('aria-valuemax'));
            return [attribute('role'), it.tabIndex, value, attribute('aria-valuetext'), maximum]""", name))

    def test_points_of_the_diagram_by_keyboard(self) -> None:
        self.pause()
        self.page.click("clear")
        self.wait_for(Slider("slider", 0, 0, "no points yet", 0), lambda: self.slider("diagram"))
        self.page.js("""lab.marks.push(
                {limit: 5, length: 1000, lanes: 1, points: [{density: 0.3, flow: 0.4}]},
                {limit: 3, length: 500, lanes: 2, points: [{density: 0.1, flow: 0.45}]});
            lab.fundamental.draw();
            document.getElementById('diagram').focus();""")
        self.wait_for(Slider("slider", 0, 0, "2 points, none selected", 2), lambda: self.slider("diagram"))
        role, name = self.page.spoken(self.page.js("return document.getElementById('diagram')"))
        self.assertEqual(role, "slider")
        self.assertIn("Arrow keys read the points", name)
        points = "density 0.100, flow 0.450, v_max 3, 2 \u00d7 500 cells", "density 0.300, flow 0.400, v_max 5, 1000 cells"
        moves = (Keys.RIGHT, 1), (Keys.RIGHT, 2), (Keys.RIGHT, 2), (Keys.LEFT, 1), (Keys.END, 2), (Keys.HOME, 1)
        for key, number in moves:
            self.page.press(key)
            words = points[number - 1]
            self.assertEqual(self.slider("diagram"), Slider("slider", 0, number, f"Point {number} of 2: {words}", 2))
            self.assertEqual(self.page.text("pointnumbers"), words)
        circle_x = self.page.js("return Number(document.querySelector('#diagram .selected').getAttribute('cx'))")
        point = "const {x, width} = document.querySelector('#diagram path.point').getBBox(); return x + width / 2"
        self.assertAlmostEqual(circle_x, self.page.js(point), places=1)
        step, job = self.page.step(), self.page.job()
        self.page.press(Keys.ESCAPE)
        self.assertEqual(self.slider("diagram"), Slider("slider", 0, 0, "2 points, none selected", 2))
        self.assertEqual(self.page.js("return document.querySelector('#diagram .selected')"), None)
        self.assertEqual((self.page.step(), self.page.job()), (step, job))

    def test_the_enlarged_part_by_keyboard(self) -> None:
        self.run_to(30)
        cells = lambda: self.page.js("return String.fromCharCode(...lab.player.film.at(lab.player.step).cells)")
        lens = lambda: self.page.js("return lab.player.lens")
        self.page.js("document.getElementById('band').focus()")
        role, name = self.page.spoken(self.page.js("return document.getElementById('band')"))
        self.assertEqual(role, "slider")
        self.assertIn("straight line", name)
        # An enlarged cell has 9 pixels. The page rounds halves up.
        part = math.floor(self.page.js("return document.getElementById('band').clientWidth") / 9 + 0.5)
        arrow = math.floor(part / 10 + 0.5)
        step, job = self.page.step(), self.page.job()
        for key, expected in (
            (Keys.HOME, part / 2), (Keys.LEFT, part / 2 - arrow), (Keys.RIGHT, part / 2), (Keys.PAGE_UP, 1.5 * part),
            (Keys.END, 1000 - part / 2), (Keys.PAGE_DOWN, 1000 - 1.5 * part), (Keys.PAGE_UP, 1000 - part / 2),
            (Keys.PAGE_UP, part / 2),
        ):
            self.page.press(key)
            self.assertAlmostEqual(lens(), expected % 1000, delta=0.6)
            band = self.slider("band")
            self.assertEqual((band.value, band.maximum), (int(lens()) % 1000, 999))
            self.assertRegex(band.words or "", r"^cells \d+ to \d+ of 1000: \d+ cars?, \d+ stopped$")
            first, last, _, cars, stopped = map(int, re.findall(r"\d+", band.words or ""))
            self.assertEqual((last - first) % 1000, part - 1)
            self.assertLessEqual(abs(first - (lens() - part / 2) % 1000), 1)
            enlarged = (2 * cells())[first : first + part]
            self.assertEqual((cars, stopped), (len(enlarged) - enlarged.count("."), enlarged.count("0")))
        self.assertEqual((self.page.step(), self.page.job()), (step, job))
        self.page.click("follow")
        self.page.js("document.getElementById('band').focus()")
        self.page.press(Keys.RIGHT)
        self.assertIsNone(self.page.js("return lab.player.car"))

    def test_a_short_road_is_an_image(self) -> None:
        self.page.set("length", "100")
        is_drawn = "const {film, step, stale} = lab.player; return film.length === 100 && step >= 0 && !stale"
        self.wait_until(lambda: self.page.js(is_drawn))
        self.wait_for(Slider("img", -1, 0, None, 0), lambda: self.slider("band"))

    def test_a_phone(self) -> None:
        with self.window(400, 800, calm=True) as page:
            self.open_everything(page)
            hidden = page.js(CONTROLS + """return controls.filter(it => !it.closest('.editor')).filter(it => {
                it.scrollIntoView({block: 'center'});
                const {left, right, top, bottom} = it.getBoundingClientRect();
                const found = document.elementFromPoint((left + right) / 2, (top + bottom) / 2);
                return left < 0 || right > innerWidth + 0.5 || !(it === found || it.contains(found) || found?.contains(it));
            }).map(it => it.outerHTML.slice(0, 100))""")
            self.assertEqual(hidden, [])
            self.assertLessEqual(*page.js("return [document.documentElement.scrollWidth, innerWidth]"))

    def test_names_and_order(self) -> None:
        self.pause()
        nameless = self.page.js("""
            const kinds = 'input, select, button, [role=textbox], summary, canvas, svg, section, form';
            const hasLabel = it => it.ariaLabel || it.getAttribute('aria-labelledby') || it.labels?.length;
            return [...document.querySelectorAll(kinds)]
                .filter(it => it.type !== 'file' && !hasLabel(it) && !it.textContent.trim() && !it.closest('.texts, .top'))
                .map(it => it.outerHTML.slice(0, 80))""")
        self.assertEqual(nameless, [])
        repeated = self.page.js("""const names = [...document.querySelectorAll('[id]')].map(it => it.id);
            return names.filter((name, k) => names.indexOf(name) !== k)""")
        self.assertEqual(repeated, [])
        unknown = self.page.js("""return ['aria-describedby', 'aria-labelledby']
            .flatMap(name => [...document.querySelectorAll(`[${name}]`)].flatMap(it => it.getAttribute(name).split(' ')))
            .filter(id => !document.getElementById(id))""")
        self.assertEqual(unknown, [])
        rate = self.page.js("return document.getElementById('rate').getAttribute('aria-valuetext')")
        self.assertEqual(rate, "33 steps per second")
        self.page.js("document.activeElement.blur(); scrollTo(0, 0)")
        seen = []
        for _ in range(60):
            self.page.press(Keys.TAB)
            seen.append(self.page.js("""const it = document.activeElement;
                return it.id || it.dataset.set || it.ariaLabel || it.className"""))
        playback = "play", "back", "one", "again", "follow", "rate"
        for name in *playback, "model", "p", "density", "cars", "sweep", "savefigure", "link", "example":
            self.assertIn(name, seen)

    def test_what_a_screen_reader_says(self) -> None:
        self.pause()
        controls = self.page.js("""
            const kinds = 'input, select, button, summary, canvas, #diagram, [role=textbox], [role=region]';
            return [...document.querySelectorAll(kinds)].filter(it => it.checkVisibility() && it.type !== 'file')""")
        self.assertGreater(len(controls), 40)
        for element in controls:
            role, name = self.page.spoken(element)
            self.assertTrue(name.strip() and role not in ("none", "generic"), (role, name))

    def test_colours_are_safe_for_the_colour_blind(self) -> None:
        colours = self.page.js("return [0, 1, 2, 3, 4, 5].map(v => lab.speedColour(v / 5))")
        for kind, sight in SIGHTS.items():
            seen = [lightness_and_hue(colour, sight) for colour in colours]
            distances = [math.dist(one, other) for one, other in itertools.combinations(seen, 2)]
            self.assertGreater(min(distances), 15, kind)
            self.assertGreater(math.dist(seen[0], seen[-1]), 40, kind)

    def test_numbers_as_a_table(self) -> None:
        self.run_to(30)
        self.page.js("document.getElementById('numbers').open = true")
        self.wait_until(lambda: self.page.js("return document.querySelectorAll('#rows tr').length") == 10)
        row = Table.read(Row, ask(["series"], self.page.job()))[self.page.step() - 1]
        expected = f"{row.step}{row.flow:.4f}{row.speed:.3f}{row.stopped_share:.3f}"
        self.wait_for(expected, lambda: self.page.js("return document.querySelector('#rows tr').textContent"))
        self.wait_until(lambda: f"Step {row.step}: flow" in self.page.text("silent"))

    def test_numbers_are_not_cut(self) -> None:
        cut_numbers = """return [...document.querySelectorAll('.field input.number')]
            .filter(it => it.scrollWidth > it.clientWidth).map(it => it.value)"""
        # Choices of a given width have an arrow on the right, for which 24 pixels are enough.
        cut_choices = """const pen = document.createElement('canvas').getContext('2d');
            return [...document.querySelectorAll('#example, .field > select')].flatMap(choice => {
                const {fontSize, fontFamily} = getComputedStyle(choice), room = choice.clientWidth - 24;
                pen.font = `${fontSize} ${fontFamily}`;  // Chromium has no `font` here
                return [...choice.options].map(it => it.text).filter(text => pen.measureText(text).width > room);
            })"""
        with self.window(400, 800) as page:
            page.wait_until(lambda: page.js("return window.lab?.player.step >= 0"))
            rules: tuple[Rule, ...] = SlowToStart("1/64", "1/3"), Rickert("2/3", "1/7")
            for rule in rules:
                text = Job(limit=5, lanes=2, length=30, cars=17, rule=rule, steps=400).text()
                page.js("lab.open('a.job', arguments[0])", text)
                page.wait_until(lambda: page.job() == text and not page.js("return lab.isWriting"))
                self.assertEqual(page.value("density"), "0.283333")
                self.assertEqual(page.js(cut_numbers), [])
            self.assertEqual(page.js(cut_choices), [])

    def test_a_narrow_page_without_motion(self) -> None:
        with self.window(400, 800, calm=True) as page:
            page.wait_until(lambda: page.js("return window.lab?.player.step >= 0"))
            # A run that begins and does not rest, so that the next snapshots are there.
            page.js("const {player} = lab; if (!player.run) player.startRun(player.request); player.pausedAt = Infinity")
            self.wait_until(lambda: page.js("return lab.player.run.waiting.length > 9"))
            # The clock of the page goes on by a second: with motion the page would show the next snapshots.
            page.js("const {player} = lab; for (let k = 1; k <= 10; k++) player.onFrame(player.lastFrame + 100)")
            self.assertEqual((page.step(), page.text("play")), (0, "Play"))
            page.click("play")
            self.wait_until(lambda: page.step() > 3)
            self.assertLessEqual(*page.js("return [document.documentElement.scrollWidth, innerWidth]"))
            self.assertEqual(page.errors(), [])


@unittest.skipIf(missing("chromium"), missing("chromium"))
class InChromium(ForEveryone, unittest.TestCase):
    browser = "chromium"


@unittest.skipIf(missing("firefox"), missing("firefox"))
class InFirefox(ForEveryone, unittest.TestCase):
    browser = "firefox"


if __name__ == "__main__":
    unittest.main()
