"""Does each page have the numbers and the names of the sources that it cites?"""
import json
import re

from ..command import Verdicts
from ..finding import match_in
from .files import content

# A number with decimals.
NUMBER = re.compile(r"\d+\.\d+")
# A row of the table of published figures in README.md: the page of a study, and the cells with its numbers.
REPRODUCED = re.compile(r"^\| \[[^]]*\]\((studies/[^)]*)\): [^|]*\| (.*) \|$", re.M)
# The row of the table of speeds that README.md cites.
CITED_ROW = re.compile(r"^\| `nasch 536870912` \| 1 \| 100000 \| 30000 \| .*$", re.M)
MODELS, PUBLISHED_RULES = "docs/MODELS.md", "examples/published_rules.py"
# A row of a table in docs/MODELS.md that cites a study.
MEASURED = re.compile(r"^\|.*\]\(\.\./(studies/\w+/README\.md)(?:#[\w-]+)?\).*\|$", re.M)
# A number with decimals, or a percentage.
RESULT = re.compile(r"\d+\.\d+|\d+(?= %)")
# The name of a function that is a rule.
RULE_FUNCTION = re.compile(r"^@trlab\.(?:motion|change)\ndef (\w+)", re.M)
# The solutions of docs/COURSE.md, and numbers in them.
COURSE, NOTEBOOK = "docs/COURSE.md", "examples/course.ipynb"
SOLUTIONS = re.compile(r"^## Solutions$(.*?)^## ", re.M | re.S)
# Fractions are settings; the numbers of headings and links are not results either.
SOLUTION = re.compile(r"(?<![\w/.])\d+(?:\.\d+)?(?![\w/])")
NO_RESULTS = re.compile(r"^#.*$|`[^`]*`|\]\([^)]*\)|\b\d+/\d+\b", re.M)
# Words in italics.
ITALIC = re.compile(r"(?<![*\w])\*([^*]+)\*(?!\*)")
LAB, LAB_PAGE = "python/trlab/lab", "docs/LAB.md"
# Names in the page of trlab-lab end like this, in its HTML and in its scripts.
NAME_ON_PAGE = re.compile(r"[>\"]([^<>\"\n]+)[<\"]")


def reproduced_numbers_are_of_studies() -> Verdicts:
    """Each number in a row of published figures in README.md is on the page of its study."""
    rows = REPRODUCED.findall(content("README.md"))
    yield len(rows) >= 3, "README.md has no table of published figures"
    for page, cells in rows:
        for number in NUMBER.findall(cells):
            yield number in NUMBER.findall(content(page)), f"README.md cites {number}, which is not in {page}"


def speed_is_of_the_table() -> Verdicts:
    """The two numbers of README.md that cite docs/SPEED.md are in one row there."""
    cited = NUMBER.findall(match_in(r"^\|.*\(docs/SPEED\.md\).*$", content("README.md"), re.M)[0])
    row = match_in(CITED_ROW, content("docs/SPEED.md"))[0]
    yield len(cited) == 2, "README.md has to cite two speeds"
    for number in cited:
        yield number in NUMBER.findall(row), f"README.md cites the speed {number}, which is not in the row of docs/SPEED.md"


def measured_results_are_of_studies() -> Verdicts:
    """Each number in a row of docs/MODELS.md that cites a study is on the page of this study."""
    rows = list(MEASURED.finditer(content(MODELS)))
    yield len(rows) >= 6, f"{MODELS} has few rows that cite a study"
    for row in rows:
        for number in RESULT.findall(row[0]):
            yield number in RESULT.findall(content(row[1])), f"{MODELS} cites {number}, which is not in {row[1]}"


def published_rules_are_listed() -> Verdicts:
    """docs/MODELS.md names each function of the published rules."""
    functions = RULE_FUNCTION.findall(content(PUBLISHED_RULES))
    yield len(functions) >= 6, f"{PUBLISHED_RULES} has few rules"
    for name in functions:
        yield f"`{name}`" in content(MODELS), f"{MODELS} does not name the function {name} of {PUBLISHED_RULES}"


def solutions_are_measured() -> Verdicts:
    """Each number in the solutions of the course is in a stored output of its notebook, which ./test notebook runs."""
    cells = json.loads(content(NOTEBOOK))["cells"]
    outputs = "".join("".join(output.get("text", "")) for cell in cells for output in cell.get("outputs", ()))
    measured = set(map(float, re.findall(r"\d+(?:\.\d+)?", outputs)))
    cited = SOLUTION.findall(NO_RESULTS.sub("", match_in(SOLUTIONS, content(COURSE))[1]))
    yield len(cited) > 50, f"{COURSE} has no solutions with numbers"
    for number in cited:
        yield float(number) in measured, f"{COURSE} has {number} in its solutions, which no cell of {NOTEBOOK} prints"


def controls_are_on_the_page() -> Verdicts:
    """Each name in italics in the course and on the page about trlab-lab is a name on the page of trlab-lab."""
    sources = (content(f"{LAB}/{name}") for name in ("page.html", "controls.js", "phenomena.js", "player.js"))
    names_on_page = {name.strip() for source in sources for name in NAME_ON_PAGE.findall(source)}
    for page in COURSE, LAB_PAGE:
        names = {" ".join(name.split()) for name in ITALIC.findall(content(page))} - {"italics"}
        yield len(names) > 5, f"{page} names few controls in italics"
        for name in sorted(names):
            yield name in names_on_page, f"{page} names the control {name!r}, which is not on the page of trlab-lab"


def verdicts() -> Verdicts:
    """The verdicts of all tests of this module."""
    for test in (
        reproduced_numbers_are_of_studies,
        speed_is_of_the_table,
        measured_results_are_of_studies,
        published_rules_are_listed,
        solutions_are_measured,
        controls_are_on_the_page,
    ):
        yield from test()
