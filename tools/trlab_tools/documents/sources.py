"""Are the sources in plain English, and does each name mean one thing? The prose of sources, scripts, tests and proofs (see
remarks.py) may use few of the words that often replace a noun or a condition, and none of the words in DIALECT. Two types of
the crates must not have the same name, and nor must two definitions of specs/, except for the names in TWICE."""
import collections
import contextlib
import re
from collections.abc import Iterable

from ..command import Verdicts
from .files import content, files_below, known_files
from .plain import STAND_INS
from .remarks import remarks

# The places of prose, and its words.
Prose = list[tuple[str, str]]
# Code in prose, which does not count.
CODE = re.compile(r"`[^`]*`")
# An example in the documentation of a source, the mark of such a line, and any comment.
EXAMPLE = re.compile(r"^ *//[/!] ```(?:text)?\n(.*?)^ *//[/!] ```$", re.M | re.S)
DOC_MARK = re.compile(r"^ *//[/!]", re.M)
REMARK = re.compile(r"//.*$", re.M)
# Each of these words hides a noun, a verb or a condition.
DIALECT = re.compile(
    r"\b(?:so many|so much|go(?:es)? by|tells?|told|stands?|alone|hand(?:s|ed)? (?:on|back)|whoever|in vain|by the clock|anew|"
    r"mends?|where an? \w+ (?:fails|was refused)|in place of)\b",
    re.I,
)
# In the crates this is called a failed allocation.
OUT_OF_MEMORY = re.compile(r"\bmemory (?:ran|runs) out\b", re.I)
# The names of types in sources, and those of definitions.
TYPE = re.compile(r"^\s*(?:pub(?:\([a-z]+\))? )?(?:struct|enum|trait) (\w+)", re.M)
DEFINITION = re.compile(r"^(?:(?:abbrev|unfoldable|opaque) )*pub (?:record |data )?(\w+)(?= |$)", re.M)
NO_DEFINITION = {"mod", "use", "record", "data"}
# The maximum of STAND_INS per 1000 words of prose in sources; that of pages is MAX_STAND_INS.
MAX_IN_SOURCES = 2
# Names that still mean two things. Rename one of the two and remove the name here; add no others.
TWICE = {"Rejection"}


def crate_of(path: str) -> str:
    """The crate of a path such as `crates/CRATE/src/FILE`."""
    return path.split("/")[1]


def sources(folder: str, ending: str) -> list[str]:
    """The sources below src/ or specs/ of all crates."""
    return [path for path in files_below("crates", ending) if f"/{folder}/" in path and "/out/" not in path]


def area_of(name: str) -> str:
    """The crate of a file; otherwise its folder at the top, or below python/."""
    first, *rest = name.split("/")
    if first == "crates" and rest:
        return rest[0]
    return f"python/{rest[0]}" if first == "python" and len(rest) > 1 else first


def prose_by_area() -> dict[str, Prose]:
    """The prose of each area: places and words."""
    prose: dict[str, Prose] = collections.defaultdict(list)
    for name in known_files():
        with contextlib.suppress(UnicodeDecodeError):
            for line, words in remarks(name, content(name)):
                prose[area_of(name)].append((f"{name}:{line}", CODE.sub(" ", words)))
    return prose


def first_matches(pattern: re.Pattern[str], prose: Prose) -> str:
    """The first words that match, with their places, for a message."""
    matches = [(pattern.search(words), place) for place, words in prose]
    return ", ".join([f"{match[0]} ({place})" for match, place in matches if match][:3])


def prose_is_plain() -> Verdicts:
    """The prose of each area has few words of STAND_INS, and none of DIALECT."""
    for area, prose in sorted(prose_by_area().items()):
        text = "\n".join(words for _, words in prose)
        share = 1000 * len(STAND_INS.findall(text)) / max(1, len(text.split()))
        is_plain = share <= MAX_IN_SOURCES
        examples = "" if is_plain else first_matches(STAND_INS, prose)
        yield is_plain, f"{area}: {share:.1f} of 1000 words are like {examples}"
        for pattern in (DIALECT, OUT_OF_MEMORY) if area.startswith("trlab_") else (DIALECT,):
            examples = first_matches(pattern, prose)
            yield not examples, f"{area} has words like {examples}"


def paths_by_name(folder: str, ending: str, pattern: re.Pattern[str]) -> dict[str, set[str]]:
    """The files that define a name, by the name."""
    paths: dict[str, set[str]] = collections.defaultdict(set)
    for path in sources(folder, ending):
        for name in pattern.findall(content(path)):
            paths[name].add(path.removeprefix("crates/"))
    return paths


def names_are_of_one_thing() -> Verdicts:
    """No two types, and no two definitions, have the same name."""
    for kind, folder, ending, pattern in (("type", "src", ".rt", TYPE), ("definition", "specs", ".antt", DEFINITION)):
        several_paths = {
            name: sorted(paths) for name, paths in paths_by_name(folder, ending, pattern).items()
            if len(paths) > 1 and name not in NO_DEFINITION | TWICE
        }
        yield not several_paths, f"{kind}s of one name: {several_paths}"


def without_layout(code: str) -> str:
    """Code without remarks and spaces, so that it does not matter how it is divided into lines."""
    return re.sub(r",(?=[)\]}])", "", re.sub(r"\s", "", REMARK.sub("", code)))


def has_in_order(code: str, lines: Iterable[str]) -> bool:
    """Whether code has these lines in their order."""
    end = 0
    for line in lines:
        begin = code.find(line, end)
        if begin < 0:
            return False
        end = begin + len(line)
    return True


def examples_are_compiled() -> Verdicts:
    """Each library crate begins with an example, whose lines are in the code of another crate."""
    files = sources("src", ".rt")
    compiled = [(crate_of(path), without_layout(content(path))) for path in files]
    for path in files:
        crate, examples = crate_of(path), EXAMPLE.findall(content(path))
        if path.endswith("src/lib.rt") and not crate.endswith("_tests"):
            yield bool(examples), f"{path} begins with an example"
        for example in examples:
            lines = [without_layout(line) for line in DOC_MARK.sub("", example).splitlines()]
            is_compiled = any(other != crate and has_in_order(code, lines) for other, code in compiled)
            yield is_compiled, f"the example of {path} is compiled in another crate: {lines[0]}"


def verdicts() -> Verdicts:
    """The verdicts of all tests of this module."""
    yield from prose_is_plain()
    yield from examples_are_compiled()
    yield from names_are_of_one_thing()
