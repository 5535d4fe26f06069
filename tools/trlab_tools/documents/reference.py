"""The reference of the Python package, from its docstrings: an index in docs/PYTHON.md, and a page that the site has.

The page has a section for each name that the modules `trlab` and `trlab.exact` export, with its signature, its docstring, and
those of its public methods and attributes. The groups are those of the guide docs/PYTHON.md."""
import ast
import re
from collections.abc import Callable, Iterable, Iterator

from ..command import Verdicts
from .files import content
from .markdown import block, call, prose, value_of
from .package import Function, Package, arguments, result_of

GUIDE = "docs/PYTHON.md"
# The page is not in the repository: the site gets it when it is made.
PAGE = "docs/PYTHON_REFERENCE.md"
# The names of each section of the guide.
GROUPS = {
    "Run a job": ["Job", "Snapshots", "Snapshot"],
    "Choose a model": ["Nasch", "SlowToStart", "Rickert", "Own", "Rule"],
    "Choose the initial state": ["even", "moving", "jammed", "random_cells", "InitialState"],
    "Write probabilities, densities and seeds": ["Probability", "Density", "Key"],
    "Count cars": ["Sweep", "Table", "Point", "Window", "Drift"],
    "Repeat runs, and take means with errors": ["Grid", "means", "per_run", "key_for", "read_study"],
    "Estimate from few or long runs": ["Blocking", "peak", "Peak", "lifetime", "Lifetime", "survival", "Duration"],
    "Convert units": ["to_si", "UNITS"],
    "Draw": ["plot_means", "plot_space_time"],
    "Follow each car": ["Trajectories", "Trip", "Jam", "follow", "Cars"],
    "Measure with detectors": ["detectors", "passings"],
    "Write a rule": ["motion", "change", "PythonRule", "check", "AcceptedProgram", "explain"],
    "Exact results": [
        "exact.flow", "exact.flow_as_float", "exact.clusters", "exact.stationary_weight", "exact.stationary_probability",
        "exact.braking_probability", "exact.triangle", "exact.relaxed_from", "exact.minimum_principle", "exact.distances",
        "exact.positions", "exact.gap_rule",
    ],
    "Use many processes or a cluster": ["results", "run_all", "write_inputs", "read_tables"],
    "Handle errors": [
        "TrlabError", "ParameterError", "RejectedInputError", "RuleError", "FrameError", "EstimateError", "SnapshotsError",
        "ResultFilesError", "StudyFileError", "OutputFormatError", "ProgramError", "ProgramNotFoundError", "ExitStatusError",
        "IncompleteOutputError", "MissingLibraryError", "RenamedError", "TrlabWarning",
    ],
    "Find the program": ["find_program", "version"],
}
HEAD = """# Python reference

Every name of the modules `trlab` and `trlab.exact`, from the docstrings that `help` prints. The [guide](PYTHON.md)
has an example for each task.

{overview}
"""
# The index of the guide with the comments around it, and a name in code, such as `trlab.Job` or `Job.run()`.
INDEX = re.compile(r"<!-- tools/reference -->\n.*?<!-- end -->", re.S)
CODE = re.compile(r"`(?:trlab\.)?([\w.]+)(?:\(\))?`")

# A function that gives the address of a name.
Link = Callable[[str], str]


def grouped_names() -> list[str]:
    """The names of all groups."""
    return [name for names in GROUPS.values() for name in names]


def anchor(name: str) -> str:
    """The anchor of a name on the page."""
    return f"trlab.{name}"


def linked(text: str, name: str, own: Iterable[str], exported: set[str]) -> str:
    """A text with a link for each exported name in it, except its own name and those of its parameters."""
    prefix = "exact." if name.startswith("exact.") else ""

    def link(match: re.Match[str]) -> str:
        """A name in code as a link, if it is exported."""
        for candidate in prefix + match[1], match[1]:
            if candidate in exported and candidate != name and match[1] not in own:
                return f"[{match[0]}](#{anchor(candidate)})"
        return match[0]

    parts = re.split(r"(^```.*?^```$)", text, flags=re.M | re.S)
    return "".join(part if part.startswith("```") else CODE.sub(link, part) for part in parts)


def members_of(package: Package, node: ast.ClassDef, described: set[Function]) -> Iterator[str]:
    """The public methods and attributes of a class as Markdown, without those that a class above has shown."""
    for method, docstring in package.members(node).values():
        if method in described:
            continue
        described.add(method)
        is_property = any(ast.unparse(decorator) == "property" for decorator in method.decorator_list)
        if is_property:
            signature = result_of(method).replace(" ->", ":")
        else:
            signature = f"({', '.join(arguments(method.args))}){result_of(method)}"
        yield f"**`.{method.name}{signature}`**\n\n{prose(docstring)}"


def section(package: Package, name: str, described: set[Function]) -> str:
    """The section of a name on the page."""
    node, docstring = package.known[name]
    if isinstance(node, ast.ClassDef):
        fields = package.fields(node)
        # The call of an error without arguments of its own would add no information.
        heading = [block(call(node.name, fields))] if fields else []
        parts = [*heading, prose(docstring), *members_of(package, node, described)]
    elif isinstance(node, Function):
        parts = [block(call(name, arguments(node.args), result_of(node))), prose(docstring)]
    else:
        assert isinstance(node, (ast.Assign, ast.AnnAssign)) and node.value is not None
        parts = [value_of(node.value), prose(docstring)]
    text = "\n\n".join(filter(None, parts))
    exported = set(grouped_names())
    return f"### {name} {{#{anchor(name)}}}\n\n{linked(text, name, package.own_names(node), exported)}"


def page() -> str:
    """The whole page."""
    package = Package()
    first = (ast.get_docstring(package.overview) or "").split("\n\n")
    overview = prose("\n\n".join(part for part in first[1:] if not part.startswith("    ")))
    parts, described = [HEAD.format(overview=overview)], set[Function]()
    for title, names in GROUPS.items():
        introduction = [prose(ast.get_docstring(package.exact) or "")] if title == "Exact results" else []
        parts += [f"## {title}", *introduction, *(section(package, name, described) for name in names)]
    return "\n\n".join(part.strip("\n") for part in parts) + "\n"


def in_repository(name: str) -> str:
    """The address of a name's section in the guide, as browsers of repositories make it from the heading."""
    title = next(title for title, names in GROUPS.items() if name in names)
    return "#" + re.sub(r"[^\w -]", "", title).lower().replace(" ", "-")


def on_site(name: str) -> str:
    """The address of a name on the page of the site."""
    return f"{PAGE.rpartition('/')[2]}#{anchor(name)}"


def entry(package: Package, name: str, address: Link) -> str:
    """A name with its address, and for a class its methods and properties."""
    node, _ = package.known[name]
    members = package.members(node) if isinstance(node, ast.ClassDef) else {}
    in_brackets = f" ({', '.join(f'`.{member}`' for member in members)})" if members else ""
    return f"[`{name}`]({address(name)}){in_brackets}"


def index(address: Link = in_repository) -> str:
    """The index of the guide: each name with its address, by the first letter."""
    package = Package()
    entries: dict[str, list[str]] = {}
    for name in sorted(grouped_names(), key=lambda name: (name.lower(), name)):
        entries.setdefault(name[0].upper(), []).append(entry(package, name, address))
    rows = [f"| {letter} | {', '.join(names)} |" for letter, names in entries.items()]
    head = "| | names, and in brackets their methods and properties |", "|---|---|"
    return "\n".join(["<!-- tools/reference -->", *head, *rows, "<!-- end -->"])


def with_index(guide: str, address: Link = in_repository) -> str:
    """The guide with an index whose names have these addresses."""
    written = index(address)
    return INDEX.sub(lambda _: written, guide)


def sections_of(guide: str) -> dict[str, str]:
    """The text of each section of the guide by its title."""
    parts = re.split(r"^## (.*)\n", guide, flags=re.M)
    return dict(zip(parts[1::2], parts[2::2]))


def names_are_described() -> Verdicts:
    """Each exported name belongs to a group, and has a docstring."""
    package = Package()
    grouped = grouped_names()
    wrong = sorted(package.exported() ^ set(grouped))
    yield not wrong and len(grouped) == len(set(grouped)), f"GROUPS of reference.py misses names, or has too many: {wrong}"
    for name in grouped:
        yield bool(package.known[name][1]), f"{name} has no docstring"


def guide_has_names(guide: str) -> Verdicts:
    """Each name is in the code of its section of the guide, so that the links of the index lead to it."""
    sections = sections_of(guide)
    for title, names in GROUPS.items():
        yield title in sections, f"{GUIDE} has no section {title!r}"
        code = " ".join(re.findall(r"^```.*?^```$|`[^`\n]*`", sections.get(title, ""), re.M | re.S))
        for name in names:
            yield bool(re.search(rf"(?<!\w){re.escape(name)}(?!\w)", code)), f"{GUIDE} does not show {name} in {title!r}"


def verdicts() -> Verdicts:
    """The verdicts of all tests of this module."""
    guide = content(GUIDE)
    yield with_index(guide) == guide, f"the index of {GUIDE} is out of date: tools/reference --write"
    yield bool(INDEX.search(guide)), f"{GUIDE} has no place for the index"
    yield from names_are_described()
    yield from guide_has_names(guide)
