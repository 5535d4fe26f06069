"""The page's scripts as one script, for files that need no server."""
from __future__ import annotations

import base64
import hashlib
import re
from pathlib import Path

HERE = Path(__file__).resolve().parent
_IMPORT = re.compile(r'^import \{ (.*) \} from "\./(\w+)\.js";\n', re.M)
_EXPORT = re.compile(r"^export ((?:async )?(?:function|class|const) ([\w$]+))", re.M)


def joined(*names: str) -> str:
    """The scripts of these names with all scripts that they import, each once, and in a scope of its own. Raises
    `ValueError` if a script imports a name that the other one does not export at the beginning of a line."""
    exported: dict[str, list[str]] = {}
    return "const modules = {};\n" + "".join(text for name in names for text in _scopes(name, exported))


def imported_scripts(name: str) -> list[str]:
    """The names of a script and of all scripts that it imports, those first that are imported."""
    exported: dict[str, list[str]] = {}
    _scopes(name, exported)
    return list(exported)


def _scopes(name: str, exported: dict[str, list[str]]) -> list[str]:
    """A script and those that it imports, without those whose exported names are known already."""
    if name in exported:
        return []
    text, scopes = (HERE / f"{name}.js").read_text("utf-8"), []
    for imported, other in _IMPORT.findall(text):
        scopes += _scopes(other, exported)
        missing = set(imported.split(", ")) - set(exported[other])
        if missing:
            raise ValueError(f"{name}.js imports {min(missing)}, which {other}.js does not export")
    exported[name] = [exported_name for _, exported_name in _EXPORT.findall(text)]
    with_constants = _IMPORT.sub(r"const { \1 } = modules.\2;\n", text)
    body, returned = _EXPORT.sub(r"\1", with_constants), ", ".join(exported[name])
    return [*scopes, f"modules.{name} = (() => {{\n{body}return {{ {returned} }};\n}})();\n"]


def script_element(text: str, attributes: str) -> str:
    """A script as an element of a page. Raises `ValueError` if its text would end the element, or begin a comment."""
    if re.search(r"</script|<!--", text, re.I):
        raise ValueError("a script must not contain `</script` or `<!--`")
    return f"<script {attributes}>{text}</script>\n"


def policy_hash(text: str) -> str:
    """A script or a style as a Content-Security-Policy names it."""
    return f"'sha256-{base64.b64encode(hashlib.sha256(text.encode()).digest()).decode()}'"
