"""The page of trlab-lab as one file that contains the program, compiled to WebAssembly. It needs neither a server nor
Python.

    python3 -m trlab.lab.whole trlab.wasm > trlab-lab.html"""
from __future__ import annotations

import base64
import gzip
import json
import sys
from collections.abc import Mapping
from pathlib import Path

from .export import film_page
from .scripts import HERE, joined, policy_hash, script_element
from .server import examples

_POLICY = (
    "default-src 'none'; script-src {script} 'wasm-unsafe-eval'; style-src {style}; worker-src blob:; img-src data:; "
    "base-uri 'none'; form-action 'none'"
)


def whole_page(module: bytes, inputs: Mapping[str, str]) -> str:
    """The page with a module and example inputs, by file name. Rules in Python are left out, because they need the
    server."""
    script, style = joined("page"), (HERE / "page.css").read_text("utf-8")
    examples = {name: text for name, text in inputs.items() if not name.endswith(".py")}
    policy = _POLICY.format(script=policy_hash(script), style=policy_hash(style))
    parts = [
        script_element(json.dumps(examples).replace("<", "\\u003c"), 'type="application/json" id="examples"'),
        script_element(json.dumps(film_page()).replace("<", "\\u003c"), 'type="application/json" id="filmpage"'),
        script_element(joined("worker"), 'type="text/plain" id="worker"'),
        script_element(base64.b64encode(gzip.compress(module, 9, mtime=0)).decode(), 'type="text/plain" id="program"'),
        script_element(script, 'type="module"'),
    ]
    page = (HERE / "page.html").read_text("utf-8")
    encoding = '<meta charset="utf-8">\n'
    for place, content in (
        ('<link rel="stylesheet" href="page.css">\n', f"<style>{style}</style>\n"),
        ('<script type="module" src="page.js"></script>\n', ""),
        (encoding, f'{encoding}<meta http-equiv="Content-Security-Policy" content="{policy}">\n'),
        ("</body>", "".join(parts) + "</body>"),
    ):
        if page.count(place) != 1:
            raise ValueError(f"page.html needs {place.strip()} once")
        page = page.replace(place, content)
    return page


if __name__ == "__main__":
    sys.stdout.write(whole_page(Path(sys.argv[1]).read_bytes(), examples()))
