"""Builds the Python package: the PEP 517 backend that pyproject.toml names, with the standard library only.

A wheel contains the module, the examples, the commands `trlab` and `trlab-lab`, the man page and the completion for bash in
share/, and programs of release/: the wheel for Linux has the packed native programs for both processor levels, and the wheel for
any machine has the page that contains the program in WebAssembly, and the scripts with which Node runs it. The bytes of a wheel
depend only on the files of the repository: nothing in it is compressed again, and no time is written down. An editable wheel
contains the path of python/ instead of the module, so that the module of the checkout is used."""
import base64
import hashlib
import io
import platform
import re
import subprocess
import sys
import tarfile
import zipfile
from pathlib import Path
from typing import Any, Optional

import pyproject

TOP = Path(__file__).resolve().parents[2]
MODULE = TOP / "python" / "trlab"
RELEASE = TOP / "release"
EXAMPLES = TOP / "examples"
SHARE = TOP / "share"
NODE = TOP / "node"
# The native programs need x86-64 Linux with glibc 2.34 or later; the module itself runs with any Python 3.
TAGS = {"native": "py3-none-manylinux_2_34_x86_64", "any": "py3-none-any"}
PAGE = "trlab-lab.html"
SCRIPT = "trlab/node/trlab-node.mjs"
# The bytes of files by their paths in a wheel.
Files = dict[str, bytes]
# Settings of the caller, which change nothing here.
Settings = Optional[dict[str, object]]
# The date of every file in an archive, the first one that the format can write.
NO_DATE = (1980, 1, 1, 0, 0, 0)


def version() -> str:
    """The version, which the module states."""
    match = re.search(r'^__version__ = "(.*)"$', (MODULE / "_version.py").read_text(), re.M)
    assert match is not None
    return match[1]


def project() -> dict[str, Any]:
    """The table [project] of pyproject.toml."""
    table: dict[str, Any] = pyproject.read((TOP / "pyproject.toml").read_text(encoding="utf-8"))["project"]
    return table


def metadata() -> str:
    """The metadata of the package for installers, from the table [project]."""
    table = project()
    lines = ["Metadata-Version: 2.1", f"Name: {table['name']}", f"Version: {version()}", f"Summary: {table['description']}"]
    lines.append(f"Requires-Python: {table['requires-python']}")
    lines += [f"Requires-Dist: {package}" for package in table["dependencies"]]
    for extra, packages in table["optional-dependencies"].items():
        lines.append(f"Provides-Extra: {extra}")
        lines += [f'Requires-Dist: {package}; extra == "{extra}"' for package in packages]
    return "".join(line + "\n" for line in lines)


def information(tag: str) -> Files:
    """The files that describe the package to an installer, by their paths in the wheel."""
    commands = "".join(f"{name} = {place}\n" for name, place in project()["scripts"].items())
    folder = f"trlab-{version()}.dist-info"
    return {
        f"{folder}/METADATA": metadata().encode(),
        f"{folder}/WHEEL": f"Wheel-Version: 1.0\nGenerator: trlab\nRoot-Is-Purelib: false\nTag: {tag}\n".encode(),
        f"{folder}/entry_points.txt": f"[console_scripts]\n{commands}".encode(),
    }


def module_files() -> Files:
    """The files of the module, by their paths in the wheel."""
    files = [file for file in MODULE.rglob("*") if file.is_file() and "__pycache__" not in file.parts]
    return {f"trlab/{file.relative_to(MODULE).as_posix()}": file.read_bytes() for file in files}


def example_files() -> Files:
    """The examples that the page of trlab-lab offers, by their paths in the wheel."""
    files = [file for file in EXAMPLES.iterdir() if file.suffix in {".job", ".sweep", ".rule", ".py"}]
    return {f"trlab/lab/examples/{file.name}": file.read_bytes() for file in files}


def shared_files() -> Files:
    """The man page and the completion for bash, by their paths in the wheel; installers put them into share/ beside bin/."""
    return {f"trlab-{version()}.data/data/{file.relative_to(TOP).as_posix()}": file.read_bytes() for file in files_of_share()}


def files_of_share() -> list[Path]:
    return sorted(file for file in SHARE.rglob("*") if file.is_file())


def native_files() -> Files:
    """The packed native programs, by their paths in the wheel."""
    files = [RELEASE / "release.txt", *RELEASE.glob("trlab-x86-64-v*.gz")]
    return {f"trlab/programs/{file.name}": file.read_bytes() for file in files}


def portable_files() -> Files:
    """The page with the program in WebAssembly, and the scripts for Node, by their paths in the wheel."""
    if not (RELEASE / PAGE).exists():
        sys.exit(f"trlab: there is no {RELEASE / PAGE}, so there is no program for this machine: release/make builds it on Linux")
    programs = {f"trlab/programs/{name}": (RELEASE / name).read_bytes() for name in ("release.txt", PAGE)}
    return {**programs, **{f"trlab/node/{file.name}": file.read_bytes() for file in node_scripts()}}


def node_scripts() -> list[Path]:
    """The scripts of node/ that run the program."""
    return sorted([*NODE.glob("*.mjs"), NODE / "package.json"])


def is_of_these_sources() -> bool:
    """Whether the packed programs are those of the sources that are here; an archive of the package has none."""
    if not (TOP / "crates.txt").exists():
        return True
    asked = subprocess.run([RELEASE / "sources"], capture_output=True, text=True)
    return f"sources {asked.stdout.strip()}\n" in (RELEASE / "release.txt").read_text()


def recorded(files: Files) -> Files:
    """The files with their record, by which an installer checks them."""
    folder = f"trlab-{version()}.dist-info"
    lines = []
    for path, content in sorted(files.items()):
        digest = base64.urlsafe_b64encode(hashlib.sha256(content).digest()).rstrip(b"=").decode()
        lines.append(f"{path},sha256={digest},{len(content)}\n")
    return {**dict(sorted(files.items())), f"{folder}/RECORD": "".join([*lines, f"{folder}/RECORD,,\n"]).encode()}


def written(folder: str, files: Files, tag: str) -> str:
    """Writes a wheel of these files into a folder, and returns its name."""
    name = f"trlab-{version()}-{tag}.whl"
    files = {**files, **information(tag)}
    with zipfile.ZipFile(Path(folder) / name, "w", zipfile.ZIP_STORED) as wheel:
        for path, content in recorded(files).items():
            entry = zipfile.ZipInfo(path, NO_DATE)
            # The kind of the file, too: without it pip makes no file executable.
            entry.external_attr = (0o100755 if path == SCRIPT else 0o100644) << 16
            wheel.writestr(entry, content)
    return name


def build(folder: str, kind: str) -> str:
    """Builds the wheel of a kind, "native" or "any", and returns its name."""
    if not is_of_these_sources():
        print("trlab: the packed programs are those of the last release, not of the sources here", file=sys.stderr)
    programs = native_files() if kind == "native" else portable_files()
    return written(folder, {**module_files(), **example_files(), **shared_files(), **programs}, TAGS[kind])


def build_wheel(wheel_directory: str, config_settings: Settings = None, metadata_directory: Optional[str] = None) -> str:
    """Builds the wheel that `pip install .` installs: the one for Linux, or on other machines the one for any machine."""
    is_native = sys.platform == "linux" and platform.machine() in ("x86_64", "AMD64")
    return build(wheel_directory, "native" if is_native else "any")


def build_editable(wheel_directory: str, config_settings: Settings = None, metadata_directory: Optional[str] = None) -> str:
    """Builds the wheel that `pip install -e .` installs: it leads to the module of this checkout."""
    return written(wheel_directory, {"trlab.pth": f"{MODULE.parent}\n".encode(), **shared_files()}, TAGS["any"])


def build_sdist(sdist_directory: str, config_settings: Settings = None) -> str:
    """Builds an archive from which the same wheel can be built."""
    name = f"trlab-{version()}"
    sources = [TOP / "pyproject.toml", *Path(__file__).parent.glob("*.py"), RELEASE / "release.txt", RELEASE / "sources"]
    sources += [*RELEASE.glob("trlab-x86-64-v*.gz"), *RELEASE.glob(PAGE), *node_scripts(), *files_of_share()]
    sources += [MODULE / path[len("trlab/") :] for path in module_files()]
    sources += [EXAMPLES / Path(path).name for path in example_files()]
    with tarfile.open(Path(sdist_directory) / f"{name}.tar.gz", "w:gz", format=tarfile.PAX_FORMAT) as archive:
        for source in sorted(sources):
            archive.add(source, f"{name}/{source.relative_to(TOP)}")
        described = metadata().encode()
        entry = tarfile.TarInfo(f"{name}/PKG-INFO")
        entry.size = len(described)
        archive.addfile(entry, io.BytesIO(described))
    return f"{name}.tar.gz"
