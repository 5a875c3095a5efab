"""Builds the package `hunk` for pip, as pyproject.toml says, and needs nothing but Python: the hooks of PEP 517 and PEP 660.

A wheel that pip builds has no library inside. packaging/wheel makes those that have one, by `write_wheel`.
"""

from __future__ import annotations

import base64
import hashlib
import io
import json
import os
import pathlib
import re
import tarfile
import time
import zipfile
from typing import Any, Dict, Iterator, Mapping, Optional

FOLDER = pathlib.Path(__file__).resolve().parent
Files = Dict[str, bytes]


def project() -> Mapping[str, Any]:
    """The tables of pyproject.toml, as `table.key`: texts and lists of texts, each on a line, are the same in JSON."""
    found, table = {}, ""
    for line in (FOLDER / "pyproject.toml").read_text(encoding="utf-8").splitlines():
        if line.startswith("["):
            table = line.strip("[]")
        elif line:
            key, value = line.split(" = ", 1)
            found[f"{table}.{key}"] = json.loads(value)
    return found


def version() -> str:
    text = (FOLDER / "hunk/__init__.py").read_text(encoding="utf-8")
    found = re.search(r'^__version__ = "(.*)"$', text, re.MULTILINE)
    if not found:
        raise ValueError("hunk/__init__.py does not say its version")
    return found[1]


def sources() -> Iterator[str]:
    """The files of the package, by their path."""
    for path in sorted((FOLDER / "hunk").rglob("*")):
        if path.suffix in (".py", ".typed", ".json") or path.parent.name == "completions":
            yield path.relative_to(FOLDER).as_posix()


def metadata() -> str:
    it = project()
    readme: str = it["project.readme"]
    lines = [
        "Metadata-Version: 2.1",
        f"Name: {it['project.name']}",
        f"Version: {version()}",
        f"Summary: {it['project.description']}",
        f"Requires-Python: {it['project.requires-python']}",
        *(f"Classifier: {text}" for text in it["project.classifiers"]),
        "Description-Content-Type: text/markdown",
    ]
    return "\n".join(lines) + "\n\n" + (FOLDER / readme).read_text(encoding="utf-8")


def wheel_info(tag: str) -> Files:
    """What describes a wheel, but for the list of its files."""
    languages, systems = tag.rsplit("-", 1)
    kind = "true" if systems == "any" else "false"
    head = f"Wheel-Version: 1.0\nGenerator: hunk\nRoot-Is-Purelib: {kind}\n"
    head += "".join(f"Tag: {languages}-{system}\n" for system in systems.split("."))
    commands = "".join(f"{key[16:]} = {value}\n" for key, value in project().items() if key.startswith("project.scripts."))
    info = f"hunk-{version()}.dist-info"
    return {
        f"{info}/METADATA": metadata().encode(),
        f"{info}/WHEEL": head.encode(),
        f"{info}/entry_points.txt": f"[console_scripts]\n{commands}".encode(),
    }


def record(files: Files) -> str:
    """The list of the files of a wheel, with their sums."""
    def row(path: str, data: bytes) -> str:
        total = base64.urlsafe_b64encode(hashlib.sha256(data).digest()).rstrip(b"=").decode()
        return f"{path},sha256={total},{len(data)}\n"

    return "".join(row(path, data) for path, data in files.items())


def when() -> int:
    """The time of all that is in what is built: SOURCE_DATE_EPOCH, but for what a zip can't say."""
    return max(int(os.environ.get("SOURCE_DATE_EPOCH", "0")), 315532800)


def write_wheel(folder: pathlib.Path, content: Files, tag: str) -> str:
    """Writes a wheel with these files, and answers its name. The same files and time give the same bytes."""
    files = {**content, **wheel_info(tag)}
    listed = f"hunk-{version()}.dist-info/RECORD"
    files[listed] = (record(files) + f"{listed},,\n").encode()
    name = f"hunk-{version()}-{tag}.whl"
    with zipfile.ZipFile(folder / name, "w", zipfile.ZIP_DEFLATED) as out:
        for path, data in files.items():
            one = zipfile.ZipInfo(path, time.gmtime(when())[:6])
            one.compress_type, one.external_attr = zipfile.ZIP_DEFLATED, 0o100644 << 16
            out.writestr(one, data)
    return name


def package() -> Files:
    return {path: (FOLDER / path).read_bytes() for path in sources()}


def build_wheel(wheel_directory: str, config_settings: Optional[Any] = None, metadata_directory: Optional[str] = None) -> str:
    return write_wheel(pathlib.Path(wheel_directory), package(), "py3-none-any")


def build_editable(wheel_directory: str, config_settings: Optional[Any] = None, metadata_directory: Optional[str] = None) -> str:
    """A wheel that names this folder: what is changed in it counts at once."""
    return write_wheel(pathlib.Path(wheel_directory), {"hunk.pth": f"{FOLDER}\n".encode()}, "py3-none-any")


def build_sdist(sdist_directory: str, config_settings: Optional[Any] = None) -> str:
    """An archive of what this backend reads."""
    name = f"hunk-{version()}"
    paths = ["README.md", "build_backend.py", "pyproject.toml", *sources()]
    files = {"PKG-INFO": metadata().encode(), **{path: (FOLDER / path).read_bytes() for path in paths}}
    with tarfile.open(pathlib.Path(sdist_directory) / f"{name}.tar.gz", "w:gz", format=tarfile.PAX_FORMAT) as out:
        for path, data in files.items():
            one = tarfile.TarInfo(f"{name}/{path}")
            one.size, one.mtime, one.mode = len(data), when(), 0o644
            out.addfile(one, io.BytesIO(data))
    return f"{name}.tar.gz"
