"""Makes the wheel and the source archive of this folder, as `pip` and `build` ask a build backend to. It needs nothing beside Python.

  python3 -m pip wheel clients/python       calls it
"""

from __future__ import annotations

import base64
import hashlib
import tarfile
import tomllib
import zipfile
from collections.abc import Iterator
from pathlib import Path
from typing import Any

HERE = Path(__file__).resolve().parent
SOURCES = HERE / "src"
WHEEL = "Wheel-Version: 1.0\nGenerator: pnuts-client\nRoot-Is-Purelib: true\nTag: py3-none-any\n"
ARCHIVED = ("README.md", "backend.py", "pyproject.toml")
Settings = dict[str, Any] | None
Files = dict[str, bytes]


def project() -> dict[str, Any]:
    with (HERE / "pyproject.toml").open("rb") as file:
        found: dict[str, Any] = tomllib.load(file)["project"]
    return found


def name_of(told: dict[str, Any]) -> str:
    """What the names of files begin with."""
    return f"{told['name'].replace('-', '_')}-{told['version']}"


def metadata_lines(told: dict[str, Any]) -> Iterator[str]:
    yield from ("Metadata-Version: 2.1", f"Name: {told['name']}", f"Version: {told['version']}", f"Summary: {told['description']}")
    yield from (f"Author: {it['name']}" for it in told["authors"])
    yield from (f"Classifier: {it}" for it in told["classifiers"])
    yield from (f"Requires-Python: {told['requires-python']}", "Description-Content-Type: text/markdown; charset=UTF-8", "")


def metadata(told: dict[str, Any]) -> bytes:
    return ("\n".join(metadata_lines(told)) + "\n").encode() + Path(HERE, told["readme"]).read_bytes()


def scripts(told: dict[str, Any]) -> bytes:
    """The programs, each with its function."""
    return ("[console_scripts]\n" + "".join(f"{name} = {function}\n" for name, function in told["scripts"].items())).encode()


def package() -> Files:
    """The modules, the style and the script of a page, and what says that the modules have types."""
    found = (path for path in sorted(SOURCES.rglob("*")) if path.suffix in (".py", ".css", ".js") or path.name == "py.typed")
    return {str(path.relative_to(SOURCES)): path.read_bytes() for path in found}


def record_of(files: Files, path: str) -> bytes:
    """The list of a wheel's files, of which the list itself is the last."""
    sums = {name: base64.urlsafe_b64encode(hashlib.sha256(text).digest()).decode().rstrip("=") for name, text in files.items()}
    lines = [f"{name},sha256={sums[name]},{len(text)}\n" for name, text in files.items()]
    return "".join([*lines, f"{path},,\n"]).encode()


def written(folder: str, files: Files) -> str:
    """Writes a wheel, the same each time. Its name."""
    told = project()
    info, name = f"{name_of(told)}.dist-info", f"{name_of(told)}-py3-none-any.whl"
    whole = {**files, f"{info}/METADATA": metadata(told), f"{info}/WHEEL": WHEEL.encode(), f"{info}/entry_points.txt": scripts(told)}
    whole[f"{info}/RECORD"] = record_of(whole, f"{info}/RECORD")
    with zipfile.ZipFile(Path(folder) / name, "w", zipfile.ZIP_DEFLATED) as wheel:
        for path, text in whole.items():
            entry = zipfile.ZipInfo(path)
            entry.compress_type, entry.external_attr = zipfile.ZIP_DEFLATED, 0o644 << 16
            wheel.writestr(entry, text)
    return name


def build_wheel(wheel_directory: str, config_settings: Settings = None, metadata_directory: str | None = None) -> str:
    return written(wheel_directory, package())


def build_editable(wheel_directory: str, config_settings: Settings = None, metadata_directory: str | None = None) -> str:
    """A wheel that only says where the modules are."""
    return written(wheel_directory, {"pnuts_client.pth": f"{SOURCES}\n".encode()})


def build_sdist(sdist_directory: str, config_settings: Settings = None) -> str:
    told = project()
    name = f"{name_of(told)}.tar.gz"
    info = Path(sdist_directory) / "PKG-INFO"
    info.write_bytes(metadata(told))
    with tarfile.open(Path(sdist_directory) / name, "w:gz") as archive:
        archive.add(info, f"{name_of(told)}/PKG-INFO")
        for path in [*ARCHIVED, *(f"src/{it}" for it in package())]:
            archive.add(HERE / path, f"{name_of(told)}/{path}")
    info.unlink()
    return name
