"""Packs the module kistalub for pip, which calls this file (PEP 517, PEP 660). There is nothing to
compile, so it needs neither a network nor other packages."""

from __future__ import annotations

import base64
import gzip
import hashlib
import io
import sysconfig
import tarfile
import zipfile
from pathlib import Path
from typing import Mapping, Optional

ROOT = Path(__file__).resolve().parent.parent
SUMMARY = "Event sets of PAPI over modelled counters"
# the time of each file in the wheel, so that the same files give the same wheel
MADE = (2026, 1, 1, 0, 0, 0)
MADE_SECONDS = 1_767_225_600  # the same for an archive
ENTRY_POINTS = "[pytest11]\nkistalub = kistalub.pytest_plugin\n"  # pytest finds its plugins by this
LIBRARY = "libpapi.so.7.0"  # beside the module in a wheel that was asked to have it
SOURCES = ("LICENSE", "VERSION", "docs/PYTHON.md", "pyproject.toml", "python/building.py")

Settings = Optional[Mapping[str, str]]  # what pip was given with --config-settings


def version() -> str:
    return (ROOT / "VERSION").read_text(encoding="ascii").strip()


def metadata() -> str:
    """The file METADATA (core metadata 2.1)."""
    fields = (
        "Metadata-Version: 2.1", "Name: kistalub", f"Version: {version()}", f"Summary: {SUMMARY}",
        "License: BSD-3-Clause", "Requires-Python: >=3.9",
    )
    text_kind = "Description-Content-Type: text/markdown"
    return (
        "\n".join([*fields, text_kind]) + "\n\n"
        + (ROOT / "docs/PYTHON.md").read_text(encoding="utf-8")
    )


def info_folder() -> str:
    return f"kistalub-{version()}.dist-info"


def tag_of(settings: Settings) -> str:
    """For which Pythons and systems a wheel is: one with a library is for this system."""
    if not (settings or {}).get("library"):
        return "py3-none-any"
    return "py3-none-" + sysconfig.get_platform().replace("-", "_").replace(".", "_")


def info(settings: Settings) -> dict[str, bytes]:
    """The files of a wheel that say what it is."""
    tag = tag_of(settings)
    is_pure = str(tag.endswith("any")).lower()
    wheel = f"Wheel-Version: 1.0\nGenerator: kistalub\nRoot-Is-Purelib: {is_pure}\nTag: {tag}\n"
    texts = {"METADATA": metadata(), "WHEEL": wheel, "entry_points.txt": ENTRY_POINTS}
    files = {name: text.encode() for name, text in texts.items()}
    files["LICENSE"] = (ROOT / "LICENSE").read_bytes()
    return {f"{info_folder()}/{name}": content for name, content in files.items()}


def modules() -> dict[str, bytes]:
    """The files of the package, but for its version."""
    package = ROOT / "python/kistalub"
    paths = (*sorted(package.glob("*.py")), package / "py.typed")
    return {f"kistalub/{path.name}": path.read_bytes() for path in paths}


def contents(settings: Settings = None) -> dict[str, bytes]:
    """The files of the wheel by their names, but for RECORD. The setting `library` names a shared
    library of bin/install that goes with them."""
    files = {**modules(), "kistalub/VERSION": (ROOT / "VERSION").read_bytes()}
    library = (settings or {}).get("library")
    if library:
        files[f"kistalub/{LIBRARY}"] = Path(library).read_bytes()
    return {**files, **info(settings)}


def record(files: dict[str, bytes], name: str) -> bytes:
    """The file RECORD: each file with its digest and its size in bytes."""
    lines = []
    for path, data in files.items():
        digest = base64.urlsafe_b64encode(hashlib.sha256(data).digest()).rstrip(b"=").decode()
        lines.append(f"{path},sha256={digest},{len(data)}\n")
    return "".join([*lines, f"{name},,\n"]).encode()


def write_wheel(folder: str, files: dict[str, bytes], tag: str) -> str:
    """Writes a wheel of these files into a folder, and gives its name."""
    listed = f"{info_folder()}/RECORD"
    files = {**files, listed: record(files, listed)}
    name = f"kistalub-{version()}-{tag}.whl"
    with zipfile.ZipFile(Path(folder) / name, "w", zipfile.ZIP_DEFLATED) as wheel:
        for path, data in files.items():
            place = zipfile.ZipInfo(path, MADE)
            place.external_attr = 0o644 << 16
            place.compress_type = zipfile.ZIP_DEFLATED
            wheel.writestr(place, data)
    return name


def build_wheel(
    wheel_directory: str, config_settings: Settings = None, metadata_directory: object = None
) -> str:
    """Writes the wheel into a folder, and gives its name."""
    return write_wheel(wheel_directory, contents(config_settings), tag_of(config_settings))


def build_editable(
    wheel_directory: str, config_settings: Settings = None, metadata_directory: object = None
) -> str:
    """Writes a wheel that names this checkout: what is changed here is what Python imports."""
    files = {"kistalub.pth": f"{ROOT / 'python'}\n".encode(), **info(None)}
    return write_wheel(wheel_directory, files, tag_of(None))


def build_sdist(sdist_directory: str, config_settings: Settings = None) -> str:
    """Writes an archive of what the wheel is built of, and gives its name."""
    top = f"kistalub-{version()}"
    files = {name: (ROOT / name).read_bytes() for name in SOURCES}
    files.update({f"python/{name}": content for name, content in modules().items()})
    files["PKG-INFO"] = metadata().encode()
    packed = io.BytesIO()
    with tarfile.open(fileobj=packed, mode="w", format=tarfile.PAX_FORMAT) as archive:
        for name, content in sorted(files.items()):
            member = tarfile.TarInfo(f"{top}/{name}")
            member.size, member.mtime = len(content), MADE_SECONDS
            archive.addfile(member, io.BytesIO(content))
    (Path(sdist_directory) / f"{top}.tar.gz").write_bytes(gzip.compress(packed.getvalue(), mtime=0))
    return f"{top}.tar.gz"
