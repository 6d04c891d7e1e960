"""Builds the wheel of the package, with the proved programs as they come with the tree, for pip.

Only the standard library is needed, so that `pip install` works in a new virtual environment without a network. What the package is
called and needs is in pyproject.toml. The names and arguments of the functions are those of PEP 517.
"""

import base64
import gzip
import hashlib
import tomllib
import zipfile
from collections.abc import Iterator, Mapping
from pathlib import Path

HERE = Path(__file__).resolve().parent
SOURCE = HERE / "src"
PREBUILT = HERE.parent / "prebuilt"
TAG = "py3-none-linux_x86_64"
EXECUTABLE = 0o100755
READABLE = 0o100644


def read_project() -> dict:
    """What pyproject.toml says of the package."""
    return tomllib.loads((HERE / "pyproject.toml").read_text(encoding="utf-8"))["project"]


def read_program(name: str) -> bytes:
    """A program of the tree; an error if it isn't the one that was proved."""
    record = (PREBUILT / "record").read_text().splitlines()
    program = gzip.decompress((PREBUILT / f"{name}.gz").read_bytes())
    if f"program {name} {hashlib.sha256(program).hexdigest()}" not in record:
        raise SystemExit(f"{PREBUILT}/{name}.gz isn't the program that prebuilt/record names")
    return program


def list_programs() -> list[str]:
    """The names of the programs that come with the tree."""
    return sorted(path.stem for path in PREBUILT.glob("*.gz"))


def list_sources() -> Iterator[Path]:
    """The files of the package."""
    for path in sorted((SOURCE / "wdp").rglob("*")):
        if path.is_file() and "__pycache__" not in path.parts:
            yield path


def format_metadata(project: Mapping) -> str:
    """The file METADATA: the package's name and version, and what it needs."""
    lines = [
        "Metadata-Version: 2.1",
        f"Name: {project['name']}",
        f"Version: {project['version']}",
        f"Summary: {project['description']}",
        f"Requires-Python: {project['requires-python']}",
    ]
    for extra, needs in project["optional-dependencies"].items():
        lines.append(f"Provides-Extra: {extra}")
        lines += [f"Requires-Dist: {need}; extra == '{extra}'" for need in needs]
    return "\n".join(lines) + "\n"


def format_entry_points(project: Mapping) -> str:
    """The file entry_points.txt: the commands of the package."""
    commands = [f"{name} = {place}" for name, place in project["scripts"].items()]
    return "\n".join(["[console_scripts]", *commands]) + "\n"


def format_record(texts: Mapping[str, bytes], path: str) -> str:
    """The file RECORD, which has this path: the SHA-256 of each other file, and how long it is."""
    lines = []
    for name, data in texts.items():
        digest = base64.urlsafe_b64encode(hashlib.sha256(data).digest()).rstrip(b"=").decode()
        lines.append(f"{name},sha256={digest},{len(data)}")
    return "\n".join([*lines, f"{path},,"]) + "\n"


def build_wheel(
    wheel_directory: str, config_settings: object = None, metadata_directory: object = None
) -> str:
    """Writes the wheel into a folder; its name."""
    project = read_project()
    stem = f"{project['name']}-{project['version']}"
    about = f"Wheel-Version: 1.0\nGenerator: wdp\nRoot-Is-Purelib: true\nTag: {TAG}\n"
    texts = {str(path.relative_to(SOURCE)): path.read_bytes() for path in list_sources()}
    programs = {f"{stem}.data/scripts/{name}": read_program(name) for name in list_programs()}
    texts |= programs
    texts[f"{stem}.dist-info/METADATA"] = format_metadata(project).encode()
    texts[f"{stem}.dist-info/WHEEL"] = about.encode()
    texts[f"{stem}.dist-info/entry_points.txt"] = format_entry_points(project).encode()
    record = f"{stem}.dist-info/RECORD"
    texts[record] = format_record(texts, record).encode()
    name = f"{stem}-{TAG}.whl"
    with zipfile.ZipFile(Path(wheel_directory, name), "w", zipfile.ZIP_DEFLATED) as wheel:
        for path, data in texts.items():
            entry = zipfile.ZipInfo(path)
            entry.compress_type = zipfile.ZIP_DEFLATED
            entry.external_attr = (EXECUTABLE if path in programs else READABLE) << 16
            wheel.writestr(entry, data)
    return name


def build_sdist(sdist_directory: str, config_settings: object = None) -> str:
    """There is none: the program comes with the tree."""
    raise SystemExit("a source distribution has no program: build a wheel, in the tree of wdp")
