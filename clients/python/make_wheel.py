#!/usr/bin/env python3
"""Makes the wheel of the package `cca`, with Python's own library alone.

    make_wheel.py FOLDER [--dist-info FOLDER]

writes cca-VERSION-py3-none-any.whl into the folder. With --dist-info it also writes the folder cca-VERSION.dist-info into the other
one: what a package of the system puts beside the folder `cca`, so that Python knows the version, and pytest the fixture. The same
files give the same bytes. `pip install` of this folder calls build_wheel, as pyproject.toml says.
"""
import argparse
import base64
import hashlib
import re
import sys
import tomllib
import zipfile
from collections.abc import Iterator
from pathlib import Path
from typing import Any

HERE = Path(__file__).resolve().parent
TAG = "py3-none-any"
MODE = 0o100644
EARLIEST = (1980, 1, 1, 0, 0, 0)  # the time of each file: a zip file has no earlier one
WHEEL = f"Wheel-Version: 1.0\nGenerator: make_wheel.py\nRoot-Is-Purelib: true\nTag: {TAG}\n"


def project() -> dict[str, Any]:
    """What pyproject.toml says of the package."""
    found: dict[str, Any] = tomllib.loads((HERE / "pyproject.toml").read_text())["project"]
    return found


def version() -> str:
    """The version, which isn't imported, so that nothing is compiled."""
    found = re.search(r"(?m)^VERSION = '([0-9.]+)'$", (HERE / "cca" / "version.py").read_text())
    assert found
    return found[1]


def metadata() -> str:
    """METADATA of the dist-info folder."""
    it = project()
    fields = {"Metadata-Version": "2.1", "Name": it["name"], "Version": version(), "Summary": it["description"]}
    fields["Requires-Python"] = it["requires-python"]
    return "".join(f"{name}: {text}\n" for name, text in fields.items())


def entry_points() -> str:
    """entry_points.txt of the dist-info folder."""
    groups = project()["entry-points"].items()
    return "".join(f"[{group}]\n" + "".join(f"{name} = {where}\n" for name, where in its.items()) for group, its in groups)


def dist_info() -> str:
    """The name of the dist-info folder."""
    return f"cca-{version()}.dist-info"


def described() -> dict[str, str]:
    """The files of the dist-info folder, but the list of all files."""
    return {"METADATA": metadata(), "WHEEL": WHEEL, "entry_points.txt": entry_points()}


def files() -> Iterator[tuple[str, bytes]]:
    """The files of the wheel with their bytes, but the list of them."""
    for path in sorted((HERE / "cca").iterdir()):
        if path.suffix in (".py", ".typed"):
            yield f"cca/{path.name}", path.read_bytes()
    for name, text in described().items():
        yield f"{dist_info()}/{name}", text.encode()


def listed(name: str, data: bytes) -> str:
    """A file's line in RECORD."""
    digest = base64.urlsafe_b64encode(hashlib.sha256(data).digest()).rstrip(b"=").decode()
    return f"{name},sha256={digest},{len(data)}\n"


def build_wheel(wheel_directory: str, config_settings: object = None, metadata_directory: object = None) -> str:
    """Writes the wheel into a folder: its name. The words are those of PEP 517."""
    name, record = f"cca-{version()}-{TAG}.whl", f"{dist_info()}/RECORD"
    held = list(files())
    lines = "".join(listed(*it) for it in held) + f"{record},,\n"
    with zipfile.ZipFile(Path(wheel_directory) / name, "w", zipfile.ZIP_STORED) as wheel:
        for path, data in [*held, (record, lines.encode())]:
            entry = zipfile.ZipInfo(path, EARLIEST)
            entry.create_system, entry.external_attr = 3, MODE << 16  # modes as Unix has them
            wheel.writestr(entry, data)
    return name


def put_dist_info(folder: Path) -> Path:
    """Writes the dist-info folder beside the package of a system, whose own list of files stands for RECORD."""
    path = folder / dist_info()
    path.mkdir(parents=True, exist_ok=True)
    for name, text in {**described(), "INSTALLER": "dpkg\n"}.items():
        (path / name).write_text(text)
    return path


def main() -> int:
    words = argparse.ArgumentParser(description="Makes the wheel of the package cca.")
    words.add_argument("folder", type=Path)
    words.add_argument("--dist-info", type=Path, metavar="FOLDER", help="write the dist-info folder of a system's package too")
    given = words.parse_args()
    given.folder.mkdir(parents=True, exist_ok=True)
    print(given.folder / build_wheel(str(given.folder)))
    if given.dist_info:
        print(put_dist_info(given.dist_info))
    return 0


if __name__ == "__main__":
    sys.exit(main())
