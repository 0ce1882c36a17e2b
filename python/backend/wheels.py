"""Builds the package's wheels with the standard library alone.

`pip install` calls the hooks of PEP 517, and needs no network.  Their wheel has no program.

    wheels.py FOLDER [PLATFORM PROGRAM [LIBRARY]]

writes that wheel to the folder, or one with the program, and prints its name.  PLATFORM is what the program and the library need,
as `manylinux_2_34_x86_64`.
"""

import sys

if sys.version_info < (3, 11):
    raise SystemExit(f"tmx needs Python 3.11 or later, and this is {sys.version.split()[0]}")

import base64
import hashlib
import io
import tarfile
import tomllib
import zipfile
from pathlib import Path
from typing import Any

HERE = Path(__file__).resolve().parent.parent
EPOCH = (1980, 1, 1, 0, 0, 0)  # the time of all files, so that the same files give the same wheel
REGULAR, PROGRAM = 0o100644 << 16, 0o100755 << 16  # attributes of files; without the file's type pip makes no program of it

with open(HERE / "pyproject.toml", "rb") as _file:
    PROJECT: dict[str, Any] = tomllib.load(_file)["project"]

NAME = f"{PROJECT['name']}-{PROJECT['version']}"
INFO = f"{NAME}.dist-info"
METADATA = (
    "Metadata-Version: 2.1\n"
    f"Name: {PROJECT['name']}\n"
    f"Version: {PROJECT['version']}\n"
    f"Summary: {PROJECT['description']}\n"
    f"Requires-Python: {PROJECT['requires-python']}\n"
)

# How a command begins.  Where pip has put all below one folder (--target), Python doesn't look for packages there by itself.
HEAD = """#!python
import os.path
import sys

sys.path.append(os.path.dirname(os.path.dirname(os.path.abspath(__file__))))

"""
COMMAND = f"{HEAD}from tmx.programs import become\n\nbecome()\n".encode()  # the command `tmx`
ALONE = ("probe", "cut", "map", "follow", "report", "watch")  # the package's commands that are commands by themselves too, as `tmx-cut`
SCRIPTS = {
    f"{NAME}.data/scripts/tmx-{it}": f'{HEAD}from tmx.__main__ import run_alone\n\nrun_alone("{it}")\n'.encode() for it in ALONE
}


def package_files() -> dict[str, bytes]:
    """The package's files by their names in the wheel."""
    files = (it for it in sorted((HERE / "tmx").iterdir()) if it.suffix == ".py" or it.name == "py.typed")
    return {f"tmx/{it.name}": it.read_bytes() for it in files}


def write_wheel(folder: str, files: dict[str, bytes], platform: str = "any", programs: tuple[str, ...] = ()) -> str:
    """Writes a wheel with these files, and what says so.  Those that are named as programs can be run.  Answers its name."""
    tag, pure = f"py3-none-{platform}", "true" if platform == "any" else "false"
    about = f"Wheel-Version: 1.0\nGenerator: tmx\nRoot-Is-Purelib: {pure}\nTag: {tag}\n"
    files = files | {f"{INFO}/METADATA": METADATA.encode(), f"{INFO}/WHEEL": about.encode()}
    record = "".join(f"{name},sha256={digest(octets)},{len(octets)}\n" for name, octets in files.items())
    files[f"{INFO}/RECORD"] = f"{record}{INFO}/RECORD,,\n".encode()
    wheel = f"{NAME}-{tag}.whl"
    beside = Path(folder, f"{wheel}.new")
    with zipfile.ZipFile(beside, "w", zipfile.ZIP_DEFLATED) as archive:
        for name, octets in files.items():
            info = zipfile.ZipInfo(name, EPOCH)
            info.external_attr = PROGRAM if name in programs else REGULAR
            archive.writestr(info, octets, zipfile.ZIP_DEFLATED)
    beside.replace(Path(folder, wheel))
    return wheel


def digest(octets: bytes) -> str:
    return base64.urlsafe_b64encode(hashlib.sha256(octets).digest()).rstrip(b"=").decode()


def build_wheel(wheel_directory: str, config_settings: Any = None, metadata_directory: Any = None) -> str:
    """The wheel that is installed."""
    return write_wheel(wheel_directory, package_files() | SCRIPTS, programs=tuple(SCRIPTS))


def build_editable(wheel_directory: str, config_settings: Any = None, metadata_directory: Any = None) -> str:
    """A wheel that leads to this folder, for `pip install --editable`."""
    return write_wheel(wheel_directory, {"tmx.pth": f"{HERE}\n".encode()} | SCRIPTS, programs=tuple(SCRIPTS))


def build_sdist(sdist_directory: str, config_settings: Any = None) -> str:
    """The sources in one archive."""
    files = package_files()
    for name in ("pyproject.toml", "backend/wheels.py"):
        files[name] = (HERE / name).read_bytes()
    files["PKG-INFO"] = METADATA.encode()
    with tarfile.open(Path(sdist_directory, f"{NAME}.tar.gz"), "w:gz") as archive:
        for name, octets in files.items():
            info = tarfile.TarInfo(f"{NAME}/{name}")
            info.size = len(octets)
            archive.addfile(info, io.BytesIO(octets))
    return f"{NAME}.tar.gz"


def build_with_program(folder: str, platform: str, program: str, library: str | None = None) -> str:
    """The wheel with the program in it, and with the library where one is named."""
    command = f"{NAME}.data/scripts/tmx"
    files = package_files() | SCRIPTS | {"tmx/bin/tmx": Path(program).read_bytes(), command: COMMAND}
    if library is not None:
        files["tmx/lib/libtmx.so"] = Path(library).read_bytes()
    return write_wheel(folder, files, platform, ("tmx/bin/tmx", command, *SCRIPTS))


if __name__ == "__main__":
    print(build_wheel(sys.argv[1]) if len(sys.argv) == 2 else build_with_program(*sys.argv[1:]))
