"""Builds the wheel: the package `polgamir` with the proved shared library inside. pip calls
it, as pyproject.toml says, and so does `tools/release`. It needs nothing but Python, and
gives the same bytes each time.

The library is the file that POLGAMIR_LIBRARY names, else target/lib/libpolgamir.so of the
repository. The variable POLGAMIR_WHEEL_PLATFORM names the wheel's platform where the library is for
another machine than this one. SOURCE_DATE_EPOCH is the time of the files in the wheel.
"""

import base64
import hashlib
import os
import re
import sysconfig
import time
import zipfile
from pathlib import Path

HERE = Path(__file__).resolve().parents[1]
REPOSITORY = HERE.parents[1]


def _version():
    return re.search(r'__version__ = "(.*)"', (HERE / "polgamir" / "_version.py").read_text()).group(1)


def _library():
    file = Path(os.environ.get("POLGAMIR_LIBRARY") or REPOSITORY / "target" / "lib" / "libpolgamir.so")
    if not file.is_file():
        raise SystemExit(f"the proved library {file} is missing: run `tools/library` at the root of the repository, "
                         "or name a file by POLGAMIR_LIBRARY")
    return file


def _tag():
    platform = os.environ.get("POLGAMIR_WHEEL_PLATFORM") or sysconfig.get_platform()
    return "py3-none-" + re.sub(r"[^A-Za-z0-9]", "_", platform)


def _metadata():
    project = (HERE / "pyproject.toml").read_text()
    said = dict(re.findall(r'^(description|requires-python) = "(.*)"$', project, flags=re.MULTILINE))
    lines = ["Metadata-Version: 2.1", "Name: polgamir", f"Version: {_version()}", f"Summary: {said['description']}",
             f"Requires-Python: {said['requires-python']}", "License-File: LICENSE",
             "Description-Content-Type: text/markdown", ""]
    return "\n".join(lines) + "\n" + (HERE / "README.md").read_text()


def _write(archive, name, content, mode=0o644):
    """Adds a file; gives its line of RECORD."""
    moment = max(int(os.environ.get("SOURCE_DATE_EPOCH", 0)), 315_532_800)  # a zip knows no time before 1980
    entry = zipfile.ZipInfo(name, time.gmtime(moment)[:6])
    entry.external_attr = (0o100000 | mode) << 16
    entry.compress_type = zipfile.ZIP_DEFLATED
    entry.create_system = 3
    archive.writestr(entry, content)
    digest = base64.urlsafe_b64encode(hashlib.sha256(content).digest()).rstrip(b"=").decode()
    return f"{name},sha256={digest},{len(content)}"


def build_wheel(wheel_directory, config_settings=None, metadata_directory=None):
    """Writes the wheel to a folder; gives its name."""
    name, about = f"polgamir-{_version()}-{_tag()}.whl", f"polgamir-{_version()}.dist-info"
    license_text = next(folder / "LICENSE" for folder in (HERE, REPOSITORY) if (folder / "LICENSE").is_file())
    evidence = os.environ.get("POLGAMIR_EVIDENCE")
    with zipfile.ZipFile(Path(wheel_directory) / name, "w") as archive:
        record = []
        for file in sorted((HERE / "polgamir").glob("*")):
            if file.suffix == ".py" or file.name == "py.typed":
                record.append(_write(archive, f"polgamir/{file.name}", file.read_bytes()))
        record.append(_write(archive, "polgamir/libpolgamir.so", _library().read_bytes(), 0o755))
        wheel = f"Wheel-Version: 1.0\nGenerator: polgamir_wheel\nRoot-Is-Purelib: false\nTag: {_tag()}\n"
        record.append(_write(archive, f"{about}/METADATA", _metadata().encode()))
        record.append(_write(archive, f"{about}/WHEEL", wheel.encode()))
        record.append(_write(archive, f"{about}/licenses/LICENSE", license_text.read_bytes()))
        if evidence:
            record.append(_write(archive, f"{about}/EVIDENCE.txt", Path(evidence).read_bytes()))
        _write(archive, f"{about}/RECORD", ("\n".join(record) + f"\n{about}/RECORD,,\n").encode())
    return name


def build_sdist(sdist_directory, config_settings=None):
    """There is none: the sources are the repository, and the library in the wheel is proved
    there."""
    raise NotImplementedError("polgamir has no source archive of its own; build a wheel in the repository")
