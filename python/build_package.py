"""Builds the package for pip (PEP 517) with the standard library alone: `pip install ./python`
needs no network."""
import base64
import hashlib
import io
import re
import tarfile
import zipfile
from pathlib import Path

import build_manual

TOP = Path(__file__).resolve().parent
PROJECT = (TOP / "pyproject.toml").read_text()
VALUES = dict(re.findall(r'^([\w-]+) = "(.*)"$', PROJECT, re.M))
NAME = f'{VALUES["name"]}-{VALUES["version"]}'
AUTHOR = re.search(r'name = "(.*)", email = "(.*)"', PROJECT)
CLASSIFIERS = re.findall(r'^    "(.* :: .*)",$', PROJECT, re.M)
KEYWORDS = ",".join(re.findall(r'"(.*?)"', re.search(r"^keywords = (.*)$", PROJECT, re.M)[1]))
ABOUT = (TOP / "vipr/__init__.py").read_text().split('"""')[1].strip()
METADATA = "\n".join(
    [
        "Metadata-Version: 2.1",
        f'Name: {VALUES["name"]}',
        f'Version: {VALUES["version"]}',
        f'Summary: {VALUES["description"]}',
        f"Keywords: {KEYWORDS}",
        f"Author: {AUTHOR[1]}",
        f"Author-email: {AUTHOR[2]}",
        "License: Apache-2.0",
        *(f"Classifier: {word}" for word in CLASSIFIERS),
        f'Requires-Python: {VALUES["requires-python"]}',
        "Description-Content-Type: text/plain",
        "",
        ABOUT,
        "",
    ]
)
SCRIPTS = "".join(
    f"{name} = {call}\n" for name, call in re.findall(r'^(vipr-[\w-]+) = "(.*)"$', PROJECT, re.M)
)


def sources():
    return sorted([*(TOP / "vipr").glob("*.py"), TOP / "vipr/proof.html", TOP / "vipr/py.typed"])


def build_wheel(wheel_directory, config_settings=None, metadata_directory=None):
    return write_wheel(wheel_directory, "py3-none-any", {})


def entry_points():
    return f"[console_scripts]\n{SCRIPTS}"


def write_info(folder):
    """Writes what other packages ask of an installed one, below a folder of packages."""
    info = Path(folder, f"{NAME}.dist-info")
    info.mkdir(parents=True, exist_ok=True)
    (info / "METADATA").write_text(METADATA)
    (info / "entry_points.txt").write_text(entry_points())


def write_wheel(folder, tag, built):
    """Writes a wheel of the package and of files that were built for one platform, by their names
    in it, and gives its name."""
    files = {path.relative_to(TOP).as_posix(): path.read_bytes() for path in sources()} | built
    files |= {
        f"{NAME}.data/data/{path}": text.encode() for path, text in build_manual.files().items()
    }
    files[f"{NAME}.dist-info/METADATA"] = METADATA.encode()
    files[f"{NAME}.dist-info/WHEEL"] = (
        f'Wheel-Version: 1.0\nGenerator: vipr\nRoot-Is-Purelib: {"false" if built else "true"}\n'
        f"Tag: {tag}\n"
    ).encode()
    files[f"{NAME}.dist-info/entry_points.txt"] = entry_points().encode()
    record = f"{NAME}.dist-info/RECORD"
    sums = {
        name: base64.urlsafe_b64encode(hashlib.sha256(text).digest()).rstrip(b"=").decode()
        for name, text in files.items()
    }
    rows = [f"{name},sha256={sums[name]},{len(text)}\n" for name, text in files.items()]
    files[record] = "".join([*rows, f"{record},,\n"]).encode()
    wheel = f"{NAME}-{tag}.whl"
    with zipfile.ZipFile(Path(folder, wheel), "w", zipfile.ZIP_DEFLATED) as archive:
        for name, text in files.items():
            # (a fixed date, so that the same sources give the same bytes)
            info = zipfile.ZipInfo(name, (2020, 1, 1, 0, 0, 0))
            info.external_attr = (0o100755 if ".data/scripts/" in name else 0o100644) << 16
            info.compress_type = zipfile.ZIP_DEFLATED
            archive.writestr(info, text)
    return wheel


def build_sdist(sdist_directory, config_settings=None):
    name = f"{NAME}.tar.gz"
    with tarfile.open(Path(sdist_directory, name), "w:gz", format=tarfile.PAX_FORMAT) as archive:
        info = tarfile.TarInfo(f"{NAME}/PKG-INFO")
        info.size = len(METADATA.encode())
        archive.addfile(info, io.BytesIO(METADATA.encode()))
        for path in [
            *sources(),
            *(TOP / name for name in ("pyproject.toml", "build_manual.py", "build_package.py")),
        ]:
            archive.add(path, f"{NAME}/{path.relative_to(TOP)}")
    return name
