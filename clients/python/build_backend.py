"""Makes the wheel of this package with the standard library alone, so that `pip install` needs no network.

These are the hooks of PEP 517, which pip calls.
"""

import base64
import glob
import hashlib
import os
import tarfile
import zipfile

NAME, VERSION = "tuple_store_client", "0.1.0"
INFO = f"{NAME}-{VERSION}.dist-info"
WHEEL = f"{NAME}-{VERSION}-py3-none-any.whl"
METADATA = f"""Metadata-Version: 2.1
Name: tuple-store-client
Version: {VERSION}
Summary: A client of tuple_store, a document store, and its command tuplectl
Requires-Python: >=3.9
Description-Content-Type: text/markdown

"""
WHEEL_TEXT = "Wheel-Version: 1.0\nGenerator: build_backend\nRoot-Is-Purelib: true\nTag: py3-none-any\n"
COMMANDS = "[console_scripts]\ntuplectl = tuple_store_client.command_line:main\n"


def _sources():
    return sorted(glob.glob(f"{NAME}/*.py")) + [f"{NAME}/py.typed"]


def _readme():
    with open("README.md", encoding="utf-8") as file:
        return file.read()


def build_wheel(wheel_directory, config_settings=None, metadata_directory=None):
    """Makes the wheel: its file name."""
    files = {}
    for path in _sources():
        with open(path, "rb") as file:
            files[path] = file.read()
    files[f"{INFO}/METADATA"] = (METADATA + _readme()).encode()
    files[f"{INFO}/WHEEL"] = WHEEL_TEXT.encode()
    files[f"{INFO}/entry_points.txt"] = COMMANDS.encode()
    rows = [f"{path},sha256={_digest(content)},{len(content)}" for path, content in files.items()]
    files[f"{INFO}/RECORD"] = "\n".join([*rows, f"{INFO}/RECORD,,", ""]).encode()
    with zipfile.ZipFile(os.path.join(wheel_directory, WHEEL), "w", zipfile.ZIP_DEFLATED) as wheel:
        for path, content in files.items():
            wheel.writestr(path, content)
    return WHEEL


def _digest(content):
    return base64.urlsafe_b64encode(hashlib.sha256(content).digest()).decode().rstrip("=")


def build_sdist(sdist_directory, config_settings=None):
    """Makes the archive of the sources: its file name."""
    top = f"{NAME}-{VERSION}"
    with tarfile.open(os.path.join(sdist_directory, f"{top}.tar.gz"), "w:gz") as archive:
        for path in ["pyproject.toml", "build_backend.py", "README.md", *_sources()]:
            archive.add(path, f"{top}/{path}")
    return f"{top}.tar.gz"
