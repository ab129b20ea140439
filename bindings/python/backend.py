"""Builds the wheel, with nothing but Python's own library (PEP 517, and PEP 660 for `pip install -e`).

The wheel holds the package as it stands, with the shared object that `bindings/build` puts into it; or, where it is to
be edited, the path of this folder. Where there is no shared object, one is made without proofs. What the package says
of itself is in pyproject.toml; over a shared object without proofs its version ends with `+unproved`. The same files give
the same bytes, whose dates are that of `SOURCE_DATE_EPOCH`, or else of 1980. The setting `platform` names a platform for
the wheel's tag other than that of this Python, as `manylinux_2_34_x86_64`.
"""
import ast
import base64
import hashlib
import io
import os
import re
import subprocess
import sysconfig
import tarfile
import time
import zipfile

NAME = "jsonpath_jp"
HERE = os.path.dirname(os.path.abspath(__file__))
LIBRARY = "libjp.so"
# What a shared object without proofs has inside.
MARK = b"jp: built without its proofs, of "
SOURCES = ["pyproject.toml", "backend.py", "README.md"]
LICENCES = ["LICENSE-APACHE", "LICENSE-MIT"]
# The first second that a wheel can tell.
EARLIEST = 315532800
DATE = max(EARLIEST, int(os.environ.get("SOURCE_DATE_EPOCH", EARLIEST)))


def _make_library():
    """Makes the shared object without proofs, in two minutes, as one line on standard error says."""
    build = os.path.join(HERE, "..", "build")
    if not os.path.exists(build):
        raise SystemExit(f"{NAME}/{LIBRARY} is missing: run bindings/build first")
    how = {"stdin": subprocess.DEVNULL, "stdout": subprocess.DEVNULL, "check": False}
    if subprocess.run([build, "--unproved"], **how).returncode != 0:
        raise SystemExit(f"{NAME}/{LIBRARY} is missing, and bindings/build --unproved makes none")


def _package_files():
    folder = os.path.join(HERE, NAME)
    if not os.path.exists(os.path.join(folder, LIBRARY)):
        _make_library()
    names = sorted(os.listdir(folder))
    return [f"{NAME}/{name}" for name in names if os.path.isfile(os.path.join(folder, name))]


def _contents(path):
    with open(os.path.join(HERE, path), "rb") as file:
        return file.read()


def _licences():
    """The licences' texts, which stand beside this file in a source archive and above it in the repository. An old
    pip builds in a copy of the folder, where there are none."""
    paths = [(name, os.path.join(above, name)) for above in (".", os.path.join("..", "..")) for name in LICENCES]
    return [(name, _contents(path)) for name, path in paths if os.path.exists(os.path.join(HERE, path))]


PROJECT = _contents("pyproject.toml").decode()


def _said(name):
    """A text or a list of texts of pyproject.toml, which Python spells as TOML does."""
    return ast.literal_eval(re.search(rf'^{name} = (".*?"|\[.*?\])$', PROJECT, re.MULTILINE | re.DOTALL)[1])


def _version():
    library = os.path.join(NAME, LIBRARY)
    is_unproved = os.path.exists(os.path.join(HERE, library)) and MARK in _contents(library)
    return _said("version") + ("+unproved" if is_unproved else "")


def _metadata():
    author = re.search(r'^authors = \[\{ name = "(.*)" \}\]$', PROJECT, re.MULTILINE)[1]
    licence = re.search(r'^license = \{ text = "(.*)" \}$', PROJECT, re.MULTILINE)[1]
    lines = [
        "Metadata-Version: 2.1",
        f"Name: {_said('name')}",
        f"Version: {_version()}",
        f"Summary: {_said('description')}",
        f"Author: {author}",
        f"License: {licence}",
        *[f"License-File: {name}" for name, _ in _licences()],
        f"Keywords: {','.join(_said('keywords'))}",
        *[f"Classifier: {it}" for it in _said("classifiers")],
        f"Requires-Python: {_said('requires-python')}",
        "Description-Content-Type: text/markdown",
    ]
    return ("\n".join(lines) + "\n\n").encode() + _contents(_said("readme"))


def _tag(settings):
    platform = (settings or {}).get("platform") or sysconfig.get_platform()
    return f"py3-none-{platform.replace('-', '_').replace('.', '_')}"


def _record_line(path, data):
    digest = base64.urlsafe_b64encode(hashlib.sha256(data).digest()).rstrip(b"=").decode()
    return f"{path},sha256={digest},{len(data)}\n"


def _zip_entry(path):
    entry = zipfile.ZipInfo(path, time.gmtime(DATE)[:6])
    entry.compress_type = zipfile.ZIP_DEFLATED
    entry.external_attr = 0o100644 << 16
    return entry


def _write_wheel(wheel_directory, files, settings):
    info = f"{NAME}-{_version()}.dist-info"
    wheel = f"Wheel-Version: 1.0\nGenerator: {NAME}\nRoot-Is-Purelib: false\nTag: {_tag(settings)}\n"
    files = [*files, (f"{info}/METADATA", _metadata()), (f"{info}/WHEEL", wheel.encode())]
    files += [(f"{info}/{name}", text) for name, text in _licences()]
    record = "".join(_record_line(path, data) for path, data in files)
    files.append((f"{info}/RECORD", f"{record}{info}/RECORD,,\n".encode()))
    name = f"{NAME}-{_version()}-{_tag(settings)}.whl"
    with zipfile.ZipFile(os.path.join(wheel_directory, name), "w") as archive:
        for path, data in files:
            archive.writestr(_zip_entry(path), data)
    return name


def build_wheel(wheel_directory, config_settings=None, metadata_directory=None):
    """Writes the wheel into that folder, and answers its name."""
    return _write_wheel(wheel_directory, [(path, _contents(path)) for path in _package_files()], config_settings)


def build_editable(wheel_directory, config_settings=None, metadata_directory=None):
    """Writes a wheel that has Python look for the package in this folder, and answers its name."""
    _package_files()
    return _write_wheel(wheel_directory, [(f"{NAME}.pth", f"{HERE}\n".encode())], config_settings)


def build_sdist(sdist_directory, config_settings=None):
    """Writes the sources with the shared object into that folder, and answers the archive's name."""
    files = SOURCES + _package_files()
    stem = f"{NAME}-{_version()}"
    name = f"{stem}.tar.gz"
    with tarfile.open(os.path.join(sdist_directory, name), "w:gz") as archive:
        for path in files:
            archive.add(os.path.join(HERE, path), f"{stem}/{path}")
        for path, data in [("PKG-INFO", _metadata()), *_licences()]:
            entry = tarfile.TarInfo(f"{stem}/{path}")
            entry.size = len(data)
            archive.addfile(entry, io.BytesIO(data))
    return name
