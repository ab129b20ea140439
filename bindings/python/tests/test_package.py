"""The package as it is installed: what it says of itself, and its archives."""
import base64
import email
import hashlib
import importlib.util
import os
import re
import shutil
import subprocess
import sys
import tarfile
import tempfile
import unittest
import zipfile
from unittest import mock

import jsonpath_jp as jp

FOLDER = os.path.dirname(os.path.dirname(os.path.abspath(__file__)))
with open(os.path.join(FOLDER, "jsonpath_jp", "libjp.so"), "rb") as library:
    IS_UNPROVED = b"jp: built without its proofs" in library.read()
# That of the archives.
VERSION = jp.__version__ + "+unproved" * IS_UNPROVED


def backend():
    """The backend of pyproject.toml, as a builder imports it."""
    found = importlib.util.spec_from_file_location("backend", os.path.join(FOLDER, "backend.py"))
    module = importlib.util.module_from_spec(found)
    found.loader.exec_module(module)
    return module


class Package(unittest.TestCase):
    def setUp(self):
        self.room = tempfile.mkdtemp()
        self.addCleanup(shutil.rmtree, self.room)

    def made(self, build):
        """What is in the archive that a function of the backend writes, by name."""
        name = getattr(backend(), build)(self.room)
        path = os.path.join(self.room, name)
        if name.endswith(".whl"):
            with zipfile.ZipFile(path) as archive:
                return path, {it: archive.read(it) for it in archive.namelist()}
        with tarfile.open(path) as archive:
            return path, {it.name: archive.extractfile(it).read() for it in archive.getmembers()}

    def assert_metadata(self, text):
        said = email.message_from_bytes(text)
        self.assertEqual(said["Name"], "jsonpath-jp")
        self.assertEqual(said["Version"], VERSION)
        self.assertEqual(said["Author"], "the jp authors")
        self.assertEqual(said["License"], "MIT OR Apache-2.0")
        self.assertEqual(said["Requires-Python"], ">=3.8")
        self.assertIn("Typing :: Typed", said.get_all("Classifier"))
        with open(os.path.join(FOLDER, "README.md"), "rb") as file:
            self.assertEqual(text.partition(b"\n\n")[2], file.read())

    def assert_wheel(self, files):
        info = f"jsonpath_jp-{VERSION}.dist-info"
        self.assert_metadata(files[f"{info}/METADATA"])
        self.assertIn(b"Permission is hereby granted", files[f"{info}/LICENSE-MIT"])
        self.assertIn(b"Apache License", files[f"{info}/LICENSE-APACHE"])
        record = [line.split(",") for line in files[f"{info}/RECORD"].decode().splitlines()]
        self.assertEqual({path for path, _, _ in record}, set(files))
        for path, digest, size in record[:-1]:
            data = files[path]
            expected = base64.urlsafe_b64encode(hashlib.sha256(data).digest()).rstrip(b"=").decode()
            self.assertEqual((digest, size), (f"sha256={expected}", str(len(data))))

    def test_the_version(self):
        self.assertRegex(jp.__version__, r"^\d+\.\d+\.\d+$")
        self.assertEqual(jp.__version__, jp.version())
        with open(os.path.join(FOLDER, "pyproject.toml"), encoding="utf-8") as file:
            self.assertEqual(re.search('^version = "(.*)"$', file.read(), re.MULTILINE)[1], jp.__version__)

    def test_what_is_public(self):
        self.assertEqual(sorted(jp.__all__), jp.__all__)
        for name in jp.__all__:
            self.assertTrue(getattr(jp, name).__doc__, name)

    def test_a_folder_without_the_library(self):
        ignored = shutil.ignore_patterns("libjp.so")
        shutil.copytree(os.path.join(FOLDER, "jsonpath_jp"), os.path.join(self.room, "jsonpath_jp"), ignore=ignored)
        words = [sys.executable, "-c", "import jsonpath_jp"]
        place = {**os.environ, "PYTHONPATH": self.room, "LD_LIBRARY_PATH": ""}
        said = subprocess.run(words, capture_output=True, text=True, check=False, cwd=self.room, env=place)
        last = said.stderr.splitlines()[-1]
        self.assertRegex(last, "^ImportError: .*/jsonpath_jp/libjp.so is missing: .*`bindings/build --unproved`")

    def test_the_wheel(self):
        path, files = self.made("build_wheel")
        self.assert_wheel(files)
        for name in ("__init__.py", "libjp.so", "py.typed"):
            self.assertIn(f"jsonpath_jp/{name}", files)
        if shutil.which("auditwheel"):
            said = subprocess.run(["auditwheel", "show", path], capture_output=True, text=True, check=False)
            self.assertEqual(said.returncode, 0, said.stderr)

    def test_the_platform_of_a_wheel(self):
        name = backend().build_wheel(self.room, {"platform": "manylinux_2_34_x86_64"})
        self.assertEqual(name, f"jsonpath_jp-{VERSION}-py3-none-manylinux_2_34_x86_64.whl")
        with zipfile.ZipFile(os.path.join(self.room, name)) as archive:
            said = archive.read(f"jsonpath_jp-{VERSION}.dist-info/WHEEL").decode()
        self.assertIn("\nTag: py3-none-manylinux_2_34_x86_64\n", said)

    def test_the_date_of_a_wheel(self):
        for epoch, date in (("1800000000", (2027, 1, 15, 8, 0, 0)), ("0", (1980, 1, 1, 0, 0, 0))):
            with mock.patch.dict(os.environ, SOURCE_DATE_EPOCH=epoch):
                name = backend().build_wheel(self.room)
            with zipfile.ZipFile(os.path.join(self.room, name)) as archive:
                self.assertEqual({it.date_time for it in archive.infolist()}, {date})
                self.assertEqual({it.external_attr >> 16 for it in archive.infolist()}, {0o100644})

    def test_the_wheel_that_is_edited(self):
        path, files = self.made("build_editable")
        self.assert_wheel(files)
        self.assertEqual(files["jsonpath_jp.pth"].decode(), f"{FOLDER}\n")
        # As Python reads it where it is installed.
        with zipfile.ZipFile(path) as archive:
            archive.extractall(self.room)
        script = f"import site; site.addsitedir({self.room!r}); import jsonpath_jp; print(jsonpath_jp.__file__)"
        words = [sys.executable, "-I", "-c", script]
        said = subprocess.run(words, capture_output=True, text=True, check=True, cwd=self.room).stdout
        self.assertEqual(said, os.path.join(FOLDER, "jsonpath_jp", "__init__.py") + "\n")

    def test_the_sources(self):
        _, files = self.made("build_sdist")
        stem = f"jsonpath_jp-{VERSION}"
        self.assert_metadata(files[f"{stem}/PKG-INFO"])
        with tarfile.open(os.path.join(self.room, f"{stem}.tar.gz")) as archive:
            archive.extractall(self.room)
        # The wheel of the sources is that of the folder.
        words = [sys.executable, "-c", "import backend; print(backend.build_wheel('.'))"]
        folder = os.path.join(self.room, stem)
        name = subprocess.run(words, capture_output=True, text=True, check=True, cwd=folder).stdout.strip()
        with zipfile.ZipFile(os.path.join(folder, name)) as archive:
            of_sources = {it: archive.read(it) for it in archive.namelist()}
        self.assertEqual(of_sources, self.made("build_wheel")[1])


if __name__ == "__main__":
    unittest.main()
