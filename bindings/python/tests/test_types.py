"""That the package's types are what typed.py says, by mypy, where it is installed."""
import os
import shutil
import subprocess
import tempfile
import unittest

HERE = os.path.dirname(os.path.abspath(__file__))


@unittest.skipUnless(shutil.which("mypy"), "mypy is not installed")
class Types(unittest.TestCase):
    def test_typed(self):
        with tempfile.TemporaryDirectory() as folder:
            # As of a package that is installed, nothing is told of its own files.
            how = ["--strict", "--follow-imports=silent", "--cache-dir", folder]
            words = ["mypy", *how, os.path.join(HERE, "typed.py")]
            place = {**os.environ, "MYPYPATH": os.path.dirname(HERE)}
            said = subprocess.run(words, capture_output=True, text=True, check=False, env=place)
        self.assertEqual((said.returncode, said.stderr), (0, ""), said.stdout)


if __name__ == "__main__":
    unittest.main()
