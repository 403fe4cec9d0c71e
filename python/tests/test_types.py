"""The package's types, by mypy: who imports it has a checker read them."""
import pathlib
import shutil
import subprocess
import tempfile
import unittest

TOP = pathlib.Path(__file__).resolve().parent.parent


class Types(unittest.TestCase):
    @unittest.skipUnless(shutil.which("mypy"), "mypy isn't here")
    def test_the_package_keeps_its_own_types(self) -> None:
        with tempfile.TemporaryDirectory() as room:
            done = subprocess.run(["mypy", "--cache-dir", room, "pcm"], cwd=TOP, capture_output=True, text=True)
        self.assertEqual(done.returncode, 0, done.stdout)


if __name__ == "__main__":
    unittest.main()
