"""The package installed by pip without a network, and the command `ozp` that comes with it."""
import os
import pathlib
import subprocess
import sys
import tempfile
import unittest

from shared import PYTHON, ROOT


class Installs(unittest.TestCase):
    def test_install(self):
        with tempfile.TemporaryDirectory() as folder:
            pip = [sys.executable, "-m", "pip", "--disable-pip-version-check", "install", "--quiet", "--no-index", "--no-deps"]
            subprocess.run([*pip, "--no-build-isolation", "--target", folder, str(PYTHON)], check=True, cwd=folder)
            package = pathlib.Path(folder) / "ozpinduru"
            self.assertTrue((package / "py.typed").is_file() and (package / "libozpinduru.so").is_file())
            setting = {**os.environ, "PYTHONPATH": folder}
            done = subprocess.run([f"{folder}/bin/ozp", "clear", str(ROOT / "examples" / "reference.book")], cwd=folder,
                                  env=setting, capture_output=True, text=True)
            self.assertEqual((done.returncode, done.stderr), (0, ""))
            self.assertIn("cleared 1,000.0 MW at $375.00 per MW-day", done.stdout)
            where = subprocess.run([sys.executable, "-c", "import ozpinduru._library as l; print(l.__file__, l.library._name)"],
                                   cwd=folder, env=setting, capture_output=True, text=True, check=True)
            self.assertEqual(where.stdout.count(str(package)), 2)
