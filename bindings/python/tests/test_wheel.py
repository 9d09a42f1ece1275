"""The wheel that pip makes of the package."""

import os
import subprocess
import sys
import tempfile
import unittest
import zipfile

import make_wheel
from tests.benches import child


class Wheel(unittest.TestCase):
    def test_wheel(self) -> None:
        with tempfile.TemporaryDirectory() as folder:
            name = make_wheel.build_wheel(folder)
            self.assertRegex(name, r"\Alabrun-[\d.]+-py3-none-\w+\.whl\Z")
            with zipfile.ZipFile(os.path.join(folder, name)) as wheel:
                record = [it for it in wheel.namelist() if it.endswith(".dist-info/RECORD")]
                self.assertEqual([it.split(",")[0] for it in wheel.read(record[0]).decode().splitlines()], wheel.namelist())
                wheel.extractall(os.path.join(folder, "there"))
            words = [sys.executable, "-c", "import labrun; print(labrun.__file__, labrun.run('lab 1\\n').finished)"]
            env = {**child(), "PYTHONPATH": os.path.join(folder, "there")}
            ran = subprocess.run(words, cwd=folder, env=env, capture_output=True, text=True)
        self.assertEqual((ran.stdout, ran.stderr), (f"{folder}/there/labrun/__init__.py True\n", ""))


if __name__ == "__main__":
    unittest.main()
