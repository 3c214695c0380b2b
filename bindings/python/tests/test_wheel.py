"""The wheel: tagged for its processor, with the library in it, installed away from the repository; and what `pip` says where there is no library."""

import importlib.util
import os
import pathlib
import platform
import shutil
import subprocess
import sys
import tempfile
import unittest
import zipfile

HERE = pathlib.Path(__file__).resolve()
MODULE = HERE.parents[1]
LIBRARY = HERE.parents[3] / "target/native/libbintrochis.so"
PIP = importlib.util.find_spec("pip") is not None
JUDGES = """
import bintrochis as uds
print(uds.__file__, uds.__version__, uds.read_data_by_identifier(0x2101).hear(uds.Recording().reply(20, "7f2278").reply(900, "62210103e8")).line)
"""


def run(*words, cwd, **more):
    """A program of Python, which finds nothing of the repository by itself."""
    around = {name: word for name, word in os.environ.items() if not name.startswith(("PYTHON", "BINTROCHIS", "PIP_"))}
    around.update({"PYTHONDONTWRITEBYTECODE": "1", "PIP_NO_INDEX": "1", "PIP_DISABLE_PIP_VERSION_CHECK": "1", "PIP_NO_CACHE_DIR": "1"}, **more)
    return subprocess.run([sys.executable, *words], cwd=cwd, env=around, capture_output=True, text=True)


class Wheel(unittest.TestCase):
    def setUp(self):
        room = tempfile.TemporaryDirectory()
        self.addCleanup(room.cleanup)
        self.room = pathlib.Path(room.name)

    def copied(self):
        """The module's folder without a repository around it."""
        return shutil.copytree(MODULE, self.room / "copy", ignore=shutil.ignore_patterns("*.so", "__pycache__"))

    def judges(self, installed):
        """What stands in the folder `installed` answers a call, in another folder."""
        (self.room / "elsewhere").mkdir()
        said = run("-c", JUDGES, cwd=self.room / "elsewhere", PYTHONPATH=str(installed))
        self.assertEqual(said.stderr, "")
        self.assertEqual(said.stdout.split(None, 1), [str(installed / "bintrochis/__init__.py"), "0.2.0 positive 900 2 1 03e8\n"])

    def installs(self, what, **more):
        return run("-m", "pip", "install", "--no-index", "--quiet", "--target", str(self.room / "installed"), str(what), cwd=self.room, **more)

    def built(self):
        said = run(str(MODULE / "backend.py"), str(self.room), cwd=self.room, BINTROCHIS_LIBRARY=str(LIBRARY))
        self.assertEqual((said.returncode, said.stderr), (0, ""))
        return pathlib.Path(said.stdout.strip())

    def test_what_is_in_it(self):
        wheel = self.built()
        self.assertEqual(wheel, self.room / ("bintrochis-0.2.0-py3-none-linux_%s.whl" % platform.machine()))
        with zipfile.ZipFile(wheel) as archive:
            self.assertEqual(archive.read("bintrochis/libbintrochis.so"), LIBRARY.read_bytes())
            said = archive.read("bintrochis-0.2.0.dist-info/WHEEL").decode().splitlines()
            self.assertEqual(said[-2:], ["Root-Is-Purelib: false", "Tag: py3-none-linux_" + platform.machine()])
            listed = [line.split(",")[0] for line in archive.read("bintrochis-0.2.0.dist-info/RECORD").decode().splitlines()]
            self.assertEqual(listed, archive.namelist())
            self.assertEqual(archive.read("bintrochis-0.2.0.dist-info/LICENSE"), (HERE.parents[3] / "LICENSE").read_bytes())
            for path in (MODULE / "bintrochis").glob("*.py"):
                self.assertEqual(archive.read("bintrochis/" + path.name), path.read_bytes())

    def test_another_processors_library(self):
        other = bytearray(LIBRARY.read_bytes())
        other[18:20] = (183 if platform.machine() == "x86_64" else 62).to_bytes(2, "little")
        (self.room / "other.so").write_bytes(other)
        said = run(str(MODULE / "backend.py"), str(self.room), cwd=self.room, BINTROCHIS_LIBRARY=str(self.room / "other.so"))
        self.assertIn("aarch64" if platform.machine() == "x86_64" else "x86_64", said.stdout)
        if PIP:
            self.assertIn("not a supported wheel", self.installs(said.stdout.strip()).stderr)
        (self.room / "other.so").write_bytes(b"no library")
        said = run(str(MODULE / "backend.py"), str(self.room), cwd=self.room, BINTROCHIS_LIBRARY=str(self.room / "other.so"))
        self.assertEqual(said.returncode, 1)
        self.assertIn("is no shared library for", said.stderr)

    @unittest.skipUnless(PIP, "there is no pip")
    def test_the_wheel_is_installed_elsewhere(self):
        said = self.installs(self.built())
        self.assertEqual(said.returncode, 0, said.stderr)
        self.judges(self.room / "installed")

    @unittest.skipUnless(PIP, "there is no pip")
    def test_the_folder_with_the_library(self):
        said = self.installs(self.copied(), BINTROCHIS_LIBRARY=str(LIBRARY))
        self.assertEqual(said.returncode, 0, said.stderr)
        self.judges(self.room / "installed")

    @unittest.skipUnless(PIP, "there is no pip")
    def test_the_folder_without_the_library(self):
        said = self.installs(self.copied())
        self.assertNotEqual(said.returncode, 0)
        self.assertIn('pip install "$(scripts/wheel)"', said.stdout + said.stderr)
        self.assertFalse((self.room / "installed").exists())

    def test_a_module_without_the_library(self):
        said = run("-c", "import bintrochis", cwd=self.copied())
        self.assertEqual(said.returncode, 1)
        self.assertIn("scripts/wheel", said.stderr)
        self.assertIn("ImportError: There is no library", said.stderr)


if __name__ == "__main__":
    if not PIP:
        print("skipped: the wheel installed by pip, since there is no pip.")
    unittest.main()
