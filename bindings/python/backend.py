"""Writes the wheel of this module with the proved library in it, tagged for the library's processor: `scripts/wheel` and `pip` call it.

It is the build backend of pyproject.toml (PEP 517), over the standard library alone, so that no network is needed. A wheel without the
library would install well and could not be imported, so none is written.
"""

import base64
import hashlib
import os
import pathlib
import re
import sys
import zipfile

HERE = pathlib.Path(__file__).resolve().parent
COMMAND = 'pip install "$(scripts/wheel)"'
MACHINES = {(2, 62): "x86_64", (2, 183): "aarch64"}  # by the class and the machine of an ELF file
METADATA = """\
Metadata-Version: 2.1
Name: bintrochis
Version: %s
Summary: UDS client (ISO 14229-1) in which every call is proved
License: MIT
Keywords: uds,iso14229,diagnostics,automotive,verified
Requires-Python: >=3.10
Description-Content-Type: text/markdown

%s"""


def _stop(words):
    sys.exit("bintrochis: %s" % words)


def _library():
    """The one that BINTROCHIS_LIBRARY names, one beside the module, or the repository's; and the machine that it is for."""
    named = os.environ.get("BINTROCHIS_LIBRARY")
    places = [pathlib.Path(named)] if named else [HERE / "bintrochis/libbintrochis.so"]
    if not named:
        places += [top / "target/native/libbintrochis.so" for top in HERE.parents[1:2]]
    for place in places:
        if place.is_file():
            library = place.read_bytes()
            machine = MACHINES.get((library[4], int.from_bytes(library[18:20], "little"))) if library[:4] == b"\x7fELF" else None
            if machine is None:
                _stop("%s is no shared library for %s." % (place, " or ".join(MACHINES.values())))
            return library, machine
    _stop("there is no library %s to put into the wheel. In the repository, this proves, builds and installs it: %s" % (places[-1], COMMAND))


def _version():
    number = int(re.search(r"^VERSION = (\d+)", (HERE / "bintrochis/door.py").read_text(), re.MULTILINE).group(1))
    return "%d.%d.%d" % (number // 10000, number // 100 % 100, number % 100)


def build_wheel(wheel_directory, config_settings=None, metadata_directory=None):
    """Writes the wheel, and gives its name."""
    library, machine = _library()
    version, tag = _version(), "py3-none-linux_" + machine
    about = "bintrochis-%s.dist-info/" % version
    files = {"bintrochis/" + path.name: path.read_bytes() for path in sorted((HERE / "bintrochis").glob("*.py"))}
    files["bintrochis/libbintrochis.so"] = library
    files[about + "METADATA"] = (METADATA % (version, (HERE / "README.md").read_text())).encode()
    files[about + "WHEEL"] = ("Wheel-Version: 1.0\nGenerator: bintrochis\nRoot-Is-Purelib: false\nTag: %s\n" % tag).encode()
    for top in HERE.parents[1:2]:
        for name in "LICENSE", "NOTICE":
            if (top / name).is_file():
                files[about + name] = (top / name).read_bytes()
    record = ""
    for name, content in files.items():
        digest = base64.urlsafe_b64encode(hashlib.sha256(content).digest()).decode().rstrip("=")
        record += "%s,sha256=%s,%d\n" % (name, digest, len(content))
    files[about + "RECORD"] = (record + about + "RECORD,,\n").encode()
    wheel = "bintrochis-%s-%s.whl" % (version, tag)
    with zipfile.ZipFile(pathlib.Path(wheel_directory) / wheel, "w", zipfile.ZIP_DEFLATED) as archive:
        for name, content in files.items():
            entry = zipfile.ZipInfo(name)  # of 1980, so that the same files give the same wheel
            entry.compress_type, entry.external_attr = zipfile.ZIP_DEFLATED, 0o100644 << 16
            archive.writestr(entry, content)
    return wheel


def build_sdist(sdist_directory, config_settings=None):
    _stop("there is no source distribution, since the library comes from the repository: %s" % COMMAND)


if __name__ == "__main__":
    print(pathlib.Path(sys.argv[1]) / build_wheel(sys.argv[1]))
