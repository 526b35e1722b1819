"""Builds a wheel of chromesquid.py with its library, and a source archive from which pip builds the
wheel. pip calls this file, and so can you:

    python3 make_wheel.py FOLDER

The library is libchromesquid.so in the folder that the environment variable CHROMESQUID_LIBRARY
names. Without the variable it is next to this file, as in the archive, or in bin/program. The wheel
also contains the library for x86-64-v3, which is in glibc-hwcaps of that folder, and uses it on
processors with AVX2.

With a C compiler and Python.h, the wheel contains the extension module for small calls, for CPython
3.8 and later. Without it, and with other Pythons, ctypes does these calls. The same library, files
and compiler always make the same wheel and the same archive, byte for byte."""

import base64
import gzip
import hashlib
import io
import os
import re
import shutil
import subprocess
import sys
import sysconfig
import tarfile
import tempfile
import zipfile

HERE = os.path.dirname(os.path.abspath(__file__))
TOP = os.path.join(HERE, "..", "..")
LIBRARY = "libchromesquid.so"
WIDE = "glibc-hwcaps/x86-64-v3/libchromesquid.so.0"  # the library for processors of x86-64-v3
EXTENSION = "_chromesquid.abi3.so"
LICENCES = ("LICENSE-MIT", "UNLICENSE", "THIRD-PARTY")
SOURCES = ("README.md", "_chromesquid.c", "chromesquid.py", "make_wheel.py", "pyproject.toml", "test_chromesquid.py")
# A wheel has no tag for the required processor, so its build number names it.
BUILD = "1_x86_64_v2"
MAIN = b"from chromesquid import _main\n\n_main()\n"


def _read(*path):
    with open(os.path.join(*path), "rb") as file:
        return file.read()


def _libraries():
    """Returns the library by its name, and the one for x86-64-v3 if there is one."""
    named = os.environ.get("CHROMESQUID_LIBRARY")
    for folder in [named] if named else [HERE, os.path.join(TOP, "bin", "program")]:
        if os.path.exists(os.path.join(folder, LIBRARY)):
            return {it: _read(folder, it) for it in (LIBRARY, WIDE) if os.path.exists(os.path.join(folder, it))}
    raise SystemExit(f"make_wheel: there is no {LIBRARY}: bin/clib builds it, and CHROMESQUID_LIBRARY names its folder")


def _licences():
    """Returns the licences by their names. They are next to this file, or at the top of the
    repository."""
    return {name: _read(HERE if os.path.exists(os.path.join(HERE, name)) else TOP, name) for name in LICENCES}


def _extension():
    """Returns the extension module, or None if it cannot be built."""
    compiler, include = shutil.which("cc") or shutil.which("gcc") or shutil.which("clang"), sysconfig.get_paths()["include"]
    if not compiler or not os.path.exists(os.path.join(include, "Python.h")):
        return None
    with tempfile.TemporaryDirectory() as room:
        words = [compiler, "-std=c11", "-O2", "-shared", "-fPIC", "-s", f"-I{include}", "-o", EXTENSION, os.path.join(HERE, "_chromesquid.c")]
        subprocess.run(words, cwd=room, check=True)
        return _read(room, EXTENSION)


def _version():
    number = int(re.search(rb"(?m)^_VERSION = (\d+)$", _read(HERE, "chromesquid.py"))[1])
    return f"{number // 10000}.{number // 100 % 100}.{number % 100}"


def _tag(libraries):
    """Returns the tag of the wheel: Linux on x86-64, with the newest version of glibc that the
    libraries need, at least 2.17."""
    newest = max([17, *(int(minor) for minor in re.findall(rb"GLIBC_2\.(\d+)", b"".join(libraries.values())))])
    return f"py3-none-manylinux_2_{newest}_x86_64"


def _metadata():
    lines = [
        "Metadata-Version: 2.4",
        "Name: chromesquid",
        f"Version: {_version()}",
        "Summary: Searches bytes and strings for many patterns at once, with proved answers; for x86-64-v2",
        "Keywords: aho-corasick,search,replace,redaction",
        "License-Expression: MIT OR Unlicense",
        *(f"License-File: {name}" for name in LICENCES),
        "Classifier: Operating System :: POSIX :: Linux",
        "Classifier: Programming Language :: Python :: 3",
        "Classifier: Typing :: Typed",
        "Requires-Python: >=3.8",
        "Description-Content-Type: text/markdown",
    ]
    return "\n".join(lines).encode() + b"\n\n" + _read(HERE, "README.md")


def build_wheel(wheel_directory, config_settings=None, metadata_directory=None):
    libraries = _libraries()
    tag, named = _tag(libraries), f"chromesquid-{_version()}"
    info = f"{named}.dist-info"
    files = {
        "chromesquid/__init__.py": _read(HERE, "chromesquid.py"),
        "chromesquid/__main__.py": MAIN,
        "chromesquid/py.typed": b"",
        **{f"chromesquid/{name}": held for name, held in libraries.items()},
        f"{info}/METADATA": _metadata(),
        f"{info}/WHEEL": f"Wheel-Version: 1.0\nGenerator: make_wheel\nRoot-Is-Purelib: false\nTag: {tag}\nBuild: {BUILD}\n".encode(),
        **{f"{info}/licenses/{name}": text for name, text in _licences().items()},
    }
    extension = _extension()
    if extension:
        files[EXTENSION] = extension
    record = "".join(f"{name},sha256={base64.urlsafe_b64encode(hashlib.sha256(held).digest()).rstrip(b'=').decode()},{len(held)}\n"
                     for name, held in files.items())
    files[f"{info}/RECORD"] = f"{record}{info}/RECORD,,\n".encode()
    wheel = f"{named}-{BUILD}-{tag}.whl"
    with zipfile.ZipFile(os.path.join(wheel_directory, wheel), "w", zipfile.ZIP_DEFLATED) as made:
        for name, held in files.items():
            entry = zipfile.ZipInfo(name, (1980, 1, 1, 0, 0, 0))
            entry.external_attr, entry.compress_type = (0o755 if name.endswith((LIBRARY, WIDE, EXTENSION)) else 0o644) << 16, zipfile.ZIP_DEFLATED
            made.writestr(entry, held)
    return wheel


def build_sdist(sdist_directory, config_settings=None):
    """Builds the archive of these sources and of the library."""
    named = f"chromesquid-{_version()}"
    files = {"PKG-INFO": _metadata(), **_libraries(), **{name: _read(HERE, name) for name in SOURCES}, **_licences()}
    packed = io.BytesIO()
    with tarfile.open(fileobj=packed, mode="w", format=tarfile.PAX_FORMAT) as made:
        for name, held in sorted(files.items()):
            entry = tarfile.TarInfo(f"{named}/{name}")
            entry.size, entry.mode = len(held), 0o644
            made.addfile(entry, io.BytesIO(held))
    with open(os.path.join(sdist_directory, f"{named}.tar.gz"), "wb") as file:
        file.write(gzip.compress(packed.getvalue(), mtime=0))
    return f"{named}.tar.gz"


if __name__ == "__main__":
    if len(sys.argv) != 2 or not os.path.isdir(sys.argv[1]):
        raise SystemExit("make_wheel: usage: python3 make_wheel.py FOLDER")
    for build in build_wheel, build_sdist:
        print(os.path.join(sys.argv[1], build(sys.argv[1])))
