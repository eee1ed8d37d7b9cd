"""Tests of rtr_wire. Expected values are computed without the library.

They call the shared library that RTR_WIRE_LIBRARY names. If it is unset, $CC or cc links one from
the archive in bindings/lib, if one was built there, or else from the prebuilt one; without a
compiler all tests are skipped."""
import atexit
import importlib.util
import os
import pathlib
import platform
import shlex
import shutil
import sys
import tempfile
import unittest

PACKAGE = pathlib.Path(__file__).resolve().parent.parent


def _backend():
    spec = importlib.util.spec_from_file_location("backend", PACKAGE / "backend.py")
    backend = importlib.util.module_from_spec(spec)
    spec.loader.exec_module(backend)
    return backend


def compiler():
    """Returns the words of the C compiler; without one it skips the tests."""
    words = shlex.split(os.environ.get("CC", "cc"))
    if not shutil.which(words[0]):
        raise unittest.SkipTest(f"no {words[0]} here, which links the library: set CC")
    return words


def archive():
    """Returns the path of the archive."""
    backend = _backend()
    built = PACKAGE.parent / "lib" / platform.machine() / backend.ARCHIVE
    return built if built.exists() else backend.archive(platform.machine())


def _linked() -> str:
    """Returns the path of a library that is linked for this run."""
    backend, words = _backend(), compiler()
    folder = tempfile.mkdtemp()
    atexit.register(shutil.rmtree, folder)
    library = os.path.join(folder, backend.LIBRARY)
    backend.link(archive(), library, compiler=words)
    return library


if "RTR_WIRE_LIBRARY" not in os.environ:
    os.environ["RTR_WIRE_LIBRARY"] = _linked()

# The package of this clone, here and in the processes that tests start.
SOURCES = str(PACKAGE / "src")
sys.path.insert(0, SOURCES)
os.environ["PYTHONPATH"] = os.pathsep.join(filter(None, (SOURCES, os.environ.get("PYTHONPATH"))))
