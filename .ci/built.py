#!/usr/bin/env python3
"""Picks the programs and the archives of rtr_c that checks run; nothing else does.

usage: built.py [--fresh] NAME..
       NAME: a program, rtr_c for the archives, a module for WebAssembly: wasm32 or wasm64, or
       portable for the C file for other platforms

`.ci/run`, `rt ci` and `rt run` leave a program in the folder `out/` of its crate: as LLVM builds
it, and after `rt ci` also as Rattle's own compiler does. A program older than a source of its
crate, or of a library below it, is ignored. If nothing was built, the one in prebuilt/ is picked,
if prebuilt/SHA256SUMS has its sum, and a line on standard error says that it may be older than the
sources, unless PREBUILT_SAID is set; with --fresh it isn't picked. The script prints the programs
of these names; its status is 1 if one is missing.
"""
import functools
import hashlib
import os
import shutil
import subprocess
import sys
from importlib.machinery import SourceFileLoader
from importlib.util import module_from_spec, spec_from_loader

TOP = os.path.realpath(os.path.join(os.path.dirname(os.path.abspath(__file__)), ".."))
# Scripts that import this can import the samples of units.
sys.path.insert(0, os.path.join(TOP, "tests"))
ENDINGS = ("", ".by-rattle")
PREBUILT = os.path.join(TOP, "prebuilt")
ARCHIVE = "librtr_wire.a"
MEMORIES = ("wasm32", "wasm64")
# Other files made from the crate rtr_c, by the name of their folder.
MADE = {**dict.fromkeys(MEMORIES, "rtr_wire.wasm"), "portable": "rtr_wire.c"}
# The sources of the C file for other platforms, other than the crate.
PORTABLE = ("portable.py", "calls.py", "c/rtr.h", "c/rtr_abi.h", "c/portable_front.h")


def crates(name):
    """Returns the crate of this name, and the libraries of the repository that it uses."""
    with open(os.path.join(TOP, "crates.txt"), encoding="ascii") as lines:
        below = dict(line.split("#")[0].split(":") for line in lines if ":" in line.split("#")[0])
    below = {names.split()[0]: libraries.split() for names, libraries in below.items()}
    found = [name]
    for crate in found:
        found += [used for used in below[crate] if used in below and used not in found]
    return found


def last_change(name):
    """Returns when the newest source of the program, or of a library below it, was changed."""
    folders = [os.path.join(TOP, "crates", crate, "src") for crate in crates(name)]
    files = [os.path.join(folder, file) for top in folders for folder, _, names in os.walk(top)
             for file in names]
    return max(os.path.getmtime(file) for file in files)


def places(name):
    """Returns the paths of the program, or of the archives for both machines, once they are
    built."""
    if name == "rtr_c":
        return [os.path.join(TOP, "bindings", "lib", machine, ARCHIVE)
                for machine in ("x86_64", "aarch64")]
    return [os.path.join(TOP, "crates", name, "out", name + ending) for ending in ENDINGS]


@functools.cache
def fresh(name):
    """Returns the paths of the program that exist and are no older than its sources."""
    since = last_change(name)
    return [path for path in places(name)
            if os.path.isfile(path) and os.path.getmtime(path) >= since]


@functools.cache
def prebuilt(name):
    """Returns the path of the prebuilt program, or archive for x86-64, if nothing was built."""
    if any(os.path.isfile(path) for path in places(name)):
        return []
    return kept(name, os.path.join("x86_64", ARCHIVE if name == "rtr_c" else name))


def kept(name, file):
    """Returns the path of a file of prebuilt/, if it exists."""
    path = os.path.join(PREBUILT, file)
    if not os.path.isfile(path):
        return []
    with open(path, "rb") as data, open(os.path.join(PREBUILT, "SHA256SUMS")) as sums:
        if f"{hashlib.sha256(data.read()).hexdigest()}  {file}\n" not in sums:
            sys.exit(f"prebuilt/{file} isn't the one that prebuilt/SHA256SUMS names")
    if "PREBUILT_SAID" not in os.environ:
        print(f"!!! {name} wasn't built here: prebuilt/{file} is taken, which may be older than "
              "the sources", file=sys.stderr)
    return [path]


def needed(name, only_fresh=False):
    """Returns the picked paths of the program, of which one must be LLVM's."""
    found = fresh(name) or ([] if only_fresh else prebuilt(name))
    if not found or found[0].endswith(ENDINGS[1]):
        call = "bindings/build" if name == "rtr_c" else "rt run in its folder"
        sys.exit(f"{name} is missing or older than its sources: call .ci/run, or {call}")
    return found


def program(name):
    """Returns the path of the program as LLVM builds it."""
    return needed(name)[0]


def module(of="wasm32", only_fresh=False):
    """Returns the path of the module for WebAssembly with 32-bit (wasm32) or 64-bit memory
    (wasm64), or of the C file for other platforms (portable)."""
    name = os.path.join(of, MADE[of])
    path = os.path.join(TOP, "bindings", "lib", name)
    since = [last_change("rtr_c")]
    if of == "portable":
        since += [os.path.getmtime(os.path.join(TOP, "bindings", file)) for file in PORTABLE]
    if os.path.isfile(path) and os.path.getmtime(path) >= max(since):
        return path
    found = [] if only_fresh or os.path.isfile(path) else kept(name, name)
    if not found:
        sys.exit(f"{name} is missing or older than its sources: call bindings/build wasm64 wasm32 "
                 "portable")
    return found[0]


def script(path):
    """Loads a script of the repository as a module."""
    loader = SourceFileLoader(os.path.basename(path), os.path.join(TOP, path))
    module = module_from_spec(spec_from_loader(loader.name, loader))
    loader.exec_module(module)
    return module


def compiler():
    """Returns the C compiler of the kit, or without it the machine's."""
    if not shutil.which("rt"):
        return "cc"
    page = subprocess.run(["rt", "doc"], capture_output=True, text=True, check=True).stdout.strip()
    return os.path.join(os.path.dirname(page), "toolchain", "bin", "clang")


def compile_library(source, to):
    """Compiles a C file of the repository as a shared library to preload."""
    file = os.path.join(TOP, source)
    subprocess.run([compiler(), "-shared", "-fPIC", "-O1", "-o", to, file], check=True)


def main():
    only_fresh = sys.argv[1:2] == ["--fresh"]
    for asked in sys.argv[2 if only_fresh else 1:]:
        if asked in MADE:
            print(module(asked, only_fresh))
        else:
            print(*needed(asked, only_fresh), sep="\n")


if __name__ == "__main__":
    main()
