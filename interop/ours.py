"""Our clients and caches: the examples in each language."""
import collections
import contextlib
import glob
import itertools
import json
import os
import shutil
import subprocess
import sys
import threading

import payloads
import programs
from processes import Missing
from results import Pair

TOP = os.path.join(os.path.dirname(os.path.abspath(__file__)), "..")
SECONDS = 180

# The tools that build the examples, their sources, and the commands: {out} is the program.
# CGO_LDFLAGS and RTR_LIB_DIR select other archives than the prebuilt ones, and RTR_ARCHIVE that for
# C; RTR_CACHE_GO and similar variables name programs that are already built.
ARCHIVE = os.environ.get("RTR_ARCHIVE", "prebuilt/x86_64/librtr_wire.a")
BUILDS = {
    "C": (["cc"], "bindings/c/{name}.c", "bindings/c",
          ["cc", "-O2", "-o", "{out}", "{name}.c", "rtr_{name}.c",
           os.path.join("{top}", ARCHIVE)]),
    "Go": (["go", "cc"], "bindings/go/examples/{name}/main.go", "bindings/go",
           ["go", "build", "-buildvcs=false", "-o", "{out}", "./examples/{name}"]),
    "Rust": (["cargo", "cc"], "bindings/rust/examples/{name}.rs", "bindings/rust",
             ["cargo", "build", "--offline", "--quiet", "--release", "--example", "{name}"]),
}


# The command that builds the programs in Go.
BUILD = os.path.join(TOP, "programs", "build")


class Built:
    """What is built when it is first needed, unless a variable names it."""

    locks = collections.defaultdict(threading.Lock)

    def named(self):
        """Returns the path that a variable names, or None."""
        return None

    def lock(self):
        """Returns the lock of its build. What has another lock is built at the same time."""
        return Built.locks[self.path()]

    def built(self):
        """Returns its path. It is built first if needed."""
        if self.named():
            return self.named()
        if self.lacks():
            raise Missing(self.lacks())
        with self.lock():
            if not os.path.exists(self.path()):
                self.build()
        return self.path()


class Example(Built):
    """One of our examples in one language."""

    def __init__(self, language, name, folder):
        self.name = language
        self.example = name
        self.folder = folder

    def named(self):
        """Returns the program that a variable such as RTR_CACHE_GO names."""
        return os.environ.get(f"RTR_{self.example}_{self.name}".upper())

    def lacks(self):
        """Returns why it can't be built here, or None."""
        if self.named():
            return None
        tools, source, _, _ = BUILDS[self.name]
        path = source.format(name=self.example)
        if not os.path.exists(os.path.join(TOP, path)):
            return f"{path} isn't here"
        missing = [tool for tool in tools if shutil.which(tool) is None]
        return f"{missing[0]} isn't installed" if missing else None

    def path(self):
        """Returns the path of its program."""
        return os.path.join(self.folder, f"{self.example}_{self.name.lower()}")

    def words(self):
        """Returns its command."""
        return [self.built()]

    def build(self):
        """Builds it."""
        _, _, where, words = BUILDS[self.name]
        names = {"name": self.example, "out": self.path(), "top": os.path.abspath(TOP)}
        words = [word.format(**names) for word in words]
        target = os.path.join(self.folder, "cargo")
        setting = dict(os.environ, CARGO_TARGET_DIR=target)
        result = subprocess.run(words, cwd=os.path.join(TOP, where), env=setting, text=True,
                                capture_output=True, timeout=480, check=False)
        if result.returncode:
            raise OSError(f"{' '.join(words)}: {result.stderr[-500:]}")
        if self.name == "Rust":
            shutil.copy(os.path.join(target, "release", "examples", self.example), self.path())

    def fetch(self, port, version):
        """Returns what this client holds after one answer of a cache, as lines of `rtr_diff
        --json`."""
        words = [self.built(), f"127.0.0.1:{port}", "--once", "--json", "--version", str(version)]
        result = subprocess.run(words, capture_output=True, text=True, timeout=SECONDS, check=False)
        if result.returncode:
            errors = result.stderr[-300:]
            raise OSError(f"client in {self.name} ends with {result.returncode}: {errors}")
        return {payloads.as_line(json.loads(line)) for line in result.stdout.splitlines()}


class Program(Built):
    """A program in Go, by its name; RTR_CACHE and RTR_CLIENT name one that is already built."""

    # Our programs that it runs.
    NEEDS = {"rtr-cache": "rtr_make", "rtr-client": "rtr_list"}

    def __init__(self, name, folder):
        self.name = name
        self.folder = os.path.join(folder, "programs")

    def named(self):
        """Returns the program that a variable names."""
        return os.environ.get(self.name.replace("-", "_").upper())

    def lacks(self):
        """Returns why it can't be built here, or None."""
        if self.named():
            return None
        if shutil.which("go") is None:
            return "go isn't installed"
        if not programs.there(self.NEEDS[self.name]):
            return f"{self.NEEDS[self.name]} isn't in {programs.SHOWN}"
        listing = subprocess.run([BUILD, "--missing"], capture_output=True, text=True, check=True)
        missing = listing.stdout.split()
        return f"{missing[0]} isn't installed" if missing else None

    def path(self):
        """Returns the path of the program."""
        return os.path.join(self.folder, self.name)

    def lock(self):
        """Returns the lock of its folder, since one command builds all programs in it."""
        return Built.locks[self.folder]

    def build(self):
        """Builds all programs in Go."""
        result = subprocess.run([BUILD, self.folder], capture_output=True, text=True, timeout=480,
                                check=False)
        if result.returncode:
            raise OSError(f"programs/build: {result.stderr[-500:]}")

    def words(self):
        """Returns its command, with our programs in its path."""
        path = os.path.dirname(programs.path(self.NEEDS[self.name]))
        return ["env", f"PATH={path}:{os.environ['PATH']}", self.built()]


class InPython(Built):
    """The package for Python of this tree, with a shared library that is linked here."""

    name = "Python"
    FOLLOWS = os.path.join(TOP, "interop", "follow.py")
    CACHE = os.path.join(TOP, "bindings", "python", "examples", "cache.py")

    def __init__(self, folder, script=FOLLOWS):
        self.library = os.path.join(folder, "librtr_wire.so")
        self.script = script

    def lacks(self):
        """Returns why it can't be used here, or None."""
        return None if shutil.which("cc") else "cc isn't installed"

    def path(self):
        """Returns the path of the library."""
        return self.library

    def build(self):
        """Links the library."""
        archives = os.path.dirname(os.path.dirname(os.path.join(TOP, ARCHIVE)))
        words = [os.path.join(TOP, "bindings", "package.py"), "--archives", archives]
        result = subprocess.run([*words, "--library", self.library], capture_output=True,
                                text=True, timeout=SECONDS, check=False)
        if result.returncode:
            raise OSError(f"bindings/package.py: {result.stderr[-500:]}")

    def words(self):
        """Returns the command of the script: the client that follows a cache, or the cache."""
        package = os.path.join(TOP, "bindings", "python", "src")
        return ["env", f"RTR_WIRE_LIBRARY={self.built()}", f"PYTHONPATH={package}",
                "PYTHONDONTWRITEBYTECODE=yes", sys.executable, self.script]


class InNode:
    """The cache in JavaScript of this tree, over its prebuilt module."""

    name = "JavaScript"
    CACHE = os.path.join(TOP, "bindings", "js", "examples", "cache.js")

    def lacks(self):
        """Returns why it can't be used here, or None."""
        return None if shutil.which("node") else "node isn't installed"

    def words(self):
        """Returns its command."""
        if self.lacks():
            raise Missing(self.lacks())
        return ["node", self.CACHE]


class TokioTLS(Built):
    """The example `tls` of the crate for tokio, with Debian's crates; RTR_TLS_RUST names one that
    is already built."""

    REGISTRY = "/usr/share/cargo/registry"
    CRATES = ("tokio", "openssl", "tokio-openssl")
    PARTS = ("Cargo.toml", "build.rs", "src", "tests", "examples", "tokio")

    def __init__(self, folder):
        self.folder = os.path.join(folder, "tokio")

    def named(self):
        """Returns the program that the variable names."""
        return os.environ.get("RTR_TLS_RUST")

    def lacks(self):
        """Returns why it can't be built here, or None."""
        if self.named():
            return None
        missing = [tool for tool in ("cargo", "cc") if shutil.which(tool) is None]
        missing += [f"librust-{crate}-dev" for crate in self.CRATES
                    if not glob.glob(f"{self.REGISTRY}/{crate}-[0-9]*")]
        return f"{missing[0]} isn't installed" if missing else None

    def path(self):
        """Returns the path of the program."""
        return os.path.join(self.folder, "target/debug/examples/tls")

    def build(self):
        """Builds it in a copy, since cargo writes into its folder."""
        copy = os.path.join(self.folder, "bindings/rust")
        shutil.rmtree(copy, ignore_errors=True)  # what a build left that failed
        os.makedirs(copy)
        for name in self.PARTS:
            source = os.path.join(TOP, "bindings/rust", name)
            keep = shutil.ignore_patterns("target", "Cargo.lock")
            if os.path.isdir(source):
                shutil.copytree(source, os.path.join(copy, name), ignore=keep)
            else:
                shutil.copy(source, copy)
        libraries = os.environ.get("RTR_LIB_DIR", os.path.abspath(os.path.join(
            TOP, "prebuilt/x86_64")))
        setting = dict(os.environ, CARGO_TARGET_DIR=os.path.join(self.folder, "target"),
                       CARGO_PROFILE_DEV_DEBUG="0", RTR_LIB_DIR=libraries)
        words = ["cargo", "build", "--offline", "--quiet", "--example", "tls", "--config",
                 'source.crates-io.replace-with="debian"', "--config",
                 f'source.debian.directory="{self.REGISTRY}"']
        result = subprocess.run(words, cwd=os.path.join(copy, "tokio"), env=setting, text=True,
                                capture_output=True, timeout=480, check=False)
        if result.returncode:
            raise OSError(f"cargo: {result.stderr[-500:]}")


def clients(folder):
    """Returns our clients that can be built here."""
    examples = [Example(language, "client", folder) for language in BUILDS]
    return [example for example in examples if not example.lacks()]


def caches(folder):
    """Returns our caches that can be built here."""
    examples = [Example(language, "cache", folder) for language in BUILDS]
    return [example for example in examples if not example.lacks()]


def scripts(folder):
    """Returns our caches in languages that aren't compiled, whether they can be run here or not."""
    return [InPython(folder, InPython.CACHE), InNode()]


def build_all(folder):
    """Starts to build all of them; one that can't be built fails when it is used."""
    def build(example):
        with contextlib.suppress(OSError, subprocess.SubprocessError):
            example.built()
    more = [example for example in (Program("rtr-cache", folder), InPython(folder),
                                    TokioTLS(folder)) if not example.lacks()]
    for example in (*clients(folder), *caches(folder), *more):
        threading.Thread(target=build, args=(example,), daemon=True).start()


def say_absent(results, folder):
    """Prints which of our programs can't be built here."""
    with Pair(results, "our side", "our", "examples") as pair:
        for language, name in itertools.product(BUILDS, ("client", "cache")):
            lacks = Example(language, name, folder).lacks()
            if lacks:
                pair.skip(f"{name} in {language}", lacks)
        for script in scripts(folder):
            if lacks := script.lacks():
                pair.skip(f"cache in {script.name}", lacks)
    with Pair(results, "our side", "our", "programs") as pair:
        for name in Program.NEEDS:
            if lacks := Program(name, folder).lacks():
                pair.skip(name, lacks)
        for name in programs.NAMES:
            if not programs.there(name):
                pair.skip(name, f"it isn't in {programs.SHOWN}")
