#!/usr/bin/env python3
"""What tests/libraries/packages asks of the packages that bindings/package.py makes.

usage: packed.py names FOLDER..        each text file names only files that there are, and each
                                       folder has what each package has
       packed.py wheels FOLDER         the tags of each wheel fit what readelf says that its library
                                       needs, and there is one for x86_64 and one for aarch64
       packed.py unfit FOLDER          libraries that no tag fits are refused, and others get the
                                       tag of the glibc that they need; made in FOLDER by $CC
       packed.py proxy FOLDER TO       makes of the folder of a Go module what a proxy of Go has
       packed.py npm FOLDER            the list of `npm pack` on standard input, as JSON, or none,
                                       is that of package.json, and has all files of the folder but
                                       tests, and all that they import
       packed.py unpack FOLDER TO      copies what package.json lists, as npm does
       packed.py page FOLDER           a page with `<script type="module">` takes the library from
                                       the folder by its name, in Chromium; without one it is
                                       skipped, with a loud message
       packed.py crate FOLDER          that of `cargo package --list` has all of the folder but what
                                       belongs to other crates

Exits with status 1 where that isn't so.
"""
import json
import os
import pathlib
import re
import subprocess
import sys
import tempfile
import zipfile
from importlib.machinery import SourceFileLoader
from importlib.util import module_from_spec, spec_from_loader

TOP = pathlib.Path(__file__).resolve().parents[2]
sys.dont_write_bytecode = True

# The glibc of the older names of manylinux (PEP 513, 571 and 599).
OLDER = {"manylinux1": (2, 5), "manylinux2010": (2, 12), "manylinux2014": (2, 17)}
IN_EACH_C_LIBRARY = {"memcpy", "memmove", "memset"}  # ISO C, 7.24


def package():
    """Returns the script bindings/package.py as a module."""
    loader = SourceFileLoader("package", str(TOP / "bindings" / "package.py"))
    module = module_from_spec(spec_from_loader("package", loader))
    loader.exec_module(module)
    return module


def names(*folders):
    """Yields what folders lack."""
    named = package().named
    for top in map(pathlib.Path, folders):
        lacking = [name for name in ("README.md", "CHANGELOG.md", "LICENSE")
                   if not (top / name).exists()]
        for path in (path for path in sorted(top.rglob("*")) if path.is_file()):
            try:
                found = named(path.read_text())
            except UnicodeDecodeError:
                continue
            lacking += [f"{name}, which {path.relative_to(top)} names" for name in sorted(found)
                        if not (top / name).exists() and not (path.parent / name).exists()]
        yield from (f"{top} lacks {name}" for name in lacking)


def output_of(*words):
    """Returns the output of a command."""
    return subprocess.run(words, capture_output=True, text=True, check=True,
                          env={**os.environ, "LC_ALL": "C"}).stdout


def needs(library):
    """Returns the machine of a library, the libraries that it needs, the newest glibc, and the
    symbols that it lacks, as readelf says."""
    machine = re.search(r"Machine: +(.*)", output_of("readelf", "-h", library))[1]
    machine = {"Advanced Micro Devices X86-64": "x86_64", "AArch64": "aarch64"}[machine]
    libraries = set(re.findall(r"\(NEEDED\).*\[(.*)\]", output_of("readelf", "-d", library)))
    versions = re.findall(r"Name: GLIBC_(\d+)\.(\d+)", output_of("readelf", "-V", library))
    symbols = re.findall(r"GLOBAL +DEFAULT +UND (\w+)",
                         output_of("readelf", "-W", "--dyn-syms", library))
    newest = max((tuple(map(int, version)) for version in versions), default=(0, 0))
    return machine, libraries, newest, set(symbols)


def misfits(tag, machine, libraries, glibc, symbols):
    """Yields why a platform's tag doesn't fit what a library needs."""
    name, _, version = tag.removesuffix(f"_{machine}").partition("_")
    if not tag.endswith(f"_{machine}"):
        yield f"it is for {machine}"
    if name == "musllinux":
        if libraries or symbols - IN_EACH_C_LIBRARY:
            yield f"it needs {libraries | symbols}"
        return
    least = OLDER[name] if name in OLDER else tuple(map(int, version.split("_")))
    if glibc > least:
        yield f"it needs glibc {glibc}"
    if libraries - {"libc.so.6"} or not libraries and symbols - IN_EACH_C_LIBRARY:
        yield f"it needs {libraries | symbols}"


def wheels(folder):
    """Yields which tag of a wheel is wrong."""
    machines = []
    for wheel in sorted(pathlib.Path(folder).glob("*.whl")):
        tags = wheel.stem.split("-")[-1].split(".")
        with zipfile.ZipFile(wheel) as zipped, tempfile.TemporaryDirectory() as to:
            library = zipped.extract("rtr_wire/librtr_wire.so", to)
            found = needs(library)
            machines.append(found[0])
            listed = zipped.read(next(name for name in zipped.namelist()
                                      if name.endswith("/WHEEL"))).decode()
            if re.findall(r"^Tag: py3-none-(.*)$", listed, re.MULTILINE) != tags:
                yield f"{wheel.name}: WHEEL has other tags"
            for tag in tags:
                yield from (f"{wheel.name}: {tag}: {why}" for why in misfits(tag, *found))
        print(f"{wheel.name}: needs {', '.join(sorted(found[1] | found[3]))}")
    if sorted(machines) != ["aarch64", "x86_64"]:
        yield f"wheels for {machines}"


# Of libraries the C code, the flags, and the tag or what the refusal says.
LIBRARIES = (
    ("int one(void) { return 1; }", ["-nostdlib"], "manylinux_2_17"),
    ("double cos(double); double one(double x) { return cos(x); }", ["-lm"], "libm.so.6"),
    ("int other(void); int one(void) { return other(); }", ["-nostdlib"], "other"),
    # pthread_create moved to libc.so.6 in glibc 2.34.
    ("int pthread_create(void); int one(void) { return pthread_create(); }", [], "manylinux_2_34"))


def unfit(folder):
    """Yields which library got a wrong tag, or was refused in other words."""
    platforms = package().platforms
    for number, (code, flags, expected) in enumerate(LIBRARIES):
        source, library = (pathlib.Path(folder, f"library{number}.{kind}") for kind in ("c", "so"))
        source.write_text(code)
        subprocess.run([os.environ.get("CC", "cc"), "-w", "-fno-builtin", "-shared", "-fPIC", "-o",
                        library, source, *flags], check=True)
        try:
            answer = platforms.tag(library)
        except platforms.Unfit as refusal:
            answer = str(refusal)
        if expected not in answer:
            yield f"{code}: {answer}"


def proxy(folder, to):
    """Makes what `go get` asks a proxy for (the GOPROXY protocol)."""
    script = package()
    module = re.search(r"^module (\S+)$", (pathlib.Path(folder) / "go.mod").read_text(),
                       re.MULTILINE)[1]
    version = f"v{script.version()}"
    at = pathlib.Path(to, module, "@v")
    at.mkdir(parents=True)
    (at / "list").write_text(f"{version}\n")
    (at / f"{version}.info").write_text(json.dumps({"Version": version}))
    (at / f"{version}.mod").write_bytes((pathlib.Path(folder) / "go.mod").read_bytes())
    with zipfile.ZipFile(at / f"{version}.zip", "w") as zipped:
        for name, data in script.packed(pathlib.Path(folder), f"{module}@{version}/").items():
            zipped.writestr(name, data)
    return []


def below(folder):
    """Returns the names of the files below a folder."""
    return {str(path.relative_to(folder)) for path in pathlib.Path(folder).rglob("*")
            if path.is_file()}


def listed_by(folder):
    """Returns the files that package.json lists, and those that npm packs always."""
    top = pathlib.Path(folder)
    found = [top / name for name in ("package.json", "README.md", "LICENSE")]
    for pattern in json.loads((top / "package.json").read_text())["files"]:
        found += [file for path in top.glob(pattern) for file in (path, *path.rglob("*"))]
    return {str(path.relative_to(top)) for path in found if path.is_file()}


def unpack(folder, to):
    """Copies what package.json lists."""
    for name in listed_by(folder):
        file = pathlib.Path(to, name)
        file.parent.mkdir(parents=True, exist_ok=True)
        file.write_bytes(pathlib.Path(folder, name).read_bytes())
    return []


def npm(folder):
    """Yields the files that the list of npm lacks, or has without need."""
    listing = sys.stdin.read()
    listed = listed_by(folder)
    if listing:
        by_npm = {file["path"] for file in json.loads(listing)[0]["files"]}
        yield from (f"npm and package.json differ in {name}" for name in sorted(by_npm ^ listed))
    expected = {name for name in below(folder) if not name.startswith("tests/")}
    yield from (f"npm leaves out {name}" for name in sorted(expected - listed))
    yield from (f"npm packs {name}" for name in sorted(listed - expected))
    for name in sorted(name for name in listed if name.endswith((".js", ".d.ts"))):
        text = pathlib.Path(folder, name).read_text()
        for other in re.findall(r'(?:from|import|URL\() ?"(\.[^"]*)"', text):
            inside = os.path.normpath(os.path.join(os.path.dirname(name), other))
            if inside not in listed:
                yield f"{name} takes {inside}, which npm leaves out"


# A page as a site has it that serves the package's files, without a bundler.
PAGE = """<!DOCTYPE html><meta charset="utf-8">
<script type="importmap">{"imports": {"rtr-wire": "/rtr_wire.js"}}</script>
<script type="module">
import { load } from "rtr-wire";
const prefix = Uint8Array.of(1, 4, 0, 0, 0, 0, 0, 20, 1, 23, 26, 0, 192, 0, 2, 0, 0, 1, 0, 15);
document.body.dataset.said = (await load()).unitLine(prefix, 0);
</script><body>"""
SHOWN = "0 v1 IPv4 prefix announce 192.0.2.0/23-26 AS65551"


def page(folder):
    """Yields what a browser shows otherwise than it should."""
    sys.path.insert(0, str(TOP / "tests" / "pages"))
    import browser  # noqa: E402  (it lies in another folder)

    if browser.found() is None:
        print("!!! tests/libraries/packages: no chromium here: SKIPPED the package in a page")
        return
    with tempfile.TemporaryDirectory() as to:
        path = pathlib.Path(to, "page.html")
        path.write_text(PAGE)
        with browser.serving(folder, {"/page.html": str(path)}) as url:
            chromium = browser.Browser(browser.found())
            try:
                chromium.open(f"{url}/page.html")
                shown = chromium.wait("document.body && document.body.dataset.said")
            except browser.Wrong as wrong:
                shown = f"{wrong}: {chromium.complaints()}"
            finally:
                chromium.close()
    if shown != SHOWN:
        yield f"the page shows {shown}"


def crate(folder):
    """Yields the files that the list of cargo lacks, or has without need."""
    listed = set(sys.stdin.read().split()) - {"Cargo.toml.orig", "Cargo.lock"}
    expected = {name for name in below(folder)
                if not name.startswith("tokio/") and name != "Cargo.lock"}
    yield from (f"cargo leaves out {name}" for name in sorted(expected - listed))
    yield from (f"cargo packs {name}" for name in sorted(listed - expected))


def main():
    known = {"names": names, "wheels": wheels, "unfit": unfit, "proxy": proxy, "npm": npm,
             "unpack": unpack, "page": page, "crate": crate}
    if len(sys.argv) < 3 or sys.argv[1] not in known:
        print(__doc__)
        return 2
    wrong = list(known[sys.argv[1]](*sys.argv[2:]))
    for line in wrong:
        print(f"tests/libraries/packages: {line}", file=sys.stderr)
    return 1 if wrong else 0


if __name__ == "__main__":
    sys.exit(main())
