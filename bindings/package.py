#!/usr/bin/env python3
"""Makes self-contained packages, or installs the library for C.

usage: package.py [--archives FOLDER] [--module PATH] [--repository URL] FOLDER
       package.py [--archives FOLDER] [--machine NAME] --prefix FOLDER
       package.py [--archives FOLDER] [--machine NAME] --library FILE

The first form makes in FOLDER, which must not have any of them yet,

    go/                         a Go module, for the root of the repository of the path PATH, and in
                                go/programs a module with the programs in Go
    rust/                       a crate, for `cargo publish`, or `cargo add --path`, and in
                                rust/tokio the crate for tokio
    python/                     a wheel for each machine, and a source archive, for `pip install`,
                                which compiles the C file of prebuilt/portable on other platforms
    js/                         a folder, for `npm publish` and `npm install`, with the module for
                                WebAssembly and the page that shows recordings
    rtr_wire-VERSION.tar.gz     for C: headers, archives for x86-64 and aarch64, the C file for
                                other platforms, files for pkg-config and CMake, the sources of the
                                client and the cache, programs for x86-64, man pages

The second puts headers, the shared library with the client and the cache, archives of all three and
the sources of both, files for pkg-config and CMake, programs and man pages under FOLDER, for this
machine or the one named (x86_64, aarch64). $CC, or cc, compiles and links, with $CPPFLAGS, $CFLAGS
and $LDFLAGS. The third links only the shared library of the calls of rtr.h.

Each has a README, the licence, the pages that its comments name, and the entries of CHANGELOG.md
about what it has.

PATH and URL are those that release/published has, or the variables RTR_MODULE and RTR_REPOSITORY.
Archives and programs are those of prebuilt; --archives has another folder of archives, as
bindings/lib, in which bindings/build leaves them. The same archives give the same packages.
"""
import argparse
import base64
import gzip
import hashlib
import io
import json
import os
import pathlib
import platform
import re
import shutil
import subprocess
import sys
import tarfile
import tempfile

TOP = pathlib.Path(__file__).resolve().parent.parent
sys.dont_write_bytecode = True
sys.path.insert(0, str(TOP / "bindings" / "python"))

import backend
import platforms

PREBUILT = TOP / "prebuilt"
PAGES = sorted((TOP / "docs" / "man").glob("rtr_*.1"))
NAME = "rtr_wire"
ARCHIVE = f"lib{NAME}.a"

# The machines that have archives, and Go's names of them.
MACHINES = {"x86_64": "amd64", "aarch64": "arm64"}

# The build script's path of the archives in the repository, and in a package.
IN_CRATE = (("; else,\n//! in its repository, from `prebuilt`.", "."),
            ('["lib", "../../prebuilt"]', '["lib"]'),
            ('["portable/rtr_wire.c", "../../prebuilt/portable/rtr_wire.c"]',
             '["portable/rtr_wire.c"]'),
            ('["rtr.h", "../c/rtr.h"]', '["rtr.h"]'))

# Where the Go package has the C file for other platforms in the repository, the paths of the
# modules there, and lines of imports.
IN_GO = "../../prebuilt/portable/rtr_wire.c"
GO_LIBRARY, GO_PROGRAMS = "fishreef/rtr", "fishreef/programs"
# The package of the programs that only their tests use.
GO_TESTS = pathlib.PurePath("internal", "trial")
IMPORTS = re.compile(r'(?m)(?:^\t(?:\w+ )?"[^"\n]+"\n)+')

# Where the page of inspector/ loads the library from in the repository, and in a package.
IN_PAGE = (("../bindings/js/", "../"), ("../prebuilt/wasm32/", "../"),
           ("// The path of the library, in the repository.",
            "// The path of the library, above this folder."))

# The same for the library's module.
IN_MODULE = (("../../prebuilt/wasm32/", "./"),
             ("; in the repository it is in prebuilt/.", "; it is beside this file."))

# The files of C besides the archive: headers of its calls, and what is compiled with it: a client
# and a cache without sockets, a program over each, and others.
ENDS = ("client", "cache")
CALLS = ("rtr.h", "rtr_abi.h")
HEADERS = (*CALLS, *(f"rtr_{name}.h" for name in ENDS))
SOURCES = (*(file for name in ENDS for file in (f"rtr_{name}.c", f"{name}.c")), "client_tls.c",
           "link.c", "rtr_shared.h")

# The pages that comments name, and how files and folders of the repository are named.
DOCUMENTS = ("PROTOCOL.md", "SESSIONS.md")
NAMED = re.compile(r"(?<![\w./-])([A-Z]{4,}\.md|"
                   r"(?:docs|bindings|crates|bench|fuzz|interop|prebuilt|programs|tests|\.ci)/"
                   r"(?:[\w./*-]*\w)?)")

# The entries of CHANGELOG.md that a package has, by its language.
ENTRIES = {"go": re.compile(r".*\bGo\b", re.DOTALL), "rust": re.compile(r".*\bRust\b", re.DOTALL),
           "python": re.compile(r".*\bPython\b", re.DOTALL),
           "js": re.compile(r".*\bJavaScript\b", re.DOTALL),
           "c": re.compile(r"- (?!For Rattle|For Go|In Go|In Rust|In Python|In JavaScript)")}


def version():
    """Returns the version that rtr_wire.pc names, as CHANGELOG.md does."""
    text = (TOP / "bindings" / "c" / f"{NAME}.pc").read_text()
    return re.search(r"^Version: (\S+)$", text, re.MULTILINE)[1]


def check_sums():
    """Exits if a file of prebuilt doesn't match its checksum."""
    for line in (PREBUILT / "SHA256SUMS").read_text().splitlines():
        checksum, file = line.split()
        if hashlib.sha256((PREBUILT / file).read_bytes()).hexdigest() != checksum:
            sys.exit(f"prebuilt/{file} isn't the one that prebuilt/SHA256SUMS names")


def programs(machine):
    """Returns the prebuilt programs for a machine: all of its folder but the archive."""
    files = sorted((PREBUILT / machine).glob("*"))
    return [file for file in files if not file.suffix]


def pkg_config(*lines, name=NAME, flags):
    """Returns the text of a file for pkg-config of this name: these lines, which set variables, the
    fields of rtr_wire.pc, and flags."""
    text = (TOP / "bindings" / "c" / f"{NAME}.pc").read_text()
    fields = re.search(r"^Name: .*^License: .*?$", text, re.MULTILINE | re.DOTALL)[0]
    fields = fields.replace(f"Name: {NAME}\n", f"Name: {name}\n")
    return "\n".join([*lines, "", fields, *flags, ""])


def pkg_config_files(prefix):
    """Returns the files for pkg-config of an installation, by their names: the calls of rtr.h; the
    client and the cache, too; and both as archives or by the shared library, as in 0.2."""
    lines = (f"prefix={prefix}", "includedir=${prefix}/include", "libdir=${prefix}/lib")
    ends = " ".join(f"-lrtr_{name}" for name in ENDS)
    there = "Cflags: -I${includedir}"
    return {"rtr-wire": pkg_config(*lines, name="rtr-wire", flags=[
                there, f"Libs: -L${{libdir}} -l{NAME}"]),
            "rtr-client": pkg_config(*lines, name="rtr-client", flags=[
                f"Requires: rtr-wire = {version()}", there, "Libs: -L${libdir}",
                f"Libs.private: {ends}"]),
            NAME: pkg_config(*lines, flags=[there, f"Libs: -L${{libdir}} {ends} -l{NAME}"])}


def cmake_files(to):
    """Writes the files of find_package(rtr_wire) into a folder."""
    for file in sorted((TOP / "bindings" / "c" / "cmake").glob("*.cmake")):
        write(to / file.name, file.read_text().replace("@VERSION@", version()))


def version_script():
    """Returns the version script of the shared library: before 1.0 each second number of a version
    has symbol versions of its own, so that the loader refuses a program of another by name."""
    series = ".".join(version().split(".")[:2])
    return f"RTR_WIRE_{series} {backend.SHOWN}"


def named(text):
    """Returns the files and folders of the repository that a text names."""
    return set(NAMED.findall(text))


def documents(language, to):
    """Copies README, licence and pages into a folder, and the entries of CHANGELOG.md about its
    files."""
    copy(TOP / "LICENSE", to / "LICENSE")
    readme = (TOP / "bindings" / language / "README.md").read_text()
    write(to / "README.md", re.sub(r"(?m)^<!-- shown: .* -->\n", "", readme))
    for page in DOCUMENTS:
        copy(TOP / "docs" / page, to / "docs" / page)
    heading, *versions = re.split(r"(?m)^(?=## )", (TOP / "CHANGELOG.md").read_text())
    kept = [heading.split("\n")[0] + "\n\n"]
    there = {"README.md", "CHANGELOG.md", *(f"docs/{page}" for page in DOCUMENTS)}
    for version in versions:
        front, *entries = re.split(r"(?m)^(?=- )", version)
        kept += [front] + [entry.rstrip() + "\n" for entry in entries
                           if ENTRIES[language].match(entry) and named(entry) <= there] + ["\n"]
    write(to / "CHANGELOG.md", "".join(kept).rstrip() + "\n")


def copy(source, target, mode=0o644):
    """Copies a file, and creates its parent folders."""
    target.parent.mkdir(parents=True, exist_ok=True)
    shutil.copyfile(source, target)
    target.chmod(mode)


def write(target, text):
    """Writes a file, and creates its parent folders."""
    target.parent.mkdir(parents=True, exist_ok=True)
    target.write_text(text)


def calls(to):
    """Copies the headers of the archive's calls into a folder."""
    for name in CALLS:
        copy(TOP / "bindings" / "c" / name, to / name)


def change(file, *changes):
    """Replaces texts of a file; fails if one is missing."""
    text = file.read_text()
    for old, new in changes:
        assert old in text, f"{file} lacks {old}"
        text = text.replace(old, new)
    file.write_text(text)


def published(name):
    """Returns where releases are published, by the name in release/published."""
    text = (TOP / "release" / "published").read_text()
    return re.search(rf"^{name}=(\S+)$", text, re.MULTILINE)[1]


def go_module(archives, module, to):
    """Makes the Go module: header and archives are in the folder of the code, so that `go mod
    vendor`, which drops folders without Go files, keeps them."""
    bindings = TOP / "bindings"
    flags = ["#cgo CFLAGS: -I${SRCDIR}"]
    for machine, name in MACHINES.items():
        archive = f"lib{NAME}_{name}.a"
        copy(archives / machine / ARCHIVE, to / archive)
        flags.append(f"#cgo linux,{name} LDFLAGS: ${{SRCDIR}}/{archive}")
    calls(to)
    copy(bindings / "go" / "calls.h", to / "calls.h")
    go_files(bindings / "go", module, to, "\n".join(flags) + "\n")
    portable(archives, to)
    if (to / "portable").exists():
        # As a header, since a C file would be compiled on all platforms, and without its folder,
        # since go mod vendor drops that.
        (to / "portable" / f"{NAME}.c").rename(to / "portable.h")
        (to / "portable").rmdir()
        text = (bindings / "go" / "portable.c").read_text()
        write(to / "portable.c", text.replace(IN_GO, "portable.h"))
    documents("go", to)
    change(to / "README.md", (f'"{GO_LIBRARY}"', f'"{module}"'))


def go_files(source, module, to, flags=""):
    """Copies the Go files of a folder but tests, and its go.mod, with the paths below a module's;
    tests that are examples are documentation. `flags` are the lines for cgo."""
    for file in [source / "go.mod", *sorted(source.rglob("*.go"))]:
        inside = file.relative_to(source)
        is_test = file.name.endswith("_test.go") and not file.name.startswith("example")
        if is_test or inside.is_relative_to(GO_TESTS):
            continue
        text = re.sub(r"(?m)^(#cgo .*\n)+", flags, file.read_text())
        for old, new in ((GO_LIBRARY, module), (GO_PROGRAMS, f"{module}/programs")):
            text = re.sub(rf'(?m)(["`]|^module ){old}\b', rf"\g<1>{new}", text)
        write(to / inside, IMPORTS.sub(in_order, text))


def in_order(imports):
    """Returns the lines of imports in the order that gofmt has."""
    return "".join(sorted(imports[0].splitlines(True), key=lambda line: line.split('"')[1]))


def go_programs(module, to):
    """Makes the module of the programs in Go, below that of the library, whose version it needs,
    with its checksums in go.sum."""
    library = to.parent
    sums = [line for line in (TOP / "programs" / "go.sum").read_text().splitlines(True)]
    module_version = f"{module} v{version()}"
    for name, files in (("", packed(library, f"{module}@v{version()}/")),
                        ("/go.mod", {"go.mod": (library / "go.mod").read_bytes()})):
        sums.append(f"{module_version}{name} {module_sum(files)}\n")
    go_files(TOP / "programs", module, to)
    text = (to / "go.mod").read_text()
    text = re.sub(rf"\n+replace {GO_LIBRARY} .*\n", "\n", text)
    write(to / "go.mod", text.replace(f"\t{GO_LIBRARY} v0.0.0\n", f"\t{module_version}\n"))
    write(to / "go.sum", "".join(sorted(sums)))
    copy(TOP / "LICENSE", to / "LICENSE")


def packed(folder, front=""):
    """Returns the files of a Go module by their names, after this front: all but those of modules
    in folders below."""
    inner = [path.parent for path in folder.rglob("go.mod") if path.parent != folder]
    return {f"{front}{path.relative_to(folder)}": path.read_bytes()
            for path in sorted(folder.rglob("*"))
            if path.is_file() and not any(path.is_relative_to(other) for other in inner)}


def module_sum(files):
    """Returns the checksum of files as go.sum has it."""
    lines = "".join(f"{hashlib.sha256(files[name]).hexdigest()}  {name}\n"
                    for name in sorted(files))
    return "h1:" + base64.b64encode(hashlib.sha256(lines.encode()).digest()).decode()


def portable_file(archives):
    """Returns the C file for platforms without an archive, or None."""
    found = [folder / "portable" / f"{NAME}.c" for folder in (archives, PREBUILT)]
    return next((file for file in found if file.exists()), None)


def portable(archives, to):
    """Puts the C file for platforms without an archive below a folder."""
    found = portable_file(archives)
    if found is None:
        print(f"bindings/package.py: no portable/{NAME}.c here: {to.name} is only for Linux on "
              "x86-64 and aarch64", file=sys.stderr)
        return
    copy(found, to / "portable" / found.name)


def rust_crate(archives, repository, to):
    """Makes the crate: its build.rs takes the archives from the folder lib beside it. That for
    tokio needs this version of it."""
    left_out = shutil.ignore_patterns("target", "tests", "Cargo.lock", "generate.py")
    shutil.copytree(TOP / "bindings" / "rust", to, ignore=left_out)
    for machine in MACHINES:
        copy(archives / machine / ARCHIVE, to / "lib" / machine / ARCHIVE)
    portable(archives, to)
    calls(to)
    documents("rust", to)
    script = (to / "build.rs").read_text()
    for old, new in IN_CRATE:
        assert script.count(old) == 1
        script = script.replace(old, new)
    write(to / "build.rs", script)
    change(to / "Cargo.toml", (published("RTR_REPOSITORY"), repository))
    change(to / "tokio" / "Cargo.toml", (published("RTR_REPOSITORY"), repository),
           ('rtr-wire = { path = ".." }', f'rtr-wire = {{ version = "{version()}", path = ".." }}'))
    copy(TOP / "LICENSE", to / "tokio" / "LICENSE")


def compiler_for(machine):
    """Returns the linker for a machine, as words of a command, or None."""
    if machine == platform.machine():
        return [os.environ.get("CC", "cc")]
    if shutil.which(f"{machine}-linux-gnu-gcc"):
        return [f"{machine}-linux-gnu-gcc"]
    if shutil.which("clang") and shutil.which("ld.lld"):
        return ["clang", f"--target={machine}-linux-gnu", "-fuse-ld=lld"]
    return None


def python_source(archives, repository, to):
    """Makes the source archive for Python, which links the archive that it has, or compiles the C
    file where that has none."""
    with tempfile.TemporaryDirectory() as folder:
        documents("python", pathlib.Path(folder))
        pages = {str(path.relative_to(folder)): path
                 for path in sorted(pathlib.Path(folder).rglob("*")) if path.is_file()}
        backend.source_archive({machine: archives / machine / ARCHIVE for machine in MACHINES},
                               portable_file(archives), pages, to, repository)


def python_packages(archives, repository, to):
    """Makes the wheel for each machine that something here links for, whose library needs no C
    library of its own, so that it fits systems with glibc and with musl; and the source archive."""
    to.mkdir()
    for machine in MACHINES:
        compiler = compiler_for(machine)
        if compiler is None:
            print(f"!!! bindings/package.py: nothing here links for {machine}: it has no wheel",
                  file=sys.stderr)
            continue
        with tempfile.TemporaryDirectory() as folder:
            library = pathlib.Path(folder, backend.LIBRARY)
            backend.link(archives / machine / ARCHIVE, library, soname(), compiler, hosted=False)
            backend.wheel(library, platforms.tag(library), to, repository)
    python_source(archives, repository, to)


def js_package(archives, repository, to):
    """Makes the folder for npm: the modules are in the folder of the code, and the page in a
    subfolder. Of the tests it has the one that takes the library by its name."""
    for memory, name in (("wasm32", f"{NAME}.wasm"), ("wasm64", f"{NAME}64.wasm")):
        module = pathlib.Path(memory, f"{NAME}.wasm")
        found = [folder / module for folder in (archives, PREBUILT) if (folder / module).exists()]
        if not found:
            print(f"bindings/package.py: no {module} here: no package for JavaScript",
                  file=sys.stderr)
            return
        copy(found[0], to / name)
    left_out = shutil.ignore_patterns("tests", "generate.py")
    shutil.copytree(TOP / "bindings" / "js", to, ignore=left_out, dirs_exist_ok=True)
    shutil.copytree(TOP / "inspector", to / "inspector")
    copy(TOP / "bindings" / "c" / "rtr.h", to / "rtr.h")
    copy(TOP / "bindings" / "js" / "tests" / "installed.js", to / "tests" / "installed.js")
    manifest = json.loads((to / "package.json").read_text())
    manifest["scripts"]["test"] = "node tests/installed.js"
    write(to / "package.json", json.dumps(manifest, indent=4) + "\n")
    change(to / "package.json", (published("RTR_REPOSITORY"), repository))
    documents("js", to)
    change(to / "inspector" / "library.js", *IN_PAGE)
    change(to / "module.js", *IN_MODULE)


def c_files(headers, sources):
    """Copies the headers, and the sources of the client and the cache, into these folders."""
    for names, folder in ((HEADERS, headers), (SOURCES, sources)):
        for name in names:
            copy(TOP / "bindings" / "c" / name, folder / name)


def c_folder(archives, to):
    """Makes the folder that the tar file for C has."""
    c_files(to / "include", to / "src")
    portable(archives, to)
    for machine in MACHINES:
        copy(archives / machine / ARCHIVE, to / "lib" / machine / ARCHIVE)
        for program in programs(machine):
            copy(program, to / "bin" / machine / program.name, 0o755)
    for page in PAGES:
        copy(page, to / "share" / "man" / "man1" / page.name)
    documents("c", to)
    cmake_files(to / "lib" / "cmake" / NAME)
    write(to / f"{NAME}.pc", pkg_config(
        "# --define-variable=machine=aarch64 for that machine; --variable=client is the client,",
        "# and --variable=cache the cache.",
        "machine=x86_64", "includedir=${pcfiledir}/include", "libdir=${pcfiledir}/lib/${machine}",
        *(f"{name}=${{pcfiledir}}/src/rtr_{name}.c" for name in ENDS),
        flags=["Cflags: -I${includedir}", f"Libs: -L${{libdir}} -l{NAME}"]))


def c_tar(archives, to):
    """Makes the tar file for C, without owners and times."""
    folder = f"{NAME}-{version()}"
    tar_bytes = io.BytesIO()
    with tempfile.TemporaryDirectory() as top, tarfile.open(fileobj=tar_bytes, mode="w") as tar:
        c_folder(archives, pathlib.Path(top, folder))
        for file in sorted(path for path in pathlib.Path(top).rglob("*") if path.is_file()):
            entry = tar.gettarinfo(file, file.relative_to(top))
            entry.mtime = entry.uid = entry.gid = 0
            entry.uname = entry.gname = ""
            with file.open("rb") as data:
                tar.addfile(entry, data)
    (to / f"{folder}.tar.gz").write_bytes(gzip.compress(tar_bytes.getvalue(), mtime=0))


def soname():
    """Returns the soname of the shared library."""
    return f"lib{NAME}.so.{version().split('.')[0]}"


def shared_library(to):
    """Links the shared library from the archives in a folder, and makes the symbolic links that C
    programs need."""
    real = f"lib{NAME}.so.{version()}"
    backend.link(to / ARCHIVE, to / real, soname(), shown=version_script(),
                 more=[to / f"librtr_{name}.a" for name in ENDS])
    for other, target in ((soname(), real), (f"lib{NAME}.so", soname())):
        (to / other).unlink(missing_ok=True)
        (to / other).symlink_to(target)


def archive_of(name, to):
    """Compiles the client or the cache, and makes an archive of it, without owners and times."""
    sources = TOP / "bindings" / "c"
    with tempfile.TemporaryDirectory() as folder:
        object_file = pathlib.Path(folder, f"rtr_{name}.o")
        flags = " ".join(os.environ.get(name, "") for name in ("CPPFLAGS", "CFLAGS")).split()
        command = [os.environ.get("CC", "cc"), "-std=c11", "-O2", *flags, "-fPIC", "-I", sources,
                   "-c",
                   sources / f"rtr_{name}.c", "-o", object_file]
        if subprocess.run(command).returncode != 0:
            sys.exit(f"the {name} wasn't compiled: for another machine set CC to its compiler")
        archive = to / f"librtr_{name}.a"
        archive.unlink(missing_ok=True)
        subprocess.run([os.environ.get("AR", "ar"), "rcsD", archive, object_file], check=True)


def install(archives, machine, prefix):
    """Installs all that C programs need of the library, and the programs, under a folder."""
    c_files(prefix / "include", prefix / "share" / NAME)
    copy(archives / machine / ARCHIVE, prefix / "lib" / ARCHIVE)
    for name in ENDS:
        archive_of(name, prefix / "lib")
    shared_library(prefix / "lib")
    for name, text in pkg_config_files(prefix).items():
        write(prefix / "lib" / "pkgconfig" / f"{name}.pc", text)
    cmake_files(prefix / "lib" / "cmake" / NAME)
    for program in programs(machine):
        copy(program, prefix / "bin" / program.name, 0o755)
    for page in PAGES:
        copy(page, prefix / "share" / "man" / "man1" / page.name)
    documents("c", prefix / "share" / "doc" / NAME)


def main():
    parser = argparse.ArgumentParser(
        description=__doc__, formatter_class=argparse.RawDescriptionHelpFormatter)
    parser.add_argument("folder", nargs="?", type=pathlib.Path)
    parser.add_argument("--archives", type=pathlib.Path, default=PREBUILT)
    parser.add_argument("--module")
    parser.add_argument("--repository")
    parser.add_argument("--machine", choices=MACHINES, default=platform.machine())
    parser.add_argument("--prefix", type=pathlib.Path)
    parser.add_argument("--library", type=pathlib.Path)
    args = parser.parse_args()
    if [args.folder, args.prefix, args.library].count(None) != 2:
        parser.error("give a folder for packages, --prefix with one to install under, or --library")
    if (PREBUILT / "SHA256SUMS").exists() or args.archives == PREBUILT:
        check_sums()
    if args.library:
        backend.link(args.archives / args.machine / ARCHIVE, args.library, soname())
        return
    if args.prefix:
        install(args.archives, args.machine, args.prefix.absolute())
        return
    for package in (args.folder / name for name in ("go", "rust", "python", "js")):
        if package.exists():
            sys.exit(f"{package} is there already")
    args.folder.mkdir(parents=True, exist_ok=True)
    module, repository = (given or os.environ.get(name) or published(name) for given, name in
                          ((args.module, "RTR_MODULE"), (args.repository, "RTR_REPOSITORY")))
    go_module(args.archives, module, args.folder / "go")
    go_programs(module, args.folder / "go" / "programs")
    rust_crate(args.archives, repository, args.folder / "rust")
    python_packages(args.archives, repository, args.folder / "python")
    js_package(args.archives, repository, args.folder / "js")
    c_tar(args.archives, args.folder)


if __name__ == "__main__":
    main()
