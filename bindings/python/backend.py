"""Builds the wheel and the source archive, for pip and build (PEP 517) and for releases, with only
Python's standard library: the same files give the same bytes."""
import base64
import gzip
import hashlib
import io
import json
import os
import pathlib
import platform
import re
import shutil
import subprocess
import sys
import sysconfig
import tarfile
import tempfile
import zipfile

HERE = pathlib.Path(__file__).resolve().parent
NAME = "rtr_wire"
SOURCES = HERE / "src" / NAME
ARCHIVE = f"lib{NAME}.a"
LIBRARY = f"lib{NAME}.so"

# The headers of the C file for other platforms: beside this file, or in the repository.
HEADERS = ("rtr.h", "rtr_abi.h")

# The pages that docstrings name: beside this file, or in the repository.
DOCUMENTS = ("docs/PROTOCOL.md", "docs/SESSIONS.md")

# A version script that exports symbols without a version.
SHOWN = "{ global: rtr_*; local: *; };\n"

# The machines that have archives.
MACHINES = ("x86_64", "aarch64")

METADATA = """Metadata-Version: 2.1
Name: {name}
Version: {version}
Summary: {description}
License: {license}
License-File: LICENSE
Keywords: {keywords}
Project-URL: Repository, {repository}
Requires-Python: {python}
{classifiers}
Description-Content-Type: text/markdown

{readme}"""


def version():
    """Returns the version of rtr.h."""
    text = (SOURCES / "_rtr.py").read_text()
    return re.search(r'^VERSION = "([^"]+)"$', text, re.MULTILINE)[1]


def first_there(*paths):
    """Returns the first of these files that exists, beside this file or in the repository."""
    for path in paths:
        if (HERE / path).exists():
            return HERE / path
    raise SystemExit(f"there is no {paths[0]} beside {HERE.name}/backend.py")


def archive(machine):
    """Returns the path of the archive for Linux on a machine, or None."""
    paths = [HERE / folder / machine / ARCHIVE for folder in ("lib", "../../prebuilt")]
    found = [path for path in paths if path.exists()]
    return found[0] if found and sys.platform == "linux" else None


def compile_portable(to):
    """Compiles the shared library from the C file for other platforms, by $CC or cc, with $CFLAGS
    and $LDFLAGS."""
    source = first_there("portable/rtr_wire.c", "../../prebuilt/portable/rtr_wire.c")
    header = first_there("rtr.h", "../c/rtr.h")
    compiler = os.environ.get("CC", "cc")
    flags = [*os.environ.get("CFLAGS", "").split(), *os.environ.get("LDFLAGS", "").split()]
    command = [compiler, "-std=c11", "-O2", *flags, "-fPIC", "-shared", "-I", header.parent, source,
               "-o", to]
    try:
        failed = subprocess.run(command).returncode != 0
    except OSError:
        failed = True
    if failed:
        raise SystemExit(f"there is no archive for {sysconfig.get_platform()}, and {compiler} "
                         f"didn't compile {source}: set CC to a C compiler")


def link(of, to, soname=f"{LIBRARY}.0", compiler=None, more=(), hosted=True, shown=SHOWN):
    """Links the shared library from archives with this compiler, $CC or cc, and $LDFLAGS. It binds
    all symbols when it is loaded, and exports those of the version script `shown`. Unless `hosted`,
    it isn't linked with a C library, and takes functions like memcpy from its process."""
    with tempfile.NamedTemporaryFile("w", suffix=".map") as script:
        script.write(shown)
        script.flush()
        words = compiler or [os.environ.get("CC", "cc")]
        flags = os.environ.get("LDFLAGS", "").split()
        flags += ["-Wl,-z,defs"] if hosted else ["-nostdlib", "-Wl,-z,undefs"]
        command = [*words, *flags, "-shared", f"-Wl,-soname,{soname}", "-Wl,-z,relro,-z,now",
                   f"-Wl,--version-script={script.name}", "-Wl,--whole-archive", of, *more,
                   "-Wl,--no-whole-archive", "-Wl,--gc-sections", "-o", to]
        if subprocess.run(command).returncode != 0:
            raise SystemExit(
                "the shared library wasn't linked: for another machine set CC to its compiler")


def contents():
    """Returns the files of the package, by their paths in a wheel."""
    files = {f"{NAME}/{path.name}": path.read_bytes()
             for path in SOURCES.iterdir() if path.suffix == ".py" or path.name == "py.typed"}
    for page in DOCUMENTS:
        files[f"{NAME}/{page}"] = first_there(page, f"../../{page}").read_bytes()
    return files


def readme():
    """Returns the README without the comments that name the files shown."""
    return re.sub(r"(?m)^<!-- shown: .* -->\n", "", (HERE / "README.md").read_text())


def setting(name):
    """Returns a value of pyproject.toml: a string, a list or a table."""
    text = (HERE / "pyproject.toml").read_text()
    value = re.search(rf'^{name} = (".*?"|\[.*?\]|\{{.*?\}})$', text, re.MULTILINE | re.DOTALL)[1]
    return json.loads(re.sub(r"(\w+) = ", r'"\1": ', value) if value[0] == "{" else value)


def metadata(repository=None):
    """Returns the metadata of the package; the repository's URL is by default that of
    pyproject.toml."""
    classifiers = "\n".join(f"Classifier: {classifier}" for classifier in setting("classifiers"))
    return METADATA.format(
        name=NAME, version=version(), description=setting("description"),
        license=setting("license")["text"], keywords=",".join(setting("keywords")),
        repository=repository or setting("Repository"), python=setting("requires-python"),
        classifiers=classifiers, readme=readme())


def wheel(library, tag, to, repository=None):
    """Writes the wheel with this shared library to a folder, and returns its name. The tag is one
    or more platforms, joined by dots."""
    folder, files = f"{NAME}-{version()}.dist-info", contents()
    files[f"{NAME}/{LIBRARY}"] = pathlib.Path(library).read_bytes()
    files[f"{folder}/METADATA"] = metadata(repository).encode()
    files[f"{folder}/LICENSE"] = first_there("LICENSE", "../../LICENSE").read_bytes()
    head = f"Wheel-Version: 1.0\nGenerator: {NAME}\nRoot-Is-Purelib: false\n"
    lines = "".join(f"Tag: py3-none-{platform}\n" for platform in tag.split("."))
    files[f"{folder}/WHEEL"] = (head + lines).encode()
    record = "".join(f"{name},{sum_of(data)},{len(data)}\n" for name, data in sorted(files.items()))
    files[f"{folder}/RECORD"] = f"{record}{folder}/RECORD,,\n".encode()
    name = f"{NAME}-{version()}-py3-none-{tag}.whl"
    with zipfile.ZipFile(pathlib.Path(to, name), "w", zipfile.ZIP_DEFLATED) as zipped:
        # RECORD comes last.
        for path in sorted(files, key=lambda path: (path.endswith("RECORD"), path)):
            entry = zipfile.ZipInfo(path, (1980, 1, 1, 0, 0, 0))
            entry.compress_type, entry.create_system = zipfile.ZIP_DEFLATED, 3
            entry.external_attr = (0o755 if path.endswith(".so") else 0o644) << 16
            zipped.writestr(entry, files[path])
    return name


def sum_of(data):
    """Returns the hash of a file in the notation of RECORD."""
    return "sha256=" + base64.urlsafe_b64encode(hashlib.sha256(data).digest()).decode().rstrip("=")


def tar(folder, to):
    """Packs a folder without owners and times, so that the bytes don't depend on them."""
    packed_bytes = io.BytesIO()
    with tarfile.open(fileobj=packed_bytes, mode="w", format=tarfile.PAX_FORMAT) as packed:
        for path in sorted(path for path in folder.rglob("*") if path.is_file()):
            entry = packed.gettarinfo(path, path.relative_to(folder.parent))
            entry.mtime = entry.uid = entry.gid = 0
            entry.uname = entry.gname = ""
            entry.mode = 0o644
            with path.open("rb") as data:
                packed.addfile(entry, data)
    to.write_bytes(gzip.compress(packed_bytes.getvalue(), mtime=0))


def source_archive(archives, portable, pages, to, repository=None):
    """Writes the source archive to a folder, and returns its name: this folder with headers,
    archives by machine, the C file for other platforms unless that is None, pages by name, and the
    repository's URL if it isn't that of pyproject.toml."""
    with tempfile.TemporaryDirectory() as top:
        folder = pathlib.Path(top, f"{NAME}-{version()}")
        left_out = shutil.ignore_patterns("tests", "generate.py", "*.so", "__pycache__", ".*_cache",
                                          "lib", "portable", "docs", "dist")
        shutil.copytree(HERE, folder, ignore=left_out)
        added = {f"lib/{machine}/{ARCHIVE}": archive for machine, archive in archives.items()}
        added.update(pages, **{name: first_there(name, f"../c/{name}") for name in HEADERS})
        added.update({f"portable/{NAME}.c": portable} if portable else {})
        for name, source in added.items():
            (folder / name).parent.mkdir(parents=True, exist_ok=True)
            shutil.copyfile(source, folder / name)
        (folder / "README.md").write_text(readme())
        (folder / "PKG-INFO").write_text(metadata(repository))
        settings = (folder / "pyproject.toml").read_text()
        usual = setting("Repository")
        (folder / "pyproject.toml").write_text(settings.replace(usual, repository or usual))
        tar(folder, pathlib.Path(to, f"{folder.name}.tar.gz"))
        return f"{folder.name}.tar.gz"


# ---- the hooks of PEP 517

def build_sdist(sdist_directory, config_settings=None):
    """Builds the source archive."""
    archives = {machine: first_there(f"lib/{machine}/{ARCHIVE}",
                                     f"../../prebuilt/{machine}/{ARCHIVE}")
                for machine in MACHINES}
    portable = first_there(f"portable/{NAME}.c", f"../../prebuilt/portable/{NAME}.c")
    pages = {page: first_there(page, f"../../{page}") for page in ("LICENSE", *DOCUMENTS)}
    return source_archive(archives, portable, pages, sdist_directory)


def build_wheel(wheel_directory, config_settings=None, metadata_directory=None):
    """Links the library for this machine, or compiles it if there is no archive, and builds the
    wheel."""
    found = archive(platform.machine())
    tag = re.sub(r"\W", "_", sysconfig.get_platform())
    with tempfile.TemporaryDirectory() as folder:
        library = pathlib.Path(folder, LIBRARY)
        if found:
            link(found, library)
        else:
            compile_portable(library)
        return wheel(library, tag, wheel_directory)
