"""Builds the clients and caches that are run with faults, and the library that injects them.

Each function that builds some yields the name of each, and its command.
"""
import glob
import os
import platform
import shlex
import shutil
import subprocess
import sys

import tls

HERE = os.path.dirname(os.path.realpath(__file__))
TOP = os.path.dirname(os.path.dirname(HERE))
BINDINGS = os.path.join(TOP, "bindings")
REGISTRY = "/usr/share/cargo/registry"  # of Debian's crates

# The projects of the client in Rust that counts, and of the client and the cache over tokio.
OVER_THREADS = """[package]
name = "over_threads"
version = "0.0.0"
edition = "2021"

[[bin]]
name = "rust_client"
path = "{here}/rust_client.rs"

[dependencies]
rtr-wire = {{ path = "{rust}" }}
"""
OVER_TOKIO = """[package]
name = "over_tokio"
version = "0.0.0"
edition = "2021"

[[bin]]
name = "tokio_client"
path = "{here}/tokio_client.rs"

[[bin]]
name = "tokio_cache"
path = "{here}/tokio_cache.rs"

[dependencies]
rtr-wire = {{ path = "{rust}" }}
rtr-wire-tokio = {{ path = "{rust}/tokio" }}
tokio = {{ version = "1", features = ["macros", "net", "rt-multi-thread", "time"] }}
"""
# The project of clients and caches over TLS, in threads and over tokio.
OVER_TLS = """[package]
name = "over_tls"
version = "0.0.0"
edition = "2021"

[features]
tls = []

[[bin]]
name = "rust_tls_client"
path = "{here}/rust_client.rs"

[[bin]]
name = "rust_tls_cache"
path = "{here}/rust_cache.rs"

[[bin]]
name = "tokio_tls_client"
path = "{here}/tokio_client.rs"

[[bin]]
name = "tokio_tls_cache"
path = "{here}/tokio_cache.rs"

[dependencies]
openssl = "0.10"
rtr-wire = {{ path = "{rust}" }}
rtr-wire-tokio = {{ path = "{rust}/tokio" }}
tokio = {{ version = "1", features = ["macros", "net", "rt-multi-thread", "time"] }}
tokio-openssl = "0.6"
"""
# The project of the client and the cache in Go.
GO_MOD = """module faulty

go 1.19

require fishreef/rtr v0.0.0

replace fishreef/rtr => {package}
"""
CARGO_CONFIG = f"""[source.crates-io]
replace-with = "debian"
[source.debian]
directory = "{REGISTRY}"
"""


def run(words, folder, **more):
    done = subprocess.run(words, cwd=folder, env={**os.environ, **more}, text=True,
                          stdout=subprocess.PIPE, stderr=subprocess.STDOUT)
    if done.returncode:
        sys.exit(f"faults: {shlex.join(words)}:\n{done.stdout}")


def skipped(program, what):
    print(f"!!! faults: no {program} here: SKIPPED {what}")


def in_c(output, sources, folder, *more):
    compiler = os.environ.get("CC") or shutil.which("gcc") or shutil.which("clang") or "cc"
    run([*shlex.split(compiler), "-std=c11", "-O1", "-Wall", "-Wextra", "-o", output, *sources,
         *more], folder)


def library(work):
    """Returns the path of the library that injects faults."""
    path = os.path.join(work, "faults.so")
    in_c(path, ["faults.c", "sockets.c", "files.c"], HERE, "-Werror", "-shared", "-fPIC", "-ldl")
    return path


def tracer(work):
    """Returns the path of the program that injects faults into system calls; nothing, where a
    program may not trace another, or that isn't made for this machine."""
    path = os.path.join(work, "traced")
    if platform.machine() != "x86_64":
        return None
    if not os.path.exists(path):
        in_c(path, ["traced.c", "faults.c"], HERE, "-Werror", "-ldl")
    return None if subprocess.run([path, "true"]).returncode else path


def c_program(name, sources, archives, work, *more):
    program = os.path.join(work, name)
    in_c(program, [*sources, os.path.join(archives, "librtr_wire.a")], os.path.join(BINDINGS, "c"),
         *more)
    return program


def hooked(source, hooks, work):
    """Compiles a file of C with a header before it; returns the path of the object."""
    path = os.path.join(work, source.replace(".c", ".o"))
    in_c(path, [source], os.path.join(BINDINGS, "c"), "-c", "-I.", "-include",
         os.path.join(HERE, hooks))
    return path


def c_clients(archives, work):
    """Yields the program over rtr_client.h, and the shortest loop over the calls for a router's
    end."""
    client_object = hooked("client.c", "client_hooks.h", work)
    client = c_program("client", [client_object, "rtr_client.c"], archives, work)
    yield "C client", ["stdbuf", "-oL", client, "ADDRESS", "--version", "2"]
    link = c_program("link", [hooked("link.c", "link_hooks.h", work)], archives, work)
    yield "C link", ["stdbuf", "-oL", link, "ADDRESS", "2"]


def has_openssl_headers():
    compiler = shlex.split(os.environ.get("CC", "cc"))
    header = ["-include", "openssl/ssl.h", "-E", "-x", "c", "/dev/null"]
    return not subprocess.run([*compiler, *header], capture_output=True).returncode


def identity_for(what, work):
    """Returns the path of the file with the certificate of both ends and its key; nothing without
    the program openssl."""
    return tls.make_identity(work) or skipped("openssl", what)


def c_tls_clients(archives, work):
    identity = tls.make_identity(work)
    if not identity or not has_openssl_headers():
        return skipped("openssl with its headers (libssl-dev)", "the client in C over TLS")
    client_object = hooked("client_tls.c", "client_hooks.h", work)
    client = c_program("client_tls", [client_object, "rtr_client.c"], archives, work, "-lssl",
                       "-lcrypto")
    yield "C client over TLS", ["stdbuf", "-oL", client, f"{identity}.signed", identity, "ADDRESS"]


def python_package(archives, work):
    """Links the library of Python's package, and lets programs find both."""
    shared = os.path.join(work, "librtr_wire.so")
    if not os.path.exists(shared):
        run([os.path.join(BINDINGS, "package.py"), "--archives", os.path.dirname(archives),
             "--library", shared], TOP)
    os.environ["RTR_WIRE_LIBRARY"] = shared
    os.environ["PYTHONPATH"] = os.path.join(BINDINGS, "python", "src")


def python_clients(archives, work):
    python_package(archives, work)
    client = [sys.executable, os.path.join(HERE, "follow.py"), "ADDRESS", "--version", "2"]
    yield "Python", client
    yield "asyncio", [*client, "--asyncio"]


def python_tls_clients(archives, work):
    identity = identity_for("the clients in Python over TLS", work)
    if identity:
        python_package(archives, work)
        client = [sys.executable, os.path.join(HERE, "follow.py"), "ADDRESS", "--version", "1",
                  "--tls", identity]
        yield "Python over TLS", client
        yield "asyncio over TLS", [*client, "--asyncio"]


PYTHON_CACHE = os.path.join(BINDINGS, "python", "examples", "cache.py")


def python_caches(archives, work):
    python_package(archives, work)
    yield "Python cache", [sys.executable, PYTHON_CACHE]


def python_tls_caches(archives, work):
    identity = identity_for("the cache in Python over TLS", work)
    if identity:
        python_package(archives, work)
        yield "Python cache over TLS", [sys.executable, os.path.join(HERE, "tls_cache.py"),
                                        PYTHON_CACHE, "--tls", identity]


def node_cache(program):
    """Returns the command of a cache, which reads the module of the repository."""
    return [shutil.which("node"), "--expose-gc", "--require", os.path.join(HERE, "state.cjs"),
            program]


def node_caches(*_):
    if not shutil.which("node"):
        return skipped("node", "the cache in JavaScript")
    yield "Node cache", node_cache(os.path.join(BINDINGS, "js", "examples", "cache.js"))


def node_tls_caches(_, work):
    """The cache without TLS tells of a missing node."""
    identity = identity_for("the cache in JavaScript over TLS", work)
    if identity and shutil.which("node"):
        cache = node_cache(os.path.join(HERE, "tls_cache.js"))
        yield "Node cache over TLS", [*cache, "--tls", identity]


def node_clients(archives, _):
    node = shutil.which("node")
    if not node:
        return skipped("node", "the client in JavaScript")
    module = os.path.join(os.path.dirname(archives), "wasm32", "rtr_wire.wasm")
    if not os.path.exists(module):
        module = os.path.join(TOP, "prebuilt", "wasm32", "rtr_wire.wasm")
    yield "Node", [node, os.path.join(HERE, "follow.js"), "ADDRESS", module]


def node_tls_clients(archives, work):
    """The client without TLS tells of a missing node."""
    identity = identity_for("the client in JavaScript over TLS", work)
    if identity and shutil.which("node"):
        for _, client in node_clients(archives, work):
            yield "Node over TLS", [*client, "--tls", identity]


def rust_example(name, archives, work):
    target = os.path.join(work, "rust")
    run([shutil.which("cargo"), "build", "--offline", "--quiet", "--example", name, "--target-dir",
         target], os.path.join(BINDINGS, "rust"), RTR_LIB_DIR=archives,
        CARGO_PROFILE_DEV_DEBUG="0")
    return os.path.join(target, "debug", "examples", name)


def rust_project(name, manifest, archives, work, *more):
    """Builds a project of its own over the crates; returns the folder of its programs."""
    project, target = os.path.join(work, name), os.path.join(work, "rust")
    rust = os.path.join(project, "rust")
    shutil.copytree(os.path.join(BINDINGS, "rust"), rust, ignore=shutil.ignore_patterns("target"))
    os.mkdir(os.path.join(project, ".cargo"))
    for path, text in ((".cargo/config.toml", CARGO_CONFIG), ("Cargo.toml", manifest)):
        with open(os.path.join(project, path), "w", encoding="utf-8") as file:
            file.write(text.format(here=HERE, rust=rust))
    run([shutil.which("cargo"), "build", "--offline", "--quiet", "--target-dir", target, *more],
        project, RTR_LIB_DIR=archives, CARGO_PROFILE_DEV_DEBUG="0")
    return os.path.join(target, "debug")


def rust_clients(archives, work):
    if not shutil.which("cargo"):
        return skipped("cargo", "the client in Rust")
    yield "Rust", [rust_example("client", archives, work), "ADDRESS", "--version", "2"]


def counting_rust_clients(archives, work):
    """A client that counts what it has allocated; one without it tells of a missing cargo."""
    if not shutil.which("cargo"):
        return
    folder = rust_project("over_threads", OVER_THREADS, archives, work)
    yield "Rust that counts", [os.path.join(folder, "rust_client"), "ADDRESS", "--version", "2"]


def c_caches(archives, work):
    yield "C cache", [c_program("cache", ["cache.c", "rtr_cache.c"], archives, work)]


def rust_caches(archives, work):
    if not shutil.which("cargo"):
        return skipped("cargo", "the cache in Rust")
    yield "Rust cache", [rust_example("cache", archives, work)]


def go_program(archives, work):
    """Returns a client and a cache in Go, one program with faults of its own, built once in a
    project."""
    if not shutil.which("go"):
        return skipped("go", "the client and the cache in Go")
    project, program = os.path.join(work, "faulty"), os.path.join(work, "faulty_go")
    if os.path.exists(program):
        return program
    shutil.copytree(os.path.join(HERE, "go"), project)
    with open(os.path.join(project, "go.mod"), "w", encoding="ascii") as file:
        file.write(GO_MOD.format(package=os.path.join(BINDINGS, "go")))
    run(["go", "build", "-o", program, "."], project, CGO_LDFLAGS=f"-L{archives} -g -O2",
        GOCACHE=os.environ.get("GOCACHE", os.path.join(work, "gocache")))
    return program


def go_clients(archives, work):
    program = go_program(archives, work)
    if program:
        yield "Go", [program, "ADDRESS", "--version", "2"]


def go_caches(archives, work):
    program = go_program(archives, work)
    if program:
        yield "Go cache", [program]


def go_tls_clients(archives, work):
    """The client without TLS tells of a missing go, and so does the cache."""
    identity = identity_for("the client in Go over TLS", work)
    if identity and shutil.which("go"):
        yield "Go over TLS", [go_program(archives, work), "--tls", identity, "ADDRESS", "--version",
                              "1"]


def go_tls_caches(archives, work):
    identity = identity_for("the cache in Go over TLS", work)
    if identity and shutil.which("go"):
        yield "Go cache over TLS", [go_program(archives, work), "--tls", identity]


def traced_go_caches(archives, work):
    """Yields the same cache, traced, since its calls on files aren't those of the C library."""
    if not shutil.which("go"):
        return
    traced = tracer(work)
    if not traced:
        return skipped("leave to trace by ptrace", "savings of the cache in Go")
    for _, [program] in go_caches(archives, work):
        yield "Go cache that saves", [traced, program]


def rtr_caches(archives, work):
    """Yields rtr-cache, which programs/build builds, traced: also its sockets get faults."""
    if not shutil.which("go"):
        return
    traced = tracer(work)
    if not traced:
        return skipped("leave to trace by ptrace", "rtr-cache")
    build = os.path.join(TOP, "programs", "build")
    missing = subprocess.run([build, "--missing"], text=True, stdout=subprocess.PIPE).stdout.split()
    if missing:
        return skipped(f"packages {' '.join(missing)}", "rtr-cache")
    program = os.path.join(work, "rtr-cache")
    run([build, "--go", "build", "-trimpath", "-o", program, "./rtr-cache"], TOP,
        CGO_LDFLAGS=f"-L{archives} -g -O2", PATH=f"{archives}:{os.environ['PATH']}")
    # The metrics are at an address whose sockets get no faults.
    yield "rtr-cache", [traced, program, "--state", "STATE", "--look", "1s", "--guard", "100%",
                        "--metrics", "127.0.0.2:0", "--sequence"]


def tokio_programs(archives, work):
    """Builds a client and a cache over the crate for tokio; returns the folder of both."""
    if not shutil.which("cargo") or not glob.glob(f"{REGISTRY}/tokio-[0-9]*"):
        return skipped("crate tokio (librust-tokio-dev)", "the client and the cache with tokio")
    return rust_project("over_tokio", OVER_TOKIO, archives, work)


def tokio_clients(archives, work):
    folder = tokio_programs(archives, work)
    if folder:
        yield "tokio", [os.path.join(folder, "tokio_client"), "ADDRESS", "--version", "2"]


def tokio_caches(archives, work):
    program = os.path.join(work, "rust", "debug", "tokio_cache")
    if not os.path.exists(program) and not tokio_programs(archives, work):
        return
    yield "tokio cache", [program]


def rust_tls_program(name, what, archives, work):
    """Returns the command of one of the programs in Rust over TLS, which are built once."""
    identity = identity_for(what, work)
    if not identity:
        return None
    if not (shutil.which("cargo") and glob.glob(f"{REGISTRY}/tokio-openssl-[0-9]*")
            and has_openssl_headers()):
        return skipped("crate tokio-openssl (librust-tokio-openssl-dev)", what)
    program = os.path.join(work, "rust", "debug", name)
    if not os.path.exists(program):
        rust_project("over_tls", OVER_TLS, archives, work, "--features", "tls")
    return [program, "--tls", identity]


def rust_tls_clients(archives, work):
    """Yields a client in threads, and one over tokio."""
    for name, program in ("Rust", "rust_tls_client"), ("tokio", "tokio_tls_client"):
        client = rust_tls_program(program, f"the client with {name} over TLS", archives, work)
        if client:
            yield f"{name} over TLS", [*client, "ADDRESS", "--version", "1"]


def rust_tls_caches(archives, work):
    """Yields a cache in threads, and one over tokio."""
    for name, program in ("Rust", "rust_tls_cache"), ("tokio", "tokio_tls_cache"):
        cache = rust_tls_program(program, f"the cache with {name} over TLS", archives, work)
        if cache:
            yield f"{name} cache over TLS", cache
