#!/usr/bin/env python3
"""Connects the clients of C, Go, Rust, Python and JavaScript with the caches of the same
languages, by tests/joined, with the two seeds of `seeds.py`. A failure is printed with its seed,
and with the steps that led to it.

usage: run.py [FOLDER]                    the folder has the archive; bindings/lib/x86_64 if not
                                          said, or else prebuilt/x86_64
       run.py [FOLDER] CLIENT CACHE SEED STEPS
                                          only this pair, of c, go, rust, python and js

The module for JavaScript is that of the folder wasm32 beside the archive's.

A language without its compiler is skipped, with a loud message. It prints how many steps the pairs
took.
"""
import concurrent.futures
import itertools
import json
import os
import shlex
import shutil
import subprocess
import sys
import tempfile

TOP = os.path.realpath(os.path.join(os.path.dirname(os.path.abspath(__file__)), "..", ".."))
sys.path.insert(0, os.path.join(TOP, "tests"))

from seeds import seeds  # noqa: E402  (it lies in the folder above)

JOIN = os.path.join(TOP, "tests", "joined", "join.py")
LANGUAGES = ("c", "go", "rust", "python", "js")
STEPS = 45_000  # of each pair, by each seed: a million in all
FEWER_STEPS = 9_000  # of an end in Python or JavaScript, which takes more time for a step
SLOWER = {"python", "js"}


def bindings(language):
    return os.path.join(TOP, "bindings", language)


def run(command, folder, **more):
    """Runs a command in a folder, and returns its output."""
    done = subprocess.run(command, cwd=folder, env={**os.environ, **more}, text=True,
                          stdout=subprocess.PIPE, stderr=subprocess.STDOUT)
    if done.returncode:
        sys.exit(f"joined: {shlex.join(command)}:\n{done.stdout}")
    return done.stdout


def c_ends(archives, work):
    compiler = os.environ.get("CC") or shutil.which("gcc") or shutil.which("clang")
    if not compiler:
        return None
    commands = []
    for name, end in (("router_end", "client"), ("cache_end", "cache")):
        program = os.path.join(work, name)
        run([*shlex.split(compiler), "-std=c11", "-O1", "-g", "-fsanitize=address,undefined", "-o",
             program, f"{name}.c", f"rtr_{end}.c", os.path.join(archives, "librtr_wire.a")],
            bindings("c"))
        commands.append([program])
    return commands


def go_ends(archives, work):
    if not shutil.which("go"):
        return None
    program = os.path.join(work, "rtr.test")
    run(["go", "test", "-c", "-o", program, "."], bindings("go"),
        CGO_LDFLAGS=f"-L{archives} -g -O2",
        GOCACHE=os.environ.get("GOCACHE", os.path.join(work, "go")))
    return [program, "router"], [program, "cache"]


def rust_ends(archives, work):
    if not shutil.which("cargo"):
        return None
    output = run(["cargo", "test", "--offline", "--quiet", "--no-run", "--lib", "--test",
                  "transcripts", "--message-format=json"], bindings("rust"), RTR_LIB_DIR=archives,
                 CARGO_TARGET_DIR=os.environ.get("CARGO_TARGET_DIR", os.path.join(work, "target")))
    programs = {}
    for line in output.splitlines():
        message = json.loads(line) if line.startswith("{") else {}
        if message.get("executable"):
            programs[message["target"]["kind"][0]] = message["executable"]
    return ([programs["test"], "--exact", "joined"],
            [programs["lib"], "--exact", "server::cache_end::joined"])


def python_ends(archives, work):
    library = os.path.join(work, "librtr_wire.so")
    run([os.path.join(TOP, "bindings", "package.py"), "--archives", os.path.dirname(archives),
         "--library", library], TOP)
    package = bindings("python")
    end = ["env", f"RTR_WIRE_LIBRARY={library}", f"PYTHONPATH={package}",
           "PYTHONDONTWRITEBYTECODE=yes", sys.executable, "-m"]
    return [*end, "tests.router_end"], [*end, "tests.cache_end"]


def js_ends(archives, _):
    module = os.path.join(os.path.dirname(archives), "wasm32", "rtr_wire.wasm")
    if not shutil.which("node") or not os.path.exists(module):
        return None
    return [["node", os.path.join(bindings("js"), "tests", f"{end}_end.js"), module]
            for end in ("router", "cache")]


def main():
    arguments = sys.argv[1:]
    archives = os.path.join(TOP, "bindings", "lib", "x86_64")
    if len(arguments) % 2:
        archives = os.path.abspath(arguments.pop(0))
    elif not os.path.exists(archives):
        archives = os.path.join(TOP, "prebuilt", "x86_64")
    with tempfile.TemporaryDirectory() as work:
        ends = {}
        for language, build in zip(LANGUAGES, (c_ends, go_ends, rust_ends, python_ends, js_ends)):
            if arguments and language not in arguments:
                continue
            ends[language] = build(archives, work)
            if not ends[language]:
                tool = {"c": "gcc", "rust": "cargo", "js": "node or module"}.get(language, language)
                print(f"!!! tests/joined/run.py: no {tool} here: SKIPPED the ends in {language}")
        if arguments:
            runs = [arguments]
        else:
            here = [language for language in LANGUAGES if ends[language]]
            runs = [(*pair, str(seed), str(FEWER_STEPS if SLOWER & {*pair} else STEPS))
                    for seed in seeds("bindings")
                    for pair in itertools.product(here, here) if ends[pair[1]][1]]
        with concurrent.futures.ThreadPoolExecutor(2) as workers:
            steps = sum(workers.map(lambda words: join(ends, *words), runs))
        print(f"joined: {len(runs)} runs of {steps:,} steps")


def join(ends, client, cache, seed, steps):
    """Runs a client and a cache for these steps."""
    done = subprocess.run(
        [JOIN, seed, steps, shlex.join(ends[client][0]), shlex.join(ends[cache][1])],
        text=True, stdout=subprocess.PIPE, stderr=subprocess.STDOUT)
    if done.returncode:
        again = f"tests/joined/run.py {client} {cache} {seed} {steps}"
        print(f"{done.stdout}once more: {again}", flush=True)  # os._exit writes no buffer
        os._exit(1)
    return int(done.stdout.split()[0])


main()
