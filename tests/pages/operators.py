#!/usr/bin/env python3
"""Runs the commands of docs/OPERATORS.md, and those of the pages in AT_TOP, unchanged, and compares
their output.

usage: operators.py [--write] with --write the output is written into the pages

They run one after the other in a fresh folder, with the programs of `built.py` in PATH, also in the
place of those in `prebuilt/x86_64/`: those of OPERATORS.md beside a cache at $CACHE that sends
ANSWER to each query, cut up in small writes, and then waits, and with free ports $PORT, $METRICS
and $CLEAN; those of other pages as at the top of the repository, by links to all that is there. A
fenced block of a page right after a line `<!-- file: NAME -->` is first put into the folder as a
file. In a block of `console` each line `$ COMMAND` is run by bash, and the lines after it are what
it prints, on standard error too. One that ends with `&` listens at the ports that it names, and is
ended after the last. The programs in Go are built where that is possible, or else those of the
package in prebuilt/debian; without either `session` is what rtr-client would record.

A block is left out, loudly, where a program that it calls isn't here, or where a prebuilt one,
which may be older than the page, prints its usage or doesn't know an option. It is also compared
that the page has each line that `rtr_list --check` may print.
"""
import contextlib
import glob
import os
import re
import shutil
import signal
import socket
import subprocess
import sys
import tempfile
import threading
import time

TOP = os.path.realpath(os.path.join(os.path.dirname(os.path.abspath(__file__)), "..", ".."))
sys.path.insert(0, os.path.join(TOP, ".ci"))

import built  # noqa: E402  (it lies in another folder)

PAGE = "docs/OPERATORS.md"
AT_TOP = ["README.md", "docs/PROGRAMS.md", "docs/C.md"]
PREBUILT = re.compile(r"prebuilt/x86_64/(rtr_\w+)")
# The files with the lines of findings, and the words before them.
FINDINGS = [("text_findings/src/finding.rt", "impl fmt::Display for Finding"),
            ("session_times/src/times.rt", "pub fn text")]
FILE = re.compile(r"<!-- file: (\S+) -->$")
USAGE = re.compile(r"usage: (rtr_\w+)|(rtr_\w+): unknown option ")
COMMAND = "$ "

# The programs that the page may call: PATH has only these, and those of the system.
OURS = ["rtr_list", "rtr_diff", "rtr_make", "rtr_normalise", "rtr_clean", "rtr_validate"]
OTHERS = ["socat", "python3", "cc", "curl"]
IN_GO = ["rtr-cache", "rtr-client"]

# The ports that the page names.
PORTS = ["PORT", "METRICS", "CLEAN"]

# What rtr-client records besides the answer: its reset query (RFC 8210 section 5.4).
QUERY = bytes.fromhex("01 02 00 00 00 00 00 08")

# The time limit of a command in seconds.
SECONDS = 60

# What the cache sends, unit by unit (RFC 8210 sections 5.5, 5.6, 5.7 and 5.8): one payload of the
# validator's list, one with host bits, one that the list lacks, and one with a reserved byte.
ANSWER = bytes.fromhex(
    "01 03 12 34 00 00 00 08"
    "01 04 00 00 00 00 00 14 01 18 18 00 c0 00 02 00 00 00 fb f0"
    "01 04 00 00 00 00 00 14 01 18 1a 00 c6 33 64 4d 00 00 fb f1"
    "01 04 00 00 00 00 00 14 01 18 18 00 cb 00 71 00 00 00 fb f4"
    "01 06 00 00 00 00 00 20 01 20 30 01 20 01 0d b8" + " 00" * 12 + " 00 01 00 0f"
    "01 07 12 34 00 00 00 18 00 00 00 07 00 00 0e 10 00 00 02 58 00 00 1c 20"
)

# The bytes that the cache writes at once.
PIECE = 13


def warn(text):
    """Prints what is skipped."""
    print(f"!!! tests/pages/operators.py: {text}", file=sys.stderr)


def answer(connection):
    """Answers each query, of at least eight bytes, until the client closes."""
    with connection:
        while len(connection.recv(64)) >= 8:
            for offset in range(0, len(ANSWER), PIECE):
                connection.sendall(ANSWER[offset:offset + PIECE])


def serve(listener):
    """Accepts clients until the listener is closed."""
    while True:
        try:
            connection, _ = listener.accept()
        except OSError:
            return
        threading.Thread(target=answer, args=(connection,), daemon=True).start()


def unpack(package, path):
    """Copies the programs in Go of a package into a folder; reports whether it could."""
    with tempfile.TemporaryDirectory() as folder:
        if subprocess.run(["dpkg-deb", "-x", package, folder], check=False).returncode:
            return False
        for name in IN_GO:
            shutil.copy(os.path.join(folder, "usr", "bin", name), path)
    return True


def programs_in_go(path):
    """Builds or copies the programs in Go into a folder."""
    build = os.path.join(built.TOP, "programs", "build")
    if shutil.which("go") and shutil.which("cc"):
        lacks = subprocess.run([build, "--missing"], capture_output=True, text=True, check=True)
        if not lacks.stdout and not subprocess.run([build, path], check=False).returncode:
            return
    found = glob.glob(os.path.join(built.TOP, "prebuilt/debian/fishreef_*_amd64.deb"))
    if not (found and shutil.which("dpkg-deb") and unpack(found[0], path)):
        warn("no go and no package here: SKIPPED the programs in Go")


def programs(folder):
    """Links the available programs into a folder, and returns its path."""
    path = os.path.join(folder, "programs")
    os.mkdir(path)
    programs_in_go(path)
    for name in OURS:
        if os.path.isdir(os.path.join(built.TOP, "crates", name)):
            found = built.fresh(name) or built.prebuilt(name)
            if found and not found[0].endswith(built.ENDINGS[1]):
                os.symlink(found[0], os.path.join(path, name))
    return path


def blocks(lines):
    """Returns the first and last line of each fenced block, its language and the line before it."""
    opened = None
    for index, line in enumerate(lines):
        if line.startswith("```"):
            if opened is None:
                opened = index
            else:
                yield opened + 1, index, lines[opened][3:], lines[opened - 1]
                opened = None


def missing(lines, path):
    """Returns the programs that these commands call and that aren't in this PATH."""
    commands = [line for line in lines if line.startswith(COMMAND)]
    called = {word for line in commands for word in re.findall(r"[\w-]+", line)}
    return [name for name in [*OURS, *OTHERS, *IN_GO]
            if name in called and not shutil.which(name, path=path)]


def free_port():
    """Returns a free port."""
    with socket.create_server(("127.0.0.1", 0)) as listener:
        return listener.getsockname()[1]


def wait_for(port):
    """Waits until a process listens at this port."""
    until = time.monotonic() + SECONDS
    while time.monotonic() < until:
        with contextlib.suppress(OSError), socket.create_connection(("127.0.0.1", port), 1):
            return
        time.sleep(0.05)
    sys.exit(f"operators: nobody listens at port {port}")


class Shell:
    """Runs commands in a folder, each in a process group, which are all killed at the end."""

    def __init__(self, folder, environment):
        self.folder = folder
        self.environment = environment
        self.groups = []

    def __enter__(self):
        return self

    def __exit__(self, *_):
        for group in self.groups:
            with contextlib.suppress(ProcessLookupError):
                os.killpg(group, signal.SIGTERM)

    def run(self, command):
        """Returns the lines that a command prints."""
        with tempfile.TemporaryFile("w+", encoding="utf-8") as output:
            ran = subprocess.Popen(["bash", "-c", command], cwd=self.folder, env=self.environment,
                                   stdin=subprocess.DEVNULL, stdout=output, stderr=output,
                                   start_new_session=True)
            self.groups.append(ran.pid)
            ran.wait(SECONDS)
            for name in PORTS if command.endswith("&") else []:
                if f"${name}" in command:
                    wait_for(int(self.environment[name]))
            output.seek(0)
            return output.read().splitlines()


def printed(lines, shell):
    """Returns the commands of a block, each with its output; or none if one isn't known yet."""
    shown = []
    for line in lines:
        if line.startswith(COMMAND):
            output = shell.run(PREBUILT.sub(r"\1", line[len(COMMAND):]))
            usage = USAGE.match(output[0]) if output else None
            if usage and not built.fresh(usage[1] or usage[2]):
                warn(f"`{line}` prints {output[0]!r}: the prebuilt program is older than the page, "
                     "and the block is left out")
                return None
            shown += [line, *output]
    return shown


def run_blocks(page, lines, shell, write):
    """Runs a page; returns how many commands were run, and how many blocks differ."""
    commands = wrong = 0
    changes = []
    for begin, end, language, before in blocks(lines):
        file = FILE.match(before)
        if file:
            with open(os.path.join(shell.folder, file[1]), "w", encoding="utf-8") as out:
                out.write("\n".join(lines[begin:end]) + "\n")
        if language != "console":
            continue
        absent = missing(lines[begin:end], shell.environment["PATH"])
        if absent:
            warn(f"no {' and no '.join(absent)} here: SKIPPED `{lines[begin]}`")
            continue
        output = printed(lines[begin:end], shell)
        if output is None:
            continue
        commands += sum(line.startswith(COMMAND) for line in output)
        if output != lines[begin:end]:
            changes.append((begin, end, output))
            wrong += not write
            if not write:
                print(f"{page}:{begin + 1}: this is printed:", *output, sep="\n    ")
    for begin, end, output in reversed(changes):
        lines[begin:end] = output
    return commands, wrong


def run_page(page, lines, write, path):
    """Runs a page in a fresh folder, with the cache running, with the programs in the folder
    `path`; returns as `run_blocks`."""
    with tempfile.TemporaryDirectory() as folder:
        work = os.path.join(folder, "work")
        os.mkdir(work)
        if page == PAGE and not shutil.which("rtr-client", path=path):
            with open(os.path.join(work, "session"), "wb") as session:
                session.write(QUERY + ANSWER)
        for name in os.listdir(built.TOP) if page in AT_TOP else []:
            os.symlink(os.path.join(built.TOP, name), os.path.join(work, name))
        with socket.create_server(("127.0.0.1", 0)) as listener:
            threading.Thread(target=serve, args=(listener,), daemon=True).start()
            environment = {"PATH": path + os.pathsep + os.environ["PATH"],
                           "LC_ALL": "C", "CACHE": f"127.0.0.1:{listener.getsockname()[1]}",
                           **{name: str(free_port()) for name in PORTS}}
            with Shell(work, environment) as shell:
                return run_blocks(page, lines, shell, write)


def findings():
    """Returns the lines that `rtr_list --check` may print, with N instead of numbers."""
    texts = []
    for path, words in FINDINGS:
        with open(os.path.join(built.TOP, "crates", path), encoding="utf-8") as file:
            texts += re.findall(r'"([^"]+)"', file.read().split(words)[1])
    return [re.sub(r"\{layout\}", "", re.sub(r"\{(?!layout)\w+\}", "N", text)) for text in texts]


def untold(lines):
    """Returns the findings without a row on the page."""
    rows = "\n".join(line for line in lines if line.startswith("| `"))
    return [text for text in findings() if f"`{text}`" not in rows]


def check(page, programs_here, write):
    """Runs a page; returns how many commands were run, and how many faults there are."""
    path = os.path.join(built.TOP, page)
    with open(path, encoding="utf-8") as file:
        lines = file.read().splitlines()
    ran, wrong = run_page(page, lines, write, programs_here)
    if write:
        with open(path, "w", encoding="utf-8") as file:
            file.write("\n".join(lines) + "\n")
    for text in untold(lines) if page == PAGE else []:
        print(f"{page}: no row says what `{text}` means")
        wrong += 1
    return ran, wrong


def main():
    if sys.argv[1:] not in ([], ["--write"]):
        print(__doc__)
        return 2
    write = bool(sys.argv[1:])
    commands = wrong = 0
    with tempfile.TemporaryDirectory() as folder:
        found = programs(folder)
        for page in [PAGE, *AT_TOP]:
            ran, differ = check(page, found, write)
            commands, wrong = commands + ran, wrong + differ
    print(f"{commands} commands of pages run, {wrong} wrong")
    return 1 if wrong else 0


if __name__ == "__main__":
    sys.exit(main())
