#!/usr/bin/env python3
"""Runs the examples of the man pages of the programs in Rattle unchanged, and compares their
output; and checks each page with mandoc. Compares the exit statuses of all programs: as
docs/PROGRAMS.md lists them, as Rattle and Go name them, as each man page has them, and 2 as each
program ends with it.

usage: manuals.py

Of each page the blocks `.Bd -literal` below EXAMPLES are run one after the other in a fresh folder,
beside the cache of `operators.py`, in the place of cache.example:323, with the programs that it
finds. A line that begins with `$ ` is a command, with the lines after it that a `\\\\`, a `|` or an
open quote leads on to; the others are what it prints, on standard error too. Each page has an
example. A block with a program that isn't here is left out, loudly, and one of socat, which runs
until it is stopped, without a word: docs/OPERATORS.md has the same. Without rtr-client another
program stands in its place, loudly, that records the same.
"""
import os
import re
import shutil
import socket
import subprocess
import sys
import tempfile
import threading

sys.dont_write_bytecode = True

import operators

PAGES = ["rtr_clean", "rtr_diff", "rtr_list", "rtr_make", "rtr_normalise", "rtr_validate"]
BLOCK = re.compile(r"^\.Bd -literal.*?\n(.*?)^\.Ed$", re.MULTILINE | re.DOTALL)
ESCAPES = (("\\&", ""), ("\\-", "-"), ("\\(aq", "'"), ("\\e", "\\"))
CACHE = "cache.example:323"
LISTENS = "socat"
# A status as docs/PROGRAMS.md, the code in Rattle, that in Go, and man pages have it.
ON_PAGE = re.compile(r"^\| (?P<status>\d+) \| `(?P<name>[A-Z]+)` \|", re.MULTILINE)
IN_RATTLE = re.compile(r"^pub const (?P<name>[A-Z]+): u8 = (?P<status>\d+);$", re.MULTILINE)
IN_GO = re.compile(r"^\t(?P<name>[A-Z][a-z]+) +Status = (?P<status>\d+)\b", re.MULTILINE)
IN_MANUAL = re.compile(r"^\.It (\d+)$", re.MULTILINE)
# The messages of mandoc for each correct page.
ALLOWED = re.compile("manual not found|operating system explicitly specified|typo in section")


# Records what rtr-client would record.
STAND_IN = """#!/bin/sh
while [ "$1" != --record ]; do shift; done
cp "$0.session" "$2"
"""


def stand_in(path):
    """Writes a program into a folder that records what the cache sends, as rtr-client does."""
    program = os.path.join(path, "rtr-client")
    with open(program, "w", encoding="utf-8") as script, \
            open(f"{program}.session", "wb") as session:
        script.write(STAND_IN)
        session.write(operators.QUERY + operators.ANSWER)
    os.chmod(program, 0o755)
    print("!!! tests/pages/manuals.py: no rtr-client here: SKIPPED it in examples of man pages")


def plain(line):
    """Returns a line of a literal block as a reader sees it."""
    for escape, text in ESCAPES:
        line = line.replace(escape, text)
    return line


def read(*path):
    """Returns the text of a file of the repository."""
    with open(os.path.join(operators.TOP, *path), encoding="utf-8") as file:
        return file.read()


def section(text, name):
    """Returns a section of a man page."""
    return text.partition(f"\n.Sh {name}\n")[2].partition("\n.Sh ")[0] + "\n"


def statuses(pattern, *path):
    """Returns the statuses that a file has, by their names in upper case."""
    found = pattern.finditer(read(*path))
    return {status["name"].upper(): int(status["status"]) for status in found}


def check_statuses(path):
    """Prints where the exit statuses differ from docs/PROGRAMS.md; returns how many places do."""
    listed = statuses(ON_PAGE, "docs", "PROGRAMS.md")
    wrong = []
    for file in [(IN_RATTLE, "crates", "program_frame", "src", "status.rt"),
                 (IN_GO, "programs", "internal", "words", "status.go")]:
        if not listed or statuses(*file) != listed:
            wrong.append(f"{'/'.join(file[1:])}: other statuses than docs/PROGRAMS.md")
    for name in sorted(os.listdir(os.path.join(operators.TOP, "docs", "man"))):
        of_page = IN_MANUAL.findall(section(read("docs", "man", name), "EXIT STATUS"))
        if [int(status) for status in of_page] != sorted(listed.values()):
            wrong.append(f"docs/man/{name}: other statuses than docs/PROGRAMS.md")
        program = shutil.which(name.rpartition(".")[0], path=path)
        if program:
            ended = subprocess.run([program, "--unknown"], stdin=subprocess.DEVNULL,
                                   capture_output=True, check=False).returncode
            if ended != listed.get("USAGE"):
                wrong.append(f"{name}: ends with {ended} at an unknown option")
    print(*wrong, sep="\n", end="\n" if wrong else "")
    return len(wrong)


def examples(text):
    """Returns the blocks of examples of a page, each a list of lines."""
    below = section(text, "EXAMPLES")
    return [[plain(line) for line in block.splitlines()] for block in BLOCK.findall(below)]


def goes_on(command):
    """Reports whether the next line belongs to a command."""
    return command.endswith(("\\", "|")) or command.count("'") % 2 == 1


def commands(block):
    """Returns the commands of a block, each with its output on the page."""
    found = []
    for line in block:
        if found and not found[-1][1] and goes_on(found[-1][0]):
            found[-1] = (f"{found[-1][0]}\n{line}", [])
        elif line.startswith("$ "):
            found.append((line[2:], []))
        elif found:
            found[-1][1].append(line)
    return found


def run_block(page, block, shell, cache):
    """Runs a block; returns how many commands were run, and how many differ."""
    ran = wrong = 0
    text = "\n".join(block)
    absent = [name for name in (*operators.OURS, *operators.IN_GO)
              if re.search(rf"\b{name}\b", text)
              and not shutil.which(name, path=shell.environment["PATH"])]
    if absent:
        print(f"!!! tests/pages/manuals.py: no {', '.join(absent)} here: SKIPPED an example of "
              f"{page}")
    if absent or LISTENS in text:
        return 0, 0
    for command, expected in commands(block):
        lines = shell.run(command.replace(CACHE, cache))
        ran += 1
        if lines != expected:
            wrong += 1
            print(f"{page}: `{command}` prints", *lines, sep="\n    ")
    return ran, wrong


def lint(path):
    """Returns what mandoc finds on a page."""
    if not shutil.which("mandoc"):
        return []
    words = ["mandoc", "-T", "lint", path]
    result = subprocess.run(words, capture_output=True, text=True, check=False)
    return [line for line in result.stdout.splitlines() if not ALLOWED.search(line)]


def check(name, cache, path):
    """Runs the examples of a page; returns how many commands were run, and how many faults there
    are."""
    page = os.path.join(operators.TOP, "docs", "man", f"{name}.1")
    blocks = examples(read(page))
    found = lint(page)
    if not any(commands(block) for block in blocks):
        found.append(f"{name}: no example")
    print(*found, sep="\n", end="\n" if found else "")
    ran, wrong = 0, len(found)
    with tempfile.TemporaryDirectory() as folder:
        environment = {"PATH": path + os.pathsep + os.environ["PATH"], "LC_ALL": "C", "TZ": "UTC"}
        with operators.Shell(folder, environment) as shell:
            for block in blocks:
                done, differ = run_block(name, block, shell, cache)
                ran, wrong = ran + done, wrong + differ
    return ran, wrong


def main():
    if sys.argv[1:]:
        print(__doc__)
        return 2
    with tempfile.TemporaryDirectory() as folder, \
            socket.create_server(("127.0.0.1", 0)) as listener:
        threading.Thread(target=operators.serve, args=(listener,), daemon=True).start()
        path = operators.programs(folder)
        if not shutil.which("rtr-client", path=path):
            stand_in(path)
        cache = f"127.0.0.1:{listener.getsockname()[1]}"
        differ = check_statuses(path)
        counts = [check(name, cache, path) for name in PAGES]
    ran, wrong = map(sum, zip(*counts))
    if not shutil.which("mandoc"):
        print("!!! tests/pages/manuals.py: no mandoc here: SKIPPED the lints of man pages")
    print(f"{ran} commands of man pages run, {wrong} wrong; statuses: {differ} wrong")
    return 1 if wrong or differ else 0


if __name__ == "__main__":
    sys.exit(main())
