#!/usr/bin/env python3
"""Counts the instructions a unit of our calls and programs, beside C by hand and the last release.

usage: bench/count.py [--check | --write] [--release VERSION] [--jobs N]

Prints two tables. A cell of the first says, for one kind of units, `ours / by hand = ratio`:
instructions a unit by callgrind, as the difference of two lengths of input, so that what comes once
falls away. A cell of the second says `now / released = ratio`, for jobs that nobody wrote by hand:
bench/released.txt has what they took in the last release. Instructions of the C library are counted
with them; its oldest forms of memcpy and the like are taken, so that the processor doesn't matter.
The numbers are the same in each run, whatever else the machine does.

With --check the tables of README.md and docs/SPEED.md that follow a line `<!-- counted: .. -->` are
compared instead: a number may differ by 3 in a hundred, or by 1, and a job may take that much more
than in the release, or more if the page says so. --write renews them: after `<!-- counted: all -->`
the whole first table, after `<!-- counted: these -->` the rows that are there, and after
`<!-- counted: released -->` the second. --release writes what was counted into
bench/released.txt first, as that of VERSION: release/run.py does so.

`normalise` and `normalise_slice` are counted in bench_units, which `rt run < stdin` in its folder
builds: if it isn't built they are left out, and stay as they are on the pages. The other programs
and the archive are those of .ci/built.py. The code by hand is bench/by_hand.c and programs.c,
compiled by gcc, and by clang if it is installed. First a test compares the results of both ways.
"""
import argparse
import os
import platform
import re
import shutil
import subprocess
import sys
import tempfile
from concurrent.futures import ThreadPoolExecutor

TOP = os.path.realpath(os.path.join(os.path.dirname(os.path.abspath(__file__)), ".."))
sys.path.insert(0, os.path.join(TOP, ".ci"))

import built  # noqa: E402  (it lies in another folder)
import released
from speed_page import end_of_table, write

PAGES = ["README.md", "docs/SPEED.md"]
MARKER = re.compile(r"<!-- counted: (all|these) -->$")
RELEASED = "<!-- counted: released -->"
CELL = re.compile(r"(\d+) / (\d+) = ([\d.]+)$")
TOOLS = re.compile(r"^Counted with .*\.$")

# The columns: their names, and what generate.py makes for them.
KINDS = {
    "IPv4": "ipv4=1",
    "IPv6": "ipv6=1",
    "key": "key=1",
    "ASPA": "aspa=1",
    "mix": "ipv4=60,ipv6=30,key=5,aspa=5",
}

# The two lengths of input, in units before the end of data.
LENGTHS = (0, 2000)

# The units of the input whose bits are flipped in a test.
FLIPPED = 30

# The jobs of bench_units, how many times it does each, and the same job by hand.
BENCH = {"normalise": "rtr_normalise_slice", "normalise_slice": "rtr_normalise_slice"}
BENCH_RUNS = 21

# The argument with which bench_units only reads its input.
READING = "none"

# Calls of rtr.h. CALLS are compared with C by hand, RELEASED_CALLS with the last release, and
# ONLY_COUNTED are counted for portable.py.
CALLS = ["rtr_normalise_slice", "rtr_next"]
RELEASED_CALLS = ["rtr_write_unit"]
ONLY_COUNTED = ["rtr_normalise_for_slice", "rtr_same_meaning"]

# The call that reads all payload units of an answer, by router.c.
MACHINE = "rtr_router_read"

# Jobs of programs. PROGRAMS has the argument of programs.c for the same job in C by hand;
# RELEASED_PROGRAMS are compared with the last release.
PROGRAMS = {"rtr_list": "list", "rtr_list --check": "check"}
RELEASED_PROGRAMS = ["rtr_normalise", "rtr_list --json"]

FLAGS = ["-O3", "-march=x86-64-v2", "-I", os.path.join(TOP, "bindings", "c")]
ENVIRONMENT = {
    "PATH": os.environ.get("PATH", "/usr/bin:/bin"),
    "LD_BIND_NOW": "1",
    "GLIBC_TUNABLES": "glibc.cpu.hwcaps=-AVX2,-AVX_Fast_Unaligned_Load,-ERMS",
}


def source(name):
    """Returns the path of a file beside this one."""
    return os.path.join(TOP, "bench", name)


def warn(text):
    """Warns of what is left out."""
    print(f"!!! bench/count.py: {text}", file=sys.stderr)


def version(command):
    """Returns the first line of a tool's version, as `name number`."""
    said = subprocess.run([command, "--version"], capture_output=True, text=True).stdout
    return f"{command} {re.search(r'[0-9]+([.][0-9]+)+', said)[0]}"


def tools(compilers):
    """Returns the versions that it is counted with: compilers, C library, valgrind."""
    library = " ".join(platform.libc_ver())
    return [version(compiler) for compiler in compilers] + [library, version("valgrind")]


def sample(folder, kind, length, clean):
    """Returns the path of an input. All kinds share the one without units."""
    return os.path.join(folder, f"{kind if length else ''}.{length}{'.clean' if clean else ''}")


def samples(folder):
    """Returns the kind, the length and whether it is clean of each input, by its path."""
    return {sample(folder, kind, length, clean): (kind, length, clean)
            for kind in KINDS for length in LENGTHS for clean in (False, True)}


def make_sample(path, kind, length, clean):
    """Makes an input."""
    with open(path, "wb") as file:
        subprocess.run([source("generate.py"), "--units", str(length), "--mix", KINDS[kind]]
                       + ["--clean"] * clean, stdout=file, check=True)


def compiled(folder, compiler, name, *others):
    """Returns the path of a program of this folder, compiled."""
    made = os.path.join(folder, f"{name}.{compiler}")
    files = [source(name + ".c"), source("by_hand.c"), *others]
    if subprocess.run([compiler, *FLAGS, "-o", made, *files]).returncode != 0:
        sys.exit(f"bench/count.py: {name}.c FAILED to compile: is the archive that of rtr.h?")
    return made


def callgrind(command, input_path=os.devnull, dump=os.devnull):
    """Returns the instructions of a whole run; with `dump` a file of what its parts took."""
    with open(input_path, "rb") as file:
        ran = subprocess.run(["valgrind", "--tool=callgrind", "--combine-dumps=yes",
                              f"--callgrind-out-file={dump}", *command], stdin=file,
                             stdout=subprocess.DEVNULL, stderr=subprocess.PIPE, text=True,
                             env=ENVIRONMENT)
    counted = re.search(r"Collected : (\d+)", ran.stderr)
    if ran.returncode > 1 or not counted:
        sys.exit(f"{ran.stderr}bench/count.py: {' '.join(command)} FAILED")
    return int(counted[1])


def parts(folder, program):
    """Returns the cost of each job of `calls` or `programs` over each input, by the labels of the
    dumps."""
    dump = f"{program}.dump"
    callgrind([program, "--count", *samples(folder)], dump=dump)
    with open(dump, encoding="ascii") as file:
        found = re.findall(r"Client Request: (.*) \S+/(\S+)\n(?:.*\n)*?summary: (\d+)", file.read())
    return {(job, name): int(number) for job, name, number in found}


def a_unit(numbers):
    """Returns instructions a unit, by those at the two lengths."""
    return (numbers[1] - numbers[0]) / (LENGTHS[1] - LENGTHS[0])


def of_parts(found, job, kind, clean=False):
    """Returns instructions a unit of a job by its parts."""
    return a_unit([found[job, os.path.basename(sample("", kind, length, clean))]
                   for length in LENGTHS])


def machine_parts(folder, program):
    """Returns the cost of `router` over each clean input."""
    dump = f"{program}.dump"
    callgrind([program, *(path for path, each in samples(folder).items() if each[2])], dump=dump)
    with open(dump, encoding="ascii") as file:
        text = file.read()
    found = {}
    for part in text.split("\npart: "):
        told = re.search(rf"Request: {MACHINE} \S+/(\S+)\n(?:.*\n)*?summary: (\d+)", part)
        if told:
            found[MACHINE, told[1]] = int(told[2])
    return found


def program_of(row):
    """Returns the command of a program's row."""
    name, *words = row.split()
    return [built.program(name), *words]


def is_clean(row):
    """Reports whether a row is counted over clean input: the check's row, which prints nothing
    then."""
    return row.endswith("--check")


def test_calls(folder, program):
    """Tests that the calls return what the code by hand returns, as calls.c does before it
    times."""
    path = os.path.join(folder, "flipped")
    make_sample(path, "mix", FLIPPED, False)
    with open(path, "rb") as file:
        if subprocess.run([program], stdin=file, stdout=subprocess.DEVNULL).returncode != 0:
            sys.exit("bench/count.py: the calls and those by hand differ")


def test_programs(folder, hand):
    """Tests that the programs write what the code by hand writes, over each input."""
    for row, word in PROGRAMS.items():
        for path in samples(folder):
            with open(path, "rb") as file:
                ours, theirs = (subprocess.run(command, stdin=file, capture_output=True)
                                for command in (program_of(row), [hand, word])
                                if file.seek(0) == 0)
            if (ours.stdout, ours.returncode) != (theirs.stdout, theirs.returncode):
                sys.exit(f"bench/count.py: {row} and the program by hand differ over {path}")


def start_runs(folder, pool, rows):
    """Starts the runs of our programs that these rows need, by command and input."""
    commands = {tuple(program_of(row)): is_clean(row) for row in rows if row not in BENCH}
    if set(rows) & set(BENCH):
        bench = built.program("bench_units")
        commands |= {(bench, way): False for way in [*BENCH, READING]}
    return {(command, path): pool.submit(callgrind, command, path)
            for command, clean in commands.items()
            for path, each in samples(folder).items() if each[2] == clean}


def ours_of(folder, runs, row, kind):
    """Returns instructions a unit of a row of our programs; in bench_units without reading the
    input."""
    def of_run(command):
        return a_unit([runs[tuple(command), sample(folder, kind, length, is_clean(row))].result()
                       for length in LENGTHS])

    if row not in BENCH:
        return of_run(program_of(row))
    bench = built.program("bench_units")
    return (of_run([bench, row]) - of_run([bench, READING])) / BENCH_RUNS


def rows_by_hand():
    """Returns the rows of programs that are compared with C by hand."""
    if built.fresh("bench_units"):
        return list(BENCH) + list(PROGRAMS)
    warn(f"bench_units isn't built: {' and '.join(BENCH)} are left out")
    return list(PROGRAMS)


def count_all(folder, pool, compilers):
    """Returns instructions a unit, ours and by hand, by row, compiler and kind; and ours of the
    other jobs, by row and kind."""
    list(pool.map(lambda each: make_sample(each[0], *each[1]), samples(folder).items()))
    archive = built.needed("rtr_c")[0]
    calls = {each: compiled(folder, each, "calls", archive) for each in compilers}
    programs = {each: compiled(folder, each, "programs") for each in compilers}
    test_calls(folder, calls[compilers[0]])
    test_programs(folder, programs[compilers[0]])
    rows = rows_by_hand()
    machine = pool.submit(machine_parts, folder, compiled(folder, compilers[0], "router", archive))
    called = {each: pool.submit(parts, folder, calls[each]) for each in compilers}
    run = {each: pool.submit(parts, folder, programs[each]) for each in compilers}
    runs = start_runs(folder, pool, rows + RELEASED_PROGRAMS)
    ours, found, alone = called[compilers[0]].result(), {}, {}
    for compiler in compilers:
        hand, program = called[compiler].result(), run[compiler].result()
        for kind in KINDS:
            for job in CALLS:
                found[job, compiler, kind] = (of_parts(ours, f"{job} ours", kind),
                                              of_parts(hand, f"{job} by-hand", kind))
            for row in rows:
                found[row, compiler, kind] = (
                    ours_of(folder, runs, row, kind),
                    of_parts(hand, f"{BENCH[row]} by-hand", kind) if row in BENCH
                    else of_parts(program, PROGRAMS[row], kind, is_clean(row)))
    for kind in KINDS:
        for job in RELEASED_CALLS:
            alone[job, kind] = of_parts(ours, f"{job} ours", kind)
        for row in RELEASED_PROGRAMS:
            alone[row, kind] = ours_of(folder, runs, row, kind)
        alone[MACHINE, kind] = of_parts(machine.result(), MACHINE, kind, clean=True)
    return found, alone


def cell(numbers):
    """Returns a cell of the table."""
    ours, hand = (round(number) for number in numbers)
    return f"{ours} / {hand} = {ours / hand:.2f}"


def line(job, compiler, found):
    """Returns a row of the table."""
    cells = [cell(found[job, compiler, kind]) for kind in KINDS]
    return "| " + " | ".join([f"`{job}`", compiler, *cells]) + " |"


HEAD = ["| Job | By hand with | " + " | ".join(KINDS) + " |", "|---" * (len(KINDS) + 2) + "|"]


def names_of(row):
    """Returns the job, the compiler and the other cells of a row of a page."""
    cells = [text.strip() for text in row.strip().strip("|").split("|")]
    return cells[0].strip("`"), cells[1], cells[2:]


def tables(lines):
    """Yields where each table of a page begins and ends, and whether it is the whole one."""
    for place, text in enumerate(lines):
        marker = MARKER.match(text)
        if marker:
            yield place + 1, end_of_table(lines, place + 1), marker[1] == "all"


def rows_between(lines, begin, end):
    """Returns the rows of a table of a page, without its head, by job and compiler."""
    return {names_of(row)[:2]: row for row in lines[begin:end][len(HEAD):]}


def written(page, found, used):
    """Renews the tables and the tools of a page."""
    path = os.path.join(TOP, page)
    with open(path, encoding="utf-8") as file:
        lines = file.read().splitlines()
    for begin, end, whole in reversed(list(tables(lines))):
        stood = rows_between(lines, begin, end)
        counted = list(dict.fromkeys((job, compiler) for job, compiler, _ in found))
        if whole:
            order = list(BENCH) + CALLS + list(PROGRAMS)
            names = sorted({*counted, *(key for key in stood if key[0] in BENCH)},
                           key=lambda key: (order.index(key[0]), key[1] != "gcc"))
        else:
            names = list(stood)
        lines[begin:end] = HEAD + [line(*key, found) if key in counted else stood[key]
                                   for key in names]
    lines = [f"Counted with {', '.join(used)}." if TOOLS.match(text) else text for text in lines]
    with open(path, "w", encoding="utf-8") as file:
        file.write("\n".join(lines) + "\n")


def wrong_cells(page, row, found):
    """Prints each wrong cell in a row of a page, and returns their number."""
    job, compiler, cells = names_of(row)
    wrong = 0
    for kind, text in zip(KINDS, cells, strict=True):
        said = CELL.match(text)
        counted = found[job, compiler, kind]
        near = said and all(released.is_near(int(number), exact)
                            for number, exact in zip(said.groups(), counted))
        if not near or float(said[3]) != round(int(said[1]) / int(said[2]), 2):
            print(f"{page}: {job} with {compiler}, {kind}: `{text}`, counted {cell(counted)}")
            wrong += 1
    return wrong


def check(found, alone, used):
    """Compares the pages; returns how many rows were compared, and how many cells are wrong."""
    rows = wrong = 0
    tool_lines = []
    for page in PAGES:
        with open(os.path.join(TOP, page), encoding="utf-8") as file:
            lines = file.read().splitlines()
        tool_lines += [text for text in lines if TOOLS.match(text)]
        for begin, end, _ in tables(lines):
            for key, row in rows_between(lines, begin, end).items():
                if (*key, "IPv4") in found:
                    rows += 1
                    wrong += wrong_cells(page, row, found)
                elif key[0] not in BENCH and any(key[1] == name.split()[0] for name in used):
                    print(f"{page}: no row that is counted: {' '.join(key)}")
                    wrong += 1
    if rows == 0 or len(tool_lines) != 1:
        print("the pages have no table, or don't say once what it was counted with")
        wrong += 1
    faults = list(released.faults(RELEASED, KINDS, alone))
    print(*(f"{fault}\n" for fault in faults), sep="", end="")
    return rows + len(alone) // len(KINDS), wrong + len(faults)


def same_tools(used):
    """Reports whether the pages were counted with these tools, except for a compiler that isn't
    installed here."""
    with open(os.path.join(TOP, "docs", "SPEED.md"), encoding="utf-8") as file:
        tool_lines = [text for text in file.read().splitlines() if TOOLS.match(text)]
    return bool(tool_lines) and all(re.search(rf"\b{re.escape(name)}[,.]", tool_lines[0])
                                    for name in used)


def can_count(warns, *needed):
    """Reports whether these tools are installed, and the processor is that of the pages. If not, it
    calls `warns` with the reason."""
    missing = [name for name in needed if not shutil.which(name)]
    if missing or platform.machine() != "x86_64":
        warns(f"no {' and no '.join(missing) or 'x86-64'} here: nothing is counted")
        return False
    return True


def options(number, default, releases=False):
    """Returns the options of a script that counts: --check, --write, one that takes a number, and
    --release."""
    parser = argparse.ArgumentParser()
    parser.add_argument("--check", action="store_true")
    parser.add_argument("--write", action="store_true")
    if releases:
        parser.add_argument("--release", metavar="VERSION")
    parser.add_argument(number, type=int, default=default)
    return parser.parse_args()


def main():
    asked = options("--jobs", os.cpu_count(), releases=True)
    if not can_count(warn, "valgrind", "gcc"):
        return 0 if asked.check else 1
    compilers = [name for name in ("gcc", "clang") if shutil.which(name)]
    if len(compilers) == 1:
        warn("no clang here: its rows are left out")
    used = tools(compilers)
    if asked.check and not same_tools(used):
        warn(f"docs/SPEED.md wasn't counted with {', '.join(used)}: nothing is compared")
        return 0
    with tempfile.TemporaryDirectory() as folder, ThreadPoolExecutor(asked.jobs) as pool:
        found, alone = count_all(folder, pool, compilers)
    if asked.release:
        released.write(asked.release, alone)
    if asked.check:
        rows, wrong = check(found, alone, used)
        print(f"{rows} rows of instructions compared, {wrong} cells wrong")
        return 1 if wrong else 0
    rows = dict.fromkeys((job, compiler) for job, compiler, _ in found)
    table = released.table(KINDS, alone)
    print(*HEAD, *(line(*key, found) for key in rows), "", *table, sep="\n")
    print(f"Counted with {', '.join(used)}.")
    if asked.write:
        for page in PAGES:
            written(page, found, used)
        write(RELEASED, table)
    return 0


if __name__ == "__main__":
    sys.exit(main())
