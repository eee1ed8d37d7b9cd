#!/usr/bin/env python3
"""Makes each allocation fail in turn: those of the calls in the table of `test_rows`, and those of
whole runs of `rtr_normalise`, `rtr_list`, `rtr_diff`, `rtr_validate` and `rtr_clean`; of `rtr_list`
and `rtr_clean` also over a named pipe, which loses what was written to it if it is opened twice.

A row with a second `=>` is run repeatedly, each time with the next allocation of its call made to
fail, until none is left. These runs give the results after that `=>`, in order, and each at least
once; the last run gives the row's own result. A row with nothing after its second `=>` allocates
nothing.

The programs are those of `built.py`. Prints nothing if all is well.
"""
import os
import re
import subprocess
import sys
import tempfile
import threading
from concurrent.futures import ThreadPoolExecutor

TOP = os.path.realpath(os.path.join(os.path.dirname(os.path.abspath(__file__)), "..", ".."))
sys.path.insert(0, os.path.join(TOP, ".ci"))

import built  # noqa: E402  (it lies in another folder)
import samples  # noqa: E402
from summaries import summary  # noqa: E402

# The size of the allocations that mark the start and end of a call: those in between are made to
# fail. No call makes one of this size.
MARK = 65521

# More allocations than any call makes.
MOST = 100

# A run that takes longer than these seconds hangs.
SECONDS = 120

# A router key and an end of data.
KEY, END = (samples.BY_NAME[name] for name in ("router key of four bytes", "end of data"))
KEY_INPUT = KEY.bytes + END.bytes

# Their lines.
KEY_TEXT = f"{KEY.line}\n".encode()
END_TEXT = f"{END.line_at(36)}\n".encode()
KEY_JSON = f"{KEY.json}\n".encode()
END_JSON = f"{END.json}\n".replace('"offset":0', '"offset":36').encode()

# The end of data alone, and what leads there from the input: as lines, as JSON and as units.
END_ALONE = END.bytes
GONE = f"-{KEY.change[1:]}\n".encode()
GONE_JSON = f"{KEY.object}\n".replace("announce", "withdraw").encode()
GONE_UNIT = KEY.bytes[:2] + b"\x00" + KEY.bytes[3:]

# The arguments of `rtr_diff` before its files, and what it writes, in such pieces.
DIFFS = [
    ([], [GONE]),
    (["--json"], [GONE_JSON]),
    (["--units"], [GONE_UNIT, END_ALONE]),
]

# The arguments of `rtr_validate` before its file, and what it writes of ROUTES, by a file whose one
# origin covers none of them, in such pieces.
ROUTES = b"192.0.2.0/24 AS65551\n2001:db8::/32 AS65551\n"
ANSWERS = [
    ([], [line + b" not found\n" for line in ROUTES.splitlines()]),
    (["--json"], [b'{"prefix":"%s","asn":65551,"state":"not found","vrps":[]}\n' % line.split()[0]
                  for line in ROUTES.splitlines()]),
]

# A session of units that allocate and units that don't, each in its written form.
SESSION = [
    samples.unit("cache response"),
    KEY.bytes,
    END.bytes,
    samples.unit("report without a unit"),
    samples.unit("ASPA of large numbers", version=1),
    KEY.bytes,
    END.bytes,
]
ALL = b"".join(SESSION)

# What `rtr_clean` and `rtr_list` may be asked for.
CLEAN_WORDS = b"[--version 0|1|2] [FILE]"
LIST_WORDS = b"[--json | --check | --summary | --csv | --vrps] [FILE]"

# The summary of all units of an input, and that where there is no memory for a first one.
SUMMARY = summary(KEY_INPUT).encode()
SUMMARY_OF_NONE = summary(b"", "no").encode()

# A prefix, of whose AS a count is kept.
PREFIX = samples.unit("IPv4 prefix")

# 198.51.100.0/24 of AS65551, which covers none of the routes (RFC 8210 section 5.6).
ELSEWHERE = bytes.fromhex("0104000000000014 01181800 c6336400 0001000f")

# The programs, their arguments, their input, what they write for it, in pieces since it may be cut
# after one when memory runs out, and their usage; at last what else they may write then.
PROGRAMS = [
    ("rtr_normalise", [], KEY_INPUT, [KEY_INPUT], b"[--version 0|1|2]"),
    ("rtr_normalise", ["--version", "1"], KEY_INPUT, [KEY_INPUT], b"[--version 0|1|2]"),
    ("rtr_list", [], KEY_INPUT, [KEY_TEXT, END_TEXT], LIST_WORDS),
    ("rtr_list", ["--json"], KEY_INPUT, [KEY_JSON, END_JSON], LIST_WORDS),
    ("rtr_list", ["--check"], KEY_INPUT, [], LIST_WORDS),
    ("rtr_list", ["--summary"], KEY_INPUT, [SUMMARY], LIST_WORDS, [SUMMARY_OF_NONE]),
    ("rtr_list", ["--summary"], PREFIX, [summary(PREFIX).encode()], LIST_WORDS),
    ("rtr_clean", [], ALL, SESSION, CLEAN_WORDS),
    ("rtr_clean", ["--version", "1"], ALL, SESSION[:4] + SESSION[5:], CLEAN_WORDS),
]


# Programs that read a file, their arguments, what is in it, what they write for it and their usage.
PIPED = [
    ("rtr_list", [], KEY_INPUT, [KEY_TEXT, END_TEXT], LIST_WORDS),
    ("rtr_clean", [], ALL, SESSION, CLEAN_WORDS),
]


def refusing(shim, command, given, refused, mark):
    """Runs with one allocation made to fail, and returns whether the run got that far."""
    reading, writing = os.pipe()
    names = {"LD_PRELOAD": shim, "REFUSED": str(refused), "MARK": str(mark), "MET": str(writing)}
    try:
        pipes = {"pass_fds": [writing], "capture_output": True}
        ran = subprocess.run(command, input=given, env=names, **pipes)
    finally:
        os.close(writing)
    with os.fdopen(reading, "rb") as met:
        return ran, met.read() != b""


def runs(shim, command, given, mark):
    """Yields the runs with each allocation made to fail in turn. In the last one none fails."""
    for refused in range(1, MOST):
        ran, is_met = refusing(shim, command, given, refused, mark)
        yield ran
        if not is_met:
            return
    sys.exit(f"growth: {command} asks for more than {MOST} growths")


def fill(path, given):
    """Writes to a named pipe, once it is open for reading too, and closes it."""
    try:
        with open(path, "wb", buffering=0) as pipe:
            pipe.write(given)
    except BrokenPipeError:
        pass


def has_open(process, path):
    """Reports whether a process has a file open."""
    folder = f"/proc/{process.pid}/fd"
    return any(os.readlink(os.path.join(folder, name)) == path for name in os.listdir(folder))


def held_run(shim, command, path, refused, writer):
    """Returns a run over a named pipe with one allocation made to fail, and whether it got that
    far.

    If the pipe is open by then, all is written to it and it is closed before the run goes on.
    """
    (met, meeting), (held, releasing) = os.pipe(), os.pipe()
    names = {"LD_PRELOAD": shim, "REFUSED": str(refused), "MET": str(meeting), "HELD": str(held)}
    pipes = {"stdin": subprocess.DEVNULL, "stdout": subprocess.PIPE, "stderr": subprocess.PIPE}
    with subprocess.Popen(command, env=names, pass_fds=[meeting, held], **pipes) as process:
        os.close(meeting)
        is_met = os.read(met, 1) != b""
        if is_met and has_open(process, path):
            writer.join()
        os.write(releasing, b"x")
        try:
            written, errors = process.communicate(timeout=SECONDS)
        except subprocess.TimeoutExpired:
            process.kill()
            raise
        finally:
            for end in (met, held, releasing):
                os.close(end)
    return (process.returncode, written, errors), is_met


def piped(shim, command, path, given, refused):
    """Such a run, with what is given written to the pipe."""
    os.mkfifo(path)
    writer = threading.Thread(target=fill, args=(path, given))
    writer.start()
    try:
        return held_run(shim, [*command, path], path, refused, writer)
    finally:
        # A run that ends before it opens the pipe leaves the writer waiting.
        os.close(os.open(path, os.O_RDONLY | os.O_NONBLOCK))
        writer.join()
        os.remove(path)


def table():
    """Returns the lines of tests/rows that give bytes a name, and the rows whose allocations are
    made to fail, each with its own name."""
    play = built.script("tests/rows/play.py")
    named = play.names_of_rows(play.FILES)
    names, rows = [], []
    for line in play.joined(play.FILES).splitlines():
        row = line.split("//")[0].strip()
        if row.count("=>") == 2:
            rows.append((named[line], row))
        elif "=>" not in row and "=" in row:
            names.append(row)
    return "\n".join(names), rows


def row_problem(shim, names, name, row):
    """Returns what is wrong with the runs of a row, if anything is."""
    command = [built.program("test_rows"), str(MARK)]
    given = f"{names}\n{row}\n".encode()
    marks = [ran.stdout.decode().split("\n")[0] for ran in runs(shim, command, given, MARK)]
    answers = row.split("=>")[2].strip()
    pattern = ""
    if answers:
        pattern = "".join(f"(refused {index}, )+" for index in range(len(answers.split(";"))))
    if not re.fullmatch(f"{pattern}whole", ", ".join(marks)):
        return f"{name} {row}: {', '.join(marks)}"
    return None


def program_problem(shim, program, arguments, given, pieces, usage, others=()):
    """Returns what is wrong with the runs of a program, if anything is.

    Each run writes all of its pieces; or some of them, and reports that memory ran out; or the
    usage. At least one run reports that memory ran out.
    """
    whole = (0, b"".join(pieces), b"")
    cut = range(max(len(pieces), 1))
    name = b"" if program == "rtr_normalise" else program.encode() + b": "
    counts = re.compile(rb"rtr_list: looked at units \d+, answers \d+\n$")
    written = [b"".join(pieces[:count]) for count in cut] + list(others)
    memory = [(3, text, name + b"out of memory\n") for text in written]
    called = (2, b"", b"usage: " + program.encode() + b" " + usage + b"\n")
    ended = runs(shim, [built.program(program), *arguments], given, 0)
    results = [(ran.returncode, ran.stdout, counts.sub(b"", ran.stderr)) for ran in ended]
    for answer in results:
        if answer not in [whole, *memory, called]:
            return f"{program} {arguments}: {answer}"
    if not any(answer in results for answer in memory) or results[-1] != whole:
        return f"{program} {arguments}: no growth of it was refused"
    return None


def piped_problem(shim, folder, program, arguments, given, pieces, usage):
    """Returns what is wrong with the runs of a program over a named pipe, or None.

    Each run writes all of its pieces, or some of them and the message that memory ran out, or the
    usage. Some write all of them even if the allocation of a buffer failed.
    """
    path = os.path.join(os.path.realpath(folder), f"{program}.pipe")
    name = program.encode()
    whole = (0, b"".join(pieces), b"")
    short = {(3, b"".join(pieces[:count]), name + b": out of memory\n")
             for count in range(len(pieces))}
    short.add((2, b"", b"usage: " + name + b" " + usage + b"\n"))
    unbuffered = False
    for refused in range(1, MOST):
        try:
            answer, is_met = piped(shim, [built.program(program), *arguments], path, given, refused)
        except subprocess.TimeoutExpired:
            return f"{program} hangs over a named pipe where allocation {refused} fails"
        if answer != whole and answer not in short:
            return f"{program} over a named pipe where allocation {refused} fails: {answer}"
        unbuffered = unbuffered or is_met and answer == whole
        if not is_met:
            break
    if is_met or not unbuffered:
        return f"{program} over a named pipe: no buffer was refused"
    return None


def diff_problem(shim, folder, arguments, pieces):
    """Returns what is wrong with the runs of `rtr_diff` from the input to a bare end of data, or
    None.

    Each run writes all of its pieces, or none and how it is called; or some of them and that memory
    ran out, for a file with its name and an offset in it.
    """
    new = os.path.join(folder, "new")
    with open(new, "wb") as file:
        file.write(END_ALONE)
    command = [built.program("rtr_diff"), *arguments, "-", new]
    results = []
    for ran in runs(shim, command, KEY_INPUT, 0):
        results.append((ran.returncode, ran.stdout, ran.stderr.decode()))
    whole = (1, b"".join(pieces), "")
    starts = [b"".join(pieces[:count]) for count in range(len(pieces))]
    texts = {"rtr_diff: out of memory\n": starts}
    for name in ("-", new):
        texts |= {f"rtr_diff: {name}: {where}out of memory\n": [b""]
                  for where in ("", "offset 0: ", "offset 36: ")}
    called = "usage: rtr_diff [--json | --units] OLD NEW, where one of them may be -\n"
    short = {(2, b"", called)}
    short |= {(3, some, text) for text, front in texts.items() for some in front}
    for answer in results:
        if answer != whole and answer not in short:
            return f"rtr_diff {arguments}: {answer}"
    if results[-1] != whole or not any(text.endswith(": out of memory\n")
                                       for _, _, text in results):
        return f"rtr_diff {arguments}: no growth of it was refused"
    return None


def validate_problem(shim, folder, arguments, pieces):
    """Returns what is wrong with the runs of `rtr_validate` over the input, or None.

    Each run writes all of its pieces, or some and that memory ran out; or none and how it is
    called, or that memory ran out for the file.
    """
    file = os.path.join(folder, "file")
    with open(file, "wb") as units:
        units.write(KEY.bytes + ELSEWHERE + END.bytes)
    command = [built.program("rtr_validate"), *arguments, file]
    results = []
    for ran in runs(shim, command, ROUTES, 0):
        results.append((ran.returncode, ran.stdout, ran.stderr.decode()))
    whole = (0, b"".join(pieces), "")
    short = {(3, b"".join(pieces[:count]), "rtr_validate: out of memory\n")
             for count in range(len(pieces))}
    short |= {(3, b"", f"rtr_validate: {file}: {where}out of memory\n")
              for where in ("", "offset 0: ", f"offset {len(KEY.bytes)}: ",
                            f"offset {len(KEY.bytes + ELSEWHERE)}: ")}
    short.add((2, b"", "usage: rtr_validate [--json] [--summary] [--strict] [--format F] "
                       "[--at N] [--slurm FILE].. [--against FILE] FILE [PREFIX ASN]\n"))
    for answer in results:
        if answer != whole and answer not in short:
            return f"rtr_validate {arguments}: {answer}"
    if results[-1] != whole or not any(text.endswith("out of memory\n") for _, _, text in results):
        return f"rtr_validate {arguments}: no growth of it was refused"
    return None


def main():
    with tempfile.TemporaryDirectory() as folder:
        shim = os.path.join(folder, "refuse.so")
        built.compile_library("tests/programs/refuse.c", shim)
        names, rows = table()
        with ThreadPoolExecutor(os.cpu_count()) as pool:
            problems = list(pool.map(lambda row: row_problem(shim, names, *row), rows))
            problems += pool.map(lambda run: program_problem(shim, *run), PROGRAMS)
            problems += [piped_problem(shim, folder, *run) for run in PIPED]
            problems += [diff_problem(shim, folder, *run) for run in DIFFS]
            problems += [validate_problem(shim, folder, *run) for run in ANSWERS]
    problems = [problem for problem in problems if problem]
    for problem in problems:
        print(f"growth: {problem}")
    if problems or not rows:
        sys.exit("growth: FAILED")


if __name__ == "__main__":
    main()
