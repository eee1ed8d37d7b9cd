#!/usr/bin/env python3
"""Prints what the gate costs: processor seconds of `rt ci` by crate and part, and how many times
those of `rt check` of rtr_units as it was in commit 38ceba3, from nothing.

usage: .ci/cost.py [NAME..]   it takes an hour or more, and proves in worktrees of its own; with
                              names of crates it only runs `rt ci` of these and those below them

Everything is pinned to two processors, so that the measure depends little on the machine. Run
nothing else meanwhile: work on other processors can add a third. A machine's speed can also change
within the hour: in one run that proof took 198 s before the rest, and 246 s after it. So it is
measured before and after, and the ratio is printed for both. Use the third number: there each
second is weighted by the time of a fixed job, a sort, at that moment; that proof took 323 of these
jobs, and 324. `rt check` reuses results that checks in other checkouts left; then nothing is
measured.

The crates of SINCE were added after the limit of 27 times was set. Each may add twice its own
proof.
"""
import contextlib
import os
import re
import resource
import subprocess
import sys
import tempfile
import time
from collections import defaultdict, namedtuple

TOP = os.path.realpath(os.path.join(os.path.dirname(os.path.abspath(__file__)), ".."))
YARDSTICK = "38ceba3"
KEPT = "begins with what a check kept"
SINCE = ["data_memory", "data_slices", "rtr_clean", "diff_work", "rtr_diff", "list_tables",
         "make_work", "rtr_make", "bench_data", "session_times"]

# Seconds between two samples of a run's processes, and samples between two runs of the fixed job.
BETWEEN = 0.5
JOBS = 40

# How many numbers the fixed job sorts: more than fit into a processor's caches.
NUMBERS = 1000000


# The cost of a command: its processor seconds; those of its sampled processes, and how many fixed
# jobs they are, by crate and part; its output, and whether it succeeded.
Spent = namedtuple("Spent", "seconds by_part in_jobs output well")


@contextlib.contextmanager
def worktree(commit):
    """Makes a worktree of the commit in a temporary folder, which is removed afterwards, so that
    later checks reuse nothing of it."""
    with tempfile.TemporaryDirectory() as parent:
        folder = os.path.join(parent, "tree")
        words = ["git", "worktree", "add", "-q", "--detach", folder, commit]
        subprocess.run(words, cwd=TOP, check=True)
        try:
            yield folder
        finally:
            words = ["git", "worktree", "remove", "--force", folder]
            subprocess.run(words, cwd=TOP, capture_output=True)


def processes():
    """Returns the parent, the start time and the processor seconds of each process, by id."""
    ticks, found = os.sysconf("SC_CLK_TCK"), {}
    for pid in filter(str.isdigit, os.listdir("/proc")):
        try:
            with open(f"/proc/{pid}/stat", encoding="utf-8", errors="replace") as file:
                fields = file.read().rpartition(") ")[2].split()
        except OSError:
            continue
        found[int(pid)] = int(fields[1]), fields[19], (int(fields[11]) + int(fields[12])) / ticks
    return found


def below(root, found):
    """Returns the processes that this one started, and their descendants."""
    of = defaultdict(list)
    for pid, (parent, _, _) in found.items():
        of[parent].append(pid)
    left, all_of = [root], []
    while left:
        each = of[left.pop()]
        left += each
        all_of += each
    return all_of


def edit_of(crate, words):
    """Returns the name of the edit that a check is for. Edits are tried in the order of their
    names, each in a folder of its number; in `seed` the crate itself is checked, before and
    after."""
    kept = ""
    if "--incremental" in words:
        kept = os.path.basename(words[words.index("--incremental") + 1])
    if kept == "seed":
        return "first check of edits"
    names = sorted(os.listdir(os.path.join(TOP, "crates", crate, "must-fail")))
    return f"edit {names[int(kept)]}" if kept else f"edit {names[0]}, from nothing"


def part_of(pid):
    """Returns the crate of a process of `rt ci`, and the part: its proof, that of its tests, one of
    its edits or the check before them. None for other processes."""
    try:
        with open(f"/proc/{pid}/cmdline", encoding="utf-8", errors="replace") as file:
            words = file.read().split("\0")
        folder = os.readlink(f"/proc/{pid}/cwd")
    except OSError:
        return None
    if "--crate-name" not in words:
        return None
    crate = words[words.index("--crate-name") + 1]
    if "/rt-edit" in folder or any("/rt-edit" in word for word in words):
        return crate, edit_of(crate, words)
    return crate, "tests" if "--test" in words else "proof"


def job():
    """Returns the processor seconds of the fixed job."""
    numbers = [number * 2654435761 % 4294967291 for number in range(NUMBERS)]
    began = time.process_time()
    numbers.sort()
    return time.process_time() - began


def samples(run):
    """Samples the processes of a run until it ends. Each sample has, for each process, its id and
    start, its processor seconds so far, and those of the latest fixed job."""
    sample = 0
    while run.poll() is None:
        if sample % JOBS == 0:
            last = job()
        sample += 1
        found = processes()
        for pid in below(run.pid, found):
            _, start, seconds = found[pid]
            yield (pid, start), seconds, last
        time.sleep(BETWEEN)


def spent(command, folder):
    """Runs a command in this folder, and returns its cost."""
    before = resource.getrusage(resource.RUSAGE_CHILDREN)
    parts, seen = {}, defaultdict(float)
    by_part, in_jobs = defaultdict(float), defaultdict(float)
    with tempfile.TemporaryFile("w+", errors="replace") as out:
        run = subprocess.Popen(command, cwd=folder, stdout=out, stderr=subprocess.STDOUT)
        for key, seconds, last in samples(run):
            part = parts[key] = parts.get(key) or part_of(key[0])
            by_part[part] += seconds - seen[key]
            in_jobs[part] += (seconds - seen[key]) / last
            seen[key] = seconds
        out.seek(0)
        output = out.read()
    after = resource.getrusage(resource.RUSAGE_CHILDREN)
    seconds = after.ru_utime - before.ru_utime + after.ru_stime - before.ru_stime
    return Spent(seconds, by_part, in_jobs, output, run.returncode == 0)


def demand_well(took, what):
    """Exits if the command failed."""
    if not took.well:
        sys.exit(f"{took.output[-4000:]}cost: {what} FAILED")


def yardstick(low="rtr_base", name="rtr_units"):
    """Returns the cost of proving a crate, after the lower one was proved."""
    with worktree(YARDSTICK) as folder:
        demand_well(spent(["rt", "lib"], os.path.join(folder, "crates", low)), low)
        took = spent(["rt", "check"], os.path.join(folder, "crates", name))
    demand_well(took, name)
    if KEPT in took.output:
        sys.exit(f"cost: {name} {KEPT} in another checkout: move the kept work away")
    print(f"rt check of {name} in {YARDSTICK}: {took.seconds:.0f} s", flush=True)
    return took


def print_parts(gate):
    """Prints the parts, the most expensive first, and the sum of each kind of parts."""
    kinds = defaultdict(float)
    named = {key: seconds for key, seconds in gate.by_part.items() if key}
    for (crate, part), seconds in sorted(named.items(), key=lambda each: -each[1]):
        print(f"{crate}: {part}: {seconds:.0f} s")
        kinds["edits" if part.startswith("edit ") else part] += seconds
    kinds["the rest"] = gate.seconds - sum(named.values())
    print(", ".join(f"{kind}: {seconds:.0f} s" for kind, seconds in kinds.items()))


def times(gate, units):
    """Prints the ratio of the gate to the proofs of `units`: in seconds, by each of them, and in
    fixed jobs, by their mean."""
    own = [sum(each[crate, "proof"] for crate in SINCE) for each in (gate.by_part, gate.in_jobs)]
    print(f"rt ci: {gate.seconds:.0f} s; the proofs of {', '.join(SINCE)}: {own[0]:.0f} s")
    for when, unit in zip(("before", "after"), units):
        rest = (gate.seconds - 2 * own[0]) / unit.seconds
        print(f"by the proof measured {when}: {gate.seconds / unit.seconds:.1f} times, "
              f"without twice those of these crates {rest:.1f}")
    jobs = sum(gate.in_jobs.values())
    proofs = [sum(unit.in_jobs.values()) for unit in units]
    unit = sum(proofs) / len(proofs)
    print(f"in fixed jobs: {jobs:.0f} and {' and '.join(f'{proof:.0f}' for proof in proofs)}: "
          f"{jobs / unit:.1f} times, without twice those of these crates "
          f"{(jobs - 2 * own[1]) / unit:.1f}")


def main():
    os.sched_setaffinity(0, sorted(os.sched_getaffinity(0))[:2])
    names = sys.argv[1:]
    units = [] if names else [yardstick()]
    with worktree("HEAD") as folder:
        gate = spent(["rt", "ci", "--anew", *names], folder)
    print_parts(gate)
    demand_well(gate, "rt ci")
    print(*re.findall(r"^\d+ passed, \d+ failed", gate.output, re.M)[-1:], flush=True)
    if not names:
        times(gate, [*units, yardstick()])


if __name__ == "__main__":
    main()
