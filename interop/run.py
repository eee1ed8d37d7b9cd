#!/usr/bin/env python3
"""Runs other projects' caches, routers and a dissector with the programs of this repository, on the
loopback interface, and compares sets of payloads.

usage: interop/run.py [--write] [--folder FOLDER] [PART]..
       interop/run.py --long [--write] [--folder FOLDER] [PART]..

Parts are caches, routers, transports, filter, validation, exceptions, python, pages, dissector,
defaults, recovery and cuts; by default all are run. With --long there are two: cuts, for ten
minutes and then up to a retry time, and recovery, for a refresh time, which is an hour. It installs
nothing (interop/install does), and skips what isn't installed, with a loud message. Recordings stay
in FOLDER, which has to be empty, or in a folder below the system's for temporary files. With
--write it writes its measurements into docs/INTEROP.md and docs/reference/interop.md. Its last
lines name what was skipped and what failed; it exits with status 1 if anything failed.
"""
import argparse
import concurrent.futures
import os
import signal
import socket
import sys
import tempfile
import time

import caches
import cutting
import defaults
import dissector
import exceptions
import filtering
import ours
import pages
import processes
import python
import recovering
import results
import routing
import tables
import theirs
import transports
import unanswered
import validation

# Jobs that haven't started after this many seconds, on a machine under heavy load, are skipped;
# with --write none are.
START_SECONDS = 400

# The time limit of the whole run; the alarm stops it and its servers.
SECONDS = 900
WRITE_SECONDS = 1800
LONG_SECONDS = 4800

# How many pairs run at once: they mostly wait, for notifies that come once a minute.
AT_ONCE = 14


def all_of_ours(folder):
    """Returns the makers of all of our caches."""
    return [*caches.ours(folder), *caches.in_scripts(folder), *caches.of_programs(folder)]


def jobs_of_caches(found, folder):
    """Returns the jobs of the part `caches`, long ones first."""
    makers = sorted((*caches.CACHES, *all_of_ours(folder)), key=lambda each: -each.change_seconds)
    for maker in makers:
        for version in maker.versions:
            yield theirs.compare, (found, maker, version, folder)


def jobs_of_routers(found, folder):
    """Returns the jobs of the part `routers`: our clients with each cache, and other routers with
    the caches whose times can be set, ours and stayrtr."""
    of_ours = all_of_ours(folder)
    for maker in sorted((*of_ours, *caches.CACHES), key=lambda each: -each.change_seconds):
        yield routing.compare_ours, (found, maker, folder)
    for maker in (*of_ours, caches.StayRTR):
        yield routing.compare_theirs, (found, maker, folder)


def jobs_of_transports(found, folder):
    """Returns the jobs of the part `transports`: with rtr-cache, and with stayrtr."""
    makers = [*caches.of_programs(folder, transports.SecuredRtrCache), transports.SecuredStayRTR]
    for maker in makers:
        path = os.path.join(apart(folder, "transports"), maker.__name__.lower())
        yield transports.compare, (found, maker, path)


def jobs_of_filter(found, folder):
    """Returns the job of the part `filter`: with one of our caches, or else stayrtr."""
    maker = next(caches.ours(folder), caches.StayRTR)
    yield filtering.compare, (found, maker, folder)


def jobs_of_validation(found, folder):
    """Returns the job of the part `validation`: with one of our caches, or else stayrtr."""
    maker = next(caches.ours(folder), caches.StayRTR)
    yield validation.compare, (found, maker, folder)


def jobs_of_exceptions(found, folder):
    """Returns the job of the part `exceptions`: with stayrtr."""
    yield exceptions.compare, (found, apart(folder, "exceptions"))


def jobs_of_python(found, folder):
    """Returns the job of the part `python`: with stayrtr."""
    yield python.compare, (found, caches.StayRTR, folder)


def jobs_of_dissector(found, folder):
    """Returns the jobs of the part `dissector`, over the recordings of the other parts."""
    captures = os.path.join(folder, "captures")
    os.makedirs(captures, exist_ok=True)
    yield dissector.compare_sample, (found, captures)
    for path in dissector.recorded(folder):
        if path not in [apart(folder, part) for part in BESIDE]:
            yield dissector.compare, (found, path, captures)


def apart(folder, part="defaults"):
    """Returns the folder of a part that may still write to it after the others have ended."""
    return os.path.join(folder, part)


def jobs_of_defaults(found, folder):
    """Returns the jobs of the part `defaults`, which mostly wait."""
    yield unanswered.compare, (found, apart(folder))
    for maker in caches.ours(folder):
        for scene in (defaults.burst, defaults.restart, defaults.new_session):
            yield scene, (found, maker, apart(folder))
    for maker in caches.of_programs(folder, cutting.Kept):
        for scene in (defaults.burst, defaults.restart):
            yield scene, (found, maker, apart(folder))


def jobs_of_recovery(found, folder):
    """Returns the jobs of the part `recovery`, which mostly wait."""
    yield recovering.compare, (found, folder)
    yield recovering.compare_preferences, (found, folder)
    for maker in all_of_ours(folder):
        yield recovering.compare_times, (found, maker, apart(folder, "recovery"))
    for maker in caches.ours(folder):
        yield recovering.compare_first_cut, (found, maker, apart(folder, "recovery"))


def jobs_of_cuts(found, folder):
    """Returns the jobs of the part `cuts`, which mostly wait."""
    for maker in caches.of_programs(folder, cutting.Kept):
        yield cutting.cut, (found, maker, os.path.join(apart(folder, "cuts"), "cut"))
        yield cutting.kill, (found, maker, os.path.join(apart(folder, "cuts"), "killed"))


def long_jobs(found, folder):
    """Returns the same over ten minutes."""
    for maker in caches.of_programs(folder, cutting.Kept):
        for retry in cutting.LONG_RETRIES:
            path = os.path.join(apart(folder, "cuts"), f"cut.{retry}")
            yield cutting.cut, (found, maker, path, retry, cutting.LONG_SECONDS,
                                cutting.LONG_CHANGES)
        yield cutting.kill, (found, maker, os.path.join(apart(folder, "cuts"), "killed"))


def jobs_of_an_hour(found, folder):
    """Returns the jobs that take a refresh time."""
    yield recovering.compare_rising, (found, folder)


# The parts, in phases: those of the second use the recordings of the first.
PHASES = [
    {"caches": jobs_of_caches, "routers": jobs_of_routers, "filter": jobs_of_filter,
     "validation": jobs_of_validation, "exceptions": jobs_of_exceptions,
     "python": jobs_of_python, "pages": pages.jobs},
    {"dissector": jobs_of_dissector},
]

# The parts that run beside all phases, with all of their jobs at once.
BESIDE = {"defaults": jobs_of_defaults, "recovery": jobs_of_recovery, "cuts": jobs_of_cuts,
          "transports": jobs_of_transports}
LONG = {"cuts": long_jobs, "recovery": jobs_of_an_hour}


LISTENS = """
import socket, sys
with socket.create_server(("127.0.0.1", int(sys.argv[1]))) as listener:
    while True:
        listener.accept()[0].close()
"""


def check_ports(found, folder):
    """A server whose port is in use starts on another one."""
    def start(port):
        words = [sys.executable, "-c", LISTENS, str(port)]
        with processes.Server(words, os.path.join(folder, "ports.log")) as server:
            server.listens(port)
        return port

    with results.Pair(found, "our side", "our", "ports") as pair, \
            socket.create_server(("127.0.0.1", 0)) as taken:
        ports = [taken.getsockname()[1], processes.Ports.free()]
        got = processes.on_port(start, free=iter(ports).__next__)
        pair.equal("a port that is taken is given up for another", got, ports[1], 1)


def in_time(end, part, job, words):
    """Runs a job, or records that it is too late for it after this time. A job that raises an error
    has failed, and the others continue."""
    found, first, *_ = words
    with results.Pair(found, part, part, "") as pair:
        if time.monotonic() < end:
            return job(*words)
        named = first.name if hasattr(first, "name") else os.path.basename(first)
        pair.skip(named, f"{START_SECONDS} s were over before it could start")


def arguments():
    """Returns the command line's options. The folder exists, and is empty."""
    parser = argparse.ArgumentParser(description=__doc__, allow_abbrev=False,
                                     formatter_class=argparse.RawDescriptionHelpFormatter)
    parser.add_argument("--write", action="store_true")
    parser.add_argument("--long", action="store_true")
    parser.add_argument("--folder")
    parser.add_argument("parts", nargs="*", metavar="PART")
    asked = parser.parse_args()
    for part in asked.parts:
        if not any(part in phase for phase in ([LONG] if asked.long else [*PHASES, BESIDE])):
            parser.error(f"there is no part {part}")
    asked.folder = asked.folder or tempfile.mkdtemp(prefix="interop.")
    os.makedirs(asked.folder, exist_ok=True)
    if os.listdir(asked.folder):
        parser.error(f"{asked.folder} isn't empty")
    return asked


def run(phase, parts, end, found, folder, at_once=None):
    """Starts the jobs of the selected parts of a phase, or of all; returns the futures to wait for,
    and their pool."""
    jobs = [
        (part, job, words) for part in phase if part in (parts or phase)
        for job, words in phase[part](found, folder)
    ]
    pool = concurrent.futures.ThreadPoolExecutor(at_once or max(1, len(jobs)))
    return pool, [pool.submit(in_time, end, *job) for job in jobs]


def finish(pool, pending):
    """Waits for jobs."""
    with pool:
        for job in pending:
            job.result()


def write(found, long):
    """Writes the measurements into the page."""
    if long:
        return tables.write_long(found, cutting.table(found))
    tables.write(found, {"caches": theirs.PART, "routers": routing.PART,
                         "transports": transports.PART, "filter": filtering.PART,
                         "validation": validation.PART, "exceptions": exceptions.PART,
                         "python": python.PART,
                         "dissector": dissector.PART, "defaults": defaults.PART,
                         "recovery pairs": recovering.PART, "cuts": cutting.PART},
                 {unanswered.MARK: unanswered.table(found), defaults.MARK: defaults.table(found),
                  recovering.MARK: recovering.table(found),
                  recovering.PREFERRED: recovering.table_of_preferences(found)})


def main():
    """Runs the selected parts."""
    asked = arguments()
    folder = asked.folder
    found = results.Results()
    processes.end_on_signals(found.again)
    signal.alarm(LONG_SECONDS if asked.long else WRITE_SECONDS if asked.write else SECONDS)
    start = time.monotonic()
    end = float("inf") if asked.write or asked.long else start + START_SECONDS
    ours.say_absent(found, folder)
    check_ports(found, folder)
    ours.build_all(folder)
    beside = run(LONG if asked.long else BESIDE, asked.parts, end, found, folder)
    for phase in [] if asked.long else PHASES:
        finish(*run(phase, asked.parts, end, found, folder, AT_ONCE))
    finish(*beside)
    processes.end_all()
    print(f"recordings and logs: {folder}, {time.monotonic() - start:.0f} s")
    if asked.write:
        write(found, asked.long)
    for line in found.again():
        print(line)
    counts = [f"{found.count(outcome)} {outcome}" for outcome in results.OUTCOMES]
    print(", ".join(counts))
    return 1 if found.count(results.FAILED) else 0


if __name__ == "__main__":
    sys.exit(main())
