"""Runs the programs of this repository over recordings."""
import json
import os
import re
import subprocess

import payloads
from processes import Missing

TOP = os.path.join(os.path.dirname(os.path.abspath(__file__)), "..")
FOLDER = os.environ.get("RTR_PROGRAMS", os.path.join(TOP, "prebuilt", "x86_64"))
SHOWN = os.path.relpath(FOLDER, TOP)
NAMES = ("rtr_list", "rtr_normalise", "rtr_diff", "rtr_clean", "rtr_make")
SECONDS = 180

# The fields of a line of `rtr_list --json` that `rtr_diff --json` doesn't print.
OF_UNITS = ("offset", "length", "version", "flags", "zero")


def path(name):
    """Returns the path of one of our programs."""
    found = os.path.join(FOLDER, name)
    if not os.access(found, os.X_OK):
        raise Missing(f"{name} isn't in {SHOWN}")
    return found


def there(name):
    """Reports whether one of our programs is available."""
    return os.access(os.path.join(FOLDER, name), os.X_OK)


def run(words, content=b""):
    """Runs one of our programs, and returns its status, standard output and standard error."""
    result = subprocess.run([path(words[0]), *words[1:]], input=content, capture_output=True,
                            timeout=SECONDS, check=False)
    return result.returncode, result.stdout, result.stderr.decode().strip()


def output_of(words, content=b"", allowed=(0,)):
    """Returns the standard output of one of our programs. Another status than these is an error."""
    status, output, errors = run(words, content)
    if status not in allowed:
        raise ValueError(f"{words[0]} ends with {status}: {errors}")
    return output


def listed(content):
    """Returns the units of a recording, as `rtr_list --json` prints them. A fault is an error."""
    lines = output_of(["rtr_list", "--json"], content)
    return [json.loads(line) for line in lines.splitlines()]


def line_of(unit):
    """Returns a payload's line of `rtr_list --json` as `rtr_diff --json` prints it."""
    return payloads.as_line({name: unit[name] for name in unit if name not in OF_UNITS})


def found(content):
    """Returns the findings of `rtr_list --check`, a line each."""
    status, lines, errors = run(["rtr_list", "--check"], content)
    counts = r"rtr_list: looked at units \d+, answers \d+"
    if status not in (0, 1) or not re.fullmatch(counts, errors):
        raise ValueError(f"rtr_list --check ends with {status}: {errors}")
    return lines.decode().splitlines()


def differing(old, new):
    """Returns the output of `rtr_diff --json` for two files: a set of lines, with sorted fields."""
    lines = output_of(["rtr_diff", "--json", old, new], allowed=(0, 1))
    return {json.dumps(json.loads(line), sort_keys=True) for line in lines.splitlines()}


def units_of_change(old, new):
    """Returns the output of `rtr_diff --units` for two files."""
    return output_of(["rtr_diff", "--units", old, new], allowed=(0, 1))


def normalised(content):
    """Returns the output of `rtr_normalise` for a sequence."""
    return output_of(["rtr_normalise"], content)


def rtr_make(content, version):
    """Returns the output of `rtr_make --json` for a cache's file, without what the version
    lacks."""
    words = ["rtr_make", "--json", "--version", str(version), "--session", "4660", "--serial", "1"]
    return output_of([*words, "--drop", "--empty"], content)


def cleaned(content):
    """Returns the output of `rtr_clean` for a session."""
    return output_of(["rtr_clean"], content)
