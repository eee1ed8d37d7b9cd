#!/usr/bin/env python3
"""The only step that updates measurements in the repository: speeds and sizes, and the copies of
built files in prebuilt/. No other commit changes them.

usage: release/run.py [--dry-run] [--module PATH] [--repository URL] [VERSION]

It proves and builds everything, copies what was built, runs the measurements of bench/ and
interop/, writes the results into the pages, and commits that. With VERSION, as 0.3.0, it first
writes that into each file that .ci/versions compares, gives the unreleased changes in CHANGELOG.md
this heading and today's date, and writes what jobs take into bench/released.txt, with which later
ones are compared; at the end it tags the commit vVERSION, makes packages, tar files and root
folders in out/release (release/packages), and the packages of each language in
out/release/libraries (bindings/package.py): there the Go module has the path PATH, and all name the
repository URL, or those that release/published has. It pushes nothing: .ci/run from a fresh clone
comes before that.

It takes hours, and needs a clean tree on the branch main, the kit, the tools of bench/ and
interop/, and a machine that does nothing else. With --dry-run it prints the steps without running
them, but checks whether they can run, and tries those of a version in a copy. Exits with status 1
if a step can't run or fails; the results of the steps before it then stay in the tree, uncommitted.
"""
import argparse
import datetime
import os
import pathlib
import re
import shutil
import subprocess
import sys
import tempfile

TOP = pathlib.Path(__file__).resolve().parent.parent
CHANGES = "CHANGELOG.md"
PUBLISHED = "release/published"
LIBRARIES = "out/release/libraries"
PACKAGED = "debian/changelog"
# The heading of unreleased changes: the version that they will have, and a paragraph that says so.
UNRELEASED = re.compile(r"\A# .*?^## (\d+\.\d+\.\d+)\n\n(Unreleased\.(?:[^\n]+\n)*)",
                        re.MULTILINE | re.DOTALL)
# Names of RFC 5322, in any locale.
DAYS = "Mon Tue Wed Thu Fri Sat Sun".split()
MONTHS = "Jan Feb Mar Apr May Jun Jul Aug Sep Oct Nov Dec".split()
TOOLS = ["rt", "valgrind", "gcc", "clang", "rustc", "cargo", "go", "python3", "git"]
# The first of these write what a version takes into bench/released.txt.
RELEASED = ["count", "lists", "data"]
BENCHES = [*RELEASED, "vrps", "validate", "clients", "cache", "scale", "python"]


def output_of(*words):
    """Returns the output of a command."""
    return subprocess.run(words, cwd=TOP, capture_output=True, text=True, check=True).stdout


def version_steps(version):
    """Returns the commands that write a version into the files, after the heading of its
    changes."""
    return [[".ci/versions", "--write", version],
            ["bindings/constants.py"], [".ci/versions"]]


def bench_step(name, version):
    """Returns the command of a script of bench/."""
    keeps = ["--release", version] if version and name in RELEASED else []
    return [f"bench/{name}.py", "--write", *keeps]


def number_steps(version):
    """Returns the commands that build, copy and measure."""
    return [["rt", "ci"],
            ["bindings/build", "x86_64", "aarch64", "wasm64", "wasm32", "portable"],
            ["programs/arm64"], ["prebuilt/renew"],
            *(bench_step(name, version) for name in BENCHES), ["interop/run.py", "--write"],
            ["tests/pages/operators.py", "--write"], ["docs/reference/generate.py"],
            [".ci/shown.py", "--write"], [".ci/links.py"], [".ci/prebuilt"],
            ["prebuilt/renew", "--packages"], ["git", "add", "--all", "prebuilt"]]


def head_changes(folder, version, day):
    """Gives the unreleased changes the heading of a version, and the date, which packages have,
    too."""
    path = folder / PACKAGED
    date = f"{DAYS[day.weekday()]}, {day.day:02} {MONTHS[day.month - 1]} {day.year}"
    path.write_text(re.sub(r"(?m)^( -- .*  ).*$", rf"\g<1>{date} 00:00:00 +0000", path.read_text()))
    path = folder / CHANGES
    text = path.read_text()
    found = UNRELEASED.match(text)
    path.write_text(f"{text[:found.start(1)]}{version}\n\n{day.day} {day:%B %Y}.\n"
                    f"{text[found.end(2):]}")


def order(version):
    return tuple(map(int, version.split(".")))


def version_faults(version):
    """Returns why this can't be the next version."""
    changes = (TOP / CHANGES).read_text()
    found = UNRELEASED.match(changes)
    released = re.search(r"^## (\d+\.\d+\.\d+)$", changes[found.end():] if found else changes,
                         re.MULTILINE)
    if not re.fullmatch(r"\d+\.\d+\.\d+", version):
        yield f"{version} is no version as 0.3.0"
    elif released and order(version) <= order(released[1]):
        yield f"{version} isn't after {released[1]}"
    elif found and order(version) < order(found[1]):
        yield f"{version} is before {found[1]}, which is in packages and programs"
    if not found:
        yield f"{CHANGES} has nothing that is unreleased"
    if output_of("git", "tag", "--list", f"v{version}").strip():
        yield f"there is a tag v{version}"


def package_steps(module, repository):
    """Returns the commands that make the files of a release."""
    return [["release/packages", "out/release"],
            ["bindings/package.py", "--module", module, "--repository", repository, LIBRARIES]]


def published_faults(module, repository):
    """Returns why nothing can be published there."""
    if "." not in module.split("/")[0]:
        yield f"{module} can't be fetched: a Go module's path begins with a host's name"
    if not repository.startswith("https://"):
        yield f"{repository} isn't an address as https://host/path"
    if (TOP / LIBRARIES).exists():
        yield f"{LIBRARIES} is there already"


def faults(version, steps):
    """Returns why the steps can't run."""
    if output_of("git", "status", "--porcelain").strip():
        yield "the tree has changes that aren't committed"
    if output_of("git", "branch", "--show-current").strip() != "main":
        yield "this isn't the branch main"
    for tool in TOOLS:
        if not shutil.which(tool):
            yield f"no {tool} here"
    for step in steps:
        if "/" in step[0] and not os.access(TOP / step[0], os.X_OK):
            yield f"no {step[0]}"
    if version:
        yield from version_faults(version)


def tried(version, day):
    """Returns what the steps of a version change, tried in a copy; None if one fails."""
    with tempfile.TemporaryDirectory() as folder:
        copy = pathlib.Path(folder) / "copy"
        subprocess.run(["git", "clone", "-q", TOP, copy], check=True)
        head_changes(copy, version, day)
        for step in version_steps(version):
            if subprocess.run(step, cwd=copy, check=False).returncode:
                print(f"failed in a copy: {' '.join(step)}")
                return None
        return subprocess.run(["git", "diff", "--stat"], cwd=copy, capture_output=True, text=True,
                              check=True).stdout


def arguments():
    """Returns the options and the version that were given."""
    published = (TOP / PUBLISHED).read_text()
    usual = dict(re.findall(r"(?m)^(RTR_\w+)=(\S+)$", published)) | dict(os.environ)
    parser = argparse.ArgumentParser(
        description=__doc__, formatter_class=argparse.RawDescriptionHelpFormatter)
    parser.add_argument("--dry-run", action="store_true")
    parser.add_argument("--module", default=usual["RTR_MODULE"])
    parser.add_argument("--repository", default=usual["RTR_REPOSITORY"])
    parser.add_argument("version", nargs="?")
    return parser.parse_args()


def main():
    args = arguments()
    dry, version = args.dry_run, args.version
    day = datetime.datetime.now(datetime.timezone.utc).date()
    title = f"Version {version}" if version else f"Numbers of {day.day} {day:%B %Y}"
    steps = (version_steps(version) if version else []) + number_steps(version)
    steps.append(["git", "commit", "-qam", title])
    if version:
        steps += [["git", "tag", f"v{version}"], *package_steps(args.module, args.repository)]
    wrong = list(faults(version, steps))
    wrong += published_faults(args.module, args.repository) if version else []
    for fault in wrong:
        print(f"release/run.py: {fault}")
    if dry:
        print(*((f"{CHANGES}: ## {version}, of {day}",) if version else ()),
              *(" ".join(step) for step in steps), sep="\n")
        if version and not wrong:
            changed = tried(version, day)
            print(changed or "")
            return 0 if changed else 1
    if wrong or dry:
        return 1 if wrong else 0
    if version:
        head_changes(TOP, version, day)
    for step in steps:
        print(f"release/run.py: {' '.join(step)}", flush=True)
        if subprocess.run(step, cwd=TOP, check=False).returncode:
            print(f"release/run.py: failed: {' '.join(step)}")
            return 1
    print("Now .ci/run from a fresh clone, and then the push, of the tag too.")
    return 0


if __name__ == "__main__":
    sys.exit(main())
