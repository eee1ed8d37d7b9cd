#!/usr/bin/env python3
"""What PROOF.md lists as trusted, from what tools report: the contracts of C functions that the
checker assumed, and the functions that programs, archives and modules take from outside.

usage: trusted.py --write [CRATE..]    with the kit: checks these crates, or each program and the
                                       static library, over the proved libraries below them, which
                                       `rt ci` leaves in out/, and writes trusted.txt
       trusted.py --check [CRATE..]    compares instead, with status 1 where one differs

docs/reference/generate.py writes the page's part from trusted.txt, and from what nm lists of
prebuilt/.
A crate takes half a minute to two.
"""
import pathlib
import re
import shutil
import subprocess
import sys

TOP = pathlib.Path(__file__).resolve().parents[2]
RECORD = TOP / "docs" / "reference" / "trusted.txt"
PAGE = TOP / "docs" / "PROOF.md"
PREBUILT = TOP / "prebuilt"
STATIC = "staticlib"

# The part of the page, and the lines of the checker's report.
BEGIN, END = "<!-- made by docs/reference/generate.py: trusted -->\n", "<!-- end of trusted -->\n"
REACHED = re.compile(r"^  (\S+) +reached$", re.MULTILINE)
PROVED = re.compile(r"^logic=proved ", re.MULTILINE)
HEAD = """# Of each program and of the static library, the C functions whose contracts its check
# assumed, as the checker listed them (--list-axioms). Written by docs/reference/trusted.py --write,
# with the kit.
"""


def recorded():
    """Returns the C functions of each crate that has a line."""
    lines = [line.split() for line in RECORD.read_text().splitlines() if line[:1] != "#"]
    return {crate: functions for crate, *functions in lines}


def graph():
    """Returns of each crate its kind, program, library or staticlib, and what it depends on."""
    found = {}
    for line in (TOP / "crates.txt").read_text().splitlines():
        if line.strip() and not line.startswith("#"):
            head, _, below = line.partition(":")
            name, *kind = head.split()
            is_program = (TOP / "crates" / name / "src" / "main.rt").exists()
            found[name] = kind[0] if kind else "program" if is_program else "library", below.split()
    return found


def below(crate, crates):
    """Returns the crates of the repository that a crate is built on."""
    found = set()
    for name in crates[crate][1]:
        if name in crates:
            found |= {name} | below(name, crates)
    return found


def check(crate, crates):
    """Returns the C functions whose contracts the check of a crate assumes."""
    kit = pathlib.Path(shutil.which("rt") or sys.exit("trusted: no rt here, the kit's command"))
    kit = kit.resolve().parent.parent
    kind, direct = crates[crate]
    root = "src/main.rt" if kind == "program" else "src/lib.rt"
    words = ["check", "--crate-name", crate, root, *(["--crate-type", kind] if kind == "staticlib"
                                                     else [])]
    for name in ["std", *direct]:
        where = f"../{name}/out/rlib" if name in crates else f"{kit}/rlibs"
        words += ["--extern", f"{name}={where}/{name}.rlib"]
    for name in sorted(below(crate, crates)):
        if not (TOP / "crates" / name / "out" / "rlib" / f"{name}.rlib").exists():
            sys.exit(f"trusted: {crate} needs {name}, which isn't proved here: call rt ci first")
        words += ["-L", f"dependency=../{name}/out/rlib"]
    words += ["-L", f"dependency={kit}/rlibs", "--list-axioms", "--links", f"{crate}=",
              "--jobs", "1", "--antt-project", f"{kit}/rattle/logic/antt-project.json",
              "--logic-built", f"{kit}/logic_built"]
    ran = subprocess.run([f"{kit}/bin/rattle", *words], cwd=TOP / "crates" / crate, text=True,
                         stdout=subprocess.PIPE, stderr=subprocess.STDOUT, check=False)
    if ran.returncode or not PROVED.search(ran.stdout):
        sys.exit(f"trusted: {crate} isn't proved: {ran.stdout[-500:]}")
    return sorted(REACHED.findall(ran.stdout))


def symbols(file):
    """Returns the functions and variables that a file takes from outside, as nm lists them."""
    words = ["nm", "-u", *(["-D"] if file.suffix != ".a" else []), file]
    output = subprocess.run(words, capture_output=True, text=True, check=True).stdout
    return sorted(set(re.findall(r"^ +U (\w+)", output, re.MULTILINE)))


def imports(module):
    """Reports whether a module for WebAssembly has a section of imports."""
    data, at, kinds = module.read_bytes(), 8, set()
    while at < len(data):
        kinds.add(data[at])
        size = shift = 0
        while True:
            at += 1
            size |= (data[at] & 127) << shift
            shift += 7
            if data[at] < 128:
                break
        at += 1 + size
    return 2 in kinds


def cell(names):
    """Returns names for a cell of a table, which no source of this repository has."""
    return ", ".join(names).replace("_", "\\_") or "none"


def assumed():
    """Yields the rows of the crates: the contracts of C functions that their checks assumed."""
    known = recorded()
    for name, (kind, _) in graph().items():
        if name in known:
            yield f"| `{name}` | {cell(known[name])} |"


def needed():
    """Yields the rows of the files of prebuilt/, those with the same symbols together."""
    rows = {}
    for file in sorted(PREBUILT.glob("*/*")):
        if file.suffix == ".wasm":
            names = ["imports"] if imports(file) else []
        elif file.suffix == ".a" or file.parent.name in ("x86_64", "aarch64"):
            names = symbols(file)
        else:
            continue
        rows.setdefault(tuple(names), []).append(str(file.relative_to(PREBUILT)))
    for names, files in rows.items():
        yield f"| {', '.join(f'`{file}`' for file in files)} | {cell(names)} |"


def part():
    """Returns the lines of the page's part."""
    return "\n".join([
        "The checker lists the C functions whose contracts a proof, a contract or linked code",
        "reaches. A proof assumes nothing else: neither excluded middle nor choice.", "",
        "| Crate | C functions whose contracts its check assumes |", "|---|---|", *assumed(), "",
        "What the built files take from outside: by `nm -u`, and by the imports of a module:",
        "", "| File of `prebuilt/` | Functions and variables |", "|---|---|", *needed(), ""])


def page():
    """Returns PROOF.md with the part written anew; as it is where there is no nm."""
    text = PAGE.read_text(encoding="utf-8")
    if not shutil.which("nm"):
        print("docs/reference/generate.py: no nm here: SKIPPED what PROOF.md lists as trusted",
              file=sys.stderr)
        return text
    before, rest = text.split(BEGIN)
    return f"{before}{BEGIN}\n{part()}\n{END}{rest.split(END)[1]}"


def main():
    crates = graph()
    if sys.argv[1:2] not in (["--write"], ["--check"]) or set(sys.argv[2:]) - set(crates):
        print(__doc__)
        return 2
    known, wrong = recorded(), 0
    shipped = {path.name for path in (PREBUILT / "x86_64").glob("*")}
    for crate in sys.argv[2:] or [name for name, (kind, _) in crates.items()
                                  if kind == STATIC or name in shipped]:
        found = check(crate, crates)
        if sys.argv[1] == "--check" and known.get(crate) != found:
            print(f"trusted: {crate}: the check assumes {', '.join(found) or 'nothing'}, and "
                  f"{RECORD.name} says {', '.join(known.get(crate, ['nothing']))}")
            wrong = 1
        known[crate] = found
    if sys.argv[1] == "--write":
        rows = [" ".join([crate, *known[crate]]) for crate in crates if crate in known]
        RECORD.write_text(HEAD + "".join(f"{row}\n" for row in rows))
    return wrong


if __name__ == "__main__":
    sys.exit(main())
