#!/usr/bin/env python3
"""Checks that a view which outlives its input doesn't compile.

Two programs over `rtr_wire` are compiled, without proofs, in a temporary copy of the sources. Both
use a view after a block. The first has its input before the block, and runs. The second has it
inside, and the borrow checker refuses it, with the error REFUSAL and no other. Prints nothing if
all is well.
"""
import os
import subprocess
import sys
import tempfile
from concurrent.futures import ThreadPoolExecutor

TOP = os.path.join(os.path.dirname(os.path.abspath(__file__)), "..")

# The crates that the programs depend on; their lines of crates.txt are copied.
LIBRARIES = ["rtr_base", "rtr_units", "rtr_payload", "unit_views", "rtr_wire"]

# The program; the input is put at `{before}` or `{inside}`.
PROGRAM = """//! Looks at a view after a block.
#![tactic(auto)]

use rtr_wire::pdu::UnitView;

fn main(rt: HostRuntime) {{
    {before}
    let view = {{
        {inside}
        UnitView::first(&input)
    }};
    let refused = view.is_err();
    let _ = println!(rt; "{{refused}}");
}}
"""

INPUT = "let input = [1u8; 20];"

REFUSAL = "error[borrow-e0597]: `input` does not live long enough"


def tried(top, name, before, inside):
    """Returns the output of `rt try` for the program, and its status."""
    folder = f"{top}/crates/{name}"
    os.makedirs(f"{folder}/src")
    with open(f"{folder}/src/main.rt", "w") as out:
        out.write(PROGRAM.format(before=before, inside=inside))
    run = subprocess.run(
        ["rt", "try"], cwd=folder, text=True, stdout=subprocess.PIPE, stderr=subprocess.STDOUT
    )
    return run.stdout, run.returncode


def copied(top):
    """Copies the sources of the libraries that are in git, and lists them and the two programs."""
    folders = [f"crates/{name}" for name in LIBRARIES]
    listed = ["git", "ls-files", "-z"] + folders
    names = subprocess.run(listed, cwd=TOP, stdout=subprocess.PIPE, check=True)
    archive = ["tar", "cf", "-", "--null", "-T", "-"]
    tar = subprocess.run(archive, cwd=TOP, input=names.stdout, stdout=subprocess.PIPE, check=True)
    subprocess.run(["tar", "xf", "-", "-C", top], input=tar.stdout, check=True)
    with open(f"{TOP}/crates.txt") as lines:
        kept = [line for line in lines if line.split(":")[0] in LIBRARIES]
    with open(f"{top}/crates.txt", "w") as out:
        out.writelines(kept + ["view_in_time: rtr_wire\n", "view_kept: rtr_wire\n"])


def main():
    with tempfile.TemporaryDirectory() as top:
        copied(top)
        with ThreadPoolExecutor(2) as pool:
            in_time = pool.submit(tried, top, "view_in_time", INPUT, "")
            kept = pool.submit(tried, top, "view_kept", "", INPUT)
        output, status = in_time.result()
        if status != 0 or "true\n" not in output:
            sys.exit(f"{output}\nrefused: a view that is looked at in time doesn't run")
        output, status = kept.result()
        errors = [line for line in output.splitlines() if "error[" in line]
        if status == 0 or len(errors) != 1 or not errors[0].endswith(REFUSAL):
            sys.exit(f"{output}\nrefused: a view kept longer than its input isn't refused")


if __name__ == "__main__":
    main()
