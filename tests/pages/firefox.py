#!/usr/bin/env python3
"""Runs the module of bindings/js in Firefox without a window, with the sample of rtr_list, and
compares its lines with those of rtr_list. Without Firefox it prints that it is skipped.

usage: firefox.py

The program and the module are those of `built.py`.
"""
import os
import shutil
import subprocess
import sys
import tempfile
import threading

import browser

TOP = os.path.realpath(os.path.join(os.path.dirname(os.path.abspath(__file__)), "..", ".."))
sys.path.insert(0, os.path.join(TOP, ".ci"))

import built  # noqa: E402  (it lies in another folder)

SAMPLE = os.path.join(built.TOP, "crates", "rtr_list", "stdin")

# The time limit of Firefox in seconds: it starts slowly on a busy machine.
LIMIT = 600

PAGE = """<!DOCTYPE html><meta charset="utf-8"><script type="module">
let said;
try {
    const { load } = await import("/bindings/js/rtr_wire.js");
    const bytes = async (path) => new Uint8Array(await (await fetch(path)).arrayBuffer());
    const sample = await bytes("/crates/rtr_list/stdin");
    const lines = (rtr) => [...rtr.units(sample)].map(
        ({ offset }) => rtr.unitLine(sample.subarray(offset), offset) + "\\n").join("");
    said = lines(await load())
        + lines(await load(await bytes("/prebuilt/wasm64/rtr_wire.wasm")));
} catch (error) {
    said = String(error);
}
await fetch("/said", { method: "POST", body: said });
</script>"""


class Reports(browser.Files):
    """Serves files, and receives the result of the page."""

    heard = threading.Event()
    body = b""

    def do_POST(self):
        Reports.body = self.rfile.read(int(self.headers["Content-Length"]))
        self.send_response(204)
        self.end_headers()
        Reports.heard.set()


def reported_by(firefox, folder, modules):
    """Returns the result of the page in Firefox."""
    page = os.path.join(folder, "page.html")
    with open(page, "w") as file:
        file.write(PAGE)
    profile = os.path.join(folder, "profile")
    os.mkdir(profile)
    others = {"/page.html": page, **modules}
    with browser.serving(built.TOP, others, Reports) as url:
        run = subprocess.Popen(
            [firefox, "--headless", "--no-remote", "--profile", profile, url + "/page.html"],
            stdin=subprocess.DEVNULL, stdout=subprocess.DEVNULL, stderr=subprocess.DEVNULL,
            env={**os.environ, "HOME": folder}, start_new_session=True)
        try:
            if not Reports.heard.wait(LIMIT):
                sys.exit(f"firefox: the page said nothing within {LIMIT} s")
        finally:
            os.killpg(run.pid, 9)
            run.wait()
    return Reports.body


def main():
    firefox = shutil.which("firefox") or shutil.which("firefox-esr")
    if firefox is None:
        print("!!! tests/pages/firefox.py: no firefox here: SKIPPED the module in Firefox")
        return
    try:
        modules = {f"/prebuilt/{memory}/rtr_wire.wasm": built.module(memory)
                   for memory in built.MEMORIES}
    except SystemExit as missing:
        print(f"!!! tests/pages/firefox.py: {missing}: SKIPPED the module in Firefox")
        return
    with open(SAMPLE, "rb") as sample:
        expected = subprocess.run([built.program("rtr_list")], stdin=sample, check=True,
                                  stdout=subprocess.PIPE).stdout
    with tempfile.TemporaryDirectory(ignore_cleanup_errors=True) as folder:
        reported = reported_by(firefox, folder, modules)
    expected += expected
    if reported != expected:
        sys.exit(f"firefox:\n  said   {reported!r}\n  wanted {expected!r}")
    version = subprocess.run([firefox, "--version"], stdout=subprocess.PIPE, text=True).stdout
    print(f"both modules are well in {version.strip()}")


if __name__ == "__main__":
    main()
