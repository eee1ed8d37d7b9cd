"""The page docs/DIFFERENCES.md, of differences.txt: what differs from the Rust crate. A row whose
code isn't in the sources, or is there where it mustn't be, is an error."""
import pathlib
import re

from sources import CRATES

ROWS = pathlib.Path(__file__).resolve().parent / "differences.txt"
FIELD = re.compile(r"(crate|here|why|has|lacks): (.+)$")

HEAD = """# Differences from the Rust crate

<!-- made by docs/reference/generate.py -->
I know the Rust crate `rpki`: what is different here, and why? ([README](../README.md))

This library keeps names and behaviour of `payload.rs`, `pdu.rs` and `state.rs` of `src/rtr` in `rpki` 0.20.1, *the crate*.
Most differences have one reason: nothing panics or is `unsafe`, and a call that allocates takes the allocator and reports when
memory runs out. The rows come from `docs/reference/differences.txt`, where each names code of this library; the gate fails
where that isn't so.
"""

TAIL = """
## New here

Sequences, data, deltas, origin validation, sessions, programs, bindings ([RATTLE](RATTLE.md)); `AnyUnit`, views of units in a
slice, codes of faults, texts of payloads. [Promises](reference/promises.md) has each call.
"""


class Wrong(Exception):
    """What is wrong with a row of differences.txt."""


def sources_at(path):
    """Returns the text of a source, or of all sources in a folder, without what tests have."""
    file = CRATES / f"{path}.rt"
    files = [file] if file.is_file() else sorted((CRATES / path).rglob("*.rt"))
    if not files:
        raise Wrong(f"no source {path}")
    texts = [file.read_text(encoding="utf-8").split("#[cfg(test)]")[0] for file in files]
    return "\n".join(line for text in texts for line in text.splitlines()
                     if not line.strip().startswith("//"))


def check(kind, fact):
    """Raises Wrong if the sources lack code that they should have, or have code that they should
    lack."""
    path, colon, code = fact.partition(": ")
    if not colon or not code:
        raise Wrong(f"{fact} is no PATH: CODE")
    if (code in sources_at(path)) != (kind == "has"):
        raise Wrong(f"{path} {'lacks' if kind == 'has' else 'has'} `{code}`")


def row(fields):
    """Returns a row of a table, of the lines of one difference."""
    words = {kind: text for kind, text in fields if kind in ("crate", "here", "why")}
    facts = [(kind, text) for kind, text in fields if kind in ("has", "lacks")]
    if len(words) != 3 or not facts:
        raise Wrong("not crate, here, why and a has or lacks")
    for kind, text in facts:
        check(kind, text)
    return "| " + " | ".join(words[kind] for kind in ("crate", "here", "why")) + " |\n"


def page():
    """Returns the text of DIFFERENCES.md; ends where a row is wrong."""
    text, wrong, line = HEAD, [], 1
    for part in ROWS.read_text(encoding="utf-8").split("\n\n"):
        lines = [entry for entry in part.splitlines() if not entry.startswith("# ")]
        try:
            if part.startswith("## "):
                text += f"\n{part.strip()}\n\n| The crate | Here | Why |\n|---|---|---|\n"
            elif not part.startswith("#"):
                fields = [FIELD.match(entry) for entry in lines]
                if not all(fields):
                    raise Wrong("not NAME: WORDS")
                text += row([found.groups() for found in fields])
        except Wrong as error:
            wrong.append(f"docs/reference/differences.txt:{line}: {error}")
        line += part.count("\n") + 2
    if wrong:
        raise SystemExit("\n".join(wrong))
    return text + TAIL
