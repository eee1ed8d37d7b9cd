"""The page musts.md, of musts.txt: what is done about each MUST and SHOULD of RFC 8210 and RFC
6810. A rule without a state, a state without what it asks for, or a name that isn't there is an
error."""
import pathlib
import re
from collections import Counter

from sources import CRATES, TOP

RULES = pathlib.Path(__file__).resolve().parent / "musts.txt"
SCENES = {"scenes", "cache"}
WORD = re.compile(r"\b(MUST NOT|MUST|SHOULD NOT|SHOULD|REQUIRED)\b")
BEFORE_NAME = (r"^ *(?:(?:pub(?:\(\w+\))?|record|data|abbrev|unfoldable|opaque|inline|const|async|"
               r"fn|func|def|class|law|ensures) +)*")
STATES = ("proved", "tested", "caller", "deviates")
SHOWN = {"proved": "proved", "tested": "tested", "caller": "left to the caller",
         "deviates": "**deviates**"}

HEAD = """# Each MUST and SHOULD

<!-- made by docs/reference/generate.py -->
What does this library do about each MUST and SHOULD of RFC 8210 and RFC 6810? ([README](../../README.md),
[PROOF](../PROOF.md))

The rules have the RFCs' verbs and objects, in a shorter sentence. A state is one of these:

- **proved**: by the definition, clause or law that is linked, for the proved machines and the library below them;
- **tested**: by the tests that are linked, without a proof;
- **left to the caller**: whose it is, and the page that says so;
- **deviates**: how, what a peer sees of that, and why. What isn't done at all is on [SESSIONS](../SESSIONS.md#not-done).

Names lead to definitions (`specs`), laws (`laws`), tests, and scenes of [transcripts](../../tests/transcripts/README.md), which
the machines of both ends play. The rows come from `docs/reference/musts.txt`; the gate fails where a row lacks what its state
asks for, or a name isn't found.
"""


class Wrong(Exception):
    """What is wrong with a line of musts.txt."""


def file_of(path):
    """Returns the file of the repository that a path without its ending names."""
    files = [CRATES / f"{path}.antt", CRATES / f"{path}.rt", TOP / path]
    found = [file for file in files if file.is_file()]
    if not found:
        raise Wrong(f"no file {path}")
    return found[0]


def find(path, name):
    """Looks for the definition, and the field of it, of this name."""
    text = path.read_text(encoding="utf-8")
    first, _, field = name.partition(".")
    found = re.search(rf"{BEFORE_NAME}{re.escape(first)}\b", text, re.MULTILINE)
    if not found:
        raise Wrong(f"{path.relative_to(TOP)} has no {first}")
    if field:
        body = re.match(r"(?:.*\n)(?:[ ].*\n|\n(?= ))*", text[found.start():])[0]
        if not re.search(rf"^ +pub {re.escape(field)}\b", body, re.MULTILINE):
            raise Wrong(f"{first} in {path.relative_to(TOP)} has no {field}")


def page_link(target):
    """Returns a link to a heading of a page, or to a man page."""
    name, _, heading = target.partition("#")
    path = TOP / name
    if not path.is_file():
        raise Wrong(f"no page {name}")
    headings = re.findall(r"^#+ (.*)$", path.read_text(encoding="utf-8"), re.MULTILINE)
    found = {re.sub(r"[^\w\- ]", "", text).lower().replace(" ", "-"): text for text in headings}
    if heading and heading not in found:
        raise Wrong(f"{name} has no heading {heading}")
    text = f"{path.stem}, {found[heading]}" if heading else path.name
    return f"[{text}](../../{name}{'#' + heading if heading else ''})"


def link_to(target):
    """Returns a link to where a rule is held, which has to be there, and its kind: proof, test or
    page."""
    folder, _, scene = target.partition("/")
    if folder in SCENES and ":" not in target:
        path = TOP / "tests/transcripts" / folder / f"{scene}.scene"
        if not path.is_file():
            raise Wrong(f"no scene {target}")
        return f"[scene `{scene}`](../../{path.relative_to(TOP)})", "test"
    if target.startswith("docs/"):
        return page_link(target), "page"
    file, colon, name = target.partition(":")
    if not colon or not name:
        raise Wrong(f"{target} is no PATH:NAME")
    path = file_of(file)
    find(path, name)
    kind = "proof" if CRATES in path.parents else "test"
    return f"[`{name}`](../../{path.relative_to(TOP)})", kind


def check_state(state, kinds, remark):
    """Raises Wrong if a row lacks what its state needs."""
    if state not in STATES:
        raise Wrong(f"no state {state}")
    if state == "proved" and "proof" not in kinds:
        raise Wrong("proved, without a definition, clause or law")
    if state == "tested" and "test" not in kinds:
        raise Wrong("tested, without a test")
    if state == "caller" and ("page" not in kinds or not remark):
        raise Wrong("left to the caller, without whose, or the page that says so")
    if state == "deviates" and ("A peer sees" not in remark or "Why:" not in remark):
        raise Wrong("deviates, without `A peer sees`, or `Why:`")


def row(line):
    """Returns a row of the page, of a line of musts.txt, with its section, words and state."""
    section, rule, state, where, *remark = [part.strip() for part in line.split(" | ")]
    if not re.fullmatch(r"\d+(\.\d+)*", section) or not rule or len(remark) > 1:
        raise Wrong("not SECTION | RULE | STATE | WHERE | REMARK")
    links_and_kinds = [link_to(target.strip()) for target in where.split(",") if target.strip()]
    why = remark[0] if remark else ""
    check_state(state, {kind for _, kind in links_and_kinds}, why)
    links = ", ".join(link for link, _ in links_and_kinds)
    if state == "caller":
        held = f"{why} ({links})"
    else:
        held = ". ".join(part for part in (links, why) if part)
    return section, WORD.findall(rule), state, f"| {section} | {rule} | {SHOWN[state]} | {held} |"


def number(section):
    return tuple(map(int, section.split(".")))


def count_line(states):
    """Returns the line below a table that says how many rows have which state."""
    return (f"\n{sum(states.values())} rows: {states['proved']} proved, {states['tested']} tested, "
            f"{states['caller']} left to the caller, {states['deviates']} deviations.\n")


def page():
    """Returns the text of musts.md. Raises Wrong if a line names something that doesn't exist."""
    text, last, wrong, states = HEAD, (), [], Counter()
    for at, line in enumerate(RULES.read_text(encoding="utf-8").splitlines(), 1):
        try:
            if line.startswith("RFC "):
                text += count_line(states) if states else ""
                text += f"\n## {line}\n"
                last, states = (), Counter()
            elif line.startswith("none |"):
                text += f"\nSections without such a word: {line.partition('|')[2].strip()}.\n"
                text += "\n| Section | Rule | State | Where, or why not |\n|---|---|---|---|\n"
            elif line.strip() and not line.startswith("#"):
                section, words, state, shown = row(line)
                if number(section) < last:
                    raise Wrong(f"section {section} isn't in order")
                if not words and state != "deviates":
                    raise Wrong("a rule without MUST, SHOULD or REQUIRED")
                last = number(section)
                text += shown + "\n"
                states[state] += 1
        except (Wrong, ValueError) as error:
            wrong.append(f"docs/reference/musts.txt:{at}: {error}")
    if wrong:
        raise SystemExit("\n".join(wrong))
    return text + count_line(states)
