"""The pictures of the states of a router's and of a cache's end of a session. Each arrow is a rule
of the specifications, from a state that its premises allow to the state that it leaves."""
import re

from sources import CRATES

# The rules that change the state of each end, with the labels of their arrows.
ROUTER = {
    "Connects": "a wait is over", "Asks": "query sent", "Begins": "cache response",
    "Keeps": "payload", "Completes": "end of data", "Adopts": "changes applied",
    "HasNoData": "report 2", "Loses": "data expire", "Closes": "error, deadline, lost connection",
}
CACHE = {
    "GivesAll": "reset query", "GivesChanges": "serial query", "GivesReset": "unknown serial query",
    "GivesNone": "query before data", "Notifies": "new data",
    "EndsTalk": "error, deadline, lost connection",
}

# The phases of a router, and the states of a connection of a cache: before its first query, after
# it, and after its end.
PHASES = ["Offline", "Connecting", "Asked", "Reading", "Applying", "Waiting"]
TALKS = ["New", "Asked", "Ended"]


def rules(path):
    """Yields the fields of each record of a module of specifications, by the name of the record."""
    text = path.read_text(encoding="utf-8")
    record = re.compile(r"^pub record (\w+) [^=]*?where\n((?:  .*\n)+)", re.MULTILINE)
    for name, body in record.findall(text):
        yield name, dict(re.findall(r"^  pub (\w+) :\s*(.*\n(?:    .*\n)*)", body, re.MULTILINE))


def phases(premise):
    """Returns the phases of the router before a rule that a premise allows."""
    if found := re.findall(r"\br\.phase ≡ phases\.(\w+)", premise):
        return found
    banned = re.findall(r"\br\.phase ≢ phases\.(\w+)", premise)
    return [phase for phase in PHASES if phase not in banned] if banned else []


def router_arrows():
    """Rule, state before and state after, of a router."""
    path = CRATES / "session_router/specs/Rules.antt"
    text = path.read_text(encoding="utf-8")
    for name, fields in rules(path):
        if name not in ROUTER:
            continue
        premises = " ".join(fields.values())
        if "may" in fields and (cited := re.match(r"(\w+)", fields["may"])[1]) != "MayAnswer":
            premises += " ".join(re.findall(rf"^{cited} .*=(?:\n    .*)*", text, re.MULTILINE))
        after = re.search(r"r'\.phase ≡ phases\.(\w+)", premises)
        for before in phases(premises):
            yield name, before, after[1] if after else before


def cache_arrows():
    """Yields the same of a cache."""
    for name, fields in rules(CRATES / "session_cache/specs/CacheRules.antt"):
        if name in CACHE:
            after = "Ended" if "once_closed" in fields["after"] else "Asked"
            for before in ["Asked"] if "asked" in fields else TALKS[:-1]:
                yield name, before, after


STYLE = """<style>
text { font: 12px sans-serif; text-anchor: middle; fill: #222 }
.state { font-weight: bold; font-size: 14px }
.rule { font-family: monospace; font-size: 12px; fill: #114 }
path, line { stroke: #555; fill: none; stroke-width: 1.3 }
rect.state { stroke: #114; fill: #eef2fb; stroke-width: 1.3 }
</style>
<defs><marker id="head" markerWidth="9" markerHeight="8" refX="8" refY="4" orient="auto">
<polygon points="0 0, 9 4, 0 8" fill="#555"/></marker></defs>"""

BOX, TALL = 100, 36


class Picture:
    """A row of states, with arrows between neighbours, arcs over the others, and loops."""

    def __init__(self, states, words, step, top, bottom, title):
        self.states, self.words, self.step, self.row = states, words, step, top
        self.width, self.height = step * (len(states) - 1) + BOX + 40, top + TALL + bottom
        self.parts = [f"<title>{title}</title>", STYLE,
                      f'<rect width="{self.width}" height="{self.height}" fill="white"/>']
        for state in states:
            left = self.middle(state) - BOX // 2
            self.parts.append(f'<rect class="state" x="{left}" y="{top}" width="{BOX}" '
                              f'height="{TALL}" rx="8"/>')
            self.text(self.middle(state), top + 23, state, "state")

    def middle(self, state):
        return 20 + BOX // 2 + self.step * self.states.index(state)

    def text(self, x, y, words, kind=""):
        self.parts.append(f'<text x="{x}" y="{y}" class="{kind}">{words}</text>')

    def arrow(self, path):
        self.parts.append(f'<path d="{path}" marker-end="url(#head)"/>')

    def labels(self, x, y, names):
        """Rules and their words, one above the other, with the last line at y."""
        for index, name in enumerate(reversed(names)):
            self.text(x, y - 30 * index - 14, name, "rule")
            self.text(x, y - 30 * index, self.words[name])

    def forward(self, before, after, names):
        """To the next state."""
        left, right = self.middle(before) + BOX // 2, self.middle(after) - BOX // 2
        self.arrow(f"M {left} {self.row + TALL // 2} H {right - 1}")
        self.labels((left + right) // 2, self.row + TALL // 2 - 6, names)

    def loop(self, state, names):
        """Draws an arrow from a state to itself, above it."""
        x, y = self.middle(state), self.row
        self.arrow(f"M {x - 22} {y} C {x - 30} {y - 44}, {x + 30} {y - 44}, {x + 22} {y - 1}")
        self.labels(x, y - 40, names)

    def bus(self, befores, after, name, depth, shift=0):
        """Draws arrows from several states to one, along a line over or under all, by the sign of
        the depth."""
        edge = self.row if depth < 0 else self.row + TALL
        end = self.middle(after) - shift
        starts = [self.middle(before) + shift for before in befores]
        for x in starts:
            self.parts.append(f'<line x1="{x}" y1="{edge}" x2="{x}" y2="{edge + depth}"/>')
        far = max(starts, key=lambda x: abs(x - end))
        self.arrow(f"M {far} {edge + depth} H {end} V {edge + (1 if depth > 0 else -1)}")
        self.labels((far + end) // 2, edge + depth + (32 if depth > 0 else -6), [name])

    def svg(self):
        size = f'width="{self.width}" height="{self.height}"'
        parts = "\n".join(self.parts)
        return (f'<svg xmlns="http://www.w3.org/2000/svg" {size} '
                f'viewBox="0 0 {self.width} {self.height}">\n{parts}\n</svg>\n')


def grouped(arrows):
    """Returns the rules between each two states."""
    found = {}
    for name, before, after in arrows:
        found.setdefault((before, after), []).append(name)
    return found


def leaving(found, name):
    """Returns the states from which a rule leads to another one."""
    return [before for (before, after), names in found.items() if name in names]


# The other arrows of a router, by one line for each.
BUSES = [(["HasNoData"], "Waiting"), (["Asks"], "Asked"), (["Closes"], "Offline")]


def router():
    """Returns the picture of a router's end."""
    found = grouped(router_arrows())
    picture = Picture(PHASES, ROUTER, 212, 150, 130, "States of a router's end of a session")
    for (before, after), names in found.items():
        step = PHASES.index(after) - PHASES.index(before)
        if step == 0:
            picture.loop(before, names)
        elif step == 1:
            picture.forward(before, after, names)
        elif (names, after) not in BUSES:
            raise ValueError(f"no arrow is drawn from {before} to {after}: {names}")
    picture.bus(leaving(found, "HasNoData"), "Waiting", "HasNoData", -100, 40)
    picture.bus(["Waiting"], "Asked", "Asks", 34, -26)
    picture.bus(leaving(found, "Closes"), "Offline", "Closes", 92)
    return picture.svg()


def cache():
    """Returns the picture of a cache's end."""
    found = grouped(cache_arrows())
    picture = Picture(TALKS, CACHE, 300, 205, 86, "States of a cache's end of a connection")
    picture.forward("New", "Asked", found["New", "Asked"])
    picture.loop("Asked", found["Asked", "Asked"])
    picture.bus(leaving(found, "EndsTalk"), "Ended", "EndsTalk", 40)
    return picture.svg()
