"""Plays scenes (README.md) with an end, a program that carries out their given lines
(../joined/README.md), and compares what it does with their expected lines."""
import os
import sys
import tempfile
import threading
from dataclasses import dataclass, field

import families
import units

HERE = os.path.dirname(os.path.realpath(__file__))
sys.path.append(os.path.join(HERE, "..", "joined"))

from ends import End  # noqa: E402  (it lies in another folder)

KEPT = {"router": "scenes", "cache": "cache"}  # the folders of kept scenes
GIVEN = {"router": ("cache", "cache>", "caller"),
         "cache": ("router", "router>", "data", "forgets")}
LEAST = 3000  # scenes of each end
LIMIT = 900  # seconds for all scenes, many times what the slowest end needs
PRINTED = 5  # failures


class Stopped(Exception):
    """The end exited before the last scene, or was killed at the limit."""


def kept_of(end):
    """Yields the text of each kept scene of a router or a cache, and where it is."""
    for name in sorted(os.listdir(os.path.join(HERE, KEPT[end]))):
        with open(os.path.join(HERE, KEPT[end], name), encoding="ascii") as file:
            yield file.read(), f"{KEPT[end]}/{name}"


def texts_of(end):
    """Yields the same of all scenes: kept ones and families."""
    yield from kept_of(end)
    for scene in families.scenes_of(end):
        yield scene.text(), "made by families.py"


@dataclass
class Part:
    """A step that is given, and what is expected from it to the next one."""
    number: int  # of the line
    given: list = field(default_factory=list)  # lines for the end, each with its time
    expected: list = field(default_factory=list)  # each with the number of its line
    found: list = field(default_factory=list)


class Scene:
    """A scene: what the end gets, and what it has to do."""

    def __init__(self, end, text, source):
        self.end, self.source, self.name, self.settings, self.now = end, source, None, [], 0
        self.parts = [Part(1)]  # the first has no step
        for number, line in enumerate(text.splitlines(), 1):
            words = line.partition("#")[0].split()
            if words:
                self.read(number, words)

    def read(self, number, words):
        is_timed = words[0].isdigit() and len(words) > 1
        if words[0] == "scene" and self.name is None:
            self.name = words[1]
        elif words[0] == self.end:
            self.settings.append(" ".join(words))
        elif words[0] == "at":
            self.give(int(words[1]), "at", words[1])
        elif is_timed and words[1] in GIVEN[self.end]:
            # First comes what the end does by itself until then.
            if int(words[0]) > self.now:
                self.give(int(words[0]), "at", words[0])
            self.parts.append(Part(number))
            self.give(int(words[0]), *words)
        elif is_timed:
            self.parts[-1].expected.append((number, words))
        else:
            sys.exit(f"scenes: {self.source}: line {number}: no step: {' '.join(words)}")

    def give(self, time, *words):
        self.parts[-1].given.append((time, " ".join(words)))
        self.now = time

    def sent(self):
        """Returns the lines for the end."""
        given = [line for part in self.parts for _, line in part.given]
        return "".join(f"{line}\n" for line in [f"scene {self.name}", *self.settings, *given])

    def gives(self, step):
        """Reports whether this step is given."""
        return any(line.split()[1] == step for part in self.parts for _, line in part.given)

    def differs(self, answers):
        """Compares the steps with an end's answers; returns the first difference, or nothing."""
        late = None
        for part in self.parts:
            for time, line in part.given:
                did, wakes = next(answers)
                part.found += did
                if wakes <= time:
                    late = late or f"{self} after '{line}': it wants to wake at {wakes}"
        for part in self.parts:
            expected, did = (steps_of(self.end, steps) for steps in (part.expected, part.found))
            for index in range(max(len(expected), len(did))):
                nothing = part.number, "nothing"
                number, *step = expected[index] if index < len(expected) else nothing
                _, *other = did[index] if index < len(did) else (None, "nothing")
                if step != other:
                    return (f"{self} line {number}: expected\n  {' '.join(step)}\nfound\n"
                            f"  {' '.join(other)}")
        return late

    def __str__(self):
        return f"{self.name} ({self.source})"


def bytes_of(words):
    """Returns the bytes of a unit, in hexadecimal or as the parts of a report."""
    if words[0] != "report":
        return bytes.fromhex("".join(words))
    about = b"" if words[3] == "-" else bytes.fromhex(words[3])
    return units.report(int(words[1]), int(words[2]), about, " ".join(words[4:]).encode())


def steps_of(end, lines):
    """Returns steps in one form: of what is sent at one time each unit, in one piece."""
    steps, first, sent = [], None, b""
    for number, (time, what, *words) in [*lines, (None, (None, None))]:
        is_sent = what == f"{end}>"
        if sent and not (is_sent and time == first[1]):
            steps += [(*first, unit.hex()) for unit in units.split(sent)]
            sent = b""
        if is_sent:
            first = first if sent else (number, time, what)
            sent += bytes_of(words)
        elif what:
            steps.append((number, time, what, "".join(words)))
    return steps


def answers_of(running):
    """Yields the steps of each answer of an end, and when it wakes."""
    did = []
    for line in running.output:
        words = line.decode().split()
        if words[0] == "wakes":
            yield did, int(words[1])
            did = []
        else:
            did.append((None, words))
    raise Stopped(f"it stopped, with status {running.process.wait()}")


def played(scenes, running):
    """Compares an end with each scene. Returns how many it played, and what differs."""
    wrong, count, answers = [], 0, answers_of(running)
    for scene in scenes:
        try:
            wrong.append(scene.differs(answers))
        except Stopped as stopped:
            wrong.append(f"{scene}: {stopped}")
            break
        count += 1
    return count, [difference for difference in wrong if difference]


def play(end, command, lacks=None):
    """Plays all scenes of a router or a cache by this command, except those with a step that it
    lacks. Prints their number; exits if something differs."""
    scenes = [Scene(end, text, where) for text, where in texts_of(end)]
    if len(scenes) < LEAST or len({scene.name for scene in scenes}) < len(scenes):
        sys.exit(f"scenes: only {len(scenes)} of a {end}, or two have one name")
    left_out = [scene for scene in scenes if lacks and scene.gives(lacks)]
    scenes = [scene for scene in scenes if scene not in left_out]
    with tempfile.TemporaryDirectory() as folder:
        running = End(command, folder)
        text = "".join(scene.sent() for scene in scenes)
        threading.Thread(target=running.write, args=(text,), daemon=True).start()
        limit = threading.Timer(LIMIT, running.process.kill)
        limit.start()
        count, wrong = played(scenes, running)
        limit.cancel()
        status = running.end()
    if status and not wrong:
        wrong.append(f"after the last scene it exited with status {status}")
    if wrong or count < len(scenes):
        wrong = [*wrong[:PRINTED], f"{len(wrong)} of {len(scenes)} of a {end} differ"]
        sys.exit("\n".join(f"scenes: {line}" for line in wrong))
    left = f", and {len(left_out)} left out with the step {lacks}" if lacks else ""
    print(f"{count} scenes of a {end} played{left}")
