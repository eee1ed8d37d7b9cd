"""The lines of one scene of a cache: what the router and the cache do, each with its time."""
from scene import Scene
from units import spaced, split, words


class CacheScene(Scene):
    """A scene of a cache that is being written."""

    def __init__(self, name, about, **settings):
        self.name, self.now = name, 0
        self.lines = [f"scene {name}", *(f"# {line}" for line in about.splitlines())]
        self.add("cache usual")
        for setting, value in settings.items():
            self.add(f"cache {setting.replace('_', '-')} {value}".rstrip())

    # What the router does, and what data there are.

    def connects(self, time, beyond=False):
        self.at(time, "router connects beyond the limit" if beyond else "router connects")

    def router(self, time, unit):
        """The router sends a unit, valid or not."""
        self.at(time, f"router> {spaced(unit)}", words(unit))

    def router_cut(self, time, data):
        """The router sends these bytes, whole units or not."""
        if data:
            self.at(time, f"router> {data.hex()}")

    def router_closes(self, time):
        self.at(time, "router closes")

    def router_breaks(self, time):
        self.at(time, "router breaks")

    def has(self, time, data):
        """The cache's newest data are these."""
        parts = [spaced(unit).replace(" ", "") for unit in split(data)]
        self.at(time, "data { " + " ".join(parts) + " }")

    def forgets(self, time, serial):
        self.at(time, f"forgets {serial}")

    # What the cache does.

    def sends(self, data):
        """The cache sends these units, now."""
        for unit in split(data):
            self.at(self.now, f"cache> {spaced(unit)}", words(unit))

    def reports(self, version, code, about, text):
        """The cache sends a report of this code and text about a unit, now."""
        about = spaced(about).replace(" ", "") if about else "-"
        self.at(self.now, f"cache> report {version} {code} {about} {text}")

    def ends(self):
        """The connection has ended."""
        self.at(self.now, "closes")
