"""The lines of one scene: what the cache and the router do, each with its time."""
from units import reset_query, serial_query, spaced, split, words

SECOND = 1000


class Scene:
    """A scene that is being written. Times are in milliseconds and ascend."""

    def __init__(self, name, about, version=1, **settings):
        self.name, self.version, self.now = name, version, 0
        self.lines = [f"scene {name}", *(f"# {line}" for line in about.splitlines())]
        self.add(f"router version {version}")
        for setting, value in settings.items():
            self.add(f"router {setting.replace('_', '-')} {value}")

    def add(self, text, comment=""):
        self.lines.append(f"{text:<58} # {comment}" if comment else text)

    def at(self, time, text, comment=""):
        self.now = max(time, self.now)
        self.add(f"{self.now} {text}", comment)

    # What the cache does, and the clock.

    def accepts(self, time):
        self.at(time, "cache accepts")

    def refuses(self, time):
        self.at(time, "cache refuses")

    def closes(self, time):
        self.at(time, "cache closes")

    def breaks(self, time):
        self.at(time, "cache breaks")

    def cache(self, time, data):
        """The cache sends these bytes, a line for each unit."""
        for unit in split(data):
            self.at(time, f"cache> {spaced(unit)}", words(unit))

    def cache_one(self, time, unit):
        """The cache sends a unit, valid or not."""
        self.at(time, f"cache> {spaced(unit)}", words(unit))

    def cache_cut(self, time, data):
        """The cache sends these bytes, whole units or not."""
        if data:
            self.at(time, f"cache> {data.hex()}")

    def wishes(self, time):
        """The router's caller asks for the present data."""
        self.at(time, "caller asks")

    def passes(self, time):
        """The clock reaches this time."""
        self.now = max(time, self.now)
        self.add(f"at {self.now}")

    # What the router does.

    def connects(self, time):
        self.at(time, "connects")

    def sends(self, time, data):
        self.at(time, f"router> {spaced(data)}", words(data))

    def reports(self, time, version, code, about, text):
        """The router sends a report of this code and text about a unit."""
        about = spaced(about).replace(" ", "") if about else "-"
        self.at(time, f"router> report {version} {code} {about} {text}")

    def ends(self, time):
        """The connection has ended."""
        self.at(time, "closes")

    def shows(self, time, data):
        """The router shows these data, in canonical form."""
        parts = [spaced(unit).replace(" ", "") for unit in split(data)]
        self.at(time, "shows { " + " ".join(parts) + " }")

    def drops(self, time):
        self.at(time, "drops")

    def has_none(self, time):
        self.at(time, "no data")

    # Both.

    def asks(self, time, version, serial=None, session=None):
        """The router connects, and asks for all data or for the changes since a serial number."""
        self.connects(time)
        self.accepts(time + 10)
        query = reset_query(version) if serial is None else serial_query(version, serial, session)
        self.sends(time + 10, query)

    def text(self):
        return "\n".join(self.lines) + "\n"
