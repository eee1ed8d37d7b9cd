"""A Router with a simulated clock, as an end of a connection (tests/joined/README.md)."""
from rtr_wire.router import Close, Connect, Failed, NoData, Router, Settings, Update

from .scene_input import play

TIMES = ("refresh", "retry", "expire", "pause", "connect_limit", "response_limit")


class End:
    """A router, as a scene needs it."""

    def __init__(self):
        self.settings, self.chance, self._router = {}, 0, None
        self.now, self.connected, self.broken = 0, False, False

    @property
    def router(self):
        if self._router is None:
            self._router = Router(Settings(**self.settings), chance=self.chance)
        return self._router

    @property
    def wakes(self):
        return self.router.wakes

    def does(self, what):
        print(self.now, what)

    def sends(self):
        """Sends queries and reports."""
        sent = self.router.output
        if sent and not self.broken:
            self.does(f"router> {sent.hex()}")
            self.router.sent(len(sent))

    def settle(self):
        """Runs the router until it waits."""
        while True:
            step = self.router.step(self.now)
            if step is None or isinstance(step, Close):
                self.sends()
            if step is None:
                return
            if isinstance(step, Connect):
                self.does("connects")
            elif isinstance(step, Close):
                self.connected = False
                self.does("closes")
            elif isinstance(step, Failed) and isinstance(step.error, NoData):
                self.does("no data")
            elif isinstance(step, Update):
                data = step.data
                self.does("drops" if data is None else f"shows {{ {bytes(data).hex()} }}")

    def passes(self, time):
        """Advances the clock to this time."""
        while self.wakes <= time:
            self.now = max(self.now, self.wakes)
            self.settle()
        self.now = time

    def take_step(self, step, words):
        """Carries out a step of the cache or the caller."""
        if step == "cache>" and self.connected:
            self.router.received(bytes.fromhex("".join(words)))
        elif words == ["accepts"]:
            self.connected, self.broken = True, False
            self.router.connected()
        elif words == ["closes"]:
            self.router.received(b"")
        elif step == "caller":
            self.router.asked()
        elif words in (["refuses"], ["breaks"]):
            self.broken = True
            self.router.lost(OSError(words[0]))
        self.settle()

    def set(self, name, value):
        if name == "chance":
            self.chance = value
        else:
            self.settings[name] = value / 1000 if name in TIMES else value


if __name__ == "__main__":
    play(End, "router")
