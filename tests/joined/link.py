"""The connection between two ends, if there is one, and the bytes in transit."""
import struct

import units


class Link:
    def __init__(self):
        self.is_wanted = False  # by the router, and there is none yet
        self.begin(False)
        self.end()

    def begin(self, is_one_more):
        """Opens a connection, which may be above the cache's limit."""
        self.router_has, self.cache_has = True, True
        # whether each end has read that the other one closed
        self.router_saw_close, self.cache_saw_close = False, False
        self.to_router, self.to_cache = b"", b""
        self.begun = {}  # the first bytes of the last unit of an end
        self.is_one_more, self.had_no_data, self.has_report = is_one_more, False, False
        self.is_slow = False   # the router doesn't read
        self.was_slow = False  # it didn't read at some time: its bytes may be old

    def end(self):
        self.router_has = self.cache_has = False
        self.to_router = self.to_cache = b""

    def awaits(self, to_router):
        """Reports whether bytes, or the other end's close, are in transit to this end."""
        if to_router:
            return self.router_has and bool(self.to_router
                                            or not (self.cache_has or self.router_saw_close))
        return self.cache_has and bool(self.to_cache
                                       or not (self.router_has or self.cache_saw_close))

    def take(self, to_router, most):
        """Returns at most this many of the bytes; none if the other end closed."""
        if to_router:
            taken, self.to_router = self.to_router[:most], self.to_router[most:]
            self.router_saw_close |= not taken
        else:
            taken, self.to_cache = self.to_cache[:most], self.to_cache[most:]
            self.cache_saw_close |= not taken
        return taken

    def sent(self, end, sent):
        """Returns the units that an end has completed with these bytes."""
        self.begun[end], rest = b"", self.begun.get(end, b"") + sent
        for unit in units.split(rest):
            if len(unit) < 8 or len(unit) < struct.unpack(">I", unit[4:8])[0]:
                self.begun[end] = unit
            else:
                yield unit
