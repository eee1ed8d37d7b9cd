"""A client and a cache that are connected by a simulated link and clock: a seed determines the
events, and what they do is compared with the data that the cache had."""
import struct
from collections import deque
from itertools import accumulate
from random import Random

import units
from link import Link
from past import Past

SECOND = 1000
HOUR = 3600 * SECOND
TROUBLE = 1500  # steps before a time without disturbances
REMEMBERED = 80  # steps that are printed for a failing run

# How long a router may take to have the present data, if nothing disturbs it and the link takes no
# time: a retry time, after what was in progress, within the limit of an answer (docs/SESSIONS.md);
# a pause for each connection, three for each version; and a minute between two notifies.
MOST_RETRY, ANSWER, PAUSE, NOTIFIES = 600 * SECOND, 120 * SECOND, SECOND, 60 * SECOND
RECOVERY = ANSWER + MOST_RETRY + 3 * 3 * PAUSE + NOTIFIES

# How long and how many bytes of earlier data a cache keeps by default.
KEEP, ROOM = 2 * HOUR, 2**26

CUT_OFF = "unexpected end of input"
OTHER_SESSION = "unit of another session"
HIGHER_VERSION = "answer of a higher version than the query"
FULL, NO_DATA, UNKNOWN_SESSION = 1, 2, 0  # codes of reports (RFC 8210 section 12, and 5.1)


def accumulated(*often):
    """Returns the same with cumulative counts: of each and of all before it."""
    return zip((deed for deed, _ in often), accumulate(times for _, times in often))


class Wrong(Exception):
    """An end broke a rule."""


class Simulation:
    def __init__(self, seed, router, cache):
        self.random = Random(seed)
        self.router, self.cache = router, cache
        self.now, self.steps, self.compared = 0, 0, 0
        self.latest = deque(maxlen=REMEMBERED)
        self.past, self.link = Past(self.random), Link()
        self.present = self.saved = self.shown = self.expires = None
        self.begin_router()
        self.begin_cache()

    def run(self, steps):
        """Takes this many steps, each an event of an end."""
        for number in range(1, steps + 1):
            if number % TROUBLE == 0:
                self.recover()
            self.step()
        self.recover()
        if self.compared < steps // 200:
            raise Wrong(f"data are shown {self.compared} times alone")

    def step(self):
        before = self.steps
        while self.steps == before:
            deed, = self.random.choices(self.DEEDS, cum_weights=self.OFTEN)
            deed(self)

    # ---- events of one end

    def tell(self, end, what):
        """Reports an event to an end, and carries out what it does."""
        self.steps += 1
        did = end.tell(self.now, what)
        name = "router" if end is self.router else "cache "
        self.latest.append((self.now, name, what, did, end.wakes))
        if end.wakes <= self.now:
            raise Wrong(f"the {name.strip()} doesn't come to rest")
        for time, words in did:
            if end is self.cache:
                self.cache_did(words)
            else:
                self.router_did(time, words)
        if "> " in what and (self.now, ["closes"]) in did and not self.link.has_report:
            if end is self.cache or not self.shown:
                raise Wrong(f"the {name.strip()} closes without a word")
            self.has_to_rise = True
        if end is self.router and self.shown and self.now >= self.expires:
            raise Wrong("data are shown that have expired")

    def router_did(self, time, words):
        match words:
            case ["connects"]:
                self.link.is_wanted = True
            case ["router>", sent]:
                self.router_sent(bytes.fromhex(sent))
            case ["closes"]:
                self.link.is_wanted = self.link.router_has = False
                self.link.to_router = b""
            case ["shows", "{", *shown, "}"]:
                self.compare(time, bytes.fromhex("".join(shown)))
            case ["drops"]:
                if time < self.expires and not self.link.had_no_data:
                    raise Wrong("data are dropped that haven't expired")
                self.shown = None
            case ["no", "data"]:
                pass
            case _:
                raise Wrong(f"the router did {words}")

    def cache_did(self, words):
        match words:
            case ["cache>", sent]:
                self.cache_sent(bytes.fromhex(sent))
            case ["closes"]:
                self.link.cache_has = False
                self.link.to_cache = b""
            case _:
                raise Wrong(f"the cache did {words}")

    def compare(self, time, data):
        """Checks that the shown data are those that the cache had at their session and serial
        number, as their version has them."""
        self.compared += 1
        *_, end = units.split(data)
        session, serial = struct.unpack(">2xH4xI", end[:12])
        had = self.past.had.get((session, serial))
        if had is None:
            raise Wrong(f"the cache had no data of session {session} and serial number {serial}")
        if had.data(data[0]) != data:
            raise Wrong(f"at session {session} and serial number {serial}\n"
                        f"had   {had.data(data[0]).hex()}\nshown {data.hex()}")
        self.shown = had
        times = had.times if data[0] else units.USUAL  # version 0 has none
        self.expires = time + SECOND * times[2]

    def router_sent(self, sent):
        """The router reports no unit of the cache, unless a close cut it off, after which only the
        version may be left of a report to a router above the limit; or the cache had no data
        before, and then those of another session. After a close without a report its next query
        has to be of a higher version."""
        for unit in self.link.sent(self.router, sent):
            if self.has_to_rise and unit[0] <= self.asked_version:
                raise Wrong("the router closed without a word, and asks at no higher version")
            self.has_to_rise, self.asked_version = False, unit[0]
            if unit[1] != units.REPORT:
                continue
            code, text = report_of(unit)
            self.link.has_report = True
            if not (text == CUT_OFF and not self.link.cache_has
                    or text == HIGHER_VERSION and self.link.is_one_more and not self.link.cache_has
                    or text == OTHER_SESSION and self.link.had_no_data):
                raise Wrong(f"the router reports {code}: {text}")
        self.link.to_cache += sent

    def cache_sent(self, sent):
        """The cache refuses nothing that the router sent, unless a close cut it off, and answers
        with the changes from data that it keeps."""
        for unit in self.link.sent(self.cache, sent):
            code, text = report_of(unit) or (None, None)
            self.link.has_report |= code is not None
            self.link.had_no_data |= code == NO_DATA
            if code is not None and not (
                    text == CUT_OFF and not self.link.router_has
                    or code == NO_DATA and (self.present is None or self.link.was_slow)
                    or code == FULL and self.link.is_one_more
                    or code == UNKNOWN_SESSION and self.refuses):
                raise Wrong(f"the cache reports {code}: {text}")
            is_unknown = code == UNKNOWN_SESSION and text != CUT_OFF
            if (unit[1] == units.RESET or is_unknown) and self.has_kept(self.shown):
                raise Wrong("the cache doesn't tell the changes from data that it keeps")
        self.link.to_router += sent

    def has_kept(self, edition):
        """Reports whether the cache has to answer with the changes from these data: they are the
        present ones, or were so at most two hours ago, on a cache with room for all."""
        return edition is not None and (edition is self.present or self.keeps
                                        and self.now - self.kept.get(edition, -KEEP) < KEEP)

    # ---- events

    def pass_until(self, time):
        """Advances the clock to this time; ends that are due until then act by themselves."""
        self.now = max(self.now, min(time, self.now + 3 * HOUR))
        for end in (self.router, self.cache):
            if end.wakes <= self.now:
                self.tell(end, "")

    def pass_some(self):
        """Lets a little time pass, or time until an end acts by itself, or hours."""
        self.pass_until(self.random.choices(
            (self.now + self.random.randrange(100), min(self.router.wakes, self.cache.wakes),
             self.now + self.random.randrange(60 * SECOND),
             self.now + self.random.randrange(3 * HOUR)), (60, 30, 10, 1))[0])

    def deliver(self, to_router, most, breaks=False):
        """Delivers bytes to an end, at most this many, or the other end's close."""
        if not self.link.awaits(to_router):
            return
        taken = self.link.take(to_router, most)
        other = "cache" if to_router else "router"
        self.tell(self.router if to_router else self.cache,
                  f"{other}> {taken.hex()}" if taken
                  else f"{other} breaks" if breaks else f"{other} closes")

    def deliver_some(self):
        awaits = [to_router for to_router in (True, False) if self.link.awaits(to_router)]
        if awaits:
            most = self.random.choice((1, self.random.randrange(1, 40), 2**20))
            self.deliver(self.random.choice(awaits), most, self.random.random() < 0.2)

    def breaks(self, of_router):
        """Closes the connection of an end."""
        if of_router and self.link.router_has:
            self.tell(self.router, "cache breaks")
        elif not of_router and self.link.cache_has:
            self.tell(self.cache, "router breaks")

    def answer_connection(self, in_trouble=True):
        """Opens a connection that the router asks for, or refuses it, or makes it one too many."""
        if not self.link.is_wanted:
            return
        self.link.is_wanted = False
        if in_trouble and self.random.random() < 0.1:
            self.tell(self.router, "cache refuses")
            return
        self.breaks(of_router=False)
        is_one_more = in_trouble and self.random.random() < 0.05
        self.link.begin(is_one_more)
        self.tell(self.cache, "router connects" + is_one_more * " beyond the limit")
        self.tell(self.router, "cache accepts")

    def take_some(self):
        """The router reads this many of the bytes that the cache sends, and no more for a while."""
        if self.link.cache_has:
            self.take(self.random.choice((0, self.random.randrange(60), 2**40, 2**40)))

    def take(self, most):
        self.link.is_slow = most < 2**40
        self.link.was_slow |= self.link.is_slow
        self.tell(self.cache, f"router takes {most}")

    def cut(self):
        """Cuts the connection, after some of the bytes that are in transit to each end."""
        for to_router in (True, False):
            length = len(self.link.to_router if to_router else self.link.to_cache)
            if most := self.random.randrange(length + 1):
                self.deliver(to_router, most)
        self.breaks(of_router=True)
        self.breaks(of_router=False)
        self.link.end()

    def close_one(self):
        """Closes an end's side: some of its bytes arrive, and then its close."""
        if not (self.link.router_has and self.link.cache_has):
            return
        if self.random.random() < 0.5:
            self.link.to_router = self.link.to_router[:self.random.randrange(1 + len(
                self.link.to_router))]
            self.breaks(of_router=False)
        else:
            self.link.to_cache = self.link.to_cache[:self.random.randrange(1 + len(
                self.link.to_cache))]
            self.breaks(of_router=True)

    def renew(self):
        """Makes new data of the session, or several in a burst."""
        for _ in range(self.random.randrange(1, 21) if self.random.random() < 0.1 else 1):
            self.give(self.past.renew())

    def give(self, edition):
        """Gives the cache this edition."""
        if self.present is None or self.present.session != edition.session:
            self.kept = {}
        elif self.present is not edition:
            self.kept[self.present] = self.now
        self.present = edition
        self.tell(self.cache, f"data {{ {edition.data(edition.version).hex()} }}")

    def change_session(self):
        self.past.change_session()
        self.renew()

    def save(self):
        if self.present:
            self.saved, self.saved_kept = self.present, self.keeps and dict(self.kept) or {}
        self.tell(self.cache, "saves kept")

    def begin_router(self):
        """Begins a router of any version, without data."""
        settings = {"version": self.random.choice((0, 1, 2, 2)),
                    "chance": self.random.randrange(2**16)}
        if self.random.random() < 0.3:
            settings["refresh"] = self.random.randrange(1, HOUR)
        if self.random.random() < 0.3:
            settings["retry"] = self.random.randrange(1, MOST_RETRY)
        self.router.begin(self.now, [f"router {name} {value}" for name, value in settings.items()])
        self.shown, self.asked_version, self.has_to_rise = None, 0, False
        self.tell(self.router, "")

    def begin_cache(self):
        """Begins a cache without data."""
        self.refuses = self.random.random() < 0.3
        keep = self.random.choice((ROOM, ROOM, 200, 100))
        idle = self.random.choice((25 * HOUR, 2 * HOUR))
        self.cache.begin(self.now, ["cache usual", f"cache keep-bytes {keep}",
                                    f"cache idle-limit {idle}", f"cache date {2**40 + self.now}",
                                    *(["cache refuses"] if self.refuses else [])])
        self.present, self.kept, self.keeps = None, {}, keep == ROOM

    def restart_router(self):
        self.cut()
        self.link.is_wanted = False
        self.begin_router()

    def restart_cache(self):
        """Restarts the cache: with what it saved, now or before, and perhaps with its last data
        again; or without its data, and perhaps with those of a new session."""
        self.cut()
        last = self.present
        if last and self.random.random() < 0.6:
            self.save()
        self.begin_cache()
        if self.saved and self.random.random() < 0.8:
            self.present, self.kept = self.saved, dict(self.saved_kept)
            self.tell(self.cache, "restores kept")
            if last and self.random.random() < 0.5:
                self.give(last)
        elif self.random.random() < 0.5:
            self.change_session()

    # The events, and their frequencies.
    DEEDS, OFTEN = zip(*accumulated(
        (deliver_some, 800), (answer_connection, 100), (pass_some, 60), (renew, 20),
        (take_some, 15), (cut, 5),
        (close_one, 5), (save, 4), (restart_cache, 3), (restart_router, 2), (change_session, 2)))

    def recover(self):
        """Without further disturbances the router has the present data in time."""
        if self.present is None:
            self.renew()
        until = self.now + RECOVERY
        for _ in range(10 * REMEMBERED):
            if self.shown is self.present:
                return
            before = self.steps
            if self.link.is_slow and self.link.cache_has:
                self.take(2**40)
            self.answer_connection(in_trouble=False)
            for to_router in (True, False):
                self.deliver(to_router, 2**20)
            if self.steps > before:
                continue
            wakes = min(self.router.wakes, self.cache.wakes)
            if wakes > until:
                break
            self.pass_until(wakes)
        raise Wrong("the router hasn't the present data in time")


def report_of(unit):
    """Returns the code and the text of a report; None for another unit."""
    if unit[1] != units.REPORT:
        return None
    code, about = struct.unpack(">2xH4xI", unit[:12])
    return code, unit[16 + about:].decode()
