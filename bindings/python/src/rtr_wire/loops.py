"""Shared by the loops around a `Router`: the clock, the requests of a caller, limits."""
from __future__ import annotations

import random
import ssl as tls
import time
from typing import Any, Callable, Optional

from . import _rtr
from .router import Router, Settings

# A function that is called with each error.
OnFailure = Callable[[Exception], Any]

CHUNK = 1 << 16  # the most bytes of one read
# The most bytes that are read while the cache may read a last report.
LAST_BYTES = _rtr.LAST_REPORT_BYTES
LOOK = 0.25  # seconds between two checks whether the caller requests data, or stops the loop
# The least and the most seconds of a wait: a socket whose timeout is 0 doesn't wait at all, and
# timers of some systems take no times of many days.
_LEAST_WAIT = 0.001
_LONGEST_WAIT = 3600.0
# Milliseconds by which a timer may end early.
_EARLY = 10


class Clock:
    """The time in milliseconds since the clock was made."""

    def __init__(self) -> None:
        self._begun = time.monotonic()

    def now(self) -> int:
        return int((time.monotonic() - self._begun) * 1000)

    def until(self, when: int) -> float:
        """Returns the seconds until a time: at least a millisecond, and at most an hour."""
        return min(seconds_until(self._begun + when / 1000), _LONGEST_WAIT)

    def is_at(self, when: int) -> bool:
        """Reports whether it is that time, or so close that a timer for it may have ended."""
        return self.now() + _EARLY >= when


def seconds_until(when: float) -> float:
    """Returns the seconds until a time of time.monotonic: at least a millisecond."""
    return max(when - time.monotonic(), _LEAST_WAIT)


def share_ends(end: float, addresses: int) -> float:
    """Returns the time at which to give up the next address of a host name, if this many addresses
    are left until `end`. Each gets an equal share of the time, as in the other languages."""
    now = time.monotonic()
    return now + (end - now) / addresses


def new_router(settings: Settings) -> Router:
    """Returns a router whose waits are spread by a random number."""
    return Router(settings, chance=random.SystemRandom().getrandbits(16))


def strict_names(context: Optional[tls.SSLContext]) -> Optional[tls.SSLContext]:
    """Returns a context for TLS, which takes no common name of a certificate from now on: RFC 8210
    section 9.2 forbids it, and OpenSSL takes it if there are no alternative names."""
    if context is not None and tls.HAS_NEVER_CHECK_COMMON_NAME:
        context.hostname_checks_common_name = False
    return context


class Asking:
    """The requests of a caller to the loops of a client."""

    def __init__(self) -> None:
        self._asked = 0

    def ask_now(self) -> None:
        """Asks the cache for its current data as soon as allowed, or connects, without waiting for
        the refresh or the retry time: in each loop that runs. Any thread may call it."""
        self._asked += 1

    def _pass_requests(self, router: Router, before: int) -> int:
        """Tells the router of requests since `before`, and returns the number of all requests."""
        asked = self._asked  # read once: another thread may ask meanwhile
        if asked != before:
            router.asked()
        return asked
