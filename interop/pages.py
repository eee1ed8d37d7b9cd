"""Other routers, each with its configuration of docs/OPERATORS.md, unchanged except for the cache's
address and port: with rtr-cache they hold its list, and a changed one."""
import contextlib
import os
import re

import caches
import payloads
import routers
from processes import until
from results import Pair

PART = "configurations of OPERATORS"
PAGE = os.path.join(os.path.dirname(os.path.abspath(__file__)), "..", "docs", "OPERATORS.md")

# The address of the cache on the page.
ADDRESS, PORT = "192.0.2.10", "323"

# How long a table may take to hold a list, also on a machine under load.
SECONDS = 90


def shown(name, port):
    """Returns the configuration that the page shows for a router, for a cache at this port."""
    with open(PAGE, encoding="utf-8") as page:
        found = re.search(rf"^<!-- router: {name} -->\n```\n(.*?)^```$", page.read(), re.M | re.S)
    if not found or ADDRESS not in found[1] or PORT not in found[1]:
        raise ValueError(f"the page shows no {ADDRESS} at {PORT} for {name}")
    return re.sub(rf"\b{PORT}\b", str(port), found[1].replace(ADDRESS, "127.0.0.1"))


class Shown:
    """A mixin for a router, whose configuration is then that of the page, with the parts that it
    leaves to each operator."""

    def keep(self, name, text):
        """Writes one of its files."""
        if name == "conf":
            text = self.beside(text) + shown(self.name, self.cache)
        return super().keep(name, text)

    def beside(self, _text):
        """Returns the other parts of its configuration."""
        return ""


class Bird(Shown, routers.Bird):
    """BIRD, with its log and an identity."""

    def beside(self, _text):
        return f"""log "{self.path('messages')}" all;
            router id 192.0.2.1;
            """


class FRR(Shown, routers.FRR):
    """FRR."""


class OpenBGPD(Shown, routers.OpenBGPD):
    """OpenBGPD, with the same neighbor as elsewhere."""

    def beside(self, text):
        return re.sub(r"(?s)\brtr \S+ \{.*?\}", "", text) + "\n"


ROUTERS = (Bird, FRR, OpenBGPD)


def holds(pair, router, what, listed):
    """Passes once a router holds its part of a list, in time."""
    expected, tables = router.shows(listed), [set()]

    def same():
        tables.append(router.table())
        return tables[-1] == expected

    with contextlib.suppress(TimeoutError):
        until(same, SECONDS, "table")
    pair.equal(what, tables[-1], expected)


def compare(results, maker, folder):
    """Runs each router with a cache."""
    old, new = payloads.made_up()
    with Pair(results, PART, maker.name, "v1", maker.release()), contextlib.ExitStack() as stack:
        cache = maker(folder, 1)
        stack.enter_context(cache.serve(old))
        beside = []
        for kind in ROUTERS:
            peer = f"{kind.name} at {cache.name}"
            with Pair(results, PART, peer, "v1", kind.release()) as pair:
                path = os.path.join(folder, kind.__name__.lower())
                beside.append((pair, stack.enter_context(kind(path, cache.port))))
        for pair, router in beside:
            holds(pair, router, "by the page's configuration it holds the list", cache.serves(old))
        cache.change(new)
        for pair, router in beside:
            holds(pair, router, "and the changed list", cache.serves(new))


def jobs(found, folder):
    """Returns the job of the part `pages`: with rtr-cache."""
    for maker in caches.of_programs(folder):
        yield compare, (found, maker, os.path.join(folder, "pages"))
