"""Other caches: what each sends is recorded and goes through our programs."""
import os
import re
import struct

import ours
import payloads
import programs
import recorder
from payloads import ASPA, Change
from results import Pair

PART = "their caches"

# The answers that a cache may give to unknown requests (RFC 8210 sections 5.1, 5.9 and 7). One that
# closes at once may lose its report; any other answer is a finding.
ANSWERS = {
    "serial query of an unknown session": r"error report v\d code 0|cache reset v\d|closed",
    "serial query with an unknown serial": r"cache reset v\d",
    "reset query of a version too high": r"error report v\d code 4"
                                         r"|cache response v(\d), end of data v\1|closed",
}


# The types of answers without data: a cache reset and an error report.
WITHOUT_DATA = (8, 10)


def payload_lines(content):
    """Returns the lines of `rtr_list --json` for the payloads among these units, in order."""
    return [programs.line_of(unit) for unit in programs.listed(content) if "action" in unit]


class Recorded:
    """The sessions with one cache: the answers, and the files that store them."""

    def __init__(self, cache, old, new):
        self.cache, self.old, self.new = cache, old, new
        version, folder = cache.version, cache.folder
        with recorder.Session(cache.port, folder, "first") as session:
            self.first = session.ask(recorder.reset_query(version))
            end = self.first.end()
            cache.change(new)
            self.notify = session.notified(cache.change_seconds)
            self.delta = session.ask(recorder.serial_query(version, end.session, end.serial))
            end = self.delta.end()
            query = recorder.serial_query(version, end.session, end.serial)
            self.nothing = session.ask(query)
        self.second = self.once("second", recorder.reset_query(version))
        queries = [
            recorder.serial_query(version, end.session ^ 1, end.serial),
            recorder.serial_query(version, end.session, (end.serial + 1000) % 2**32),
            recorder.reset_query(cache.highest + 1),
        ]
        self.refused = {
            what: self.once(f"refused{number}", query)
            for number, (what, query) in enumerate(zip(ANSWERS, queries))
        }

    def once(self, name, query):
        """Sends a query on a new connection."""
        with recorder.Session(self.cache.port, self.cache.folder, name) as session:
            return session.ask(query)

    def files(self):
        """Returns the files of all answers."""
        folder = self.cache.folder
        names = sorted(name for name in os.listdir(folder) if name.endswith(".answers"))
        for name in names:
            with open(os.path.join(folder, name), "rb") as file:
                yield name, file.read()


def own(content, cache):
    """Returns these units without those of another layout."""
    units = recorder.units(content)
    return b"".join(unit for unit in units if not (cache.other_aspas and unit[1] == ASPA))


def announced(listed):
    """Returns the lines that announce this list."""
    return {Change(True, payload).line() for payload in listed}


def compare_lists(pair, recorded):
    """Compares each answer with the list that was served."""
    cache = recorded.cache
    old, new = cache.serves(recorded.old), cache.serves(recorded.new)
    changed = {change.line() for change in payloads.changes(old, new)}
    for what, answer, expected in [
        ("reset query", recorded.first, announced(old)),
        ("serial query after the change", recorded.delta, changed),
        ("serial query with nothing new", recorded.nothing, set()),
        ("reset query after the change", recorded.second, announced(new)),
    ]:
        lines = payload_lines(own(answer.sequence(), cache))
        each_once = len(set(lines)) == len(lines)
        pair.equal(f"rtr_list of a {what}", set(lines) if each_once else lines, expected)
    pair.holds("serial notify after the change", recorded.notify.last == payloads.NOTIFY,
               "none came")
    first = os.path.join(cache.folder, "first.sequence")
    second = os.path.join(cache.folder, "second.sequence")
    for path, answer in ((first, recorded.first), (second, recorded.second)):
        with open(path, "wb") as file:
            file.write(own(answer.sequence(), cache))
    pair.equal("rtr_diff of both reset queries", programs.differing(first, second), changed)
    units = set(payload_lines(programs.units_of_change(first, second)))
    pair.equal("rtr_diff --units of both", units, changed)


def compare_forms(pair, recorded):
    """Compares our forms with the recordings: a cache that sets no free bit sends exactly
    these."""
    for what, answer in (("reset query", recorded.first), ("serial query", recorded.delta)):
        content = own(answer.sequence(), recorded.cache)
        units = len(recorder.units(content))
        pair.equal(f"rtr_normalise of a {what}", programs.normalised(content), content, units)
    if not programs.there("rtr_clean"):
        return
    for name, content in recorded.files():
        content = own(content, recorded.cache)
        units = len(recorder.units(content))
        pair.equal(f"rtr_clean of {name}", programs.cleaned(content), content, units)


def compare_made(pair, recorded):
    """Compares the output of rtr_make for the cache's file with what the cache sends."""
    cache = recorded.cache
    if not programs.there("rtr_make") or cache.json is None or cache.other_aspas:
        return
    with open(os.path.join(cache.folder, cache.json), "rb") as file:
        sequence = programs.rtr_make(file.read(), cache.version)
    path = os.path.join(cache.folder, "made.sequence")
    with open(path, "wb") as file:
        file.write(sequence)
    units = len(recorder.units(sequence))
    second = os.path.join(cache.folder, "second.sequence")
    pair.equal("rtr_make of its file", programs.differing(path, second), set(), units)


def findings(pair, recorded):
    """Compares broken rules with those that README.md lists for this cache and version."""
    found, units = set(), 0
    for _, content in recorded.files():
        units += len(programs.listed(content))
        lines = {re.sub(r"^offset \d+: ", "", line) for line in programs.found(content)}
        # A query may get no data, or a close without an answer: ANSWERS says which.
        if all(unit[1] in WITHOUT_DATA for unit in recorder.units(content)):
            lines.discard("recording without an end of data")
        found |= lines
    for what, answer in recorded.refused.items():
        pair.sees(what, answer.kinds())
        if not re.fullmatch(ANSWERS[what], answer.kinds()):
            found.add(f"{what}: {answer.kinds()}")
    what = "rtr_list --check finds nothing that README.md doesn't list"
    pair.equal(what, found - pair.known(), set(), units)
    for text in found & pair.known():
        pair.sees("known finding", text)


def older_aspas(pair, recorded):
    """Compares ASPAs in the layout of draft-ietf-sidrops-8210bis-10: flags, a family and a count in
    bytes 8 to 11, the customer, and the providers."""
    got = set()
    for unit in recorder.units(recorded.first.sequence()):
        if unit[1] == ASPA:
            flags, family, count, customer = struct.unpack_from(">BBHI", unit, 8)
            providers = struct.unpack_from(f">{count}I", unit, 16)
            got.add((flags, family, customer, providers))
    aspas = [p for p in recorded.old if isinstance(p, payloads.Authorization)]
    expected = {(1, family, a.customer, a.providers) for a in aspas for family in (0, 1)}
    pair.equal("ASPAs, read as draft 10 has them", got, expected)


def clients_hold(pair, cache, listed, clients):
    """Each of our clients holds exactly what is served, even if it asks for a higher version."""
    for client in clients:
        lines = client.fetch(cache.port, cache.version)
        pair.equal(f"client in {client.name} holds the list", lines, announced(listed))
        if cache.version == cache.highest < 2:
            lines = client.fetch(cache.port, cache.version + 1)
            what = f"client in {client.name} falls to the cache's version"
            pair.equal(what, lines, announced(listed))


def compare(results, maker, version, folder):
    """Records one cache in one version, and compares everything."""
    old, new = payloads.made_up()
    with Pair(results, PART, maker.name, f"v{version}", maker.release()) as pair:
        cache = maker(os.path.join(folder, f"{maker.__name__.lower()}{version}"), version)
        with cache.serve(old):
            recorded = Recorded(cache, old, new)
            if not cache.other_aspas:
                clients_hold(pair, cache, cache.serves(new), ours.clients(folder))
        compare_lists(pair, recorded)
        compare_forms(pair, recorded)
        compare_made(pair, recorded)
        findings(pair, recorded)
        if cache.other_aspas:
            older_aspas(pair, recorded)
