"""Runs a cache whose saving of its data fails, or that is killed in it: the cache says why, serves
the data before, and tries again; it serves data only once they are saved; and a cache that is
started again finds older or newer data whole, never a part. The same holds of the first saving of
a cache, with no data in the place of those before.
"""
import errno
import os
import re
import signal
import time

from cache import STATE, Lost, Router
from caches import content
from saved import BESIDE, DATA, Saved, expect_changes
from units import TIMEOUT, Wrong

CLOSE = "a saving with a failing close"
# What is injected into the next saving, and the error that the cache logs, if any. Syncs are
# numbered below, since one comes at a start: a cache that saved syncs the folder, and rtr-cache,
# where it created its folder, that above.
FAULTS = {
    "a saving": ("", None),
    "a saving by short writes": ("write:1:0:4000", None),
    "a saving without a descriptor": ("open:1:1:EMFILE", errno.EMFILE),
    "a saving without a file of the system": ("open:1:1:ENFILE", errno.ENFILE),
    "a saving without space for the file": ("open:1:1:ENOSPC", errno.ENOSPC),
    "a saving that isn't allowed": ("open:1:1:EACCES", errno.EACCES),
    "a saving without space": ("write:1:1:ENOSPC", errno.ENOSPC),
    "a saving without space for all": ("write:1:1:100 write:2:2:ENOSPC", errno.ENOSPC),
    "a saving with a failing write": ("write:1:1:100 write:2:2:EIO", errno.EIO),
    "a saving with a failing sync": ("sync:{file}:{file}:EIO", errno.EIO),
    "a saving without space at its sync": ("sync:{file}:{file}:ENOSPC", errno.ENOSPC),
    "a saving with a failing rename": ("rename:1:1:EIO", errno.EIO),
    "a saving without space for the name": ("rename:1:1:ENOSPC", errno.ENOSPC),
    "a saving without a descriptor for the folder": ("folder:{opened}:{opened}:EMFILE",
                                                     errno.EMFILE),
    "a saving with a failing sync of the folder": ("sync:{folder}:{folder}:EIO", errno.EIO),
    # As file systems say that can't sync folders.
    "a saving without syncs of the folder": ("sync:{folders}:0:EINVAL:2", None),
    # Once a file is synced its close has nothing left to report.
    CLOSE: ("close:1:1:EIO", None),
}
# Folders that are read-only at first: the faults, and whether the `.new` file can't be removed
# either.
READ_ONLY = {
    "a saving in a folder that can only be read": ("remove:1:0:EROFS open:1:1:EROFS", False),
    "a saving in a folder that has to stay": ("remove:1:0:EROFS open:1:1:EROFS", True),
}
# The faults of each saving, the error, and whether the file is replaced nevertheless.
LASTING = {
    "savings without descriptors": ("open:1:0:EMFILE", errno.EMFILE, False),
    "savings in a folder that can only be read": ("open:1:0:EROFS", errno.EROFS, False),
    "savings without space": ("write:1:0:ENOSPC", errno.ENOSPC, False),
    "savings without space at their syncs": ("sync:{file}:0:ENOSPC", errno.ENOSPC, False),
    "savings with failing syncs": ("sync:{file}:0:EIO", errno.EIO, False),
    "savings with failing renames": ("rename:1:0:EIO", errno.EIO, False),
    "savings with failing syncs of the folder": ("sync:{folder}:0:EIO:2", errno.EIO, True),
}
# The faults of a start over a saved file, and its error.
STARTS = {
    "a start with a failing sync of the folder": ("sync:1:1:EIO", errno.EIO),
    "a start without a descriptor for the folder": ("folder:1:1:EMFILE", errno.EMFILE),
    "a start without a descriptor for the file": ("load:1:1:EMFILE", errno.EMFILE),
    "a start that may not read the file": ("load:1:1:EACCES", errno.EACCES),
}
KILLS = "killed savings"
MINUTE = "savings that fail for a minute"
PAUSES = (1, 2, 4, 8, 16, 32, 60)  # seconds between two of them
FULL = "a saving to a full disk"  # the system's own: what is written there has no space
DESCRIPTORS = "a saving of a process without descriptors"  # the system's own, too
FIRST = "first "  # before "saving" in the name of a run
# What an error of the system is about.
NAMED = r"(?:\.kept|editions)(?:\.new)?|: (?:open|sync) /.*"
LEAST_CALLS = 5  # of a saving: open, write, sync, rename, and sync of the folder


def names(program):
    """Returns the names of the runs of a cache. Node makes the call to close a file itself."""
    savings = [KILLS, *LASTING, FULL, DESCRIPTORS, *READ_ONLY, *FAULTS]
    if program == "Node cache":
        savings.remove(CLOSE)
    first_savings = [name.replace("saving", FIRST + "saving") for name in savings]
    all_names = [*STARTS, *savings, *first_savings]
    return [MINUTE, *all_names] if program == "C cache" else all_names  # its log has the pauses


def numbered(faults, command, is_first):
    """Returns the faults with the numbers of syncs and of openings of the folder."""
    before = 0 if is_first and STATE not in command else 1
    return faults.format(file=before + 1, folder=before + 2, folders=before or 2,
                         opened=1 if is_first else 2)


def text_of(number):
    """Returns a pattern of an error of the system in a log: its text, or in Node its name before
    another text."""
    return f"({os.strerror(number)}|{errno.errorcode[number]}: )"


class Saving:
    """A cache that saves next the data of the first serial number, if it is a first saving, or
    those of the second, after it served the first ones."""

    def __init__(self, cache, is_first):
        self.cache, self.is_first = cache, is_first
        self.serial = 1 if is_first else 2
        if not is_first:
            cache.wait_for_serial(1)
        cache.wait_for_line("(?i)No such file.*")  # then it has all its descriptors
        self.first_resources, self.routers = self.resources(), []

    def resources(self):
        """Returns the cache's numbers of descriptors and threads; None for rtr-cache, which starts
        processes and doesn't print its number of goroutines."""
        return None if self.cache.draws_session else self.cache.usual_resources()

    def connect_routers(self):
        """Connects two routers, which get the former data. Returns self."""
        for version in 2, 1:
            self.routers.append(Router(self.cache, version))
            self.expect_former(self.routers[-1])
        return self

    def expect_former(self, router):
        """Checks that a router gets the former data, or a report that there are none."""
        if self.is_first:
            router.ask_all()
            router.expect_no_data()
        else:
            expect_changes(router, DATA[1], DATA[1], 1, 1)

    def expect_former_of_all(self):
        """Checks that for all routers."""
        for router in self.routers:
            self.expect_former(router)

    def give_data(self):
        """Replaces the cache's file by the data."""
        self.cache.replace(content(self.serial, DATA[self.serial]))

    def expect_served(self):
        """Checks that the cache serves the data, and that routers get them."""
        self.cache.wait_for_serial(self.serial)
        for router in self.routers:
            if self.serial == 1:
                router.session = self.cache.session
                router.ask_all()
                router.expect_answer(1, DATA[1])
            else:
                expect_changes(router, DATA[self.serial - 1], DATA[self.serial], self.serial - 1,
                                self.serial)

    def save(self):
        """Gives the cache the data, and checks that it saves and then serves them."""
        before = saved_mark(self.cache)
        self.give_data()
        self.cache.wait_for_serial(self.serial)
        if saved_mark(self.cache) == before:
            raise Wrong(f"it serves serial {self.serial}, and hasn't saved it")
        self.expect_served()

    def save_next(self):
        """Does the same with the next data."""
        self.serial += 1
        self.save()

    def terminate(self):
        """Closes the routers, checks that the cache has its first numbers of descriptors and
        threads again, and ends it."""
        for router in self.routers:
            router.close()
        if self.first_resources:
            self.cache.wait_for_resources(self.first_resources, 1)
        self.cache.terminate()


def saved_mark(cache):
    """Returns what differs in another saved file, whose inode may be that of one before the last;
    nothing if there is none."""
    if not os.path.exists(cache.saved_path):
        return None
    found = os.stat(cache.saved_path)
    return found.st_ino, found.st_mtime_ns, found.st_ctime_ns


def expect_log(cache, number):
    """Checks that the cache logs why it can't save: a file, and the system's text."""
    cache.wait_for_line(rf"(?i)({NAMED}): {text_of(number)}.*")


def play_fault(saved, cache, is_first, number):
    """The next saving fails, or doesn't; the next try succeeds."""
    try:
        saving = Saving(cache, is_first).connect_routers()
        saving.save()
        if number:
            expect_log(cache, number)
        saved.check_restart(cache, (saving.serial,))
        saving.save_next()
        saved.check_restart(cache, (saving.serial,))
        saving.terminate()
    finally:
        cache.kill()


def play_injected(saved, cache, is_first, faults, number):
    """The same with faults that have to be injected."""
    play_fault(saved, cache, is_first, number)
    if faults and not cache.injected_faults():
        raise Wrong("the fault wasn't injected")


def play_full(saved, cache, is_first):
    """The same on a full disk."""
    os.symlink("/dev/full", cache.saved_path + BESIDE)
    play_fault(saved, cache, is_first, errno.ENOSPC)


def play_descriptors(saved, cache, is_first):
    """A process without descriptors says so, and serves the data before, or has one in reserve by
    which it saves; once it has descriptors it serves the data."""
    try:
        saving = Saving(cache, is_first).connect_routers()
        limits = cache.starve()
        saving.give_data()
        failure, success = text_of(errno.EMFILE), f"serial {saving.serial}: {len(DATA[1])}"
        cache.wait_until(lambda: re.search(f"(?i){failure}|{success}", cache.log_text()),
                         "it has tried")
        if success not in cache.log_text():
            saving.expect_former_of_all()
        cache.feed(limits)
        saving.expect_served()
        saved.check_restart(cache, (saving.serial,))
        saving.terminate()
    finally:
        cache.kill()


def failures(cache, number):
    """Returns how often the cache logged that a saving failed by this error. A cache in Go logs the
    same error once: then it is the number of injected faults."""
    logged = len(re.findall(rf"(?i)({NAMED}): {text_of(number)}", cache.log_text()))
    return len(cache.injected_faults()) if logged and os.path.exists(cache.state_path) else logged


def play_lasting(saved, cache, is_first, number, replaces):
    """All savings fail: routers get the former data, and no other file is left."""
    try:
        saving = Saving(cache, is_first)
        saving.give_data()
        cache.wait_until(lambda: failures(cache, number), "it logs the failure")
        saving.first_resources = saving.resources()  # in Rust also a thread that waits to retry
        saving.connect_routers()
        for count in 1, 2:
            cache.wait_until(lambda least=count: failures(cache, number) >= least, "it tries again")
            saving.expect_former_of_all()
        cache.wait_until(lambda: not os.path.exists(cache.saved_path + BESIDE),
                         "it removes its file")
        former = None if is_first else 1
        saved.check_restart(cache, (saving.serial if replaces else former,))
        saving.terminate()
    finally:
        cache.kill()


def play_minute(saved):
    """All savings fail: the pauses between them double, up to a minute."""
    cache = saved.start_saved("write:1:0:ENOSPC")
    try:
        cache.wait_for_serial(1)
        cache.replace(content(2, DATA[2]))
        for seconds in PAUSES:
            cache.wait_for_line(rf"trying again in {seconds} seconds?")
        cache.terminate()
    finally:
        cache.kill()


def play_start(saved, faults, number):
    """The cache can't read its file at a start, or sync the folder: it says why, and serves
    nothing. Its last run may have ended between the rename and the sync, and after a power cut the
    file would be an older one."""
    try:
        cache = saved.start_saved(faults)
    except Wrong:
        pass
    else:
        cache.kill()
        raise Wrong("it listens")
    with open(os.path.join(saved.folder, str(saved.count), "log"), encoding="utf-8") as log:
        log_text = log.read()
    if not re.search(f"(?i){text_of(number)}", log_text) or "serial 1" in log_text:
        raise Wrong(log_text)


def play_kills(saved, is_first):
    """The cache is killed at each call of a saving, until none is left."""
    count = 0
    is_killed = True
    at_start = 0 if is_first and not saved.draws_session else 1
    while is_killed:
        number = at_start + count + 1
        cache = start_cache(saved, is_first, f"save:{number}:{number}:KILL")
        try:
            saving = Saving(cache, is_first).connect_routers()
            saving.give_data()
            success = f"serial {saving.serial}: {len(DATA[1])}"
            deadline = time.monotonic() + TIMEOUT
            while cache.process.poll() is None and success not in cache.log_text():
                if time.monotonic() > deadline:
                    raise Wrong("it neither ended nor served the data")
                time.sleep(0.01)
            is_killed = cache.process.poll() == -signal.SIGKILL
            if is_killed != bool(cache.injected_faults()):
                raise Wrong(f"its status is {cache.process.poll()}")
            former = None if is_first else 1
            saved.check_restart(cache, (former, saving.serial) if is_killed else (saving.serial,))
            count += is_killed
        finally:
            cache.kill()
    if count < LEAST_CALLS:
        raise Wrong(f"it was killed at {count} calls")


def start_cache(saved, is_first, faults):
    """Starts a cache that saves with these faults."""
    return saved.start_empty(faults) if is_first else saved.start_saved(faults)


def play_savings(saved, command, name, is_first):
    """Plays the savings of this name."""
    if name == KILLS:
        play_kills(saved, is_first)
    elif name == FULL:
        play_full(saved, start_cache(saved, is_first, ""), is_first)
    elif name == DESCRIPTORS:
        play_descriptors(saved, start_cache(saved, is_first, ""), is_first)
    elif name in READ_ONLY:
        faults, has_beside = READ_ONLY[name]
        cache = (saved.start_beside_partial(faults, not is_first) if has_beside
                 else start_cache(saved, is_first, faults))
        play_injected(saved, cache, is_first, faults, errno.EROFS)
    elif name in LASTING:
        faults, number, replaces = LASTING[name]
        faults = numbered(faults, command, is_first)
        play_lasting(saved, start_cache(saved, is_first, faults), is_first, number, replaces)
    else:
        faults, number = FAULTS[name]
        faults = numbered(faults, command, is_first)
        play_injected(saved, start_cache(saved, is_first, faults), is_first, faults, number)


def play(command, name, library, folder):
    """Plays a cache with the faults of this name. Returns a text of what was wrong, or None."""
    try:
        saved = Saved(command, library, folder)
        if name in STARTS:
            play_start(saved, *STARTS[name])
        elif name == MINUTE:
            play_minute(saved)
        else:
            play_savings(saved, command, name.replace(FIRST, ""), FIRST in name)
    except (Wrong, Lost, OSError) as error:
        return f"{error!r}"
    return None
