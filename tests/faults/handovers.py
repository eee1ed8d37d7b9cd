"""Runs a cache over the file that a cache of another language saved: it serves the same session,
serial number and data, a router that holds the earlier serial number gets the changes since, and
later data follow."""
from cache import STATE, Lost
from caches import content
from saved import DATA, Saved, read
from units import Wrong

FILE_OF = "a start after "  # before the program that saved the file, in the name of a run
COMMANDS = {}  # the commands of caches that save, by their programs


def writer_of(name):
    """Returns the program that saved the file in a run of this name."""
    return name.replace(FILE_OF, "")


def names(program):
    """Returns the names of the runs of a cache, beside those that were built."""
    return [FILE_OF + writer for writer in COMMANDS if writer != program]


def write(saved):
    """Lets a cache serve the second data after the first; returns what it saved, and its
    session."""
    cache = saved.start_saved("")
    try:
        cache.wait_for_serial(1)
        cache.replace(content(2, DATA[2]))
        cache.wait_for_serial(2)
        cache.terminate()
        return read(cache.saved_path), cache.session
    finally:
        cache.kill()


def play(command, name, library, folder):
    """Plays a cache over the file. Returns a text of what was wrong, or None."""
    try:
        saved = Saved(COMMANDS[writer_of(name)], library, folder)
        written, session = write(saved)
        saved.command, saved.draws_session = command, STATE in command
        saved.check_start_over(written, None, 2, session)
    except (Wrong, Lost, OSError) as error:
        return f"{error!r}"
    return None
