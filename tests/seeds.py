"""The seeds of the gate's simulations: one that stays, and one that is another after each change of
what they run, so that a run of the same sources takes the same steps."""
import pathlib
import shutil
import subprocess

TOP = pathlib.Path(__file__).resolve().parent.parent

STAYS = 1


def seeds(folder):
    """Returns two seeds, the second from what git has of a folder; one, where there is no git."""
    if not shutil.which("git"):
        return (STAYS,)
    named = subprocess.run(["git", "-C", TOP, "rev-parse", f"HEAD:{folder}"],
                           stdout=subprocess.PIPE, stderr=subprocess.DEVNULL, text=True)
    if named.returncode:
        return (STAYS,)
    return STAYS, int(named.stdout[:8], 16)
