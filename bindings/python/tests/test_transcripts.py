"""The scenes of tests/transcripts, played by a Router and a Server with a simulated clock."""
import os
import subprocess
import sys
import unittest

from . import PACKAGE, rows

PLAY = rows.TESTS / "transcripts" / "play.py"


class Transcripts(unittest.TestCase):
    """Both ends take the steps of the scenes."""

    def play(self, end):
        paths = os.pathsep.join((str(PACKAGE), os.environ["PYTHONPATH"]))
        program = [sys.executable, "-m", f"tests.{end}_end"]
        subprocess.run([sys.executable, PLAY, end, *program], check=True,
                       env={**os.environ, "PYTHONPATH": paths})

    def test_scenes_of_a_router(self):
        self.play("router")

    def test_scenes_of_a_cache(self):
        self.play("cache")


if __name__ == "__main__":
    unittest.main()
