"""Runs of a program by a shell, with redirections."""
import os
import subprocess
import tempfile

# The time limit of a run in seconds.
SECONDS = 60


def run(program, arguments, redirection, given, files=None):
    """Returns the output, standard error and status of the program, with this standard input. Where
    there are files, by their names, it runs in a folder that has them."""
    words = ["sh", "-c", f'exec "$0" "$@" {redirection}', program, *arguments]
    with tempfile.TemporaryDirectory() as folder:
        for name, content in (files or {}).items():
            with open(os.path.join(folder, name), "wb") as file:
                file.write(content)
        done = subprocess.run(words, input=given, capture_output=True, timeout=SECONDS,
                              cwd=folder if files else None)
    return done.stdout, done.stderr.decode(), done.returncode
