"""Programs that are a client or a cache, connected by lines (README.md)."""
import os
import subprocess

NEVER = 2**63


class End:
    """A running end, with a clock of its own, which starts with each scene."""

    def __init__(self, command, folder):
        read, write = os.pipe()
        # The tests of Rust also print lines of their own on standard output.
        output = subprocess.DEVNULL if "--exact" in command else write
        self.process = subprocess.Popen(
            command, stdin=subprocess.PIPE, stdout=output, cwd=folder, pass_fds=[write],
            env={**os.environ, "RTR_JOINED": f"/dev/fd/{write}"})
        os.close(write)
        self.input, self.output = self.process.stdin.fileno(), os.fdopen(read, "rb")
        self.begun, self.wakes, self.settings = 0, NEVER, ""

    def begin(self, now, settings):
        """Begins a scene of these lines, at this time."""
        self.begun, self.wakes = now, NEVER
        self.settings = "".join(["scene joined\n", *(f"{line}\n" for line in settings)])

    def tell(self, now, what):
        """Reports an event to the end at this time. Returns what it did then, or before by itself:
        each time, and words."""
        at = now - self.begun
        line = f"{at} {what}\n" if what else f"at {at}\n"
        os.write(self.input, (self.settings + line).encode())
        self.settings = ""
        did = []
        for answer in self.output:
            words = answer.decode().split()
            if words[0] == "wakes":
                self.wakes = min(self.begun + int(words[1]), NEVER)
                return did
            did.append((self.begun + int(words[0]), words[1:]))
        raise EOFError(f"it ended, with status {self.process.wait()}")

    def write(self, lines):
        """Writes lines of scenes, and ends the input. Blocks while nobody reads the answers."""
        try:
            with self.process.stdin as input_:
                input_.write(lines.encode())
        except BrokenPipeError:
            pass  # it stopped, as its output shows

    def end(self):
        """Ends the input, if nothing else did. Returns its status."""
        self.process.stdin.close()
        self.output.close()
        return self.process.wait()
