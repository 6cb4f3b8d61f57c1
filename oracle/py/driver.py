"""Questions to the driver, and sets as lists of (variable, low, high)."""
import pathlib
import resource
import subprocess
import sys

PROGRAM = pathlib.Path(__file__).resolve().parent.parent / "target" / "release" / "oracle"
LINE_SECONDS = 3
LINE_MEMORY = 600_000_000


class Driver:
    """One running driver, asked line by line."""

    def __init__(self):
        if not PROGRAM.is_file():
            sys.exit("oracle: missing: oracle/target/release/oracle. Run oracle/build first")
        self.process = subprocess.Popen(
            [PROGRAM], stdin=subprocess.PIPE, stdout=subprocess.PIPE, text=True, bufsize=1
        )

    def ask(self, *words):
        self.process.stdin.write(" ".join(str(word) for word in words) + "\n")
        return self.process.stdout.readline().rstrip("\n")

    def set(self, *words):
        return entries(self.ask(*words))


def ask_alone(line):
    """A job that may never end gets a process of its own, with time and memory bounded."""
    bound = lambda: resource.setrlimit(resource.RLIMIT_AS, (LINE_MEMORY, LINE_MEMORY))
    try:
        done = subprocess.run(
            [PROGRAM], input=line + "\n", capture_output=True, text=True,
            timeout=LINE_SECONDS, preexec_fn=bound,
        )
    except subprocess.TimeoutExpired:
        return "no end"
    if "memory allocation" in done.stderr:
        return "no end"
    return done.stdout.rstrip("\n")


def entries(text):
    return [tuple(int(item) for item in piece.split(",")) for piece in text.split("|") if piece]


def text(entries):
    return "|" + "".join("%d,%d,%d|" % entry for entry in entries)
