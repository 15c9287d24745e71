"""What tools/prove and tools/try-script share: how far a build is, and the room that it needs."""
import os
import sys
import tempfile
import time
from contextlib import suppress

# How many bytes of room a build takes at most for temporary files.
ROOM = 40_000_000
# After so many seconds without a word a build tells how far it is.
SILENCE = 10


def lack_of_room(folder: str) -> str:
    """Why temporary files have no room in a folder; nothing where they have."""
    try:
        room = os.statvfs(folder)
        free = room.f_bavail * room.f_frsize
        if free < ROOM:
            return f"{folder} has {free / 1e6:.0f} MB of room, and {ROOM / 1e6:.0f} are needed: TMPDIR names another folder"
        with tempfile.TemporaryFile(dir=folder):
            return ""
    except OSError as error:
        return f"{folder}: {error.strerror}: TMPDIR names another folder"


class Progress:
    """What a command says on standard error, where there is one: lines that stay, and lines on how far it is, of which a terminal keeps
    the last alone, until another line comes."""

    def __init__(self):
        self.begun = time.monotonic()
        self.is_shown = False

    def time(self) -> str:
        """How long it has run, in minutes and seconds."""
        seconds = int(time.monotonic() - self.begun)
        return f"{seconds // 60}:{seconds % 60:02}"

    def write(self, text: str) -> None:
        """Writes a text after taking back a line that doesn't stay."""
        with suppress(OSError, AttributeError):
            sys.stderr.write("\r\033[K" * self.is_shown + text)
            sys.stderr.flush()
        self.is_shown = False

    def clear(self) -> None:
        """Takes back a line that doesn't stay."""
        if self.is_shown:
            self.write("")

    def say(self, text: str) -> None:
        """Says a line."""
        self.write(f"{text}\n")

    def tell(self, text: str) -> None:
        """Tells how far it is."""
        is_terminal = os.isatty(2)
        self.write(text if is_terminal else f"{text}\n")
        self.is_shown = is_terminal


def processes() -> dict:
    """The parent of each process, and how many seconds of processors it has taken, with its children that have ended."""
    found = {}
    for number in filter(str.isdigit, os.listdir("/proc")):
        with suppress(OSError), open(f"/proc/{number}/stat", encoding="utf-8", errors="replace") as stat:
            fields = stat.read().rpartition(")")[2].split()
            found[int(number)] = int(fields[1]), sum(map(int, fields[11:15])) / os.sysconf("SC_CLK_TCK")
    return found


def seconds_of_processors() -> float:
    """How many seconds of processors all that this process has started, and that still runs, has taken."""
    found, below = processes(), {os.getpid()}
    for _ in found:
        more = below | {number for number, (parent, _) in found.items() if parent in below}
        if more == below:
            break
        below = more
    return sum(found[number][1] for number in below - {os.getpid()})
