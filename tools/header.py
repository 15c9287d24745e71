"""The calls that c/hot.h declares: for tools/calls and tools/manual."""
import re
from pathlib import Path

HEADER = (Path(__file__).resolve().parent.parent / "c/hot.h").read_text()


def calls(declared: str = HEADER) -> dict:
    """The parameters of the calls that a text declares, by their names."""
    return dict(re.findall(r"^(?!typedef )\w[\w ]*[ *](hot_\w+)\(([^;]*)\);", declared, re.M))
