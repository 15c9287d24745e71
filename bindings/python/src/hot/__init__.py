"""A sorted map that threads use at the same time, over libhot by a module in C."""

try:
    from . import _hot as _hot
except ModuleNotFoundError as error:
    why = "the module in C is not built for this Python, which pip install does"
    raise ImportError(f"{why}; a Python without the GIL has none") from error

from . import _forks
from ._errors import FullError, HotError, LoadError
from ._hot import key_of, library_version
from .codec import Codec, values_of
from .sortedmap import SortedMap, Stats

__all__ = [
    "Codec",
    "FullError",
    "HotError",
    "LoadError",
    "SortedMap",
    "Stats",
    "key_of",
    "library_version",
    "values_of",
]

# The package's own version, which is that of the library whose sources it comes with.
__version__ = "3.1.0"

_forks.watch()
