"""Builds the module in C over the library below HOT_DIR, or in the package that this
lies in, or where the compiler finds it. An archive becomes part of the module."""

import os
from pathlib import Path
from tempfile import TemporaryDirectory

from setuptools import Extension, setup

HERE = Path(__file__).resolve().parent


def library() -> dict[str, list[str]]:
    """What the compiler is told of hot.h and libhot."""
    # PACKAGE/share/hot/bindings/python
    at = Path(os.environ.get("HOT_DIR") or HERE / "../../../..")
    archive = at / "lib" / "libhot.a"
    if archive.exists():
        return {"include_dirs": [str(at / "include")], "extra_objects": [str(archive)]}
    if os.environ.get("HOT_DIR"):
        hint = "" if at.is_absolute() else ": begin it with /, as pip builds elsewhere"
        raise SystemExit(f"hot: HOT_DIR={at} has no lib/libhot.a{hint}")
    return {"libraries": ["hot"]}


module = Extension(
    "hot._hot",
    sorted(str(file.relative_to(HERE)) for file in HERE.glob("native/*.c")),
    extra_compile_args=["-std=c11", "-fvisibility=hidden"],
    extra_link_args=["-Wl,--exclude-libs,ALL", "-pthread"],
    py_limited_api=True,
    **library(),
)
# It is compiled anew each time, apart from the sources: what an earlier build left may
# have another library in it.
with TemporaryDirectory(prefix="hot-") as room:
    setup(
        ext_modules=[module],
        options={
            "bdist_wheel": {"py_limited_api": "cp310"},
            "build": {"build_base": room},
            "build_ext": {"force": True},
        },
    )
