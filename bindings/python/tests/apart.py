"""Runs code in a process of its own, which ends in time and well: nothing in it hangs,
and no memory is broken."""

import subprocess
import sys
import textwrap

LONGEST = 600


def run_apart(code, *words, **options):
    """Runs the code, and returns what it prints. It fails where the code does."""
    program = [sys.executable, "-c", textwrap.dedent(code), *words]
    done = subprocess.run(
        program, capture_output=True, text=True, timeout=LONGEST, **options
    )
    if done.returncode:
        raise AssertionError(f"status {done.returncode}: {done.stderr}")
    return done.stdout
