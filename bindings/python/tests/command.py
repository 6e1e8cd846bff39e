"""Runs the command: the one that QORSHUDAN_COMMAND names, or that of the module."""

import os
import subprocess
import sys

NAMED = os.environ.get("QORSHUDAN_COMMAND")
COMMAND = [NAMED] if NAMED else [sys.executable, "-m", "qorshudan"]


def run(*arguments, given=b"", **options):
    """The exit status, and what it says on standard output and on standard error."""
    words = [one if isinstance(one, bytes) else os.fsencode(one) for one in arguments]
    done = subprocess.run(COMMAND + words, input=given, capture_output=True, timeout=60, **options)
    out, err = done.stdout.decode("ascii"), done.stderr.decode("utf-8", "replace")
    if "Traceback" in err or "Exception" in err:
        raise AssertionError(f"{arguments}: {err}")
    return done.returncode, out, err
