"""What the scripts that refuse allocations share: the allocator that refuses, and a run with it."""

import os
import shutil
import subprocess
import sys
import tempfile

from running import TOP, run


def build_refuser(folder):
    """Compiles the allocator that refuses. Returns the path of its library."""
    compiler = shutil.which("cc")
    if compiler is None:
        sys.exit("there is no C compiler (cc), without which no allocation can be refused")
    target = os.path.join(folder, "refuse.so")
    source = os.path.join(TOP, "checks/refuse.c")
    subprocess.run([compiler, "-shared", "-fPIC", "-O1", "-ffreestanding", "-o", target, source], check=True)
    return target


def refused_run(program, refuser, words, given, first, last):
    """A run of which the allocations from `first` to `last` are refused, and how many were."""
    with tempfile.TemporaryFile() as log:
        at = log.fileno()
        refusal = {"REFUSE_FROM": str(first), "REFUSE_LAST": str(last), "REFUSE_TOLD": str(at)}
        ended = run(program, words, given, env={"LD_PRELOAD": refuser, **refusal}, pass_fds=[at])
        return ended, os.fstat(at).st_size
