"""Libraries in C that stand before the C library: sources of `trials/`, compiled for a trial."""
import os
import shutil
import subprocess

TRIALS = os.path.dirname(os.path.dirname(os.path.abspath(__file__)))


def compiled(folder, name):
    """The library that is made in a folder from the source of this name."""
    made = os.path.join(folder, name + ".so")
    compiler = shutil.which("cc") or shutil.which("clang") or "cc"
    source = os.path.join(TRIALS, name + ".c")
    subprocess.run([compiler, "-shared", "-fPIC", "-O1", "-o", made, source], check=True)
    return made
