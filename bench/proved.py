"""The proved program, for the scripts that measure, kill or compare it."""
import os
import subprocess
import sys

TOP = os.path.dirname(os.path.dirname(os.path.abspath(__file__)))


def proved_program():
    """Where it stands, if `./onll` takes it as proved from the sources that are there; else the script ends with what `./onll` says."""
    asked = subprocess.run([os.path.join(TOP, "onll")], env={**os.environ, "ONLL": "proved"}, capture_output=True)
    if asked.returncode == 125:
        sys.exit(asked.stderr.decode().strip())
    return os.path.join(TOP, "crates", "onll_main", "out", "onll_main")
