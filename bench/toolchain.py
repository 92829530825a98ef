"""The toolchain's own modules, for the scripts that do what no command of it does."""
import importlib.util
import os
import shutil
import sys
from importlib.machinery import SourceFileLoader


def module(name):
    """The module `rt` (the gate, and how work is shared) or `rtlib` (a crate and its libraries)."""
    sys.dont_write_bytecode = True
    folder = os.path.dirname(os.path.realpath(shutil.which("rt")))
    file = "rt" if name == "rt" else f"{name}.py"
    loader = SourceFileLoader(name, os.path.join(folder, file))
    made = importlib.util.module_from_spec(importlib.util.spec_from_loader(name, loader))
    sys.modules[name] = made
    loader.exec_module(made)
    return made
