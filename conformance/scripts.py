"""Scripts of this folder as modules: their names have no ending, so that Python doesn't find them."""
from __future__ import annotations

import importlib.machinery
import importlib.util
import os
import sys
from types import ModuleType

HERE = os.path.dirname(os.path.abspath(__file__))


def script(name: str) -> ModuleType:
    """A script of this folder, which isn't run."""
    loader = importlib.machinery.SourceFileLoader(name, os.path.join(HERE, name))
    sys.dont_write_bytecode = True
    module = importlib.util.module_from_spec(importlib.util.spec_from_loader(name, loader))
    loader.exec_module(module)
    return module
