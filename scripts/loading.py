"""Scripts of this folder, which have no ending, as modules: `from loading import script`."""
import importlib.machinery
import importlib.util
import pathlib
import sys


def script(name):
    """A script of this folder as a module."""
    loader = importlib.machinery.SourceFileLoader(name, str(pathlib.Path(__file__).resolve().parent / name))
    module = importlib.util.module_from_spec(importlib.util.spec_from_loader(name, loader))
    sys.modules[name] = module
    loader.exec_module(module)
    return module
