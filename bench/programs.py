"""Programs of this checkout as modules."""

import importlib.machinery
import importlib.util


def loaded(path):
    """A Python program, whose name has no ending, as a module."""
    loader = importlib.machinery.SourceFileLoader(path.name.replace("-", "_"), str(path))
    module = importlib.util.module_from_spec(importlib.util.spec_from_loader(loader.name, loader))
    loader.exec_module(module)
    return module
