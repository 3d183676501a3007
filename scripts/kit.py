"""The toolchain's command `rt`, as a module."""
import importlib.machinery
import importlib.util
import shutil
import sys
from pathlib import Path
from types import ModuleType


def rt() -> ModuleType:
    """Returns the module of the command `rt` on the path.

    Its `main` takes the arguments of a command line, and its `rtlib` knows the crates. Ends this
    script if there is no such command.
    """
    path = shutil.which("rt")
    if path is None:
        sys.exit("the toolchain's rt is not installed: without it nothing can be proved or built")
    loader = importlib.machinery.SourceFileLoader("rt_of_the_kit", str(Path(path).resolve()))
    spec = importlib.util.spec_from_loader(loader.name, loader)
    assert spec is not None
    module = importlib.util.module_from_spec(spec)
    sys.modules[loader.name] = module
    loader.exec_module(module)
    return module
