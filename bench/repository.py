"""The crates of the repository, as crates.txt lists them, and its scripts."""

import re
import sys
from importlib.machinery import ModuleSpec, SourceFileLoader
from importlib.util import module_from_spec
from types import ModuleType

from bench.program import TOP


def dependencies(text: str) -> dict[str, list[str]]:
    """The crates of a list of crates, each with those that it stands on."""
    return {crate: rest.split() for crate, rest in re.findall(r"^(\w+):(.*)$", text, re.MULTILINE)}


def script(path: str) -> ModuleType:
    """A script of the repository, whose name has no ending, as a module."""
    loader = SourceFileLoader(path.replace("/", "_"), str(TOP / path))
    module = sys.modules[loader.name] = module_from_spec(ModuleSpec(loader.name, loader, origin=loader.path))
    module.__file__ = loader.path
    loader.exec_module(module)
    return module
