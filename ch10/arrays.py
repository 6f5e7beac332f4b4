"""numpy, which is read where something of it is first asked for: help, and questions to a catalogue, begin in a third of the time
without it."""
from __future__ import annotations

from typing import Any

from .standard import Wrong

Foreign = Any  # what libraries without types give: modules, files, groups, frames
Array = Foreign  # of numpy


class Later:
    """A module that is read when it is first asked for."""

    def __init__(self, name: str, package: str) -> None:
        self.__dict__.update(_name=name, _package=package)

    def __getattr__(self, name: str) -> Foreign:
        from importlib import import_module
        try:
            found = getattr(import_module(self._name), name)
        except ImportError:
            raise Wrong('%s is not installed: apt-get install %s' % (self._name, self._package))
        self.__dict__[name] = found
        return found


numpy: Foreign = Later('numpy', 'python3-numpy')
