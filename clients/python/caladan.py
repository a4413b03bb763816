#!/usr/bin/env python3
"""For a version more: this module is caladan.core, of the package `caladan` (lab/README.md). Imported, it is that package;
as a program, `caladan.py LIBRARY [audit|guard] < INPUT`, it is `python3 -m caladan.core` with the same words."""
import importlib.util
import os
import sys

# Where the package stands in a checkout, in a prefix and in Debian, below one of the folders above this file.
PLACES = ("lab/src", "share/caladan/python", "lib/python3/dist-packages")


def folder_of_package():
    """The folder of the package: the nearest above this file."""
    above = os.path.dirname(os.path.realpath(__file__))
    while above != os.path.dirname(above):
        above = os.path.dirname(above)
        for it in PLACES:
            if os.path.isfile(f"{above}/{it}/caladan/core/__init__.py"):
                return f"{above}/{it}/caladan"
    raise ImportError("there is no package caladan beside this file: install python3-caladan, or pip install ./lab")


def load():
    """Loads the package in the place of this module."""
    folder = folder_of_package()
    spec = importlib.util.spec_from_file_location("caladan", f"{folder}/__init__.py",
                                                  submodule_search_locations=[folder])
    package = importlib.util.module_from_spec(spec)
    sys.modules["caladan"] = package
    spec.loader.exec_module(package)


load()
if __name__ == "__main__":
    from caladan.core.command import main
    sys.exit(main())
