"""Builds the package by setuptools, for pip: by that of the system where there is one, so that no network is needed;
else pip fetches it. It builds in a copy, and leaves nothing in the checkout."""
import importlib.util
import os
import shutil
import site
import sys
import tempfile

# Python has just compiled this file; that is not left either.
shutil.rmtree(f"{os.path.dirname(os.path.abspath(__file__))}/__pycache__", ignore_errors=True)
# pip builds without the packages of the system. They go last, so that what pip fetched is used first.
sys.path += [it for it in site.getsitepackages() if it not in sys.path and os.path.isdir(it)]


def get_requires_for_build_wheel(config_settings=None):
    """What pip has to fetch: nothing that the system has. Since 70.1 setuptools needs no `wheel`."""
    if not importlib.util.find_spec("setuptools"):
        return ["setuptools>=70.1"]
    import setuptools
    needs_wheel = tuple(map(int, setuptools.__version__.split(".")[:2])) < (70, 1)
    return ["wheel"] if needs_wheel and not importlib.util.find_spec("wheel") else []


get_requires_for_build_sdist = get_requires_for_build_editable = get_requires_for_build_wheel


def build_in_a_copy(build, folder):
    """What a hook of setuptools makes into a folder, from a copy of the sources."""
    folder, here = os.path.abspath(folder), os.getcwd()
    with tempfile.TemporaryDirectory(prefix="caladan-lab-") as work:
        os.chdir(shutil.copytree(here, f"{work}/lab", ignore=shutil.ignore_patterns("__pycache__", "tests")))
        try:
            return build(folder)
        finally:
            os.chdir(here)


def build_wheel(wheel_directory, config_settings=None, metadata_directory=None):
    """A wheel of the package."""
    from setuptools import build_meta
    return build_in_a_copy(build_meta.build_wheel, wheel_directory)


def build_sdist(sdist_directory, config_settings=None):
    """The sources of the package."""
    from setuptools import build_meta
    return build_in_a_copy(build_meta.build_sdist, sdist_directory)


def build_editable(wheel_directory, config_settings=None, metadata_directory=None):
    """A wheel that names the sources where they stand."""
    from setuptools import build_meta
    return build_meta.build_editable(wheel_directory, config_settings)
