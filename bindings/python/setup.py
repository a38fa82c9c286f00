"""A wheel that holds the library is for this kind of machine, and for every Python 3 there; one without is for all."""
import os

from setuptools import Distribution, setup

try:
    from setuptools.command.bdist_wheel import bdist_wheel
except ImportError:
    from wheel.bdist_wheel import bdist_wheel

HOLDS_LIBRARY = os.path.exists(os.path.join(os.path.dirname(os.path.abspath(__file__)), "ark_poly", "libark_poly.so"))


class Package(Distribution):
    def has_ext_modules(self):
        return HOLDS_LIBRARY


class Wheel(bdist_wheel):
    def get_tag(self):
        python, abi, platform = super().get_tag()
        return ("py3", "none", platform) if HOLDS_LIBRARY else (python, abi, platform)


setup(distclass=Package, cmdclass={"bdist_wheel": Wheel})
