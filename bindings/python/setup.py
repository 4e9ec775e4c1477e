"""The wheel holds the shared library of one platform, and code for each Python 3; the rest is in pyproject.toml."""
import setuptools


class Platform(setuptools.Distribution):
    def has_ext_modules(self):
        return True


class Wheel(Platform().get_command_class("bdist_wheel")):
    def get_tag(self):
        return "py3", "none", super().get_tag()[2]


setuptools.setup(distclass=Platform, cmdclass={"bdist_wheel": Wheel})
