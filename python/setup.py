"""The wheel is for one kind of machine, which HIVE_MACHINE names as uname -m does, and there for every Python 3 and every C library of Linux: the shared library asks only for memcpy, memmove and memset."""
import os
import platform

from setuptools import Distribution, setup
from wheel.bdist_wheel import bdist_wheel


class ForOneMachine(bdist_wheel):
    def get_tag(self):
        machine = os.environ.get("HIVE_MACHINE") or platform.machine()
        return "py3", "none", f"manylinux2014_{machine}.musllinux_1_1_{machine}"


class WithLibrary(Distribution):
    def has_ext_modules(self):
        return True


setup(cmdclass={"bdist_wheel": ForOneMachine}, distclass=WithLibrary)
