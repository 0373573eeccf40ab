"""Builds the two extensions, each with its proved library inside. Nothing is left in this folder.

The libraries are those of the environment variables DAGCBOR_LIBRARY and DAGCBOR_MEMORY_LIBRARY; else
those that a release has in lib/ and include/; else those of this repository. If these are not there
and the toolchain's `rt` is, they are proved and built first.

A wheel says which glibc it needs (manylinux): the newest one whose symbols a library or the program in
it uses.

The program `dagstore` goes beside the modules: the one of the environment variable DAGSTORE, else one
that a release has in lib/, else one that is built in this repository. Without one, whoever opens a
store has to name it."""

import os
import platform
import re
import shutil
import subprocess
import sys
import sysconfig
import tempfile

from setuptools import Distribution, Extension, setup
from setuptools.command.build_py import build_py
from setuptools.errors import ModuleError

HERE = os.path.dirname(os.path.abspath(__file__))
CALLERS = os.path.dirname(HERE)
CRATES = os.path.join(os.path.dirname(CALLERS), "crates")
CRATE_NAMES = ("dagcbor_ffi", "dagcbor_memory_ffi")


def wheel_command():
    """The command that makes wheels. It refuses a setuptools that makes none, before anything is proved for one."""
    try:
        return tagging(Distribution().get_command_class("bdist_wheel"))
    except ModuleError:
        sys.exit("dagcbor: this Python's setuptools makes no wheels: 70.1 does, or an older one with the package `wheel`")


def library(crate, variable):
    """The path of a crate's library."""
    carried = os.path.join(HERE, "lib", platform.machine(), f"lib{crate}.a")
    named = os.environ.get(variable) or (carried if os.path.exists(carried) else None)
    path = named or os.path.join(CRATES, crate, "out", f"lib{crate}.a")
    if not os.path.exists(path) and not named and shutil.which("rt"):
        print(f"dagcbor: proving and building {crate}: some minutes", file=sys.stderr)
        folder = os.path.join(CRATES, crate)
        subprocess.run(["rt", "lib"], cwd=folder, stdin=subprocess.DEVNULL, check=True)
    if not os.path.exists(path):
        sys.exit(f"dagcbor: there is no {path}: `rt lib` in crates/{crate} makes it")
    return os.path.abspath(path)


def program():
    """Returns the path of the program `dagstore` for the target processor, or None."""
    machine = sysconfig.get_platform().partition("-")[2]
    found = [os.path.join(HERE, "lib", machine, "dagstore")]
    if machine == platform.machine():
        found = [os.environ.get("DAGSTORE"), *found, os.path.join(CRATES, "dagstore", "out", "dagstore")]
    return next((os.path.abspath(it) for it in found if it and os.path.exists(it)), None)


class WithProgram(build_py):
    """Puts the program beside the modules, if there is one."""

    def run(self):
        super().run()
        path = program()
        if path:
            into = os.path.join(self.build_lib, "dagcbor", "dagstore")
            shutil.copyfile(path, into)
            os.chmod(into, 0o755)


def newest_glibc(folder):
    """Returns the newest glibc whose symbols a file below the folder uses: the parts of its number, or None."""
    paths = [os.path.join(at, name) for at, _, names in os.walk(folder) for name in names]
    found = set()
    for path in paths:
        with open(path, "rb") as file:
            found.update(re.findall(rb"\0GLIBC_(\d+)\.(\d+)", file.read()))
    return max((tuple(map(int, it)) for it in found), default=None)


def tagging(kind):
    """The command that makes wheels, with its own tag of the platform."""

    class Tagging(kind):
        def get_tag(self):
            language, abi, platform_tag = super().get_tag()
            newest = newest_glibc(self.get_finalized_command("build").build_lib)
            if newest and platform_tag.startswith("linux_"):
                platform_tag = "manylinux_{}_{}_{}".format(*newest, platform_tag.removeprefix("linux_"))
            return language, abi, platform_tag

    return Tagging


def extension(name, crate, variable, sources):
    """An extension over a crate's library. It exports nothing of it, so what two libraries share is there twice."""
    return Extension(
        name,
        sources=sources,
        include_dirs=["include", *(os.path.join(CRATES, it, "include") for it in CRATE_NAMES), os.path.join(CALLERS, "c")],
        extra_objects=[library(crate, variable)],
        extra_compile_args=["-std=c11", "-Wall", "-Wextra", "-fvisibility=hidden"],
        extra_link_args=["-Wl,--exclude-libs,ALL"],
        py_limited_api=True,
    )


os.chdir(HERE)
tagged = wheel_command()
made = tempfile.TemporaryDirectory(prefix="dagcbor-")  # it is there until this process ends
setup(
    packages=["dagcbor"],
    package_dir={"": "src"},
    package_data={"dagcbor": ["*.pyi", "py.typed"]},
    ext_modules=[
        extension("dagcbor._native", "dagcbor_ffi", "DAGCBOR_LIBRARY", ["src/_native.c", "src/_car.c"]),
        extension("dagcbor._native_memory", "dagcbor_memory_ffi", "DAGCBOR_MEMORY_LIBRARY", ["src/_native_memory.c"]),
    ],
    cmdclass={"build_py": WithProgram, "bdist_wheel": tagged},
    zip_safe=False,
    options={
        "bdist_wheel": {"py_limited_api": "cp311"},
        "build": {"build_base": made.name},
        "egg_info": {"egg_base": made.name},
    },
)
