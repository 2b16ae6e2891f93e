"""What the tests share that build hosts over the static library: its archive, a C compiler and an emulator.

The library is for x86-64. On another machine, where HOSTS_ARCHIVE has to name one that was built elsewhere, a cross compiler and
an emulator are installed from Debian's packages.
"""
import os
import platform
import shutil
import subprocess
import sys

from helpers.replaying import ROOT, TESTS

HOSTS = os.path.join(ROOT, "hosts")
HEADER = os.path.join(ROOT, "include", "fenomirask.h")
TARGET = os.path.join(ROOT, "target", "hosts")
NATIVE = platform.machine() == "x86_64"
LIBRARY = "fenomirask_c"
CROSS = "x86_64-linux-gnu-"
EMULATOR = "qemu-x86_64-static"
CROSS_LIBRARIES = "/usr/x86_64-linux-gnu"
CROSS_PACKAGES = ["gcc-x86-64-linux-gnu", "libc6-dev-amd64-cross", "qemu-user-static"]
STRICT = ["-Wall", "-Wextra", "-Wpedantic", "-Werror"]


def run(words, data=b"", **options):
    """A finished command, its two outputs as one."""
    return subprocess.run(words, input=data, stdout=subprocess.PIPE, stderr=subprocess.STDOUT, check=False, **options)


def archive():
    """Puts the archive into the target folder: the one that HOSTS_ARCHIVE names, or one that is built."""
    named = os.environ.get("HOSTS_ARCHIVE")
    if not named:
        subprocess.run([os.path.join(TESTS, "build"), LIBRARY], check=True)
        named = os.path.join(ROOT, "target", "staticlib", "libfenomirask.a")
    os.makedirs(TARGET, exist_ok=True)
    return shutil.copy(named, os.path.join(TARGET, "libfenomirask.a"))


def compiler():
    """The C compiler for x86-64, installed, with the emulator, where it is missing."""
    if NATIVE:
        return "cc"
    reading = [CROSS + "gcc", "-E", "-x", "c", "-"]
    if not shutil.which(EMULATOR) or not shutil.which(reading[0]) or run(reading, b"#include <stdint.h>\n").returncode:
        subprocess.run(["apt-get", "update"], check=True)
        subprocess.run(["apt-get", "install", "--yes", "--no-install-recommends", *CROSS_PACKAGES], check=True)
    return CROSS + "gcc"


def emulator():
    """The words that run a program for x86-64: Debian's emulator, or none."""
    return [] if NATIVE else [EMULATOR, "-L", CROSS_LIBRARIES]


def build_c(c, source, library, path):
    """Builds a C host with a compiler; the finished command."""
    flags = ["-std=c99", "-O2", "-g", *STRICT, "-I", os.path.dirname(HEADER)]
    return run([c, *flags, source, library, "-pthread", "-o", path])


def built_host(name):
    """Builds a C host of the folder `hosts`; the words that run it."""
    path = os.path.join(TARGET, name)
    done = build_c(compiler(), os.path.join(HOSTS, name + ".c"), archive(), path)
    if done.returncode:
        sys.exit(f"{name}.c is not built:\n{done.stdout.decode()}")
    return [*emulator(), path]
