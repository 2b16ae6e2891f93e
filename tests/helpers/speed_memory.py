"""What a program holds in memory, for tests/speed.

A program's output goes into a pipe that is full, so that it waits at its first write: the sheet is answered then, and all
memory that was touched is still held, since nothing is given back. What it holds is counted by the kernel over its
pages (`Rss` of /proc/PID/smaps_rollup), at that moment. The program that does nothing waits at the same place.
"""
import contextlib
import itertools
import os
import subprocess
import sys
import time

from helpers.replaying import ROOT

GIVEN = os.environ.get("SPEED_PROGRAMS")  # a folder; empty is as good as not set
EMPTY = "#include <unistd.h>\nint main(void) { return write(1, \"\", 1) != 1; }\n"
WRITE = "1"  # the system call's number on x86-64
FOR_MEMORY = {"brk", "mmap", "mremap", "munmap"}
HEAP = {"malloc", "calloc", "realloc", "free", "aligned_alloc", "posix_memalign", "mmap", "brk", "sbrk"}
PIECE = 4_096  # bytes; a pipe has place for a whole number of such pieces
PATIENCE = 10  # seconds that a program has to answer its sheet
PAUSE = 0.01  # seconds from one look at a program to the next
MEMORY_RUNS = 5  # the kernel maps more or fewer pages of the C library at a time


def path(name):
    """A program's file."""
    return os.path.join(GIVEN, name) if GIVEN else os.path.join(ROOT, "crates", name, "out", name)


@contextlib.contextmanager
def full_pipe():
    """The writing end of a pipe that takes no further byte."""
    reading, writing = os.pipe()
    os.set_blocking(writing, False)
    try:
        with contextlib.suppress(BlockingIOError):
            while True:
                os.write(writing, bytes(PIECE))
        os.set_blocking(writing, True)
        yield writing
    finally:
        os.close(reading)
        os.close(writing)


def waits_at_write(process):
    with open(f"/proc/{process.pid}/syscall", encoding="ascii") as file:
        return file.read().split()[0] == WRITE


def wait_for_write(process, program):
    end = time.monotonic() + PATIENCE
    while not waits_at_write(process):
        if process.poll() is not None:
            sys.exit(f"{program} ends without a write, its status {process.returncode}")
        if time.monotonic() > end:
            sys.exit(f"{program} does not write within {PATIENCE} seconds")
        time.sleep(PAUSE)


def held_kib(program, file):
    """The KiB that a program holds when it writes."""
    with open(file, "rb") as sheet, full_pipe() as writing:
        process = subprocess.Popen([program], stdin=sheet, stdout=writing)
        try:
            wait_for_write(process, program)
            with open(f"/proc/{process.pid}/smaps_rollup", encoding="ascii") as pages:
                return next(int(line.split()[1]) for line in pages if line.startswith("Rss:"))
        finally:
            process.kill()
            process.wait()


def calls_for_memory(program, file):
    """The system calls for memory that a program makes from its first reading on."""
    with open(file, "rb") as sheet:
        words = ["strace", "-o", file + ".calls", program]
        subprocess.run(words, stdin=sheet, stdout=subprocess.DEVNULL, check=True)
    with open(file + ".calls", encoding="utf-8") as calls:
        names = [line.split("(")[0] for line in itertools.dropwhile(lambda line: not line.startswith("read(0,"), calls)]
    return [name for name in names if name in FOR_MEMORY]


def imported(program):
    """The functions that a program takes from the C library."""
    said = subprocess.run(["nm", "-D", "--undefined-only", program], stdout=subprocess.PIPE, text=True, check=True).stdout
    names = [line.split()[-1].split("@")[0] for line in said.splitlines() if " U " in line]
    return [name for name in names if not name.startswith("__libc_start")]


def empty_kib(folder):
    """The KiB that a program holds which only writes."""
    program = os.path.join(folder, "empty")
    subprocess.run(["cc", "-O2", "-x", "c", "-", "-o", program], input=EMPTY.encode(), check=True)
    return min(held_kib(program, os.devnull) for _ in range(MEMORY_RUNS))


def measured(folder, name, sheet):
    """What a program holds for a sheet, in KiB; its calls for memory; the functions that it takes from the C library, and
    those of a heap among them."""
    program, file = path(name), os.path.join(folder, name + ".sheet")
    with open(file, "wb") as full:
        full.write(sheet)
    functions = imported(program)
    size = max(held_kib(program, file) for _ in range(MEMORY_RUNS))
    return size, calls_for_memory(program, file), functions, HEAP.intersection(functions)
