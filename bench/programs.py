"""How the programs that the scripts of this folder time are built and run."""

import os
import subprocess
import sys

HERE = os.path.dirname(os.path.realpath(__file__))


def ask_for_large_pages():
    """Has the C library ask for large pages in each program that is run from now on, as numpy does by itself."""
    os.environ.setdefault("GLIBC_TUNABLES", "glibc.malloc.hugetlb=1")


def proved(crate):
    """Builds a proved program where it isn't built, and returns its path. Without arguments the program does nothing."""
    folder = os.path.join(os.path.dirname(HERE), "crates", crate)
    done = subprocess.run(["rt", "run"], cwd=folder, stdin=subprocess.DEVNULL, stdout=subprocess.PIPE, stderr=subprocess.STDOUT, text=True)
    if done.returncode != 0:
        sys.exit(f"{crate} cannot be built\n{done.stdout}")
    return os.path.join(folder, "out", crate)


def plant(named):
    """The plant itself, without the script that builds and starts it."""
    if named is not None:
        return named
    root = os.path.dirname(HERE)
    subprocess.run([os.path.join(root, "bin", "plant"), "--version"], stdout=subprocess.DEVNULL, check=True)
    return os.path.join(root, "crates", "plant_cli", "out", "plant_cli")


def compiled(folder, name, *options, edition="2021"):
    """Compiles `name.rs` of this folder into another folder, and returns the program's path."""
    program = os.path.join(folder, name)
    subprocess.run(["rustc", "--edition", edition, "-O", *options, "-o", program, os.path.join(HERE, name + ".rs")], check=True)
    return program


def lines(command):
    """Runs a program, and returns the words of each line that it prints."""
    done = subprocess.run(command, stdout=subprocess.PIPE, text=True, check=True)
    return [line.split() for line in done.stdout.splitlines()]


def best_of(command, best):
    """Runs a program, and keeps the least nanoseconds of each of its lines: two names, nanoseconds, and one more number."""
    for what, call, nanoseconds, number in lines(command):
        least = best.get((what, call), (int(nanoseconds), 0))[0]
        best[what, call] = min(least, int(nanoseconds)), int(number)
