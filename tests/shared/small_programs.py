"""The small programs and libraries of the tests in C: each is compiled into a folder, unless the folder has it already.
"""
import os
import subprocess

from shared.checks import TESTS


def compiled(source, folder, ending, before, behind):
    target = os.path.join(folder, os.path.basename(source)[:-len(".c")] + ending)
    if not os.path.exists(target):
        subprocess.run(["gcc", "-O1", *before, "-o", target, os.path.join(TESTS, source), *behind], check=True)
    return target


def program(source, folder):
    """The path of a program, whose source is named by its path below tests/."""
    return compiled(source, folder, "", [], [])


def library(source, folder):
    """The path of a library that is loaded before the C library."""
    return compiled(source, folder, ".so", ["-fPIC", "-shared"], ["-ldl"])
