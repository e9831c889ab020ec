"""Small libraries that stand in front of the C library in a run of a program."""
import os
import shutil
import subprocess


def compiler():
    """The C compiler of the toolchain."""
    kit = os.path.dirname(os.path.dirname(os.path.realpath(shutil.which("rt"))))
    return os.path.join(kit, "toolchain", "bin", "clang")


def library(folder, name, text):
    """Makes a library of this text in C, and answers its path."""
    source, made = os.path.join(folder, f"{name}.c"), os.path.join(folder, f"{name}.so")
    with open(source, "w", encoding="ascii") as file:
        file.write(text)
    subprocess.run([compiler(), "-shared", "-fPIC", "-nostdlib", "-fuse-ld=lld", "-o", made, source], check=True)
    return made
