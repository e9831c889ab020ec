"""A program of this folder, built and run over a copy of the crates.

No gate proves these programs: each is built over what is proved in the crates.
"""
import os
import shutil
import subprocess
import tempfile

TOP = os.path.dirname(os.path.dirname(os.path.realpath(__file__)))


def run(source, uses):
    """Builds and runs the program `source`, which uses these crates, and gives its exit status."""
    with tempfile.TemporaryDirectory() as copy:
        shutil.copytree(os.path.join(TOP, "crates"), os.path.join(copy, "crates"))
        shutil.copy(os.path.join(TOP, "HANDLES"), copy)
        with open(os.path.join(TOP, "crates.txt"), encoding="utf-8") as file:
            crates = file.read()
        with open(os.path.join(copy, "crates.txt"), "w", encoding="utf-8") as file:
            file.write(f"{crates}bench: {uses}\n")
        folder = os.path.join(copy, "crates", "bench", "src")
        os.makedirs(folder)
        shutil.copy(os.path.join(TOP, "bench", source), os.path.join(folder, "main.rt"))
        return subprocess.run(["rt", "run"], cwd=os.path.dirname(folder), stdin=subprocess.DEVNULL, check=False).returncode
