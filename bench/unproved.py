#!/usr/bin/env python3
"""Compiles a program of this checkout with no proof, to measure a change before it is proved.

    bench/unproved.py CRATE OUT

CRATE is a program, as served_plainly or abnf_ls. What it makes is no program to use: nothing of it
is proved. It takes the module that `rt try` hands to the compiler, takes out the calls by which such
a run checks itself, and compiles and links what is left as the gate does. Its instructions were
within a tenth of those of the program that the gate makes, most of them above; only those of an
outline were nearly twice. It reads the toolchain's names, so another kit may want other words here.
"""
import os
import re
import shutil
import subprocess
import sys
import tempfile

TOP = os.path.dirname(os.path.dirname(os.path.abspath(__file__)))
RT = os.path.realpath(shutil.which("rt") or sys.exit("there is no command rt"))
KIT = os.path.dirname(os.path.dirname(RT))
TOOLCHAIN = os.path.join(KIT, "toolchain")
TARGET = "--target=x86_64-unknown-linux-gnu"
# A call by which a run of `rt try` checks itself.
CHECK = re.compile(r'(?m)^  call void @(?:"rattle-llvm-checks::|llvm\.trap).*\n')
# The compiler's stand-in: it keeps the program's module, and goes no further. (What comes before is a small one, by which the kit tries its compiler.)
CLANG = """#!/bin/sh
for it in "$@"; do
  case "$it" in *.bc) [ "$(stat -c %s "$it")" -lt 100000 ] || { cp "$it" "ROOM/module.bc"; exit 1; } ;; esac
done
exec "TOOLCHAIN/bin/$(basename "$0")" "$@"
"""


def kit_with(clang, at):
    """A kit like this one, with another compiler."""
    os.makedirs(f"{at}/bin")
    os.makedirs(f"{at}/toolchain/bin")
    for name in os.listdir(KIT):
        if name not in ("bin", "toolchain"):
            os.symlink(f"{KIT}/{name}", f"{at}/{name}")
    for name in os.listdir(f"{KIT}/bin"):
        # (rt looks for the kit beside its own file)
        (shutil.copy if name in ("rt", "rtlib.py") else os.symlink)(f"{KIT}/bin/{name}", f"{at}/bin/{name}")
    os.symlink(f"{TOOLCHAIN}/lib", f"{at}/toolchain/lib")
    os.symlink(f"{TOOLCHAIN}/bin/rattle-x64", f"{at}/toolchain/bin/rattle-x64")
    for name in ("clang", "ld.lld", "llvm-ar"):
        with open(f"{at}/toolchain/bin/{name}", "w", encoding="utf-8") as file:
            file.write(clang)
        os.chmod(f"{at}/toolchain/bin/{name}", 0o755)


def module_of(crate, room):
    """The module that a try of the crate hands to the compiler."""
    kit_with(CLANG.replace("ROOM", room).replace("TOOLCHAIN", TOOLCHAIN), f"{room}/kit")
    how = {"cwd": f"{TOP}/crates/{crate}", "input": b"", "stdout": subprocess.PIPE, "stderr": subprocess.STDOUT}
    ran = subprocess.run([f"{room}/kit/bin/rt", "try", "--steps", "1"], **how)
    if not os.path.isfile(f"{room}/module.bc"):
        sys.exit(ran.stdout.decode(errors="replace"))
    return f"{room}/module.bc"


def clang(*words):
    subprocess.run([f"{TOOLCHAIN}/bin/clang", TARGET, *words], check=True)


def link(module, out):
    lib = f"{TOOLCHAIN}/lib"
    words = ["-m", "elf_x86_64", "-pie", "--dynamic-linker", "/lib64/ld-linux-x86-64.so.2", "--as-needed", "--gc-sections", "--eh-frame-hdr"]
    words += ["-z", "relro", "-z", "now", "-z", "noexecstack", "-o", out, *(f"{lib}/{it}" for it in ("Scrt1.o", "crti.o", "crtbeginS.o"))]
    words += [module, f"{KIT}/c/libos_c.a", f"{KIT}/c/liblibc_c.a"]
    names = ("libm.so.6", "libc.so.6", "libc_nonshared.a", "ld-linux-x86-64.so.2", "libgcc.a", "libgcc_s.so.1", "crtendS.o", "crtn.o")
    subprocess.run([f"{TOOLCHAIN}/bin/ld.lld", *words, *(f"{lib}/{it}" for it in names)], check=True)


def main(crate, out):
    with tempfile.TemporaryDirectory(prefix="unproved-") as room:
        clang("-S", "-emit-llvm", "-O0", "-Xclang", "-disable-llvm-passes", "-x", "ir", module_of(crate, room), "-o", f"{room}/checked.ll")
        with open(f"{room}/checked.ll", encoding="utf-8", errors="surrogateescape") as file:
            text = CHECK.sub("", file.read())
        with open(f"{room}/module.ll", "w", encoding="utf-8", errors="surrogateescape") as file:
            file.write(text)
        sections = ("-ffunction-sections", "-fdata-sections", "-mllvm", "-no-trap-after-noreturn")
        clang("-c", "-O3", "-fPIE", "-march=x86-64", *sections, "-x", "ir", f"{room}/module.ll", "-o", f"{room}/module.o")
        link(f"{room}/module.o", os.path.abspath(out))
    print(f"{out}: not proved")


if __name__ == "__main__":
    if len(sys.argv) != 3:
        sys.exit(__doc__)
    main(*sys.argv[1:])
