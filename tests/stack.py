#!/usr/bin/env python3
"""What calls take of the stack, read off a painted thread by bench/list.c, is less than include/nyelgomir.h says. It is measured where programs of
x86-64 run as they are and a C compiler is at hand, on the archive that tests/panel made."""
import os
import platform
import shutil
import subprocess
import sys
import tempfile
from pathlib import Path

import pairs

ROOT = Path(__file__).resolve().parent.parent
LIBRARY = Path(os.environ.get("NYELGOMIR_LIB", ROOT / "crates" / "panel" / "out")) / "libpanel.a"
SETTLING, OTHERS, A_PAIR = 224 * 1024, 4 * 1024, 64  # bytes: the header's bounds
DEEPEST = 65280  # pairs that pairs.deepest() has settled at once


def taken(program, font):
    """The bytes of stack of a verdict, of a listing and of all else."""
    return map(int, subprocess.run([program, font, "stack"], stdout=subprocess.PIPE, check=True).stdout.split())


def main():
    compiler = shutil.which("cc") or shutil.which("gcc") or shutil.which("clang")
    if platform.machine() not in ("x86_64", "AMD64") or not compiler:
        print("stack: not measured, for want of a C compiler or of an x86-64")
        return
    with tempfile.TemporaryDirectory() as folder:
        program, deepest = Path(folder, "list"), Path(folder, "deepest.tfm")
        source = [ROOT / "bench" / "list.c", LIBRARY]
        subprocess.run([compiler, "-std=c11", "-O2", f"-I{ROOT / 'include'}", "-pthread", "-o", program, *source], check=True)
        deepest.write_bytes(pairs.deepest())
        for font, settled in ((ROOT / "samples" / "a.tfm", 0), (deepest, DEEPEST)):
            verdict, listing, others = taken(program, font)
            print(f"stack: {settled} pairs: verdict {verdict}, listing {listing}, others {others} bytes")
            if max(verdict, listing) >= SETTLING + A_PAIR * settled or others >= OTHERS:
                sys.exit("stack: more than include/nyelgomir.h says")


main()
