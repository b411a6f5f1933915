#!/usr/bin/env python3
"""The instructions that each call of docs/SPEED.md executes, library over rivals: the same in every run, counted by valgrind. Needs
target/c/speed-0 (tests/speed builds it)."""
import glob
import os
import re
import shutil
import subprocess
import sys

os.chdir(os.path.join(os.path.dirname(os.path.abspath(__file__)), ".."))
valgrind = shutil.which("valgrind")
if not os.access("target/c/speed-0", os.X_OK):
    sys.exit("instructions: run tests/speed first, it builds target/c/speed-0")
if not valgrind:
    sys.exit("instructions: valgrind, which counts them, is not here")


def count(call, large, way):
    """The name of a call and of its image, and its instructions: counts are written out before each of the program's two marks, and the second
    of these files has what lies between."""
    out = "target/c/callgrind.out"
    for old in glob.glob(out + "*"):
        os.remove(old)
    run = [valgrind, "-q", "--tool=callgrind", "--callgrind-out-file=" + out, "--dump-before=counted_from", "--dump-before=counted_to",
           "target/c/speed-0", str(call), str(large), str(way)]
    name = subprocess.check_output(run, text=True, stderr=subprocess.DEVNULL).strip().split(" ", 2)[2]
    return name, int(re.search(r"^(?:summary|totals): (\d+)", open(out + ".2").read(), re.M).group(1))


print("| Call | Image | Library | to table | to 64-bit | to small |\n|---|---|---|---|---|---|")
small = {}
for large in range(2):
    for call in range(15):
        if call == 6 and large == 0:
            continue
        told, library = count(call, large, 0)
        table, wide = (count(call, large, way)[1] for way in (1, 2))
        name, image = told.split("|")
        growth = " %.2f" % (library / small[name]) if name in small else ""
        if image == "small":
            small[name] = library
        print("| %s | %s | %d | %.2f | %.2f |%s |" % (name, image, library, library / table, library / wide, growth), flush=True)
