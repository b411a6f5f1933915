#!/usr/bin/env python3
"""The table of docs/SPEED.md: the library's time over each rival's, and on the largest image over that on the small one. Of each the best of four
programs that differ in where their code lies. Needs target/c/speed-0 to speed-3 (tests/speed builds them)."""
import os
import subprocess
import sys

os.chdir(os.path.join(os.path.dirname(os.path.abspath(__file__)), ".."))
if not all(os.access("target/c/speed-%d" % k, os.X_OK) for k in range(4)):
    sys.exit("times: run tests/speed, which builds the four programs")
best = {}
for k in range(4):
    told = subprocess.check_output(["target/c/speed-%d" % k] + (sys.argv[1:2] or ["times"]), text=True)
    for line in told.splitlines():
        name, image, *times = line.split("|")
        here = best.setdefault((image, name), [float("inf")] * 3)
        best[image, name] = [min(a, float(b)) for a, b in zip(here, times)]

worst = growth = 0
print("| Call | Image | to table | to 64-bit | to small |\n|---|---|---|---|---|")
for image in "small", "256, B = 1", "largest":
    for (where, name), (library, table, wide) in best.items():
        if where != image:
            continue
        worst = max(worst, library / min(table, wide))
        small = best.get(("small", name))
        over = library / small[0] if image == "largest" and small else 0
        growth = max(growth, over)
        print("| %s | %s | %.2f | %.2f |%s |" % (name, image, library / table, library / wide, " %.2f" % over if over else ""))
print("worst to the faster rival %.2f, worst to small %.2f" % (worst, growth))
