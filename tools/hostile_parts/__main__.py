"""Runs the parts of tools/hostile that its words name, or all."""

import sys
import time

from bodies import bodies
from images import images
from memory import memory
from order import order
from roots import roots
from stops import calls, interrupted, kills, short
from two import two

PARTS = {part.__name__: part for part in (kills, calls, interrupted, short, memory, order, images, two, roots, bodies)}


def main(names):
    for name in names or PARTS:
        start = time.monotonic()
        PARTS[name]()
        print(f"{name}: {time.monotonic() - start:.0f} seconds", flush=True)


main(sys.argv[1:])
