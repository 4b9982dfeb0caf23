#!/usr/bin/env python3
"""Counts the host's instructions for each source step, by callgrind: a method that sends its own message for ever, down 1,000 to 4,000 levels, in worlds
with no further objects, with 100 and with 1,000.

It runs crates/selfdb/out/selfdb, as `rt ci` or `rt run` leaves it, or the program that is named as an argument. Needs valgrind.
"""
import pathlib
import re
import subprocess
import sys
import tempfile

TOP = pathlib.Path(__file__).resolve().parent.parent
CORE = (TOP / "examples" / "add.self").read_text().replace("main = ( 3 _IntAdd: 4 ).\n", "")


def instructions(program, world, script, folder):
    (folder / "world.self").write_text(world)
    ran = subprocess.run(
        ["valgrind", "--tool=callgrind", "--callgrind-out-file=/dev/null", program, "run", "world.self"],
        cwd=folder, input=script.encode(), capture_output=True, check=True,
    )
    return int(re.search(rb"Collected : (\d+)", ran.stderr)[1])


def main():
    program = pathlib.Path(sys.argv[1]).resolve() if sys.argv[1:] else TOP / "crates" / "selfdb" / "out" / "selfdb"
    with tempfile.TemporaryDirectory() as room:
        for objects in (0, 100, 1000):
            world = CORE + "f = ( f ).\nmain = ( f ).\n" + "".join(f"o{k} = ( | a <- 1. m = ( a ) | ).\n" for k in range(objects))
            counts = [instructions(program, world, f"spawn main\nrun {steps}\n", pathlib.Path(room)) for steps in (0, 1000, 2000, 3000, 4000)]
            steps = [(b - a) / 1000 for a, b in zip(counts[1:], counts[2:])]
            print(f"{objects} objects more: {counts[0]} to open, then {steps} a step")


if __name__ == "__main__":
    main()
