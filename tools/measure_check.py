#!/usr/bin/env python3
"""Measures how long `selfdb check` takes over worlds of the greatest size and length, of halves and of quarters.

Builds the worlds in a folder of its own, runs the program over each several times, and prints for each the
line of the check, the best wall time and the best processor time, and how many instructions a run takes by
`valgrind --tool=callgrind`, which the machine's load doesn't change. Without valgrind that column is empty.

objects: many small objects with slots, methods and blocks. slots: names of the lobby alone. locals: code in
which no name is found, inside blocks with as many locals as there may be. texts: comments, long names and
strings. path: one path of many names.

usage: measure_check.py [--program FILE] [--runs N] [--no-instructions]
"""
import argparse
import os
import pathlib
import re
import shutil
import subprocess
import sys
import tempfile
import time

TOP = pathlib.Path(__file__).resolve().parent.parent
PROGRAM = TOP / "crates" / "selfdb" / "out" / "selfdb"
SIZE = 65536
LENGTH = 1048576

# The objects that every world needs: 8 with the lobby, 10 bodies, and a size of 71.
CORE = """\
lobby = lobby. nil = ().
true = ( | parent* = lobby. ifTrue: a False: b = ( a value ) | ).
false = ( | parent* = lobby. ifTrue: a False: b = ( b value ) | ).
integerTraits = ( | parent* = lobby. + n = ( _IntAdd: n ). - n = ( _IntSub: n ).
< n = ( _IntLT: n ). = n = ( _IntEQ: n ) | ).
stringTraits = ( | parent* = lobby. print = ( _StringPrint ) | ).
vectorTraits = ( | parent* = lobby | ).
blockTraits = ( | parent* = lobby.
whileTrue: b = ( value ifTrue: [ b value ] False: [ ^ nil ]. _Restart ) | ).
"""
CORE_OBJECTS, CORE_BODIES, CORE_SIZE = 8, 10, 71

# An object of size 36: itself and 9 slots and arguments, and methods of 4, 10 and 8 nodes with two blocks of 2 each.
OBJECT = """\
o%05d = ( | parent* = lobby. a <- 1. b <- 2. sum = ( a + b ). set: v = ( a: v. b: a + v. self ).
least: o = ( o sum < sum ifTrue: [ o ] False: [ self ] ) | ).
"""
OBJECT_SIZE, OBJECT_BODIES = 36, 5

# A block in whose code no name is found, of 341 statements: as many names and messages, 340 drops, an end; and the node
# that stands for it and the drop behind it.
LEAF = "[ " + "y: z. " * 341 + "].\n"
LEAF_SIZE = 2 * 341 + 340 + 1 + 2

# A comment, a long name and a string, in 256 bytes.
TEXT = '"%s"\nthe_slot_with_the_long_name_and_number_%%05d = \'%s\'.\n' % ("comment " * 9 + "more", "string " * 18)


def filled(text, size, wanted):
    """The text of this size with bare slots up to the size that is wanted."""
    return text + "".join("x%05d.\n" % number for number in range(wanted - size))


def line(objects, bodies, size):
    return "ok %d objects %d bodies size %d" % (objects, bodies, size)


def objects(wanted):
    count = (wanted - CORE_SIZE) // OBJECT_SIZE
    text = CORE + "".join(OBJECT % number for number in range(count))
    said = line(CORE_OBJECTS + count, CORE_BODIES + OBJECT_BODIES * count, wanted)
    return filled(text, CORE_SIZE + OBJECT_SIZE * count, wanted), said


def slots(wanted):
    return filled(CORE, CORE_SIZE, wanted), line(CORE_OBJECTS, CORE_BODIES, wanted)


def locals_around(wanted):
    """A method and 61 blocks, one in the other, each with 64 locals; in the innermost as many leaves as there is room."""
    bars = "| " + "".join("x%02d. " % number for number in range(64)) + "| "
    # Each body has its locals, and an end; each block a node; the method is a slot.
    size = CORE_SIZE + 1 + 62 * 65 + 61
    count = (wanted - size - 1) // LEAF_SIZE
    text = CORE + "deep = ( " + bars + ("[ " + bars) * 61 + LEAF * count + "self " + "] " * 61 + ").\n"
    return filled(text, size + LEAF_SIZE * count + 1, wanted), line(CORE_OBJECTS, CORE_BODIES + 62 + count, wanted)


def texts(wanted):
    count = (wanted - len(CORE)) // len(TEXT % 0)
    text = CORE + "".join(TEXT % number for number in range(count))
    return text.ljust(wanted, "\n"), line(CORE_OBJECTS + count, CORE_BODIES, CORE_SIZE + count)


def path(wanted):
    count = (wanted - len(CORE) - 11) // 6
    text = CORE + "x = lobby" + " lobby" * count + ".\n"
    return text.ljust(wanted, "\n"), line(CORE_OBJECTS, CORE_BODIES, CORE_SIZE + 1)


SHAPES = (
    ("objects", objects, SIZE),
    ("slots", slots, SIZE),
    ("locals", locals_around, SIZE),
    ("texts", texts, LENGTH),
    ("path", path, LENGTH),
)


def timed(words):
    """What the program writes, and its wall time and processor time in seconds."""
    began = time.perf_counter()
    running = subprocess.Popen(words, stdout=subprocess.PIPE, stdin=subprocess.DEVNULL)
    written = running.stdout.read().decode()
    _, status, used = os.wait4(running.pid, 0)
    running.returncode = os.waitstatus_to_exitcode(status)
    running.stdout.close()
    return written, time.perf_counter() - began, used.ru_utime + used.ru_stime


def instructions(words, folder):
    """How many instructions a run takes; None where valgrind can't tell."""
    tool = ["valgrind", "--tool=callgrind", "--callgrind-out-file=" + os.path.join(folder, "callgrind.out")]
    told = subprocess.run(tool + words, capture_output=True, text=True, check=False).stderr
    found = re.search(r"Collected\s*:\s*(\d+)", told)
    return int(found.group(1)) if found else None


def main():
    parser = argparse.ArgumentParser(description=__doc__, formatter_class=argparse.RawDescriptionHelpFormatter)
    parser.add_argument("--program", default=str(PROGRAM))
    parser.add_argument("--runs", type=int, default=5)
    parser.add_argument("--no-instructions", action="store_true")
    asked = parser.parse_args()
    counts = not asked.no_instructions and shutil.which("valgrind") is not None
    wrong = 0
    print("load %.1f %.1f %.1f" % os.getloadavg())
    print("| World | Bytes | Size | Wall (s) | Processor (s) | Instructions (millions) |")
    print("|---|---|---|---|---|---|")
    with tempfile.TemporaryDirectory() as folder:
        for name, shape, most in SHAPES:
            for part in (4, 2, 1):
                text, said = shape(most // part)
                file = os.path.join(folder, "%s-%d.self" % (name, part))
                pathlib.Path(file).write_text(text)
                words = [asked.program, "check", file]
                runs = [timed(words) for _ in range(asked.runs)]
                if any(written != said + "\n" for written, _, _ in runs):
                    wrong += 1
                    print("%s: wrote %r in place of %r" % (name, runs[0][0], said), file=sys.stderr)
                wall = min(run[1] for run in runs)
                used = min(run[2] for run in runs)
                count = instructions(words, folder) if counts else None
                shown = "%.1f" % (count / 1e6) if count is not None else ""
                size = said.split()[-1]
                print("| %s | %d | %s | %.3f | %.3f | %s |" % (name, len(text), size, wall, used, shown), flush=True)
    print("load %.1f %.1f %.1f" % os.getloadavg())
    return 1 if wrong else 0


if __name__ == "__main__":
    sys.exit(main())
