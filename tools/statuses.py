#!/usr/bin/env python3
"""Runs the shipped program for each status from 0 to 5, and compares what it writes and the status it ends with.

No clause says what a file, standard input and standard output hold, nor which status `main` hands on: this does, over
the system's own devices. A full device is /dev/full; a file that can't be read is one that isn't there, or a folder;
a folder as standard input is a script that can't be read.

It runs crates/selfdb/out/selfdb and, where it is there, out/selfdb.by-rattle, as `rt ci` leaves them (`rt run` in
crates/selfdb makes the first), or the programs that are named as arguments.
"""
import os
import pathlib
import subprocess
import sys
import tempfile

TOP = pathlib.Path(__file__).resolve().parent.parent
MADE = TOP / "crates" / "selfdb" / "out" / "selfdb"
CORE = (TOP / "examples" / "add.self").read_text().replace("main = ( 3 _IntAdd: 4 ).\n", "")
SCRIPT = "spawn main\nrun 100\n"
USAGE = "usage: selfdb run WORLD | check WORLD | drill N\n"

# The files of the folder that the program runs in. There is a folder `folder` too.
FILES = {
    "add.self": CORE + "main = ( 3 _IntAdd: 4 ).\n",
    "sum.self": CORE + "main = ( 3 + 4 + 5 ).\n",
    "over.self": CORE + "main = ( 536870911 _IntAdd: 1 ).\n",
    "points.self": (TOP / "examples" / "points.self").read_text(),
    "blocks.self": CORE + "main = ( | s <- 1 | [ s: 2 ] value. [ ^ s ] value. 3 ).\n",
    "no_main.self": CORE,
    "no_object.self": CORE + "x = zork.\n",
    "open.self": "lobby = lobby. nil = (",
    "empty.self": "",
    "long.self": " " * 1048577,
}

# Words (a byte each character: one is no UTF-8), what standard input holds (None: a folder), whether the output is full, what is written, and the status.
CASES = [
    ("run add.self", SCRIPT, False, "activity 1\ndone 7 at 4\n", 0),
    ("run add.self", "spawn main\nrun 2", False, "activity 1\nstop at 2 line 10:12\n", 0),
    ("run add.self", SCRIPT + "\n", False, "activity 1\ndone 7 at 4\n", 0),
    ("run add.self", "", False, "", 0),
    ("run sum.self", "spawn main\nrun 3\nrun 100\n", False, "activity 1\nstop at 3 line 4:55\ndone 12 at 12\n", 0),
    ("run over.self", SCRIPT, False, "activity 1\nerror overflowError at 2 line 10:20\n", 0),
    ("run points.self", SCRIPT, False, "activity 1\nout 6\nout 8\ndone 8 at 55\n", 0),
    ("run blocks.self", "spawn main\nrun 3\nrun 100\n", False, "activity 1\nstop at 3 line 10:23\ndone 2 at 10\n", 0),
    ("run no_main.self", SCRIPT, False, "refused notUnderstood\nrefused no activity\n", 0),
    ("check add.self", None, False, "ok 8 objects 11 bodies size 76\n", 0),
    ("", "", False, USAGE, 1),
    ("run", SCRIPT, False, USAGE, 1),
    ("run -add.self", SCRIPT, False, USAGE, 1),
    ("run \xff", SCRIPT, False, USAGE, 1),
    ("run add.self add.self", SCRIPT, False, USAGE, 1),
    ("drill 4000", "", False, "not built\n", 1),
    ("drill 4001", "", False, USAGE, 1),
    ("run no_object.self", None, False, "world refused NoSuchPath at 10:5\n", 2),
    ("check open.self", "", False, "world refused BadSyntax at 1:23\n", 2),
    ("check empty.self", "", False, "world refused MissingCore nil\n", 2),
    ("check long.self", "", False, "world refused TooLong\n", 2),
    ("run add.self", "spawn main\njump 3\n", False, "script refused line 2\n", 3),
    ("run add.self", SCRIPT + "units\n", False, "not built\n", 3),
    ("run add.self", " " * 1048577, False, "script refused TooLong\n", 3),
    ("run missing.self", SCRIPT, False, "", 4),
    ("check folder", "", False, "", 4),
    ("run add.self", None, False, "", 4),
    ("run add.self", SCRIPT, True, "", 5),
    ("check add.self", "", True, "", 5),
    ("run", "", True, "", 5),
]


def run(program, words, given, is_full, folder):
    """What the program wrote on standard output and on standard error, and its status."""
    (folder / "script").write_text(given or "")
    source = os.open(folder / ("folder" if given is None else "script"), os.O_RDONLY)
    with open("/dev/full" if is_full else folder / "out", "wb") as sink:
        ran = subprocess.run(
            [program, *words.encode("latin-1").split()], cwd=folder, stdin=source, stdout=sink, stderr=subprocess.PIPE, timeout=60
        )
    os.close(source)
    return "" if is_full else (folder / "out").read_text(), ran.stderr.decode(errors="replace"), ran.returncode


def main():
    named = [pathlib.Path(name).resolve() for name in sys.argv[1:]]
    programs = named or [it for it in (MADE, MADE.with_suffix(".by-rattle")) if it.is_file()]
    if not programs:
        print(f"{MADE} isn't there: `rt run` in crates/selfdb makes it")
        return 1
    failed = 0
    for program in programs:
        with tempfile.TemporaryDirectory() as room:
            folder = pathlib.Path(room)
            (folder / "folder").mkdir()
            for name, text in FILES.items():
                (folder / name).write_text(text)
            for words, given, is_full, *wanted in CASES:
                *wrote, status = run(program, words, given, is_full, folder)
                if [*wrote, status] != [wanted[0], "", wanted[1]]:
                    failed += 1
                    print(f"{program.name} {words!r}: {wrote!r} and status {status}, and not {wanted}")
    count = len(CASES) * len(programs)
    print(f"statuses: {count - failed} passed, {failed} failed")
    return 1 if failed else 0


if __name__ == "__main__":
    sys.exit(main())
