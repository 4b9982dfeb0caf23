#!/usr/bin/env python3
"""Proves every crate, several side by side, and builds the program: crates/selfdb/out/selfdb.

usage: build.py [JOBS]

JOBS is how many crates are proved at a time: the number of processors where it isn't given, or fewer where memory is
short. On standard error it tells which crates are proved, and which it is at; build.log has what `rt` says. It ends with
status 0 where the program is there. What was proved is kept in the crates' folders out/: after an interrupt it goes on
from there.
"""
import os
import pathlib
import re
import subprocess
import sys
import time

TOP = pathlib.Path(__file__).resolve().parent.parent
CRATES, LOG = TOP / "crates", TOP / "build.log"
PROGRAM = CRATES / "selfdb" / "out" / "selfdb"
# What one check has been seen to take at most, in kilobytes.
EACH = 2500000


def jobs():
    """How many crates there are processors and memory for."""
    free = re.search(r"MemAvailable:\s+([0-9]+)", pathlib.Path("/proc/meminfo").read_text())
    return max(1, min(len(os.sched_getaffinity(0)), int(free[1]) // EACH))


def say(text):
    print("selfdb: " + text, file=sys.stderr, flush=True)


def crate_names():
    """The crates of crates.txt."""
    lines = [line.split("#")[0] for line in (TOP / "crates.txt").read_text().split("\n")]
    return [line.split(":")[0].split()[0] for line in lines if ":" in line]


def at_work(names):
    """The crates whose library is begun, and not there yet."""
    made = [(name, CRATES / name / "out" / "rlib") for name in names]
    return [name for name, rlib in made if rlib.is_dir() and not (rlib / "stamp").is_file()]


def watch(ran, names, since):
    """Waits for the checks, and tells what is proved and what is at work."""
    before = None
    while ran.poll() is None:
        said = re.findall(r"^== (\w+)$", LOG.read_text(errors="replace"), re.M)
        now = len({*said} & {*names}), at_work(names)
        if now != before:
            before = now
            minutes = int(time.monotonic() - since) // 60
            say("%d of %d crates done after %d minutes; at %s" % (now[0], len(names), minutes, ", ".join(now[1]) or "..."))
        time.sleep(5)
    return ran.returncode


def main():
    if len(sys.argv) > 2 or sys.argv[1:] and not sys.argv[1].isdigit():
        print(__doc__)
        return 1
    count, names, since = int(sys.argv[1]) if sys.argv[1:] else jobs(), crate_names(), time.monotonic()
    say("proving %d crates, %d at a time, and building the program" % (len(names), count))
    say("this takes an hour and more on four processors; build.log has the details")
    try:
        with open(LOG, "w") as log:
            how = {"stdin": subprocess.DEVNULL, "stdout": log, "stderr": subprocess.STDOUT}
            ran = subprocess.Popen(["rt", "all", "check", "--jobs", str(count)], cwd=TOP, **how)
            if watch(ran, names, since):
                say("not all is proved; see build.log")
                return 1
            say("all crates are proved; building the program")
            subprocess.run(["rt", "run", "--", "nothing"], cwd=CRATES / "selfdb", **how)
    except FileNotFoundError:
        say("the command `rt` isn't there: it proves and builds what is written in Rattle")
        return 1
    if not os.access(PROGRAM, os.X_OK):
        say("the build failed; see build.log")
        return 1
    say("built, after %d minutes" % (int(time.monotonic() - since) // 60))
    return 0


if __name__ == "__main__":
    sys.exit(main())
