#!/usr/bin/env python3
"""Runs the examples, and those that the pages of docs/ quote, and compares what is written, byte for byte, and the status.

usage: run_examples.py [--program PATH | --plain] [--only WORD] [--write]

It runs crates/selfdb/out/selfdb and, where it is there, out/selfdb.by-rattle, as `rt ci` leaves them, or the program at
PATH. --plain compares with tools/plain.py in their place. --only takes the cases with WORD in their name. --write puts
what tools/plain.py writes into the files examples/*.transcript, and runs nothing else.

An example is a world examples/NAME.self, a script NAME.script and the transcript NAME.transcript, with status 0. Each
that begins like examples/core.self begins with all of it.

In a page these are cases:

- Blocks between lines of three backticks, by the first word behind the opening ones. `self` has the lines of a world,
  behind the core text (examples/add.self without its `main`); `self alone` has a whole world file, without the newline at
  its end. `script` has the script, and `words` the words of a call. `transcript` closes the case: it has what is written,
  and a number behind the word is the status, 0 where there is none. With no `script` the world is checked. A `script`
  with no `self` of its own is over the world above it. Behind `self` or `script` the word `repeats` says that {N|TEXT}
  stands for TEXT so many times, in which each # is the number of the turn, from 0.
- Rows of a table whose head has a column `Written`, and `World lines`, `World file` or `Words`. Each piece of code in a
  cell is a line. A column `Script` has the script; without it world files are checked, and world lines get the script
  `spawn main`, `run 10000000`. A column `Status` has the status. In words the world is called W.self.
"""
import importlib.util
import pathlib
import re
import subprocess
import sys
import tempfile

TOP = pathlib.Path(__file__).resolve().parent.parent
MADE = TOP / "crates" / "selfdb" / "out" / "selfdb"
PAGES = ["docs/COMMANDS.md", "docs/ERRORS.md", "docs/LANGUAGE.md"]
CORE = (TOP / "examples" / "add.self").read_bytes().replace(b"main = ( 3 _IntAdd: 4 ).\n", b"")
ADD = CORE + b"main = ( 3 _IntAdd: 4 ).\n"
SCRIPT = b"spawn main\nrun 10000000\n"


class Case:
    """A call: its name, its words, the world W.self, the script, what is to be written, and the status."""

    def __init__(self, name, words, world, script, wanted, status):
        self.name, self.words, self.world, self.script = name, words, world, script
        self.wanted, self.status = wanted, status


def examples():
    """The cases of the folder examples/, and what is wrong with its files."""
    cases, wrong = [], []
    core = (TOP / "examples" / "core.self").read_bytes()
    for script in sorted((TOP / "examples").glob("*.script")):
        world, transcript = script.with_suffix(".self"), script.with_suffix(".transcript")
        text = world.read_bytes()
        if text.startswith(core[:40]) and not text.startswith(core):
            wrong.append("%s doesn't begin with examples/core.self" % world.name)
        wanted = transcript.read_bytes() if transcript.is_file() else None
        if wanted is None:
            wrong.append("%s isn't there" % transcript.name)
        cases.append(Case("examples/" + script.stem, ["run", "W.self"], text, script.read_bytes(), wanted, 0))
    return cases, wrong


def repeated(text):
    """The text, with each {N|TEXT} written out."""
    def turns(found):
        return b"".join(found[2].replace(b"#", b"%d" % k) for k in range(int(found[1])))

    return re.sub(rb"\{([0-9]+)\|([^}]*)\}", turns, text)


def case_of(name, world, script, words, wanted, status):
    """A case of a page: of the words, or of a world, whose script is None where it is checked."""
    if words is None:
        words = ["check" if script is None else "run", "W.self"]
    return Case(name, words, ADD if world is None else world, script or b"", wanted, status)


def blocks(page, text):
    """The cases of the blocks of a page."""
    world = script = words = None
    for found in re.finditer(rb"^```(self|script|words|transcript)\b(.*)\n((?:(?!```).*\n)*)```$", text, re.M):
        kind, more, body = found[1], found[2].split(), found[3]
        line = text[:found.start()].count(b"\n") + 1
        body = repeated(body) if b"repeats" in more else body
        if kind == b"self":
            world, script = body[:-1] if b"alone" in more else CORE + body, None
        elif kind == b"script":
            script = body
        elif kind == b"words":
            words = body.decode("latin-1").split()
        else:
            status = int(more[0]) if more else 0
            yield case_of("%s:%d" % (page, line), None if words else world, script, words, body, status)
            script = words = None


def cells(line):
    """The cells of a line of a table."""
    return [cell.strip() for cell in re.split(rb"(?<!\\)\|", line.strip())[1:-1]]


def lines_of(cell):
    """The pieces of code in a cell."""
    return [piece.replace(rb"\|", b"|") for piece in re.findall(rb"`([^`]*)`", cell)]


def tables(page, text):
    """The cases of the tables of a page."""
    head = None
    for number, line in enumerate(text.split(b"\n"), 1):
        if not line.startswith(b"|"):
            head = None
        elif head is None:
            head = cells(line)
        elif b"Written" in head and not line.startswith(b"|-"):
            row = dict(zip(head, cells(line)))
            named = {column: lines_of(cell) for column, cell in row.items()}
            put = {column: b"".join(it + b"\n" for it in pieces) for column, pieces in named.items()}
            script, world, words = put.get(b"Script"), None, None
            if b"World lines" in named:
                world, script = CORE + put[b"World lines"], SCRIPT if script is None else script
            elif b"World file" in named:
                world = b"\n".join(named[b"World file"])
            elif b"Words" in named:
                words = b" ".join(named[b"Words"]).decode("latin-1").split()
            elif script is None:
                continue
            status = int(row.get(b"Status") or 0)
            yield case_of("%s:%d" % (page, number), world, script, words, put[b"Written"], status)


def ran(program, case, folder):
    """What the program writes on standard output and on standard error, and its status."""
    (folder / "W.self").write_bytes(case.world)
    words = [word.encode("latin-1") for word in case.words]
    try:
        it = subprocess.run([program, *words], cwd=folder, input=case.script, capture_output=True, timeout=300)
    except subprocess.TimeoutExpired:
        return b"", b"no answer in 300 seconds", None
    return it.stdout, it.stderr, it.returncode


def interpreter():
    """tools/plain.py, as a module."""
    spec = importlib.util.spec_from_file_location("plain", TOP / "tools" / "plain.py")
    module = importlib.util.module_from_spec(spec)
    sys.dont_write_bytecode = True
    spec.loader.exec_module(module)
    return module


def interpreted(plain, case):
    """What tools/plain.py writes, nothing on standard error, and its status."""
    def world(name):
        if name != "W.self":
            raise FileNotFoundError(name)
        return case.world

    lines = []
    status = plain.answer_of(case.words, world, lambda: case.script, lines.append)
    return "".join(line + "\n" for line in lines).encode("latin-1"), b"", status


def told(wrote, errors, status, case):
    """The first thing that differs, or None."""
    is_same = (wrote, errors, status) == (case.wanted, b"", case.status)
    if is_same:
        return None
    have, want = wrote.split(b"\n"), (case.wanted or b"").split(b"\n")
    at = next((k for k, (a, b) in enumerate(zip(have, want)) if a != b), min(len(have), len(want)))
    shown = [lines[at].decode(errors="replace")[:200] if at < len(lines) else "nothing" for lines in (have, want)]
    return "line %d: %s\n  and not %s\n  status %s, and not %s %s" % (
        at + 1, *shown, status, case.status, errors.decode(errors="replace")[:300])


def option(words, name):
    """The word behind an option, which is taken out with it."""
    if name not in words or words[-1] == name:
        return None
    at = words.index(name)
    value = words[at + 1]
    del words[at:at + 2]
    return value


def main():
    words = sys.argv[1:]
    program, only = option(words, "--program"), option(words, "--only")
    if [word for word in words if word not in ("--plain", "--write")] or program and "--plain" in words:
        print(__doc__)
        return 1
    cases, wrong = examples()
    plain = interpreter() if words else None
    if "--write" in words:
        for case in cases:
            wrote, _, status = interpreted(plain, case)
            (TOP / (case.name + ".transcript")).write_bytes(wrote)
            print("%s: status %d" % (case.name, status))
        return 0
    for page in PAGES:
        text = (TOP / page).read_bytes()
        of_page = [*blocks(page, text), *tables(page, text)]
        if not of_page:
            wrong.append("%s has no case" % page)
        cases += of_page
    if only:
        cases = [case for case in cases if only in case.name]
    programs = [plain] if plain else [it for it in (MADE, MADE.with_suffix(".by-rattle")) if it.is_file()]
    if program:
        programs = [pathlib.Path(program).resolve()]
    if not programs or program and not programs[0].is_file():
        print("%s isn't there: `rt run` in crates/selfdb makes it" % (program or MADE))
        return 1
    passed, failed = 0, len(wrong)
    for why in wrong:
        print(why)
    with tempfile.TemporaryDirectory() as room:
        for it in programs:
            for case in cases:
                why = told(*(interpreted(it, case) if plain else ran(it, case, pathlib.Path(room))), case)
                passed, failed = passed + (not why), failed + bool(why)
                if why:
                    print("%s %s: %s" % ("plain.py" if plain else it.name, case.name, why))
    print("%d passed, %d failed" % (passed, failed))
    return 1 if failed else 0


if __name__ == "__main__":
    sys.exit(main())
