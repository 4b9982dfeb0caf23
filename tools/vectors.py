#!/usr/bin/env python3
"""Compares the words of instructions and the steps of the machine with those of others.

Runs the program vector_check over the files encode.txt, accept.txt and steps.txt of a folder beside the
repository (or of the folder that is named as the first argument), and prints how many lines passed. Where
the files are missing it says so and ends with success.

encode.txt has lines TEXT<TAB>WORD: the assembler text and its word. The text has to give the word, and
the word the text. accept.txt has lines WORD<TAB>in|out<TAB>..: whether the table has the word.
steps.txt has lines NUMBER<TAB>KIND<TAB>PC<TAB>BEFORE<TAB>CODE<TAB>STEPS<TAB>AFTER: what a machine with one
frame has before so many steps, and what after them, the words of spilled windows among it.
"""
import pathlib
import re
import subprocess
import sys

TOP = pathlib.Path(__file__).resolve().parent.parent
PROGRAM = TOP / "crates" / "vector_check"
FILES = ("encode.txt", "accept.txt", "steps.txt")


def rows(path):
    return [line.split("\t") for line in path.read_text().splitlines() if line]


def register(name):
    """The number of a register such as o3."""
    return 8 * "goli".index(name[0]) + int(name[1])


def state(text):
    """The special registers, the registers by number and the words by address of a text such as
    `y=0 o1=5 m20000000=1,2 s41000000=?,3`, in which `s` marks words that a window was spilled to; `?` stands
    for a word that is left open."""
    special, registers, words = {}, {}, {}
    for key, value in (part.split("=") for part in text.split()):
        if re.fullmatch("[goli][0-7]", key):
            registers[register(key)] = value
        elif key[0] in "ms":
            for place, word in enumerate(value.split(",")):
                words[int(key[1:], 16) + 4 * place] = word
        else:
            special[key] = value
    return special, registers, words


def code(text):
    """The words by address of a text such as `10000000:AE82401F,01000000;10000100:01000000`."""
    words = {}
    for stretch in text.split(";"):
        at, stretch = stretch.split(":")
        for place, word in enumerate(stretch.split(",")):
            words[int(at, 16) + 4 * place] = word
    return words


def step_case(pc, before, laid, steps, after):
    """The line for the program, and what it has to answer."""
    special, registers, words = state(before)
    special_after, registers_after, words_after = state(after)
    numbers = {number: f"{0x9E3779B9 * number % 2**32:08X}" for number in range(32)} | registers
    words = dict.fromkeys(words_after, "00000000") | words | code(laid)
    parts = [f"y={special['y']}", f"icc={special['icc']}"]
    parts += [f"{number:X}={numbers[number]}" for number in range(1, 32)]
    parts += [f"{at:X}={word}" for at, word in words.items()]
    want = [special_after[key] for key in ("pc", "npc", "y", "icc")]
    want += [(numbers | registers_after)[number] for number in range(32)]
    want += (words | words_after).values()
    return f"steps {pc} {int(steps):X} {' '.join(parts)}", " ".join(want)


def agrees(answer, want):
    """Whether each word of an answer is the wanted one, where that isn't open."""
    given, wanted = answer.split(" "), want.split(" ")
    return len(given) == len(wanted) and all(w in ("?", g) for g, w in zip(given, wanted))


def cases(folder):
    """The lines for the program, each with what it has to answer, and the test for that."""
    for text, word in rows(folder / "encode.txt"):
        yield f"encode {text}", word, str.__eq__
        yield f"decode {word}", f"in {text}", str.__eq__
    for word, verdict, *_ in rows(folder / "accept.txt"):
        yield f"decode {word}", verdict, lambda answer, want: answer.split(" ")[0] == want
    for _, _, *case in rows(folder / "steps.txt"):
        yield *step_case(*case), agrees


def answers(lines):
    run = subprocess.run(
        ["rt", "run"],
        cwd=PROGRAM,
        input="".join(line + "\n" for line in lines),
        stdout=subprocess.PIPE,
        text=True,
        check=True,
    )
    return run.stdout.splitlines()


def main():
    folder = pathlib.Path(sys.argv[1]) if len(sys.argv) > 1 else TOP.parent / "shared" / "vectors"
    if not all((folder / name).is_file() for name in FILES):
        print(f"no vectors in {folder}: skipped")
        return 0
    wanted = list(cases(folder))
    given = answers(line for line, _, _ in wanted)
    if len(given) != len(wanted):
        print(f"{len(wanted)} lines, but {len(given)} answers")
        return 1
    failed = 0
    for (line, want, passes), answer in zip(wanted, given):
        if not passes(answer, want):
            failed += 1
            print(f"{line}: {answer}, and not {want}")
    print(f"{len(wanted) - failed} passed, {failed} failed")
    return 1 if failed else 0


if __name__ == "__main__":
    sys.exit(main())
