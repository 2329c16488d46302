#!/usr/bin/env python3
"""Runs of the built program under limits on address space: each has to end with a status, and none by a signal.

    python3 bench/memory.py

It takes crates/hybrid/out/hybrid, which `rt ci` and `rt run` leave, and prints nothing but a line where that is missing.
The limits go from the least at which the system loads the program, in steps of 128 KB up to 16 MB, and then by a quarter more
up to 200 MB. The sources have 1 MiB each and are the deepest that a statement can be: chains of `+` and of `//`, nested
parentheses, nested elements, and implied DO lists in each other. A line a source says which statuses came at how many limits,
and from which limit on the program got as far as with all memory. Exit code 1 where a run ended by a signal, or its note and
its exit code don't fit.
"""

import os
import resource
import subprocess
import sys
import tempfile

TOP = os.path.dirname(os.path.dirname(os.path.abspath(__file__)))
PROGRAM = os.path.join(TOP, "crates", "hybrid", "out", "hybrid")
FILE_BYTES = 1_048_576
TEXT_BYTES = 1_320
NOTES = {1: "USAGE", 2: "REFUSED", 4: "FAULT", 5: "STEPS SPENT", 6: "READ FAULT", 8: "NO MEMORY", 9: "FILE LIMIT"}


def lines_of(text):
    """The lines of a statement: an initial line and its continuation lines."""
    lines = [f"      {text[:66]}"]
    for start in range(66, len(text), 66):
        lines.append(f"     1{text[start:start + 66]}")
    return "\n".join(lines) + "\n"


def nested(opens, inner, closes):
    """As many of one thing in each other as a statement has room for."""
    room = TEXT_BYTES - len("I=") - len(inner)
    count = room // (len(opens) + len(closes))
    return "I=" + opens * count + inner + closes * count


def implied():
    """Implied DO lists in each other."""
    control = ",I=1,2)"
    count = (TEXT_BYTES - len("PRINT*,1")) // (1 + len(control))
    return "PRINT*," + "(" * count + "1" + control * count


STATEMENTS = {
    "chains of +": "I=I" + "+1" * ((TEXT_BYTES - 3) // 2),
    "chains of //": "I='A'" + "//'A'" * ((TEXT_BYTES - 5) // 5),
    "nested parentheses": nested("(", "1", ")"),
    "open parentheses": "I=" + "(" * (TEXT_BYTES - 2),
    "nested elements": nested("A(", "1", ")"),
    "nested implied DOs": implied(),
}


def source(statement):
    """A file of this statement, again and again, up to the limit on files."""
    text = lines_of(statement)
    end = "      END\n"
    return text * ((FILE_BYTES - len(end)) // len(text)) + end


def run(path, empty, limit):
    """The exit code of a run under a limit in bytes, and the last line of its notes; None where it wasn't loaded."""

    def cap():
        if limit is not None:
            resource.setrlimit(resource.RLIMIT_AS, (limit, limit))

    try:
        done = subprocess.run(
            [PROGRAM, "run", path, empty, empty, "1000"], capture_output=True, text=True, check=False, preexec_fn=cap
        )
    except (OSError, subprocess.SubprocessError):
        return None
    lines = done.stderr.splitlines()
    return done.returncode, lines[-1] if lines else ""


def fits(code, note):
    """Whether an exit code and the last note belong together."""
    return code in (0, 7) or (code in NOTES and note.startswith(NOTES[code]))


def loads(path, empty, limit):
    """Whether the system loads the program under a limit: it ends with a status of its own."""
    answer = run(path, empty, limit)
    return answer is not None and answer[0] >= 0 and fits(*answer)


def limits(path, empty):
    """The limits of the ladder, in bytes: the first is the least of whole KB from which on the program is loaded."""
    low, high = 0, 16 * 1024
    while high - low > 4:
        middle = (low + high) // 2
        if loads(path, empty, middle * 1024):
            high = middle
        else:
            low = middle
    ladder = list(range(high, 16 * 1024, 128))
    step = 16 * 1024
    while step <= 200 * 1024:
        ladder.append(step)
        step += step // 4
    return [limit * 1024 for limit in ladder]


def main():
    if not os.path.exists(PROGRAM):
        print("no built program: run `rt run` in crates/hybrid first")
        return 0
    wrong = 0
    with tempfile.TemporaryDirectory() as folder:
        empty = os.path.join(folder, "empty")
        small = os.path.join(folder, "small.f")
        with open(empty, "w", encoding="ascii"):
            pass
        with open(small, "w", encoding="ascii") as file:
            file.write("      END\n")
        ladder = limits(small, empty)
        print(f"loaded from {ladder[0] // 1024} KB on; {len(ladder)} limits")
        for name, statement in STATEMENTS.items():
            path = os.path.join(folder, "program.f")
            with open(path, "w", encoding="ascii") as file:
                file.write(source(statement))
            whole = run(path, empty, None)
            counts, first = {}, None
            for limit in ladder:
                answer = run(path, empty, limit)
                if answer is None or not fits(*answer):
                    wrong += 1
                    print(f"{name}: {limit // 1024} KB: {answer}")
                    continue
                code, _note = answer
                counts[code] = counts.get(code, 0) + 1
                if answer == whole:
                    first = limit if first is None else first
            told = ", ".join(f"{code} at {count}" for code, count in sorted(counts.items()))
            at = "never" if first is None else f"from {first // 1024} KB on"
            print(f"{name}: {whole[1] or 'done'} {at}; exit codes {told}")
    print(f"{wrong} runs ended otherwise")
    return 1 if wrong else 0


if __name__ == "__main__":
    sys.exit(main())
