#!/usr/bin/env python3
"""Times of the rules on names at their limits, beside sources of half the size.

    python3 bench/names.py

It takes crates/hybrid/out/hybrid, which `rt ci` and `rt run` leave, and prints nothing but a line where that is missing.
Each line of the answer has a source, its status line, the seconds for half of it and for all of it (the best of five), and
how many times as long that is.
"""

import os
import sys
import tempfile

from loops import PROGRAM, least, run


def folded(statement):
    """A statement on an initial line and continuation lines."""
    cards = [statement[k : k + 66] for k in range(0, len(statement), 66)]
    return cards[0] + "".join(f"\n     1{card}" for card in cards[1:])


def name(k):
    """The name of a number: an INTEGER by its first letter."""
    return f"I{k:05d}"


def many_names(n):
    """Assignments to as many names."""
    return [f"{name(k)} = 1" for k in range(n)] + ["END"]


def names_in_lists(n):
    """Declarations, thirty names each, and no use of them."""
    names = [name(k) for k in range(n)]
    lists = [folded("INTEGER " + ", ".join(names[k : k + 30])) for k in range(0, n, 30)]
    return lists + ["END"]


def constants(n, forward):
    """Constants, each of which names the next one, or the one before."""
    lines = []
    for k in range(n):
        other = k + 1 if forward else k - 1
        value = "1" if other in (n, -1) else f"{name(other)} + 1"
        lines.append(f"PARAMETER ({name(k)} = {value})")
    return lines + ["END"]


def nested(n):
    """Nested DO loops around assignments."""
    lines = []
    for k in range(n):
        lines.append(f"DO 10 {name(k)} = 1, 1")
    lines += [f"J{k:05d} = 1" for k in range(n)]
    return lines + ["10|CONTINUE", "END"]


def long_statement(n):
    """A statement with as many names of two characters."""
    short = [letter + digit for digit in "0123456789ABCDEFGHIJKLMNOPQRSTUVWXYZ" for letter in "IJKLMN"]
    return [folded("M=" + "+".join(short[k % len(short)] for k in range(n))), "END"]


def units(n):
    """A main program and subroutines, each with some names."""
    lines = ["END"]
    for k in range(n - 1):
        lines += [f"SUBROUTINE S{k:05d}"] + [f"{name(j)} = 1" for j in range(40)] + ["END"]
    return lines


CASES = [
    ("names, each assigned", many_names, 9_998),
    ("names in declarations", names_in_lists, 10_000),
    ("constants, each naming the next", lambda n: constants(n, True), 9_000),
    ("constants, each naming the one before", lambda n: constants(n, False), 9_000),
    ("nested DOs around assignments", nested, 4_999),
    ("names in one statement", long_statement, 400),
    ("units", units, 200),
]


def main():
    if not os.path.exists(PROGRAM):
        print("bench/names.py: no program at crates/hybrid/out/hybrid; `rt ci` builds it")
        return 0
    with tempfile.TemporaryDirectory() as folder:
        for what, make, size in CASES:
            half, _ = least(5, lambda make=make, size=size: run(folder, make(size // 2), 1))
            whole, (code, _, notes) = least(5, lambda make=make, size=size: run(folder, make(size), 1))
            status = " ".join(notes.split()) or f"exit {code}"
            print(f"{what:40} {size:6} {status:20} {half:.3f} {whole:.3f} {whole / half:.1f}")
    return 0


if __name__ == "__main__":
    sys.exit(main())
