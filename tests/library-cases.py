#!/usr/bin/env python3
"""Writes the script of operations on a bounded library that the program library_cases runs, crates/library_cases/stdin, and
the answers that are expected, crates/library_cases/stdout.

crates/library_cases/src/main.rt has the operations. The answers come from the model below, a list of programs."""

import os
import random

PROGRAMS, STRINGS, BYTES = 32, 128, 8192


def hexed(data):
    return data.hex() or "-"


class Model:
    """A library: its programs in order, each a name and a list of strings, and whether it is locked."""

    def __init__(self):
        self.programs = []
        self.locked = False

    def left(self):
        if self.locked:
            return 0, 0, 0
        strings = [string for _, strings in self.programs for string in strings]
        size = sum(len(name) for name, _ in self.programs) + sum(len(n) + len(b) for n, b in strings)
        return PROGRAMS - len(self.programs), STRINGS - len(strings), BYTES - size

    def place(self, name):
        return next((k for k, (n, _) in enumerate(self.programs) if n == name), None)

    def put(self, name, strings):
        if not 1 <= len(name) <= 20:
            return "refused 26"
        if self.locked:
            return "refused 27"
        if self.place(name) is not None:
            return "refused 28"
        needed = 1, len(strings), len(name) + sum(len(n) + len(b) for n, b in strings)
        if any(need > left for need, left in zip(needed, self.left())):
            return "refused 30"
        self.programs.append((name, strings))
        return "ok"

    def delete(self, name):
        if not 1 <= len(name) <= 20:
            return "refused 26"
        if self.locked:
            return "refused 27"
        if self.place(name) is None:
            return "refused 29"
        del self.programs[self.place(name)]
        return "ok"

    def find(self, name):
        place = self.place(name)
        return "absent" if place is None else f"at {place}"

    def lib(self):
        text = "locked {} left {} {} {}".format("yes" if self.locked else "no", *self.left())
        for name, strings in self.programs:
            text += f" {hexed(name)}:" + "".join(f" {hexed(n)}={hexed(b)}" for n, b in strings)
        return text


class Script:
    """The lines of a script with their answers."""

    def __init__(self):
        self.model = Model()
        self.lines = []
        self.answers = []

    def line(self, line, answer):
        self.lines.append(line)
        self.answers.append(answer)

    def title(self, text):
        self.line(f"% {text}", f"% {text}")

    def bad(self, line):
        self.line(line, "bad line")

    def shelf(self):
        self.model = Model()
        self.line("shelf", "ok")

    def lock(self):
        self.model.locked = True
        self.line("lock", "ok")

    def put(self, name, *strings):
        words = "".join(f" {hexed(n)} {hexed(b)}" for n, b in strings)
        self.line(f"put {hexed(name)} {len(strings)}{words}", self.model.put(name, list(strings)))

    def delete(self, name):
        self.line(f"delete {hexed(name)}", self.model.delete(name))

    def find(self, name):
        self.line(f"find {hexed(name)}", self.model.find(name))

    def lib(self):
        self.line("lib", self.model.lib())


def numbered(n):
    return b"P%d" % n


def first_uses(s):
    s.title("an empty shelf")
    s.lib()
    s.find(b"A")
    s.title("a program of no strings, of one string, of two strings of one name, and of empty names and bodies")
    s.shelf()
    s.put(b"NONE")
    s.put(b"ONE", (b"N", b"BODY"))
    s.put(b"TWICE", (b"N", b"B"), (b"N", b"C"))
    s.put(b"EMPTY", (b"", b""), (b"N", b""), (b"", b"B"))
    s.lib()
    s.find(b"NONE")
    s.find(b"EMPTY")
    s.find(b"EMPT")
    s.title("any bytes are a name, and one name may begin another")
    s.put(bytes([0]), (bytes(range(256)), bytes([0, 255])))
    s.put(bytes([0, 0]))
    s.put(bytes([255, 32, 10]))
    s.find(bytes([0, 0]))
    s.lib()
    s.title("a name that is present, and one that is absent")
    s.put(b"ONE", (b"M", b"OTHER"))
    s.delete(b"ON")
    s.delete(b"ONE")
    s.delete(b"ONE")
    s.find(b"ONE")
    s.lib()


def names(s):
    s.title("names of 1, 20, 21 and 0 bytes")
    s.shelf()
    for length in (1, 20, 21, 0):
        s.put(b"x" * length, (b"N", b"B"))
        s.find(b"x" * length)
    s.lib()
    for length in (0, 21, 20, 1):
        s.delete(b"x" * length)
    s.lib()


def bounds(s):
    s.title("32 programs, and one more")
    s.shelf()
    for n in range(PROGRAMS):
        s.put(numbered(n))
    s.put(b"MORE")
    s.lib()
    s.delete(numbered(31))
    s.put(b"MORE")
    s.find(b"MORE")
    s.put(b"YET")

    s.title("128 strings, and one more")
    s.shelf()
    for n in range(4):
        s.put(numbered(n), *[(b"", b"")] * 31)
    s.put(b"FOUR", *[(b"", b"")] * 5)
    s.put(b"FOUR", *[(b"", b"")] * 4)
    s.put(b"FIVE", (b"", b""))
    s.put(b"FIVE")
    s.lib()

    s.title("128 strings in one program, and 129")
    s.shelf()
    s.put(b"ALL", *[(b"", b"")] * 129)
    s.put(b"ALL", *[(b"", b"")] * 128)
    s.lib()

    s.title("8,192 bytes, and one byte more")
    s.shelf()
    s.put(b"A", (b"N", b"b" * 8191))
    s.put(b"A", (b"N", b"b" * 8190))
    s.put(b"B")
    s.delete(b"A")
    s.put(b"AA", (b"N", b"b" * 4093))
    s.put(b"B", (b"M", b"c" * 4095))
    s.put(b"B", (b"M", b"c" * 4094))
    s.put(b"C")
    s.find(b"B")
    s.delete(b"AA")
    s.put(b"D", (b"", b"d" * 4096))
    s.put(b"D", (b"", b"d" * 4095))
    s.find(b"D")
    s.put(b"C")


def middles(s):
    s.title("deleted in the middle, and stored again: what lies behind it stays whole")
    s.shelf()
    for n in range(5):
        s.put(numbered(n), (b"S%d" % n, b"body %d" % n), (b"T", b"x" * n))
    s.delete(numbered(2))
    s.lib()
    s.put(numbered(2), (b"NEW", b"longer than before"))
    s.find(numbered(2))
    s.find(numbered(3))
    s.delete(numbered(0))
    s.delete(numbered(4))
    s.lib()
    for n in (1, 3, 2):
        s.delete(numbered(n))
    s.lib()


def orders(s):
    s.title("which question comes first: a present name that would not fit, too")
    s.shelf()
    s.put(b"A", (b"N", b"b" * 8000))
    s.put(b"A", (b"N", b"b" * 200))
    s.put(b"B", (b"N", b"b" * 200))
    s.delete(b"B")
    s.title("locked before all others, but for the length of a name")
    s.lock()
    s.put(b"A", (b"N", b"b" * 200))
    s.put(b"B", (b"N", b"b" * 200))
    s.put(b"C")
    s.delete(b"A")
    s.delete(b"B")
    s.put(b"")
    s.delete(b"x" * 21)
    s.find(b"A")
    s.find(b"B")
    s.title("locked twice, and then a new shelf")
    s.shelf()
    s.put(b"A", (b"N", b"B"))
    s.lock()
    s.lock()
    s.lib()
    s.shelf()
    s.lib()
    s.put(b"A")
    s.lib()


def bad_lines(s):
    s.title("lines that are no operations")
    for line in (
        "", " ", "shelf ", " shelf", "shelves", "lib 41", "lock -", "find", "find 4", "find 4G", "find 4A", "find 41 42", "find  41",
        "delete", "delete ", "put", "put 41", "put 41 1", "put 41 1 41", "put 41 2 41 42", "put 41 0 41 42", "put 41 01 41 42",
        "put 41 +1 41 42", "put 41 -1", "put 4 0", "put 41 1 4 42", "put 41 1 41 4", "put 41 1 41 42 43", "Put 41 0", "#",
    ):
        s.bad(line)
    s.lib()


def at_random(s):
    """Stores, deletes and finds; names and sizes are such that each answer comes often."""
    s.title("at random: few names, much space")
    choice = random.Random(1)

    def some_bytes(most):
        return choice.randbytes(choice.randint(0, most))

    def step(names, strings, most):
        name = choice.choice(names)
        kind = choice.random()
        if kind < 0.5:
            s.put(name, *[(some_bytes(4), some_bytes(most)) for _ in range(choice.randint(0, strings))])
        elif kind < 0.8:
            s.delete(name)
        else:
            s.find(name)

    s.shelf()
    for n in range(150):
        step([numbered(k) for k in range(12)], 4, 12)
        if n % 25 == 24:
            s.lib()
    s.title("at random: many names, and space for few strings")
    s.shelf()
    for n in range(250):
        step([numbered(k) for k in range(48)], 12, 6)
        if n % 125 == 124:
            s.lib()
    s.title("at random: large bodies")
    s.shelf()
    for n in range(60):
        step([numbered(k) for k in range(10)], 3, 1000)
    s.title("at random: more programs than there is space for")
    s.shelf()
    for n in range(300):
        name = numbered(choice.randrange(60))
        if choice.random() < 0.7:
            s.put(name)
        else:
            s.delete(name)
    s.lib()
    s.lock()
    for n in range(40):
        step([numbered(k) for k in range(48)], 2, 6)
    s.lib()


def main():
    script = Script()
    for part in (first_uses, names, bounds, middles, orders, bad_lines, at_random):
        part(script)
    folder = os.path.join(os.path.dirname(__file__), "..", "crates", "library_cases")
    for name, lines in (("stdin", script.lines), ("stdout", script.answers)):
        with open(os.path.join(folder, name), "w") as table:
            table.write("".join(line + "\n" for line in lines))


main()
