#!/usr/bin/env python3
"""Writes the table of image cases that the program image_cases reads: crates/image_cases/stdin.

Each line is the code's number, the expected answer, the image in hex (or - for no byte), and the case's name.
An answer is a refusal's number, or granted:PROGRAMS:STRINGS. All cases are laid out in both codes."""

import os


class Ascii:
    number = 1
    end_of_line, creation, foreign = 0x0A, 0xC0, 0x7F

    def text(self, s):
        return s.encode("ascii")

    def mark(self, n):
        return 0x80 + n


class Ebcdic:
    number = 2
    end_of_line, creation, foreign = 0x15, 0xFA, 0xFF

    def text(self, s):
        return s.encode("cp037")

    def mark(self, n):
        return n if n <= 20 else n + 1


def entry(program, name, body):
    return bytes([len(program)]) + program + bytes(20 - len(program)) + len(name).to_bytes(2, "big") + len(body).to_bytes(2, "big")


def laid_out(code, lines):
    entries = b"".join(entry(*line) for line in lines)
    return bytes([code.number, len(lines)]) + entries + b"".join(name + body for _, name, body in lines)


def with_byte(image, at, byte):
    return image[:at] + bytes([byte]) + image[at + 1:]


def sample(code):
    """Three programs with five strings; ends of lines and marks of both kinds in a body."""
    t = code.text
    marked = t("HELLO ") + bytes([code.mark(1), code.end_of_line, code.mark(62), code.creation])
    return [
        (t("GREET"), t("GREET"), marked),
        (t("GREET"), t("BYE"), t("SO LONG")),
        (t("SQUARE"), t("SQUARE"), t("#<MU;") + bytes([code.mark(1)]) + t(";") + bytes([code.mark(1)]) + t(">")),
        (t("TABLE"), t("ROW"), bytes([code.mark(20), code.mark(21)])),
        (t("TABLE"), t("TABLE"), b""),
    ]


def cases(code):
    t = code.text
    lines = sample(code)
    sound = laid_out(code, lines)
    other = 3 - code.number
    entries_end = 2 + 25 * len(lines)
    last_entry = entries_end - 25
    split = [lines[0], lines[2], lines[1]]
    twenty = t("ABCDEFGHIJKLMNOPQRST")
    many = [(t("P" + "ABCDEFGHIJKLMNOP"[i // 8]), t("S"), t("x")) for i in range(128)]
    apart = [(t("AB"[i // 64] + "ABCDEFGH"[i // 8 % 8] + "ABCDEFGH"[i % 8]), b"", b"") for i in range(128)]
    marks = bytes(code.mark(n) for n in range(1, 63))

    yield "a sound image", "granted:3:5", sound
    yield "no programs", "granted:0:0", bytes([code.number, 0])
    yield "128 strings in 16 programs", "granted:16:128", laid_out(code, many)
    yield "128 strings in 128 programs", "granted:128:128", laid_out(code, apart)
    yield "empty string names and bodies", "granted:1:2", laid_out(code, [(t("E"), b"", b""), (t("E"), b"", b"")])
    yield "program names of 1 and of 20 bytes", "granted:2:2", laid_out(code, [(t("A"), t("N"), t("B")), (twenty, t("N"), t("B"))])
    yield "a name that begins another", "granted:2:2", laid_out(code, [(t("A"), t("N"), t("B")), (t("AA"), t("N"), t("B"))])
    yield "two strings of one name", "granted:1:2", laid_out(code, [(t("A"), t("N"), t("B")), (t("A"), t("N"), t("C"))])
    yield "all segment marks in a body", "granted:1:1", laid_out(code, [(t("A"), t("N"), marks)])
    yield "a body of 300 bytes", "granted:1:1", laid_out(code, [(t("A"), t("N"), t("B" * 300))])

    yield "no byte", "2", b""
    yield "one byte", "2", bytes([code.number])
    yield "the other code's number", "2", with_byte(sound, 0, other)
    yield "no code's number", "2", with_byte(sound, 0, 0)

    yield "129 strings", "3", bytes([code.number, 129]) + b"".join(entry(*many[0]) for _ in range(129)) + t("Sx" * 129)
    yield "contents one byte short", "3", sound[:entries_end - 1]
    yield "an entry too few", "3", bytes([code.number, 1])

    yield "a program name of 0 bytes", "4", with_byte(with_byte(sound, last_entry, 0), last_entry + 1, 0)
    yield "a program name of 21 bytes", "4", with_byte(sound, last_entry, 21)
    yield "a filler that is not zero", "4", with_byte(sound, last_entry + 20, 1)

    yield "a program split by another", "5", laid_out(code, split)
    yield "a program split by two others", "5", laid_out(code, [lines[0], lines[2], lines[3], lines[1]])

    yield "one byte left over", "6", sound + t("A")
    yield "one byte missing", "6", sound[:-1]
    yield "a byte behind no programs", "6", bytes([code.number, 0]) + t("A")

    yield "a zero byte inside a program name", "7", with_byte(sound, last_entry + 3, 0)
    yield "a foreign byte in a program name", "7", with_byte(sound, last_entry + 1, code.foreign)
    yield "a mark in a program name", "7", with_byte(sound, last_entry + 1, code.mark(1))
    yield "an end of line in a string's name", "7", with_byte(sound, entries_end, code.end_of_line)
    yield "a mark in a string's name", "7", with_byte(sound, entries_end, code.mark(62))
    yield "a creation mark in a string's name", "7", with_byte(sound, entries_end, code.creation)
    yield "a foreign byte in a body", "7", with_byte(sound, entries_end + 5, code.foreign)
    yield "a foreign byte at the very end", "7", laid_out(code, [(t("A"), t("N"), bytes([code.foreign]))])

    yield "another number and 129 strings", "2", bytes([other, 129]) + sound[2:]
    yield "129 strings and a bad name", "3", bytes([code.number, 129]) + with_byte(sound, 2, 0)[2:]
    yield "a bad name at the end and a split program", "4", with_byte(laid_out(code, split), 2 + 25 * 2, 21)
    yield "a split program and one byte left over", "5", laid_out(code, split) + t("A")
    yield "one byte left over and a foreign byte", "6", with_byte(sound, entries_end, code.foreign) + t("A")


def main():
    path = os.path.join(os.path.dirname(__file__), "..", "crates", "image_cases", "stdin")
    with open(path, "w") as table:
        for code in (Ascii(), Ebcdic()):
            for name, answer, image in cases(code):
                table.write(f"{code.number} {answer} {image.hex() or '-'} {name}\n")


main()
