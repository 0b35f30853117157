#!/usr/bin/env python3
"""Lists the functions of crates/*/src that have one shape: the same text once each name, number and string is replaced by
the order in which it first appears. A row is a place to look, not a verdict. Usage: tools/twins.py [MIN_TOKENS]"""
import collections
import pathlib
import re
import sys

TOKEN = re.compile(r'"(?:\\.|[^"])*"|\'(?:\\.|[^\'])\'|[A-Za-z_][A-Za-z_0-9]*|0x[0-9A-Fa-f]+|\d+|\S')
KEPT = set("fn let mut for in if else match return while loop pub self Self Some None Ok Err true false as impl where".split())


def functions(text):
    text = re.sub(r"//[^\n]*", "", text)
    for found in re.finditer(r"\bfn (\w+)", text):
        # the clauses between the signature and the body are in braces too, and end before the line that is a brace alone
        body = re.search(r"\n(\s*)\{\n(.*?)\n\1\}", text[found.start():], re.S)
        line = re.search(r"\{\n(.*?)\n    \}", text[found.start():], re.S)
        chosen = min((m for m in (body, line) if m), key=lambda m: m.start(), default=None)
        if chosen:
            yield found.group(1), chosen.group(0)


def shape(body):
    seen = {}
    out = []
    for token in TOKEN.findall(body):
        if re.match(r"[A-Za-z_0-9\"']", token) and token not in KEPT:
            token = "$%d" % seen.setdefault(token, len(seen))
        out.append(token)
    return tuple(out)


def main():
    least = int(sys.argv[1]) if len(sys.argv) > 1 else 12
    by_shape = collections.defaultdict(list)
    for path in sorted(pathlib.Path("crates").glob("*/src/**/*.rt")):
        for name, body in functions(path.read_text()):
            form = shape(body)
            if len(form) >= least:
                by_shape[form].append(f"{path}:{name}")
    groups = [places for places in by_shape.values() if len(places) > 1]
    for places in sorted(groups):
        print("  ".join(places))
    print(f"{len(groups)} shapes in {sum(map(len, groups))} functions")


main()
