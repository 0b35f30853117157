#!/usr/bin/env python3
"""Brings the repository's own definitions and lemmas to today's spelling, once, after port.py.

usage: python3 tools/respell.py [--dry]        at the top of the repository

Types and facts are in upper camel case, every other name in snake case: `Numbers-differ` becomes `NumbersDiffer`,
`number-of` becomes `number_of`. Own names are those that a file of specs/ or proofs/ declares: definitions, lemmas,
fields, constructors, and what a `where` declares. Names that the toolchain makes (goals, steps) and names of the library
are left alone. Comments and pages are turned between backticks only; code of src/ is turned where it is ghost.
"""
import os
import re
import subprocess
import sys

TOKEN = re.compile(r"[^\s(){}\[\].,;:`\"]+")
HEAD = re.compile(r"^(\s*)((?:(?:abbrev|unfoldable|mutual|pub|record|data|ruleset)\s+)*)([^\s(){}:,.]+)\s*(?:[({:]|$)")
ALIAS = re.compile(r" as ([^\s,{}();]+)")
# names that would fall together with a variant of src/
OTHERWISE = {"Out-of-steps": "IsOutOfSteps"}


def files(pattern):
    out = subprocess.run(["git", "ls-files", "-co", "--exclude-standard"], capture_output=True, text=True, check=True).stdout.split("\n")
    return sorted(f for f in out if re.search(pattern, f) and os.path.exists(f) and "/out/" not in f)


def read(path):
    with open(path, encoding="utf-8") as f:
        return f.read()


def spelled(name):
    """Today's spelling of an own name."""
    if name in OTHERWISE:
        return OTHERWISE[name]
    if "-" not in name and not (name[0].isupper() and "_" in name):
        return name
    if name[0].isupper():
        return "".join(p[:1].upper() + p[1:] for p in re.split("[-_]", name))
    return name.replace("-", "_")


def declared():
    """Own names, and those of them that are fields of records."""
    own, fields, where = {}, set(), {}
    for path in files(r"^crates/[^/]+/(specs|proofs)/.*\.antt$"):
        answers = os.path.basename(path) in ("Answers.antt", "Invariants.antt", "Proof.antt")
        inside = None
        for line in read(path).split("\n"):
            text = line.split("-- ")[0]
            if not text.strip() or text.strip().startswith("--"):
                continue
            m = HEAD.match(text)
            depth = len(text) - len(text.lstrip())
            if depth == 0:
                inside = None
                if re.match(r"(pub )?record ", text):
                    inside = "record"
                elif re.match(r"(pub )?data ", text):
                    inside = "data"
            several = re.match(r"\s+(?:pub )?((?:[^\s(){}:,.]+\s+)+):", text)
            if inside and depth and several:
                for name in several.group(1).split():
                    own.setdefault(name, path)
                    if inside == "record":
                        fields.add(name)
                continue
            if not m or text.lstrip().startswith(("use ", "→", "∷", "++")):
                continue
            name, rest = m.group(3), text[m.end(3):].lstrip()
            if depth and inside != "record" and not rest.startswith(":"):
                continue
            if not rest.startswith(("(", "{", ":")):
                continue
            if answers and ("goal." in text or "given." in text or re.search(r":\s*(goal|given)\b", text)):
                continue
            if not re.search(r"[A-Za-z]", name):
                continue
            own.setdefault(name, path)
            if inside == "record" and depth:
                fields.add(name)
    for path in files(r"^crates/.*\.(antt|rt)$"):
        for line in read(path).split("\n"):
            if re.match(r"(ghost )?use ", line):
                for name in ALIAS.findall(line):
                    own.setdefault(name, path)
    return own, fields


def library(own):
    """Names that some file brings in from the library: never turned in that file."""
    taken = {}
    for path in files(r"^crates/.*\.(antt|rt)$"):
        names = set()
        for m in re.finditer(r"use (?:Rattle\.std\.|Prim\.|native\.|lib\.|denote\.|borrow\.|mathlib\.)[^{;\n]*\{([^}]*)\}", read(path)):
            names |= {n.strip().split(" as ")[-1].strip() for n in m.group(1).split(",")}
        taken[path] = names
    return taken


def turn(text, own, fields, taken):
    def one(m):
        name = m.group(0)
        before = text[m.start() - 1] if m.start() else ""
        if name in taken or name not in own:
            return name
        if before == "." and name not in fields and not re.search(r"Rattle\.[\w.]+\.$", text[: m.start()][-120:]):
            return name
        return spelled(name)

    return TOKEN.sub(one, text)


def in_ticks(text, own, fields):
    return re.sub(r"`[^`\n]+`", lambda m: turn(m.group(0), own, fields, set()), text)


def antt(text, own, fields, taken):
    lines = []
    for line in text.split("\n"):
        at = line.find("-- ") if not line.startswith("--") else 0
        code, note = (line, "") if at < 0 else (line[:at], line[at:])
        parts = re.split(r'("[^"]*")', code)
        lines.append("".join(p if i % 2 else turn(p, own, fields, taken) for i, p in enumerate(parts)) + in_ticks(note, own, fields))
    return "\n".join(lines)


def rust(text, own, fields, taken):
    lines, depth = [], 0
    for line in text.split("\n"):
        bare = line.strip()
        if bare.startswith("//"):
            lines.append(in_ticks(line, own, fields))
            continue
        ghost = depth or re.match(r"(pub )?(ghost|requires|ensures)\b", bare)
        if ghost:
            lines.append(turn(line, own, fields, taken))
            depth = max(0, depth + line.count("{") - line.count("}"))
        else:
            lines.append(line)
    return "\n".join(lines)


def main(argv):
    own, fields = declared()
    turned = {n: spelled(n) for n in own if spelled(n) != n}
    taken = library(own)
    everywhere = {}
    for path in files(r"^crates/.*\.(antt|rt)$"):
        for t in TOKEN.findall(read(path)):
            everywhere.setdefault(t, set()).add(path)
    for old, new in sorted(turned.items()):
        both = everywhere.get(new, set()) & everywhere.get(old, set())
        if both or new[0].isupper() and new in everywhere:
            print(f"falls together? {old} -> {new}, in {sorted(both or everywhere[new])[:3]}")
    back = {}
    for old, new in turned.items():
        if back.setdefault(new, old) != old:
            print(f"two names become {new}: {old}, {back[new]}")
    print(f"{len(turned)} names")
    if "--dry" in argv:
        for old, new in sorted(turned.items()):
            print(f"{old} {new} {own[old]}")
        return
    for path in files(r"^crates/.*\.antt$"):
        text = read(path)
        new = antt(text, turned, fields, taken[path])
        if new != text:
            open(path, "w", encoding="utf-8").write(new)
    for path in files(r"^crates/.*\.rt$"):
        text = read(path)
        new = rust(text, turned, fields, taken[path])
        if new != text:
            open(path, "w", encoding="utf-8").write(new)
    for path in files(r"^(README\.md|docs/[A-Z]+\.md)$"):
        if os.path.basename(path) == "PORT.md":
            continue
        text = read(path)
        new = in_ticks(text, turned, fields)
        if new != text:
            open(path, "w", encoding="utf-8").write(new)


main(sys.argv[1:])
