#!/usr/bin/env python3
"""Brings the definitions and lemmas of this repository to the spelling of today's library.

    python3 tools/spelling.py          at the top, after the toolchain's own script

What a file of specs/ or proofs/ declares and spells with a dash is spelled with an underscore (token-line becomes
token_line); a fact or a type, which begins with a capital, loses the dash (Adds-up becomes AddsUp). The names that the
check makes for a function's goals, functions of src/, comments and texts in quotes keep their spelling.
"""
import glob
import re
import sys

DECLARED = re.compile(r"^\s*((?:(?:pub|abbrev|unfoldable|data|record|ruleset)\s+)*)(\|\s*)?([^\s:(){}]+)((?:\s+[({][^:]*:[^)}]*[)}])*)\s+:\s")
NAME = r"[^\s(){},;\[\]`|\"]+"
OF_A_FUNCTION = re.compile(r"crates/[^/]+/proofs/.+/(Answers|Invariants|Proof)\.antt")


def files(*ends):
    found = []
    for end in ends:
        found += glob.glob("crates/**/*" + end, recursive=True)
    return sorted(f for f in found if "/out/" not in f)


def declared_names():
    names = set()
    for path in files(".antt"):
        if OF_A_FUNCTION.fullmatch(path):
            continue
        for line in open(path, encoding="utf-8"):
            if line.lstrip().startswith("--"):
                continue
            found = DECLARED.match(line)
            if found and "-" in found.group(3) and not found.group(3).startswith("◌"):
                names.add(found.group(3))
    return {name for name in names if re.fullmatch(r"[A-Za-z0-9₀-₉'_-]+", name)}


def spelled(name):
    if name[0].isupper():
        return "".join(part[0].upper() + part[1:] for part in name.split("-"))
    return name.replace("-", "_")


def renamed_word(word, names):
    """A word as it stands in a term: each part between dots is a name; what follows a lone `c` is made by the check."""
    parts = word.split(".")
    for place, part in enumerate(parts):
        if part not in names:
            continue
        if place > 0 and parts[0] in ("c", "goal"):
            continue
        parts[place] = spelled(part)
    return ".".join(parts)


def renamed_code(text, names):
    return re.sub(NAME, lambda m: renamed_word(m.group(0), names), text)


def renamed_line(line, names, comment):
    if re.search(r"\.(Goals|Given)\.\{", line):
        return line
    # texts in quotes, and what follows the comment's sign, stay
    out, rest = "", line
    while rest:
        cut = re.search(r'"(?:\\.|[^"\\])*"|' + re.escape(comment), rest)
        if not cut:
            return out + renamed_code(rest, names)
        out += renamed_code(rest[: cut.start()], names)
        if cut.group(0) == comment:
            return out + rest[cut.start():]
        out, rest = out + cut.group(0), rest[cut.end():]
    return out


def main():
    names = declared_names()
    # a name is left where the new spelling is taken already by another declaration
    fallen = {}
    for name in sorted(names):
        fallen.setdefault(spelled(name), []).append(name)
    for new, olds in fallen.items():
        if len(olds) > 1:
            print("fall together:", new, olds)
    everything = {path: open(path, encoding="utf-8").read() for path in files(".antt", ".rt", ".edit")}
    words = set()
    for text in everything.values():
        words.update(re.findall(r"[A-Za-z0-9₀-₉'_-]+", text))
    for name in sorted(names):
        if spelled(name) in words:
            print("taken:", name, "->", spelled(name))
    if "--list" in sys.argv:
        for name in sorted(names):
            print(name, spelled(name))
        return
    for path, text in everything.items():
        comment = "--" if path.endswith(".antt") else "//"
        new = "".join(renamed_line(line, names, comment) for line in text.splitlines(keepends=True))
        if new != text:
            open(path, "w", encoding="utf-8").write(new)
    for path in glob.glob("*.md") + glob.glob("docs/*.md"):
        if path.endswith("PORT.md"):
            continue
        text = open(path, encoding="utf-8").read()
        new = re.sub(r"`[^`\n]*`", lambda m: renamed_code(m.group(0), names), text)
        if new != text:
            open(path, "w", encoding="utf-8").write(new)


if __name__ == "__main__":
    main()
