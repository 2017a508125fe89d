#!/usr/bin/env python3
"""Respells this repository's own definitions and lemmas as today's Rattle does.

Run once at the top of the repository, after /opt/rattle/port/port.py:

    python3 tools/respell.py

A name of a definition, lemma, constructor or record field that is declared in specs/ or proofs/ and
has a dash is respelled: a type or fact in upper camel case (Unique-text, UniqueText; also Goes_on,
GoesOn), anything else in snake case (text-of, text_of). A lemma whose name joins the names of two functions keeps that dash
(length-laid). Names that Rattle makes (goals, steps), functions of src/, strings, comments, inputs and
outputs stay. It prints names that would fall together, and changes nothing then.
"""
import collections
import glob
import re
import sys

DECLARED = re.compile(
    r"^(\s*)((?:(?:abbrev|unfoldable|pub|opaque)\s+)*)((?:data|record)\s+)?"
    r"([^\s(){}\[\];,.]+)\s*(?:[({][^=]*)?:\s"
)
TOKEN = re.compile(r"[^\s(){}\[\],;.`\"]+")
IMPORT = re.compile(r"use (Rattle\.[\w.+-]+)\.\{([^}]*)\}")
# functions of the library whose laws are named by joining two functions
JOINING = {"length"}


def old_form(name):
    """A name with a dash, or a type's with an underscore."""
    return "-" in name or re.match(r"[A-Z]\w*_", name) is not None


def antt_files():
    return sorted(
        glob.glob("crates/*/specs/**/*.antt", recursive=True)
        + glob.glob("crates/*/proofs/**/*.antt", recursive=True)
    )


def code_of(line, mark):
    """The part of a line before its comment, and the comment."""
    at = re.search(r"(^|\s)" + re.escape(mark) + r"(\s|$)", line)
    return (line, "") if at is None else (line[: at.start()], line[at.start() :])


def declarations():
    """Each declared name that has a dash: its files, and whether it is a field, a lemma, or a type."""
    found = collections.OrderedDict()
    plain = set()
    for path in antt_files():
        generated = path.endswith(("/Answers.antt", "/Invariants.antt", "/Choices.antt"))
        record_at = None
        for line in open(path):
            code, _ = code_of(line.rstrip("\n"), "--")
            hit = DECLARED.match(code)
            if not code.strip():
                continue
            depth = len(code) - len(code.lstrip())
            if record_at is not None and depth <= record_at:
                record_at = None
            if hit is None:
                continue
            name = hit.group(4)
            field = record_at is not None
            if (hit.group(3) or "").startswith("record") and code.rstrip().endswith("where"):
                record_at = depth
            if generated and re.search(r":\s*(goal|given)\.", code):
                continue
            plain.add(name)
            if not old_form(name):
                continue
            entry = found.setdefault(name, {"files": set(), "field": False, "lemma": True})
            entry["files"].add(path)
            entry["field"] |= field
            entry["lemma"] &= "/proofs/" in path and "abbrev" not in hit.group(2)
    for path in antt_files():
        text = open(path).read()
        for name in re.findall(r"deriving \w+ as (\S+)", text):
            if "-" in name:
                found[name] = {"files": {path}, "field": False, "lemma": True}
        for name in re.findall(r"[{,] *[A-Z]\w* as ([A-Z][^\s,}]*)", text):
            if old_form(name):
                found[name] = {"files": {path}, "field": False, "lemma": False}
    return found, plain


def respelt(name, entry, functions):
    if re.match(r"[A-Z]", name) and not name.endswith("-discrete"):
        return "".join(part[:1].upper() + part[1:] for part in re.split("[-_]", name))
    if entry["lemma"]:
        for at in [i for i, c in enumerate(name) if c == "-"]:
            left, right = name[:at].replace("-", "_"), name[at + 1 :].replace("-", "_")
            if left in JOINING and right in functions:
                return left + "-" + right
    snake = name.replace("-", "_")
    return snake[:1].lower() + snake[1:]


def functions_of(found, plain):
    words = {n for n in plain if re.match(r"[a-z]", n) and "-" not in n}
    return words | {n.replace("-", "_") for n, e in found.items() if not e["lemma"]}


def imports():
    taken = set()
    for path in antt_files() + glob.glob("crates/*/src/**/*.rt", recursive=True):
        for module, names in IMPORT.findall(open(path).read()):
            if module.startswith("Rattle.std"):
                taken |= {n.strip() for n in names.split(",")}
    return taken


def turn(text, table, fields):
    def one(hit):
        word = hit.group(0)
        new = table.get(word)
        if new is None:
            return word
        if hit.start() > 0 and hit.string[hit.start() - 1] == "." and word not in fields:
            return word
        return new

    return TOKEN.sub(one, text)


def turn_file(path, table, fields, mark):
    lines = open(path).read().split("\n")
    out = []
    for line in lines:
        code, comment = code_of(line, mark)
        out.append(turn(code, table, fields) + comment)
    new = "\n".join(out)
    if new != "\n".join(lines):
        open(path, "w").write(new)
        return 1
    return 0


def turn_page(path, table, fields):
    text = open(path).read()
    new = re.sub(r"`[^`\n]+`", lambda hit: turn(hit.group(0), table, fields), text)
    if new != text:
        open(path, "w").write(new)
        return 1
    return 0


def main():
    found, plain = declarations()
    functions = functions_of(found, plain)
    table = {n: respelt(n, e, functions) for n, e in found.items()}
    fields = {n for n, e in found.items() if e["field"]}
    taken = imports()
    bad = 0
    for name, new in table.items():
        if name in taken:
            print("a library's name too:", name)
            bad += 1
        if new != name and (new in taken or new in plain):
            print("falls together:", name, "->", new)
            bad += 1
    twice = [n for n, k in collections.Counter(table.values()).items() if k > 1]
    for new in twice:
        print("falls together:", [n for n in table if table[n] == new], "->", new)
        bad += 1
    if bad and "--anyway" not in sys.argv:
        return 1
    changed = sum(turn_file(p, table, fields, "--") for p in antt_files())
    changed += sum(turn_file(p, table, fields, "//") for p in glob.glob("crates/*/src/**/*.rt", recursive=True))
    changed += sum(turn_page(p, table, fields) for p in ["README.md"] + glob.glob("docs/*.md"))
    print(f"respelled {len([n for n in table if table[n] != n])} names in {changed} files")
    return 0


if __name__ == "__main__":
    sys.exit(main())
