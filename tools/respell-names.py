#!/usr/bin/env python3
"""Spells this repository's own definitions and lemmas as today's Rattle does: words in snake case, types in camel case.

usage: respell-names.py [--table FILE]     at the top of the repository, once, right after the kit's port.py

port.py turns the names that a library of the kit spells alike. This turns the others: each name that a file of specs/ or proofs/ declares,
in .antt files, in the clauses and `ghost use` items of .rt files, and in the texts of must-fail edits. Functions of src/ keep their names.
The rewriting itself is the kit's snake.py, by a table; --table writes that table to FILE too. Two names that would fall together, and a new
name that a file has already, stop it before anything is written.
"""
import collections
import os
import re
import subprocess
import sys
import tempfile

WORD = r'[^\s(){}.;,@"«»]+'
DECLARED = re.compile(rf'^ *(?:(?:abbrev|unfoldable|opaque|private|pub|data|record|ghost) +)*({WORD}(?: +{WORD})*?)(?: +[({{][^:]*:[^:]*?[)}}])* +: +(.*)', re.M)
HEAD = re.compile(rf'^ *(?:(?:abbrev|unfoldable|opaque|private|pub) +)*(?:data|record) +({WORD})', re.M)
# What would meet a word of the language, another definition or a variable: its new name is chosen here.
CHOSEN = {
    "ROW-WORDS": "row_size", "QUEUE-WORDS": "queue_size", "TILE-WORDS": "tile_size", "HOME-WORDS": "home_size",
    "LINE-WORDS": "words_in_line", "ACCEPTED": "no_refusal", "NO-QUEUE": "no_queue_number", "NOC3-THEN-NOC1": "noc3_then_noc1_queues",
    "VALID": "valid_flag", "NOT-VALID": "not_valid_flag", "CLEAN": "clean_flag", "DIRTY": "dirty_flag", "NONE": "no_number",
    "MISS": "miss_flag", "NO-MISS": "no_miss_flag", "FIELDS": "field_count", "DECIMAL": "decimal_base", "HEXADECIMAL": "hexadecimal_base",
}  # fmt: skip
# The constants of a file get a word more, by which they differ from what they number; the names of src/ are other ones.
ENDINGS = {
    "crates/numbers/specs/Types.antt": "_type",
    "crates/numbers/specs/Queues.antt": "_queue",
    "crates/numbers/specs/Refusals.antt": "_refusal",
    "crates/layout/specs/Places.antt": "_place",
}
# a name that is the kit's too
KIT = {"length-append"}
CONSTANT = r"[A-Z][A-Z0-9]+(-[A-Z0-9]+)*"


def snake(name, paths):
    if name in CHOSEN:
        return CHOSEN[name]
    if re.fullmatch(CONSTANT, name):
        low = name.lower().replace("-", "_")
        for path in paths:
            low += ENDINGS.get(path, "")
        return re.sub("_at$", "_offset", low) if "crates/job_format/specs/Places.antt" in paths else low
    if re.match(r"[A-Z]", name):
        return re.sub(r"-(\w)", lambda m: m[1].upper(), name)
    words = re.sub(r"(?<=[a-z0-9])([A-Z])", lambda m: "_" + m[1].lower(), name)
    return words.replace("-", "_")


def texts(ends):
    for folder, dirs, files in os.walk("crates"):
        dirs[:] = sorted(d for d in dirs if d != "out")
        for f in sorted(files):
            if f.endswith(ends):
                yield os.path.join(folder, f)


def read(path):
    with open(path, encoding="utf-8") as f:
        return f.read()


def code(text):
    return re.sub(r"--(?: [^\n]*|$)", "", re.sub(r'"(?:[^"\\\n]|\\.)*"', '""', text), flags=re.M)


def declared():
    names = collections.defaultdict(set)
    for path in texts(".antt"):
        text = code(read(path))
        for m in HEAD.finditer(text):
            names[m[1]].add(path)
        for m in DECLARED.finditer(text):
            if path.endswith("/Proof.antt") and m[2].startswith("tie."):
                continue
            for name in m[1].split():
                if name in ("use", "let", "where", "data", "record", "λ", "="):
                    break
                names[name].add(path)
    return names


def main(argv):
    names = declared()
    functions = {f[: -len("/Proof.antt")].rsplit("/", 1)[-1] for f in texts("/Proof.antt")}
    table = {}
    for name in names:
        if not re.fullmatch(r"[A-Za-z][A-Za-z0-9'₀-₉_-]*", name) or name in KIT:
            continue
        if name.startswith("Need-") or name == "tie":
            continue
        new = snake(name, names[name])
        if new != name:
            table[name] = new
    # A lemma that would have its definition's name says that it is one.
    alike = collections.defaultdict(set)
    for old in names:
        alike[table.get(old, old)].add(old)
    for new, olds in alike.items():
        stated = {o for o in olds if any("/specs/" in p for p in names[o])}
        if len(olds) > 1:
            for o in olds - stated if len(stated) == 1 else {o for o in olds if re.fullmatch("[a-z0-9-]+", o)}:
                table[o] = new + "_lem"
    bad = []
    back = collections.defaultdict(set)
    for old in set(names) | set(table):
        back[table.get(old, old)].add(old)
    for new, olds in sorted(back.items()):
        if len(olds) > 1:
            bad.append(f"fall together as {new}: {' '.join(sorted(olds))}")
    for path in texts((".antt", ".rt")):
        text = code(read(path))
        words = set(re.findall(WORD, text))
        if path.endswith(".rt"):
            text = re.sub(r"//[^\n]*", "", text)
            own = set(re.findall(r"(?<![:\w])(\w+): (?!:)", text)) | set(re.findall(r"\blet (?:mut )?(\w+)", text))
        else:
            own = set(re.findall(rf"(?<![.\w])({WORD})(?!\.)(?=[\s()]|$)", text))
        for old in sorted(words & set(table)):
            if table[old] in own and table[old] not in table:
                bad.append(f"{path}: {old} would be {table[old]}, which stands there")
    # imported from the kit under the same name
    for path in texts((".antt", ".rt")):
        for m in re.finditer(r"use (Rattle\.std|native|mathlib|lib|Prim|borrow)[\w.]*\.\{([^}]*)\}", read(path)):
            for item in re.split(r",\s*", m[2]):
                if item.split(" as ")[0] in table:
                    bad.append(f"{path}: {item} is the kit's")
    if "--list" in argv:
        for o, n in sorted(table.items()):
            print(f"{o}\t{n}")
    if bad:
        print("\n".join(bad), file=sys.stderr)
        return 1
    return 0 if "--list" in argv else apply(table, argv)


def apply(table, argv):
    rows = "".join(f"{o}\t{n}\n" for o, n in sorted(table.items()))
    if "--table" in argv:
        with open(argv[argv.index("--table") + 1], "w") as f:
            f.write(rows)
    kit = os.path.dirname(subprocess.run(["rt", "doc"], capture_output=True, text=True, check=True).stdout.strip())
    turn = os.path.join(kit, "port", "notes", "2026-11-18-names-are-in-snake-case", "snake.py")
    with tempfile.NamedTemporaryFile("w", suffix=".tsv") as f:
        f.write(rows)
        f.flush()
        r = subprocess.run([sys.executable, turn, "--table", f.name, "--only", "antt,rt", "crates"], capture_output=True, text=True)
    print(r.stdout[-3000:], r.stderr[-3000:])
    for path in texts(".edit"):
        text = read(path)
        new = "".join(
            re.sub(WORD, lambda m: table.get(m[0], m[0]), line) if line.startswith(("old:", "new:")) else line for line in text.splitlines(keepends=True)
        )
        if new != text:
            with open(path, "w", encoding="utf-8") as f:
                f.write(new)
    return r.returncode


if __name__ == "__main__":
    sys.exit(main(sys.argv[1:]))
