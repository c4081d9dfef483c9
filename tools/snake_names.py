#!/usr/bin/env python3
"""Respells this repository's own definitions and lemmas: words in snake case, types in camel case.

usage: python3 tools/snake_names.py [--list|--locals]      at the top of the repository

Run once, after the kit's port.py. It renames what the files of specs/ and proofs/ declare (definitions, lemmas, record
fields, constructors) and what src/ declares as ghost members and names of clauses, wherever they are named: in .antt
files, and in .rt files outside strings and comments. Names that Rattle makes (goals, steps) and names of src/ stay.
With --locals, run after that, it respells what lemma files and specs/ bind or declare inside modules, and names given by
`as`; names of the library stay.
"""
import os
import re
import sys

WORD = r"[^\s(){}\[\].,;:@⟨⟩\"`]+"
DECLARED = re.compile(r"^\s*(?:(?:abbrev|pub|unfoldable|data|record|axiom|constructor)\s+)*(" + WORD + r")(?:\s+[({].*)?\s+:\s")
KINDED = re.compile(r"^\s*(?:pub\s+)?(?:abbrev\s+)?(?:pub\s+)?(data|record)\s+(" + WORD + r")")
GHOST = re.compile(r"\bghost\s+(" + WORD + r")\s*[:=]")
CLAUSE = re.compile(r"\b(?:requires|ensures)\*?\s+(" + WORD + r")\s*\{")


def files(root, ending):
    for folder, dirs, names in os.walk(os.path.join(root, "crates")):
        dirs[:] = sorted(d for d in dirs if d != "out")
        for name in sorted(names):
            if name.endswith(ending):
                yield os.path.join(folder, name)


def read(path):
    with open(path, encoding="utf-8") as f:
        return f.read()


def signature(lines, i):
    """The declaration at line i with the lines that go on from it."""
    text = lines[i]
    indent = len(text) - len(text.lstrip())
    for line in lines[i + 1:]:
        if not line.strip() or len(line) - len(line.lstrip()) <= indent:
            break
        text += " " + line.strip()
    return text


def is_type(text):
    """Whether a signature ends in Type."""
    body = re.sub(r"\s+where\s*$", "", text.strip())
    return re.search(r"(?:→|:)\s*Type(?:\s+\S+)?$", body) is not None


def camel(name):
    return "".join(part[:1].upper() + part[1:] for part in re.split(r"[-_]", name))


# a record of one face has the name in camel case; these say it of all
OTHER = {"Rules-hold": "RulesAlwaysHold", "Turning-holds": "TurningAlwaysHolds", "Settling-holds": "SettlingAlwaysHolds"}


def renamed(name, kind):
    return OTHER.get(name) or (camel(name) if kind else name.replace("-", "_"))


def declared(root):
    """Each hyphenated name that the repository declares, whether it is a type, and where."""
    found, fields = {}, set()
    for path in files(root, ".antt"):
        lines = read(path).split("\n")
        in_record = False
        for i, line in enumerate(lines):
            if line.lstrip().startswith("--"):
                continue
            m = KINDED.match(line)
            if m:
                in_record = m.group(1)
                base = len(line) - len(line.lstrip())
                if "-" in m.group(2):
                    found.setdefault(m.group(2), []).append((True, path))
                continue
            if in_record and line.strip() and len(line) - len(line.lstrip()) <= base:
                in_record = False
            m = DECLARED.match(line)
            if not m or "-" not in m.group(1).strip("-"):
                continue
            name = m.group(1)
            if name in ("let", "in", "use", "where") or line.lstrip().startswith(("let ", "in ", "use ")):
                continue
            text = signature(lines, i)
            if re.search(r":\s+goal\.", text):
                continue
            if in_record:
                fields.add(name)
            elif re.match(r"^\s*(?:abbrev|pub|unfoldable|data|record)\s", line) or re.match(r"^\s{0,2}\S", line):
                pass
            else:
                continue
            found.setdefault(name, []).append((not in_record and is_type(text), path))
    for path in files(root, ".rt"):
        for line in read(path).split("\n"):
            for m in list(GHOST.finditer(line)) + list(CLAUSE.finditer(line)):
                if "-" in m.group(1):
                    found.setdefault(m.group(1), []).append((False, path))
                    fields.add(m.group(1))
    return found, fields


NAME = re.compile(r"(?<![\w'\-′·])[A-Za-z_∥][\w'′₀-₉]*(?:-[\w'′₀-₉+]+)+(?![\w'′\-])")


def turn_text(text, table, fields):
    def one(m):
        name = m.group(0)
        before = m.string[:m.start()]
        if before.endswith("."):
            head = re.search(r"([\w'\-]+)\.$", before)
            root = re.search(r"(?<![.\w)])([\w'\-]+)\.$", before)
            if root and root.group(1) in ("c", "w", "l", "goal", "initial", "fn"):
                return name
            if before.endswith("goal.") or name not in table:
                return name
            if re.search(r"[A-Z][\w·]*\.$", before) or name in fields:
                return table[name]
            return name
        return table.get(name, name)
    return NAME.sub(one, text)


LIBRARY = re.compile(r"use (?:Rattle\.std|mathlib|lib|borrow|native|denote)[\w.+]*\.\{([^}]*)\}")
ALIAS = re.compile(r"\bas ([A-Za-z_][\w']*(?:-[\w']+)+)")
LOCAL = re.compile(r"(?<![\w'.\-])[A-Za-z_][\w']*(?:-[\w'+]+)+(?![\w'\-])")


def locals_of(root):
    """Respells the names that lemma files and specs/ use and the library does not have."""
    library, aliases = set(), set()
    for path in list(files(root, ".antt")) + list(files(root, ".rt")):
        for names in LIBRARY.findall(read(path)):
            library |= {x.strip().split(" as ")[0] for x in names.split(",")}
        aliases |= set(ALIAS.findall(read(path)))
    for path in list(files(root, ".antt")) + list(files(root, ".rt")):
        whole = path.endswith(".antt") and not path.endswith(("Answers.antt", "Invariants.antt", "Proof.antt"))

        def one(m):
            mine = m.group(0) in aliases or (whole and m.group(0) not in library)
            return m.group(0).replace("-", "_") if mine else m.group(0)

        old = read(path)
        new = "\n".join(line if line.lstrip().startswith(("--", "//")) else LOCAL.sub(one, line) for line in old.split("\n"))
        if new != old:
            open(path, "w", encoding="utf-8").write(new)


RT_PART = re.compile(r'("(?:[^"\\]|\\.)*"|//[^\n]*)')


def main():
    root = os.getcwd()
    if "--locals" in sys.argv:
        locals_of(root)
        return
    found, fields = declared(root)
    table, both = {}, []
    for name, places in sorted(found.items()):
        kinds = {k for k, _ in places}
        if len(kinds) > 1:
            both.append(name)
        table[name] = renamed(name, kinds == {True})
    if "--list" in sys.argv:
        for name, new in sorted(table.items()):
            print(name, new, *sorted({os.path.relpath(p, root) for _, p in found[name]})[:3])
        print("both a type and a word:", both)
        return
    for path in files(root, ".antt"):
        old = read(path)
        new = "\n".join(l if l.lstrip().startswith("--") and "`" not in l else turn_text(l, table, fields) for l in old.split("\n"))
        if new != old:
            open(path, "w", encoding="utf-8").write(new)
    for path in files(root, ".rt"):
        old = read(path)
        new = "".join(p if k % 2 else turn_text(p, table, fields) for k, p in enumerate(RT_PART.split(old)))
        if new != old:
            open(path, "w", encoding="utf-8").write(new)


main()
