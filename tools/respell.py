#!/usr/bin/env python3
"""Brings the repository's own names to today's spelling, once, after the port.

usage: python3 tools/respell.py [--list]        at the top of the repository

Words are in snake case, types and modules in upper camel case. A definition or lemma is a name that a file of specs/
or proofs/ declares; its uses in contracts and edits follow. The folder specs/laws becomes specs/Laws; a file
specs/Contracts.antt, whose name Rattle now makes itself, becomes specs/Parts.antt. Names of src/ stay.
--list prints each name that changes, old and new, and writes nothing.
"""

import os
import re
import subprocess
import sys

TOKEN = re.compile(r"[^\s(){}\[\],;.:=@\"]+")
DECLARED = re.compile(r"^\s*(?:(?:pub|abbrev|unfoldable|opaque|data|record)\s+)*([^\s(){}\[\],;.:=@\"]+)\s+:(?:\s|$)")
HEAD = re.compile(r"^\s*(?:(?:pub|abbrev)\s+)*(?:data|record)\s+([^\s(){}\[\],;.:=@\"]+)")
IMPORT = re.compile(r"^\s*(?:pub )?(?:ghost )?use ([^\s{]+?)(?:\.\{(.*)\})?(?: as \S+)?;?$")
GENERATED = re.compile(r"\.proofs\.(?:\+?[a-z_]+\.)*(Tie|Goals|Given|Lts|Reads|Statement|Met|Code)\b")


def files(endings):
    for folder, dirs, names in os.walk("crates"):
        dirs[:] = sorted(d for d in dirs if d != "out")
        for name in sorted(names):
            if name.endswith(endings):
                yield os.path.join(folder, name)


def read(path):
    with open(path, encoding="utf-8") as f:
        return f.read()


def write(path, text):
    with open(path, "w", encoding="utf-8") as f:
        f.write(text)


def snake(name):
    """The name in snake case. A dash stays behind a type, whose name keeps its capitals."""
    if re.fullmatch(r"[A-Z][A-Z0-9_]*", name):
        return name
    parts = name.replace("getD", "get_or").split("-")
    out = parts[0] if parts[0][:1].isupper() else camel(parts[0])
    for before, part in zip(parts, parts[1:]):
        out += ("-" if before[:1].isupper() else "_") + (part if part[:1].isupper() else camel(part))
    return out


def camel(part):
    return re.sub(r"(?<=[a-z0-9])([A-Z])", lambda m: "_" + m.group(1).lower(), part)


def declared():
    """The names that specs/ and proofs/ declare, but for answers to goals, whose names Rattle gives."""
    own = {}
    for path in files((".antt",)):
        for line in read(path).split("\n"):
            m = HEAD.match(line) or DECLARED.match(line)
            if not m or re.search(r":\s+(tie|goal|need)\.", line):
                continue
            own.setdefault(m.group(1), path)
    return own


def imported():
    """The names that come from libraries, or that Rattle makes."""
    names = set()
    for path in files((".antt", ".rt")):
        for line in read(path).split("\n"):
            m = IMPORT.match(line)
            if not m or not m.group(2):
                continue
            module = m.group(1)
            crate = module.split(".")[1] if module.startswith("Rattle.") and "." in module else None
            ours = crate and os.path.isdir(os.path.join("crates", crate)) and not GENERATED.search(module)
            if not ours:
                names |= {it.strip().split(" as ")[0] for it in m.group(2).split(",")}
    return names


def mapping():
    own, others = declared(), imported()
    new = {}
    for name in own:
        to = snake(name)
        if to != name:
            if name in others:
                print(f"respell: {name} is a library's name too, and stays ({own[name]})", file=sys.stderr)
            else:
                new[name] = to
    apart(new, set(own) - set(new))
    return new, own


def apart(new, kept):
    """Where a lemma would have the name of a function, it gets _lem."""
    for to in {it for it in new.values() if it in kept or sum(1 for other in new.values() if other == it) > 1}:
        olds = [name for name, it in new.items() if it == to]
        functions = [name for name in olds if "-" not in name]
        for name in olds:
            if name not in functions or len(functions) > 1:
                new[name] = to + "_lem"
        if functions and to in kept:
            new[to] = to + "_lem"


def respelled(text, new):
    text = TOKEN.sub(lambda m: new.get(m.group(0), m.group(0)), text)
    text = re.sub(r"(?<=specs\.)laws\b", "Laws", text)
    text = re.sub(r"(?<=specs\.)Contracts\b", "Parts", text)
    return text


def move(old, to):
    if os.path.exists(old):
        subprocess.run(["git", "mv", old, to], check=True)


def main(argv):
    new, own = mapping()
    kept = set(own) - set(new)
    for name, to in sorted(new.items()):
        if to in kept or sum(1 for it in new.values() if it == to) > 1:
            print(f"respell: {name} -> {to} falls together with another name", file=sys.stderr)
    if argv == ["--list"]:
        for name, to in sorted(new.items()):
            print(name, to)
        return 0
    for path in files((".antt", ".rt", ".edit")):
        text = read(path)
        now = respelled(text, new)
        if path.endswith(".edit"):
            now = now.replace("specs/laws/", "specs/Laws/").replace("specs/Contracts.antt", "specs/Parts.antt")
        if os.path.basename(path) == "Lib.antt":
            now = re.sub(r"(?m)^((?:pub )?mod )laws$", r"\1Laws", now)
            now = re.sub(r"(?m)^((?:pub )?mod )Contracts$", r"\1Parts", now)
        if now != text:
            write(path, now)
    for crate in sorted(os.listdir("crates")):
        specs = os.path.join("crates", crate, "specs")
        move(os.path.join(specs, "laws"), os.path.join(specs, "Laws"))
        move(os.path.join(specs, "laws.antt"), os.path.join(specs, "Laws.antt"))
        move(os.path.join(specs, "Contracts.antt"), os.path.join(specs, "Parts.antt"))
    return 0


if __name__ == "__main__":
    sys.exit(main(sys.argv[1:]))
