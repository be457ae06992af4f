#!/usr/bin/env python3
"""Moves the theorems of specs/Laws to proofs/Laws, in the crates whose must-fail edits try wrong definitions.

usage: python3 tools/laws.py        at the top of the repository, after tools/respell.py

An edit of a definition counts as refused only where what it breaks stands in proofs/. What a contract or a definition
cites stays in specs/Laws: whole modules, and the definitions of two modules that have theorems, too. Statements and
proofs stay; paths that name a module follow it. A second run changes nothing.
"""

import glob
import os
import re
import shutil

# Modules of definitions alone, and definitions of others, that contracts of other crates cite.
KEPT = {"table": {"Fine"}}
DEFINED = {("table", "Sections"): ["Holds", "Held", "AcceptedAs"], ("rounds", "Steps"): ["Steady", "SameRow"]}

CRATES = "analysis canon grid listing rounds rules run runner schedule table update worked writer".split()


def read(path):
    with open(path, encoding="utf-8") as f:
        return f.read()


def write(path, text):
    with open(path, "w", encoding="utf-8") as f:
        f.write(text)


def cited(crate, text):
    return set(re.findall(rf"Rattle\.{crate}\.specs\.Laws\.(\w+)", text))


def staying(crate, modules):
    """The modules that contracts and definitions cite, with those that these rest on."""
    top = f"crates/{crate}"
    todo = set(KEPT.get(crate, ()))
    for path in glob.glob(f"{top}/src/**/*.rt", recursive=True) + glob.glob(f"{top}/specs/*.antt"):
        todo |= cited(crate, read(path))
    stay = set()
    while todo:
        module = todo.pop()
        if module in modules and module not in stay:
            stay.add(module)
            todo |= cited(crate, read(f"{top}/specs/Laws/{module}.antt"))
    return stay


def declared(text):
    return re.findall(r"(?m)^pub mod (\w+)$", text)


def move(crate):
    top = f"crates/{crate}"
    if not os.path.isdir(f"{top}/specs/Laws"):
        return set()
    node = read(f"{top}/specs/Laws.antt")
    order = declared(node)
    stay = staying(crate, set(order))
    gone = [module for module in order if module not in stay]
    if not gone:
        return set()
    os.makedirs(f"{top}/proofs/Laws", exist_ok=True)
    for module in gone:
        shutil.move(f"{top}/specs/Laws/{module}.antt", f"{top}/proofs/Laws/{module}.antt")
        if os.path.isdir(f"{top}/specs/Laws/{module}"):
            shutil.move(f"{top}/specs/Laws/{module}", f"{top}/proofs/Laws/{module}")
    there = read(f"{top}/proofs/Laws.antt") if os.path.exists(f"{top}/proofs/Laws.antt") else ""
    heading = "".join(line + "\n" for line in (there or node).split("\n") if line.startswith("--"))
    write(f"{top}/proofs/Laws.antt", heading + "".join(f"pub mod {m}\n" for m in order if m in gone or m in declared(there)))
    root = f"{top}/proofs/Lib.antt"
    lib = read(root) if os.path.exists(root) else ""
    if not re.search(r"(?m)^pub mod Laws$", lib):
        lines = lib.split("\n")
        at = next((i for i, line in enumerate(lines) if not line.startswith("--")), len(lines))
        lines.insert(at, "pub mod Laws")
        write(root, "\n".join(lines).rstrip("\n") + "\n")
    if stay:
        write(f"{top}/specs/Laws.antt", "".join(line + "\n" for line in node.rstrip("\n").split("\n")
                                              if not re.match(r"pub mod ", line) or line[8:] in stay))
    else:
        os.remove(f"{top}/specs/Laws.antt")
        os.rmdir(f"{top}/specs/Laws")
        lib = read(f"{top}/specs/Lib.antt")
        write(f"{top}/specs/Lib.antt", re.sub(r"(?m)^pub mod Laws\n", "", lib))
    return set(gone)


def split(crate, module, names):
    """Has the definitions of a module in specs/Laws, and its theorems in proofs/Laws."""
    top, here = f"crates/{crate}", f"crates/{crate}/proofs/Laws/{module}.antt"
    text = read(here)
    blocks = []
    for name in names:
        found = re.search(rf"(?m)(?:^--.*\n)*^(?:abbrev pub|pub record) {name}\b.*\n(?:\S.*\n|[ \t]+.*\n)*", text)
        if found:
            blocks.append(found[0])
            text = text.replace(found[0] + "\n", "", 1)
    if not blocks:
        return
    lines = text.split("\n")
    first = next(i for i, line in enumerate(lines) if line.startswith("use "))
    uses = [line for line in lines if line.startswith("use ") and f"{crate}.proofs." not in line]
    lines.insert(first, f"use Rattle.{crate}.specs.Laws.{module}.{{{', '.join(names)}}}")
    write(here, "\n".join(lines))
    os.makedirs(f"{top}/specs/Laws", exist_ok=True)
    write(f"{top}/specs/Laws/{module}.antt", "\n".join([*lines[:first], *uses, "", "\n".join(blocks)]))
    node = f"{top}/specs/Laws.antt"
    if not os.path.exists(node):
        write(node, "-- What contracts of inner functions cite.\n")
        write(f"{top}/specs/Lib.antt", read(f"{top}/specs/Lib.antt").rstrip("\n") + "\npub mod Laws\n")
    write(node, read(node) + f"pub mod {module}\n")


def parted(text, crate, module, names):
    """Imports of a module that is split name the definitions where they are."""
    def one(m):
        cited = [it.strip() for it in m[3].split(",")]
        each = [(part, [it for it in cited if (it.split(" as ")[0] in names) == (part == "specs")]) for part in ("specs", "proofs")]
        return "\n".join(f"{m[1]}Rattle.{crate}.{part}.Laws.{module}.{{{', '.join(its)}}}{m[4]}" for part, its in each if its)
    return re.sub(rf"(?m)^((?:pub |ghost )?use )Rattle\.{crate}\.(specs|proofs)\.Laws\.{module}\.\{{([^}}]*)\}}(;?)$", one, text)


def main():
    moved = {crate: move(crate) for crate in CRATES if os.path.isdir(f"crates/{crate}")}
    for crate in moved:  # what had moved before is found by where it stands
        moved[crate] |= {os.path.basename(p)[:-5] for p in glob.glob(f"crates/{crate}/proofs/Laws/*.antt")}
    for (crate, module), names in DEFINED.items():
        split(crate, module, names)
    for path in glob.glob("crates/*/*/**/*", recursive=True):
        if not path.endswith((".antt", ".rt", ".edit")) or "/out/" in path:
            continue
        text = read(path)
        split_there = {crate: [m for c, m in DEFINED if c == crate] for crate in moved}
        now = re.sub(
            r"Rattle\.(\w+)\.specs\.Laws\.(\w+)",
            lambda m: f"Rattle.{m[1]}.proofs.Laws.{m[2]}"
            if m[2] in moved.get(m[1], ()) and m[2] not in split_there.get(m[1], ())
            else m[0],
            text,
        )
        if not any(path == f"crates/{c}/{part}/Laws/{m}.antt" for c, m in DEFINED for part in ("specs", "proofs")):
            for (crate, module), names in DEFINED.items():
                now = parted(now, crate, module, names)
        if path.endswith(".edit"):
            crate = path.split("/")[1]
            now = re.sub(
                r"(?m)^file: specs/Laws/(\w+)\.antt$",
                lambda m: f"file: proofs/Laws/{m[1]}.antt" if m[1] in moved.get(crate, ()) else m[0],
                now,
            )
        if now != text:
            write(path, now)


if __name__ == "__main__":
    main()
