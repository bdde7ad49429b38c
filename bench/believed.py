#!/usr/bin/env python3
"""How much has to be read to believe the promises of the shipped program, clause by clause.

For each clause of the program's top call (aqfp_cli's `system::run`), in the order of the file: the definitions that it
stands on, their lines without comments and imports, and how many of these lines no clause above it stands on. The last
line is the sum. docs/measuring.md says which names are followed.
"""
import importlib.machinery
import importlib.util
import pathlib
import re

TOP = pathlib.Path(__file__).resolve().parent.parent
loader = importlib.machinery.SourceFileLoader("closure", str(TOP / ".ci" / "closure"))
closure = importlib.util.module_from_spec(importlib.util.spec_from_loader("closure", loader))
loader.exec_module(closure)


def imports(text):
    """Where each name that the file's clauses may use is defined."""
    found = {}
    for crate, module, names in re.findall(r"ghost use Rattle\.(\w+)\.specs\.([\w.]+)\.\{([^}]*)\};", text):
        if not module.startswith("declared"):
            found.update({name.strip(): f"{crate}/{module.replace('.', '/')}" for name in names.split(",")})
    return found


def main():
    text = (TOP / "crates/aqfp_cli/src/system.rt").read_text()
    origin, seen, whole = imports(text), set(), 0
    print(f"{'clause':14} {'definitions':>11} {'lines':>6} {'new':>6}")
    for name, body in re.findall(r"    ensures (\w+) \{(.*?)\}\n(?=    (?:ensures|//)|\n|\{)", text, re.S):
        roots = []
        for word in dict.fromkeys(closure.NAME.findall(body)):
            root = closure.look_up(origin[word], word) if word in origin else None
            if root and root not in roots:
                roots.append(root)
        stands_on = closure.closed(roots)
        lines = sum(closure.lines_of(*at) for at in stands_on)
        new = sum(closure.lines_of(*at) for at in stands_on if at not in seen)
        seen.update(stands_on)
        whole += new
        print(f"{name:14} {len(stands_on):11} {lines:6} {new:6}")
    print(f"{'all':14} {len(seen):11} {whole:6}")


main()
