#!/usr/bin/env python3
"""The lines of definitions that the main theorem rests on.

Starts at the names that the contract of `run_tool` cites, and goes from each definition in specs/ to those that it
names. Counts lines with code: no comments, no imports, no blank lines. What std and the kit's crates define isn't
counted, nor are the views of types, which stand in src/. With --files it prints the lines of each file.
"""
import os
import re
import sys

TOP = next((word for word in sys.argv[1:] if not word.startswith("--")), ".")
START = "crates/tool_run/src/tool.rt"
NAME = r"[^\s(){}\[\],;.:λ]+"
DEFINED = re.compile(rf"^\s*(?:(?:abbrev|unfoldable|pub|data|record)\s+)+({NAME})\s.*:(?:\s|$)|^\s*({NAME}) :\s")


def imports(text, ghost):
    """Each imported name with the module and the name that it stands for."""
    found = {}
    for path, names in re.findall(r"^\s*" + ("ghost use " if ghost else r"(?:pub )?use ") + r"(Rattle\.[\w.]+)\.\{([^}]*)\}", text, re.M):
        for item in names.split(","):
            parts = item.split()
            if parts:
                found[parts[-1]] = (path, parts[0])
    return found


def module_of(path):
    """The module that a file of specs/ is."""
    inside = os.path.relpath(path, f"{TOP}/crates")
    return "Rattle." + inside[: -len(".antt")].replace("/", ".")


def read(path):
    """The definitions of a file: each name with its block of lines; and what the file imports."""
    with open(path, encoding="utf-8") as file:
        text = file.read()
    blocks, names = re.split(r"\n\s*\n", text), {}
    for at, block in enumerate(blocks):
        lines = [line for line in block.split("\n") if not line.lstrip().startswith(("--", "use ", "pub use "))]
        for line in lines:
            made = DEFINED.match(line)
            if made:
                names.setdefault(made[1] or made[2], (at, [it for it in lines if it.strip()]))
    return names, imports(text, False)


modules = {}
for folder, _, files in os.walk(f"{TOP}/crates"):
    if "/specs" in folder and "/out" not in folder:
        for name in files:
            if name.endswith(".antt"):
                modules[module_of(f"{folder}/{name}")] = read(f"{folder}/{name}")

with open(f"{TOP}/{START}", encoding="utf-8") as file:
    text = file.read()
contract = text[text.index("pub fn run_tool") : text.index("\n{", text.index("pub fn run_tool"))]
cited = imports(text, True)
todo = [cited[word] for word in set(re.findall(NAME, contract)) & set(cited)]
seen, counted = set(), {}
while todo:
    module, name = todo.pop()
    if (module, name) in seen or module not in modules:
        continue
    seen.add((module, name))
    names, used = modules[module]
    if name not in names:
        # handed on by a pub use
        todo += [used[name]] if name in used else []
        continue
    at, lines = names[name]
    counted.setdefault(module, {})[at] = len(lines)
    for word in set(re.findall(NAME, "\n".join(lines))):
        if word in used:
            todo.append(used[word])
        elif word in names:
            todo.append((module, word))
each = {module: sum(blocks.values()) for module, blocks in counted.items()}
if "--files" in sys.argv:
    for module in sorted(each):
        print(f"{each[module]:5} {module}")
print(sum(each.values()), "lines of definitions in", len(each), "files")
