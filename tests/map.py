"""Holds the drawing of the crates in docs/ARCHITECTURE.md against crates.txt: the same crates, the same paths, each arrow downwards."""
import re
import sys
from pathlib import Path

ROOT = Path(__file__).resolve().parent.parent


def listed():
    """Each crate of crates.txt with those of ours that it uses."""
    lines = [line for line in (ROOT / "crates.txt").read_text().splitlines() if line and not line.startswith("#")]
    uses = {name.split()[0]: rest.split() for name, rest in (line.split(":") for line in lines)}
    return {name: [other for other in others if other in uses] for name, others in uses.items()}


def drawn():
    """Each crate of the drawing with those that its arrow leads to, from the top down."""
    text = (ROOT / "docs/ARCHITECTURE.md").read_text()
    block = text.split("## The graph", 1)[1].split("```", 2)[1]
    rows = re.findall(r"^│ (\w+) *(?:← (.*))?$", block, re.MULTILINE)
    return {name: others.split() for name, others in rows}


def reached(uses, name):
    """All that a crate stands on."""
    found = set()
    waiting = list(uses[name])
    while waiting:
        other = waiting.pop()
        if other not in found:
            found.add(other)
            waiting += uses.get(other, [])
    return found


def differences():
    want, have = listed(), drawn()
    for name in sorted(set(want) ^ set(have)):
        yield f"{name}: " + ("not drawn" if name in want else "drawn, but not in crates.txt")
    order = list(have)
    for name in have:
        for other in have[name]:
            if other not in order or order.index(other) < order.index(name):
                yield f"{name}: the arrow to {other} does not lead down"
        if name in want:
            for other in sorted(reached(want, name) ^ reached(have, name)):
                yield f"{name}: {other} " + ("is missing below it" if other in reached(want, name) else "is drawn below it, but crates.txt has no such path")


def main():
    found = list(differences())
    for line in found:
        print(f"map: {line}")
    return 1 if found else 0


sys.exit(main())
