"""Holds the table "Every public function leaves nothing open" in docs/PROMISES.md against the code: each public function is
named there once with its crate, and nothing else is. A function that a public trait declares is `Trait::name` there, and one
that a public type has from `Display`, `Debug` or `From` is `Type::name`."""
import re
import sys
from pathlib import Path

ROOT = Path(__file__).resolve().parent.parent

FUNCTION = re.compile(r'^\s*pub (?:extern "C" )?fn (\w+)', re.MULTILINE)
TYPE = re.compile(r"^pub (?:struct|enum) (\w+)", re.MULTILINE)
# The block's name, and its lines up to the brace at their left.
TRAIT = re.compile(r"^pub trait (\w+)[^{]*\{\n(.*?)^\}", re.MULTILINE | re.DOTALL)
GIVEN = re.compile(r"^impl(?:<[^>]*>)? (?:\w+::)*(?:Display|Debug|From<.*>) for (?:\w+::)*(\w+)[^{]*\{\n(.*?)^\}", re.MULTILINE | re.DOTALL)
METHOD = re.compile(r"^\s+fn (\w+)", re.MULTILINE)
# No clause says what a derived `Debug` writes; of the other derives std's clauses fix what each function answers.
DERIVED = re.compile(r"^#\[derive\([^)]*\bDebug\b[^)]*\)\]\n(?:(?:#|//).*\n)*pub (?:struct|enum) (\w+)", re.MULTILINE)


def in_code():
    sources = [(path.relative_to(ROOT / "crates").parts[0], path.read_text()) for path in sorted((ROOT / "crates").glob("*/src/**/*.rt"))]
    types = {name for _, text in sources for name in TYPE.findall(text)}
    found = set()
    for crate, text in sources:
        found |= {(crate, name) for name in FUNCTION.findall(text)}
        blocks = TRAIT.findall(text) + [block for block in GIVEN.findall(text) if block[0] in types]
        found |= {(crate, f"{owner}::{name}") for owner, body in blocks for name in METHOD.findall(body)}
        found |= {(crate, f"{owner}::fmt") for owner in DERIVED.findall(text)}
    return found


def in_table():
    text = (ROOT / "docs/PROMISES.md").read_text().split("## Every public function leaves nothing open", 1)[1]
    cells = [line.split("|")[1] for line in text.splitlines() if line.startswith("| `")]
    cells += [text.split("The exception is ", 1)[1].split(".", 1)[0]]
    for cell in cells:
        for part in cell.split(" · "):
            crates, names = part.split(":", 1)
            for crate in re.findall(r"`(\w+)`", crates):
                for name in re.findall(r"`([\w:]+)`", names):
                    yield crate, name


def main():
    code, table = in_code(), list(in_table())
    bad = [f"{crate}::{name} is public, and PROMISES does not name it" for crate, name in sorted(code - set(table))]
    bad += [f"PROMISES names {crate}::{name}, which is not public" for crate, name in sorted(set(table) - code)]
    bad += [f"PROMISES names {crate}::{name} twice" for crate, name in sorted({entry for entry in table if table.count(entry) > 1})]
    print("".join(f"promises: {line}\n" for line in bad), end="")
    return 1 if bad else 0


sys.exit(main())
