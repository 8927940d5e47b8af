#!/usr/bin/env python3
"""Brings the repository's own definitions and lemmas to snake case: a name's dashes become underscores.

usage: python3 tools/respell.py      at the top, once, after the kit's port/port.py

Names of the library, and names that Rattle makes, keep theirs. In comments and pages a name stands between backticks, alone. An edit's
names are turned in its lines 'old:' and 'new:'. It does not look for names that fall together. The crate `hex` gets another name.
"""

import os
import re
import sys

NAME = re.compile(r"(?<![\w'/.-])(?!b'-')(?:[^\W\d]|\u2115|\u2124)[\w']*(?:-[\w']+)+|(?<=\.)[^\W\d][\w']*(?:-[\w']+)+")
MADE = re.compile(r"(Need|Lts|After)-.*|(loop|invariant|decreases|returns)-\d|invariant-loop.*|decreases-loop.*|returns-\d|t-\d|turn-\d|loop-test.*|.*-requires(-\d)?")
LIBRARY = set(
    """
    Goes-gave_slice Goes-none_slice WpFn-mono add-le-add add-mul add-one add-one-dec add-one-le add-thm add-zero append-nil div-add-mod'
    div-div-eq-div-mul div-fits div-le_self div-lt_iff_lt-mul div-mul-le_self div-one drop-append-add drop-append-le drop-cons drop-drop
    drop-length drop-nil drop-set-lt drop_of_length-le eq-eqb eq_of_mul-eq-mul_right eqb-false eqb-suc-zero eqb-true get_or-append
    get_or-append_seam get_or-drop get_or-eq_default get_or-map get_or-set_other get_or-set_same get_or-take le-add_left le-add_right
    le-div_iff_mul-le le-leb le-ltb le-max_left le-max_right le-mul_of_pos_right le-suc_iff le_of_mul-le-mul_right le_of_suc-le-suc
    leb-false leb-suc-suc leb-suc-zero leb-true leb-zero length-append length-drop length-map length-paste length-replicate length-set
    length-take length-take-le lt-div-mul-add lt-leb lt-ltb lt-wf_rel ltb-false ltb-true map-append map-id map-map mod-eq_of_lt mod-lt
    mod-mod-pow mod-pow-add mul-add mul-le-mul mul-le-mul_left mul-le-mul_right mul-mod_left mul-one mul-pos mul-suc mul-zero nat_abs-le
    neg_ℤ-neg_ℤ none-ne-some not-false not-suc-le-zero not-true of_bits-to_bits one-add one-le-pow one-mul paste-suc paste-zero pow-add
    pow-le-pow_right pow-suc pow-succ' shl-shr shr-shr some-injective suc-mul take-add take-append-drop take-append-le take-append_seam
    take-length take-suc take-suc-set take-take to_z-of_z zero-add zero-le zero-lt-suc zero-mod zero-mul ℤ-neg_ℤ_cancel ℤ-one ℤ-zero
    shr-slice-copy shr-slice-vals
    """.split()
)


def kept(name):
    return name in LIBRARY or MADE.fullmatch(name)


def turned(text):
    return NAME.sub(lambda m: m.group() if kept(m.group()) else m.group().replace("-", "_"), text)


def quoted(text):
    return re.sub(r"`[^`\n]*`", lambda m: m.group() if " " in m.group() or not known(m.group().strip("`")) else turned(m.group()), text)


def known(name):
    return name in NAMES or ("-" in name and name.replace("-", "_") in TOKENS)


def own(text):
    """The names of a file's code, comments left out."""
    return {n for line in text.split("\n") for n in NAME.findall(split(line, "--")[0])}


def split(line, mark):
    m = re.search(r"(?:^|(?<=\s))" + re.escape(mark) + r"(?=\s|$)", line)
    return (line[: m.start()], line[m.start() :]) if m else (line, "")


def proof(text):
    return "\n".join(turned(a) + quoted(b) for a, b in (split(line, "--") for line in text.split("\n")))


def ghost(line):
    """A line of code: only what stands outside strings, and no subtraction, which is laid out with spaces."""
    a, b = split(line, "//")
    parts = re.split(r'("(?:[^"\\]|\\.)*")', a)
    return "".join(p if p.startswith('"') else turned(p) for p in parts) + quoted(b)


def code(text):
    return "\n".join(map(ghost, text.split("\n")))


def edit(text):
    return "\n".join(re.sub(r"^(old|new): (.*)$", lambda m: m[1] + ": " + ghost(m[2]), line) if re.match("(old|new): ", line) else line for line in text.split("\n"))


def files(top, endings):
    for folder, folders, names in os.walk(top):
        folders[:] = sorted(f for f in folders if f not in ("out", "target", ".git"))
        for name in sorted(names):
            if name.endswith(endings):
                yield os.path.join(folder, name)


def rewrite(path, turn):
    with open(path, encoding="utf-8") as f:
        before = f.read()
    after = turn(before)
    if after != before:
        with open(path, "w", encoding="utf-8") as f:
            f.write(after)


def read(path):
    with open(path, encoding="utf-8") as f:
        return f.read()


NAMES = set().union(*(own(read(p)) for p in files("crates", (".antt",)))) if os.path.isdir("crates") else set()
NAMES = {n for n in NAMES if not kept(n)}
TOKENS = {n for p in files("crates", (".antt",)) for n in re.findall(r"[\w']+", read(p))} if NAMES else set()


def renamed(text):
    """The library has a crate `hex` of its own: ours is `hex_bytes`."""
    text = re.sub(r"\bRattle\.hex\.", "Rattle.hex_bytes.", text)
    text = re.sub(r"\bhex::", "hex_bytes::", text)
    return text


def rename():
    os.rename("crates/hex", "crates/hex_bytes")
    rewrite("crates.txt", lambda text: re.sub(r"(?<![\w.])hex(?![\w.])", "hex_bytes", text))
    for path in files("crates", (".antt", ".rt", ".edit")):
        rewrite(path, renamed)


def main():
    if not NAMES:
        sys.exit("run it at the top of the repository")
    rename()
    for path in files("crates", (".antt", ".rt", ".edit")):
        rewrite(path, proof if path.endswith(".antt") else code if path.endswith(".rt") else edit)
    for path in list(files("docs", (".md",))) + ["README.md"]:
        if not path.startswith("docs/landings"):
            rewrite(path, quoted)


main()
