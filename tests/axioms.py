"""What the proofs rest on: nothing, but for the kit's C functions that a program calls. Reads what `rt check` says of each
program and of each crate that C links; only there is named what is assumed."""
import re
import subprocess
import sys
from pathlib import Path

ROOT = Path(__file__).resolve().parent.parent

# Each program with exactly the kit's C functions that it reaches; a linked library reaches none.
PRINTING = {"libc::write", "os::c::__xpg_strerror_r", "os::c::rattle_errno"}
ASSUMED = {"margins": PRINTING | {"libc::read"}, "figures": PRINTING}


def sources(crate):
    return "".join(path.read_text() for path in sorted((crate / "src").rglob("*.rt")))


def differences(crate):
    checked = subprocess.run(["rt", "check"], cwd=crate, capture_output=True, text=True, stdin=subprocess.DEVNULL)
    lines = checked.stdout.splitlines()
    verdict = lines[-1] if lines else ""
    if checked.returncode or not re.search(r"^logic=proved .*\btarget=", verdict):
        yield f"no verdict on linked code: {verdict or checked.stderr}"
        return
    named = re.findall(r"^axioms \w+: (.*?) (?:\(\d+ )?of the \d+ declared\)?$", checked.stdout, re.MULTILINE)
    assumed = {name for names in named if names != "none reached" for name in names.split(", ")}
    counted = re.search(r"\baxioms=(\d+)", verdict)
    if not named or assumed != ASSUMED.get(crate.name, set()) or int(counted[1] if counted else 0) != len(assumed):
        yield f"rests on {', '.join(sorted(assumed)) or 'nothing'}: {verdict}"
    if "foreign=" in verdict:
        yield "declares C functions of its own"


def main():
    bad = []
    linked = re.findall(r"^(\w+) staticlib:", (ROOT / "crates.txt").read_text(), re.MULTILINE)
    for crate in sorted((ROOT / "crates").iterdir()):
        if re.search(r'extern\s+"C"\s*\{', sources(crate)):
            bad.append(f"{crate.name}: declares C functions of its own")
        if (crate / "src/main.rt").exists() or crate.name in linked:
            bad += [f"{crate.name}: {what}" for what in differences(crate)]
    print("".join(f"axioms: {line}\n" for line in bad), end="")
    return 1 if bad else 0


sys.exit(main())
