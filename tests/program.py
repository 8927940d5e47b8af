"""program.py PROGRAM-COMMAND...: starts the program `margins` on each input, one on each processor at a time, and compares what it prints
with the model, byte for byte."""

import os
import subprocess
import sys
import time
from collections import Counter
from concurrent.futures import ThreadPoolExecutor
from contextlib import suppress

from places import MOST_INPUTS, MOST_INSTRUCTIONS
from program_inputs import all_inputs, examples
from program_malformed import WORDS
from program_model import answer

EXAMPLE_OUTPUT = b"ok 1\ny0 9 9 4\n"
DIFFERENCES_SHOWN = 10
SHOWN = 400
MISSING_SHOWN = 20
A_WHILE = 0.05
PATIENCE = 60


def at_once(process, data):
    return process.communicate(data, PATIENCE)[0]


def in_pieces(process, data):
    """Three writes, so that a single read does not have it all."""
    third = len(data) // 3
    with suppress(BrokenPipeError):
        for piece in (data[:third], data[third : 2 * third]):
            process.stdin.write(piece)
            time.sleep(A_WHILE)
    return process.communicate(data[2 * third :], PATIENCE)[0]


def printed(command, data, way):
    """What the program prints, or none where it is killed by a signal (seen directly or through a shell) or does not end."""
    with subprocess.Popen(command, stdin=subprocess.PIPE, stdout=subprocess.PIPE, bufsize=0) as process:
        try:
            said = way(process, data)
        except subprocess.TimeoutExpired:
            process.kill()
            return None
    return said if 0 <= process.returncode < 128 else None


def runs():
    for name, data in all_inputs():
        yield name, data, at_once
    for name, data in examples():
        yield name + " in pieces", data, in_pieces


def met(data, wanted):
    """The reply without its outputs, and the same with the job that is asked for."""
    reply = "ok" if wanted.startswith(b"ok") else wanted.decode().strip()
    return {reply} | {f"{word.decode()}: {reply}" for word in WORDS if data.split(b"\n")[1:2] == [word]}


def required():
    """Each reply, but for 10, since the program's own lists are long enough; and in each job those on its readings."""
    found = {f"refused {number} 0" for number in (*range(1, 9), 12)}
    found |= {f"refused {number} {k}" for number in (11, 17) for k in range(MOST_INSTRUCTIONS)}
    for word in map(bytes.decode, WORDS):
        found |= {f"{word}: {reply}" for reply in ("ok", "refused 13 0", *(f"refused 15 {i}" for i in range(MOST_INPUTS)))}
        found |= {f"{word}: {reply}" for reply in ("refused 16 0", "refused 17 0")}
        if word != "plain":
            found |= {f"{word}: refused 14 {i}" for i in range(MOST_INPUTS)}
    return found


def main(command):
    passed = failed = 0
    replies, missing = Counter(), required()
    with ThreadPoolExecutor(os.cpu_count()) as pool:
        all_runs = [(run, pool.submit(printed, command, *run[1:])) for run in runs()]
    for (name, data, _), reply in all_runs:
        wanted, said = answer(data), reply.result()
        replies[" ".join(wanted.decode().split()[: 2 if wanted.startswith(b"refused") else 1])] += 1
        missing -= met(data, wanted)
        if said == wanted:
            passed += 1
            continue
        failed += 1
        if failed <= DIFFERENCES_SHOWN:
            said = "did not end, or was killed" if said is None else said[:SHOWN]
            print(f"{name}: {data[:SHOWN]}\n  model:   {wanted[:SHOWN]}\n  program: {said}")
    print(", ".join(f"{reply}: {count}" for reply, count in sorted(replies.items())))
    if missing:
        print(f"{len(missing)} replies that no input meets: " + "; ".join(sorted(missing)[:MISSING_SHOWN]))
    # The model itself on document 01's example; and the inputs meet what they must.
    sound = answer(list(examples())[-1][1]) == EXAMPLE_OUTPUT and not missing
    print(f"{passed + sound} passed, {failed + (not sound)} failed")
    return 0 if sound and not failed else 1


if __name__ == "__main__":
    sys.exit(main(sys.argv[1:]))
